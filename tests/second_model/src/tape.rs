//! The command tape: "One command byte (hexadecimal), then operands, low byte
//! first". `read` and `write` are each other's inverse.

use crate::ring::{BatchNumber, ChannelNumber, Fields, NodeNumber, Refusal, Unit};

/// A send is 21 or 25, by the unit of its fields. 02, N5: "A command that was read
/// keeps its own unit and is written back as the command it was read as."
#[derive(Clone, Copy, PartialEq, Eq, Debug)]
pub enum Command {
    AddNode { slots: u8 },
    AddChannel { sender: NodeNumber, receiver: NodeNumber },
    Start,
    Receive(ChannelNumber),
    Send(ChannelNumber, Fields),
    Enter(NodeNumber),
    Move(NodeNumber),
    Withdraw(ChannelNumber),
}

pub const ADD_NODE: u8 = 0x10;
pub const ADD_CHANNEL: u8 = 0x11;
pub const START: u8 = 0x12;
pub const RECEIVE: u8 = 0x20;
pub const SEND_TENTHS: u8 = 0x21;
pub const ENTER: u8 = 0x22;
pub const MOVE: u8 = 0x23;
/// 02, N1: "command 24 (hexadecimal ...; its operand is the channel, one byte)".
pub const WITHDRAW: u8 = 0x24;
/// 02, N5: "Command 25 has the fields of command 21 with hundredths".
pub const SEND_HUNDREDTHS: u8 = 0x25;

/// The largest width: command byte, then "channel 1, batch number 4, vessel 1,
/// temperature 2, name length 1, name 32".
pub const SEND_WIDTH: usize = 42;

/// How many bytes a command has, its command byte among them.
pub fn width(command_byte: u8) -> Option<usize> {
    match command_byte {
        START => Some(1),
        ADD_NODE | RECEIVE | ENTER | MOVE | WITHDRAW => Some(2),
        ADD_CHANNEL => Some(3),
        SEND_TENTHS | SEND_HUNDREDTHS => Some(SEND_WIDTH),
        _ => None,
    }
}

impl Command {
    pub fn byte(&self) -> u8 {
        match self {
            Command::AddNode { .. } => ADD_NODE,
            Command::AddChannel { .. } => ADD_CHANNEL,
            Command::Start => START,
            Command::Receive(_) => RECEIVE,
            Command::Send(_, fields) => match fields.unit {
                Unit::Tenths => SEND_TENTHS,
                Unit::Hundredths => SEND_HUNDREDTHS,
            },
            Command::Enter(_) => ENTER,
            Command::Move(_) => MOVE,
            Command::Withdraw(_) => WITHDRAW,
        }
    }

    pub fn width(&self) -> usize {
        width(self.byte()).expect("each command has a width")
    }
}

/// What the reader answers when it does not refuse.
#[derive(Clone, Copy, PartialEq, Eq, Debug)]
pub enum Read {
    End,
    /// The command and the place after it.
    Command(Command, usize),
}

/// "Read a command (bytes, place): 24 place beyond the length; place equal to
/// the length answers "end"; 22 unknown command byte; 23 fewer bytes left than
/// its width."
pub fn read(bytes: &[u8], place: usize) -> Result<Read, Refusal> {
    let left = bytes.get(place..).ok_or(Refusal::PlaceBeyond)?;
    let Some(&byte) = left.first() else {
        return Ok(Read::End);
    };
    let width = width(byte).ok_or(Refusal::UnknownCommand)?;
    let operands = left.get(1..width).ok_or(Refusal::CommandCut)?;
    let command = match byte {
        ADD_NODE => Command::AddNode { slots: operands[0] },
        ADD_CHANNEL => Command::AddChannel { sender: NodeNumber(operands[0]), receiver: NodeNumber(operands[1]) },
        START => Command::Start,
        RECEIVE => Command::Receive(ChannelNumber(operands[0])),
        SEND_TENTHS => send(operands, Unit::Tenths),
        SEND_HUNDREDTHS => send(operands, Unit::Hundredths),
        ENTER => Command::Enter(NodeNumber(operands[0])),
        MOVE => Command::Move(NodeNumber(operands[0])),
        _ => Command::Withdraw(ChannelNumber(operands[0])),
    };
    Ok(Read::Command(command, place + width))
}

fn send(operands: &[u8], unit: Unit) -> Command {
    let bytes = &operands[1..];
    let fields = Fields {
        unit,
        number: BatchNumber(u32::from_le_bytes([bytes[0], bytes[1], bytes[2], bytes[3]])),
        vessel: bytes[4],
        temperature: i16::from_le_bytes([bytes[5], bytes[6]]),
        length: bytes[7],
        name: bytes[8..40].try_into().expect("32 bytes"),
    };
    Command::Send(ChannelNumber(operands[0]), fields)
}

/// "Write a command (bytes, place): 24; 26 fewer bytes from there than its
/// width. The writer takes every operand value, and writes only the part of the
/// lent buffer that begins at the given place, as long as the command." The
/// answer is the place after the command.
pub fn write(command: &Command, bytes: &mut [u8], place: usize) -> Result<usize, Refusal> {
    let left = bytes.get_mut(place..).ok_or(Refusal::PlaceBeyond)?;
    let width = command.width();
    let part = left.get_mut(..width).ok_or(Refusal::NoRoomToWrite)?;
    part[0] = command.byte();
    match *command {
        Command::AddNode { slots } => part[1] = slots,
        Command::AddChannel { sender, receiver } => {
            part[1] = sender.0;
            part[2] = receiver.0;
        }
        Command::Start => {}
        Command::Receive(channel) | Command::Withdraw(channel) => part[1] = channel.0,
        Command::Send(channel, ref fields) => {
            part[1] = channel.0;
            write_fields(fields, &mut part[2..]);
        }
        Command::Enter(node) | Command::Move(node) => part[1] = node.0,
    }
    Ok(place + width)
}

/// All but the unit, which the command byte tells.
fn write_fields(fields: &Fields, bytes: &mut [u8]) {
    bytes[0..4].copy_from_slice(&fields.number.0.to_le_bytes());
    bytes[4] = fields.vessel;
    bytes[5..7].copy_from_slice(&fields.temperature.to_le_bytes());
    bytes[7] = fields.length;
    bytes[8..40].copy_from_slice(&fields.name);
}
