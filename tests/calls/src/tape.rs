//! The command tape of document 01, with command 24 of 02's N1 and 25 of its N5: read a command, write a command.

use crate::form::{record_bytes, record_in};
use crate::model::{Call, Record};

#[derive(Clone, Copy, PartialEq, Eq, Debug)]
pub enum Read {
    Command(Call, usize),
    End,
    Refused(u8),
}

/// "One command byte (hexadecimal), then operands, low byte first"
pub fn command_bytes(call: Call) -> Option<Vec<u8>> {
    Some(match call {
        Call::AddNode(slots) => vec![0x10, slots],
        Call::AddChannel(sender, receiver) => vec![0x11, sender, receiver],
        Call::Start => vec![0x12],
        Call::Receive(channel) => vec![0x20, channel],
        Call::SendTenths(channel, record) => [&[0x21, channel], record_bytes(&record).as_slice()].concat(),
        Call::Send(channel, record) => [&[0x25, channel], record_bytes(&record).as_slice()].concat(),
        Call::Enter(node) => vec![0x22, node],
        Call::Move(node) => vec![0x23, node],
        Call::Withdraw(channel) => vec![0x24, channel],
        Call::HopsLeft(_) | Call::WaitingSet(_) => return None,
    })
}

pub fn read(tape: &[u8], place: usize) -> Read {
    if place > tape.len() {
        return Read::Refused(24);
    }
    let bytes = &tape[place..];
    let Some(code) = bytes.first() else {
        return Read::End;
    };
    let width = match code {
        0x10 | 0x20 | 0x22 | 0x23 | 0x24 => 2,
        0x11 => 3,
        0x12 => 1,
        0x21 | 0x25 => 42,
        _ => return Read::Refused(22),
    };
    if bytes.len() < width {
        return Read::Refused(23);
    }
    let call = match code {
        0x10 => Call::AddNode(bytes[1]),
        0x11 => Call::AddChannel(bytes[1], bytes[2]),
        0x12 => Call::Start,
        0x20 => Call::Receive(bytes[1]),
        0x21 => Call::SendTenths(bytes[1], record_of(&bytes[2..42])),
        0x22 => Call::Enter(bytes[1]),
        0x23 => Call::Move(bytes[1]),
        0x24 => Call::Withdraw(bytes[1]),
        _ => Call::Send(bytes[1], record_of(&bytes[2..42])),
    };
    Read::Command(call, place + width)
}

fn record_of(bytes: &[u8]) -> Record {
    record_in(bytes.try_into().expect("40 bytes"))
}

/// The place behind the command, or the refusal.
pub fn write(tape: &mut [u8], place: usize, command: &[u8]) -> Result<usize, u8> {
    let room = tape.len().checked_sub(place).ok_or(24)?;
    if room < command.len() {
        return Err(26);
    }
    let next = place + command.len();
    tape[place..next].copy_from_slice(command);
    Ok(next)
}
