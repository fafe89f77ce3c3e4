//! The tape program of document 01 as a function: a tape in, its listing out.

use crate::ring::{Delivery, Refusal, Ring, REFUSAL_NUMBERS};
use crate::tape::{self, Command, Read};

/// "takes a tape of at most 60,000 bytes"
pub const TAPE_LIMIT: usize = 60_000;
/// "A longer tape prints `too long` and nothing else." Read as a line, ended by
/// 0A as the other lines are.
pub const TOO_LONG: &[u8] = b"too long\n";
/// "the ten bytes ` delivered`"
const DELIVERED: &[u8; 10] = b" delivered";

/// No listing is longer: a line has at least one byte of tape and, without a
/// delivery, at most 12 bytes; a delivery has a send of 42 bytes and adds at
/// most 70; the last line has at most 16.
pub const LISTING_LIMIT: usize = TAPE_LIMIT * 12 + (TAPE_LIMIT / 42 + 1) * 70 + 16;

/// What a tape did, for the comparison's totals.
#[derive(Clone, Copy, PartialEq, Eq, Debug)]
pub struct Totals {
    pub too_long: bool,
    pub accepted: u32,
    pub refused: u32,
    pub delivered: u32,
    /// How often each refusal number was answered.
    pub refusals: [u32; REFUSAL_NUMBERS],
}

/// Runs a tape from a fresh ring and puts its listing behind what `out` holds.
pub fn run(tape: &[u8], out: &mut Vec<u8>) -> Totals {
    let mut totals = Totals { too_long: false, accepted: 0, refused: 0, delivered: 0, refusals: [0; REFUSAL_NUMBERS] };
    if tape.len() > TAPE_LIMIT {
        totals.too_long = true;
        out.extend_from_slice(TOO_LONG);
        return totals;
    }
    let mut ring = Ring::fresh();
    let mut place = 0;
    loop {
        match tape::read(tape, place) {
            Ok(Read::End) => break,
            Ok(Read::Command(command, next)) => {
                let answer = apply(&mut ring, &command);
                print_command(out, &mut totals, command.byte(), &answer);
                place = next;
            }
            // "A command that ends with refusal 22 or 23 has its line and counts
            // as refused, and the program reads no further."
            Err(refusal) => {
                print_command(out, &mut totals, tape[place], &Err(refusal));
                break;
            }
        }
    }
    // "The last line is `end`, accepted, refused."
    out.extend_from_slice(b"end");
    print_number(out, totals.accepted);
    print_number(out, totals.refused);
    out.push(b'\n');
    totals
}

/// Makes the ring call that a command stands for.
pub fn apply(ring: &mut Ring, command: &Command) -> Result<Option<Delivery>, Refusal> {
    match command {
        Command::AddNode { slots } => ring.add_node(*slots)?,
        Command::AddChannel { sender, receiver } => ring.add_channel(*sender, *receiver)?,
        Command::Start => ring.start()?,
        Command::Receive(channel) => ring.receive(*channel)?,
        Command::Send(channel, fields) => ring.send(*channel, fields)?,
        Command::Enter(node) => ring.enter_at(*node)?,
        Command::Move(node) => return ring.move_at(*node),
        Command::Withdraw(channel) => ring.withdraw(*channel)?,
    }
    Ok(None)
}

/// "a line ... for each command: its number from 1, the command byte in two
/// small hexadecimal digits, the refusal or 0"
fn print_command(out: &mut Vec<u8>, totals: &mut Totals, byte: u8, answer: &Result<Option<Delivery>, Refusal>) {
    print_digits(out, totals.accepted + totals.refused + 1);
    out.push(b' ');
    out.push(hexadecimal_digit(byte >> 4));
    out.push(hexadecimal_digit(byte & 15));
    match answer {
        Ok(delivery) => {
            totals.accepted += 1;
            print_number(out, 0);
            if let Some(delivery) = delivery {
                totals.delivered += 1;
                print_delivery(out, delivery);
            }
        }
        Err(refusal) => {
            totals.refused += 1;
            totals.refusals[*refusal as usize] += 1;
            print_number(out, *refusal as u32);
        }
    }
    out.push(b'\n');
}

/// "then channel, batch number, vessel, temperature, name length and, unless
/// empty, name, each after a space". 02, N5: "History and listing show hundredths".
fn print_delivery(out: &mut Vec<u8>, delivery: &Delivery) {
    let record = &delivery.record;
    out.extend_from_slice(DELIVERED);
    print_number(out, delivery.channel.0 as u32);
    print_number(out, record.number.0);
    print_number(out, record.vessel as u32);
    out.push(b' ');
    if record.temperature < 0 {
        out.push(b'-');
    }
    print_digits(out, record.temperature.unsigned_abs() as u32);
    print_number(out, record.length as u32);
    if record.length > 0 {
        out.push(b' ');
        out.extend_from_slice(&record.name[..record.length as usize]);
    }
}

fn hexadecimal_digit(value: u8) -> u8 {
    b"0123456789abcdef"[value as usize]
}

fn print_number(out: &mut Vec<u8>, value: u32) {
    out.push(b' ');
    print_digits(out, value);
}

/// "Numbers but the command byte are decimal."
fn print_digits(out: &mut Vec<u8>, mut value: u32) {
    let mut digits = [0; 10];
    let mut first = digits.len();
    loop {
        first -= 1;
        digits[first] = b'0' + (value % 10) as u8;
        value /= 10;
        if value == 0 {
            break;
        }
    }
    out.extend_from_slice(&digits[first..]);
}
