//! The tape program of document 01 by the model with queues: a tape in, its listing out.

use crate::model::{Answer, Network};
use crate::tape::{self, Read};
use std::fmt::Write;

/// "takes a tape of at most 60,000 bytes"
pub const TAPE_LIMIT: usize = 60_000;
/// The refusals have numbers up to 30.
pub const NUMBERS: usize = 31;

/// A tape's listing, and what is counted of it.
pub struct Listing {
    pub text: String,
    pub too_long: bool,
    pub deliveries: u64,
    /// How often each refusal was answered; place 0 has what was accepted.
    pub answers: [u64; NUMBERS],
}

impl Listing {
    /// Runs a tape from a fresh ring.
    pub fn of(tape: &[u8]) -> Listing {
        let mut listing = Listing { text: String::new(), too_long: tape.len() > TAPE_LIMIT, deliveries: 0, answers: [0; NUMBERS] };
        if listing.too_long {
            listing.text += "too long\n";
            return listing;
        }
        let mut network = Network::default();
        let mut place = 0;
        loop {
            match tape::read(tape, place) {
                Read::End => break,
                Read::Command(call, next) => {
                    listing.line(tape[place], network.call(call));
                    place = next;
                }
                // "A command that ends with refusal 22 or 23 has its line and counts as refused, and the program reads no further."
                Read::Refused(number) => {
                    listing.line(tape[place], Answer::Refused(number));
                    break;
                }
            }
        }
        let (accepted, refused) = (listing.answers[0], listing.answers[1..].iter().sum::<u64>());
        listing.put(format_args!("end {accepted} {refused}\n"));
        listing
    }

    pub fn commands(&self) -> u64 {
        self.answers.iter().sum()
    }

    /// "its number from 1, the command byte in two small hexadecimal digits, the refusal or 0", and what a delivery has behind that.
    fn line(&mut self, byte: u8, answer: Answer) {
        let number = answer.number();
        self.answers[usize::from(number)] += 1;
        let count = self.commands();
        self.put(format_args!("{count} {byte:02x} {number}"));
        if let Answer::Delivered(channel, record) = answer {
            self.deliveries += 1;
            self.put(format_args!(" delivered {channel} {} {} {} {}", record.batch, record.vessel, record.temperature, record.length));
            if record.length > 0 {
                let name = &record.name[..record.length.into()];
                self.put(format_args!(" {}", String::from_utf8_lossy(name)));
            }
        }
        self.text.push('\n');
    }

    fn put(&mut self, words: std::fmt::Arguments) {
        self.text.write_fmt(words).expect("a string takes every text");
    }
}
