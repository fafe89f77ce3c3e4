//! What a tape shows of withdrawals, of the ends of names and of the two units, seen
//! by following it once more. It is apart from the listing, so that the listing costs
//! what it did.

use crate::listing::{apply, TAPE_LIMIT};
use crate::ring::{Channel, ChannelNumber, Delivery, Fields, NodeNumber, Refusal, Ring, Unit, ANSWERING, ASKING, BLANK, CHANNELS, SLOTS};
use crate::tape::{self, Command, Read};
use common::sights::Sights;
use std::collections::VecDeque;

#[derive(Clone, Copy, PartialEq, Eq, Debug, Default)]
pub struct Withdrawals {
    /// How many were accepted.
    pub accepted: u32,
    /// Those that left a marked line empty, so that its mark went.
    pub marks_cleared: u32,
    /// Those that took the first out of a marked line with others behind it, so
    /// that its mark stayed.
    pub marks_kept: u32,
    /// Moves that were 21 and then accepted, with withdrawals between and no
    /// other accepted command: so the withdrawals freed them.
    pub freed_moves: u32,
    /// The most receives that were made and undone between one match and its
    /// delivery.
    pub most_undone: u32,
}

impl Withdrawals {
    /// What several tapes show.
    pub fn add(&mut self, other: &Withdrawals) {
        self.accepted += other.accepted;
        self.marks_cleared += other.marks_cleared;
        self.marks_kept += other.marks_kept;
        self.freed_moves += other.freed_moves;
        self.most_undone = self.most_undone.max(other.most_undone);
    }
}

/// A record that waits for its delivery: since which command it is matched, and
/// how many receives were made and undone since.
#[derive(Clone, Copy)]
struct Match {
    since: usize,
    undone: u32,
}

struct Watch {
    seen: Withdrawals,
    /// How many commands were seen.
    commands: usize,
    matches: [Option<Match>; CHANNELS],
    /// The command that was the channel's last accepted receive.
    received: [usize; CHANNELS],
    /// The node whose move was 21, with nothing accepted since but withdrawals,
    /// and whether there was one.
    blocked: Option<(NodeNumber, bool)>,
}

/// Follows a tape from a fresh ring, as far as it is run: `make` gets the ring and
/// makes the command's call on it.
fn follow(tape: &[u8], mut make: impl FnMut(&mut Ring, &Command)) {
    let mut ring = Ring::fresh();
    let mut place = 0;
    let run = if tape.len() > TAPE_LIMIT { &[] } else { tape };
    while let Ok(Read::Command(command, next)) = tape::read(run, place) {
        make(&mut ring, &command);
        place = next;
    }
}

/// What a tape shows of withdrawals.
pub fn withdrawals(tape: &[u8]) -> Withdrawals {
    let mut watch = Watch { seen: Withdrawals::default(), commands: 0, matches: [None; CHANNELS], received: [0; CHANNELS], blocked: None };
    follow(tape, |ring, command| {
        let waiting = marked_line(ring, command);
        let answer = apply(ring, command);
        watch.commands += 1;
        watch.look_at_turns(command, &answer);
        if let Ok(delivery) = answer {
            watch.seen.marks_cleared += (waiting == 1) as u32;
            watch.seen.marks_kept += (waiting > 1) as u32;
            watch.look_at_matches(ring, command, delivery);
        }
    });
    watch.seen
}

/// How long the line is whose first message a withdrawal would take out, if the
/// turn mark there is set; else, and for another command, 0.
fn marked_line(ring: &Ring, command: &Command) -> u8 {
    let Command::Withdraw(number) = *command else {
        return 0;
    };
    let receiver = |channel: &Channel| channel.receiver.0 as usize;
    let at = ring.channels.get(number.0 as usize).map_or(0, receiver);
    let first = ring.lines[at * SLOTS] as usize == number.0 as usize + 1;
    if first && ring.nodes[at].turn_mark == 1 {
        ring.nodes[at].line_length
    } else {
        0
    }
}

impl Watch {
    fn look_at_turns(&mut self, command: &Command, answer: &Result<Option<Delivery>, Refusal>) {
        match (command, answer, self.blocked) {
            (Command::Move(at), Err(Refusal::TurnMarkSet), _) => self.blocked = Some((*at, false)),
            (_, Err(_), _) => {}
            (Command::Withdraw(_), Ok(_), Some((at, _))) => self.blocked = Some((at, true)),
            (Command::Move(at), Ok(_), Some((blocked, true))) if *at == blocked => {
                self.seen.freed_moves += 1;
                self.blocked = None;
            }
            _ => self.blocked = None,
        }
    }

    /// An accepted command and the ring after it.
    fn look_at_matches(&mut self, ring: &Ring, command: &Command, delivery: Option<Delivery>) {
        match *command {
            Command::Receive(channel) => {
                self.received[channel.0 as usize] = self.commands;
                self.match_on(ring, channel);
            }
            Command::Send(channel, _) => self.match_on(ring, channel),
            Command::Withdraw(channel) => self.undo(channel),
            _ => {}
        }
        let delivered = delivery.and_then(|made| self.matches[made.channel.0 as usize].take());
        if let Some(matched) = delivered {
            self.seen.most_undone = self.seen.most_undone.max(matched.undone);
        }
    }

    /// "Matched ...: on a channel that is asking ... with a record offered, that
    /// record; on a channel that is answering, the record carried." A channel
    /// that was matched before stays so: its next record has to wait.
    fn match_on(&mut self, ring: &Ring, number: ChannelNumber) {
        let channel = &ring.channels[number.0 as usize];
        let asking = channel.phase == ASKING && !channel.offer.is_none();
        if asking || channel.phase == ANSWERING {
            self.matches[number.0 as usize].get_or_insert(Match { since: self.commands, undone: 0 });
        }
    }

    fn undo(&mut self, number: ChannelNumber) {
        self.seen.accepted += 1;
        self.matches[number.0 as usize] = None;
        let received = self.received[number.0 as usize];
        for matched in self.matches.iter_mut().flatten() {
            matched.undone += (received > matched.since) as u32;
        }
    }
}

/// What sends have to show of the ends of names (02, N4).
pub const NAME_SIGHTS: [&str; 10] = [
    "30 for a blank first, not last",
    "30 for a blank last, not first",
    "30 for a blank first and last, in a longer name",
    "30 for a name of one blank",
    "30 for a name of 32 characters",
    "30 with a record offered, where 15 applies too",
    "14 for a name with a blank end, where 30 applies too",
    "0 for an empty name",
    "0 for a name of 32 characters",
    "0 for a name with a blank inside only",
];

/// A send's name, by its length and cells, whether a record was offered before,
/// and the refusal or 0: counts each of `NAME_SIGHTS` that it shows. A length over 32
/// is 13 and says nothing of ends.
pub fn look_at_name(sights: &mut Sights, length: u8, cells: &[u8; 32], offered: bool, answer: u8) {
    let Some(name) = cells.get(..length as usize) else {
        return;
    };
    let (first, last) = (name.starts_with(&[BLANK]), name.ends_with(&[BLANK]));
    let mut see = |number: u8, holds: bool, name: &str| sights.see(answer == number && holds, name);
    see(30, first && !last, "30 for a blank first, not last");
    see(30, last && !first, "30 for a blank last, not first");
    see(30, first && last && name.len() > 1, "30 for a blank first and last, in a longer name");
    see(30, name.len() == 1, "30 for a name of one blank");
    see(30, name.len() == 32, "30 for a name of 32 characters");
    see(30, offered, "30 with a record offered, where 15 applies too");
    see(14, first || last, "14 for a name with a blank end, where 30 applies too");
    see(0, name.is_empty(), "0 for an empty name");
    see(0, name.len() == 32, "0 for a name of 32 characters");
    see(0, !first && !last && name.contains(&BLANK), "0 for a name with a blank inside only");
}

/// What a tape shows of the ends of names.
pub fn names(tape: &[u8]) -> Sights {
    let mut seen = Sights::of(NAME_SIGHTS);
    follow(tape, |ring, command| {
        let offered = |number: &ChannelNumber| ring.channels.get(number.0 as usize).is_some_and(|channel| !channel.offer.is_none());
        let send = match command {
            Command::Send(number, fields) => Some((fields, offered(number))),
            _ => None,
        };
        let answer = number_of(&apply(ring, command));
        if let Some((fields, offered)) = send {
            look_at_name(&mut seen, fields.length, &fields.name, offered, answer);
        }
    });
    seen
}

/// The refusal's number, or 0.
fn number_of(answer: &Result<Option<Delivery>, Refusal>) -> u8 {
    answer.map_or_else(|refusal| refusal as u8, |_| 0)
}

/// What sends have to show of temperatures in both units (02, N5). Where 12 is
/// answered the channel is there and the batch number good.
pub const TEMPERATURE_SIGHTS: [&str; 24] = [
    "21: 0 for 1200",
    "21: 0 for -400",
    "21: 12 for 1201",
    "21: 12 for -401",
    "21: 12 for 3276, ten times as many just fit 16 bits",
    "21: 12 for 3277, ten times as many do not",
    "21: 12 for -3277, ten times as many do not",
    "21: 12 where ten times as many, cut to 16 bits, are in range",
    "21: 12 for a temperature that is good in hundredths",
    "21: 8 where 12 applies too",
    "21: 9 where 12 applies too",
    "21: 11 where 12 applies too",
    "21: 12 where 13 applies too",
    "25: 0 for 12000",
    "25: 0 for -4000",
    "25: 12 for 12001",
    "25: 12 for -4001",
    "25: 0 for 1201, out of range in tenths",
    "25: 0 for -401, out of range in tenths",
    "25: 0 for hundredths that are no whole tenths",
    "25: 8 where 12 applies too",
    "25: 9 where 12 applies too",
    "25: 11 where 12 applies too",
    "25: 12 where 13 applies too",
];

/// How often sends showed each of `TEMPERATURE_SIGHTS`, how many were accepted, and
/// how often records sent in both units were delivered on one tape.
#[derive(Clone, PartialEq, Eq, Debug)]
pub struct Temperatures {
    pub sights: Sights,
    pub accepted: [u32; Unit::ALL.len()],
    pub both_delivered: u32,
}

impl Default for Temperatures {
    fn default() -> Temperatures {
        Temperatures { sights: Sights::of(TEMPERATURE_SIGHTS), accepted: [0; Unit::ALL.len()], both_delivered: 0 }
    }
}

impl Temperatures {
    /// What several tapes show.
    pub fn add(&mut self, other: &Temperatures) {
        self.sights.add(&other.sights);
        self.accepted.iter_mut().zip(other.accepted).for_each(|(sum, count)| *sum += count);
        self.both_delivered += other.both_delivered;
    }

    /// A send's fields, and the refusal or 0.
    pub fn look(&mut self, fields: &Fields, answer: u8) {
        let value = fields.temperature;
        let out = !fields.unit.range().contains(&value);
        let long = fields.length > 32;
        let good = Unit::Hundredths.range();
        let mut see = |number: u8, holds: bool, name: &str| self.sights.see(answer == number && holds, name);
        match fields.unit {
            Unit::Tenths => {
                see(0, value == 1200, "21: 0 for 1200");
                see(0, value == -400, "21: 0 for -400");
                see(12, value == 1201, "21: 12 for 1201");
                see(12, value == -401, "21: 12 for -401");
                see(12, value == 3276, "21: 12 for 3276, ten times as many just fit 16 bits");
                see(12, value == 3277, "21: 12 for 3277, ten times as many do not");
                see(12, value == -3277, "21: 12 for -3277, ten times as many do not");
                let wraps = good.contains(&value.wrapping_mul(10));
                see(12, wraps, "21: 12 where ten times as many, cut to 16 bits, are in range");
                see(12, good.contains(&value), "21: 12 for a temperature that is good in hundredths");
                see(8, out, "21: 8 where 12 applies too");
                see(9, out, "21: 9 where 12 applies too");
                see(11, out, "21: 11 where 12 applies too");
                see(12, long, "21: 12 where 13 applies too");
            }
            Unit::Hundredths => {
                see(0, value == 12000, "25: 0 for 12000");
                see(0, value == -4000, "25: 0 for -4000");
                see(12, value == 12001, "25: 12 for 12001");
                see(12, value == -4001, "25: 12 for -4001");
                see(0, value == 1201, "25: 0 for 1201, out of range in tenths");
                see(0, value == -401, "25: 0 for -401, out of range in tenths");
                see(0, value % 10 != 0, "25: 0 for hundredths that are no whole tenths");
                see(8, out, "25: 8 where 12 applies too");
                see(9, out, "25: 9 where 12 applies too");
                see(11, out, "25: 11 where 12 applies too");
                see(12, long, "25: 12 where 13 applies too");
            }
        }
        self.accepted[fields.unit as usize] += (answer == 0) as u32;
    }
}

/// What a tape shows of temperatures in both units.
pub fn temperatures(tape: &[u8]) -> Temperatures {
    let mut seen = Temperatures::default();
    // The units of the records that each channel was given and has not delivered.
    let mut held: [VecDeque<Unit>; CHANNELS] = std::array::from_fn(|_| VecDeque::new());
    let mut delivered = Vec::new();
    follow(tape, |ring, command| {
        let answer = apply(ring, command);
        if let Command::Send(number, fields) = command {
            seen.look(fields, number_of(&answer));
            if answer.is_ok() {
                held[number.0 as usize].push_back(fields.unit);
            }
        }
        if let Ok(Some(delivery)) = answer {
            delivered.extend(held[delivery.channel.0 as usize].pop_front());
        }
    });
    seen.both_delivered = Unit::ALL.iter().all(|unit| delivered.contains(unit)) as u32;
    seen
}
