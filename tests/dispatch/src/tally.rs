//! What was seen. The program fails when a part of it never was.

use crate::compare::Outcome;
use crate::singly::{enough, on_ring, Kind, Rounds, Try};
use calls::model::TENTHS;
use common::program::Shown;
use common::sights::Sights;
use damaged_rings::damage::KINDS;
use vessel_ring::{Record, Ring};

/// How many rounds are given: of a ring that makes so many, at least three, so that all of these differ.
pub const GIVENS: [&str; 8] = ["0", "1", "made - 1", "made", "made + 1", "enough", "65535", "drawn"];

/// What calls have to show.
const SIGHTS: [&str; 60] = [
    "a ring of a tiny plan",
    "a ring of a drawn run",
    "a ring made by hand",
    "a packed ring",
    "a ring turned from tenths",
    "a damaged ring that is still sound",
    "refused 8: a fresh ring",
    "refused 8: nodes and channels, not started",
    "refused 8: 0 given",
    "refused 25: 0 given",
    "refused 25: a started ring with something on it",
    "refused 25: a started ring with nothing on it",
    "refused 25: where 8 would come next",
    "no round: nothing asked or offered",
    "no round: a ready channel",
    "no round: a record offered on a resting channel",
    "no round: none given, with something on the ring",
    "one node",
    "16 nodes and 64 channels",
    "spent: as many rounds as were given, something left",
    "spent: as many rounds as were given, nothing left",
    "more than 255 rounds",
    "more than four fifths of the rounds that are enough",
    "a request arrives, and its channel is left ready",
    "an entry and a move at one node in one round",
    "a message enters and moves on in one round",
    "a message enters, and another moves on at that node",
    "a message moves on twice in one round",
    "a move where the entry is refused",
    "a round with entries and no move",
    "a try refused 17",
    "a try refused 18",
    "a try refused 19",
    "a try refused 20",
    "a try refused 21",
    "deliveries: none, in more than one round",
    "deliveries: a round without one before a round with one",
    "deliveries: a round without one after a round with one, before another",
    "deliveries: not in the order of channels",
    "deliveries: two in one round",
    "deliveries: 64",
    "deliveries: on a same-node channel",
    "deliveries: the channel's next record stays offered",
    "deliveries: the ring's count stops",
    "deliveries: a name with a blank at an end, carried before the call",
    "deliveries: a name with a blank at an end, offered before the call",
    "deliveries: a temperature that is good in hundredths alone",
    "deliveries: hundredths that are no whole tenths",
    "deliveries: of a ring turned from tenths",
    "acts: a call refused with 8, before the start",
    "acts: a record delivered by a call, held by a ring that was made by hand",
    "acts: a record sent in tenths, delivered by a call",
    "acts: a record sent in hundredths, delivered by a call",
    "acts: a record matched before one call and delivered by another",
    "acts: a record delivered by a single move, after a call that made rounds",
    "acts: a channel left ready by one call, its record delivered by another",
    "acts: entries and moves behind a delivery, in one call",
    "acts: two equal records, one after the other on a channel",
    "acts: a receive undone between a match and its delivery",
    "acts: a request withdrawn that a call left in its line",
];

pub struct Tally {
    /// Calls of the dispatcher.
    pub calls: u64,
    rounds: u64,
    deliveries: u64,
    sights: Sights,
    /// The greatest part of its bound that a match took until its delivery, in thousandths.
    longest: usize,
}

/// A call that answered as it has to.
pub struct Seen<'a> {
    pub ring: &'a Ring,
    pub given: u16,
    pub outcome: &'a Outcome,
    pub rounds: Option<&'a Rounds>,
}

/// Such a name is refused by send (02's N4), but a ring may hold it.
fn has_blank_end(record: &Record) -> bool {
    let name = &record.name[..record.name_length.into()];
    name.starts_with(b" ") || name.ends_with(b" ")
}

fn given(name: &str) -> String {
    format!("given to a ring that makes at least three rounds: {name}")
}

fn damaged(kind: &str) -> String {
    format!("damaged: {kind}")
}

impl Tally {
    pub fn new() -> Tally {
        let givens = GIVENS.iter().map(|name| given(name));
        let damage = KINDS.iter().map(|kind| damaged(kind.name));
        let sights = Sights::of(SIGHTS.map(String::from).into_iter().chain(givens).chain(damage));
        Tally { calls: 0, rounds: 0, deliveries: 0, sights, longest: 0 }
    }

    pub fn see(&mut self, holds: bool, name: &str) {
        self.sights.see(holds, name);
    }

    pub fn given(&mut self, name: &str) {
        self.see(true, &given(name));
    }

    pub fn damaged(&mut self, kind: usize) {
        self.see(true, &damaged(KINDS[kind].name));
    }

    pub fn counted(&mut self, counted: usize, bound: usize) {
        self.longest = self.longest.max(counted * 1000 / bound);
    }

    pub fn call(&mut self, seen: &Seen) {
        self.calls += 1;
        self.rounds += u64::from(seen.outcome.answer.rounds);
        self.deliveries += u64::from(seen.outcome.answer.count);
        match (seen.outcome.answer.refusal, seen.rounds) {
            (0, Some(rounds)) => self.accepted(seen, rounds),
            (refusal, _) => self.refused(seen, refusal),
        }
    }

    fn refused(&mut self, seen: &Seen, refusal: u8) {
        let ring = seen.ring;
        let started = ring.started == 1;
        self.see(refusal == 8 && *ring == Ring::fresh(), "refused 8: a fresh ring");
        self.see(refusal == 8 && ring.node_count > 0 && ring.channel_count > 0, "refused 8: nodes and channels, not started");
        self.see(refusal == 8 && seen.given == 0, "refused 8: 0 given");
        self.see(refusal == 25 && seen.given == 0, "refused 25: 0 given");
        self.see(refusal == 25 && started && on_ring(ring) > 0, "refused 25: a started ring with something on it");
        self.see(refusal == 25 && started && on_ring(ring) == 0, "refused 25: a started ring with nothing on it");
        self.see(refusal == 25 && ring.started == 0, "refused 25: where 8 would come next");
    }

    fn accepted(&mut self, seen: &Seen, rounds: &Rounds) {
        let (ring, answer, after) = (seen.ring, &seen.outcome.answer, &seen.outcome.after);
        let made = usize::from(answer.rounds);
        let some_phase = |ring: &Ring, phase: u8| ring.phases.contains(&phase);
        let offered = ring.offered.contains(&1);
        let idle = made == 0 && seen.given > 0;
        self.see(idle && !offered && !some_phase(ring, 2), "no round: nothing asked or offered");
        self.see(idle && some_phase(ring, 2), "no round: a ready channel");
        self.see(idle && (0..64).any(|k| ring.phases[k] == 0 && ring.offered[k] == 1), "no round: a record offered on a resting channel");
        self.see(made == 0 && on_ring(ring) > 0, "no round: none given, with something on the ring");
        self.see(made > 0 && ring.node_count == 1, "one node");
        self.see(made > 0 && (ring.node_count, ring.channel_count) == (16, 64), "16 nodes and 64 channels");
        let spent = made > 0 && answer.rounds == seen.given;
        self.see(spent && on_ring(after) > 0, "spent: as many rounds as were given, something left");
        self.see(spent && on_ring(after) == 0, "spent: as many rounds as were given, nothing left");
        self.see(made > 255, "more than 255 rounds");
        self.see(made * 5 > enough(ring) * 4, "more than four fifths of the rounds that are enough");
        let readied = (0..64).any(|k| ring.phases[k] == 1 && after.phases[k] == 2);
        self.see(readied, "a request arrives, and its channel is left ready");
        rounds.rounds[..made].iter().for_each(|round| self.round(round));
        self.deliveries(seen, &rounds.rounds[..made]);
    }

    /// The tries of a round.
    fn round(&mut self, round: &[Try]) {
        let entered = |tried: &&Try| tried.kind == Kind::Entry && tried.refusal == 0;
        let moved = |tried: &&Try| tried.kind == Kind::Move && tried.refusal == 0;
        for pair in round.chunks_exact(2) {
            let (entry, a_move) = (&pair[0], &pair[1]);
            let both = entry.refusal == 0 && a_move.refusal == 0;
            self.see(both, "an entry and a move at one node in one round");
            self.see(both && entry.message == a_move.message, "a message enters and moves on in one round");
            self.see(both && entry.message != a_move.message, "a message enters, and another moves on at that node");
            self.see(entry.refusal != 0 && a_move.refusal == 0, "a move where the entry is refused");
        }
        let passes = |one: &Try| round.iter().filter(moved).filter(|other| other.message == one.message).count();
        self.see(round.iter().filter(moved).any(|one| passes(one) > 1), "a message moves on twice in one round");
        self.see(round.iter().any(|one| entered(&one)) && !round.iter().any(|one| moved(&one)), "a round with entries and no move");
        for (refusal, name) in [
            (17, "a try refused 17"),
            (18, "a try refused 18"),
            (19, "a try refused 19"),
            (20, "a try refused 20"),
            (21, "a try refused 21"),
        ] {
            self.see(round.iter().any(|one| one.refusal == refusal), name);
        }
    }

    fn deliveries(&mut self, seen: &Seen, rounds: &[Vec<Try>]) {
        let (ring, answer, after) = (seen.ring, &seen.outcome.answer, &seen.outcome.after);
        let counts: Vec<usize> = rounds.iter().map(|round| round.iter().filter(|one| one.delivery.is_some()).count()).collect();
        let with: Vec<usize> = (0..counts.len()).filter(|&at| counts[at] > 0).collect();
        let channels: Vec<usize> = answer.deliveries().map(|(channel, _)| channel.into()).collect();
        self.see(channels.is_empty() && rounds.len() > 1, "deliveries: none, in more than one round");
        self.see(with.first().is_some_and(|&at| at > 0), "deliveries: a round without one before a round with one");
        let gap = with.windows(2).any(|pair| pair[1] > pair[0] + 1);
        self.see(gap, "deliveries: a round without one after a round with one, before another");
        self.see(channels.windows(2).any(|pair| pair[0] > pair[1]), "deliveries: not in the order of channels");
        self.see(counts.iter().any(|&count| count > 1), "deliveries: two in one round");
        self.see(channels.len() == 64, "deliveries: 64");
        self.see(channels.iter().any(|&k| ring.senders[k] == ring.receivers[k]), "deliveries: on a same-node channel");
        self.see(channels.iter().any(|&k| after.offered[k] == 1), "deliveries: the channel's next record stays offered");
        let stopped = u64::from(ring.deliveries) + channels.len() as u64 > u64::from(u32::MAX);
        self.see(stopped, "deliveries: the ring's count stops");
        let temperatures = || answer.deliveries().map(|(_, record)| record.temperature);
        let no_tenths = temperatures().any(|temperature| !TENTHS.contains(&temperature));
        self.see(no_tenths, "deliveries: a temperature that is good in hundredths alone");
        self.see(temperatures().any(|temperature| temperature % 10 != 0), "deliveries: hundredths that are no whole tenths");
        for (channel, _) in answer.deliveries().filter(|(_, record)| has_blank_end(record)) {
            let carried = ring.phases[usize::from(channel)] == 3;
            self.see(carried, "deliveries: a name with a blank at an end, carried before the call");
            self.see(!carried, "deliveries: a name with a blank at an end, offered before the call");
        }
    }

    pub fn shown(&self) -> Shown {
        let Tally { calls, rounds, deliveries, longest, .. } = self;
        let figures =
            format!("{calls} calls, {rounds} rounds, {deliveries} deliveries; a match took at most {longest} thousandths of its bound");
        Shown { figures, sights: self.sights.clone() }
    }
}
