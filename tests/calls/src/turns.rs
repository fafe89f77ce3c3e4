//! Rings held in tenths, turned into hundredths: request N5 of document 02. The library's call against both models, and what has to be seen
//! of it.

use calls::form::{self, record_in};
use calls::model::{Record, HUNDREDTHS, TENTHS};
use calls::second;
use common::layout::{first_difference, put_temperature};
use common::sights::Sights;
use std::collections::VecDeque;
use vessel_ring::{Ring, CHANNELS, RECORD_BYTES, UNSOUND_RING};

const SIGHTS: [&str; 35] = [
    "turned: a fresh ring",
    "turned: nodes and channels, not started",
    "turned: started, with no record",
    "turned: a record offered",
    "turned: a record carried",
    "turned: one offered and one carried on a channel",
    "turned: a record on channel 0",
    "turned: a record on channel 63",
    "turned: records on 64 channels",
    "turned: one node and one channel",
    "turned: 16 nodes and 64 channels",
    "turned: 1200 offered",
    "turned: -400 offered",
    "turned: 1200 carried",
    "turned: -400 carried",
    "turned: a name with a blank at an end",
    "turned: a second time, with a record",
    "turned: a damaged ring",
    "refused: for 1201 offered alone",
    "refused: for -401 offered alone",
    "refused: for 1201 carried alone",
    "refused: for -401 carried alone",
    "refused: for 3277 offered alone",
    "refused: for 3277 carried alone",
    "refused: for a record offered alone whose temperature, ten times and cut to 16 bits, is in range",
    "refused: for a record carried alone whose temperature, ten times and cut to 16 bits, is in range",
    "refused: for a temperature offered alone that is good in hundredths",
    "refused: for a temperature carried alone that is good in hundredths",
    "refused: a sound ring",
    "refused: a second time",
    "refused: a damaged ring, all temperatures in range",
    "refused: a temperature of no record, ten times and cut to 16 bits 0",
    "then: a record delivered that was carried",
    "then: a record delivered that was offered",
    "then: a record delivered on a channel that had both",
];

pub struct Turns {
    pub turned: u64,
    pub refused: u64,
    pub sights: Sights,
}

/// The temperatures that a ring holds, offered and carried.
struct Held {
    offered: Vec<(usize, i16)>,
    carried: Vec<(usize, i16)>,
}

impl Held {
    fn of(ring: &Ring) -> Held {
        let temperatures = |records: &[[u8; RECORD_BYTES]; CHANNELS], holds: &dyn Fn(usize) -> bool| {
            (0..CHANNELS).filter(|&k| holds(k)).map(|k| (k, record_in(&records[k]).temperature)).collect()
        };
        Held {
            offered: temperatures(&ring.offers, &|k| ring.offered[k] == 1),
            carried: temperatures(&ring.carried, &|k| ring.phases[k] == 3),
        }
    }

    fn all(&self) -> impl Iterator<Item = &(usize, i16)> {
        self.offered.iter().chain(&self.carried)
    }
}

fn in_tenths(held: &&(usize, i16)) -> bool {
    TENTHS.contains(&held.1)
}

/// Whether it would be in range if ten times as many were cut to 16 bits.
fn wraps(temperature: i16) -> bool {
    !TENTHS.contains(&temperature) && HUNDREDTHS.contains(&temperature.wrapping_mul(10))
}

impl Turns {
    pub fn new() -> Turns {
        Turns { turned: 0, refused: 0, sights: Sights::of(SIGHTS) }
    }

    /// The call by the library and by both models: the ring turned, or nothing where it is refused. Says what differs.
    pub fn turn(&mut self, ring: &Ring) -> Result<Option<Ring>, String> {
        let mut after = *ring;
        let answer = after.to_hundredths();
        for (name, turned) in [("the model", form::turned(ring)), ("the second model", second::turned(ring))] {
            let expected = if turned.is_some() { 0 } else { UNSOUND_RING };
            if answer != expected {
                return Err(format!("turned into hundredths: the library answers {answer}, {name} {expected}\nbefore: {ring:?}"));
            }
            if let Some(difference) = first_difference(&after.to_bytes(), &turned.unwrap_or(*ring).to_bytes()) {
                return Err(format!("turned into hundredths, {answer}: not as by {name}, first in {difference}\nbefore: {ring:?}"));
            }
        }
        if answer == 0 {
            self.turned += 1;
            self.see_turned(ring);
        } else {
            self.refused += 1;
            self.see_refused(ring);
        }
        Ok((answer == 0).then_some(after))
    }

    /// A ring that is turned already.
    pub fn turn_again(&mut self, ring: &Ring) -> Result<(), String> {
        let accepted = self.turn(ring)?.is_some();
        let holds_some = Held::of(ring).all().any(|held| held.1 != 0);
        self.sights.see(accepted && holds_some, "turned: a second time, with a record");
        self.sights.see(!accepted, "refused: a second time");
        Ok(())
    }

    /// A ring with bytes changed.
    pub fn turn_damaged(&mut self, ring: &Ring) -> Result<(), String> {
        let accepted = self.turn(ring)?.is_some();
        self.sights.see(accepted, "turned: a damaged ring");
        Ok(())
    }

    fn see_turned(&mut self, ring: &Ring) {
        let Held { offered, carried } = Held::of(ring);
        let (n, c, started) = (ring.node_count, ring.channel_count, ring.started == 1);
        let on = |k: usize| offered.iter().chain(&carried).any(|held| held.0 == k);
        let offers = |value: i16| offered.iter().any(|held| held.1 == value);
        let carries = |value: i16| carried.iter().any(|held| held.1 == value);
        let both = offered.iter().any(|offer| carried.iter().any(|held| held.0 == offer.0));
        let mut see = |holds, name| self.sights.see(holds, name);
        see(*ring == Ring::fresh(), "turned: a fresh ring");
        see(!started && n > 0 && c > 0, "turned: nodes and channels, not started");
        see(started && offered.is_empty() && carried.is_empty(), "turned: started, with no record");
        see(!offered.is_empty(), "turned: a record offered");
        see(!carried.is_empty(), "turned: a record carried");
        see(both, "turned: one offered and one carried on a channel");
        see(on(0), "turned: a record on channel 0");
        see(on(63), "turned: a record on channel 63");
        see((0..CHANNELS).all(on), "turned: records on 64 channels");
        see(started && (n, c) == (1, 1), "turned: one node and one channel");
        see(started && (n, c) == (16, 64), "turned: 16 nodes and 64 channels");
        see(offers(1200), "turned: 1200 offered");
        see(offers(-400), "turned: -400 offered");
        see(carries(1200), "turned: 1200 carried");
        see(carries(-400), "turned: -400 carried");
        let names = ring.offers.iter().chain(&ring.carried);
        see(names.into_iter().any(form::blank_ended), "turned: a name with a blank at an end");
    }

    fn see_refused(&mut self, ring: &Ring) {
        let held = Held::of(ring);
        self.sights.see(form::sound_network(ring).is_some(), "refused: a sound ring");
        self.sights.see(held.all().all(|one| in_tenths(&one)), "refused: a damaged ring, all temperatures in range");
        let [offered, carried] = [&held.offered, &held.carried].map(|some| some.iter().filter(|one| !in_tenths(one)).collect::<Vec<_>>());
        match (&offered[..], &carried[..]) {
            ([(k, out)], []) if is_turned_without(ring, |ring| &mut ring.offers, *k) => self.see_one_offered(*out),
            ([], [(k, out)]) if is_turned_without(ring, |ring| &mut ring.carried, *k) => self.see_one_carried(*out),
            _ => {}
        }
        let none = |k: &usize| ring.offered[*k] == 0 && record_in(&ring.offers[*k]).temperature == i16::MIN;
        let alone = (0..CHANNELS).find(none).is_some_and(|k| is_turned_without(ring, |ring| &mut ring.offers, k));
        self.sights.see(alone, "refused: a temperature of no record, ten times and cut to 16 bits 0");
    }

    fn see_one_offered(&mut self, out: i16) {
        let mut see = |holds, name| self.sights.see(holds, name);
        see(out == 1201, "refused: for 1201 offered alone");
        see(out == -401, "refused: for -401 offered alone");
        see(out == 3277, "refused: for 3277 offered alone");
        see(wraps(out), "refused: for a record offered alone whose temperature, ten times and cut to 16 bits, is in range");
        see(HUNDREDTHS.contains(&out), "refused: for a temperature offered alone that is good in hundredths");
    }

    fn see_one_carried(&mut self, out: i16) {
        let mut see = |holds, name| self.sights.see(holds, name);
        see(out == 1201, "refused: for 1201 carried alone");
        see(out == -401, "refused: for -401 carried alone");
        see(out == 3277, "refused: for 3277 carried alone");
        see(wraps(out), "refused: for a record carried alone whose temperature, ten times and cut to 16 bits, is in range");
        see(HUNDREDTHS.contains(&out), "refused: for a temperature carried alone that is good in hundredths");
    }
}

/// Whether the ring is sound in tenths but for the temperature of this record.
fn is_turned_without(ring: &Ring, records: fn(&mut Ring) -> &mut [[u8; RECORD_BYTES]; CHANNELS], k: usize) -> bool {
    let mut mended = *ring;
    put_temperature(&mut records(&mut mended)[k], 0);
    form::turned(&mended).is_some()
}

/// What a turned ring still has to deliver of what it held: by channel, the name of the sight and the temperature in tenths.
pub struct Waiting([VecDeque<(&'static str, i16)>; CHANNELS]);

impl Waiting {
    /// Of the ring before it was turned.
    pub fn of(ring: &Ring) -> Waiting {
        let mut waiting = Waiting(std::array::from_fn(|_| VecDeque::new()));
        let Held { offered, carried } = Held::of(ring);
        for (k, temperature) in carried {
            waiting.0[k].push_back(("then: a record delivered that was carried", temperature));
        }
        for (k, temperature) in offered {
            waiting.0[k].push_back(("then: a record delivered that was offered", temperature));
        }
        waiting
    }

    /// A delivery on the turned ring: ten times as many, and first what was held.
    pub fn delivered(&mut self, k: usize, record: &Record, turns: &mut Turns) -> Result<(), String> {
        turns.sights.see(self.0[k].len() == 2, "then: a record delivered on a channel that had both");
        let Some((name, tenths)) = self.0[k].pop_front() else {
            return Ok(());
        };
        turns.sights.see(true, name);
        if i32::from(record.temperature) == 10 * i32::from(tenths) {
            Ok(())
        } else {
            Err(format!("channel {k}: {tenths} tenths, turned, are delivered as {}", record.temperature))
        }
    }
}
