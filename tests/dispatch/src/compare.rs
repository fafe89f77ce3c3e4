//! One call of the dispatcher by the library, and whatever differs from what it has to be.

use crate::singly::{enough, on_ring, Rounds};
use calls::form::{lay, sound_network, to_c};
use common::layout::first_difference;
use damaged_rings::expected;
use damaged_rings::form::{self as second, lay_out, read_back};
use vessel_ring::{Dispatched, Record, Ring, CHANNELS};

/// What a call gave: its answer and the ring after it.
#[derive(Clone, Copy, PartialEq)]
pub struct Outcome {
    pub answer: Dispatched,
    pub after: Ring,
}

/// The call by the library. `rounds` has what single calls make of this ring, as many rounds as are given or all; a ring that is to be
/// refused has none. All that differs is said at once, so that each opinion is seen.
pub fn call(ring: &Ring, given: u16, rounds: Option<&Rounds>) -> Result<Outcome, String> {
    let mut after = *ring;
    let answer = after.dispatch(given);
    let outcome = Outcome { answer, after };
    let mut faults = broken(ring, given, &outcome);
    let opinions = [
        ("single calls", by_single_calls(ring, given, rounds)),
        ("the second model", by_second_model(ring, given)),
        ("the model with queues", by_queues(ring, given)),
    ];
    for (name, opinion) in &opinions {
        faults.extend(difference(name, &outcome, opinion));
    }
    if faults.is_empty() {
        return Ok(outcome);
    }
    let Dispatched { rounds, refusal, count, .. } = answer;
    Err(format!("{given} rounds given: refusal {refusal}, {rounds} made, {count} deliveries\n  {}\nbefore: {ring:?}", faults.join("\n  ")))
}

/// What 02 says of every call, and this one does not keep.
fn broken(ring: &Ring, given: u16, outcome: &Outcome) -> Vec<String> {
    let Outcome { answer, after } = outcome;
    let mut faults = Vec::new();
    let mut holds = |holds: bool, what: &str| {
        if !holds {
            faults.push(what.to_string());
        }
    };
    if answer.refusal != 0 {
        holds(after == ring, "refused, and the ring is another");
        holds(*answer == refused(answer.refusal), "refused, and something beside the number is not zero");
        return faults;
    }
    let still = on_ring(after) == 0;
    holds(answer.rounds <= given, "more rounds than were given");
    holds(answer.rounds == given || still, "ended early, with something on the ring");
    holds(usize::from(given) < enough(ring) || still, "enough rounds, and something on the ring");
    holds(answer.rounds > 0 || after == ring, "no round, and the ring is another");
    holds(answer.count <= ring.channel_count, "more deliveries than channels");
    holds(once_each(answer), "two deliveries on one channel");
    holds(blank_behind(answer), "something behind the last delivery");
    holds(after.is_sound(), "the ring after it is not sound");
    faults
}

fn once_each(answer: &Dispatched) -> bool {
    let mut met = [false; 256];
    answer.deliveries().all(|(channel, _)| !std::mem::replace(&mut met[usize::from(channel)], true))
}

fn blank_behind(answer: &Dispatched) -> bool {
    let behind = usize::from(answer.count).min(CHANNELS);
    answer.channels[behind..].iter().all(|&channel| channel == 0)
        && answer.records[behind..].iter().all(|&record| record == Record::default())
}

fn refused(refusal: u8) -> Dispatched {
    Dispatched { refusal, ..Dispatched::default() }
}

fn answered(rounds: u16, deliveries: &[(u8, Record)]) -> Dispatched {
    let mut answer = Dispatched { rounds, count: deliveries.len() as u8, ..Dispatched::default() };
    for (at, &(channel, record)) in deliveries.iter().enumerate() {
        answer.channels[at] = channel;
        answer.records[at] = record;
    }
    answer
}

/// The same entries and moves by the library's own single calls. "Errors: 25 and 8, as for a move."
fn by_single_calls(ring: &Ring, given: u16, rounds: Option<&Rounds>) -> Outcome {
    let Some(rounds) = rounds else {
        let mut after = *ring;
        return Outcome { answer: refused(after.move_on(0).refusal), after };
    };
    let made = rounds.made().min(given.into());
    Outcome { answer: answered(made as u16, &rounds.deliveries(made)), after: rounds.rings[made] }
}

fn by_second_model(ring: &Ring, given: u16) -> Outcome {
    let mut bytes = ring.to_bytes();
    // What the bytes may say and the model's ring cannot is judged there.
    if !expected::sound(&bytes) {
        return Outcome { answer: refused(25), after: *ring };
    }
    let mut model = read_back(&bytes);
    let answer = match model.dispatch(given) {
        Ok(made) => {
            let deliveries: Vec<(u8, Record)> = made.deliveries.iter().map(|one| (one.channel.0, second::to_c(&one.record))).collect();
            answered(made.rounds, &deliveries)
        }
        Err(refusal) => refused(refusal as u8),
    };
    lay_out(&model, &mut bytes);
    Outcome { answer, after: Ring::from_bytes(&bytes) }
}

fn by_queues(ring: &Ring, given: u16) -> Outcome {
    let Some(mut network) = sound_network(ring) else {
        return Outcome { answer: refused(25), after: *ring };
    };
    let answer = match network.dispatch(given) {
        Ok((rounds, deliveries)) => {
            let deliveries: Vec<(u8, Record)> = deliveries.iter().map(|&(channel, record)| (channel as u8, to_c(record))).collect();
            answered(rounds, &deliveries)
        }
        Err(refusal) => refused(refusal),
    };
    Outcome { answer, after: lay(&network) }
}

fn difference(name: &str, given: &Outcome, expected: &Outcome) -> Option<String> {
    let (answer, other) = (&given.answer, &expected.answer);
    let numbers = |answer: &Dispatched| (answer.refusal, answer.rounds, answer.count);
    if numbers(answer) != numbers(other) {
        return Some(format!("by {name}: refusal, rounds and count are {:?}", numbers(other)));
    }
    if answer.channels != other.channels {
        return Some(format!("by {name}: on channels {:?}, not {:?}", other.channels, answer.channels));
    }
    if answer.records != other.records {
        return Some(format!("by {name}: other records"));
    }
    let difference = first_difference(&given.after.to_bytes(), &expected.after.to_bytes())?;
    Some(format!("by {name}: another ring after it, first in {difference}"))
}
