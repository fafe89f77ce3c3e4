//! dispatch COUNT SEED: makes COUNT calls of the library's dispatcher, each also on two models and as the same entries and moves called
//! singly through the library, and compares every byte of the answer and of the ring after it; then follows lists of calls with dispatcher
//! calls among them.
//! The rings are crowded ones, the largest, all of the tiniest, those of drawn runs, hand-made ones, and these with bytes changed.
//! Fails on a difference, and when what has to be seen (src/tally.rs) never was.

mod acts;
mod compare;
mod rings;
mod singly;
mod tally;

use common::layout::LENGTH;
use common::program::{self, Shown};
use common::random::Random;
use singly::{enough, on_ring, Rounds};
use std::process::ExitCode;
use tally::{Seen, Tally, GIVENS};
use vessel_ring::Ring;

/// The call with so many rounds on a ring that is to be refused.
fn refused(ring: &Ring, given: u16, tally: &mut Tally) -> Result<(), String> {
    let outcome = compare::call(ring, given, None)?;
    tally.call(&Seen { ring, given, outcome: &outcome, rounds: None });
    Ok(())
}

/// How many rounds these are, of a ring that makes so many.
fn number(name: &str, made: u16, enough: u16, random: &mut Random) -> u16 {
    match name {
        "0" => 0,
        "1" => 1,
        "made - 1" => made.saturating_sub(1),
        "made" => made,
        "made + 1" => made + 1,
        "enough" => enough,
        "65535" => u16::MAX,
        _ => random.between(0, usize::from(made) + 1) as u16,
    }
}

/// The call on a ring that runs, with as many rounds as the names say. All that it can make are made singly, once.
fn running(ring: &Ring, names: &[&'static str], random: &mut Random, tally: &mut Tally) -> Result<(), String> {
    let enough = enough(ring);
    let rounds = Rounds::run(ring, enough);
    if on_ring(&rounds.rings[rounds.made()]) > 0 {
        return Err(format!("called singly, {enough} rounds leave something on the ring: {ring:?}"));
    }
    for &name in names {
        let given = number(name, rounds.made() as u16, enough as u16, random);
        let outcome = compare::call(ring, given, Some(&rounds))?;
        tally.call(&Seen { ring, given, outcome: &outcome, rounds: Some(&rounds) });
        if rounds.made() >= 3 {
            tally.given(name);
        }
    }
    Ok(())
}

/// A ring as it comes.
fn any(ring: &Ring, random: &mut Random, tally: &mut Tally) -> Result<(), String> {
    if ring.is_sound() && ring.started == 1 {
        let names = [random.pick(&GIVENS), random.pick(&GIVENS)];
        return running(ring, &names, random, tally);
    }
    refused(ring, random.pick(&[0, 1, 5, u16::MAX]), tally)
}

/// The crowded ring makes 845 rounds of 1,054, with 31 deliveries, and 844 leave something.
fn crowded(random: &mut Random, tally: &mut Tally) -> Result<(), String> {
    let ring = rings::crowded();
    let (mut whole, mut part) = (ring, ring);
    let (answer, shorter) = (whole.dispatch(1054), part.dispatch(844));
    if (answer.rounds, answer.count, on_ring(&whole)) != (845, 31, 0) {
        return Err(format!("the crowded ring: {} rounds, {} deliveries", answer.rounds, answer.count));
    }
    if shorter.rounds != 844 || on_ring(&part) == 0 {
        return Err(format!("the crowded ring, given 844: {} rounds, {} left", shorter.rounds, on_ring(&part)));
    }
    running(&ring, &GIVENS, random, tally)
}

/// The rings that are always called on.
fn aimed(random: &mut Random, tally: &mut Tally) -> Result<(), String> {
    crowded(random, tally)?;
    for ring in rings::largest() {
        running(&ring, &GIVENS, random, tally)?;
    }
    for ring in rings::tiny() {
        running(&ring, &["0", "1", "made - 1", "made", "enough"], random, tally)?;
        tally.see(on_ring(&ring) > 0, "a ring of a tiny plan");
    }
    for given in [0, 1, u16::MAX] {
        refused(&Ring::fresh(), given, tally)?;
        refused(&Ring::from_bytes(&[0xFF; LENGTH]), given, tally)?;
    }
    Ok(())
}

/// A drawn ring, then damaged; and a list of calls.
fn drawn(random: &mut Random, tally: &mut Tally) -> Result<(), String> {
    let (source, ring) = match random.below(100) {
        0..=2 => ("a packed ring", rings::packed(random)),
        3..=49 => ("a ring of a drawn run", rings::drawn(random)),
        50..=59 => ("a ring turned from tenths", rings::turned(random)),
        _ => ("a ring made by hand", rings::by_hand(random)),
    };
    any(&ring, random, tally)?;
    tally.see(on_ring(&ring) > 0, source);
    let delivers = source == "a ring turned from tenths" && ring.clone().dispatch(u16::MAX).count > 0;
    tally.see(delivers, "deliveries: of a ring turned from tenths");
    for _ in 0..3 {
        let changed = rings::damaged(&ring, random, tally);
        any(&changed, random, tally)?;
        tally.see(changed.is_sound() && on_ring(&changed) > 0, "a damaged ring that is still sound");
    }
    acts::list(random, tally)
}

fn compare(count: u64, seed: u64) -> Result<Shown, String> {
    let tally = &mut Tally::new();
    aimed(&mut Random::new(seed), tally)?;
    let mut run = 0;
    while tally.calls < count {
        let mut random = Random::of_run(seed, run);
        drawn(&mut random, tally).map_err(|difference| format!("seed {seed}, run {run}: {difference}"))?;
        run += 1;
    }
    Ok(tally.shown())
}

fn main() -> ExitCode {
    program::run("dispatch", compare)
}
