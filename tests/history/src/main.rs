//! history COUNT SEED: makes COUNT calls of the library on histories, each also on the second model, and compares the answer and every byte
//! of the table after it; figures are also worked out afresh from plain lists of all that was noted.
//! The tables come from long scripts from an empty one, from hand-made ones, and from both damaged or lent with another number of rows.
//! The same tables held in tenths are turned into hundredths (src/turns.rs).
//! Fails on a difference, and when what has to be seen (src/tally.rs) never was.

mod compare;
mod damage;
mod draw;
mod lists;
mod tally;
mod turns;

use common::program::{self, Shown};
use common::random::Random;
use compare::Pair;
use damage::KINDS;
use draw::{Call, Script};
use second_model::generate::good_record;
use std::process::ExitCode;
use tally::{Tally, LENGTHS};
use vessel_ring::{Row, HISTORY_ROWS, READINGS};

/// All four calls on a table that is to be refused, with a good and a bad record.
fn refused_calls(pair: &mut Pair, script: &Script, random: &mut Random, tally: &mut Tally) -> Result<(), String> {
    if pair.is_sound() {
        return Err("the model takes it for sound".to_string());
    }
    pair.call(Call::Note(script.record(random)), tally)?;
    pair.call(Call::Note(script.bad_record(random)), tally)?;
    pair.call(script.close(random), tally)?;
    pair.call(script.figures(random), tally)?;
    pair.call(script.batch_in(random), tally)
}

/// A copy of a sound table, damaged.
fn damaged(table: &[Row], script: &Script, random: &mut Random, tally: &mut Tally) -> Result<(), String> {
    let mut copy = table.to_vec();
    let (kind, row) = damage::damage(&mut copy, random);
    let in_case = |difference| format!("{}, row {row}: {difference}", KINDS[kind].name);
    refused_calls(&mut Pair::new(&copy, HISTORY_ROWS), script, random, tally).map_err(in_case)?;
    tally.damaged(kind, row);
    Ok(())
}

/// A sound table of which too few rows are lent, or with empty rows behind it that are lent with it: all but the number is right.
fn cut(table: &[Row], script: &Script, random: &mut Random, tally: &mut Tally) -> Result<(), String> {
    let length = random.pick(&LENGTHS);
    let mut rows = table.to_vec();
    rows.resize(length.max(HISTORY_ROWS), Row::default());
    let in_case = |difference| format!("{length} rows lent: {difference}");
    refused_calls(&mut Pair::new(&rows, length), script, random, tally).map_err(in_case)
}

/// A script from an empty table, or on one made by hand. On the way copies of the table are damaged or lent with another number of rows,
/// and before it tables made by hand, so that every row is damaged in use and empty. At the end all figures are asked for.
fn scripted(random: &mut Random, tally: &mut Tally) -> Result<(), String> {
    let script = Script::draw(random);
    for _ in 0..20 {
        damaged(&script.table(random), &script, random, tally)?;
        turns::turned_table(&script.table(random), &script, random, tally)?;
    }
    let begin = if random.percent(70) { vec![Row::default(); HISTORY_ROWS] } else { script.table(random) };
    let mut pair = Pair::new(&begin, HISTORY_ROWS);
    if !pair.is_sound() {
        return Err("a table that was made sound is not, by the model".to_string());
    }
    for _ in 0..script.length {
        pair.call(script.call(random), tally)?;
        if random.percent(5) {
            pair.call(script.batch_in(random), tally)?;
        }
        if random.percent(3) {
            damaged(pair.table(), &script, random, tally)?;
        }
        if random.percent(1) {
            cut(pair.table(), &script, random, tally)?;
            turns::turned_table(pair.table(), &script, random, tally)?;
        }
    }
    script.batches.iter().try_for_each(|&batch| pair.call(Call::Figures(batch), tally))
}

/// One of the three calls, each in its turn, on a table that is to be refused; and the batch of a row.
fn one_refused(table: &[Row], turn: usize, random: &mut Random, tally: &mut Tally) -> Result<(), String> {
    let batch = table[turn % HISTORY_ROWS].batch;
    let call = match turn % 3 {
        0 => Call::Note(good_record(random)),
        1 => Call::Close(batch),
        _ => Call::Figures(batch),
    };
    let mut pair = Pair::new(table, HISTORY_ROWS);
    if pair.is_sound() {
        return Err(format!("the model takes it for sound: {table:?}"));
    }
    pair.call(call, tally)?;
    pair.call(Call::Batch(turn % HISTORY_ROWS), tally)
}

/// Batches 1 to 128 with so many readings each.
fn full_table(count: usize) -> Vec<Row> {
    let mut table = vec![Row::default(); HISTORY_ROWS];
    for (batch, row) in (1..).zip(&mut table) {
        row.batch = batch;
        row.count = count as u32;
        row.readings[..count].fill(1);
    }
    table
}

/// A table in which any two rows are of one batch.
fn every_pair(random: &mut Random, tally: &mut Tally) -> Result<(), String> {
    for first in 0..HISTORY_ROWS {
        for second in first + 1..HISTORY_ROWS {
            let mut table = full_table(1);
            table[second].batch = table[first].batch;
            one_refused(&table, first + second, random, tally)?;
        }
    }
    Ok(())
}

/// A reading in any cell where none may be, and a reading out of range in any cell.
fn every_cell(random: &mut Random, tally: &mut Tally) -> Result<(), String> {
    let empty = vec![Row::default(); HISTORY_ROWS];
    for at in 0..HISTORY_ROWS {
        for cell in 0..READINGS {
            for (sound, reading) in [(&empty, 1), (&full_table(READINGS), 12001), (&full_table(READINGS), -4001)] {
                let mut table = sound.clone();
                table[at].readings[cell] = reading;
                one_refused(&table, at + cell, random, tally)?;
            }
            if cell > 0 {
                let mut table = full_table(cell);
                table[at].readings[cell] = -1;
                one_refused(&table, at + cell, random, tally)?;
            }
        }
    }
    Ok(())
}

/// Every byte of the table FF, and drawn.
fn every_byte(random: &mut Random, tally: &mut Tally) -> Result<(), String> {
    let drawn = |random: &mut Random| Row {
        batch: random.draw() as u32,
        count: random.draw() as u32,
        readings: std::array::from_fn(|_| random.draw() as i16),
    };
    for turn in 0..30 {
        one_refused(&[Row { batch: u32::MAX, count: u32::MAX, readings: [-1; READINGS] }; HISTORY_ROWS], turn, random, tally)?;
        let table: Vec<Row> = (0..HISTORY_ROWS).map(|_| drawn(random)).collect();
        one_refused(&table, turn, random, tally)?;
    }
    Ok(())
}

fn compare(count: u64, seed: u64) -> Result<Shown, String> {
    let tally = &mut Tally::new();
    let random = &mut Random::new(seed);
    every_byte(random, tally)?;
    every_pair(random, tally)?;
    every_cell(random, tally)?;
    turns::every_pair(tally)?;
    turns::every_cell(tally)?;
    let mut run = 0;
    while tally.calls < count {
        let mut random = Random::of_run(seed, run);
        scripted(&mut random, tally).map_err(|difference| format!("seed {seed}, script {run}: {difference}"))?;
        run += 1;
    }
    Ok(tally.shown())
}

fn main() -> ExitCode {
    program::run("history", compare)
}
