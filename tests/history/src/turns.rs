//! Tables held in tenths, turned into hundredths: request N5 of document 02. The library's call against the second model's, with every
//! figure before it and after it.

use crate::compare::{from_model, shown, to_model, STRANGE};
use crate::damage::{self, KINDS};
use crate::draw::Script;
use crate::full_table;
use crate::tally::{Tally, LENGTHS};
use common::random::Random;
use second_model::history::History;
use second_model::ring::Unit;
use vessel_ring::{figures, note, to_hundredths, Record, Row, HISTORY_ROWS, READINGS, UNSOUND_RING};

/// The call on the first `length` of these rows, by the library and the model: the table turned, or nothing where it is refused. Says what
/// differs, in the rows before the table and behind it too.
fn turn(rows: &[Row], length: usize, tally: &mut Tally) -> Result<Option<Vec<Row>>, String> {
    let mut memory = [&[STRANGE], rows, &[STRANGE]].concat();
    let lent = 1..1 + length;
    let answer = to_hundredths(&mut memory[lent.clone()]);
    let turned = History::of_tenths(&rows[..length].iter().map(to_model).collect::<Vec<_>>()).ok();
    let expected = if turned.is_some() { 0 } else { UNSOUND_RING };
    let show = || format!("before:\n{}", shown(&rows[..length]));
    if answer != expected {
        return Err(format!("turned into hundredths: the library answers {answer}, the model {expected}\n{}", show()));
    }
    let mut after = [&[STRANGE], rows, &[STRANGE]].concat();
    if let Some(history) = turned {
        after[lent.clone()].copy_from_slice(&history.table().map(from_model));
    }
    if memory != after {
        let same = memory.iter().zip(&after).take_while(|(library, model)| library == model).count();
        return Err(format!("turned into hundredths, {answer}: the tables differ, first at row {}\n{}", same as isize - 1, show()));
    }
    tally.turned(&rows[..length], answer);
    Ok((answer == 0).then(|| memory[lent].to_vec()))
}

/// A table that has to be refused.
fn refused(rows: &[Row], length: usize, tally: &mut Tally) -> Result<(), String> {
    match turn(rows, length, tally)? {
        None => Ok(()),
        Some(_) => Err(format!("turned, and not to be:\n{}", shown(&rows[..length]))),
    }
}

/// A table that has to be turned. "each ... figure ten times as many": as the library tells them of some rows in use, before it and after.
fn accepted(table: &[Row], asked: &[usize], tally: &mut Tally) -> Result<Vec<Row>, String> {
    let turned = turn(table, HISTORY_ROWS, tally)?.ok_or_else(|| format!("not turned:\n{}", shown(table)))?;
    for row in asked.iter().map(|&at| table[at]) {
        let (before, after) = (figures(table, row.batch), figures(&turned, row.batch));
        let ten_times = |small: i16, large: i16| 10 * i32::from(small) == i32::from(large);
        let same = (before.refusal, before.held, after.refusal, after.held) == (0, 1, 0, 1);
        if !same || !ten_times(before.lowest, after.lowest) || !ten_times(before.highest, after.highest) || 10 * before.sum != after.sum {
            return Err(format!("turned, the figures of batch {} are {after:?} after {before:?}", row.batch));
        }
        tally.see(after.sum != after.sum as i16 as i32, "turned: a sum that does not fit 16 bits then");
    }
    Ok(turned)
}

/// A table in hundredths as one in tenths: sound before, it is sound in tenths; with small readings it is once more when it was turned.
fn in_tenths(table: &[Row], small: bool) -> Vec<Row> {
    let divisor = if small { 100 } else { 10 };
    table.iter().map(|row| Row { readings: row.readings.map(|reading| reading / divisor), ..*row }).collect()
}

/// A sound table as one in tenths: turned, noted in, and turned again; and with one reading out of range, damaged, and lent with another
/// number of rows.
pub fn turned_table(table: &[Row], script: &Script, random: &mut Random, tally: &mut Tally) -> Result<(), String> {
    turn(table, HISTORY_ROWS, tally)?;
    let held = in_tenths(table, random.percent(25));
    let in_use: Vec<usize> = (0..HISTORY_ROWS).filter(|&at| held[at].batch != 0).collect();
    let asked: Vec<usize> = (0..in_use.len().min(8)).map(|_| random.pick(&in_use)).collect();
    let mut turned = accepted(&held, &asked, tally)?;
    let again = turn(&turned, HISTORY_ROWS, tally)?.is_some();
    let holds_some = turned.iter().any(|row| row.readings.iter().any(|&reading| reading != 0));
    tally.see(again && holds_some, "turned: a second time, with a reading");
    tally.see(!again, "turn refused: a second time");
    let record = Record { batch: script.batches[0], temperature: 6125, ..Record::default() };
    let full = turned.iter().all(|row| row.batch != 0 && row.batch != record.batch);
    if note(&mut turned, record) != if full { 29 } else { 0 } {
        return Err(format!("turned, a note is not taken:\n{}", shown(&turned)));
    }
    tally.see(!full, "turned: then a note");
    if !in_use.is_empty() {
        one_out(&held, random.pick(&in_use), random, tally)?;
    }
    (0..4).try_for_each(|_| damaged(&held, random, tally))?;
    let length = random.pick(&LENGTHS);
    let mut rows = held;
    rows.resize(length.max(HISTORY_ROWS), Row::default());
    refused(&rows, length, tally).map_err(|difference| format!("{length} rows lent: {difference}"))
}

/// A copy of a table in tenths, damaged.
fn damaged(table: &[Row], random: &mut Random, tally: &mut Tally) -> Result<(), String> {
    let mut copy = table.to_vec();
    let (kind, row) = damage::damage(&mut copy, random);
    refused(&copy, HISTORY_ROWS, tally).map_err(|difference| format!("{}, row {row}: {difference}", KINDS[kind].name))?;
    tally.turn_damaged(kind, row);
    Ok(())
}

/// One reading of a row in use, of a table in tenths, out of their range.
fn one_out(table: &[Row], at: usize, random: &mut Random, tally: &mut Tally) -> Result<(), String> {
    let mut table = table.to_vec();
    let row = &mut table[at];
    let cell = random.below(row.count as usize);
    row.readings[cell] = random.pick(&OUT);
    refused(&table, HISTORY_ROWS, tally)
}

/// Tenths out of range: at the edges, where ten times as many no longer fit 16 bits, where cut to 16 bits they are in range again, and
/// some that are good in hundredths.
const OUT: [i16; 12] = [1201, -401, 3276, 3277, 3278, -3277, 6553, 6554, 12000, -4000, i16::MAX, i16::MIN];

/// In every cell of a full table the coldest and the hottest are turned and what is out of range is refused; where no reading may be
/// nothing is, not even what cut to 16 bits would be 0.
pub fn every_cell(tally: &mut Tally) -> Result<(), String> {
    let (empty, full) = (vec![Row::default(); HISTORY_ROWS], full_table(READINGS));
    let (coldest, hottest) = (*Unit::Tenths.range().start(), *Unit::Tenths.range().end());
    for at in 0..HISTORY_ROWS {
        for cell in 0..READINGS {
            let with = |table: &[Row], reading: i16| {
                let mut table = table.to_vec();
                table[at].readings[cell] = reading;
                table
            };
            accepted(&with(&full, [coldest, hottest][(at + cell) % 2]), &[at], tally)?;
            for reading in [1201, -401, OUT[(at + cell) % OUT.len()]] {
                refused(&with(&full, reading), HISTORY_ROWS, tally)?;
            }
            refused(&with(&empty, i16::MIN), HISTORY_ROWS, tally)?;
            if cell > 0 {
                refused(&with(&full_table(cell), i16::MIN), HISTORY_ROWS, tally)?;
            }
        }
    }
    Ok(())
}

/// A table in which any two rows are of one batch.
pub fn every_pair(tally: &mut Tally) -> Result<(), String> {
    for first in 0..HISTORY_ROWS {
        for second in first + 1..HISTORY_ROWS {
            let mut table = full_table(1);
            table[second].batch = table[first].batch;
            refused(&table, HISTORY_ROWS, tally)?;
        }
    }
    Ok(())
}
