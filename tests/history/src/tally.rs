//! What was seen. The program fails when a part of it never was.

use crate::compare::to_model;
use crate::damage::KINDS;
use crate::draw::Call;
use crate::lists::Lists;
use common::program::Shown;
use common::sights::Sights;
use second_model::history::History;
use second_model::ring::{Record, Unit};
use vessel_ring::{Row, HISTORY_ROWS, READINGS};

/// What accepted calls have to show, and those that turn a table or refuse to.
const SIGHTS: [&str; 53] = [
    "note: a first reading",
    "note: of several empty rows the lowest, with rows in use behind it",
    "note: the row that a close of a full table left, between others",
    "note: a row that stands behind an empty row",
    "note: a 24th reading",
    "note: the oldest reading makes way",
    "note: the lowest reading makes way",
    "note: the highest reading makes way",
    "note: a temperature of -4000",
    "note: a temperature of 12000",
    "note: a temperature that is out of range in tenths",
    "note: batch 4294967295",
    "note: a name with a blank first, not last",
    "note: a name with a blank last, not first",
    "note: a name of one blank",
    "close: the first row",
    "close: a row between others",
    "close: the last row",
    "close: a batch that has no row",
    "close: batch 0",
    "figures: of a batch with a row",
    "figures: after a thousand readings since the last close",
    "figures: none",
    "figures: none, after a close",
    "figures: none, batch 0",
    "figures: a sum that does not fit 16 bits",
    "figures: of 24 readings",
    "batch: of the first row",
    "batch: of a row between others",
    "batch: of the last row",
    "batch: none, an empty row",
    "batch: none, no such row",
    "turned: an empty table",
    "turned: all rows in use",
    "turned: the first row",
    "turned: a row between others",
    "turned: the last row",
    "turned: a row of 24 readings",
    "turned: a reading of 1200",
    "turned: a reading of -400",
    "turned: a sum that does not fit 16 bits then",
    "turned: a second time, with a reading",
    "turned: then a note",
    "turn refused: a second time",
    "turn refused: a sound table",
    "turn refused: a table of another length",
    "turn refused: for a reading of 1201 alone",
    "turn refused: for a reading of -401 alone",
    "turn refused: for a reading of 3277 alone",
    "turn refused: for a reading alone that, ten times and cut to 16 bits, is in range",
    "turn refused: for a reading alone that is good in hundredths",
    "turn refused: for no reading out of range",
    "turn refused: for a cell without a reading that, ten times and cut to 16 bits, is 0",
];

/// The refusals that these calls have. A name with a blank at an end is none of them: 30 is of send alone (02's N4).
const REFUSALS: [u8; 6] = [11, 12, 13, 14, 25, 29];
/// The refusals of a bad record.
const BAD_RECORD: [u8; 4] = [11, 12, 13, 14];
/// The refusals that 25 comes before.
const BEHIND_25: [u8; 5] = [11, 12, 13, 14, 29];
const LAST: usize = HISTORY_ROWS - 1;
/// The rows at which a table is damaged.
const PLACES: [&str; 3] = ["first row", "a row between", "last row"];

/// Lengths of tables that are not 128.
pub const LENGTHS: [usize; 5] = [0, 1, 127, 129, 300];

/// An accepted call, with the table before it and after it.
pub struct Seen<'a> {
    pub call: Call,
    pub before: &'a [Row],
    pub after: &'a [Row],
    /// As they were before the call.
    pub lists: &'a Lists,
    /// The row that a close left when all others were in use, as long as they are.
    pub freed: Option<usize>,
}

pub struct Tally {
    pub calls: u64,
    sights: Sights,
}

/// Refused with this number.
fn refused(number: u8) -> String {
    format!("refusal {number}")
}

/// Refused with this number, of a bad record, where 29 would have applied too.
fn on_full(number: u8) -> String {
    format!("refusal {number} where 29 applies too")
}

/// Refused with 25 where this number would have come next.
fn behind_25(number: u8) -> String {
    format!("refusal 25 where {number} applies too")
}

fn lent(rows: usize) -> String {
    format!("refused: {rows} rows lent")
}

/// Damage of a kind at the first row, at one between or at the last.
fn damaged(kind: &str, place: &str) -> String {
    format!("damaged, {place}: {kind}")
}

/// The same of a table that was to be turned.
fn turn_damaged(kind: &str, place: &str) -> String {
    format!("to be turned, damaged, {place}: {kind}")
}

impl Tally {
    pub fn new() -> Tally {
        let refusals = REFUSALS.map(refused).into_iter().chain(BAD_RECORD.map(on_full)).chain(BEHIND_25.map(behind_25));
        let lengths = LENGTHS.map(lent);
        let damage = |name: fn(&str, &str) -> String| KINDS.iter().flat_map(move |kind| PLACES.map(|place| name(kind.name, place)));
        let names = refusals.chain(lengths).chain(SIGHTS.map(String::from)).chain(damage(damaged)).chain(damage(turn_damaged));
        Tally { calls: 0, sights: Sights::of(names) }
    }

    pub fn refused(&mut self, number: u8) {
        self.see(true, &refused(number));
    }

    pub fn refused_on_full(&mut self, number: u8) {
        self.see(true, &on_full(number));
    }

    pub fn refused_before(&mut self, number: u8) {
        self.see(true, &behind_25(number));
    }

    pub fn lent(&mut self, rows: usize) {
        self.see(true, &lent(rows));
    }

    pub fn damaged(&mut self, kind: usize, row: usize) {
        self.see(true, &damaged(KINDS[kind].name, place(row)));
    }

    pub fn turn_damaged(&mut self, kind: usize, row: usize) {
        self.see(true, &turn_damaged(KINDS[kind].name, place(row)));
    }

    pub fn see(&mut self, holds: bool, name: &str) {
        self.sights.see(holds, name);
    }

    pub fn accepted(&mut self, seen: &Seen) {
        match seen.call {
            Call::Note(record) => self.noted(seen, &record),
            Call::Close(batch) => self.closed(seen, batch),
            Call::Figures(batch) => self.asked(seen, batch),
            Call::Batch(row) => self.looked_up(seen, row),
        }
    }

    fn noted(&mut self, seen: &Seen, record: &Record) {
        let batch = record.number.0;
        self.see(record.temperature == -4000, "note: a temperature of -4000");
        self.see(record.temperature == 12000, "note: a temperature of 12000");
        self.see(!in_tenths(&record.temperature), "note: a temperature that is out of range in tenths");
        self.see(batch == u32::MAX, "note: batch 4294967295");
        let name = &record.name[..record.length.into()];
        let (first, last) = (name.starts_with(b" "), name.ends_with(b" "));
        self.see(first && !last, "note: a name with a blank first, not last");
        self.see(last && !first, "note: a name with a blank last, not first");
        self.see(name == b" ", "note: a name of one blank");
        match row_of(seen.before, batch) {
            Some(at) => self.noted_more(seen, at),
            None => self.noted_first(seen, row_of(seen.after, batch)),
        }
    }

    fn noted_first(&mut self, seen: &Seen, at: Option<usize>) {
        let behind = at.map_or(&[][..], |at| &seen.before[at + 1..]);
        let empty_behind = behind.iter().any(|row| row.batch == 0);
        let in_use_behind = behind.iter().any(|row| row.batch != 0);
        self.see(true, "note: a first reading");
        self.see(empty_behind && in_use_behind, "note: of several empty rows the lowest, with rows in use behind it");
        self.see(at.is_some_and(between) && at == seen.freed, "note: the row that a close of a full table left, between others");
    }

    fn noted_more(&mut self, seen: &Seen, at: usize) {
        let (row, after) = (&seen.before[at], &seen.after[at]);
        let full = row.count as usize == READINGS;
        let oldest = row.readings[0];
        self.see(row_of(seen.before, 0).is_some_and(|empty| empty < at), "note: a row that stands behind an empty row");
        self.see(row.count as usize == READINGS - 1, "note: a 24th reading");
        self.see(full, "note: the oldest reading makes way");
        self.see(full && after.readings.iter().all(|&reading| oldest < reading), "note: the lowest reading makes way");
        self.see(full && after.readings.iter().all(|&reading| oldest > reading), "note: the highest reading makes way");
    }

    fn closed(&mut self, seen: &Seen, batch: u32) {
        let at = if batch == 0 { None } else { row_of(seen.before, batch) };
        self.see(at == Some(0), "close: the first row");
        self.see(at.is_some_and(between), "close: a row between others");
        self.see(at == Some(LAST), "close: the last row");
        self.see(at.is_none(), "close: a batch that has no row");
        self.see(batch == 0, "close: batch 0");
    }

    fn asked(&mut self, seen: &Seen, batch: u32) {
        let readings = seen.lists.length(batch);
        self.see(readings > 0, "figures: of a batch with a row");
        self.see(readings >= 1000, "figures: after a thousand readings since the last close");
        self.see(readings == READINGS, "figures: of 24 readings");
        self.see(readings == 0, "figures: none");
        self.see(readings == 0 && seen.lists.was_closed(batch), "figures: none, after a close");
        self.see(batch == 0, "figures: none, batch 0");
        let sum = seen.lists.figures(batch).sum;
        self.see(sum != i32::from(sum as i16), "figures: a sum that does not fit 16 bits");
    }

    fn looked_up(&mut self, seen: &Seen, row: usize) {
        let in_use = seen.before.get(row).map(|row| row.batch != 0);
        self.see(row == 0 && in_use == Some(true), "batch: of the first row");
        self.see(between(row) && in_use == Some(true), "batch: of a row between others");
        self.see(row == LAST && in_use == Some(true), "batch: of the last row");
        self.see(in_use == Some(false), "batch: none, an empty row");
        self.see(in_use.is_none(), "batch: none, no such row");
    }

    /// A table that was turned, or refused, as it was before.
    pub fn turned(&mut self, table: &[Row], answer: u8) {
        self.calls += 1;
        if answer != 0 {
            self.turn_refused(table);
            return;
        }
        let in_use = |at: &usize| table[*at].batch != 0;
        let holds = |value: i16| table.iter().any(|row| row.readings.contains(&value));
        self.see(!(0..HISTORY_ROWS).any(|at| in_use(&at)), "turned: an empty table");
        self.see((0..HISTORY_ROWS).all(|at| in_use(&at)), "turned: all rows in use");
        self.see(in_use(&0), "turned: the first row");
        self.see((1..LAST).any(|at| in_use(&at)), "turned: a row between others");
        self.see(in_use(&LAST), "turned: the last row");
        self.see(table.iter().any(|row| row.count as usize == READINGS), "turned: a row of 24 readings");
        self.see(holds(1200), "turned: a reading of 1200");
        self.see(holds(-400), "turned: a reading of -400");
    }

    fn turn_refused(&mut self, table: &[Row]) {
        let sound = |table: &[Row]| History::of(&table.iter().map(to_model).collect::<Vec<_>>()).is_ok();
        self.see(sound(table), "turn refused: a sound table");
        self.see(table.len() != HISTORY_ROWS, "turn refused: a table of another length");
        let mut mended = table.to_vec();
        let cells = mended.iter_mut().flat_map(|row| &mut row.readings);
        let mut out: Vec<&mut i16> = cells.filter(|reading| !in_tenths(reading)).collect();
        self.see(out.is_empty(), "turn refused: for no reading out of range");
        let [reading] = &mut out[..] else {
            return;
        };
        let value = std::mem::replace(*reading, 0);
        // All else is right where the table is sound without it.
        let alone = sound(&mended);
        let at = (0..table.len()).find(|&at| table[at] != mended[at]);
        let in_row = at.is_some_and(|at| table[at].readings[..(table[at].count as usize).min(READINGS)].contains(&value));
        let wraps = Unit::Hundredths.range().contains(&value.wrapping_mul(10));
        let mut see = |holds: bool, name| self.see(alone && holds, name);
        see(in_row && value == 1201, "turn refused: for a reading of 1201 alone");
        see(in_row && value == -401, "turn refused: for a reading of -401 alone");
        see(in_row && value == 3277, "turn refused: for a reading of 3277 alone");
        see(in_row && wraps, "turn refused: for a reading alone that, ten times and cut to 16 bits, is in range");
        see(in_row && Unit::Hundredths.range().contains(&value), "turn refused: for a reading alone that is good in hundredths");
        let to_nothing = value.wrapping_mul(10) == 0;
        see(!in_row && to_nothing, "turn refused: for a cell without a reading that, ten times and cut to 16 bits, is 0");
    }

    pub fn shown(&self) -> Shown {
        Shown { figures: format!("{} calls", self.calls), sights: self.sights.clone() }
    }
}

/// The place of a row: the first, one between or the last.
fn place(row: usize) -> &'static str {
    match row {
        0 => PLACES[0],
        LAST => PLACES[2],
        _ => PLACES[1],
    }
}

fn in_tenths(temperature: &i16) -> bool {
    Unit::Tenths.range().contains(temperature)
}

/// The row of a batch, or the lowest empty row for 0.
fn row_of(table: &[Row], batch: u32) -> Option<usize> {
    table.iter().position(|row| row.batch == batch)
}

fn between(at: usize) -> bool {
    (1..LAST).contains(&at)
}
