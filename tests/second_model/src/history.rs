//! Request N2 of document 02, "Temperature history for each batch", in hundredths
//! of a degree (N5). A row in use is a batch number and a queue of readings; `Row`
//! is how it is lent, and a lent table may hold anything.

use crate::ring::{require, BatchNumber, Record, Refusal, Unit};
use std::collections::{HashSet, VecDeque};

/// "The history is a table of 128 rows that the controller lends."
pub const ROWS: usize = 128;
/// "the last 24 readings of a batch"
pub const READINGS: usize = 24;

/// A row as the controller holds it, with the number of its readings.
#[derive(Clone, Copy, PartialEq, Eq, Debug)]
pub struct Row {
    pub batch: BatchNumber,
    pub count: u32,
    pub readings: [i16; READINGS],
}

impl Row {
    /// "its whole row to zero, which is an empty row"
    pub const EMPTY: Row = Row { batch: BatchNumber(0), count: 0, readings: [0; READINGS] };
}

/// What a row in use holds, the oldest reading in front.
#[derive(Clone, PartialEq, Eq, Debug)]
struct Batch {
    number: BatchNumber,
    readings: VecDeque<i16>,
}

/// "their lowest, highest and sum"
#[derive(Clone, Copy, PartialEq, Eq, Debug)]
pub struct Figures {
    pub lowest: i16,
    pub highest: i16,
    pub sum: i32,
}

/// 128 rows, each empty or in use.
#[derive(Clone, PartialEq, Eq, Debug)]
pub struct History {
    rows: Vec<Option<Batch>>,
}

impl History {
    pub fn empty() -> History {
        History { rows: vec![None; ROWS] }
    }

    /// The history in a lent table. Every call on a table begins with this, but the
    /// one that turns it.
    pub fn of(table: &[Row]) -> Result<History, Refusal> {
        History::read(table, Unit::Hundredths)
    }

    /// 02, N5: "One call turns a ring, and another a history table, held in tenths
    /// into hundredths: each temperature and figure ten times as many, all else the
    /// same, 25 where it isn't sound in tenths". The figures are worked out from the
    /// readings, so they are too. This is the history of the turned table.
    pub fn of_tenths(table: &[Row]) -> Result<History, Refusal> {
        let mut history = History::read(table, Unit::Tenths)?;
        let batches = history.rows.iter_mut().flatten();
        batches.flat_map(|batch| &mut batch.readings).for_each(|reading| *reading *= 10);
        Ok(history)
    }

    /// "25 also covers a table that hasn't exactly 128 rows, has a row that isn't as
    /// said here, or has two rows of one batch".
    fn read(table: &[Row], unit: Unit) -> Result<History, Refusal> {
        require(table.len() == ROWS, Refusal::Unsound)?;
        let read = table.iter().map(|row| read_row(row, unit));
        let rows: Vec<Option<Batch>> = read.collect::<Result<_, _>>()?;
        let mut met = HashSet::new();
        let once = rows.iter().flatten().all(|batch| met.insert(batch.number.0));
        require(once, Refusal::Unsound)?;
        Ok(History { rows })
    }

    pub fn table(&self) -> [Row; ROWS] {
        std::array::from_fn(|at| self.rows[at].as_ref().map_or(Row::EMPTY, lay_row))
    }

    /// "A record goes to the row of its batch, else to the lowest empty row; the
    /// oldest of 24 readings makes way." "a bad record is 11 to 14; then 29, when
    /// the batch has no row and none is empty".
    pub fn note(&mut self, record: &Record) -> Result<(), Refusal> {
        record.check()?;
        let place = self.row_of(record.number).or_else(|| self.lowest_empty());
        let row = &mut self.rows[place.ok_or(Refusal::NoEmptyRow)?];
        let opened = Batch { number: record.number, readings: VecDeque::new() };
        let readings = &mut row.get_or_insert(opened).readings;
        readings.push_back(record.temperature);
        if readings.len() > READINGS {
            readings.pop_front();
        }
        Ok(())
    }

    /// "Closing a batch sets its whole row to zero, which is an empty row, and
    /// closing one that has no row changes nothing."
    pub fn close(&mut self, number: BatchNumber) {
        if let Some(at) = self.row_of(number) {
            self.rows[at] = None;
        }
    }

    /// "The three figures equal those worked out afresh from the readings"; "A
    /// batch without a row has the figures 'none'."
    pub fn figures(&self, number: BatchNumber) -> Option<Figures> {
        let readings = &self.rows[self.row_of(number)?].as_ref()?.readings;
        Some(Figures {
            lowest: *readings.iter().min()?,
            highest: *readings.iter().max()?,
            sum: readings.iter().map(|&reading| i32::from(reading)).sum(),
        })
    }

    /// The batch of a row; nothing for an empty row, and for one that a table of 128
    /// rows does not have.
    pub fn batch(&self, row: usize) -> Option<BatchNumber> {
        self.rows.get(row)?.as_ref().map(|batch| batch.number)
    }

    /// Nothing for batch number 0, which "never has a row".
    pub fn row_of(&self, number: BatchNumber) -> Option<usize> {
        let is_it = |row: &Option<Batch>| row.as_ref().is_some_and(|batch| batch.number == number);
        self.rows.iter().position(is_it)
    }

    pub fn lowest_empty(&self) -> Option<usize> {
        self.rows.iter().position(Option::is_none)
    }
}

/// "A row in use holds 1 to 24 readings in range, oldest first and zeros after
/// the last; batch number 0 never has a row."
fn read_row(row: &Row, unit: Unit) -> Result<Option<Batch>, Refusal> {
    if row.batch == BatchNumber(0) {
        require(*row == Row::EMPTY, Refusal::Unsound)?;
        return Ok(None);
    }
    require((1..=READINGS as u32).contains(&row.count), Refusal::Unsound)?;
    let (held, rest) = row.readings.split_at(row.count as usize);
    require(held.iter().all(|reading| unit.range().contains(reading)), Refusal::Unsound)?;
    require(rest.iter().all(|&reading| reading == 0), Refusal::Unsound)?;
    Ok(Some(Batch { number: row.batch, readings: held.iter().copied().collect() }))
}

fn lay_row(batch: &Batch) -> Row {
    let mut row = Row { batch: batch.number, count: batch.readings.len() as u32, ..Row::EMPTY };
    for (cell, &reading) in row.readings.iter_mut().zip(&batch.readings) {
        *cell = reading;
    }
    row
}
