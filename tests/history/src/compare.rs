//! One call by the library, by the second model and by the plain lists, and what differs.

use crate::draw::Call;
use crate::lists::Lists;
use crate::tally::{Seen, Tally};
use second_model::history::{self as model, History};
use second_model::ring::{BatchNumber, Record};
use std::ops::Range;
use vessel_ring::{batch_in, close, figures, note, Figures, Row, RowBatch, HISTORY_ROWS};

/// A row that stands before the lent table and behind it. It is no sound row: to read it shows as well as to write it.
pub const STRANGE: Row = Row { batch: 0xA5A5_A5A5, count: 0xA5A5_A5A5, readings: [-0x5A5B; vessel_ring::READINGS] };

/// What a call answers: a refusal's number or 0, or figures, or a batch.
#[derive(Clone, Copy, PartialEq, Eq, Debug)]
enum Answer {
    Plain(u8),
    Figures(Figures),
    Batch(RowBatch),
}

impl Answer {
    fn refusal(self) -> u8 {
        match self {
            Answer::Plain(refusal) => refusal,
            Answer::Figures(figures) => figures.refusal,
            Answer::Batch(batch) => batch.refusal,
        }
    }
}

/// A table lent to the library, with what the model has for it: nothing where the table is to be refused.
pub struct Pair {
    memory: Vec<Row>,
    lent: Range<usize>,
    model: Option<History>,
    lists: Lists,
    freed: Option<usize>,
}

impl Pair {
    /// Lends the first `length` of these rows.
    pub fn new(rows: &[Row], length: usize) -> Pair {
        let memory = [&[STRANGE], rows, &[STRANGE]].concat();
        let table = &rows[..length];
        let model = History::of(&table.iter().map(to_model).collect::<Vec<_>>()).ok();
        let lists = if model.is_some() { Lists::of(table) } else { Lists::default() };
        Pair { memory, lent: 1..1 + length, model, lists, freed: None }
    }

    pub fn table(&self) -> &[Row] {
        &self.memory[self.lent.clone()]
    }

    pub fn is_sound(&self) -> bool {
        self.model.is_some()
    }

    /// One call by all. Says what differs.
    pub fn call(&mut self, call: Call, tally: &mut Tally) -> Result<(), String> {
        let before = self.memory.clone();
        let given = library(&mut self.memory[self.lent.clone()], call);
        let expected = self.model.as_mut().map_or(refused(call, 25), |history| by_model(history, call));
        let mut after = before.clone();
        if let Some(history) = &self.model {
            after[self.lent.clone()].copy_from_slice(&history.table().map(from_model));
        }
        let show = || format!("before:\n{}", shown(&before[self.lent.clone()]));
        if given != expected {
            return Err(format!("{call:?}: the library answers {given:?}, the model {expected:?}\n{}", show()));
        }
        if self.memory != after {
            let same = self.memory.iter().zip(&after).take_while(|(library, model)| library == model).count();
            return Err(format!("{call:?}, {given:?}: the tables differ, first at row {}\n{}", same as isize - 1, show()));
        }
        if let (Call::Figures(batch), true) = (call, self.is_sound()) {
            let afresh = self.lists.figures(batch);
            if given != Answer::Figures(afresh) {
                return Err(format!("{call:?}: {given:?}, worked out afresh {afresh:?}\n{}", show()));
            }
        }
        self.tell(call, given.refusal(), &before, tally);
        Ok(())
    }

    /// Counts a call in which nothing differed, and follows it in the lists.
    fn tell(&mut self, call: Call, refusal: u8, before: &[Row], tally: &mut Tally) {
        let before = &before[self.lent.clone()];
        tally.calls += 1;
        if refusal != 0 {
            self.tell_refused(call, refusal, before, tally);
            return;
        }
        let seen = Seen { call, before, after: self.table(), lists: &self.lists, freed: self.freed };
        tally.accepted(&seen);
        self.freed = freed(&seen);
        match call {
            Call::Note(record) => self.lists.note(record.number.0, record.temperature),
            Call::Close(batch) => self.lists.close(batch),
            Call::Figures(_) | Call::Batch(_) => {}
        }
    }

    fn tell_refused(&self, call: Call, refusal: u8, before: &[Row], tally: &mut Tally) {
        tally.refused(refusal);
        if before.len() != HISTORY_ROWS {
            tally.lent(before.len());
        }
        let Call::Note(record) = call else {
            return;
        };
        let bad = record.check().err().map(|refusal| refusal as u8);
        let full = before.iter().all(|row| row.batch != 0 && row.batch != record.number.0);
        if refusal == 25 {
            bad.or(full.then_some(29)).into_iter().for_each(|number| tally.refused_before(number));
        } else if full && refusal != 29 {
            tally.refused_on_full(refusal);
        }
    }
}

/// The row that stands empty since a close when all others were in use, after this call.
fn freed(seen: &Seen) -> Option<usize> {
    let mut empty = (0..seen.after.len()).filter(|&at| seen.after[at].batch == 0);
    let only = empty.next().filter(|_| empty.next().is_none())?;
    let closed = matches!(seen.call, Call::Close(_)) && seen.before[only].batch != 0;
    (closed || seen.freed == Some(only)).then_some(only)
}

fn library(table: &mut [Row], call: Call) -> Answer {
    match call {
        Call::Note(record) => Answer::Plain(note(table, to_c(record))),
        Call::Close(batch) => Answer::Plain(close(table, batch)),
        Call::Figures(batch) => Answer::Figures(figures(table, batch)),
        Call::Batch(row) => Answer::Batch(batch_in(table, row)),
    }
}

fn by_model(history: &mut History, call: Call) -> Answer {
    match call {
        Call::Note(record) => Answer::Plain(history.note(&record).map_or_else(|refusal| refusal as u8, |()| 0)),
        Call::Close(batch) => {
            history.close(BatchNumber(batch));
            Answer::Plain(0)
        }
        Call::Figures(batch) => Answer::Figures(history.figures(BatchNumber(batch)).map_or(Figures::default(), held)),
        Call::Batch(row) => Answer::Batch(RowBatch { batch: history.batch(row).map_or(0, |number| number.0), refusal: 0 }),
    }
}

fn held(figures: model::Figures) -> Figures {
    let model::Figures { lowest, highest, sum } = figures;
    Figures { sum, lowest, highest, refusal: 0, held: 1 }
}

/// A refusal answers its number alone.
fn refused(call: Call, refusal: u8) -> Answer {
    match call {
        Call::Figures(_) => Answer::Figures(Figures { refusal, ..Figures::default() }),
        Call::Batch(_) => Answer::Batch(RowBatch { refusal, ..RowBatch::default() }),
        _ => Answer::Plain(refusal),
    }
}

fn to_c(record: Record) -> vessel_ring::Record {
    let Record { number, temperature, vessel, length, name } = record;
    vessel_ring::Record { batch: number.0, vessel, name_length: length, temperature, name }
}

pub fn to_model(row: &Row) -> model::Row {
    let Row { batch, count, readings } = *row;
    model::Row { batch: BatchNumber(batch), count, readings }
}

pub fn from_model(row: model::Row) -> Row {
    let model::Row { batch, count, readings } = row;
    Row { batch: batch.0, count, readings }
}

/// The rows that are not all zero.
pub fn shown(table: &[Row]) -> String {
    let rows = table.iter().enumerate().filter(|(_, row)| **row != Row::default());
    rows.map(|(at, row)| format!("  row {at}: batch {}, count {}, {:?}\n", row.batch, row.count, row.readings)).collect()
}
