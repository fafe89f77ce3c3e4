//! What is drawn: scripts of calls, with the batches that they are about, and sound tables made by hand.

use common::random::Random;
use second_model::generate::{bad_record, good_record};
use second_model::ring::{BatchNumber, Record};
use vessel_ring::{Row, HISTORY_ROWS, READINGS};

#[derive(Clone, Copy, PartialEq, Eq, Debug)]
pub enum Call {
    Note(Record),
    Close(u32),
    Figures(u32),
    Batch(usize),
}

/// Temperatures in range: any of them, at the edges too, or few, so that equal ones meet.
fn temperature(random: &mut Random, few: bool) -> i16 {
    let inside = random.between(0, 16_000) as i16 - 4000;
    if few {
        random.pick(&[-4000, 0, 1, 12000])
    } else {
        random.pick(&[inside, inside, inside, inside, inside, inside, -4000, 12000])
    }
}

/// A batch number, not 0: small ones, large ones, and such that half of their bits are zero.
fn batch(random: &mut Random) -> u32 {
    let small = random.between(1, 300) as u32;
    let any = random.draw() as u32;
    random.pick(&[small, small << 16, u32::MAX - small, u32::MAX, any.max(1)])
}

/// So many different batch numbers.
fn batches(random: &mut Random, count: usize) -> Vec<u32> {
    let mut batches = Vec::new();
    while batches.len() < count {
        let batch = batch(random);
        if !batches.contains(&batch) {
            batches.push(batch);
        }
    }
    batches
}

/// How a script draws its calls.
pub struct Script {
    /// The batches that it is about. Half of the calls are about the first four.
    pub batches: Vec<u32>,
    /// Of a thousand calls so many close a batch.
    closes: usize,
    few_temperatures: bool,
    pub length: usize,
}

impl Script {
    pub fn draw(random: &mut Random) -> Script {
        let (count, closes) = match random.below(4) {
            // Rows overflow again and again.
            0 => (random.between(1, 4), random.pick(&[0, 1])),
            1 => (random.between(5, 60), random.pick(&[2, 20])),
            // All rows are in use.
            2 => (random.between(HISTORY_ROWS + 2, HISTORY_ROWS + 40), random.pick(&[3, 20])),
            // Rows in use and empty ones in any order.
            _ => (random.between(60, HISTORY_ROWS + 40), 150),
        };
        let batches = batches(random, count);
        Script { batches, closes, few_temperatures: random.percent(25), length: random.between(1000, 6000) }
    }

    /// A sound table made by hand: batches of the script in any rows, in as many as there are or in some.
    pub fn table(&self, random: &mut Random) -> Vec<Row> {
        let mut table = vec![Row::default(); HISTORY_ROWS];
        let mut empty: Vec<usize> = (0..HISTORY_ROWS).collect();
        let share = random.pick(&[30, 90, 100]);
        for &batch in self.batches.iter().take(HISTORY_ROWS) {
            if random.percent(share) {
                let at = empty.swap_remove(random.below(empty.len()));
                table[at] = row(random, batch);
            }
        }
        table
    }

    fn batch(&self, random: &mut Random) -> u32 {
        let first = self.batches.len().min(4);
        let among = random.pick(&[first, self.batches.len()]);
        self.batches[random.below(among)]
    }

    /// A batch of the script; sometimes 0, or one that is not of the script.
    fn any_batch(&self, random: &mut Random) -> u32 {
        match random.below(20) {
            0 => 0,
            1 => batch(random),
            _ => self.batch(random),
        }
    }

    /// A record that is mostly good.
    pub fn record(&self, random: &mut Random) -> Record {
        if random.percent(8) {
            return self.bad_record(random);
        }
        let number = BatchNumber(self.batch(random));
        Record { number, temperature: temperature(random, self.few_temperatures), ..good_record(random) }
    }

    /// A record that is mostly bad.
    pub fn bad_record(&self, random: &mut Random) -> Record {
        let record = bad_record(random);
        let number = if record.number.0 == 0 { 0 } else { self.batch(random) };
        Record { number: BatchNumber(number), ..record }
    }

    pub fn close(&self, random: &mut Random) -> Call {
        Call::Close(self.any_batch(random))
    }

    pub fn figures(&self, random: &mut Random) -> Call {
        Call::Figures(self.any_batch(random))
    }

    /// The batch of a row, sometimes of one that no table has.
    pub fn batch_in(&self, random: &mut Random) -> Call {
        let row = random.below(HISTORY_ROWS);
        Call::Batch(random.pick(&[row, row, row, 0, HISTORY_ROWS - 1, HISTORY_ROWS, row + HISTORY_ROWS, usize::MAX]))
    }

    pub fn call(&self, random: &mut Random) -> Call {
        if random.below(1000) < self.closes {
            self.close(random)
        } else if random.percent(70) {
            Call::Note(self.record(random))
        } else {
            self.figures(random)
        }
    }
}

/// A row in use, with its number of readings and the readings at the edges or within.
fn row(random: &mut Random, batch: u32) -> Row {
    let drawn = random.between(1, READINGS);
    let count = random.pick(&[1, drawn, READINGS - 1, READINGS]);
    let few = random.percent(25);
    let mut row = Row { batch, count: count as u32, ..Row::default() };
    row.readings[..count].fill_with(|| temperature(random, few));
    row
}
