//! Of each batch that has a row, all temperatures noted since it was last closed, in a plain list. What the figures have to be is worked
//! out from the last 24 of it.

use std::collections::{HashMap, HashSet};
use vessel_ring::{Figures, Row, READINGS};

#[derive(Default)]
pub struct Lists {
    noted: HashMap<u32, Vec<i16>>,
    closed: HashSet<u32>,
}

impl Lists {
    /// The lists of a sound table: nothing is known of what left it.
    pub fn of(table: &[Row]) -> Lists {
        let in_use = table.iter().filter(|row| row.batch != 0);
        let noted = in_use.map(|row| (row.batch, row.readings[..row.count as usize].to_vec())).collect();
        Lists { noted, closed: HashSet::new() }
    }

    pub fn note(&mut self, batch: u32, temperature: i16) {
        self.noted.entry(batch).or_default().push(temperature);
    }

    pub fn close(&mut self, batch: u32) {
        if self.noted.remove(&batch).is_some() {
            self.closed.insert(batch);
        }
    }

    /// How many readings were noted since the last close.
    pub fn length(&self, batch: u32) -> usize {
        self.noted.get(&batch).map_or(0, Vec::len)
    }

    pub fn was_closed(&self, batch: u32) -> bool {
        self.closed.contains(&batch)
    }

    pub fn figures(&self, batch: u32) -> Figures {
        let Some(list) = self.noted.get(&batch) else {
            return Figures::default();
        };
        let last = &list[list.len().saturating_sub(READINGS)..];
        let (mut lowest, mut highest, mut sum) = (last[0], last[0], 0);
        for &reading in last {
            lowest = lowest.min(reading);
            highest = highest.max(reading);
            sum += i32::from(reading);
        }
        Figures { sum, lowest, highest, refusal: 0, held: 1 }
    }
}
