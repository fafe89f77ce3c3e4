//! Damage: one change to a sound table, after which it is not sound.

use common::random::Random;
use vessel_ring::{Row, READINGS};

/// A kind of damage, done at a row of the table.
pub struct Kind {
    pub name: &'static str,
    /// Whether it can be done at this row.
    suits: fn(&[Row], usize) -> bool,
    /// Does it there.
    change: fn(&mut [Row], usize, &mut Random),
}

fn in_use(table: &[Row], at: usize) -> bool {
    table[at].batch != 0
}

fn empty(table: &[Row], at: usize) -> bool {
    table[at].batch == 0
}

fn with_room(table: &[Row], at: usize) -> bool {
    in_use(table, at) && last(&table[at]) + 1 < READINGS
}

/// The place of the last reading of a row in use.
fn last(row: &Row) -> usize {
    row.count as usize - 1
}

/// The rows in use beside this one.
fn others(table: &[Row], at: usize) -> impl Iterator<Item = Row> + '_ {
    let others = table.iter().enumerate().filter(move |(other, row)| *other != at && row.batch != 0);
    others.map(|(_, row)| *row)
}

fn another(table: &[Row], at: usize, random: &mut Random) -> Row {
    let others: Vec<Row> = others(table, at).collect();
    random.pick(&others)
}

/// A reading in range that is not zero.
fn reading(random: &mut Random) -> i16 {
    let inside = random.between(1, 12_000) as i16;
    random.pick(&[inside, -4000, -400, -1, 1, 1200, 12000])
}

pub const KINDS: [Kind; 23] = [
    Kind { name: "in use, count 0", suits: in_use, change: |table, at, _| table[at].count = 0 },
    Kind { name: "in use, count 25", suits: in_use, change: |table, at, _| table[at].count = 25 },
    Kind { name: "in use, count 200", suits: in_use, change: |table, at, _| table[at].count = 200 },
    Kind { name: "in use, count 2^31", suits: in_use, change: |table, at, _| table[at].count = 1 << 31 },
    Kind { name: "in use, 2^8 added to the count", suits: in_use, change: |table, at, _| table[at].count += 1 << 8 },
    Kind { name: "in use, 2^16 added to the count", suits: in_use, change: |table, at, _| table[at].count += 1 << 16 },
    Kind {
        name: "in use, the last reading not counted",
        suits: |table, at| in_use(table, at) && table[at].count > 1 && table[at].readings[last(&table[at])] != 0,
        change: |table, at, _| table[at].count -= 1,
    },
    Kind {
        name: "in use, a reading right behind the last",
        suits: with_room,
        change: |table, at, random| table[at].readings[last(&table[at]) + 1] = reading(random),
    },
    Kind {
        name: "in use, a reading in cell 23",
        suits: with_room,
        change: |table, at, random| table[at].readings[READINGS - 1] = reading(random),
    },
    Kind { name: "in use, first reading 12001", suits: in_use, change: |table, at, _| table[at].readings[0] = 12001 },
    Kind { name: "in use, first reading -4001", suits: in_use, change: |table, at, _| table[at].readings[0] = -4001 },
    Kind { name: "in use, last reading 12001", suits: in_use, change: |table, at, _| table[at].readings[last(&table[at])] = 12001 },
    Kind { name: "in use, last reading -4001", suits: in_use, change: |table, at, _| table[at].readings[last(&table[at])] = -4001 },
    Kind {
        name: "in use, a reading far out",
        suits: in_use,
        change: |table, at, random| {
            let place = random.between(0, last(&table[at]));
            table[at].readings[place] = random.pick(&[i16::MIN, -10_000, 20_000, i16::MAX]);
        },
    },
    Kind { name: "in use, the batch number lost", suits: in_use, change: |table, at, _| table[at].batch = 0 },
    Kind {
        name: "in use, the batch of another row",
        suits: |table, at| in_use(table, at) && others(table, at).next().is_some(),
        change: |table, at, random| table[at].batch = another(table, at, random).batch,
    },
    Kind {
        name: "empty, another row copied there",
        suits: |table, at| empty(table, at) && others(table, at).next().is_some(),
        change: |table, at, random| table[at] = another(table, at, random),
    },
    Kind {
        name: "empty, a batch number",
        suits: empty,
        change: |table, at, random| table[at].batch = random.pick(&[7, 1 << 16, 1 << 31, u32::MAX]),
    },
    Kind { name: "empty, a reading in cell 0", suits: empty, change: |table, at, random| table[at].readings[0] = reading(random) },
    Kind {
        name: "empty, a reading in some cell",
        suits: empty,
        change: |table, at, random| table[at].readings[random.below(READINGS)] = reading(random),
    },
    Kind {
        name: "empty, a reading in cell 23",
        suits: empty,
        change: |table, at, random| table[at].readings[READINGS - 1] = reading(random),
    },
    Kind {
        name: "empty, a count up to 24",
        suits: empty,
        change: |table, at, random| table[at].count = random.between(1, READINGS) as u32,
    },
    Kind {
        name: "empty, a larger count",
        suits: empty,
        change: |table, at, random| table[at].count = random.pick(&[25, 1 << 8, 1 << 16, 1 << 31]),
    },
];

/// Damages the table in one of the ways that it allows; answers the kind and the row.
pub fn damage(table: &mut [Row], random: &mut Random) -> (usize, usize) {
    loop {
        let kind = random.below(KINDS.len());
        let places: Vec<usize> = (0..table.len()).filter(|&at| (KINDS[kind].suits)(table, at)).collect();
        if let (Some(&first), Some(&last)) = (places.first(), places.last()) {
            let drawn = random.pick(&places);
            let at = random.pick(&[first, drawn, drawn, last]);
            (KINDS[kind].change)(table, at, random);
            return (kind, at);
        }
    }
}
