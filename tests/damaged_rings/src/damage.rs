//! Changes to the bytes of a ring, by kind. Some leave it sound.

use crate::form::put_record;
use common::layout::{
    channels, nodes, put_temperature, record_at, temperature_in, Bytes, Part, CAPACITY, CARRIED, CHANNEL_COUNT, DELIVERIES, LENGTH, LINES,
    MARKS, NODE_COUNT, OFFERED, OFFERS, PARTS, PHASES, RECEIVERS, SENDERS, SLOTS, SPARE, STARTED, USED, WAITING,
};
use common::random::Random;
use second_model::generate::{good_record, EDGE_HUNDREDTHS, EDGE_TENTHS};
use second_model::ring::{Unit, BLANK};
use vessel_ring::{CHANNELS, RECORD_BYTES as RECORD, ROW};

/// A kind of change. It answers whether it changed the ring: there may be
/// nothing of the kind to change, or it may draw what is there already.
pub struct Kind {
    pub name: &'static str,
    pub change: fn(&mut Bytes, &mut Random) -> bool,
}

const fn kind(name: &'static str, change: fn(&mut Bytes, &mut Random) -> bool) -> Kind {
    Kind { name, change }
}

/// The first so many kinds change the whole ring, the others one place.
pub const WHOLE: usize = 3;

pub const KINDS: [Kind; 32] = [
    kind("every byte 0", every_byte_0),
    kind("every byte FF", every_byte_ff),
    kind("every byte drawn", every_byte_drawn),
    kind("a byte drawn", byte_drawn),
    kind("a byte one more or less", byte_one_off),
    kind("a bit the other way", bit_flipped),
    kind("a byte beyond the nodes or channels", byte_beyond),
    kind("the spare byte", spare_byte),
    kind("the count of deliveries", deliveries),
    kind("the count of nodes", node_count),
    kind("the count of channels", channel_count),
    kind("the slots of a node", slots_of_node),
    kind("the length of a buffer or line", queue_length),
    kind("the flag of the start", started),
    kind("the flag of an offer", offered),
    kind("a turn mark", turn_mark),
    kind("a phase", phase),
    kind("a sender or receiver", end_of_channel),
    kind("a cell of a queue drawn", cell_drawn),
    kind("a cell behind a queue", cell_behind),
    kind("cells of a row exchanged", exchanged_in_row),
    kind("cells of two rows exchanged", exchanged_between_rows),
    kind("a message doubled", message_doubled),
    kind("a message moved", message_moved),
    kind("a message lost", message_lost),
    kind("a message put in", message_put),
    kind("a field of a record", record_field),
    kind("a record put in", record_put),
    kind("a record taken out", record_taken),
    kind("a blank at an end of a name", blank_end),
    kind("a temperature out of range", temperature_out),
    kind(NO_TENTHS, temperature_of_no_tenths),
];

/// The kinds that, as the only change, leave every sound ring sound.
pub const ALWAYS_SOUND: [&str; 3] = ["every byte 0", "a blank at an end of a name", NO_TENTHS];
/// The one of them that leaves no ring sound in tenths.
pub const NO_TENTHS: &str = "a temperature that is good in hundredths alone";

/// Changes one place and answers the kind of the change.
pub fn change_place(bytes: &mut Bytes, random: &mut Random) -> usize {
    loop {
        let drawn = random.between(WHOLE, KINDS.len() - 1);
        if (KINDS[drawn].change)(bytes, random) {
            return drawn;
        }
    }
}

/// Changes one to three places, or now and then the whole ring; answers the kinds of the changes.
pub fn change(bytes: &mut Bytes, random: &mut Random) -> Vec<usize> {
    if random.percent(5) {
        return vec![change_whole(bytes, random)];
    }
    (0..random.between(1, 3)).map(|_| change_place(bytes, random)).collect()
}

/// Changes the whole ring and answers the kind of the change.
pub fn change_whole(bytes: &mut Bytes, random: &mut Random) -> usize {
    let drawn = random.below(WHOLE);
    (KINDS[drawn].change)(bytes, random);
    drawn
}

fn set(bytes: &mut Bytes, at: usize, value: u8) -> bool {
    std::mem::replace(&mut bytes[at], value) != value
}

/// A number close to the one that stands there, or at an edge, or any.
fn near(random: &mut Random, value: u8, edges: &[u8]) -> u8 {
    match random.below(5) {
        0 => value.wrapping_add(1),
        1 => value.wrapping_sub(1),
        2 | 3 => random.pick(edges),
        _ => random.byte(),
    }
}

/// A number from `first` to `last`, often one of these two.
fn draw_with_edges(random: &mut Random, first: usize, last: usize) -> usize {
    let drawn = random.between(first, last);
    random.pick(&[first, last, drawn])
}

// ---- The whole ring.

fn every_byte_0(bytes: &mut Bytes, _: &mut Random) -> bool {
    *bytes = [0; LENGTH];
    true
}

fn every_byte_ff(bytes: &mut Bytes, _: &mut Random) -> bool {
    *bytes = [0xFF; LENGTH];
    true
}

fn every_byte_drawn(bytes: &mut Bytes, random: &mut Random) -> bool {
    bytes.iter_mut().for_each(|byte| *byte = random.byte());
    true
}

// ---- Any byte.

/// A place in any part, each as often as the others, and mostly of a node or
/// channel in use. By places alone nearly all would be in empty records.
fn place(bytes: &Bytes, random: &mut Random) -> usize {
    let part = draw_part(random);
    let in_use = part.in_use(bytes);
    let item = if in_use > 0 && random.percent(80) { random.below(in_use) } else { random.below(part.items()) };
    part.first + item * part.width + random.below(part.width)
}

fn draw_part(random: &mut Random) -> &'static Part {
    &PARTS[random.below(PARTS.len())]
}

fn byte_drawn(bytes: &mut Bytes, random: &mut Random) -> bool {
    let at = place(bytes, random);
    set(bytes, at, random.byte())
}

fn byte_one_off(bytes: &mut Bytes, random: &mut Random) -> bool {
    let at = place(bytes, random);
    let step = random.pick(&[1, 0xFF]);
    set(bytes, at, bytes[at].wrapping_add(step))
}

fn bit_flipped(bytes: &mut Bytes, random: &mut Random) -> bool {
    let at = place(bytes, random);
    set(bytes, at, bytes[at] ^ 1 << random.below(8))
}

fn byte_beyond(bytes: &mut Bytes, random: &mut Random) -> bool {
    let part = draw_part(random);
    let (in_use, items) = (part.in_use(bytes), part.items());
    if in_use == items {
        return false;
    }
    let item = draw_with_edges(random, in_use, items - 1);
    let at = part.first + item * part.width + draw_with_edges(random, 0, part.width - 1);
    let value = random.pick(&[1, 2, 0x41, 0x80, 0xFF]);
    set(bytes, at, value)
}

// ---- The head.

fn spare_byte(bytes: &mut Bytes, random: &mut Random) -> bool {
    let value = random.pick(&[1, 2, 0x80, 0xFF]);
    set(bytes, SPARE, value)
}

/// "The ring counts deliveries; the count stops at 4,294,967,295."
fn deliveries(bytes: &mut Bytes, random: &mut Random) -> bool {
    let drawn = random.draw() as u32;
    let count = random.pick(&[0, 1, 256, 1 << 24, u32::MAX, drawn]).to_ne_bytes();
    let changed = bytes[DELIVERIES..STARTED] != count;
    bytes[DELIVERIES..STARTED].copy_from_slice(&count);
    changed
}

fn node_count(bytes: &mut Bytes, random: &mut Random) -> bool {
    let count = near(random, bytes[NODE_COUNT], &[0, 1, 15, 16, 17]);
    set(bytes, NODE_COUNT, count)
}

fn channel_count(bytes: &mut Bytes, random: &mut Random) -> bool {
    let count = near(random, bytes[CHANNEL_COUNT], &[0, 1, 63, 64, 65]);
    set(bytes, CHANNEL_COUNT, count)
}

/// The slots of a node, also such that it is full or that b is c or c + 1.
fn slots_of_node(bytes: &mut Bytes, random: &mut Random) -> bool {
    let Some(at) = draw_below(random, nodes(bytes)) else {
        return false;
    };
    let slots = if random.percent(30) {
        slots_for(bytes, at, channels(bytes) + random.below(2))
    } else {
        near(random, bytes[CAPACITY + at], &[0, 1, 64, 65, bytes[USED + at]])
    };
    set(bytes, CAPACITY + at, slots)
}

/// The slots of a node with which all have a total of b, as far as a byte goes.
fn slots_for(bytes: &Bytes, at: usize, b: usize) -> u8 {
    let all: usize = bytes[CAPACITY..][..nodes(bytes)].iter().map(|&slots| slots as usize).sum();
    let others = all - bytes[CAPACITY + at] as usize;
    b.saturating_sub(others).min(255) as u8
}

fn started(bytes: &mut Bytes, random: &mut Random) -> bool {
    let flag = random.pick(&[0, 1, 2, 255]);
    set(bytes, STARTED, flag)
}

fn offered(bytes: &mut Bytes, random: &mut Random) -> bool {
    let Some(at) = draw_below(random, channels(bytes)) else {
        return false;
    };
    let flag = random.pick(&[0, 1, 2, 255]);
    set(bytes, OFFERED + at, flag)
}

fn turn_mark(bytes: &mut Bytes, random: &mut Random) -> bool {
    let Some(at) = draw_below(random, nodes(bytes)) else {
        return false;
    };
    let mark = random.pick(&[0, 1, 1, 2, 255]);
    set(bytes, MARKS + at, mark)
}

fn phase(bytes: &mut Bytes, random: &mut Random) -> bool {
    let Some(at) = draw_below(random, channels(bytes)) else {
        return false;
    };
    let phase = random.pick(&[0, 1, 2, 3, 4, 255]);
    set(bytes, PHASES + at, phase)
}

/// Another sender or receiver, also the same node as the other one.
fn end_of_channel(bytes: &mut Bytes, random: &mut Random) -> bool {
    let Some(at) = draw_below(random, channels(bytes)) else {
        return false;
    };
    let (sender, receiver) = (SENDERS + at, RECEIVERS + at);
    let (one, other) = random.pick(&[(sender, receiver), (receiver, sender)]);
    let n = bytes[NODE_COUNT];
    let node = near(random, bytes[one], &[0, n.wrapping_sub(1), n, bytes[other]]);
    set(bytes, one, node)
}

/// A number below `end`, unless that is 0.
fn draw_below(random: &mut Random, end: usize) -> Option<usize> {
    (end > 0).then(|| random.below(end))
}

// ---- Buffers and lines.

/// A node's row, with its buffer or its line: where its cells and its length
/// are.
#[derive(Clone, Copy)]
struct Row {
    cells: usize,
    length: usize,
}

impl Row {
    /// A row of a node in use.
    fn draw(bytes: &Bytes, random: &mut Random) -> Option<Row> {
        let row = draw_below(random, 2 * nodes(bytes))?;
        Some(Row::numbered(row))
    }

    /// A row of a node in use that is not empty.
    fn draw_filled(bytes: &Bytes, random: &mut Random) -> Option<Row> {
        let rows = 2 * nodes(bytes);
        let first = draw_below(random, rows)?;
        let around = (0..rows).map(|step| Row::numbered((first + step) % rows));
        around.into_iter().find(|row| row.long(bytes) > 0)
    }

    /// Node p has rows 2 p and 2 p + 1.
    fn numbered(row: usize) -> Row {
        let at = row / 2;
        match row % 2 {
            0 => Row { cells: SLOTS + at * ROW, length: USED + at },
            _ => Row { cells: LINES + at * ROW, length: WAITING + at },
        }
    }

    /// How long it is, as far as there are cells.
    fn long(self, bytes: &Bytes) -> usize {
        (bytes[self.length] as usize).min(ROW)
    }

    /// The place of a cell of the queue, which is not empty.
    fn draw_cell(self, bytes: &Bytes, random: &mut Random) -> usize {
        self.cells + random.below(self.long(bytes))
    }

    /// Puts a cell at the end; answers whether there is room.
    fn push(self, bytes: &mut Bytes, cell: u8) -> bool {
        let long = self.long(bytes);
        if long == ROW {
            return false;
        }
        bytes[self.cells + long] = cell;
        bytes[self.length] = long as u8 + 1;
        true
    }

    /// Takes a cell of the queue out; those behind it close up.
    fn take(self, bytes: &mut Bytes, at: usize) -> u8 {
        let cell = bytes[at];
        let last = self.cells + self.long(bytes) - 1;
        bytes.copy_within(at + 1..=last, at);
        bytes[last] = 0;
        bytes[self.length] = (last - self.cells) as u8;
        cell
    }
}

fn queue_length(bytes: &mut Bytes, random: &mut Random) -> bool {
    let Some(row) = Row::draw(bytes, random) else {
        return false;
    };
    let length = near(random, bytes[row.length], &[0, 1, 63, 64, 65]);
    set(bytes, row.length, length)
}

/// Another number in a cell of a queue.
fn cell_drawn(bytes: &mut Bytes, random: &mut Random) -> bool {
    let Some(row) = Row::draw_filled(bytes, random) else {
        return false;
    };
    let at = row.draw_cell(bytes, random);
    let cell = near(random, bytes[at], &[0, 1, bytes[CHANNEL_COUNT], 64, 65]);
    set(bytes, at, cell)
}

/// A number in a cell behind the end of a queue.
fn cell_behind(bytes: &mut Bytes, random: &mut Random) -> bool {
    let Some(row) = Row::draw(bytes, random) else {
        return false;
    };
    let long = row.long(bytes);
    if long == ROW {
        return false;
    }
    let at = draw_with_edges(random, long, ROW - 1);
    let cell = draw_message(bytes, random);
    set(bytes, row.cells + at, cell)
}

/// The number of a channel, plus one, now and then of none.
fn draw_message(bytes: &Bytes, random: &mut Random) -> u8 {
    random.between(1, channels(bytes) + 1) as u8
}

/// A cell of a queue and another cell of its row: within the queue only the
/// order changes.
fn exchanged_in_row(bytes: &mut Bytes, random: &mut Random) -> bool {
    let Some(row) = Row::draw_filled(bytes, random) else {
        return false;
    };
    let at = row.draw_cell(bytes, random);
    let (in_queue, in_row) = (row.draw_cell(bytes, random), row.cells + random.below(ROW));
    let other = random.pick(&[in_queue, in_row]);
    bytes.swap(at, other);
    bytes[at] != bytes[other]
}

fn exchanged_between_rows(bytes: &mut Bytes, random: &mut Random) -> bool {
    let (Some(row), Some(other)) = (Row::draw_filled(bytes, random), Row::draw_filled(bytes, random)) else {
        return false;
    };
    let (at, there) = (row.draw_cell(bytes, random), other.draw_cell(bytes, random));
    bytes.swap(at, there);
    bytes[at] != bytes[there]
}

/// A message a second time on the ring, in the same row or another.
fn message_doubled(bytes: &mut Bytes, random: &mut Random) -> bool {
    let (Some(row), Some(other)) = (Row::draw_filled(bytes, random), Row::draw(bytes, random)) else {
        return false;
    };
    let at = row.draw_cell(bytes, random);
    random.pick(&[row, other]).push(bytes, bytes[at])
}

/// A message at the end of another row than its own.
fn message_moved(bytes: &mut Bytes, random: &mut Random) -> bool {
    let (Some(row), Some(other)) = (Row::draw_filled(bytes, random), Row::draw(bytes, random)) else {
        return false;
    };
    if other.cells == row.cells || other.long(bytes) == ROW {
        return false;
    }
    let at = row.draw_cell(bytes, random);
    let message = row.take(bytes, at);
    other.push(bytes, message)
}

fn message_lost(bytes: &mut Bytes, random: &mut Random) -> bool {
    let Some(row) = Row::draw_filled(bytes, random) else {
        return false;
    };
    let at = row.draw_cell(bytes, random);
    row.take(bytes, at);
    true
}

/// A message of any channel, which may be on the ring or not.
fn message_put(bytes: &mut Bytes, random: &mut Random) -> bool {
    let Some(row) = Row::draw(bytes, random) else {
        return false;
    };
    let message = draw_message(bytes, random);
    row.push(bytes, message)
}

// ---- Records.

/// A record that is not all zero: whether it is offered or carried, and the
/// channel.
fn draw_record(bytes: &Bytes, random: &mut Random) -> Option<(usize, usize)> {
    let first = random.below(2 * CHANNELS);
    let around = (0..2 * CHANNELS).map(|step| (first + step) % (2 * CHANNELS));
    let mut records = around.map(|at| ([OFFERS, CARRIED][at % 2], at / 2));
    records.find(|&(part, channel)| record_at(bytes, part, channel) != &[0; RECORD])
}

/// A field of a record, also within its limits.
fn record_field(bytes: &mut Bytes, random: &mut Random) -> bool {
    let Some((part, channel)) = draw_record(bytes, random) else {
        return false;
    };
    let before = *record_at(bytes, part, channel);
    let mut record = before;
    change_field(&mut record, random);
    bytes[part + channel * RECORD..][..RECORD].copy_from_slice(&record);
    record != before
}

fn change_field(record: &mut [u8; RECORD], random: &mut Random) {
    let length = (record[7] as usize).min(32);
    match random.below(6) {
        0 => record[..4].copy_from_slice(&random.pick(&[0u32, 1, 256, u32::MAX]).to_le_bytes()),
        1 => record[4] = random.byte(),
        2 => {
            let drawn = temperature(random);
            put_temperature(record, drawn);
        }
        3 => record[7] = near(random, record[7], &[0, 31, 32, 33]),
        4 => record[8 + random.below(length.max(1))] = name_byte(random),
        _ => record[8 + random.between(length.min(31), 31)] = name_byte(random),
    }
}

fn temperature(random: &mut Random) -> i16 {
    let drawn = random.draw() as i16;
    let (tenths, hundredths) = (random.pick(&EDGE_TENTHS), random.pick(&EDGE_HUNDREDTHS));
    random.pick(&[tenths, hundredths, drawn])
}

/// A temperature, at an edge or not, for which this holds.
fn temperature_with(random: &mut Random, holds: impl Fn(&i16) -> bool) -> i16 {
    loop {
        let drawn = temperature(random);
        if holds(&drawn) {
            return drawn;
        }
    }
}

fn name_byte(random: &mut Random) -> u8 {
    random.pick(&[0, 1, 0x1F, 0x20, 0x41, 0x7E, 0x7F, 0x80, 0xFF])
}

/// A good record, also in a place where none may be: offered, with its flag set
/// or not, or carried, now and then beyond the channels in use.
fn record_put(bytes: &mut Bytes, random: &mut Random) -> bool {
    let end = if random.percent(15) { CHANNELS } else { channels(bytes) };
    let Some(channel) = draw_below(random, end) else {
        return false;
    };
    let part = random.pick(&[OFFERS, CARRIED]);
    put_record(bytes, part, channel, &good_record(random));
    if part == OFFERS && random.percent(70) {
        bytes[OFFERED + channel] = 1;
    }
    true
}

/// A record taken out; the flag of an offer is cleared with it or not.
fn record_taken(bytes: &mut Bytes, random: &mut Random) -> bool {
    let Some((part, channel)) = draw_record(bytes, random) else {
        return false;
    };
    bytes[part + channel * RECORD..][..RECORD].fill(0);
    if part == OFFERS && random.percent(50) {
        bytes[OFFERED + channel] = 0;
    }
    true
}

/// A blank first, last or both in the name of a record, which is not empty. A
/// send with such a name is 30 (02, N4), but "a ring that holds one is still
/// sound".
fn blank_end(bytes: &mut Bytes, random: &mut Random) -> bool {
    let Some((part, channel)) = draw_record(bytes, random) else {
        return false;
    };
    let record = &mut bytes[part + channel * RECORD..][..RECORD];
    let (length, before) = (record[7] as usize, record.to_vec());
    if !(1..=32).contains(&length) {
        return false;
    }
    let (first, last) = (8, 7 + length);
    for at in random.pick(&[[first, first], [last, last], [first, last]]) {
        record[at] = BLANK;
    }
    *record != before
}

/// A record with another temperature.
fn change_temperature(bytes: &mut Bytes, random: &mut Random, temperature: i16) -> bool {
    let Some((part, channel)) = draw_record(bytes, random) else {
        return false;
    };
    let before = temperature_in(record_at(bytes, part, channel));
    put_temperature(&mut bytes[part + channel * RECORD..][..RECORD], temperature);
    temperature != before
}

/// Out of range in hundredths, so in tenths too.
fn temperature_out(bytes: &mut Bytes, random: &mut Random) -> bool {
    let out = temperature_with(random, |value| !Unit::Hundredths.range().contains(value));
    change_temperature(bytes, random, out)
}

/// 02, N5: hundredths are "from -4000 to 12000", tenths "-400 to 1200".
fn temperature_of_no_tenths(bytes: &mut Bytes, random: &mut Random) -> bool {
    let in_range = |value: &i16| Unit::Hundredths.range().contains(value);
    let no_tenths = |value: &i16| !Unit::Tenths.range().contains(value);
    let drawn = temperature_with(random, |value| in_range(value) && no_tenths(value));
    change_temperature(bytes, random, drawn)
}
