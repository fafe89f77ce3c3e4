//! Where the parts of a ring lie in memory, as the struct of `examples/rust` has them, and how a record lies in its 40 bytes there.

use std::mem::{offset_of, size_of};
use vessel_ring::{Record, Ring, CHANNELS, NODES, RECORD_BYTES, ROW};

pub const LENGTH: usize = size_of::<Ring>();

pub type Bytes = [u8; LENGTH];

// Where each part begins.
pub const DELIVERIES: usize = offset_of!(Ring, deliveries);
pub const STARTED: usize = offset_of!(Ring, started);
pub const NODE_COUNT: usize = offset_of!(Ring, node_count);
pub const CHANNEL_COUNT: usize = offset_of!(Ring, channel_count);
pub const SPARE: usize = offset_of!(Ring, spare);
pub const CAPACITY: usize = offset_of!(Ring, capacity);
pub const USED: usize = offset_of!(Ring, used);
pub const WAITING: usize = offset_of!(Ring, waiting);
pub const MARKS: usize = offset_of!(Ring, marks);
pub const SENDERS: usize = offset_of!(Ring, senders);
pub const RECEIVERS: usize = offset_of!(Ring, receivers);
pub const PHASES: usize = offset_of!(Ring, phases);
pub const OFFERED: usize = offset_of!(Ring, offered);
pub const SLOTS: usize = offset_of!(Ring, slots);
pub const LINES: usize = offset_of!(Ring, lines);
pub const OFFERS: usize = offset_of!(Ring, offers);
pub const CARRIED: usize = offset_of!(Ring, carried);

/// What a part has an item for.
#[derive(Clone, Copy, PartialEq, Eq, Debug)]
pub enum Each {
    Ring,
    Node,
    Channel,
}

/// A part of the ring: items of the same width, one behind the other.
pub struct Part {
    pub name: &'static str,
    pub first: usize,
    pub each: Each,
    pub width: usize,
}

const fn part(name: &'static str, first: usize, each: Each, width: usize) -> Part {
    Part { name, first, each, width }
}

/// All parts, in the order in which they lie.
pub static PARTS: [Part; 17] = [
    part("deliveries", DELIVERIES, Each::Ring, 4),
    part("started", STARTED, Each::Ring, 1),
    part("node count", NODE_COUNT, Each::Ring, 1),
    part("channel count", CHANNEL_COUNT, Each::Ring, 1),
    part("spare byte", SPARE, Each::Ring, 1),
    part("slots of node", CAPACITY, Each::Node, 1),
    part("buffer length of node", USED, Each::Node, 1),
    part("line length of node", WAITING, Each::Node, 1),
    part("turn mark of node", MARKS, Each::Node, 1),
    part("sender of channel", SENDERS, Each::Channel, 1),
    part("receiver of channel", RECEIVERS, Each::Channel, 1),
    part("phase of channel", PHASES, Each::Channel, 1),
    part("offered flag of channel", OFFERED, Each::Channel, 1),
    part("buffer of node", SLOTS, Each::Node, ROW),
    part("line of node", LINES, Each::Node, ROW),
    part("offer of channel", OFFERS, Each::Channel, RECORD_BYTES),
    part("record carried by channel", CARRIED, Each::Channel, RECORD_BYTES),
];

impl Part {
    /// How many items there is room for.
    pub fn items(&self) -> usize {
        match self.each {
            Each::Ring => 1,
            Each::Node => NODES,
            Each::Channel => CHANNELS,
        }
    }

    /// How many of them are of nodes or channels that were added.
    pub fn in_use(&self, bytes: &Bytes) -> usize {
        match self.each {
            Each::Ring => 1,
            Each::Node => nodes(bytes),
            Each::Channel => channels(bytes),
        }
    }

    pub fn end(&self) -> usize {
        self.first + self.items() * self.width
    }
}

/// A place in words: its part, with the node or channel and the cell or byte.
pub fn name_of(at: usize) -> String {
    let part = PARTS.iter().find(|part| at < part.end()).expect("the parts are the ring");
    let (item, inner) = ((at - part.first) / part.width, (at - part.first) % part.width);
    match (part.each, part.width) {
        (Each::Ring, _) => part.name.to_string(),
        (_, 1) => format!("{} {item}", part.name),
        _ => format!("{} {item} at {inner}", part.name),
    }
}

/// The first place in which two rings differ.
pub fn first_difference(one: &Bytes, other: &Bytes) -> Option<String> {
    let at = (0..LENGTH).find(|&at| one[at] != other[at])?;
    Some(format!("{}, byte {at}: {} and {}", name_of(at), one[at], other[at]))
}

/// A number of four bytes lies in memory as the machine has it.
pub fn deliveries(bytes: &Bytes) -> u32 {
    u32::from_ne_bytes(bytes[DELIVERIES..STARTED].try_into().expect("4 bytes"))
}

/// The nodes added, as far as there is room for them.
pub fn nodes(bytes: &Bytes) -> usize {
    usize::from(bytes[NODE_COUNT]).min(NODES)
}

/// The channels added, as far as there is room for them.
pub fn channels(bytes: &Bytes) -> usize {
    usize::from(bytes[CHANNEL_COUNT]).min(CHANNELS)
}

// ---- Records.

/// The bytes of a channel's record among the offers or the records carried.
pub fn record_at(bytes: &Bytes, part: usize, channel: usize) -> &[u8; RECORD_BYTES] {
    let first = part + channel * RECORD_BYTES;
    bytes[first..first + RECORD_BYTES].try_into().expect("40 bytes")
}

/// "batch number 4, vessel 1, temperature 2 ..., name length 1, name 32", low byte first: as on a tape.
pub fn record_bytes(record: &Record) -> [u8; RECORD_BYTES] {
    let mut bytes = [0; RECORD_BYTES];
    bytes[..4].copy_from_slice(&record.batch.to_le_bytes());
    bytes[4] = record.vessel;
    put_temperature(&mut bytes, record.temperature);
    bytes[7] = record.name_length;
    bytes[8..].copy_from_slice(&record.name);
    bytes
}

pub fn record_in(bytes: &[u8; RECORD_BYTES]) -> Record {
    Record {
        batch: u32::from_le_bytes([bytes[0], bytes[1], bytes[2], bytes[3]]),
        vessel: bytes[4],
        name_length: bytes[7],
        temperature: temperature_in(bytes),
        name: bytes[8..].try_into().expect("32 bytes"),
    }
}

pub fn put_temperature(to: &mut [u8], temperature: i16) {
    to[5..7].copy_from_slice(&temperature.to_le_bytes());
}

pub fn temperature_in(from: &[u8; RECORD_BYTES]) -> i16 {
    i16::from_le_bytes([from[5], from[6]])
}
