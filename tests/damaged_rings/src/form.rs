//! A ring of the second model as it lies in memory, and back.

use common::layout::{
    deliveries, put_temperature, record_at, record_bytes, record_in, temperature_in, Bytes, CAPACITY, CARRIED, CHANNEL_COUNT, DELIVERIES,
    LINES, MARKS, NODE_COUNT, OFFERED, OFFERS, PHASES, RECEIVERS, SENDERS, SLOTS, SPARE, STARTED, USED, WAITING,
};
use second_model::ring::{BatchNumber, Channel, Node, NodeNumber, Record, Ring};
use vessel_ring::RECORD_BYTES;

pub fn to_c(record: &Record) -> vessel_ring::Record {
    let Record { number, temperature, vessel, length, name } = *record;
    vessel_ring::Record { batch: number.0, vessel, name_length: length, temperature, name }
}

pub fn from_c(record: vessel_ring::Record) -> Record {
    let vessel_ring::Record { batch, vessel, name_length, temperature, name } = record;
    Record { number: BatchNumber(batch), temperature, vessel, length: name_length, name }
}

/// Puts a record where a channel's stands among the offers or the records carried.
pub fn put_record(bytes: &mut Bytes, part: usize, channel: usize, record: &Record) {
    bytes[part + channel * RECORD_BYTES..][..RECORD_BYTES].copy_from_slice(&record_bytes(&to_c(record)));
}

/// Gives every record of a ring another temperature; where there is none all is 0.
pub fn change_temperatures(bytes: &mut Bytes, change: impl Fn(i16) -> i16) {
    for record in bytes[OFFERS..].chunks_exact_mut(RECORD_BYTES) {
        let before = temperature_in((&*record).try_into().expect("40 bytes"));
        put_temperature(record, change(before));
    }
}

// ---- Laying out.

/// Lays a ring out: every byte is written.
pub fn lay_out(ring: &Ring, bytes: &mut Bytes) {
    bytes[DELIVERIES..STARTED].copy_from_slice(&ring.deliveries.to_ne_bytes());
    bytes[STARTED] = ring.started;
    bytes[NODE_COUNT] = ring.node_count;
    bytes[CHANNEL_COUNT] = ring.channel_count;
    bytes[SPARE] = 0;
    for (at, node) in ring.nodes.iter().enumerate() {
        lay_out_node(node, at, bytes);
    }
    for (at, channel) in ring.channels.iter().enumerate() {
        lay_out_channel(channel, at, bytes);
    }
    bytes[SLOTS..LINES].copy_from_slice(&ring.slots);
    bytes[LINES..OFFERS].copy_from_slice(&ring.lines);
}

fn lay_out_node(node: &Node, at: usize, bytes: &mut Bytes) {
    bytes[CAPACITY + at] = node.slots;
    bytes[USED + at] = node.buffer_length;
    bytes[WAITING + at] = node.line_length;
    bytes[MARKS + at] = node.turn_mark;
}

fn lay_out_channel(channel: &Channel, at: usize, bytes: &mut Bytes) {
    bytes[SENDERS + at] = channel.sender.0;
    bytes[RECEIVERS + at] = channel.receiver.0;
    bytes[PHASES + at] = channel.phase;
    bytes[OFFERED + at] = !channel.offer.is_none() as u8;
    put_record(bytes, OFFERS, at, &channel.offer);
    put_record(bytes, CARRIED, at, &channel.carried);
}

// ---- Reading back.

/// The model's ring that the bytes hold. The spare byte and the flags of the
/// offers are not in it: a ring of the model has no place for them.
pub fn read_back(bytes: &Bytes) -> Ring {
    let mut ring = Ring::fresh();
    ring.deliveries = deliveries(bytes);
    ring.started = bytes[STARTED];
    ring.node_count = bytes[NODE_COUNT];
    ring.channel_count = bytes[CHANNEL_COUNT];
    for (at, node) in ring.nodes.iter_mut().enumerate() {
        *node = read_node(bytes, at);
    }
    for (at, channel) in ring.channels.iter_mut().enumerate() {
        *channel = read_channel(bytes, at);
    }
    ring.slots.copy_from_slice(&bytes[SLOTS..LINES]);
    ring.lines.copy_from_slice(&bytes[LINES..OFFERS]);
    ring
}

fn read_node(bytes: &Bytes, at: usize) -> Node {
    Node { slots: bytes[CAPACITY + at], buffer_length: bytes[USED + at], line_length: bytes[WAITING + at], turn_mark: bytes[MARKS + at] }
}

fn read_channel(bytes: &Bytes, at: usize) -> Channel {
    Channel {
        sender: NodeNumber(bytes[SENDERS + at]),
        receiver: NodeNumber(bytes[RECEIVERS + at]),
        phase: bytes[PHASES + at],
        offer: read_record(bytes, OFFERS, at),
        carried: read_record(bytes, CARRIED, at),
    }
}

pub fn read_record(bytes: &Bytes, part: usize, channel: usize) -> Record {
    from_c(record_in(record_at(bytes, part, channel)))
}
