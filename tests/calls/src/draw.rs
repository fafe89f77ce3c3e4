//! What is drawn: records, rings made by calls and by hand, and calls with arguments in and out of range.

use crate::model::{Call, Channel, Network, Node, Phase, Record, HUNDREDTHS, TENTHS};
use common::random::Random;
use second_model::generate::{EDGE_HUNDREDTHS, EDGE_TENTHS};
use std::collections::VecDeque;
use std::ops::RangeInclusive;

/// What is drawn of temperatures in a unit: those in range, and some on both sides of every edge.
struct Temperatures {
    range: RangeInclusive<i16>,
    edges: &'static [i16],
}

const IN_HUNDREDTHS: Temperatures = Temperatures { range: HUNDREDTHS, edges: &EDGE_HUNDREDTHS };
const IN_TENTHS: Temperatures = Temperatures { range: TENTHS, edges: &EDGE_TENTHS };

impl Temperatures {
    /// In range, and often at an edge.
    fn good(&self, random: &mut Random) -> i16 {
        let (coldest, hottest) = (*self.range.start(), *self.range.end());
        let inside = coldest + random.between(0, (hottest - coldest) as usize) as i16;
        let edge = random.pick(self.edges);
        let edge = if self.range.contains(&edge) { edge } else { inside };
        random.pick(&[inside, coldest, hottest, edge])
    }

    /// Out of range, at an edge.
    fn bad(&self, random: &mut Random) -> i16 {
        loop {
            let edge = random.pick(self.edges);
            if !self.range.contains(&edge) {
                return edge;
            }
        }
    }
}

/// A good record without a blank at an end of its name, so that send takes it.
pub fn good_record(random: &mut Random) -> Record {
    good_record_of(random, &IN_HUNDREDTHS)
}

/// The same with its temperature in tenths.
pub fn good_record_in_tenths(random: &mut Random) -> Record {
    good_record_of(random, &IN_TENTHS)
}

fn good_record_of(random: &mut Random, temperatures: &Temperatures) -> Record {
    let drawn = random.between(0, 32);
    let length = random.pick(&[0, drawn, 32]);
    let mut name = [0; 32];
    let last = length.saturating_sub(1);
    for (at, byte) in name[..length].iter_mut().enumerate() {
        let lowest = if at == 0 || at == last { 0x21 } else { 0x20 };
        *byte = random.between(lowest, 0x7E) as u8;
    }
    let temperature = temperatures.good(random);
    let batch = random.draw() as u32;
    Record { batch: batch.max(1), vessel: random.byte(), temperature, length: length as u8, name }
}

/// A good record that a ring may hold: now and then its name has a blank at an end, from the time before send refused such names.
fn held_record(random: &mut Random) -> Record {
    let mut record = good_record(random);
    if random.percent(40) {
        put_blank_end(random, &mut record);
    }
    record
}

/// A blank first, last or both in the name; an empty one becomes one blank.
fn put_blank_end(random: &mut Random, record: &mut Record) {
    record.length = record.length.max(1);
    let last = usize::from(record.length).min(32) - 1;
    for end in random.pick(&[[0, 0], [last, last], [0, last]]) {
        record.name[end] = b' ';
    }
}

/// A record that is often refused, for one reason or for several.
fn record_of(random: &mut Random, temperatures: &Temperatures) -> Record {
    let mut record = good_record_of(random, temperatures);
    while random.percent(25) {
        match random.below(7) {
            0 => record.batch = 0,
            1 => record.temperature = temperatures.bad(random),
            2 => record.length = random.pick(&[33, 255, record.length.wrapping_add(1)]),
            3 => record.name[random.below(32)] = random.pick(&[0, 0x1F, 0x7F, 0x41, 255]),
            4 => record.length = record.length.saturating_sub(1),
            _ => put_blank_end(random, &mut record),
        }
    }
    record
}

pub fn record(random: &mut Random) -> Record {
    record_of(random, &IN_HUNDREDTHS)
}

/// The same to be sent in tenths.
pub fn record_in_tenths(random: &mut Random) -> Record {
    record_of(random, &IN_TENTHS)
}

/// Gives the records that a network holds temperatures in tenths: sound before, it is sound in tenths then. Now and then they are so small
/// that it is once more when it was turned.
pub fn put_in_tenths(random: &mut Random, network: &mut Network) {
    let small = random.percent(25);
    for record in held(network) {
        record.temperature = if small { random.between(0, 160) as i16 - 40 } else { IN_TENTHS.good(random) };
    }
}

/// The records that a network offers or carries, by channel.
fn held(network: &mut Network) -> impl Iterator<Item = &mut Record> {
    network.channels.iter_mut().flat_map(|channel| {
        let carried = match &mut channel.phase {
            Phase::Answering(record) => Some(record),
            _ => None,
        };
        carried.into_iter().chain(&mut channel.offer)
    })
}

/// Gives one of these records a temperature that is out of range in tenths; answers whether there is a record.
pub fn put_one_out(random: &mut Random, network: &mut Network) -> bool {
    let count = held(network).count();
    let drawn = random.below(count.max(1));
    let record = held(network).nth(drawn);
    record.map(|record| record.temperature = IN_TENTHS.bad(random)).is_some()
}

/// A number that is mostly below `end`.
fn number(random: &mut Random, end: usize) -> u8 {
    if end > 0 && random.percent(93) {
        random.below(end) as u8
    } else {
        let byte = random.byte();
        random.pick(&[end as u8, end.saturating_sub(1) as u8, 255, byte])
    }
}

fn slots(random: &mut Random, kind: usize) -> usize {
    match kind {
        0 => random.between(1, 2),
        1 => random.between(1, 8),
        2 => random.between(1, 64),
        _ => 64,
    }
}

fn node_count(random: &mut Random) -> usize {
    let drawn = random.between(1, 16);
    random.pick(&[1, 2, 3, 4, drawn, 16])
}

/// The calls of a plan: mostly one that starts, with as many channels as there may be, or few.
pub fn plan(random: &mut Random) -> Vec<Call> {
    let nodes = node_count(random);
    let kind = random.below(4);
    let all: Vec<usize> = (0..nodes).map(|_| slots(random, kind)).collect();
    let most = all.iter().sum::<usize>().min(65);
    let drawn = random.between(1, most);
    let channels = random.pick(&[most - 1, most - 1, most, drawn]);
    let mut calls: Vec<Call> = all.iter().map(|slots| Call::AddNode(*slots as u8)).collect();
    for _ in 0..channels {
        calls.push(Call::AddChannel(random.below(nodes) as u8, random.below(nodes) as u8));
    }
    calls.push(Call::Start);
    while random.percent(60) {
        let at = random.below(calls.len());
        let stray = any_call(random, nodes, channels);
        calls.insert(at, stray);
    }
    calls
}

/// Any of the ten calls, alike often; send in either unit.
pub fn any_call(random: &mut Random, nodes: usize, channels: usize) -> Call {
    let kind = random.below(10);
    call_of(random, kind, nodes, channels)
}

fn call_of(random: &mut Random, kind: usize, nodes: usize, channels: usize) -> Call {
    match kind {
        0 => {
            let byte = random.byte();
            Call::AddNode(random.pick(&[0, 1, 2, 64, 65, byte]))
        }
        1 => Call::AddChannel(number(random, nodes), number(random, nodes)),
        2 => Call::Start,
        3 => Call::Receive(number(random, channels)),
        4 if random.percent(50) => Call::SendTenths(number(random, channels), record_in_tenths(random)),
        4 => Call::Send(number(random, channels), record(random)),
        5 => Call::Enter(number(random, nodes)),
        6 => Call::Move(number(random, nodes)),
        7 => Call::HopsLeft(number(random, channels)),
        8 => Call::Withdraw(number(random, channels)),
        _ => Call::WaitingSet(number(random, nodes)),
    }
}

/// A call on a ring that runs: mostly traffic.
pub fn running_call(random: &mut Random, nodes: usize, channels: usize) -> Call {
    let kind = random.pick(&[3, 3, 3, 4, 4, 4, 5, 5, 5, 5, 6, 6, 6, 6, 6, 7, 8, 8, 9]);
    if random.percent(97) {
        call_of(random, kind, nodes, channels)
    } else {
        any_call(random, nodes, channels)
    }
}

fn put(random: &mut Random, queue: &mut VecDeque<usize>, k: usize) {
    queue.insert(random.between(0, queue.len()), k);
}

/// A sound started ring that no run need reach: messages anywhere on their way, in any order.
pub fn by_hand(random: &mut Random) -> Network {
    let n = node_count(random);
    let kind = random.below(4);
    let mut nodes: Vec<Node> = (0..n).map(|_| Node { slots: slots(random, kind), ..Node::default() }).collect();
    nodes[0].slots = nodes[0].slots.max(2);
    let most = (nodes.iter().map(|node| node.slots).sum::<usize>() - 1).min(64);
    let c = random.between(1, most);
    let mut channels = Vec::new();
    for k in 0..c {
        let (sender, receiver) = (random.below(n), random.below(n));
        let (phase, entry, target) = match random.below(4) {
            0 => (Phase::Resting, 0, 0),
            1 => (Phase::Asking, receiver, sender),
            2 => (Phase::Ready, 0, 0),
            _ => (Phase::Answering(held_record(random)), sender, receiver),
        };
        if matches!(phase, Phase::Asking | Phase::Answering(_)) {
            let steps = random.below(if entry == target { n } else { (target + n - entry) % n });
            let there = &mut nodes[(entry + steps) % n];
            if random.percent(60) && there.buffer.len() < there.slots {
                put(random, &mut there.buffer, k);
            } else {
                put(random, &mut nodes[entry].line, k);
            }
        }
        let offer = (phase != Phase::Ready && random.percent(50)).then(|| held_record(random));
        channels.push(Channel { sender, receiver, phase, offer });
    }
    for node in &mut nodes {
        node.mark = !node.line.is_empty() && random.percent(50);
    }
    let drawn = random.draw() as u32;
    Network { nodes, channels, started: true, deliveries: random.pick(&[0, drawn, u32::MAX - 1, u32::MAX]) }
}

/// The ring with the most records: on each of 64 channels one is carried and another offered.
pub fn full(random: &mut Random) -> Network {
    let mut nodes = vec![Node { slots: 64, ..Node::default() }; 16];
    let mut channels = Vec::new();
    for k in 0..64 {
        let (sender, receiver) = (random.below(16), random.below(16));
        nodes[sender].line.push_back(k);
        let phase = Phase::Answering(held_record(random));
        channels.push(Channel { sender, receiver, phase, offer: Some(held_record(random)) });
    }
    Network { nodes, channels, started: true, deliveries: 0 }
}
