//! The rings on which the dispatcher is called.

use crate::tally::Tally;
use calls::draw::{self, good_record, good_record_in_tenths};
use calls::form::{from_c, lay, to_c};
use calls::library;
use calls::model::{Answer, Call};
use common::random::Random;
use damaged_rings::damage;
use std::collections::{HashSet, VecDeque};
use vessel_ring::{Record, Ring};

/// A started ring of these slots and channels (sender, receiver).
pub fn started(slots: &[u8], channels: &[(u8, u8)]) -> Ring {
    let mut ring = Ring::fresh();
    slots.iter().for_each(|&slots| assert_eq!(ring.add_node(slots), 0));
    channels.iter().for_each(|&(sender, receiver)| assert_eq!(ring.add_channel(sender, receiver), 0));
    assert_eq!(ring.start(), 0);
    ring
}

/// A record that tells its channel.
fn record_of(channel: u8) -> Record {
    let mut record = Record { batch: 100 + u32::from(channel), vessel: channel, name_length: 2, temperature: 6125, ..Record::default() };
    record.name[..2].copy_from_slice(b"A1");
    record
}

/// Same-node channels, each sent, received and entered. There is room for all: the slots of a node are the channels there, or more.
fn entered(slots: &[u8], nodes: impl Iterator<Item = u8>) -> Ring {
    let ends: Vec<(u8, u8)> = nodes.map(|node| (node, node)).collect();
    let mut ring = started(slots, &ends);
    for (channel, &(node, _)) in (0..).zip(&ends) {
        assert_eq!((ring.send(channel, record_of(channel)), ring.receive(channel), ring.enter(node)), (0, 0, 0));
    }
    ring
}

/// The crowded ring: 16 nodes of 2 slots, 31 same-node channels, two a node and one at node 0. One slot is free.
pub fn crowded() -> Ring {
    entered(&[2; 16], (1..32).map(|at| at / 2))
}

/// A ring as crowded as can be: each slot but one holds the message of a same-node channel. Such rings make the most rounds.
pub fn packed(random: &mut Random) -> Ring {
    let slots: Vec<u8> = (0..random.between(1, 12)).map(|_| random.between(1, 3) as u8).chain([2]).collect();
    let nodes = (0..).zip(&slots).flat_map(|(node, &slots)| (0..slots).map(move |_| node));
    entered(&slots, nodes.skip(1))
}

/// 16 nodes and 64 channels: with one slot more than channels and all of these in buffers; and with 64 slots a node, 64 records to be sent.
pub fn largest() -> [Ring; 2] {
    let mut slots = [4; 16];
    slots[0] = 5;
    let ends: Vec<(u8, u8)> = (0..64).map(|k| (k % 16, k * 3 % 16)).collect();
    let mut wide = started(&[64; 16], &ends);
    for channel in (0..64).rev() {
        assert_eq!((wide.receive(channel), wide.send(channel, record_of(channel))), (0, 0));
    }
    [entered(&slots, (0..64).map(|at| at / 4)), wide]
}

/// The slots of each node, and each channel's sender and receiver.
type Plan = (&'static [u8], &'static [(u8, u8)]);

/// Plans so small that all their rings can be visited.
const TINY: [Plan; 7] = [
    (&[2], &[(0, 0)]),
    (&[3], &[(0, 0), (0, 0)]),
    (&[1, 1], &[(0, 1)]),
    (&[1, 1], &[(1, 1)]),
    (&[1, 2], &[(0, 0), (1, 1)]),
    (&[2, 1], &[(0, 1), (1, 0)]),
    (&[1, 1, 1], &[(2, 0), (1, 1)]),
];

/// Every ring that the tiny plans reach, but for the count of deliveries and with one record for each channel.
pub fn tiny() -> Vec<Ring> {
    TINY.iter().flat_map(|(slots, channels)| reached(started(slots, channels))).collect()
}

fn reached(first: Ring) -> Vec<Ring> {
    let mut met = HashSet::from([first.to_bytes()]);
    let mut open = VecDeque::from([first]);
    let mut all = Vec::new();
    while let Some(ring) = open.pop_front() {
        all.push(ring);
        for mut next in nexts(&ring) {
            next.deliveries = 0;
            if met.insert(next.to_bytes()) {
                open.push_back(next);
            }
        }
    }
    all
}

/// The rings after each single call.
fn nexts(ring: &Ring) -> Vec<Ring> {
    let after = |call| {
        let mut next = *ring;
        make(&mut next, call);
        next
    };
    let channels = (0..ring.channel_count).flat_map(|k| [Call::Receive(k), Call::Send(k, from_c(record_of(k))), Call::Withdraw(k)]);
    let nodes = (0..ring.node_count).flat_map(|node| [Call::Enter(node), Call::Move(node)]);
    channels.chain(nodes).map(after).collect()
}

/// A ring from a drawn run: a plan, which may not start; then mostly many requests and records, and some traffic.
pub fn drawn(random: &mut Random) -> Ring {
    let mut ring = Ring::fresh();
    for call in draw::plan(random) {
        make(&mut ring, call);
    }
    let [receives, sends, entries] = random.pick(&[[0, 0, 0], [40, 40, 30], [100, 0, 50], [90, 90, 0], [100, 100, 100]]);
    for channel in 0..ring.channel_count {
        if random.percent(sends / 2) {
            ring.send(channel, to_c(good_record(random)));
        }
        if random.percent(sends) {
            ring.send_tenths(channel, to_c(good_record_in_tenths(random)));
        }
        if random.percent(receives) {
            ring.receive(channel);
        }
        if random.percent(entries) {
            ring.enter(ring.receivers[usize::from(channel)]);
        }
    }
    for _ in 0..random.pick(&[0, 0, 10, 60, 300]) {
        let call = draw::running_call(random, ring.node_count.into(), ring.channel_count.into());
        make(&mut ring, call);
    }
    ring
}

/// A single call, by the library. Its refusal, or 0, with the delivery that a move made.
pub fn make(ring: &mut Ring, call: Call) -> (u8, Option<(u8, Record)>) {
    let answer = library::call(ring, call);
    let delivery = match answer {
        Answer::Delivered(channel, record) => Some((channel as u8, to_c(record))),
        _ => None,
    };
    (answer.number(), delivery)
}

/// A sound started ring that no run need reach.
pub fn by_hand(random: &mut Random) -> Ring {
    lay(&draw::by_hand(random))
}

/// Such a ring held in tenths, and turned into hundredths.
pub fn turned(random: &mut Random) -> Ring {
    let mut network = draw::by_hand(random);
    draw::put_in_tenths(random, &mut network);
    let mut ring = lay(&network);
    assert_eq!(ring.to_hundredths(), 0, "made sound in tenths: {ring:?}");
    ring
}

/// The ring with up to three places changed, or the whole of it. It may still be sound.
pub fn damaged(ring: &Ring, random: &mut Random, tally: &mut Tally) -> Ring {
    let mut bytes = ring.to_bytes();
    damage::change(&mut bytes, random).into_iter().for_each(|kind| tally.damaged(kind));
    Ring::from_bytes(&bytes)
}
