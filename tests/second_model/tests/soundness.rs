//! "An unsound ring is 25, before all others, in every operation on a ring": a
//! damaged ring for each clause of "A sound ring".

use second_model::generate::{fields_named, record_named};
use second_model::ring::*;

fn node(number: u8) -> NodeNumber {
    NodeNumber(number)
}

fn channel(number: u8) -> ChannelNumber {
    ChannelNumber(number)
}

fn planned() -> Ring {
    let mut ring = Ring::fresh();
    for slots in [2, 3, 2, 1] {
        ring.add_node(slots).unwrap();
    }
    for (sender, receiver) in [(2, 0), (3, 1), (0, 2), (1, 1), (3, 0)] {
        ring.add_channel(node(sender), node(receiver)).unwrap();
    }
    ring
}

/// A started ring with something of everything:
/// channel 0 answering in the line of node 2, with a further offer;
/// channel 1 asking in the line of node 1 (its mark is set);
/// channel 2 ready; channel 3 asking in the buffer of node 3;
/// channel 4 resting with an offer.
fn busy() -> Ring {
    let mut ring = planned();
    ring.start().unwrap();
    ring.receive(channel(2)).unwrap();
    ring.enter_at(node(2)).unwrap();
    ring.move_at(node(2)).unwrap();
    ring.move_at(node(3)).unwrap();
    ring.receive(channel(3)).unwrap();
    ring.enter_at(node(1)).unwrap();
    ring.receive(channel(0)).unwrap();
    ring.enter_at(node(0)).unwrap();
    ring.receive(channel(1)).unwrap();
    ring.move_at(node(0)).unwrap();
    ring.send(channel(0), &fields_named(b"first")).unwrap();
    ring.send(channel(0), &fields_named(b"not yet")).unwrap_err();
    // The request of channel 3 goes on before that of channel 0, which is then
    // taken at node 2 and answered.
    ring.move_at(node(1)).unwrap();
    ring.move_at(node(1)).unwrap();
    ring.send(channel(0), &fields_named(b"second")).unwrap();
    ring.move_at(node(2)).unwrap();
    ring.send(channel(4), &fields_named(b"offer")).unwrap();
    ring
}

/// As `busy`, with the response of channel 0 in the buffer of node 3.
fn response_on_its_way() -> Ring {
    let mut ring = busy();
    ring.move_at(node(3)).unwrap();
    ring.enter_at(node(2)).unwrap();
    ring.move_at(node(2)).unwrap();
    ring
}

#[test]
fn the_rings_to_be_damaged() {
    let ring = busy();
    let phases: Vec<u8> = ring.channels[..5].iter().map(|channel| channel.phase).collect();
    assert_eq!(phases, [ANSWERING, ASKING, READY, ASKING, RESTING]);
    assert_eq!(ring.lines[2 * 64], 1, "channel 0 in the line of node 2");
    assert_eq!(ring.lines[64], 2, "channel 1 in the line of node 1");
    assert_eq!(ring.slots[3 * 64], 4, "channel 3 in the buffer of node 3");
    assert_eq!(ring.nodes[1].turn_mark, 1);
    assert_eq!(ring.channels[0].offer, record_named(b"second"));
    assert_eq!(ring.channels[0].carried, record_named(b"first"));
    assert!(ring.sound());
    let ring = response_on_its_way();
    assert_eq!(ring.slots[3 * 64], 1, "channel 0 in the buffer of node 3");
    assert!(ring.sound());
    assert!(planned().sound());
    assert!(Ring::fresh().sound());
}

/// Every ring call answers 25, whatever its arguments, and changes nothing.
fn assert_unsound(clause: &str, ring: &Ring) {
    assert!(!ring.sound(), "{clause}");
    let mut after = ring.clone();
    let answers = [
        after.add_node(1).err(),
        after.add_node(0).err(),
        after.add_channel(node(0), node(0)).err(),
        after.add_channel(node(99), node(0)).err(),
        after.start().err(),
        after.receive(channel(4)).err(),
        after.receive(channel(99)).err(),
        after.send(channel(1), &fields_named(b"A1")).err(),
        after.send(channel(99), &Fields::of(&Record::NONE)).err(),
        after.enter_at(node(1)).err(),
        after.enter_at(node(99)).err(),
        after.move_at(node(3)).err(),
        after.move_at(node(99)).err(),
        after.withdraw(channel(1)).err(),
        after.withdraw(channel(99)).err(),
        after.hops_left(channel(0)).err(),
        after.hops_left(channel(99)).err(),
        after.waiting_set(node(0)).err(),
        after.waiting_set(node(99)).err(),
    ];
    assert!(answers.iter().all(|answer| *answer == Some(Refusal::Unsound)), "{clause}");
    assert!(after == *ring, "{clause}: the ring has changed");
}

type Damage = (&'static str, fn(&mut Ring));

fn check(sound: fn() -> Ring, damages: &[Damage]) {
    for (clause, damage) in damages {
        let mut ring = sound();
        damage(&mut ring);
        assert_unsound(clause, &ring);
    }
}

#[test]
fn counts_and_node_numbers_in_range() {
    check(
        busy,
        &[
            ("17 nodes", |ring| ring.node_count = 17),
            ("255 nodes", |ring| ring.node_count = 255),
            ("65 channels", |ring| ring.channel_count = 65),
            ("255 channels", |ring| ring.channel_count = 255),
            ("started is 2", |ring| ring.started = 2),
            ("sender n", |ring| ring.channels[4].sender = node(4)),
            ("receiver n", |ring| ring.channels[4].receiver = node(4)),
            ("sender 255", |ring| ring.channels[0].sender = node(255)),
            ("phase 4", |ring| ring.channels[4].phase = 4),
            ("a line of 65", |ring| ring.nodes[1].line_length = 65),
            ("a line of 255", |ring| ring.nodes[1].line_length = 255),
            ("a turn mark of 2", |ring| ring.nodes[1].turn_mark = 2),
        ],
    );
    // A node number that the ring does not have, with a message whose way
    // depends on it.
    let mut ring = Ring::fresh();
    (0..16).for_each(|_| ring.add_node(2).unwrap());
    ring.add_channel(node(9), node(0)).unwrap();
    ring.start().unwrap();
    ring.receive(channel(0)).unwrap();
    ring.enter_at(node(0)).unwrap();
    ring.channels[0].sender = node(255);
    assert_unsound("a request to node 255", &ring);
    let mut ring = planned();
    ring.channels[5] = Channel { sender: node(4), ..Channel::NONE };
    ring.channel_count = 6;
    assert_unsound("a channel from a node that is not there", &ring);
}

#[test]
fn slots_and_buffers() {
    check(
        busy,
        &[
            ("no slots", |ring| ring.nodes[0].slots = 0),
            ("65 slots", |ring| ring.nodes[0].slots = 65),
            ("255 slots", |ring| ring.nodes[0].slots = 255),
            ("a buffer longer than its slots", |ring| {
                // The requests of channels 1 and 3 may both be at node 2.
                ring.nodes[1] = Node { slots: 3, ..Node::NONE };
                ring.nodes[3].buffer_length = 0;
                ring.nodes[2] = Node { slots: 1, buffer_length: 2, line_length: 1, turn_mark: 0 };
                ring.lines[64] = 0;
                ring.slots[3 * 64] = 0;
                ring.slots[2 * 64] = 2;
                ring.slots[2 * 64 + 1] = 4;
            }),
            ("a buffer of 255", |ring| ring.nodes[3].buffer_length = 255),
        ],
    );
    // The same with a slot more is sound: only the slots were wrong above.
    let mut ring = busy();
    ring.nodes[1] = Node { slots: 3, ..Node::NONE };
    ring.nodes[3].buffer_length = 0;
    ring.nodes[2] = Node { slots: 2, buffer_length: 2, line_length: 1, turn_mark: 0 };
    ring.lines[64] = 0;
    ring.slots[3 * 64] = 0;
    ring.slots[2 * 64] = 2;
    ring.slots[2 * 64 + 1] = 4;
    assert!(ring.sound());
}

fn put_in_line(ring: &mut Ring, at: usize, number: u8) {
    ring.lines[at * 64 + ring.nodes[at].line_length as usize] = number + 1;
    ring.nodes[at].line_length += 1;
}

fn put_in_buffer(ring: &mut Ring, at: usize, number: u8) {
    ring.slots[at * 64 + ring.nodes[at].buffer_length as usize] = number + 1;
    ring.nodes[at].buffer_length += 1;
}

/// Takes the only message out of a line and clears the mark that it leaves.
fn empty_line(ring: &mut Ring, at: usize) {
    ring.lines[at * 64] = 0;
    ring.nodes[at].line_length = 0;
    ring.nodes[at].turn_mark = 0;
}

fn empty_buffer(ring: &mut Ring, at: usize) {
    ring.slots[at * 64] = 0;
    ring.nodes[at].buffer_length = 0;
}

#[test]
fn exactly_once_on_the_ring() {
    check(
        busy,
        &[
            ("asking and nowhere", |ring| empty_line(ring, 1)),
            ("answering and nowhere", |ring| empty_line(ring, 2)),
            ("asking and nowhere, from a buffer", |ring| empty_buffer(ring, 3)),
            ("twice in a line", |ring| put_in_line(ring, 1, 1)),
            ("in a line and in a buffer", |ring| put_in_buffer(ring, 1, 1)),
            ("twice in buffers", |ring| put_in_buffer(ring, 1, 3)),
            ("twice in a buffer", |ring| {
                ring.nodes[3].slots = 2;
                put_in_buffer(ring, 3, 3);
            }),
            ("resting and in a line", |ring| put_in_line(ring, 0, 4)),
            ("resting and in a buffer", |ring| put_in_buffer(ring, 0, 4)),
            ("ready and in a line", |ring| put_in_line(ring, 2, 2)),
            ("ready and in a buffer", |ring| put_in_buffer(ring, 2, 2)),
            ("no such channel in a line", |ring| put_in_line(ring, 0, 5)),
            ("no such channel in a buffer", |ring| put_in_buffer(ring, 0, 5)),
            ("255 in a buffer", |ring| put_in_buffer(ring, 0, 254)),
        ],
    );
}

#[test]
fn in_a_line_only_at_its_own_node() {
    check(
        busy,
        &[
            ("a request at its sender", |ring| {
                empty_line(ring, 1);
                put_in_line(ring, 3, 1);
            }),
            ("a response at its receiver", |ring| {
                empty_line(ring, 2);
                put_in_line(ring, 0, 0);
            }),
            ("a request elsewhere", |ring| {
                empty_line(ring, 1);
                put_in_line(ring, 2, 1);
            }),
        ],
    );
}

#[test]
fn in_a_buffer_only_on_its_way() {
    // Channel 1 asks from node 1 to node 3: nodes 1 and 2 are on its way.
    for at in 0..4 {
        let mut ring = busy();
        empty_line(&mut ring, 1);
        empty_buffer(&mut ring, 3);
        ring.channels[3].phase = RESTING;
        put_in_buffer(&mut ring, at, 1);
        match at {
            1 | 2 => assert!(ring.sound()),
            _ => assert_unsound("a request that is not on its way", &ring),
        }
    }
    // Channel 0 answers from node 2 to node 0: nodes 2 and 3 are on its way.
    for at in 0..4 {
        let mut ring = response_on_its_way();
        empty_buffer(&mut ring, 3);
        ring.nodes[0].slots = 9;
        put_in_buffer(&mut ring, at, 0);
        match at {
            2 | 3 => assert!(ring.sound()),
            _ => assert_unsound("a response that is not on its way", &ring),
        }
    }
    // Channel 3 is a same-node channel: any node.
    for at in 0..4 {
        let mut ring = busy();
        empty_buffer(&mut ring, 3);
        put_in_buffer(&mut ring, at, 3);
        assert!(ring.sound());
    }
}

#[test]
fn offers_and_marks() {
    check(
        busy,
        &[
            ("ready with an offer", |ring| ring.channels[2].offer = record_named(b"A1")),
            ("a turn mark without a line", |ring| ring.nodes[0].turn_mark = 1),
        ],
    );
}

#[test]
fn records_good() {
    let faults: [fn(&mut Record); 7] = [
        |record| record.number = BatchNumber(0),
        |record| record.temperature = 12001,
        |record| record.temperature = -4001,
        |record| record.length = 33,
        |record| record.name[0] = 0x1F,
        |record| record.name[4] = 0x7F,
        |record| record.name[31] = 1,
    ];
    for fault in faults {
        let mut offer = busy();
        fault(&mut offer.channels[4].offer);
        assert_unsound("a bad offer", &offer);
        let mut second = busy();
        fault(&mut second.channels[0].offer);
        assert_unsound("a bad offer beside a record carried", &second);
        let mut carried = busy();
        fault(&mut carried.channels[0].carried);
        assert_unsound("a bad record carried", &carried);
    }
    let mut none = busy();
    none.channels[0].carried = Record::NONE;
    assert_unsound("answering without a record", &none);
}

#[test]
fn cells_that_hold_nothing_are_zero() {
    check(
        busy,
        &[
            ("a cell behind a buffer", |ring| ring.slots[3 * 64 + 1] = 1),
            ("the last slot cell of a node", |ring| ring.slots[127] = 1),
            ("a cell behind a line", |ring| ring.lines[65] = 4),
            ("the last line cell of a node", |ring| ring.lines[63] = 1),
            ("a slot cell of no node", |ring| ring.slots[4 * 64] = 1),
            ("the last slot cell", |ring| ring.slots[1023] = 255),
            ("a line cell of no node", |ring| ring.lines[4 * 64] = 1),
            ("the last line cell", |ring| ring.lines[1023] = 1),
            ("an empty cell in a buffer", |ring| ring.slots[3 * 64] = 0),
            ("an empty cell before the last of a line", |ring| {
                ring.lines.swap(64, 65);
            }),
            ("slots of a node not added", |ring| ring.nodes[4].slots = 1),
            ("a buffer of a node not added", |ring| ring.nodes[15].buffer_length = 1),
            ("a line of a node not added", |ring| ring.nodes[15].line_length = 1),
            ("a mark of a node not added", |ring| ring.nodes[4].turn_mark = 1),
            ("a record carried by a resting channel", |ring| ring.channels[4].carried = record_named(b"A1")),
            ("a record carried by an asking channel", |ring| ring.channels[1].carried = record_named(b"A1")),
            ("a record carried by a ready channel", |ring| ring.channels[2].carried.name[31] = 1),
            ("part of an offer", |ring| ring.channels[1].offer.vessel = 1),
            ("part of an offer", |ring| ring.channels[1].offer.temperature = 1),
            ("part of an offer", |ring| ring.channels[1].offer.length = 1),
            ("part of an offer", |ring| ring.channels[1].offer.name[31] = b'x'),
            ("the sender of a channel not added", |ring| ring.channels[5].sender = node(1)),
            ("the receiver of a channel not added", |ring| ring.channels[63].receiver = node(1)),
            ("the phase of a channel not added", |ring| ring.channels[5].phase = READY),
            ("an offer on a channel not added", |ring| ring.channels[63].offer = record_named(b"A1")),
            ("a record carried by a channel not added", |ring| ring.channels[63].carried.name[0] = 1),
        ],
    );
    let mut fresh = Ring::fresh();
    fresh.slots[0] = 1;
    assert_unsound("a fresh ring with a cell", &fresh);
}

#[test]
fn not_started() {
    check(
        planned,
        &[
            ("asking before the start", |ring| {
                ring.channels[0].phase = ASKING;
                put_in_line(ring, 0, 0);
            }),
            ("ready before the start", |ring| ring.channels[0].phase = READY),
            ("an offer before the start", |ring| ring.channels[0].offer = record_named(b"A1")),
            ("a mark before the start", |ring| ring.nodes[0].turn_mark = 1),
            ("deliveries before the start", |ring| ring.deliveries = 1),
        ],
    );
    // All that a started ring may have and one that is not started may not.
    let mut ring = busy();
    ring.started = 0;
    assert_unsound("a busy ring that is not started", &ring);
}

#[test]
fn started() {
    check(
        || {
            let mut ring = planned();
            ring.start().unwrap();
            ring
        },
        &[
            ("started without nodes", |ring| {
                *ring = Ring::fresh();
                ring.started = 1;
            }),
            ("started without channels", |ring| {
                ring.channels = [Channel::NONE; CHANNELS];
                ring.channel_count = 0;
            }),
            ("started with b = c", |ring| {
                // 5 slots and 5 channels.
                ring.nodes[0].slots = 1;
                ring.nodes[1].slots = 2;
                ring.nodes[2].slots = 1;
            }),
        ],
    );
}

/// A soundness by the letter of 01, clause by clause and with no care for
/// speed, agrees with `sound` on rings with one field changed at random.
#[test]
fn the_fast_check_agrees_with_the_letter() {
    use common::random::Random;
    let random = &mut Random::new(4);
    let starts = [Ring::fresh(), planned(), busy(), response_on_its_way()];
    let mut sound = 0;
    for _ in 0..60_000 {
        let mut ring = starts[random.below(starts.len())].clone();
        for _ in 0..random.between(1, 3) {
            change(&mut ring, random);
        }
        assert_eq!(ring.sound(), sound_by_the_letter(&ring), "{ring:?}");
        sound += ring.sound() as u32;
    }
    assert!(sound > 1_000, "some changes leave the ring sound: {sound}");
}

fn change(ring: &mut Ring, random: &mut common::random::Random) {
    let small = random.below(6) as u8;
    let at_node = random.below(6);
    let at_channel = random.below(7);
    let at_cell = random.below(5) * 64 + random.below(3);
    match random.below(16) {
        0 => ring.started = random.below(2) as u8,
        1 => ring.node_count = small,
        2 => ring.channel_count = small,
        3 => ring.deliveries = small as u32,
        4 => ring.nodes[at_node].slots = small,
        5 => ring.nodes[at_node].buffer_length = small,
        6 => ring.nodes[at_node].line_length = small,
        7 => ring.nodes[at_node].turn_mark = random.below(2) as u8,
        8 => ring.channels[at_channel].sender = node(small),
        9 => ring.channels[at_channel].receiver = node(small),
        10 => ring.channels[at_channel].phase = small,
        11 => ring.channels[at_channel].offer = record_named(b"A1"),
        12 => ring.channels[at_channel].carried = record_named(b"A1"),
        13 => ring.channels[at_channel].offer = Record::NONE,
        14 => ring.slots.swap(at_cell, 3 * 64),
        _ => ring.lines[at_cell] = small,
    }
}

fn sound_by_the_letter(ring: &Ring) -> bool {
    let (n, c) = (ring.node_count as usize, ring.channel_count as usize);
    if n > 16 || c > 64 || ring.started > 1 {
        return false;
    }
    let nodes = &ring.nodes[..n];
    let lengths_good = nodes.iter().all(|node| {
        (1..=64).contains(&node.slots)
            && node.buffer_length <= node.slots
            && node.line_length <= 64
            && node.turn_mark <= 1
            && (node.turn_mark == 0 || node.line_length > 0)
    });
    let numbers_good = ring.channels[..c].iter().all(|ch| (ch.sender.0 as usize) < n && (ch.receiver.0 as usize) < n && ch.phase <= 3);
    if !lengths_good || !numbers_good {
        return false;
    }
    (0..c).all(|at| channel_good_by_the_letter(ring, at)) && zeros_by_the_letter(ring) && start_by_the_letter(ring)
}

fn channel_good_by_the_letter(ring: &Ring, at: usize) -> bool {
    let n = ring.node_count as usize;
    let ch = &ring.channels[at];
    let (asking, answering) = (ch.phase == ASKING, ch.phase == ANSWERING);
    let (sender, receiver) = (ch.sender.0 as usize, ch.receiver.0 as usize);
    let (entry, target) = if asking { (receiver, sender) } else { (sender, receiver) };
    // The nodes from the entry up to the one before the target, walked.
    let mut way = vec![entry];
    while (way[way.len() - 1] + 1) % n != target {
        way.push((way[way.len() - 1] + 1) % n);
    }
    let (mut times, mut places_good) = (0, true);
    for p in 0..n {
        for i in 0..ring.nodes[p].line_length as usize {
            if ring.lines[p * 64 + i] as usize == at + 1 {
                times += 1;
                places_good &= p == entry;
            }
        }
        for i in 0..ring.nodes[p].buffer_length as usize {
            if ring.slots[p * 64 + i] as usize == at + 1 {
                times += 1;
                places_good &= way.contains(&p);
            }
        }
    }
    let offered = ch.offer != Record::NONE;
    places_good
        && times == (asking || answering) as u32
        && (ch.phase != READY || !offered)
        && (!offered || ch.offer.check().is_ok())
        && (if answering { ch.carried.check().is_ok() } else { ch.carried == Record::NONE })
}

fn zeros_by_the_letter(ring: &Ring) -> bool {
    let (n, c) = (ring.node_count as usize, ring.channel_count as usize);
    let cells_good = (0..1024).all(|cell| {
        let (p, i) = (cell / 64, cell % 64);
        let in_line = p < n && i < ring.nodes[p].line_length as usize;
        let in_buffer = p < n && i < ring.nodes[p].buffer_length as usize;
        let holds = |value: u8| value >= 1 && value as usize <= c;
        (if in_line { holds(ring.lines[cell]) } else { ring.lines[cell] == 0 })
            && (if in_buffer { holds(ring.slots[cell]) } else { ring.slots[cell] == 0 })
    });
    cells_good
        && ring.nodes[n..].iter().all(|node| *node == Node::NONE)
        && ring.channels[c..].iter().all(|channel| *channel == Channel::NONE)
}

fn start_by_the_letter(ring: &Ring) -> bool {
    let (n, c) = (ring.node_count as usize, ring.channel_count as usize);
    if ring.started == 1 {
        let b: usize = ring.nodes[..n].iter().map(|node| node.slots as usize).sum();
        return n >= 1 && c >= 1 && b > c;
    }
    ring.deliveries == 0
        && ring.nodes.iter().all(|node| node.turn_mark == 0)
        && ring.channels.iter().all(|ch| ch.phase == RESTING && ch.offer == Record::NONE)
}
