//! Request N3 of document 02, "A dispatcher for the ring": its worked cases, and
//! what it says of every ring, on rings of drawn tapes.

use common::random::Random;
use second_model::dispatch::Dispatched;
use second_model::generate::{fields_to_send, record_named, Tapes};
use second_model::listing::apply;
use second_model::ring::*;
use second_model::tape::{self, Command, Read};

/// A ring with these slots and channels (sender, receiver), not started.
fn planned(slots: &[u8], channels: &[(u8, u8)]) -> Ring {
    let mut ring = Ring::fresh();
    slots.iter().for_each(|&slots| ring.add_node(slots).unwrap());
    for &(sender, receiver) in channels {
        ring.add_channel(NodeNumber(sender), NodeNumber(receiver)).unwrap();
    }
    ring
}

fn started(slots: &[u8], channels: &[(u8, u8)]) -> Ring {
    let mut ring = planned(slots, channels);
    ring.start().unwrap();
    ring
}

/// A record that tells its channel.
fn record_of(channel: u8) -> Record {
    Record { number: BatchNumber(100 + u32::from(channel)), ..record_named(b"A1") }
}

/// Makes accepted calls, in short: r, s, e or m (receive, send, enter, move), and
/// the channel or node.
fn make(ring: &mut Ring, calls: &str) {
    for word in calls.split_whitespace() {
        let number = word[1..].parse().unwrap();
        let call = match &word[..1] {
            "r" => Command::Receive(ChannelNumber(number)),
            "s" => Command::Send(ChannelNumber(number), Fields::of(&record_of(number))),
            "e" => Command::Enter(NodeNumber(number)),
            _ => Command::Move(NodeNumber(number)),
        };
        apply(ring, &call).unwrap();
    }
}

fn channels_of(answer: &Dispatched) -> Vec<u8> {
    answer.deliveries.iter().map(|delivery| delivery.channel.0).collect()
}

/// The channels whose message is on the ring.
fn left(ring: &Ring) -> Vec<usize> {
    let moving = |at: &usize| [ASKING, ANSWERING].contains(&ring.channels[*at].phase);
    (0..ring.channel_count as usize).filter(moving).collect()
}

/// A worked case: the ring, the calls on it, and what so many rounds give.
struct Case {
    slots: &'static [u8],
    channels: &'static [(u8, u8)],
    calls: &'static str,
    given: u16,
    rounds: u16,
    delivered: &'static [u8],
    left: &'static [usize],
}

const CASES: [Case; 9] = [
    // Nothing asked.
    case((&[1, 2], &[(1, 0)]), "", 5, 0, &[], &[]),
    case((&[1, 2], &[(1, 0)]), "r0 s0", 12, 1, &[0], &[]),
    // The channel is ready then, and nothing is on the ring.
    case((&[1, 2], &[(1, 0)]), "r0", 12, 1, &[], &[]),
    case((&[1, 2], &[(0, 1)]), "r0 s0", 12, 2, &[0], &[]),
    case((&[1, 2], &[(0, 1)]), "r0 s0", 0, 0, &[], &[0]),
    case((&[1, 2], &[(0, 1)]), "r0 s0", 1, 1, &[], &[0]),
    case((&[2], &[(0, 0)]), "r0 s0", 4, 2, &[0], &[]),
    case((&[1, 2], &[(0, 0), (1, 1)]), "s0 s1 r0 r1", 12, 5, &[0, 1], &[]),
    // The plan of 01's turn case.
    case((&[1, 2, 1], &[(2, 0), (2, 1), (2, 0)]), "r0 r1 r2 s0 s1 s2", 24, 3, &[0, 1, 2], &[]),
];

const fn case(
    (slots, channels): (&'static [u8], &'static [(u8, u8)]),
    calls: &'static str,
    given: u16,
    rounds: u16,
    delivered: &'static [u8],
    left: &'static [usize],
) -> Case {
    Case { slots, channels, calls, given, rounds, delivered, left }
}

#[test]
fn worked_cases() {
    for case in CASES {
        let mut ring = started(case.slots, case.channels);
        make(&mut ring, case.calls);
        let before = ring.clone();
        let answer = ring.dispatch(case.given).unwrap();
        let shown = format!("{:?}, {}, {}", case.slots, case.calls, case.given);
        assert_eq!(answer.rounds, case.rounds, "{shown}");
        assert_eq!(channels_of(&answer), case.delivered, "{shown}");
        assert_eq!(left(&ring), case.left, "{shown}");
        assert_eq!(ring == before, case.rounds == 0, "{shown}");
        assert!(answer.deliveries.iter().all(|one| one.record == record_of(one.channel.0)));
    }
}

#[test]
fn a_request_without_a_record_leaves_its_channel_ready() {
    let mut ring = started(&[1, 2], &[(1, 0)]);
    make(&mut ring, "r0");
    ring.dispatch(12).unwrap();
    assert_eq!(ring.channels[0].phase, READY);
    assert_eq!(ring.dispatch(12).unwrap(), Dispatched { rounds: 0, deliveries: Vec::new() });
}

#[test]
fn refused_before_the_start_and_unsound() {
    for given in [0, 5] {
        for mut ring in [Ring::fresh(), planned(&[1, 2], &[(1, 0)])] {
            let before = ring.clone();
            assert_eq!(ring.dispatch(given), Err(Refusal::NotStarted));
            assert_eq!(ring, before);
        }
        let mut ring = planned(&[1, 2], &[(1, 0)]);
        ring.nodes[0].buffer_length = 1;
        let before = ring.clone();
        assert_eq!(ring.dispatch(given), Err(Refusal::Unsound));
        assert_eq!(ring, before);
    }
}

/// The next record of a channel waits for another receive: "at most one for each
/// channel".
#[test]
fn one_delivery_for_each_channel() {
    let mut ring = started(&[1, 2], &[(1, 0)]);
    make(&mut ring, "r0 s0 e0 m0 s0");
    assert_eq!(channels_of(&ring.dispatch(12).unwrap()), [0]);
    assert_eq!((ring.channels[0].phase, ring.channels[0].offer), (RESTING, record_of(0)));
}

/// Deliveries stand in the order in which they came, here from the last channel
/// to the first.
#[test]
fn deliveries_in_order() {
    let mut ring = started(&[4], &[(0, 0), (0, 0), (0, 0)]);
    make(&mut ring, "s0 s1 s2 r2 r1 r0");
    let answer = ring.dispatch(24).unwrap();
    assert_eq!(channels_of(&answer), [2, 1, 0]);
}

/// 16 nodes of 2 slots and 31 same-node channels, two a node and one at node 0,
/// each sent, received and entered: all slots but one are in use.
fn crowded() -> Ring {
    let ends: Vec<(u8, u8)> = (1..32).map(|at| (at / 2, at / 2)).collect();
    let mut ring = started(&[2; 16], &ends);
    for (channel, (node, _)) in ends.iter().enumerate() {
        make(&mut ring, &format!("s{channel} r{channel} e{node}"));
    }
    ring
}

#[test]
fn a_crowded_ring_takes_845_rounds_of_1054() {
    let mut ring = crowded();
    assert_eq!(ring.enough_rounds(), 1054);
    let answer = ring.dispatch(1054).unwrap();
    assert_eq!((answer.rounds, answer.deliveries.len()), (845, 31));
    assert_eq!((left(&ring), ring.deliveries), (vec![], 31));

    let mut ring = crowded();
    assert_eq!(ring.dispatch(844).unwrap().rounds, 844);
    assert_ne!(left(&ring), []);
    assert_eq!(ring.dispatch(1).unwrap().rounds, 1);
    assert_eq!(left(&ring), []);
}

/// The same entries and moves called singly, so many rounds of them.
fn singly(ring: &mut Ring, rounds: u16) -> Vec<Delivery> {
    let mut deliveries = Vec::new();
    for _ in 0..rounds {
        for node in 0..ring.node_count {
            let _ = apply(ring, &Command::Enter(NodeNumber(node)));
            let moved = apply(ring, &Command::Move(NodeNumber(node)));
            deliveries.extend(moved.ok().flatten());
        }
    }
    deliveries
}

/// What 02 says of any sound started ring and any number of rounds.
fn holds(ring: &Ring, given: u16) -> Dispatched {
    let mut after = ring.clone();
    let answer = after.dispatch(given).unwrap();
    let mut by_single_calls = ring.clone();
    assert_eq!(answer.deliveries, singly(&mut by_single_calls, answer.rounds));
    assert_eq!(after, by_single_calls);
    assert!(after.sound() && answer.rounds <= given);
    if answer.rounds < given || given >= ring.enough_rounds() {
        assert_eq!(left(&after), []);
    }
    let mut channels = channels_of(&answer);
    channels.sort_unstable();
    channels.dedup();
    assert_eq!(channels.len(), answer.deliveries.len());
    answer
}

#[test]
fn drawn_rings() {
    let tapes = Tapes::new(1978);
    let random = &mut Random::new(1978);
    let mut most = 0;
    for index in tapes.aimed()..tapes.aimed() + 10 {
        let tape = tapes.tape(index);
        let mut ring = Ring::fresh();
        let mut place = 0;
        while let Ok(Read::Command(command, next)) = tape::read(&tape, place) {
            let _ = apply(&mut ring, &command);
            place = next;
            if ring.started == 1 && random.percent(1) {
                load(&mut ring, random);
                let made = holds(&ring, u16::MAX).rounds;
                let given = [0, 1, made.saturating_sub(1), made, made + 1, ring.enough_rounds()];
                given.into_iter().for_each(|given| assert_eq!(holds(&ring, given).rounds, given.min(made)));
                most = most.max(made);
            }
        }
    }
    assert!(most > 30, "{most}: the rings are too quiet");
}

/// More requests and records, as many as are accepted.
fn load(ring: &mut Ring, random: &mut Random) {
    for channel in (0..ring.channel_count).map(ChannelNumber) {
        let unit = random.pick(&Unit::ALL);
        let _ = apply(ring, &Command::Send(channel, fields_to_send(random, unit)));
        if random.percent(80) {
            let _ = apply(ring, &Command::Receive(channel));
        }
    }
}
