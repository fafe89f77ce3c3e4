//! Request N1 of document 02, "A task that gives up": its worked cases, what a
//! withdrawal leaves as it was, and what `coverage` sees of withdrawals.

use second_model::coverage::{self, Withdrawals};
use second_model::generate::{self, fields_named, record_named, UNDONE_RECEIVES};
use second_model::listing::{self, apply};
use second_model::ring::*;
use second_model::tape::{self, Command};

const CHANNEL_0: ChannelNumber = ChannelNumber(0);

/// A ring with these slots and channels (sender, receiver), not started.
fn planned(slots: &[u8], channels: &[(u8, u8)]) -> Ring {
    let mut ring = Ring::fresh();
    slots.iter().for_each(|&slots| ring.add_node(slots).unwrap());
    for &(sender, receiver) in channels {
        ring.add_channel(NodeNumber(sender), NodeNumber(receiver)).unwrap();
    }
    ring
}

fn started(slots: &[u8], channels: &[(u8, u8)]) -> Ring {
    let mut ring = planned(slots, channels);
    ring.start().unwrap();
    ring
}

/// A call in short: r, s, e, m or w (receive, send, enter, move, withdraw), and
/// the channel or node.
fn call(word: &str) -> Command {
    let number = word[1..].parse().unwrap();
    match &word[..1] {
        "r" => Command::Receive(ChannelNumber(number)),
        "s" => Command::Send(ChannelNumber(number), fields_named(b"A1")),
        "e" => Command::Enter(NodeNumber(number)),
        "m" => Command::Move(NodeNumber(number)),
        _ => Command::Withdraw(ChannelNumber(number)),
    }
}

/// Makes the calls and answers each one's refusal or 0. A refused call changes
/// nothing, and the ring stays sound.
fn make(ring: &mut Ring, calls: &str) -> Vec<u8> {
    let make_one = |word| {
        let before = ring.clone();
        let answer = apply(ring, &call(word)).map_or_else(|refusal| refusal as u8, |_| 0);
        assert!(ring.sound(), "{word}");
        assert!(answer == 0 || *ring == before, "{word}");
        answer
    };
    calls.split(' ').map(make_one).collect()
}

fn line(ring: &Ring, at: usize) -> Vec<u8> {
    let cells = &ring.lines[at * SLOTS..][..ring.nodes[at].line_length as usize];
    cells.iter().map(|cell| cell - 1).collect()
}

#[test]
fn refused_before_it_asks() {
    let mut ring = planned(&[1, 2], &[(1, 0)]);
    assert_eq!(make(&mut ring, "w0 w1"), [8, 8]);
    ring.start().unwrap();
    assert_eq!(make(&mut ring, "w1 w255 w0"), [9, 9, 27]);
}

#[test]
fn taken_out_of_the_line() {
    let mut ring = started(&[1, 2], &[(1, 0)]);
    let rested = ring.clone();
    assert_eq!(make(&mut ring, "r0 w0"), [0, 0]);
    assert_eq!(ring, rested);
    assert_eq!(make(&mut ring, "w0 r0"), [27, 0]);
}

#[test]
fn neither_from_a_buffer_nor_when_ready() {
    let mut ring = started(&[1, 2], &[(1, 0)]);
    assert_eq!(make(&mut ring, "r0 e0 w0 m0 w0"), [0, 0, 28, 0, 27]);
    assert_eq!(ring.channels[0].phase, READY);
}

/// The offer stays, so the next receive is matched at once.
#[test]
fn the_offer_stays() {
    let mut ring = started(&[1, 2], &[(1, 0)]);
    assert_eq!(make(&mut ring, "s0 r0 w0"), [0, 0, 0]);
    assert_eq!(ring.channels[0].offer, record_named(b"A1"));
    assert_eq!(make(&mut ring, "s0 r0 e0 m0 w0"), [15, 0, 0, 0, 27]);
    assert_eq!(ring.channels[0].phase, ANSWERING);
    // In its sender's line and in a buffer an answering channel is not asking.
    assert_eq!(make(&mut ring, "e1 w0 m1 w0"), [0, 27, 0, 27]);
    assert_eq!(ring.deliveries, 1);
}

#[test]
fn the_others_keep_their_order() {
    let mut ring = started(&[4], &[(0, 0), (0, 0), (0, 0)]);
    assert_eq!(make(&mut ring, "r0 r1 r2 w1"), [0; 4]);
    assert_eq!(line(&ring, 0), [0, 2]);
    assert_eq!(make(&mut ring, "e0 e0 e0"), [0, 0, 17]);
    assert_eq!(ring.slots[..3], [1, 3, 0]);
}

/// A same-node channel's response waits in the line that its request stood in.
#[test]
fn a_response_in_the_line_is_not_withdrawn() {
    let mut ring = started(&[2], &[(0, 0)]);
    assert_eq!(make(&mut ring, "s0 r0 e0 m0 w0"), [0, 0, 0, 0, 27]);
    assert_eq!((ring.channels[0].phase, line(&ring, 0)), (ANSWERING, vec![0]));
}

#[test]
fn the_mark_goes_with_the_line() {
    let mut ring = started(&[1, 2, 1], &[(2, 0), (2, 1), (2, 0)]);
    assert_eq!(make(&mut ring, "r0 r1 r2 e0 m0 e0 m0"), [0, 0, 0, 0, 0, 0, 21]);
    assert_eq!(ring.nodes[1].turn_mark, 1);
    assert_eq!(make(&mut ring, "w1"), [0]);
    assert_eq!(ring.nodes[1].turn_mark, 0);
    assert_eq!(make(&mut ring, "m0"), [0]);
}

#[test]
fn the_mark_stays_while_another_waits() {
    let mut ring = started(&[1, 3, 1], &[(2, 0), (2, 1), (2, 1), (2, 0)]);
    assert_eq!(make(&mut ring, "r0 r1 r2 e0 m0 w1"), [0; 6]);
    assert_eq!((ring.nodes[1].turn_mark, line(&ring, 1)), (1, vec![2]));
    assert_eq!(make(&mut ring, "r3 e0 m0 w2 m0"), [0, 0, 21, 0, 0]);
    assert_eq!((ring.nodes[1].turn_mark, line(&ring, 1)), (0, vec![]));
}

/// Of other lines and marks nothing changes.
#[test]
fn another_line_keeps_its_mark() {
    let mut ring = started(&[1, 2, 1], &[(2, 0), (2, 1), (2, 0)]);
    assert_eq!(make(&mut ring, "r0 r1 r2 e0 m0 w2"), [0; 6]);
    assert_eq!((ring.nodes[1].turn_mark, line(&ring, 1), line(&ring, 0)), (1, vec![1], vec![]));
}

#[test]
fn receives_undone_put_nothing_off() {
    let mut ring = started(&[1, 2], &[(0, 0), (1, 1)]);
    assert_eq!(make(&mut ring, "s0 r0"), [0, 0]);
    let matched = ring.clone();
    for _ in 0..UNDONE_RECEIVES {
        assert_eq!(make(&mut ring, "r1 w1"), [0, 0]);
    }
    assert_eq!(ring, matched);
    assert_eq!(make(&mut ring, "e0 m0 m1 e0 m0"), [0; 5]);
    let delivery = ring.move_at(NodeNumber(1)).unwrap().expect("the last move delivers");
    assert_eq!((delivery.channel, delivery.record), (CHANNEL_0, record_named(b"A1")));
}

/// The request that asks again stands at the end of the line.
#[test]
fn withdrawn_and_asked_again() {
    let mut ring = started(&[1, 2], &[(0, 0), (1, 1)]);
    let calls = "s0 r0 r1 w1 r1 e0 m0 m1 e0 m0 e1 m0 m1 m1";
    assert_eq!(make(&mut ring, calls), [0, 0, 0, 0, 0, 0, 0, 0, 0, 21, 0, 0, 0, 0]);
    let mut ring = started(&[4], &[(0, 0), (0, 0), (0, 0)]);
    assert_eq!(make(&mut ring, "r0 r1 r2 w0 r0"), [0; 5]);
    assert_eq!(line(&ring, 0), [1, 2, 0]);
}

fn listing_of(tape: &[u8]) -> String {
    let mut out = Vec::new();
    listing::run(tape, &mut out);
    String::from_utf8(out).expect("listings are ASCII")
}

/// The refusals or 0 of a tape's commands from one on, counted from 1.
fn answers_from(tape: &[u8], first: usize) -> Vec<String> {
    let text = listing_of(tape);
    let commands = text.lines().filter(|line| !line.starts_with("end"));
    let answer = |line: &str| line.split(' ').nth(2).unwrap().to_string();
    commands.skip(first - 1).map(answer).collect()
}

#[test]
fn the_named_tapes() {
    let freed = answers_from(&generate::freed_move_tape(), 8);
    assert_eq!(freed, ["0", "0", "0", "0", "0", "0", "21", "0", "0"]);
    let kept = answers_from(&generate::kept_mark_tape(), 9);
    assert_eq!(kept, ["0", "0", "0", "0", "0", "0", "0", "0", "21", "0", "0"]);
    let undone = listing_of(&generate::undone_receives_tape());
    assert!(undone.ends_with("\n2013 23 0 delivered 0 7 3 6120 2 A1\nend 2013 0\n"));
    assert!(undone.contains("\n9 24 0\n"));
}

/// All that is left of the longest line arrives, in order.
#[test]
fn the_longest_line() {
    let text = listing_of(&generate::long_line_tape());
    let channel = |line: &str| line.split(" delivered ").nth(1)?.split(' ').next()?.parse().ok();
    let arrived: Vec<u8> = text.lines().filter_map(channel).collect();
    let mut expected: Vec<u8> = (3..61).filter(|at| ![17, 31, 32].contains(at)).collect();
    expected.extend([31, 2]);
    assert_eq!(arrived, expected);
}

/// The plan of a ring as a tape, then calls.
fn tape_of(slots: &[u8], channels: &[(u8, u8)], calls: &str) -> Vec<u8> {
    let plan = slots.iter().map(|&slots| Command::AddNode { slots });
    let ends =
        channels.iter().map(|&(sender, receiver)| Command::AddChannel { sender: NodeNumber(sender), receiver: NodeNumber(receiver) });
    let commands = plan.chain(ends).chain([Command::Start]).chain(calls.split(' ').map(call));
    let mut bytes = Vec::new();
    for command in commands {
        let place = bytes.len();
        bytes.resize(place + command.width(), 0);
        tape::write(&command, &mut bytes, place).unwrap();
    }
    bytes
}

#[test]
fn coverage_sees_the_named_tapes() {
    let freed = coverage::withdrawals(&generate::freed_move_tape());
    let one = Withdrawals { accepted: 1, marks_cleared: 1, freed_moves: 1, ..Default::default() };
    assert_eq!(freed, one);
    let kept = coverage::withdrawals(&generate::kept_mark_tape());
    assert_eq!(kept, Withdrawals { accepted: 2, marks_kept: 1, ..one });
    let undone = coverage::withdrawals(&generate::undone_receives_tape());
    let all = UNDONE_RECEIVES;
    assert_eq!(undone, Withdrawals { accepted: all, most_undone: all, ..Default::default() });
    let mut both = freed;
    both.add(&undone);
    assert_eq!(both, Withdrawals { accepted: all + 1, most_undone: all, ..one });
    assert_eq!(coverage::withdrawals(&[0x12; listing::TAPE_LIMIT + 1]), Default::default());
}

/// A move that an entry freed is not freed by a withdrawal; nor is one that was
/// never 21.
#[test]
fn coverage_of_freed_moves_is_exact() {
    for (calls, freed) in [
        ("r0 r1 r2 e0 m0 e0 m0 w1 m0", 1),
        ("r0 r1 r2 e0 m0 e0 m0 w1 w1 m1 m0", 0),
        ("r0 r1 r2 e0 m0 e0 m0 w1 w1 m0 m0", 1),
        ("r0 r1 r2 e0 m0 e0 m0 e1 m1 m0", 0),
        ("r0 r1 r2 e0 m0 e0 w1 m0", 0),
        ("r0 r1 r2 e0 m0 e0 m0 w1", 0),
    ] {
        let tape = tape_of(&[1, 2, 1], &[(2, 0), (2, 1), (2, 0)], calls);
        assert_eq!(coverage::withdrawals(&tape).freed_moves, freed, "{calls}");
    }
}

/// Counted are receives made after the match and undone before the delivery.
#[test]
fn coverage_of_receives_undone_is_exact() {
    for (calls, undone) in [
        ("s0 r0 r1 w1 e0 m0 m1 e0 m0 m1", 1),
        ("r0 s0 r1 w1 e0 m0 m1 e0 m0 r1 w1 m1 r1 w1", 2),
        ("s0 r1 w1 r0 e0 m0 m1 e0 m0 m1", 0),
        ("s0 r1 r0 w1 e0 m0 m1 e0 m0 m1", 0),
        ("s0 r0 r1 w1 e0 m0 m1 e0 m0", 0),
        ("r0 e0 m0 m1 r1 w1 s0 r1 w1 e0 m0 m1", 1),
        ("s0 r0 r1 w1 w0 r0 e0 m0 m1 e0 m0 m1", 0),
    ] {
        let tape = tape_of(&[1, 2], &[(0, 0), (1, 1)], calls);
        assert_eq!(coverage::withdrawals(&tape).most_undone, undone, "{calls}");
    }
}
