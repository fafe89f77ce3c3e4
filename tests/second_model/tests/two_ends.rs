//! Request N7 of document 02, "Two fitters at two ends": worked pairs of entries
//! and moves, and every pair in both orders on rings of drawn tapes.

use second_model::generate::{turn_tape, Tapes};
use second_model::listing::apply;
use second_model::ring::*;
use second_model::tape::{self, Command, Read};

type Answer = Result<Option<Delivery>, Refusal>;

fn enter(node: u8) -> Command {
    Command::Enter(NodeNumber(node))
}

fn move_at(node: u8) -> Command {
    Command::Move(NodeNumber(node))
}

/// What the first call answers, what the other answers after it, and the ring
/// then.
fn in_order(ring: &Ring, first: &Command, then: &Command) -> (Answer, Answer, Ring) {
    let mut ring = ring.clone();
    let answer = apply(&mut ring, first);
    (answer, apply(&mut ring, then), ring)
}

/// "An entry touches its node, a move touches its node and the next"
fn touched(nodes: u8, call: &Command) -> Vec<u8> {
    match call {
        Command::Enter(NodeNumber(p)) => vec![*p],
        Command::Move(NodeNumber(p)) => vec![*p, if p + 1 == nodes { 0 } else { p + 1 }],
        _ => panic!("neither an entry nor a move"),
    }
}

fn share_a_node(nodes: u8, a: &Command, b: &Command) -> bool {
    touched(nodes, a).iter().any(|p| touched(nodes, b).contains(p))
}

/// "in either order the same two answers, refusals included, and the same ring"
fn same_in_either_order(ring: &Ring, a: &Command, b: &Command) -> bool {
    let (first_a, then_b, by_a) = in_order(ring, a, b);
    let (first_b, then_a, by_b) = in_order(ring, b, a);
    (first_a, then_b, by_a) == (then_a, first_b, by_b)
}

/// The turn case of document 01 up to its first entry: channel 0 is in the one
/// slot of node 0, channel 2 in its line, channel 1 in the line of node 1.
fn turn_case() -> Ring {
    let tape = turn_tape();
    let (mut ring, mut place) = (Ring::fresh(), 0);
    while let Ok(Read::Command(command, next)) = tape::read(&tape, place) {
        assert!(apply(&mut ring, &command).is_ok());
        place = next;
        if command == enter(0) {
            break;
        }
    }
    ring
}

#[test]
fn worked_pairs() {
    let ring = turn_case();
    let pairs = [
        (enter(0), enter(1), Refusal::NoFreeSlot),
        (enter(2), move_at(0), Refusal::LineEmpty),
        (enter(3), move_at(0), Refusal::NoSuchNode),
    ];
    for (refused, accepted, refusal) in pairs {
        assert!(!share_a_node(3, &refused, &accepted));
        assert!(same_in_either_order(&ring, &refused, &accepted));
        let (first, then, _) = in_order(&ring, &refused, &accepted);
        assert_eq!((first, then), (Err(refusal), Ok(None)));
    }
}

#[test]
fn before_the_start_and_on_an_unsound_ring() {
    let mut ring = Ring::fresh();
    (0..4).for_each(|_| ring.add_node(2).unwrap());
    for refusal in [Refusal::NotStarted, Refusal::Unsound] {
        let (first, then, after) = in_order(&ring, &enter(0), &move_at(2));
        assert_eq!((first, then, &after), (Err(refusal), Err(refusal), &ring));
        assert!(same_in_either_order(&ring, &enter(0), &move_at(2)));
        ring.slots[0] = 1;
    }
}

/// The entry at node 1 and the move that leads there: the buffer is in the order
/// of the calls.
#[test]
fn the_condition_matters() {
    let ring = turn_case();
    let (entry, passing) = (enter(1), move_at(0));
    assert!(share_a_node(3, &entry, &passing));
    let (first, then, by_entry) = in_order(&ring, &entry, &passing);
    assert_eq!((first, then, &by_entry.slots[64..66]), (Ok(None), Ok(None), &[2, 1][..]));
    let (first, then, by_move) = in_order(&ring, &passing, &entry);
    assert_eq!((first, then, &by_move.slots[64..66]), (Ok(None), Ok(None), &[1, 2][..]));
}

#[test]
fn drawn_rings() {
    let tapes = Tapes::new(1978);
    let (mut apart, mut order_told) = (0, 0);
    for index in tapes.aimed()..tapes.aimed() + 40 {
        let tape = tapes.tape(index);
        let (mut ring, mut place, mut commands) = (Ring::fresh(), 0, 0);
        while let Ok(Read::Command(command, next)) = tape::read(&tape, place) {
            let _ = apply(&mut ring, &command);
            place = next;
            commands += 1;
            if commands % 50 == 0 {
                let (pairs, differ) = every_pair(&ring);
                apart += pairs;
                order_told += differ;
            }
        }
    }
    assert!(apart > 10_000, "{apart}: too few pairs");
    assert!(order_told > 100, "{order_told}: the rings are too quiet");
}

/// How many pairs touch no common node, all the same in either order, and how
/// many of the others are not.
fn every_pair(ring: &Ring) -> (u32, u32) {
    let calls: Vec<_> = (0..=ring.node_count).flat_map(|p| [enter(p), move_at(p)]).collect();
    let (mut apart, mut order_told) = (0, 0);
    for a in &calls {
        for b in &calls {
            let same = same_in_either_order(ring, a, b);
            if share_a_node(ring.node_count, a, b) {
                order_told += u32::from(!same);
            } else {
                assert!(same, "{a:?} {b:?} {ring:?}");
                apart += 1;
            }
        }
    }
    (apart, order_told)
}
