//! The entries and moves of rounds, called singly through the library.

use vessel_ring::{Record, Ring};

#[derive(Clone, Copy, PartialEq, Eq, Debug)]
pub enum Kind {
    Entry,
    Move,
}

/// What a try gave.
#[derive(Clone, Copy)]
pub struct Try {
    pub kind: Kind,
    /// 0 where it was accepted.
    pub refusal: u8,
    /// The channel whose message it took on, where it was accepted.
    pub message: Option<u8>,
    pub delivery: Option<(u8, Record)>,
}

/// The rounds of one ring, one after the other.
pub struct Rounds {
    /// The ring before the first round, and after each.
    pub rings: Vec<Ring>,
    /// The tries of each round: at each node in turn an entry and then a move.
    pub rounds: Vec<Vec<Try>>,
}

impl Rounds {
    /// At most so many rounds of a ring, until nothing is on it.
    pub fn run(ring: &Ring, given: usize) -> Rounds {
        let mut all = Rounds { rings: vec![*ring], rounds: Vec::new() };
        let mut after = *ring;
        while all.made() < given && on_ring(&after) > 0 {
            all.rounds.push(round(&mut after));
            all.rings.push(after);
        }
        all
    }

    pub fn made(&self) -> usize {
        self.rounds.len()
    }

    pub fn deliveries(&self, rounds: usize) -> Vec<(u8, Record)> {
        self.rounds[..rounds].iter().flatten().filter_map(|tried| tried.delivery).collect()
    }
}

fn round(ring: &mut Ring) -> Vec<Try> {
    (0..usize::from(ring.node_count)).flat_map(|node| [entry(ring, node), a_move(ring, node)]).collect()
}

fn entry(ring: &mut Ring, node: usize) -> Try {
    let first = ring.lines[node][0];
    let refusal = ring.enter(node as u8);
    Try { kind: Kind::Entry, refusal, message: message(first, refusal), delivery: None }
}

fn a_move(ring: &mut Ring, node: usize) -> Try {
    let first = ring.slots[node][0];
    let moved = ring.move_on(node as u8);
    let delivery = (moved.delivered == 1).then_some((moved.channel, moved.record));
    Try { kind: Kind::Move, refusal: moved.refusal, message: message(first, moved.refusal), delivery }
}

/// The channel in a cell, which an accepted try took on.
fn message(cell: u8, refusal: u8) -> Option<u8> {
    (refusal == 0).then(|| cell - 1)
}

/// How many channels of a sound ring are asking or answering.
pub fn on_ring(ring: &Ring) -> usize {
    ring.phases.iter().filter(|&&phase| phase == 1 || phase == 3).count()
}

/// c × (2n + 2), of a sound ring.
pub fn enough(ring: &Ring) -> usize {
    usize::from(ring.channel_count) * (2 * usize::from(ring.node_count) + 2)
}
