//! Two fitters at two ends: request N7 of document 02. Entries and moves of the library in both orders, and what has to be seen of them.

use calls::library;
use calls::model::{Answer, Call};
use common::layout::first_difference;
use common::random::Random;
use common::sights::Sights;
use vessel_ring::{Ring, CHANNELS, NODES};

const ASKING: u8 = 1;
const READY: u8 = 2;
const ANSWERING: u8 = 3;

const SIGHTS: [&str; 19] = [
    "two entries",
    "two moves",
    "an entry and a move",
    "an entry and a move on three nodes",
    "both accepted",
    "both deliver",
    "both deliver, and the count ends at its last",
    "a delivery, and a request taken",
    "a response that joins a line, and the other accepted",
    "a turn mark set, and another cleared",
    "8 twice",
    "25 twice",
    "16, and the other accepted",
    "17, and the other accepted",
    "18, and the other accepted",
    "19, and the other accepted",
    "20, and the other accepted",
    "21, and the other accepted",
    "another ring in the other order, of a pair with a common node",
];

const TWICE: [(u8, &str); 2] = [(8, "8 twice"), (25, "25 twice")];

const BESIDE: [(u8, &str); 6] = [
    (16, "16, and the other accepted"),
    (17, "17, and the other accepted"),
    (18, "18, and the other accepted"),
    (19, "19, and the other accepted"),
    (20, "20, and the other accepted"),
    (21, "21, and the other accepted"),
];

pub struct Orders {
    pub pairs: u64,
    pub sights: Sights,
}

/// The nodes that a call touches: an entry its own, a move its own and the next.
fn touched(nodes: u8, call: Call) -> Vec<u32> {
    match call {
        Call::Enter(p) => vec![p.into()],
        Call::Move(p) => {
            let after = u32::from(p) + 1;
            vec![p.into(), if after == nodes.into() { 0 } else { after }]
        }
        _ => panic!("neither an entry nor a move: {call:?}"),
    }
}

/// Entries and moves at every node of the ring and at one that it has not.
fn traffic(ring: &Ring) -> Vec<Call> {
    let last = ring.node_count.min(NODES as u8);
    (0..=last).flat_map(|p| [Call::Enter(p), Call::Move(p)]).collect()
}

/// What the first call answers, what the other answers after it, and the ring then.
fn in_order(ring: &Ring, first: Call, then: Call) -> (Answer, Answer, Ring) {
    let mut ring = *ring;
    let answer = library::call(&mut ring, first);
    (answer, library::call(&mut ring, then), ring)
}

impl Orders {
    pub fn new() -> Orders {
        Orders { pairs: 0, sights: Sights::of(SIGHTS) }
    }

    /// All pairs of entries and moves on a ring.
    pub fn every_pair(&mut self, ring: &Ring) -> Result<(), String> {
        let traffic = traffic(ring);
        for (at, &a) in traffic.iter().enumerate() {
            for &b in &traffic[at..] {
                self.pair(ring, a, b)?;
            }
        }
        Ok(())
    }

    /// A pair that is drawn.
    pub fn drawn_pair(&mut self, ring: &Ring, random: &mut Random) -> Result<(), String> {
        let traffic = traffic(ring);
        self.pair(ring, random.pick(&traffic), random.pick(&traffic))
    }

    /// Both orders: where they touch no common node, the same two answers and every byte of the ring the same.
    fn pair(&mut self, ring: &Ring, a: Call, b: Call) -> Result<(), String> {
        let (first_a, then_b, by_a) = in_order(ring, a, b);
        let (first_b, then_a, by_b) = in_order(ring, b, a);
        let beside = touched(ring.node_count, b);
        if touched(ring.node_count, a).iter().any(|p| beside.contains(p)) {
            self.sights.see(by_a != by_b, "another ring in the other order, of a pair with a common node");
            return Ok(());
        }
        self.pairs += 1;
        if (first_a, first_b) != (then_a, then_b) {
            return Err(format!("{a:?} {b:?}: {first_a:?} {then_b:?}, in the other order {then_a:?} {first_b:?}\nbefore: {ring:?}"));
        }
        if let Some(difference) = first_difference(&by_a.to_bytes(), &by_b.to_bytes()) {
            return Err(format!("{a:?} {b:?}: in the other order another ring, first in {difference}\nbefore: {ring:?}"));
        }
        self.kinds(ring, a, b);
        self.answers(ring, &by_a, first_a, first_b);
        Ok(())
    }

    fn kinds(&mut self, ring: &Ring, a: Call, b: Call) {
        let moves = [a, b].iter().filter(|call| matches!(call, Call::Move(_))).count();
        self.sights.see(moves == 0, "two entries");
        self.sights.see(moves == 1, "an entry and a move");
        self.sights.see(moves == 1 && ring.node_count == 3, "an entry and a move on three nodes");
        self.sights.see(moves == 2, "two moves");
    }

    /// What the two answered and did, the ring before them and after them.
    fn answers(&mut self, before: &Ring, after: &Ring, a: Answer, b: Answer) {
        let numbers = (a.number(), b.number());
        for (number, name) in TWICE {
            self.sights.see(numbers == (number, number), name);
        }
        for (number, name) in BESIDE {
            self.sights.see(numbers == (number, 0) || numbers == (0, number), name);
        }
        if numbers != (0, 0) {
            return;
        }
        let turned = |from, to| (0..CHANNELS).any(|k| (before.phases[k], after.phases[k]) == (from, to));
        let marked = |from, to| (0..NODES).any(|p| (before.marks[p], after.marks[p]) == (from, to));
        let deliveries = [a, b].iter().filter(|answer| matches!(answer, Answer::Delivered(..))).count();
        let (taken, answered) = (turned(ASKING, READY), turned(ASKING, ANSWERING));
        let last = before.deliveries < u32::MAX && after.deliveries == u32::MAX;
        let mut see = |holds, name| self.sights.see(holds, name);
        see(true, "both accepted");
        see(deliveries == 2, "both deliver");
        see(deliveries == 2 && last, "both deliver, and the count ends at its last");
        see(deliveries == 1 && (taken || answered), "a delivery, and a request taken");
        see(answered, "a response that joins a line, and the other accepted");
        see(marked(0, 1) && marked(1, 0), "a turn mark set, and another cleared");
    }
}
