//! Single calls on a lent ring: the library's functions for firmware against the model's own. The calls are those of one record after the
//! other going its whole way on each channel in turn (receive, enter, moves, send, enter, moves), so every timed call is accepted, and the
//! ring ends as it began but for its count.

use second_model::ring::{BatchNumber, ChannelNumber, Fields, NodeNumber, Ring, Unit};
use std::time::Instant;

#[derive(Clone, Copy)]
enum Call {
    Receive(u8),
    Send(u8),
    Enter(u8),
    Move(u8),
}

/// A ring of so many nodes and channels: channel k goes from node k to the node before it, both counted round the ring.
struct Plan {
    nodes: u8,
    channels: u8,
}

impl Plan {
    fn sender(&self, channel: u8) -> u8 {
        channel % self.nodes
    }

    fn receiver(&self, channel: u8) -> u8 {
        (channel + self.nodes - 1) % self.nodes
    }

    /// Moves from one node on until the message reaches another, at least one.
    fn carry(&self, from: u8, to: u8, calls: &mut Vec<Call>) {
        calls.push(Call::Enter(from));
        let mut at = from;
        loop {
            calls.push(Call::Move(at));
            at = (at + 1) % self.nodes;
            if at == to {
                return;
            }
        }
    }

    fn calls(&self) -> Vec<Call> {
        let mut calls = Vec::new();
        for channel in 0..self.channels {
            let (sender, receiver) = (self.sender(channel), self.receiver(channel));
            calls.push(Call::Receive(channel));
            self.carry(receiver, sender, &mut calls);
            calls.push(Call::Send(channel));
            self.carry(sender, receiver, &mut calls);
        }
        calls
    }

    fn library(&self) -> vessel_ring::Ring {
        let mut ring = vessel_ring::Ring::fresh();
        for _ in 0..self.nodes {
            assert_eq!(ring.add_node(64), 0);
        }
        for channel in 0..self.channels {
            assert_eq!(ring.add_channel(self.sender(channel), self.receiver(channel)), 0);
        }
        assert_eq!(ring.start(), 0);
        ring
    }

    fn model(&self) -> Ring {
        let mut ring = Ring::fresh();
        for _ in 0..self.nodes {
            ring.add_node(64).expect("a node");
        }
        for channel in 0..self.channels {
            ring.add_channel(NodeNumber(self.sender(channel)), NodeNumber(self.receiver(channel))).expect("a channel");
        }
        ring.start().expect("a start");
        ring
    }
}

const NAME: &[u8] = b"bench";
/// In hundredths.
const TEMPERATURE: i16 = 6120;

fn name() -> [u8; 32] {
    let mut cells = [0; 32];
    cells[..NAME.len()].copy_from_slice(NAME);
    cells
}

fn on_library(ring: &mut vessel_ring::Ring, call: Call) -> u8 {
    match call {
        Call::Receive(channel) => ring.receive(channel),
        Call::Send(channel) => ring.send(
            channel,
            vessel_ring::Record { batch: 7, vessel: 3, name_length: NAME.len() as u8, temperature: TEMPERATURE, name: name() },
        ),
        Call::Enter(node) => ring.enter(node),
        Call::Move(node) => ring.move_on(node).refusal,
    }
}

fn on_model(ring: &mut Ring, call: Call) -> bool {
    match call {
        Call::Receive(channel) => ring.receive(ChannelNumber(channel)).is_ok(),
        Call::Send(channel) => {
            let (number, length) = (BatchNumber(7), NAME.len() as u8);
            let fields = Fields { unit: Unit::Hundredths, number, temperature: TEMPERATURE, vessel: 3, length, name: name() };
            ring.send(ChannelNumber(channel), &fields).is_ok()
        }
        Call::Enter(node) => ring.enter_at(NodeNumber(node)).is_ok(),
        Call::Move(node) => ring.move_at(NodeNumber(node)).is_ok(),
    }
}

/// Nanoseconds a call of both, and the ratio, model to library, of the rounds: median, lowest and highest tenth.
pub fn measure(nodes: u8, channels: u8, rounds: usize) {
    let plan = Plan { nodes, channels };
    let calls = plan.calls();
    let (mut ours, mut theirs) = (plan.library(), plan.model());
    let repeats = 1 + 4_000 / calls.len();
    let (mut times, mut model_times, mut ratios) = (Vec::new(), Vec::new(), Vec::new());
    for _ in 0..rounds {
        let begin = Instant::now();
        for &call in std::iter::repeat(&calls).take(repeats).flatten() {
            assert_eq!(on_library(&mut ours, call), 0, "every call is accepted");
        }
        let middle = Instant::now();
        for &call in std::iter::repeat(&calls).take(repeats).flatten() {
            assert!(on_model(&mut theirs, call), "every call is accepted");
        }
        let made = (repeats * calls.len()) as f64;
        let library_time = (middle - begin).as_secs_f64() / made * 1e9;
        let model_time = middle.elapsed().as_secs_f64() / made * 1e9;
        times.push(library_time);
        model_times.push(model_time);
        ratios.push(model_time / library_time);
    }
    for list in [&mut times, &mut model_times, &mut ratios] {
        list.sort_by(f64::total_cmp);
    }
    println!(
        "single calls, {nodes} nodes, {channels} channels: library {:.0} ns, model {:.0} ns, ratio {:.2} ({:.2} to {:.2})",
        crate::at(&times, 0.5),
        crate::at(&model_times, 0.5),
        crate::at(&ratios, 0.5),
        crate::at(&ratios, 0.1),
        crate::at(&ratios, 0.9),
    );
}
