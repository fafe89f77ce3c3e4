//! The dispatcher against the same entries and moves called singly, both by the library. Every channel has asked and has a record offered,
//! and the ring is run until nothing is on it.

use std::time::Instant;
use vessel_ring::{Record, Ring};

/// A ring with its slots and its channels (sender, receiver).
struct Plan {
    name: &'static str,
    slots: Vec<u8>,
    channels: Vec<(u8, u8)>,
    /// The requests have entered.
    entered: bool,
}

impl Plan {
    /// So many nodes of 64 slots and so many channels: channel k goes from node k to the node before it, both counted round the ring.
    fn wide(name: &'static str, nodes: u8, channels: u8) -> Plan {
        let ends = (0..channels).map(|channel| (channel % nodes, (channel + nodes - 1) % nodes));
        Plan { name, slots: vec![64; nodes.into()], channels: ends.collect(), entered: false }
    }

    /// 16 nodes of 2 slots, 31 same-node channels, two a node and one at node 0: it takes the most rounds.
    fn crowded() -> Plan {
        let ends = (1..32).map(|at| (at / 2, at / 2));
        Plan { name: "16 nodes of 2 slots, 31 same-node channels", slots: vec![2; 16], channels: ends.collect(), entered: true }
    }

    fn ring(&self) -> Ring {
        let mut ring = Ring::fresh();
        self.slots.iter().for_each(|&slots| assert_eq!(ring.add_node(slots), 0));
        self.channels.iter().for_each(|&(sender, receiver)| assert_eq!(ring.add_channel(sender, receiver), 0));
        assert_eq!(ring.start(), 0);
        for (channel, &(_, receiver)) in (0..).zip(&self.channels) {
            let record = Record { batch: 7, vessel: 3, temperature: 6120, ..Record::default() };
            assert_eq!((ring.send(channel, record), ring.receive(channel)), (0, 0));
            assert!(!self.entered || ring.enter(receiver) == 0);
        }
        ring
    }
}

/// So many rounds by single calls; answers how many records were delivered.
fn singly(ring: &mut Ring, rounds: u16) -> u8 {
    let mut delivered = 0;
    for _ in 0..rounds {
        for node in 0..ring.node_count {
            ring.enter(node);
            delivered += ring.move_on(node).delivered;
        }
    }
    delivered
}

/// Nanoseconds for each of the copies of a ring. They are made before, so that this is the calls alone.
fn time(ring: &Ring, copies: usize, run: impl Fn(&mut Ring) -> u8) -> f64 {
    let mut rings = vec![*ring; copies];
    let begin = Instant::now();
    let delivered: usize = rings.iter_mut().map(|ring| usize::from(run(ring))).sum();
    let time = begin.elapsed().as_secs_f64() / copies as f64 * 1e9;
    assert_eq!(delivered, copies * usize::from(ring.channel_count), "every channel delivers");
    time
}

/// Nanoseconds a round of both, and the ratio, single calls to dispatcher: median, lowest and highest tenth of the repeats.
fn measure(plan: &Plan, repeats: usize) {
    let ring = plan.ring();
    let (mut by_dispatcher, mut by_single_calls) = (ring, ring);
    let rounds = by_dispatcher.dispatch(u16::MAX).rounds;
    singly(&mut by_single_calls, rounds);
    assert_eq!(by_dispatcher, by_single_calls, "the same ring after both");
    let tries = 2 * usize::from(rounds) * plan.slots.len();
    let copies = (2_000 / tries).clamp(1, 64);
    let (mut ours, mut theirs, mut ratios) = (Vec::new(), Vec::new(), Vec::new());
    for _ in 0..repeats {
        let dispatched = time(&ring, copies, |ring| ring.dispatch(u16::MAX).count);
        let called = time(&ring, copies, |ring| singly(ring, rounds));
        ours.push(dispatched / f64::from(rounds));
        theirs.push(called / f64::from(rounds));
        ratios.push(called / dispatched);
    }
    for list in [&mut ours, &mut theirs, &mut ratios] {
        list.sort_by(f64::total_cmp);
    }
    println!(
        "dispatcher, {}: {rounds} rounds, {:.0} ns a round, singly {:.0} ns, ratio {:.2} ({:.2} to {:.2})",
        plan.name,
        crate::at(&ours, 0.5),
        crate::at(&theirs, 0.5),
        crate::at(&ratios, 0.5),
        crate::at(&ratios, 0.1),
        crate::at(&ratios, 0.9),
    );
}

pub fn measure_all(repeats: usize) {
    let plans = [
        Plan { name: "2 nodes of 1 and 2 slots, 1 channel", slots: vec![1, 2], channels: vec![(1, 0)], entered: false },
        Plan { name: "the same with 2 same-node channels", slots: vec![1, 2], channels: vec![(0, 0), (1, 1)], entered: false },
        Plan::wide("4 nodes, 16 channels", 4, 16),
        Plan::wide("16 nodes, 1 channel", 16, 1),
        Plan::wide("16 nodes, 64 channels", 16, 64),
        Plan::crowded(),
    ];
    plans.iter().for_each(|plan| measure(plan, repeats));
}
