//! How a network lies in memory (include/vessel_ring.h), and back.

use crate::model::{Channel, Network, Node, Phase, Record};
use common::layout::{self, LENGTH};
use std::collections::VecDeque;
use vessel_ring::{Ring, RECORD_BYTES, ROW};

pub fn record_bytes(record: &Record) -> [u8; RECORD_BYTES] {
    layout::record_bytes(&to_c(*record))
}

pub fn record_in(bytes: &[u8; RECORD_BYTES]) -> Record {
    from_c(layout::record_in(bytes))
}

/// Whether a record in the ring has a name with a blank at an end. Where there is no record all is zero.
pub fn blank_ended(bytes: &[u8; RECORD_BYTES]) -> bool {
    let (length, name) = (usize::from(bytes[7]), &bytes[8..]);
    name.get(..length).is_some_and(|name| name.starts_with(b" ") || name.ends_with(b" "))
}

pub fn to_c(record: Record) -> vessel_ring::Record {
    let Record { batch, vessel, temperature, length, name } = record;
    vessel_ring::Record { batch, vessel, name_length: length, temperature, name }
}

pub fn from_c(record: vessel_ring::Record) -> Record {
    let vessel_ring::Record { batch, vessel, name_length, temperature, name } = record;
    Record { batch, vessel, temperature, length: name_length, name }
}

fn lay_queue(queue: &VecDeque<usize>, row: &mut [u8; ROW]) -> u8 {
    for (cell, k) in row.iter_mut().zip(queue) {
        *cell = *k as u8 + 1;
    }
    queue.len() as u8
}

/// The ring of a network, whose counts fit.
pub fn lay(network: &Network) -> Ring {
    let mut ring = Ring::from_bytes(&[0; LENGTH]);
    ring.deliveries = network.deliveries;
    ring.started = network.started.into();
    ring.node_count = network.nodes.len() as u8;
    ring.channel_count = network.channels.len() as u8;
    for (p, node) in network.nodes.iter().enumerate() {
        ring.capacity[p] = node.slots as u8;
        ring.used[p] = lay_queue(&node.buffer, &mut ring.slots[p]);
        ring.waiting[p] = lay_queue(&node.line, &mut ring.lines[p]);
        ring.marks[p] = node.mark.into();
    }
    for (k, channel) in network.channels.iter().enumerate() {
        ring.senders[k] = channel.sender as u8;
        ring.receivers[k] = channel.receiver as u8;
        ring.phases[k] = match channel.phase {
            Phase::Resting => 0,
            Phase::Asking => 1,
            Phase::Ready => 2,
            Phase::Answering(record) => {
                ring.carried[k] = record_bytes(&record);
                3
            }
        };
        if let Some(record) = channel.offer {
            ring.offered[k] = 1;
            ring.offers[k] = record_bytes(&record);
        }
    }
    ring
}

/// The channel numbers in the used cells of a row.
fn queue_in(row: &[u8; ROW], used: u8, channels: usize) -> Option<VecDeque<usize>> {
    let cells = row.get(..used.into())?;
    cells.iter().map(|cell| usize::from(*cell).checked_sub(1).filter(|k| *k < channels)).collect()
}

fn nodes_in(ring: &Ring, channels: usize) -> Option<Vec<Node>> {
    let nodes = 0..usize::from(ring.node_count);
    nodes
        .map(|p| {
            Some(Node {
                slots: usize::from(*ring.capacity.get(p)?),
                buffer: queue_in(&ring.slots[p], ring.used[p], channels)?,
                line: queue_in(&ring.lines[p], ring.waiting[p], channels)?,
                mark: ring.marks[p] == 1,
            })
        })
        .collect()
}

fn channels_in(ring: &Ring) -> Option<Vec<Channel>> {
    let channels = 0..usize::from(ring.channel_count);
    channels
        .map(|k| {
            let phase = match *ring.phases.get(k)? {
                0 => Phase::Resting,
                1 => Phase::Asking,
                2 => Phase::Ready,
                3 => Phase::Answering(record_in(&ring.carried[k])),
                _ => return None,
            };
            Some(Channel {
                sender: ring.senders[k].into(),
                receiver: ring.receivers[k].into(),
                phase,
                offer: (ring.offered[k] == 1).then(|| record_in(&ring.offers[k])),
            })
        })
        .collect()
}

/// The network that a ring is. Laid out again it has to be this ring: so flags are 0 or 1 and what holds nothing is zero.
fn network_in(ring: &Ring) -> Option<Network> {
    let channels = channels_in(ring)?;
    let nodes = nodes_in(ring, channels.len())?;
    let network = Network { nodes, channels, started: ring.started == 1, deliveries: ring.deliveries };
    (lay(&network) == *ring).then_some(network)
}

/// The network that a ring is, if it is sound.
pub fn sound_network(ring: &Ring) -> Option<Network> {
    network_in(ring).filter(Network::sound)
}

/// The ring turned from tenths into hundredths, if it is sound in tenths.
pub fn turned(ring: &Ring) -> Option<Ring> {
    let mut network = network_in(ring).filter(Network::sound_in_tenths)?;
    network.to_hundredths();
    Some(lay(&network))
}
