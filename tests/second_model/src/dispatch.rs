//! Request N3 of document 02, "A dispatcher for the ring": one call that runs the
//! ring, made of the entries and moves of `ring`.

use crate::ring::{Delivery, NodeNumber, Refusal, Ring};

/// "The answer holds the rounds made and the deliveries in order".
#[derive(Clone, PartialEq, Eq, Debug)]
pub struct Dispatched {
    pub rounds: u16,
    pub deliveries: Vec<Delivery>,
}

impl Ring {
    /// "Rounds are run until nothing is on the ring or the given number of rounds
    /// is spent." "Errors: 25 and 8, as for a move." Both ends are tested before
    /// a round, so there is none on a ring with nothing on it.
    pub fn dispatch(&mut self, given: u16) -> Result<Dispatched, Refusal> {
        self.require_sound()?;
        self.require_started()?;
        let mut answer = Dispatched { rounds: 0, deliveries: Vec::new() };
        while answer.rounds < given && !self.nothing_on_ring() {
            self.round(&mut answer.deliveries);
            answer.rounds += 1;
        }
        Ok(answer)
    }

    /// "A round goes through nodes 0 to n - 1, at each trying an entry and then a
    /// move." A try that is refused changes nothing.
    fn round(&mut self, deliveries: &mut Vec<Delivery>) {
        for at in (0..self.node_count).map(NodeNumber) {
            let _ = self.enter_at(at);
            if let Ok(Some(delivery)) = self.move_at(at) {
                deliveries.push(delivery);
            }
        }
    }

    /// "asking (its request is on the ring)", "answering (its response is on the
    /// ring ...)": no channel is either. A ready one may be left.
    pub fn nothing_on_ring(&self) -> bool {
        !self.added_channels().iter().any(|channel| channel.moving())
    }

    /// "c × (2n + 2) rounds are enough to leave nothing on the ring", of a ring
    /// with at most 16 nodes and 64 channels.
    pub fn enough_rounds(&self) -> u16 {
        u16::from(self.channel_count) * (2 * u16::from(self.node_count) + 2)
    }
}
