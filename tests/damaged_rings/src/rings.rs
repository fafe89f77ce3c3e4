//! The rings to be judged: those that the model reaches on its tapes.

use common::random::Random;
use second_model::generate::Tapes;
use second_model::listing::apply;
use second_model::ring::Ring;
use second_model::tape::{self, Read};

/// From one ring to the next there are 1 to so many calls.
const MOST_CALLS: usize = 9;

/// The rings on the drawn tapes of a seed, from tape to tape without end. Each
/// tape begins with a fresh ring. The aimed tapes are left out: they are about
/// refusals, and many of them leave the ring as it is.
pub struct Rings {
    tapes: Tapes,
    next_tape: usize,
    tape: Vec<u8>,
    place: usize,
    ring: Ring,
}

impl Rings {
    pub fn new(seed: u64) -> Rings {
        let tapes = Tapes::new(seed);
        let next_tape = tapes.aimed();
        Rings { tapes, next_tape, tape: Vec::new(), place: 0, ring: Ring::fresh() }
    }

    /// The ring a few calls later, or the fresh ring of the next tape.
    pub fn reach(&mut self, random: &mut Random) -> &Ring {
        for _ in 0..random.between(1, MOST_CALLS) {
            if !self.call() {
                self.begin_tape();
                break;
            }
        }
        &self.ring
    }

    /// Makes the next call of the tape, if there is one; it may be refused.
    fn call(&mut self) -> bool {
        let Ok(Read::Command(command, next)) = tape::read(&self.tape, self.place) else {
            return false;
        };
        let _ = apply(&mut self.ring, &command);
        self.place = next;
        true
    }

    fn begin_tape(&mut self) {
        self.tape = self.tapes.tape(self.next_tape);
        self.next_tape += 1;
        self.place = 0;
        self.ring = Ring::fresh();
    }
}
