//! What calls show of blanks at the ends of a name, request N4 of document 02: send refuses such a name, and a ring that holds one runs on.

use calls::form::blank_ended;
use calls::model::{Answer, Call};
use common::sights::Sights;
use second_model::coverage::{look_at_name, NAME_SIGHTS};
use vessel_ring::Ring;

/// What has to be seen of rings that hold such a name. Of sends it is what tapes have to show too, `NAME_SIGHTS`.
const SIGHTS: [&str; 5] = [
    "sound: a blank-ended record is offered",
    "sound: a blank-ended record is carried",
    "move: a blank-ended record goes on to the next node",
    "move: a blank-ended offer taken by the request that arrives",
    "move: a blank-ended record delivered",
];

pub struct Blanks {
    pub sends: Sights,
    pub held: Sights,
}

impl Blanks {
    pub fn new() -> Blanks {
        Blanks { sends: Sights::of(NAME_SIGHTS), held: Sights::of(SIGHTS) }
    }

    /// A call on a sound ring that answered as it has to, with the ring before it and after it.
    pub fn call(&mut self, call: Call, answer: Answer, before: &Ring, after: &Ring) {
        match (call, answer) {
            (Call::Send(k, record) | Call::SendTenths(k, record), _) => {
                let offered = before.offered.get(usize::from(k)) == Some(&1);
                look_at_name(&mut self.sends, record.length, &record.name, offered, answer.number());
            }
            (Call::Move(_), Answer::Delivered(k, _)) => {
                self.held.see(blank_ended(&before.carried[k]), "move: a blank-ended record delivered")
            }
            (Call::Move(p), Answer::Done) => self.moved(p, before, after),
            _ => {}
        }
        self.held.see(after.offers.iter().any(blank_ended), "sound: a blank-ended record is offered");
        self.held.see(after.carried.iter().any(blank_ended), "sound: a blank-ended record is carried");
    }

    /// A move that delivered nothing took on the first message of the node's buffer.
    fn moved(&mut self, p: u8, before: &Ring, after: &Ring) {
        let k = usize::from(before.slots[usize::from(p)][0] - 1);
        let (phase, then) = (before.phases[k], after.phases[k]);
        self.held.see(phase == 3 && blank_ended(&before.carried[k]), "move: a blank-ended record goes on to the next node");
        let taken = phase == 1 && then == 3 && blank_ended(&before.offers[k]);
        self.held.see(taken, "move: a blank-ended offer taken by the request that arrives");
    }
}
