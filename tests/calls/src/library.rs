//! A call by the library.

use crate::form::{from_c, to_c};
use crate::model::{Answer, Call};
use vessel_ring::Ring;

fn plain(refusal: u8) -> Answer {
    if refusal == 0 {
        Answer::Done
    } else {
        Answer::Refused(refusal)
    }
}

/// The call. A field that the answer does not have has to be zero.
pub fn call(ring: &mut Ring, call: Call) -> Answer {
    match call {
        Call::AddNode(slots) => plain(ring.add_node(slots)),
        Call::AddChannel(sender, receiver) => plain(ring.add_channel(sender, receiver)),
        Call::Start => plain(ring.start()),
        Call::Receive(channel) => plain(ring.receive(channel)),
        Call::Send(channel, record) => plain(ring.send(channel, to_c(record))),
        Call::SendTenths(channel, record) => plain(ring.send_tenths(channel, to_c(record))),
        Call::Enter(node) => plain(ring.enter(node)),
        Call::Move(node) => {
            let moved = ring.move_on(node);
            if moved.delivered == 1 {
                assert_eq!(moved.refusal, 0, "a delivery is no refusal");
                return Answer::Delivered(moved.channel.into(), from_c(moved.record));
            }
            let blank = vessel_ring::Delivery { refusal: moved.refusal, ..Default::default() };
            assert_eq!(moved, blank, "no delivery, so nothing beside the refusal");
            plain(moved.refusal)
        }
        Call::Withdraw(channel) => plain(ring.withdraw(channel)),
        Call::HopsLeft(channel) => {
            let left = ring.hops_left(channel);
            assert!(left.refusal == 0 || left.hops == 0, "a refusal answers its number alone");
            if left.refusal == 0 {
                Answer::Hops(left.hops.into())
            } else {
                Answer::Refused(left.refusal)
            }
        }
        Call::WaitingSet(node) => {
            let waiting = ring.waiting_set(node);
            assert!(waiting.refusal == 0 || waiting.set == 0, "a refusal answers its number alone");
            assert_eq!(waiting.tasks, waiting.set.count_ones(), "the tasks are the ones of the set");
            if waiting.refusal == 0 {
                Answer::Waiting(waiting.set)
            } else {
                Answer::Refused(waiting.refusal)
            }
        }
    }
}
