//! The same call by `tests/second_model`, on a sound ring: a third opinion.

use crate::form::from_c;
use crate::model::{Answer, Call, Record};
use damaged_rings::expected;
use damaged_rings::form::{lay_out, read_back, to_c};
use second_model::ring::{BatchNumber, ChannelNumber, Delivery, Fields, NodeNumber, Refusal, Unit};
use vessel_ring::Ring;

/// The answer and the ring after it.
pub fn call(ring: &Ring, call: Call) -> (Answer, Ring) {
    let mut bytes = ring.to_bytes();
    let mut model = read_back(&bytes);
    let done = |_: ()| Answer::Done;
    let answer: Result<Answer, Refusal> = match call {
        Call::AddNode(slots) => model.add_node(slots).map(done),
        Call::AddChannel(sender, receiver) => model.add_channel(NodeNumber(sender), NodeNumber(receiver)).map(done),
        Call::Start => model.start().map(done),
        Call::Receive(channel) => model.receive(ChannelNumber(channel)).map(done),
        Call::Send(channel, record) => model.send(ChannelNumber(channel), &fields(Unit::Hundredths, record)).map(done),
        Call::SendTenths(channel, record) => model.send(ChannelNumber(channel), &fields(Unit::Tenths, record)).map(done),
        Call::Enter(node) => model.enter_at(NodeNumber(node)).map(done),
        Call::Move(node) => model.move_at(NodeNumber(node)).map(|moved| moved.map_or(Answer::Done, delivered)),
        Call::Withdraw(channel) => model.withdraw(ChannelNumber(channel)).map(done),
        Call::HopsLeft(channel) => model.hops_left(ChannelNumber(channel)).map(|hops| Answer::Hops(hops.into())),
        Call::WaitingSet(node) => model.waiting_set(NodeNumber(node)).map(Answer::Waiting),
    };
    lay_out(&model, &mut bytes);
    (answer.unwrap_or_else(|refusal| Answer::Refused(refusal as u8)), Ring::from_bytes(&bytes))
}

/// What a send is given, with the unit of its call.
pub fn fields(unit: Unit, record: Record) -> Fields {
    let Record { batch, vessel, temperature, length, name } = record;
    Fields { unit, number: BatchNumber(batch), temperature, vessel, length, name }
}

/// The ring turned from tenths into hundredths, if it is sound in tenths.
pub fn turned(ring: &Ring) -> Option<Ring> {
    expected::turned(&ring.to_bytes()).map(|bytes| Ring::from_bytes(&bytes))
}

fn delivered(delivery: Delivery) -> Answer {
    Answer::Delivered(delivery.channel.0.into(), from_c(to_c(&delivery.record)))
}
