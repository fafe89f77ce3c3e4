//! The ring: its state, what makes it sound, eight operations and two
//! questions. All state is in fixed arrays of integers and records, so a ring
//! handed in from outside can be wrong, and `sound` finds out.
//!
//! Terms of document 01: the *slots* of a node are its buffer, a queue of the
//! messages passing through; a *line* is a queue of the node's own messages
//! that wait to enter its buffer; a *turn mark* says that passing traffic has
//! overtaken a waiting line once, so the line is next.

use std::ops::RangeInclusive;

/// "Nodes 0 to n - 1, n from 1 to 16."
pub const NODES: usize = 16;
/// "Channels 0 to c - 1, c from 1 to 64".
pub const CHANNELS: usize = 64;
/// "Each node has 1 to 64 slots".
pub const SLOTS: usize = 64;
/// "all 1,024 slot cells": 64 for each of 16 nodes.
pub const CELLS: usize = NODES * SLOTS;

// "A node number, a channel number and a batch number are never taken for one
// another": three types.
#[derive(Clone, Copy, PartialEq, Eq, Debug)]
pub struct NodeNumber(pub u8);
#[derive(Clone, Copy, PartialEq, Eq, Debug)]
pub struct ChannelNumber(pub u8);
#[derive(Clone, Copy, PartialEq, Eq, Debug)]
pub struct BatchNumber(pub u32);

/// The refusals of document 01, with its numbers; 27 and 28 are of 02's N1, 29 of
/// its N2, 30 of its N4.
#[derive(Clone, Copy, PartialEq, Eq, Debug)]
#[repr(u8)]
pub enum Refusal {
    AlreadyStarted = 1,
    SixteenNodes = 2,
    SlotsOutOfRange = 3,
    SixtyFourChannels = 4,
    NotANodeSoFar = 5,
    NoNodeOrNoChannel = 6,
    TooFewSlots = 7,
    NotStarted = 8,
    NoSuchChannel = 9,
    NotResting = 10,
    BatchNumberZero = 11,
    TemperatureOutOfRange = 12,
    NameTooLong = 13,
    NameWrong = 14,
    AlreadyOffered = 15,
    NoSuchNode = 16,
    LineEmpty = 17,
    NoFreeSlot = 18,
    BufferEmpty = 19,
    NoFreeSlotThere = 20,
    TurnMarkSet = 21,
    UnknownCommand = 22,
    CommandCut = 23,
    PlaceBeyond = 24,
    Unsound = 25,
    NoRoomToWrite = 26,
    NotAsking = 27,
    RequestInBuffer = 28,
    NoEmptyRow = 29,
    BlankEnd = 30,
}

/// A table by refusal number has so many places; place 0 is of no refusal.
pub const REFUSAL_NUMBERS: usize = Refusal::BlankEnd as usize + 1;

pub(crate) fn require(condition: bool, else_refused: Refusal) -> Result<(), Refusal> {
    if condition {
        Ok(())
    } else {
        Err(else_refused)
    }
}

/// A unit of temperature: sends are given either, what is held is in hundredths.
#[derive(Clone, Copy, PartialEq, Eq, Debug)]
pub enum Unit {
    Tenths,
    Hundredths,
}

impl Unit {
    pub const ALL: [Unit; 2] = [Unit::Tenths, Unit::Hundredths];

    /// The temperatures of a good record. 01: "in tenths of a degree Celsius (signed,
    /// -400 to 1200)"; 02, N5: "hundredths, from -4000 to 12000".
    pub const fn range(self) -> RangeInclusive<i16> {
        match self {
            Unit::Tenths => -400..=1200,
            Unit::Hundredths => -4000..=12000,
        }
    }

    /// 02, N5: "making a record's temperature from a command's promises hundredths
    /// or refusal 12 everywhere". Tenths "are checked against -400 to 1200 ... and
    /// only then become ten times as many hundredths": so all fit 16 bits.
    pub fn hundredths(self, value: i16) -> Result<i16, Refusal> {
        require(self.range().contains(&value), Refusal::TemperatureOutOfRange)?;
        Ok(match self {
            Unit::Tenths => 10 * value,
            Unit::Hundredths => value,
        })
    }
}

/// "Batch number (32 bits, not 0), vessel (0 to 255), temperature ..., name length
/// 0 to 32, name of 32 bytes." The temperature is in hundredths. All zero stands for
/// "no record": a good record has a batch number.
#[derive(Clone, Copy, PartialEq, Eq, Debug)]
pub struct Record {
    pub number: BatchNumber,
    pub temperature: i16,
    pub vessel: u8,
    pub length: u8,
    pub name: [u8; 32],
}

/// What a send is given: the fields of a record, with the temperature in either
/// unit. They may be of no good record.
#[derive(Clone, Copy, PartialEq, Eq, Debug)]
pub struct Fields {
    pub unit: Unit,
    pub number: BatchNumber,
    pub temperature: i16,
    pub vessel: u8,
    pub length: u8,
    pub name: [u8; 32],
}

impl Fields {
    /// The fields of a record.
    pub fn of(record: &Record) -> Fields {
        let Record { number, temperature, vessel, length, name } = *record;
        Fields { unit: Unit::Hundredths, number, temperature, vessel, length, name }
    }

    /// The record that they make, a good one, or the first refusal of "Send" that
    /// says why there is none: 12 "at the place of 12 in send's order" in either
    /// unit.
    pub fn record(&self) -> Result<Record, Refusal> {
        let Fields { unit, number, temperature, vessel, length, name } = *self;
        require(number.0 != 0, Refusal::BatchNumberZero)?;
        let temperature = unit.hundredths(temperature)?;
        let record = Record { number, temperature, vessel, length, name };
        record.check()?;
        Ok(record)
    }
}

/// The blank, the lowest byte that a name may have.
pub const BLANK: u8 = 0x20;

/// Any 32 neighbours of it mark the bytes of a name (FF), then the fill (0).
const NAME_THEN_FILL: [u8; 64] = {
    let mut marks = [0; 64];
    let mut at = 0;
    while at < 32 {
        marks[at] = 0xFF;
        at += 1;
    }
    marks
};

impl Record {
    pub const NONE: Record = Record { number: BatchNumber(0), temperature: 0, vessel: 0, length: 0, name: [0; 32] };

    /// A good record, or the first refusal of "Send" that says why it is none:
    /// "11 batch number 0; 12 temperature out of range; 13 name length over 32;
    /// 14 a name byte or the fill is wrong". 30 is not among them: by 02, N4, a
    /// ring may hold such a record and "the history still takes them".
    pub fn check(&self) -> Result<(), Refusal> {
        require(self.number.0 != 0, Refusal::BatchNumberZero)?;
        let in_range = Unit::Hundredths.range().contains(&self.temperature);
        require(in_range, Refusal::TemperatureOutOfRange)?;
        require(self.length <= 32, Refusal::NameTooLong)?;
        require(self.name_good(), Refusal::NameWrong)
    }

    /// "The first length bytes are hexadecimal 20 to 7E, the rest are 0." For a
    /// length of at most 32.
    fn name_good(&self) -> bool {
        let shift = 32 - self.length as usize;
        let in_name = &NAME_THEN_FILL[shift..shift + 32];
        // No early exit: all 32 bytes at once are cheaper than a branch each.
        let mut wrong = 0;
        for (&byte, &in_name) in self.name.iter().zip(in_name) {
            let printable = if (0x20..=0x7E).contains(&byte) { 0xFF } else { 0 };
            wrong |= (printable ^ in_name) | (byte & !in_name);
        }
        wrong == 0
    }

    /// 02, N4: "A name whose first or last byte is hexadecimal 20". The name is
    /// the first length bytes; an empty one has no ends. For a good record.
    fn blank_end(&self) -> bool {
        let name = &self.name[..self.length as usize];
        name.first() == Some(&BLANK) || name.last() == Some(&BLANK)
    }

    pub fn is_none(&self) -> bool {
        *self == Record::NONE
    }

    /// "Two records are of the same batch exactly when their batch numbers are
    /// equal; the name plays no part."
    pub fn same_batch(&self, other: &Record) -> bool {
        self.number == other.number
    }
}

/// "Each node has a buffer ..., a line ... and a turn mark." The queues' cells
/// are in the ring (`slots`, `lines`); here are their lengths.
#[derive(Clone, Copy, PartialEq, Eq, Debug)]
pub struct Node {
    pub slots: u8,
    pub buffer_length: u8,
    pub line_length: u8,
    /// 1 when set.
    pub turn_mark: u8,
}

impl Node {
    pub const NONE: Node = Node { slots: 0, buffer_length: 0, line_length: 0, turn_mark: 0 };
}

// The phases of a channel: "resting, asking (its request is on the ring), ready
// (the request arrived and no record was offered) or answering (its response is
// on the ring, with the record carried)".
pub const RESTING: u8 = 0;
pub const ASKING: u8 = 1;
pub const READY: u8 = 2;
pub const ANSWERING: u8 = 3;

/// "each with one sender node and one receiver node, which may be the same";
/// "Besides, it holds at most one offered record."
#[derive(Clone, Copy, PartialEq, Eq, Debug)]
pub struct Channel {
    pub sender: NodeNumber,
    pub receiver: NodeNumber,
    pub phase: u8,
    pub offer: Record,
    pub carried: Record,
}

impl Channel {
    pub const NONE: Channel =
        Channel { sender: NodeNumber(0), receiver: NodeNumber(0), phase: RESTING, offer: Record::NONE, carried: Record::NONE };

    pub(crate) fn moving(&self) -> bool {
        self.phase == ASKING || self.phase == ANSWERING
    }

    /// Where the message of an asking or answering channel joins a line:
    /// "request: receiver; response: sender".
    fn entry(&self) -> NodeNumber {
        if self.phase == ASKING {
            self.receiver
        } else {
            self.sender
        }
    }

    /// Where that message is taken: "a request whose sender node that is", "a
    /// response whose receiver node that is".
    fn target(&self) -> NodeNumber {
        if self.phase == ASKING {
            self.sender
        } else {
            self.receiver
        }
    }
}

/// "the answer holds channel and record"
#[derive(Clone, Copy, PartialEq, Eq, Debug)]
pub struct Delivery {
    pub channel: ChannelNumber,
    pub record: Record,
}

/// Hops, by a formula (02, N6): on to q where it lies ahead, else round the ring;
/// "0 where p or q is n or more". `tests/scope.rs` holds it against the rule.
pub fn hops(n: u8, p: u8, q: u8) -> u8 {
    if p >= n || q >= n {
        0
    } else if p < q {
        q - p
    } else {
        n - p + q
    }
}

/// The ring of a site. A message on the ring is one cell that holds its channel
/// number plus one; whether it is a request or a response is the channel's
/// phase. The cells of node p are 64 p to 64 p + 63, the first of the queue in
/// front; a cell that holds nothing is 0.
#[derive(Clone, PartialEq, Eq, Debug)]
pub struct Ring {
    /// 1 when started.
    pub started: u8,
    pub node_count: u8,
    pub channel_count: u8,
    /// "The ring counts deliveries; the count stops at 4,294,967,295."
    pub deliveries: u32,
    pub nodes: [Node; NODES],
    pub channels: [Channel; CHANNELS],
    pub slots: [u8; CELLS],
    pub lines: [u8; CELLS],
}

impl Ring {
    /// "A fresh ring has no node, no channel and all 1,024 slot cells empty."
    pub const fn fresh() -> Ring {
        Ring {
            started: 0,
            node_count: 0,
            channel_count: 0,
            deliveries: 0,
            nodes: [Node::NONE; NODES],
            channels: [Channel::NONE; CHANNELS],
            slots: [0; CELLS],
            lines: [0; CELLS],
        }
    }

    // ---- Operations. Refusals in the order of 01; "A refusal answers its
    // number alone and changes nothing": every change is after the last check.

    /// "Add node (slots): 1 already started; 2 sixteen nodes stand; 3 slots not
    /// 1 to 64."
    pub fn add_node(&mut self, slots: u8) -> Result<(), Refusal> {
        self.require_sound()?;
        self.require_not_started()?;
        require((self.node_count as usize) < NODES, Refusal::SixteenNodes)?;
        require((1..=SLOTS as u8).contains(&slots), Refusal::SlotsOutOfRange)?;
        self.nodes[self.node_count as usize].slots = slots;
        self.node_count += 1;
        Ok(())
    }

    /// "Add channel (sender, receiver): 1; 4 sixty-four channels stand; 5 either
    /// is not a node added so far."
    pub fn add_channel(&mut self, sender: NodeNumber, receiver: NodeNumber) -> Result<(), Refusal> {
        self.require_sound()?;
        self.require_not_started()?;
        require((self.channel_count as usize) < CHANNELS, Refusal::SixtyFourChannels)?;
        require(sender.0 < self.node_count && receiver.0 < self.node_count, Refusal::NotANodeSoFar)?;
        let channel = &mut self.channels[self.channel_count as usize];
        channel.sender = sender;
        channel.receiver = receiver;
        self.channel_count += 1;
        Ok(())
    }

    /// "Start: 1; 6 no node or no channel; 7 b not greater than c."
    pub fn start(&mut self) -> Result<(), Refusal> {
        self.require_sound()?;
        self.require_not_started()?;
        require(self.node_count > 0 && self.channel_count > 0, Refusal::NoNodeOrNoChannel)?;
        require(self.total_slots() > self.channel_count as u32, Refusal::TooFewSlots)?;
        self.started = 1;
        Ok(())
    }

    /// "Receive: 8 not started; 9 no such channel; 10 not resting." Then "it
    /// becomes asking; its request joins the receiver node's line."
    pub fn receive(&mut self, number: ChannelNumber) -> Result<(), Refusal> {
        self.require_sound()?;
        self.require_started()?;
        self.require_channel(number)?;
        let channel = &mut self.channels[number.0 as usize];
        require(channel.phase == RESTING, Refusal::NotResting)?;
        channel.phase = ASKING;
        let receiver = channel.receiver;
        self.join_line(receiver, number);
        Ok(())
    }

    /// "Send: 8; 9; 11 ...; 12 ...; 13 ...; 14 ...; 15 a record is already
    /// offered", with 02's N4: "30, after 14 and before 15". Then "the record is
    /// offered. If the channel is ready, it becomes answering".
    pub fn send(&mut self, number: ChannelNumber, fields: &Fields) -> Result<(), Refusal> {
        self.require_sound()?;
        self.require_started()?;
        self.require_channel(number)?;
        let record = fields.record()?;
        require(!record.blank_end(), Refusal::BlankEnd)?;
        let channel = &mut self.channels[number.0 as usize];
        require(channel.offer.number.0 == 0, Refusal::AlreadyOffered)?;
        channel.offer = record;
        if channel.phase == READY {
            self.answer(number);
        }
        Ok(())
    }

    /// "Enter: 8; 16 no such node; 17 line empty; 18 no free slot." Then "the
    /// first of its line goes to the end of its buffer. The turn mark is
    /// cleared."
    pub fn enter_at(&mut self, number: NodeNumber) -> Result<(), Refusal> {
        self.require_sound()?;
        self.require_started()?;
        self.require_node(number)?;
        let node = &self.nodes[number.0 as usize];
        require(node.line_length > 0, Refusal::LineEmpty)?;
        require(node.buffer_length < node.slots, Refusal::NoFreeSlot)?;
        let message = self.leave_line(number);
        self.join_buffer(number, message);
        self.nodes[number.0 as usize].turn_mark = 0;
        Ok(())
    }

    /// "Move: 8; 16; 19 buffer empty; then, only for a message not taken at the
    /// next node, 20 no free slot there; 21 the turn mark there is set." The
    /// answer is the delivery, if the move made one.
    pub fn move_at(&mut self, number: NodeNumber) -> Result<Option<Delivery>, Refusal> {
        self.require_sound()?;
        self.require_started()?;
        self.require_node(number)?;
        require(self.nodes[number.0 as usize].buffer_length > 0, Refusal::BufferEmpty)?;
        let next = self.next_node(number);
        let message = first_message(block(&self.slots, number));
        let channel = &self.channels[message.0 as usize];
        if channel.target() != next {
            self.pass_on(number, next)?;
            return Ok(None);
        }
        // "taken there without a slot", "delivered without a slot": neither the
        // next node's slots nor its turn mark matter here.
        let phase = channel.phase;
        self.leave_buffer(number);
        if phase == ASKING {
            self.take_request(message);
            Ok(None)
        } else {
            Ok(Some(self.deliver(message)))
        }
    }

    /// 02, N1: "after 8 and 9, 27 if the channel is not asking, 28 if its request
    /// is in a buffer." Then "it is taken out, the others keep their order, the
    /// channel rests, and a line left empty has its turn mark cleared." Only the
    /// request goes: a record offered stays, and so does the mark of a line that
    /// is not left empty.
    pub fn withdraw(&mut self, number: ChannelNumber) -> Result<(), Refusal> {
        self.require_sound()?;
        self.require_started()?;
        self.require_channel(number)?;
        let channel = &self.channels[number.0 as usize];
        require(channel.phase == ASKING, Refusal::NotAsking)?;
        let receiver = channel.receiver;
        let place = self.place_in_line(receiver, number).ok_or(Refusal::RequestInBuffer)?;
        let node = &mut self.nodes[receiver.0 as usize];
        take_out(block_mut(&mut self.lines, receiver), &mut node.line_length, place);
        if node.line_length == 0 {
            node.turn_mark = 0;
        }
        self.channels[number.0 as usize].phase = RESTING;
        Ok(())
    }

    // ---- Questions.

    /// "Hops left: 8; 9." The answer is at most 16 + 16.
    pub fn hops_left(&self, number: ChannelNumber) -> Result<u8, Refusal> {
        self.require_sound()?;
        self.require_started()?;
        self.require_channel(number)?;
        let channel = &self.channels[number.0 as usize];
        let (sender, receiver) = (channel.sender, channel.receiver);
        // The node whose buffer holds the message; in a line there is none.
        let buffer = if channel.moving() { self.buffer_of(number) } else { None };
        Ok(match (channel.phase, buffer) {
            (RESTING, _) => 0,
            // "ready, or answering in a line, sender to receiver"
            (READY, _) | (ANSWERING, None) => self.hops(sender, receiver),
            // "asking in a line, receiver to sender plus sender to receiver"
            (ASKING, None) => self.hops(receiver, sender) + self.hops(sender, receiver),
            // "asking in the buffer of p, p to sender plus sender to receiver"
            (ASKING, Some(p)) => self.hops(p, sender) + self.hops(sender, receiver),
            // "answering in the buffer of p, p to receiver"
            (_, Some(p)) => self.hops(p, receiver),
            // A sound ring has no other phase.
            (_, None) => return Err(Refusal::Unsound),
        })
    }

    /// "Waiting set (node): 16; it answers the channels whose receiver is that
    /// node and that are not resting", "channel 0 being the lowest bit". 8 is
    /// not in its list: a ring that is not started answers too.
    pub fn waiting_set(&self, node: NodeNumber) -> Result<u64, Refusal> {
        self.require_sound()?;
        self.require_node(node)?;
        let mut set = 0;
        for (at, channel) in self.added_channels().iter().enumerate() {
            if channel.receiver == node && channel.phase != RESTING {
                set |= 1 << at;
            }
        }
        Ok(set)
    }

    // ---- Parts of the operations.

    /// "Anything else goes to the end of the next node's buffer; if that node's
    /// line is not empty, its turn mark is set."
    fn pass_on(&mut self, from: NodeNumber, next: NodeNumber) -> Result<(), Refusal> {
        let there = &self.nodes[next.0 as usize];
        require(there.buffer_length < there.slots, Refusal::NoFreeSlotThere)?;
        require(there.turn_mark == 0, Refusal::TurnMarkSet)?;
        let message = self.leave_buffer(from);
        self.join_buffer(next, message);
        let there = &mut self.nodes[next.0 as usize];
        if there.line_length > 0 {
            there.turn_mark = 1;
        }
        Ok(())
    }

    /// "the channel becomes ready, or, with a record offered, answering as
    /// above"
    fn take_request(&mut self, number: ChannelNumber) {
        let channel = &mut self.channels[number.0 as usize];
        if channel.offer.number.0 == 0 {
            channel.phase = READY;
        } else {
            self.answer(number);
        }
    }

    /// "it becomes answering, and the record leaves the offer and joins the
    /// sender node's line as the response"
    fn answer(&mut self, number: ChannelNumber) {
        let channel = &mut self.channels[number.0 as usize];
        channel.phase = ANSWERING;
        channel.carried = channel.offer;
        channel.offer = Record::NONE;
        let sender = channel.sender;
        self.join_line(sender, number);
    }

    /// "the answer holds channel and record, the channel rests, the count
    /// rises"
    fn deliver(&mut self, number: ChannelNumber) -> Delivery {
        let channel = &mut self.channels[number.0 as usize];
        let record = channel.carried;
        channel.carried = Record::NONE;
        channel.phase = RESTING;
        self.deliveries = self.deliveries.saturating_add(1);
        Delivery { channel: number, record }
    }

    /// "The next node after n - 1 is 0; with n = 1 a node is next to itself."
    fn next_node(&self, number: NodeNumber) -> NodeNumber {
        let next = number.0 + 1;
        NodeNumber(if next == self.node_count { 0 } else { next })
    }

    /// b, "the total" of the slots.
    fn total_slots(&self) -> u32 {
        self.added_nodes().iter().map(|node| node.slots as u32).sum()
    }

    fn hops(&self, from: NodeNumber, to: NodeNumber) -> u8 {
        hops(self.node_count, from.0, to.0)
    }

    /// The node in whose buffer the channel's message is.
    fn buffer_of(&self, number: ChannelNumber) -> Option<NodeNumber> {
        let message = number.0 + 1;
        (0..self.node_count).map(NodeNumber).find(|&at| block(&self.slots, at).contains(&message))
    }

    /// Where in the node's line the channel's message is, the first being 0.
    fn place_in_line(&self, at: NodeNumber, number: ChannelNumber) -> Option<usize> {
        block(&self.lines, at).iter().position(|&cell| cell == number.0 + 1)
    }

    fn added_nodes(&self) -> &[Node] {
        &self.nodes[..self.node_count as usize]
    }

    pub(crate) fn added_channels(&self) -> &[Channel] {
        &self.channels[..self.channel_count as usize]
    }

    // ---- Buffers and lines, "first come first served".

    fn join_line(&mut self, at: NodeNumber, message: ChannelNumber) {
        let node = &mut self.nodes[at.0 as usize];
        push(block_mut(&mut self.lines, at), &mut node.line_length, message);
    }

    fn leave_line(&mut self, at: NodeNumber) -> ChannelNumber {
        let node = &mut self.nodes[at.0 as usize];
        pop(block_mut(&mut self.lines, at), &mut node.line_length)
    }

    fn join_buffer(&mut self, at: NodeNumber, message: ChannelNumber) {
        let node = &mut self.nodes[at.0 as usize];
        push(block_mut(&mut self.slots, at), &mut node.buffer_length, message);
    }

    fn leave_buffer(&mut self, at: NodeNumber) -> ChannelNumber {
        let node = &mut self.nodes[at.0 as usize];
        pop(block_mut(&mut self.slots, at), &mut node.buffer_length)
    }

    // ---- Refusals that several operations share.

    /// "An unsound ring is 25, before all others, in every operation on a
    /// ring."
    pub(crate) fn require_sound(&self) -> Result<(), Refusal> {
        require(self.sound(), Refusal::Unsound)
    }

    fn require_not_started(&self) -> Result<(), Refusal> {
        require(self.started == 0, Refusal::AlreadyStarted)
    }

    pub(crate) fn require_started(&self) -> Result<(), Refusal> {
        require(self.started == 1, Refusal::NotStarted)
    }

    fn require_channel(&self, number: ChannelNumber) -> Result<(), Refusal> {
        require(number.0 < self.channel_count, Refusal::NoSuchChannel)
    }

    fn require_node(&self, number: NodeNumber) -> Result<(), Refusal> {
        require(number.0 < self.node_count, Refusal::NoSuchNode)
    }

    // ---- "A sound ring". One pass over the channels, one over the cells.

    pub fn sound(&self) -> bool {
        if !self.counts_sound() || !self.nodes_sound() || !self.start_sound() {
            return false;
        }
        let Some(moving) = self.moving_channels() else {
            return false;
        };
        // "every asking or answering channel exactly once on the ring, others
        // nowhere": the two sets are the same.
        self.channels_on_ring() == Some(moving)
    }

    /// "Counts ... in range". The count of deliveries is, in its 32 bits.
    fn counts_sound(&self) -> bool {
        self.started <= 1 && self.node_count as usize <= NODES && self.channel_count as usize <= CHANNELS
    }

    /// "1 to 64 slots for each node added; no buffer longer than its slots"; "a
    /// turn mark only with a line that isn't empty"; "cells that hold nothing
    /// are zero" for the nodes not added.
    fn nodes_sound(&self) -> bool {
        let (added, rest) = self.nodes.split_at(self.node_count as usize);
        added.iter().all(node_sound) && rest.iter().all(|node| *node == Node::NONE)
    }

    /// "Not started: all resting, no offers, no marks, count 0. Started: n and
    /// c at least 1, b greater than c."
    fn start_sound(&self) -> bool {
        if self.started == 1 {
            return self.node_count >= 1 && self.channel_count >= 1 && self.total_slots() > self.channel_count as u32;
        }
        self.deliveries == 0
            && self.added_nodes().iter().all(|node| node.turn_mark == 0)
            && self.added_channels().iter().all(|channel| channel.phase == RESTING && channel.offer.number.0 == 0)
    }

    /// The channels that are asking or answering, as a set; nothing if a
    /// channel is not sound by itself or one not added is not zero.
    fn moving_channels(&self) -> Option<u64> {
        let (added, rest) = self.channels.split_at(self.channel_count as usize);
        let mut moving = 0;
        for (at, channel) in added.iter().enumerate() {
            if !self.channel_sound(channel) {
                return None;
            }
            moving |= (channel.moving() as u64) << at;
        }
        rest.iter().all(|channel| *channel == Channel::NONE).then_some(moving)
    }

    /// "node numbers in range"; "a ready channel has no offer"; "records good";
    /// "cells that hold nothing are zero".
    fn channel_sound(&self, channel: &Channel) -> bool {
        channel.sender.0 < self.node_count
            && channel.receiver.0 < self.node_count
            && channel.phase <= ANSWERING
            && held_sound(&channel.offer, channel.offer.number.0 != 0)
            && held_sound(&channel.carried, channel.phase == ANSWERING)
            && (channel.phase != READY || channel.offer.number.0 == 0)
    }

    /// The channels with a message in a line or a buffer, as a set; nothing if
    /// one is there twice or where it may not be, or if a cell behind a queue
    /// is not zero. Called when counts, nodes and channels are known to be sound
    /// by themselves, so no index is out of range.
    fn channels_on_ring(&self) -> Option<u64> {
        let mut on_ring = 0;
        for at in 0..self.node_count {
            let (at, node) = (NodeNumber(at), &self.nodes[at as usize]);
            let line = queue(block(&self.lines, at), node.line_length)?;
            for &cell in line {
                // "in a line only at its own node (request: receiver; response:
                // sender)"
                let channel = self.count_message(cell, &mut on_ring)?;
                if channel.entry() != at {
                    return None;
                }
            }
            let buffer = queue(block(&self.slots, at), node.buffer_length)?;
            for &cell in buffer {
                let channel = self.count_message(cell, &mut on_ring)?;
                if !self.on_its_way(channel, at) {
                    return None;
                }
            }
        }
        let first_unused = self.node_count as usize * SLOTS;
        (all_zero(&self.lines[first_unused..]) && all_zero(&self.slots[first_unused..])).then_some(on_ring)
    }

    /// The channel of a cell in a queue, now counted; nothing if the cell names
    /// no asking or answering channel or one counted before.
    fn count_message(&self, cell: u8, on_ring: &mut u64) -> Option<&Channel> {
        if cell == 0 || cell > self.channel_count {
            return None;
        }
        let channel = &self.channels[cell as usize - 1];
        let bit = 1 << (cell - 1);
        if !channel.moving() || *on_ring & bit != 0 {
            return None;
        }
        *on_ring |= bit;
        Some(channel)
    }

    /// "in a buffer only from its node of entry up to the node before its target
    /// in ring order, any node for a same-node channel": exactly the nodes from
    /// which the target is not farther than from the node of entry (from the
    /// target itself it is n hops).
    fn on_its_way(&self, channel: &Channel, at: NodeNumber) -> bool {
        let target = channel.target();
        self.hops(at, target) <= self.hops(channel.entry(), target)
    }
}

fn node_sound(node: &Node) -> bool {
    (1..=SLOTS as u8).contains(&node.slots)
        && node.buffer_length <= node.slots
        && node.line_length as usize <= SLOTS
        && node.turn_mark <= 1
        && (node.turn_mark == 0 || node.line_length > 0)
}

/// "records good; cells that hold nothing are zero"
fn held_sound(record: &Record, held: bool) -> bool {
    if held {
        record.check().is_ok()
    } else {
        record.is_none()
    }
}

// ---- A queue is the first cells of a node's block of 64, the first of the
// queue in front.

fn block(cells: &[u8; CELLS], at: NodeNumber) -> &[u8; SLOTS] {
    let first = at.0 as usize * SLOTS;
    cells[first..first + SLOTS].try_into().expect("64 cells")
}

fn block_mut(cells: &mut [u8; CELLS], at: NodeNumber) -> &mut [u8; SLOTS] {
    let first = at.0 as usize * SLOTS;
    (&mut cells[first..first + SLOTS]).try_into().expect("64 cells")
}

/// The first message of a queue that is not empty.
fn first_message(block: &[u8; SLOTS]) -> ChannelNumber {
    ChannelNumber(block[0] - 1)
}

fn push(block: &mut [u8; SLOTS], length: &mut u8, message: ChannelNumber) {
    block[*length as usize] = message.0 + 1;
    *length += 1;
}

fn pop(block: &mut [u8; SLOTS], length: &mut u8) -> ChannelNumber {
    let first = first_message(block);
    take_out(block, length, 0);
    first
}

/// Takes the message at a place out of a queue; those behind it move up.
fn take_out(block: &mut [u8; SLOTS], length: &mut u8, place: usize) {
    let last = *length as usize - 1;
    block.copy_within(place + 1..=last, place);
    block[last] = 0;
    *length -= 1;
}

/// The queue in a block; nothing unless just as many cells as the queue is long
/// are not zero. So the cells behind it are zero if those in it are not.
fn queue(block: &[u8; SLOTS], length: u8) -> Option<&[u8]> {
    let used: u8 = block.iter().map(|&cell| (cell != 0) as u8).sum();
    if used == length {
        block.get(..length as usize)
    } else {
        None
    }
}

fn all_zero(cells: &[u8]) -> bool {
    // No early exit, so that many cells are looked at in one step.
    cells.iter().fold(0, |any, cell| any | cell) == 0
}
