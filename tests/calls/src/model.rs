//! Document 01 with requests N1, N3, N4 and N5 of 02 once more, from their text alone: buffers and lines are queues, and a message's way is
//! walked node by node. Nothing here knows how a ring lies in memory.

use std::collections::VecDeque;
use std::ops::RangeInclusive;

/// "A record's temperature becomes hundredths, from -4000 to 12000"
pub const HUNDREDTHS: RangeInclusive<i16> = -4000..=12000;
/// "tenths, which are checked against -400 to 1200"
pub const TENTHS: RangeInclusive<i16> = -400..=1200;

/// A record; or what a send is given for one, good or bad, with the temperature in the unit of the call.
#[derive(Clone, Copy, PartialEq, Eq, Debug)]
pub struct Record {
    pub batch: u32,
    pub vessel: u8,
    pub temperature: i16,
    pub length: u8,
    pub name: [u8; 32],
}

impl Record {
    /// "11 batch number 0; 12 temperature out of range; 13 name length over 32; 14 a name byte or the fill is wrong"
    fn refusal(&self, range: &RangeInclusive<i16>) -> Option<u8> {
        if self.batch == 0 {
            return Some(11);
        }
        if !range.contains(&self.temperature) {
            return Some(12);
        }
        if self.length > 32 {
            return Some(13);
        }
        let (name, fill) = self.name.split_at(self.length.into());
        let good = name.iter().all(|byte| (0x20..=0x7E).contains(byte)) && fill.iter().all(|byte| *byte == 0);
        (!good).then_some(14)
    }

    /// "A name whose first or last byte is hexadecimal 20", for send alone: "a ring that holds one is still sound". Of a good record.
    fn has_blank_end(&self) -> bool {
        let name = &self.name[..self.length.into()];
        name.starts_with(b" ") || name.ends_with(b" ")
    }
}

/// The record carried stands with the phase that has one.
#[derive(Clone, Copy, PartialEq, Eq, Debug)]
pub enum Phase {
    Resting,
    Asking,
    Ready,
    Answering(Record),
}

#[derive(Clone, PartialEq, Eq, Debug)]
pub struct Channel {
    pub sender: usize,
    pub receiver: usize,
    pub phase: Phase,
    pub offer: Option<Record>,
}

#[derive(Clone, PartialEq, Eq, Debug, Default)]
pub struct Node {
    pub slots: usize,
    pub buffer: VecDeque<usize>,
    pub line: VecDeque<usize>,
    pub mark: bool,
}

#[derive(Clone, PartialEq, Eq, Debug, Default)]
pub struct Network {
    pub nodes: Vec<Node>,
    pub channels: Vec<Channel>,
    pub started: bool,
    pub deliveries: u32,
}

#[derive(Clone, Copy, PartialEq, Eq, Debug)]
pub enum Call {
    AddNode(u8),
    AddChannel(u8, u8),
    Start,
    Receive(u8),
    Send(u8, Record),
    SendTenths(u8, Record),
    Enter(u8),
    Move(u8),
    Withdraw(u8),
    HopsLeft(u8),
    WaitingSet(u8),
}

#[derive(Clone, Copy, PartialEq, Eq, Debug)]
pub enum Answer {
    Done,
    Delivered(usize, Record),
    Hops(usize),
    Waiting(u64),
    Refused(u8),
}

impl Answer {
    /// The refusal's number, or 0.
    pub fn number(self) -> u8 {
        match self {
            Answer::Refused(number) => number,
            _ => 0,
        }
    }
}

/// A refusal's number, by `?`.
type Refusable<T> = Result<T, u8>;

fn refuse_if(applies: bool, number: u8) -> Refusable<()> {
    if applies {
        Err(number)
    } else {
        Ok(())
    }
}

impl Network {
    /// "The next node after n - 1 is 0"
    fn next(&self, node: usize) -> usize {
        if node + 1 == self.nodes.len() {
            0
        } else {
            node + 1
        }
    }

    /// The nodes that a message is at on its way, from its node of entry up to the node before its target, walked.
    fn way(&self, entry: usize, target: usize) -> Vec<usize> {
        let mut way = vec![entry];
        let mut at = self.next(entry);
        while at != target {
            way.push(at);
            at = self.next(at);
        }
        way
    }

    /// "the least h from 1 to n": as many steps as bring p to q, at least one.
    fn hops(&self, p: usize, q: usize) -> usize {
        self.way(p, q).len()
    }

    /// Where a channel's message enters the ring and where it is taken: a request goes from the receiver to the sender, a response back.
    fn ends(&self, k: usize) -> Option<(usize, usize)> {
        let channel = &self.channels[k];
        match channel.phase {
            Phase::Asking => Some((channel.receiver, channel.sender)),
            Phase::Answering(_) => Some((channel.sender, channel.receiver)),
            Phase::Resting | Phase::Ready => None,
        }
    }

    fn all_slots(&self) -> usize {
        self.nodes.iter().map(|node| node.slots).sum()
    }

    /// "A sound ring"
    pub fn sound(&self) -> bool {
        self.sound_with(&HUNDREDTHS)
    }

    /// Sound as rings were while temperatures were tenths.
    pub fn sound_in_tenths(&self) -> bool {
        self.sound_with(&TENTHS)
    }

    fn sound_with(&self, temperatures: &RangeInclusive<i16>) -> bool {
        let (n, c) = (self.nodes.len(), self.channels.len());
        if n > 16 || c > 64 || self.channels.iter().any(|channel| channel.sender >= n || channel.receiver >= n) {
            return false;
        }
        let nodes_good = self
            .nodes
            .iter()
            .all(|node| (1..=64).contains(&node.slots) && node.buffer.len() <= node.slots && !(node.mark && node.line.is_empty()));
        let channels_good = self.channels.iter().all(|channel| {
            let carried = match channel.phase {
                Phase::Answering(record) => Some(record),
                _ => None,
            };
            !(channel.phase == Phase::Ready && channel.offer.is_some())
                && [channel.offer, carried].into_iter().flatten().all(|record| record.refusal(temperatures).is_none())
        });
        nodes_good && channels_good && self.messages_stand_right() && self.state_fits_the_start()
    }

    fn messages_stand_right(&self) -> bool {
        let mut met = vec![0; self.channels.len()];
        for (p, node) in self.nodes.iter().enumerate() {
            for &k in &node.line {
                met[k] += 1;
                if !self.ends(k).is_some_and(|(entry, _)| entry == p) {
                    return false;
                }
            }
            for &k in &node.buffer {
                met[k] += 1;
                if !self.ends(k).is_some_and(|(entry, target)| self.way(entry, target).contains(&p)) {
                    return false;
                }
            }
        }
        (0..self.channels.len()).all(|k| met[k] == usize::from(self.ends(k).is_some()))
    }

    fn state_fits_the_start(&self) -> bool {
        if self.started {
            return !self.nodes.is_empty() && !self.channels.is_empty() && self.all_slots() > self.channels.len();
        }
        self.deliveries == 0
            && self.nodes.iter().all(|node| !node.mark)
            && self.channels.iter().all(|channel| channel.phase == Phase::Resting && channel.offer.is_none())
    }

    /// "turns a ring ... held in tenths into hundredths: each temperature ... ten times as many, all else the same"
    pub fn to_hundredths(&mut self) {
        let turn = |record: &mut Record| record.temperature *= 10;
        for channel in &mut self.channels {
            channel.offer.iter_mut().for_each(turn);
            if let Phase::Answering(record) = &mut channel.phase {
                turn(record);
            }
        }
    }

    /// One call on a sound ring.
    pub fn call(&mut self, call: Call) -> Answer {
        let answer = match call {
            Call::AddNode(slots) => self.add_node(slots.into()),
            Call::AddChannel(sender, receiver) => self.add_channel(sender.into(), receiver.into()),
            Call::Start => self.start(),
            Call::Receive(k) => self.receive(k.into()),
            Call::Send(k, record) => self.send(k.into(), record),
            Call::SendTenths(k, record) => self.send_tenths(k.into(), record),
            Call::Enter(p) => self.enter(p.into()),
            Call::Move(p) => self.move_on(p.into()),
            Call::Withdraw(k) => self.withdraw(k.into()),
            Call::HopsLeft(k) => self.hops_left(k.into()),
            Call::WaitingSet(p) => self.waiting_set(p.into()),
        };
        answer.unwrap_or_else(Answer::Refused)
    }

    fn add_node(&mut self, slots: usize) -> Refusable<Answer> {
        refuse_if(self.started, 1)?;
        refuse_if(self.nodes.len() == 16, 2)?;
        refuse_if(!(1..=64).contains(&slots), 3)?;
        self.nodes.push(Node { slots, ..Node::default() });
        Ok(Answer::Done)
    }

    fn add_channel(&mut self, sender: usize, receiver: usize) -> Refusable<Answer> {
        refuse_if(self.started, 1)?;
        refuse_if(self.channels.len() == 64, 4)?;
        refuse_if(sender >= self.nodes.len() || receiver >= self.nodes.len(), 5)?;
        self.channels.push(Channel { sender, receiver, phase: Phase::Resting, offer: None });
        Ok(Answer::Done)
    }

    fn start(&mut self) -> Refusable<Answer> {
        refuse_if(self.started, 1)?;
        refuse_if(self.nodes.is_empty() || self.channels.is_empty(), 6)?;
        refuse_if(self.all_slots() <= self.channels.len(), 7)?;
        self.started = true;
        Ok(Answer::Done)
    }

    fn receive(&mut self, k: usize) -> Refusable<Answer> {
        refuse_if(!self.started, 8)?;
        refuse_if(k >= self.channels.len(), 9)?;
        refuse_if(self.channels[k].phase != Phase::Resting, 10)?;
        self.channels[k].phase = Phase::Asking;
        let receiver = self.channels[k].receiver;
        self.nodes[receiver].line.push_back(k);
        Ok(Answer::Done)
    }

    fn send(&mut self, k: usize, record: Record) -> Refusable<Answer> {
        refuse_if(!self.started, 8)?;
        refuse_if(k >= self.channels.len(), 9)?;
        record.refusal(&HUNDREDTHS).map_or(Ok(()), Err)?;
        refuse_if(record.has_blank_end(), 30)?;
        refuse_if(self.channels[k].offer.is_some(), 15)?;
        self.channels[k].offer = Some(record);
        if self.channels[k].phase == Phase::Ready {
            self.answer(k);
        }
        Ok(Answer::Done)
    }

    /// "21 still means tenths, which are checked against -400 to 1200 at the place of 12 in send's order and only then become ten times as
    /// many hundredths"
    fn send_tenths(&mut self, k: usize, given: Record) -> Refusable<Answer> {
        refuse_if(!self.started, 8)?;
        refuse_if(k >= self.channels.len(), 9)?;
        refuse_if(given.batch == 0, 11)?;
        refuse_if(!TENTHS.contains(&given.temperature), 12)?;
        self.send(k, Record { temperature: 10 * given.temperature, ..given })
    }

    /// The record leaves the offer, if there is one, and joins the sender node's line as the response.
    fn answer(&mut self, k: usize) {
        if let Some(record) = self.channels[k].offer.take() {
            self.channels[k].phase = Phase::Answering(record);
            let sender = self.channels[k].sender;
            self.nodes[sender].line.push_back(k);
        }
    }

    fn enter(&mut self, p: usize) -> Refusable<Answer> {
        refuse_if(!self.started, 8)?;
        refuse_if(p >= self.nodes.len(), 16)?;
        let node = &mut self.nodes[p];
        refuse_if(node.line.is_empty(), 17)?;
        refuse_if(node.buffer.len() == node.slots, 18)?;
        node.buffer.extend(node.line.pop_front());
        node.mark = false;
        Ok(Answer::Done)
    }

    fn move_on(&mut self, p: usize) -> Refusable<Answer> {
        refuse_if(!self.started, 8)?;
        refuse_if(p >= self.nodes.len(), 16)?;
        let &k = self.nodes[p].buffer.front().ok_or(19)?;
        let next = self.next(p);
        let phase = self.channels[k].phase;
        match phase {
            Phase::Asking if self.channels[k].sender == next => {
                self.nodes[p].buffer.pop_front();
                self.channels[k].phase = Phase::Ready;
                self.answer(k);
                Ok(Answer::Done)
            }
            Phase::Answering(record) if self.channels[k].receiver == next => {
                self.nodes[p].buffer.pop_front();
                self.channels[k].phase = Phase::Resting;
                self.deliveries = self.deliveries.saturating_add(1);
                Ok(Answer::Delivered(k, record))
            }
            _ => {
                let there = &self.nodes[next];
                refuse_if(there.buffer.len() == there.slots, 20)?;
                refuse_if(there.mark, 21)?;
                self.nodes[p].buffer.pop_front();
                let there = &mut self.nodes[next];
                there.buffer.push_back(k);
                there.mark = !there.line.is_empty();
                Ok(Answer::Done)
            }
        }
    }

    /// "27 if the channel is not asking, 28 if its request is in a buffer"; then "the others keep their order, the channel rests, and a
    /// line left empty has its turn mark cleared".
    fn withdraw(&mut self, k: usize) -> Refusable<Answer> {
        refuse_if(!self.started, 8)?;
        refuse_if(k >= self.channels.len(), 9)?;
        refuse_if(self.channels[k].phase != Phase::Asking, 27)?;
        refuse_if(self.nodes.iter().any(|node| node.buffer.contains(&k)), 28)?;
        let node = &mut self.nodes[self.channels[k].receiver];
        node.line.retain(|message| *message != k);
        node.mark &= !node.line.is_empty();
        self.channels[k].phase = Phase::Resting;
        Ok(Answer::Done)
    }

    /// "A round goes through nodes 0 to n - 1, at each trying an entry and then a move. Rounds are run until nothing is on the ring or the
    /// given number of rounds is spent": nothing in a line and nothing in a buffer. The rounds made, and the deliveries in order.
    pub fn dispatch(&mut self, given: u16) -> Refusable<(u16, Vec<(usize, Record)>)> {
        refuse_if(!self.started, 8)?;
        let mut deliveries = Vec::new();
        for made in 0..given {
            if self.nodes.iter().all(|node| node.line.is_empty() && node.buffer.is_empty()) {
                return Ok((made, deliveries));
            }
            for p in 0..self.nodes.len() {
                self.enter(p).ok();
                if let Ok(Answer::Delivered(k, record)) = self.move_on(p) {
                    deliveries.push((k, record));
                }
            }
        }
        Ok((given, deliveries))
    }

    fn hops_left(&self, k: usize) -> Refusable<Answer> {
        refuse_if(!self.started, 8)?;
        refuse_if(k >= self.channels.len(), 9)?;
        let Channel { sender, receiver, phase, .. } = self.channels[k];
        let there_and_back = self.hops(sender, receiver);
        let buffer = self.nodes.iter().position(|node| node.buffer.contains(&k));
        Ok(Answer::Hops(match (phase, buffer) {
            (Phase::Resting, _) => 0,
            (Phase::Ready, _) | (Phase::Answering(_), None) => there_and_back,
            (Phase::Asking, None) => self.hops(receiver, sender) + there_and_back,
            (Phase::Asking, Some(p)) => self.hops(p, sender) + there_and_back,
            (Phase::Answering(_), Some(p)) => self.hops(p, receiver),
        }))
    }

    fn waiting_set(&self, p: usize) -> Refusable<Answer> {
        refuse_if(p >= self.nodes.len(), 16)?;
        let waits = |channel: &Channel| channel.receiver == p && channel.phase != Phase::Resting;
        let channels = self.channels.iter().enumerate();
        Ok(Answer::Waiting(channels.filter(|(_, channel)| waits(channel)).map(|(k, _)| 1 << k).sum()))
    }
}
