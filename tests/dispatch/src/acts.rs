//! Lists of single calls with dispatcher calls among them, and what document 01 asks of such a list: on each channel the records delivered
//! are the first of those offered, in order, each once; and a matched record is delivered within the bound. A dispatcher call stands for
//! its entries and moves: those that are refused count nothing, and a delivery is counted up to itself.

use crate::compare;
use crate::rings;
use crate::singly::{Rounds, Try};
use crate::tally::{Seen, Tally};
use calls::draw::{self, good_record, good_record_in_tenths};
use calls::form::{from_c, to_c};
use calls::model::{self, Call};
use common::layout::record_in;
use common::random::Random;
use second_model::ring::Unit;
use vessel_ring::{Record, Ring, CHANNELS};

/// A record that is matched: it waits for its delivery.
#[derive(Clone, Copy)]
struct Match {
    record: Record,
    /// How many steps were made before it.
    since: usize,
    /// Counted steps since.
    counted: usize,
    /// Dispatcher calls since that made rounds.
    dispatched: usize,
    /// Receives since that were undone.
    undone: usize,
}

/// A record that was offered, and the unit that it was sent in; none of those that the run began with.
#[derive(Clone, Copy, Debug)]
struct Offer {
    record: Record,
    sent: Option<Unit>,
}

/// What is known of a channel.
#[derive(Clone, Default)]
struct Line {
    offered: Vec<Offer>,
    delivered: usize,
    matched: Option<Match>,
    /// The step that was its last receive, and the dispatcher calls with rounds up to then.
    received: Option<(usize, usize)>,
    /// A dispatcher call left it ready.
    left_ready: bool,
}

/// A list of calls, followed.
pub struct Run {
    ring: Ring,
    lines: Vec<Line>,
    /// Accepted receives, sends, entries and moves.
    steps: usize,
    /// Dispatcher calls that made rounds.
    dispatched: usize,
}

/// The record that is matched on a channel: offered while it is asking, or carried.
fn matched(ring: &Ring, k: usize) -> Option<Record> {
    match (ring.phases[k], ring.offered[k]) {
        (1, 1) => Some(record_in(&ring.offers[k])),
        (3, _) => Some(record_in(&ring.carried[k])),
        _ => None,
    }
}

/// (n + 4) × (2b + 2cn + 6c)
fn bound(ring: &Ring) -> usize {
    let (n, c) = (usize::from(ring.node_count), usize::from(ring.channel_count));
    let b: usize = ring.capacity.iter().map(|&slots| usize::from(slots)).sum();
    (n + 4) * (2 * b + 2 * c * n + 6 * c)
}

impl Run {
    /// From a fresh ring, or from a sound one: what it carries and offers stands before all that the run offers.
    pub fn new(ring: Ring) -> Run {
        let mut run = Run { ring, lines: vec![Line::default(); CHANNELS], steps: 0, dispatched: 0 };
        for k in 0..CHANNELS {
            let carried = (ring.phases[k] == 3).then(|| record_in(&ring.carried[k]));
            let offered = (ring.offered[k] == 1).then(|| record_in(&ring.offers[k]));
            run.lines[k].offered = carried.into_iter().chain(offered).map(|record| Offer { record, sent: None }).collect();
            run.begin_match(k);
        }
        run
    }

    /// A match is made where there was none.
    fn begin_match(&mut self, k: usize) {
        let (since, line) = (self.steps, &mut self.lines[k]);
        if line.matched.is_none() {
            line.matched = matched(&self.ring, k).map(|record| Match { record, since, counted: 0, dispatched: 0, undone: 0 });
        }
    }

    /// A step that counts, for every match there is.
    fn count(&mut self) {
        self.steps += 1;
        self.lines.iter_mut().flat_map(|line| &mut line.matched).for_each(|one| one.counted += 1);
    }

    /// A single call by the library.
    pub fn single(&mut self, call: Call, tally: &mut Tally) -> Result<(), String> {
        let (refusal, delivery) = rings::make(&mut self.ring, call);
        if refusal != 0 {
            return Ok(());
        }
        match call {
            Call::Receive(k) => {
                self.lines[usize::from(k)].received = Some((self.steps, self.dispatched));
                self.count();
                self.begin_match(k.into());
            }
            Call::Send(k, record) => self.sent(k.into(), Unit::Hundredths, record),
            Call::SendTenths(k, record) => {
                let temperature = 10 * record.temperature;
                self.sent(k.into(), Unit::Tenths, model::Record { temperature, ..record });
            }
            Call::Enter(_) | Call::Move(_) => self.count(),
            Call::Withdraw(k) => self.withdrawn(k.into(), tally),
            _ => {}
        }
        if let Some((channel, record)) = delivery {
            let ended = self.delivered(channel, record, tally)?;
            tally.see(ended.dispatched > 0, "acts: a record delivered by a single move, after a call that made rounds");
        }
        self.in_time()
    }

    /// An accepted send: the record that it offers.
    fn sent(&mut self, k: usize, unit: Unit, record: model::Record) {
        self.count();
        self.lines[k].offered.push(Offer { record: to_c(record), sent: Some(unit) });
        self.begin_match(k);
    }

    /// The receive is undone, and left out of the count of the matches that it was counted for; a match on this channel is withdrawn.
    fn withdrawn(&mut self, k: usize, tally: &mut Tally) {
        self.lines[k].matched = None;
        let Some((step, dispatched)) = self.lines[k].received.take() else {
            return;
        };
        for one in self.lines.iter_mut().flat_map(|line| &mut line.matched).filter(|one| one.since <= step) {
            one.counted -= 1;
            one.undone += 1;
        }
        tally.see(self.dispatched > dispatched, "acts: a request withdrawn that a call left in its line");
    }

    /// A delivery: the next of the records offered, and the one that was matched, in time.
    fn delivered(&mut self, channel: u8, record: Record, tally: &mut Tally) -> Result<Match, String> {
        let most = bound(&self.ring);
        let line = self.lines.get_mut(usize::from(channel)).ok_or("delivered on a channel of 64 or more")?;
        if line.offered.get(line.delivered).map(|offer| offer.record) != Some(record) {
            return Err(format!("channel {channel}: {record:?} is not record {} of those offered, {:?}", line.delivered, line.offered));
        }
        let twice = line.delivered > 0 && line.offered[line.delivered - 1].record == record;
        line.delivered += 1;
        let ended = line.matched.take().filter(|one| one.record == record);
        let ended = ended.ok_or_else(|| format!("channel {channel}: {record:?} was not matched"))?;
        if ended.counted > most {
            return Err(format!("channel {channel}: delivered with {} counted calls, more than {most}", ended.counted));
        }
        tally.counted(ended.counted, most);
        tally.see(twice, "acts: two equal records, one after the other on a channel");
        tally.see(ended.undone > 0, "acts: a receive undone between a match and its delivery");
        Ok(ended)
    }

    /// Where nothing was delivered yet on a matched channel, fewer calls were counted.
    fn in_time(&self) -> Result<(), String> {
        let most = bound(&self.ring);
        match self.lines.iter().position(|line| line.matched.is_some_and(|one| one.counted >= most)) {
            Some(k) => Err(format!("channel {k}: matched, and not delivered with {most} counted calls")),
            None => Ok(()),
        }
    }

    /// A call of the dispatcher.
    pub fn dispatch(&mut self, given: u16, tally: &mut Tally) -> Result<(), String> {
        let before = self.ring;
        let rounds = (before.started == 1).then(|| Rounds::run(&before, given.into()));
        let outcome = compare::call(&before, given, rounds.as_ref())?;
        self.ring = outcome.after;
        tally.call(&Seen { ring: &before, given, outcome: &outcome, rounds: rounds.as_ref() });
        tally.see(outcome.answer.refusal == 8, "acts: a call refused with 8, before the start");
        let tries: Vec<Try> = rounds.into_iter().flat_map(|all| all.rounds).flatten().collect();
        let mut told = outcome.answer.deliveries();
        let mut delivered = false;
        for one in tries.iter().filter(|one| one.refusal == 0) {
            self.count();
            tally.see(delivered, "acts: entries and moves behind a delivery, in one call");
            if one.delivery.is_some() {
                let (channel, record) = told.next().ok_or("a move delivers, and the dispatcher tells nothing")?;
                self.told(channel, record, tally)?;
                delivered = true;
            }
        }
        if told.next().is_some() {
            return Err("the dispatcher tells more than was delivered".to_string());
        }
        if outcome.answer.rounds > 0 {
            self.ran(&before);
        }
        self.in_time()
    }

    /// A delivery in the dispatcher's answer.
    fn told(&mut self, channel: u8, record: Record, tally: &mut Tally) -> Result<(), String> {
        let ended = self.delivered(channel, record, tally)?;
        let line = &mut self.lines[usize::from(channel)];
        let sent = line.offered[line.delivered - 1].sent;
        tally.see(sent == Some(Unit::Tenths), "acts: a record sent in tenths, delivered by a call");
        tally.see(sent == Some(Unit::Hundredths), "acts: a record sent in hundredths, delivered by a call");
        tally.see(ended.since == 0, "acts: a record delivered by a call, held by a ring that was made by hand");
        tally.see(ended.dispatched > 0, "acts: a record matched before one call and delivered by another");
        tally.see(line.left_ready, "acts: a channel left ready by one call, its record delivered by another");
        line.left_ready = false;
        Ok(())
    }

    /// The dispatcher made rounds.
    fn ran(&mut self, before: &Ring) {
        self.dispatched += 1;
        for (k, line) in self.lines.iter_mut().enumerate() {
            line.matched.iter_mut().for_each(|one| one.dispatched += 1);
            line.left_ready |= before.phases[k] == 1 && self.ring.phases[k] == 2;
        }
    }

    /// Where a record is matched, some entry or move would be accepted next.
    fn goes_on(&self) -> Result<(), String> {
        let accepted = |call| rings::make(&mut self.ring.clone(), call).0 == 0;
        let some = (0..self.ring.node_count).any(|p| accepted(Call::Enter(p)) || accepted(Call::Move(p)));
        if some || self.lines.iter().all(|line| line.matched.is_none()) {
            return Ok(());
        }
        Err("a record is matched, and no entry and no move would be accepted".to_string())
    }

    /// A call on the ring as it is: few are the dispatcher's, so that there is something to run.
    fn drawn(&mut self, random: &mut Random, tally: &mut Tally) -> Result<(), String> {
        if random.percent(6) {
            let enough = crate::singly::enough(&self.ring) as u16;
            return self.dispatch(random.pick(&[0, 1, 1, 1, 2, 2, 3, 5, enough, u16::MAX]), tally);
        }
        let call = draw::running_call(random, self.ring.node_count.into(), self.ring.channel_count.into());
        let call = match call {
            Call::Send(k, record) => Call::Send(k, self.next_record(random, k).unwrap_or(record)),
            Call::SendTenths(k, _) if random.percent(80) => Call::SendTenths(k, good_record_in_tenths(random)),
            call => call,
        };
        self.single(call, tally)
    }

    /// Often a good record, now and then the last one once more.
    fn next_record(&self, random: &mut Random, k: u8) -> Option<model::Record> {
        match self.lines.get(usize::from(k)).and_then(|line| line.offered.last()) {
            Some(last) if random.percent(20) => Some(from_c(last.record)),
            _ => random.percent(80).then(|| good_record(random)),
        }
    }
}

/// A list from a fresh ring, or from one made by hand.
pub fn list(random: &mut Random, tally: &mut Tally) -> Result<(), String> {
    let fresh = random.percent(60);
    let mut run = Run::new(if fresh { Ring::fresh() } else { rings::by_hand(random) });
    for call in draw::plan(random).into_iter().filter(|_| fresh) {
        run.single(call, tally)?;
        if random.percent(5) {
            run.dispatch(random.pick(&[0, 1, u16::MAX]), tally)?;
        }
    }
    for _ in 0..random.between(0, 300) {
        run.drawn(random, tally)?;
    }
    run.goes_on()
}
