//! calls COUNT SEED: makes COUNT calls of the library, each also on the model and, where the ring is sound, on the second model, and
//! compares the answer and every byte of the ring after it.
//! The rings come from runs from a fresh one, from hand-made ones, and from both with bytes changed. Besides, commands are read and
//! written, the records in a ring's bytes are read, rings held in tenths are turned into hundredths (turns.rs) and called on, and entries
//! and moves are made in both orders (orders.rs). Fails on a difference, when a refusal from 1 to 28 or 30 was never answered, and when
//! withdrawals, records read, names (blanks.rs), temperatures, turned rings or pairs in both orders showed too little.

mod blanks;
mod orders;
mod turns;

use blanks::Blanks;
use calls::form::{self, to_c};
use calls::model::{Answer, Call, Network};
use calls::tape::{self, Read};
use calls::{draw, library, second};
use common::layout::{first_difference, put_temperature, record_in, LENGTH};
use common::program::{self, Shown};
use common::random::Random;
use common::sights::Sights;
use damaged_rings::damage;
use orders::Orders;
use second_model::coverage::Temperatures;
use second_model::ring::Unit;
use std::process::ExitCode;
use turns::{Turns, Waiting};
use vessel_ring::{Command, Reading, Record, Ring};

/// What has to be seen of withdrawals, of the two commands that send, and of records read from the bytes of a ring.
const SIGHTS: [&str; 10] = [
    "withdraw: accepted",
    "withdraw: a mark cleared, of a line left empty",
    "withdraw: a mark kept, of a line whose first was taken out",
    "read: command 21",
    "read: command 25",
    "written: command 21",
    "written: command 25",
    "record read: offered",
    "record read: carried, below zero",
    "record read: of bytes too few",
];

/// What was seen.
struct Tally {
    calls: u64,
    deliveries: u64,
    damaged: u64,
    still_sound: u64,
    commands: u64,
    sights: Sights,
    blanks: Blanks,
    temperatures: Temperatures,
    turns: Turns,
    orders: Orders,
}

impl Tally {
    fn new() -> Tally {
        // 29 is of the history alone.
        let refusals = (1..=30).filter(|number| *number != 29).map(|number| format!("refusal {number}"));
        Tally {
            calls: 0,
            deliveries: 0,
            damaged: 0,
            still_sound: 0,
            commands: 0,
            sights: Sights::of(refusals.chain(SIGHTS.map(String::from))),
            blanks: Blanks::new(),
            temperatures: Temperatures::default(),
            turns: Turns::new(),
            orders: Orders::new(),
        }
    }

    /// A refusal's number, or 0.
    fn answered(&mut self, number: u8) {
        if number != 0 {
            self.sights.see(true, &format!("refusal {number}"));
        }
    }

    /// A send on a sound ring, with what it answered.
    fn sent(&mut self, call: Call, answer: Answer) {
        let fields = match call {
            Call::Send(_, record) => second::fields(Unit::Hundredths, record),
            Call::SendTenths(_, record) => second::fields(Unit::Tenths, record),
            _ => return,
        };
        self.temperatures.look(&fields, answer.number());
    }

    /// An accepted withdrawal, with the ring before it: a marked line may be left empty, so that the mark goes, or with others behind the
    /// first, so that it stays.
    fn withdrawn(&mut self, before: &Ring, channel: u8) {
        let receiver = usize::from(before.receivers[usize::from(channel)]);
        let first = before.lines[receiver][0] == channel + 1;
        let marked = before.marks[receiver] == 1 && first;
        self.sights.see(true, "withdraw: accepted");
        self.sights.see(marked && before.waiting[receiver] == 1, "withdraw: a mark cleared, of a line left empty");
        self.sights.see(marked && before.waiting[receiver] > 1, "withdraw: a mark kept, of a line whose first was taken out");
    }

    fn shown(&self) -> Shown {
        let Tally { calls, deliveries, damaged, still_sound, commands, .. } = self;
        let figures = format!(
            "{calls} calls, {deliveries} deliveries; {damaged} damaged rings, {still_sound} still sound; {commands} commands read or written\n\
             {} rings turned into hundredths, {} refused; {} pairs of entries and moves with no common node, in both orders",
            self.turns.turned, self.turns.refused, self.orders.pairs
        );
        let mut sights = self.sights.clone();
        sights.take_in("send: ", &self.blanks.sends);
        sights.take_in("send: ", &self.temperatures.sights);
        sights.take_in("", &self.blanks.held);
        sights.take_in("", &self.turns.sights);
        sights.take_in("orders: ", &self.orders.sights);
        Shown { figures, sights }
    }
}

/// A ring of the library with what the model has for it: nothing where the ring is unsound.
struct Pair {
    ring: Ring,
    model: Option<Network>,
}

impl Pair {
    fn of(ring: Ring) -> Pair {
        Pair { ring, model: form::sound_network(&ring) }
    }

    /// One call on both, and what it answers. Says what differs.
    fn call(&mut self, call: Call, tally: &mut Tally) -> Result<Answer, String> {
        let before = self.ring;
        let given = library::call(&mut self.ring, call);
        let expected = self.model.as_mut().map_or(Answer::Refused(25), |network| network.call(call));
        let after = self.model.as_ref().map_or(before, form::lay);
        tally.calls += 1;
        tally.deliveries += u64::from(matches!(given, Answer::Delivered(..)));
        tally.answered(given.number());
        if given != expected {
            return Err(format!("{call:?}: the library answers {given:?}, the model {expected:?}\nbefore: {before:?}"));
        }
        if let (Call::Withdraw(channel), Answer::Done) = (call, given) {
            tally.withdrawn(&before, channel);
        }
        if let Some(difference) = first_difference(&self.ring.to_bytes(), &after.to_bytes()) {
            return Err(format!("{call:?}, {given:?}: the rings differ, first in {difference}\nbefore: {before:?}"));
        }
        if self.model.is_some() && second::call(&before, call) != (given, self.ring) {
            return Err(format!("{call:?}, {given:?}: the second model differs\nbefore: {before:?}"));
        }
        if self.ring.is_sound() != self.model.is_some() {
            return Err(format!("the library says that sound is {}\n{:?}", self.ring.is_sound(), self.ring));
        }
        if self.model.is_some() {
            tally.blanks.call(call, given, &before, &self.ring);
            tally.sent(call, given);
        }
        Ok(given)
    }

    fn size(&self) -> (usize, usize) {
        (usize::from(self.ring.node_count), usize::from(self.ring.channel_count))
    }
}

/// A run from a fresh ring, or on one made by hand.
fn sound_run(random: &mut Random, tally: &mut Tally) -> Result<Pair, String> {
    let mut pair = if random.percent(60) {
        let mut pair = Pair::of(Ring::fresh());
        for call in draw::plan(random) {
            tally.orders.drawn_pair(&pair.ring, random)?;
            pair.call(call, tally)?;
        }
        pair
    } else {
        Pair::of(form::lay(&draw::by_hand(random)))
    };
    if pair.model.is_none() {
        return Err(format!("a ring that was made sound is not, by the model: {:?}", pair.ring));
    }
    tally.orders.every_pair(&pair.ring)?;
    for _ in 0..random.between(0, 400) {
        let (nodes, channels) = pair.size();
        pair.call(draw::running_call(random, nodes, channels), tally)?;
        tally.orders.drawn_pair(&pair.ring, random)?;
    }
    Ok(pair)
}

/// The ring with bytes changed.
fn changed(ring: &Ring, random: &mut Random) -> Ring {
    let mut bytes = ring.to_bytes();
    damage::change(&mut bytes, random);
    Ring::from_bytes(&bytes)
}

/// A ring like this that is held in tenths: turned into hundredths, then called on, and turned again; and the ring in tenths with one
/// temperature out of range, with one where no record is, and with bytes changed.
fn turned_run(mut network: Network, random: &mut Random, tally: &mut Tally) -> Result<(), String> {
    tally.turns.turn(&form::lay(&network))?;
    draw::put_in_tenths(random, &mut network);
    let ring = form::lay(&network);
    let turned = tally.turns.turn(&ring)?.ok_or_else(|| format!("made sound in tenths, and refused: {ring:?}"))?;
    tally.turns.turn_again(&turned)?;
    let (mut pair, mut waiting) = (Pair::of(turned), Waiting::of(&ring));
    for _ in 0..random.between(0, 100) {
        let (nodes, channels) = pair.size();
        let answer = pair.call(draw::running_call(random, nodes, channels), tally)?;
        if let Answer::Delivered(k, record) = answer {
            waiting.delivered(k, &record, &mut tally.turns)?;
        }
    }
    let mut stray = ring;
    put_temperature(&mut stray.offers[random.below(64)], i16::MIN);
    tally.turns.turn(&stray)?;
    tally.turns.turn_damaged(&changed(&ring, random))?;
    if draw::put_one_out(random, &mut network) {
        tally.turns.turn(&form::lay(&network))?;
    }
    Ok(())
}

/// The ring with bytes changed; then some calls on what it is now.
fn damaged_run(ring: &Ring, random: &mut Random, tally: &mut Tally) -> Result<(), String> {
    let mut pair = Pair::of(changed(ring, random));
    tally.damaged += 1;
    tally.still_sound += u64::from(pair.model.is_some());
    tally.orders.drawn_pair(&pair.ring, random)?;
    let (nodes, channels) = pair.size();
    for _ in 0..9 {
        pair.call(draw::any_call(random, nodes.min(16), channels.min(64)), tally)?;
    }
    Ok(())
}

fn command_of(call: Call) -> Option<Command> {
    let (code, first, second) = match call {
        Call::AddNode(slots) => (0x10, slots, 0),
        Call::AddChannel(sender, receiver) => (0x11, sender, receiver),
        Call::Start => (0x12, 0, 0),
        Call::Receive(channel) => (0x20, channel, 0),
        Call::SendTenths(channel, _) => (0x21, channel, 0),
        Call::Send(channel, _) => (0x25, channel, 0),
        Call::Enter(node) => (0x22, node, 0),
        Call::Move(node) => (0x23, node, 0),
        Call::Withdraw(channel) => (0x24, channel, 0),
        Call::HopsLeft(_) | Call::WaitingSet(_) => return None,
    };
    let record = match call {
        Call::Send(_, record) | Call::SendTenths(_, record) => to_c(record),
        _ => vessel_ring::Record::default(),
    };
    Some(Command { code, first, second, record })
}

/// A command at a place of a drawn tape: read, then another written there and read back.
fn commands(random: &mut Random, tally: &mut Tally) -> Result<(), String> {
    let mut tape: Vec<u8> = (0..random.below(100)).map(|_| random.byte()).collect();
    for byte in &mut tape {
        if random.percent(50) {
            *byte = random.pick(&[0x10, 0x11, 0x12, 0x20, 0x21, 0x22, 0x23, 0x24, 0x25]);
        }
    }
    let drawn = random.between(0, tape.len() + 1);
    let place = random.pick(&[drawn, drawn, drawn, tape.len(), usize::MAX]);
    compare_reading(&tape, place, tally)?;
    let call = draw::any_call(random, 200, 200);
    let mut command = command_of(call).unwrap_or_default();
    if random.percent(50) && ![0x21, 0x25].contains(&command.code) {
        command.record = to_c(draw::record(random));
    }
    let mut by_model = tape.clone();
    let bytes = tape::command_bytes(call);
    let expected = bytes.map_or(Err(22), |bytes| tape::write(&mut by_model, place, &bytes));
    let before = tape.clone();
    let writing = vessel_ring::write(&mut tape, place, command);
    tally.commands += 1;
    tally.answered(writing.refusal);
    let given = if writing.refusal == 0 { Ok(writing.next) } else { Err(writing.refusal) };
    if given != expected || tape != by_model || (given.is_err() && writing.next != 0) {
        return Err(format!("{command:?} written at {place} of {before:?}: {writing:?}, {tape:?}; the model: {expected:?}"));
    }
    tally.sights.see(given.is_ok() && command.code == 0x21, "written: command 21");
    tally.sights.see(given.is_ok() && command.code == 0x25, "written: command 25");
    compare_reading(&tape, place, tally)
}

fn compare_reading(tape: &[u8], place: usize, tally: &mut Tally) -> Result<(), String> {
    let reading = vessel_ring::read(tape, place);
    tally.commands += 1;
    tally.answered(reading.refusal);
    let expected = tape::read(tape, place);
    let same = match expected {
        Read::Command(call, next) => {
            (reading.refusal, reading.end, reading.next) == (0, 0, next) && Some(reading.command) == command_of(call)
        }
        Read::End => reading == Reading { end: 1, ..Reading::default() },
        Read::Refused(refusal) => reading == Reading { refusal, ..Reading::default() },
    };
    if !same {
        return Err(format!("{tape:?} at {place}: {reading:?}; the model: {expected:?}"));
    }
    tally.sights.see(reading.command.code == 0x21, "read: command 21");
    tally.sights.see(reading.command.code == 0x25, "read: command 25");
    Ok(())
}

/// The records in the bytes of a ring, sound or not, and in the first bytes of one.
fn records(ring: &Ring, random: &mut Random, tally: &mut Tally) -> Result<(), String> {
    for bytes in ring.offers.iter().chain(&ring.carried) {
        let (given, expected) = (Record::from_bytes(bytes), record_in(bytes));
        if given != expected {
            return Err(format!("a record read from {bytes:?}: {given:?}, not {expected:?}"));
        }
    }
    let short = &ring.offers[random.below(64)][..random.below(40)];
    if Record::from_bytes(short) != Record::default() {
        return Err(format!("a record read from the bytes {short:?}, which are too few"));
    }
    tally.sights.see(!short.is_empty(), "record read: of bytes too few");
    tally.sights.see(ring.offered.contains(&1), "record read: offered");
    tally.sights.see(ring.carried.iter().any(|bytes| record_in(bytes).temperature < 0), "record read: carried, below zero");
    Ok(())
}

/// All bytes FF: refused by all ten calls.
fn all_ff(tally: &mut Tally, random: &mut Random) -> Result<(), String> {
    let mut pair = Pair::of(Ring::from_bytes(&[0xFF; LENGTH]));
    for _ in 0..40 {
        pair.call(draw::any_call(random, 16, 64), tally)?;
    }
    Ok(())
}

fn compare(count: u64, seed: u64) -> Result<Shown, String> {
    let tally = &mut Tally::new();
    all_ff(tally, &mut Random::new(seed))?;
    tally.turns.turn(&Ring::fresh())?;
    tally.turns.turn(&Ring::from_bytes(&[0xFF; LENGTH]))?;
    turned_run(draw::full(&mut Random::new(seed)), &mut Random::new(seed), tally)?;
    let mut run = 0;
    while tally.calls < count {
        let mut random = Random::of_run(seed, run);
        let in_run = |difference| format!("seed {seed}, run {run}: {difference}");
        let pair = sound_run(&mut random, tally).map_err(in_run)?;
        records(&pair.ring, &mut random, tally).map_err(in_run)?;
        records(&changed(&pair.ring, &mut random), &mut random, tally).map_err(in_run)?;
        for _ in 0..3 {
            damaged_run(&pair.ring, &mut random, tally).map_err(in_run)?;
        }
        turned_run(pair.model.expect("the run's ring is sound"), &mut random, tally).map_err(in_run)?;
        for _ in 0..20 {
            commands(&mut random, tally).map_err(in_run)?;
        }
        run += 1;
    }
    Ok(tally.shown())
}

fn main() -> ExitCode {
    program::run("calls", compare)
}
