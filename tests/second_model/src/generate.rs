//! Tapes for the comparison, the same ones for the same seed. First come tapes
//! that aim at one edge of document 01 each, then tapes drawn at random. A drawn
//! run follows the model: it looks at the ring before it picks a command, so
//! that most calls are accepted and records arrive.

use crate::listing::{apply, TAPE_LIMIT};
use crate::ring::{BatchNumber, ChannelNumber, Fields, NodeNumber, Record, Ring, Unit, ASKING, BLANK, CHANNELS, NODES, RESTING, SLOTS};
use crate::tape::{self, Command, SEND_WIDTH};
use common::random::Random;

/// The tapes of one seed.
pub struct Tapes {
    seed: u64,
    aimed: Vec<Vec<u8>>,
}

impl Tapes {
    pub fn new(seed: u64) -> Tapes {
        Tapes { seed, aimed: aimed_tapes(&mut Random::new(seed)) }
    }

    /// How many tapes come before the drawn ones.
    pub fn aimed(&self) -> usize {
        self.aimed.len()
    }

    /// Tape `index`, whatever tapes were asked for before.
    pub fn tape(&self, index: usize) -> Vec<u8> {
        match self.aimed.get(index) {
            Some(tape) => tape.clone(),
            None => {
                let drawn = index - self.aimed.len();
                let mut mixed = Random::new(self.seed ^ (drawn as u64).wrapping_mul(0xA24B_AED4));
                let random = &mut Random::new(mixed.draw());
                drawn_tape(drawn, random)
            }
        }
    }
}

// ---- Writing a tape while following it.

/// A tape and the ring as the tape leaves it.
struct Writer {
    bytes: Vec<u8>,
    ring: Ring,
}

impl Writer {
    fn new() -> Writer {
        Writer { bytes: Vec::new(), ring: Ring::fresh() }
    }

    fn add(&mut self, command: Command) {
        let place = self.bytes.len();
        self.bytes.resize(place + command.width(), 0);
        tape::write(&command, &mut self.bytes, place).expect("there is room");
        // Whether the call is refused does not matter here.
        let _ = apply(&mut self.ring, &command);
    }

    fn add_all(&mut self, commands: &[Command]) {
        commands.iter().for_each(|&command| self.add(command));
    }

    fn room_for(&self, width: usize, limit: usize) -> bool {
        self.bytes.len() + width <= limit
    }

    /// Fills up to exactly `length` bytes with starts, which are one byte wide.
    fn pad(&mut self, length: usize) {
        while self.bytes.len() < length {
            self.add(Command::Start);
        }
    }
}

fn add_node(slots: u8) -> Command {
    Command::AddNode { slots }
}

fn add_channel(sender: u8, receiver: u8) -> Command {
    Command::AddChannel { sender: NodeNumber(sender), receiver: NodeNumber(receiver) }
}

fn receive(channel: u8) -> Command {
    Command::Receive(ChannelNumber(channel))
}

fn send(channel: u8, fields: Fields) -> Command {
    Command::Send(ChannelNumber(channel), fields)
}

fn enter(node: u8) -> Command {
    Command::Enter(NodeNumber(node))
}

fn move_at(node: u8) -> Command {
    Command::Move(NodeNumber(node))
}

fn withdraw(channel: u8) -> Command {
    Command::Withdraw(ChannelNumber(channel))
}

// ---- Records.

/// A good record with this name (at most 32 bytes).
pub fn record_named(name: &[u8]) -> Record {
    let mut record = Record { number: BatchNumber(7), vessel: 3, temperature: 6120, length: name.len() as u8, name: [0; 32] };
    record.name[..name.len()].copy_from_slice(name);
    record
}

/// The fields that make this record, in tenths, as they are on 01's tape.
pub fn fields_named(name: &[u8]) -> Fields {
    Fields { unit: Unit::Tenths, temperature: 612, ..Fields::of(&record_named(name)) }
}

/// Tenths on both sides of every edge: of the range, of what fits 16 bits ten times
/// as many (3276 and 3277), and of what would be in range again with 16 bits kept
/// (from 6154 to 7753, say). Some are good in hundredths.
pub const EDGE_TENTHS: [i16; 24] = [
    -32768, -6554, -4000, -3277, -3276, -401, -400, -399, -1, 0, 1, 255, 256, 1199, 1200, 1201, 3276, 3277, 3278, 6120, 6553, 6554, 12000,
    32767,
];

/// Hundredths likewise; some are out of range in tenths.
pub const EDGE_HUNDREDTHS: [i16; 20] =
    [-32768, -4010, -4001, -4000, -3999, -401, -400, -1, 0, 1, 255, 256, 612, 1200, 1201, 11999, 12000, 12001, 12010, 32767];

fn edge_temperatures(unit: Unit) -> &'static [i16] {
    match unit {
        Unit::Tenths => &EDGE_TENTHS,
        Unit::Hundredths => &EDGE_HUNDREDTHS,
    }
}

fn good_temperature(random: &mut Random, unit: Unit) -> i16 {
    let (coldest, hottest) = (*unit.range().start(), *unit.range().end());
    match random.below(8) {
        0 => coldest,
        1 => hottest,
        2 => random.pick(&[-1, 0, 1, coldest + 1, hottest - 1]),
        _ => coldest + random.between(0, (hottest - coldest) as usize) as i16,
    }
}

fn printable(random: &mut Random) -> u8 {
    match random.below(8) {
        0 => BLANK,
        1 => 0x7E,
        _ => random.between(0x20, 0x7E) as u8,
    }
}

/// The fields of a good record, as a ring may hold it and the history takes it: its
/// name may have a blank at an end.
fn good_fields(random: &mut Random, unit: Unit) -> Fields {
    let mut fields = Fields { unit, ..Fields::of(&Record::NONE) };
    fields.number = BatchNumber(match random.below(8) {
        0 => 1,
        1 => u32::MAX,
        // Few numbers, so that different records of the same batch meet.
        2 | 3 => random.between(1, 5) as u32,
        _ => (random.draw() as u32).max(1),
    });
    fields.vessel = random.byte();
    fields.temperature = good_temperature(random, unit);
    fields.length = match random.below(6) {
        0 => 0,
        1 => 32,
        2 => 1,
        _ => random.between(0, 32) as u8,
    };
    for at in 0..fields.length as usize {
        fields.name[at] = printable(random);
    }
    fields
}

/// A good record, with a blank at an end of its name or without.
pub fn good_record(random: &mut Random) -> Record {
    record_of(good_fields(random, Unit::Hundredths))
}

/// The record of fields in hundredths, good or bad.
fn record_of(fields: Fields) -> Record {
    let Fields { number, temperature, vessel, length, name, .. } = fields;
    Record { number, temperature, vessel, length, name }
}

/// The fields of a record that a send takes: without a blank at an end of its name.
/// As many numbers are drawn as for `good_fields`, and all else is the same.
pub fn fields_to_send(random: &mut Random, unit: Unit) -> Fields {
    let mut fields = good_fields(random, unit);
    for end in [0, last_of(&fields)] {
        if fields.name[end] == BLANK {
            fields.name[end] = b'A';
        }
    }
    fields
}

/// The place of a name's last byte; 0 of an empty name.
fn last_of(fields: &Fields) -> usize {
    (fields.length as usize).saturating_sub(1)
}

/// The fields of a good record with a blank at one end of its name or at both, or
/// with a name of one blank: 30 to a send.
fn blank_ended_fields(random: &mut Random, unit: Unit) -> Fields {
    let mut fields = fields_to_send(random, unit);
    if fields.length == 0 || random.percent(15) {
        return Fields { length: 1, name: record_named(b" ").name, ..fields };
    }
    let last = last_of(&fields);
    for end in random.pick(&[[0, 0], [last, last], [0, last]]) {
        fields.name[end] = BLANK;
    }
    fields
}

/// The fields of a record with one fault or several; the first in the order of 01
/// decides. A temperature at an edge may be none.
fn bad_fields(random: &mut Random, unit: Unit) -> Fields {
    let mut fields = good_fields(random, unit);
    let faults = if random.percent(60) { 1 } else { random.between(2, 4) };
    for _ in 0..faults {
        match random.below(5) {
            0 => fields.number = BatchNumber(0),
            1 => fields.temperature = random.pick(edge_temperatures(unit)),
            2 => fields.length = random.pick(&[33, 34, 64, 255]),
            // A byte that may be in the name or in the fill, whichever it hits.
            3 => fields.name[random.below(32)] = random.pick(&[0, 0x1F, 0x7F, 0x80, 0xFF]),
            _ => fields.name[31] ^= random.pick(&[0x01, 0x20, 0x41, 0x80]),
        }
    }
    fields
}

/// A record with faults, likewise.
pub fn bad_record(random: &mut Random) -> Record {
    record_of(bad_fields(random, Unit::Hundredths))
}

// ---- Plans: nodes with their slots, channels with their two nodes.

struct Plan {
    slots: Vec<u8>,
    channels: Vec<(u8, u8)>,
}

impl Plan {
    /// `spare` more slots than the least with which the ring starts.
    fn draw(random: &mut Random, nodes: usize, channels: usize, spare: usize) -> Plan {
        let mut slots = vec![1u8; nodes];
        let least = (channels + 1).max(nodes);
        let total = (least + spare).min(nodes * SLOTS);
        while (slots.iter().map(|&s| s as usize).sum::<usize>()) < total {
            let node = random.below(nodes);
            if (slots[node] as usize) < SLOTS {
                slots[node] += 1;
            }
        }
        let mut node = || random.below(nodes) as u8;
        let channels = (0..channels).map(|_| (node(), node())).collect();
        Plan { slots, channels }
    }

    fn commands(&self) -> Vec<Command> {
        let nodes = self.slots.iter().map(|&slots| add_node(slots));
        let channels = self.channels.iter().map(|&(from, to)| add_channel(from, to));
        nodes.chain(channels).chain([Command::Start]).collect()
    }
}

/// How many channels can run on so many nodes: with one node b is at most 64.
pub fn most_channels(nodes: usize) -> usize {
    CHANNELS.min(nodes * SLOTS - 1)
}

// ---- Runs that follow the ring.

/// How a run picks its next command: weights, and how often it does not look.
#[derive(Clone, Copy)]
struct Habits {
    receive: usize,
    send: usize,
    enter: usize,
    movement: usize,
    withdraw: usize,
    /// Percent of sends that are in hundredths.
    hundredths: usize,
    /// Percent of commands with operands that no look at the ring chose.
    blind: usize,
    /// Percent of commands drawn without regard to any limit.
    wild: usize,
}

const STEADY: Habits = Habits { receive: 10, send: 10, enter: 20, movement: 60, withdraw: 3, hundredths: 50, blind: 3, wild: 1 };
/// Draws the benchmark's tapes too: without withdrawals and hundredths they stay what
/// they are.
const LEGAL: Habits = Habits { withdraw: 0, hundredths: 0, blind: 0, wild: 0, ..STEADY };
/// Fills lines and buffers, then goes on blindly: full buffers and turn marks.
const CROWDED: Habits = Habits { receive: 25, send: 8, enter: 30, movement: 37, withdraw: 6, blind: 30, ..STEADY };
const UNRULY: Habits = Habits { receive: 15, send: 15, enter: 25, movement: 45, withdraw: 8, blind: 30, wild: 20, ..STEADY };

fn draw_habits(random: &mut Random) -> Habits {
    Habits {
        receive: random.between(3, 30),
        send: random.between(3, 20),
        enter: random.between(5, 40),
        movement: random.between(20, 90),
        withdraw: random.pick(&[0, 2, 5, 15]),
        hundredths: random.pick(&[0, 20, 80, 100]),
        blind: random.pick(&[0, 1, 5, 20, 50]),
        wild: random.pick(&[0, 0, 1, 3, 10]),
    }
}

/// Adds commands until the tape has no room for one more send.
fn run(writer: &mut Writer, random: &mut Random, habits: Habits, limit: usize) {
    while writer.room_for(SEND_WIDTH, limit) {
        let command = if random.percent(habits.wild) { wild_command(random) } else { next_command(&writer.ring, random, habits) };
        writer.add(command);
    }
}

fn next_command(ring: &Ring, random: &mut Random, habits: Habits) -> Command {
    let weights = [habits.receive, habits.send, habits.enter, habits.movement, habits.withdraw];
    let kind = weighted(random, &weights);
    let unit = draw_unit(random, habits.hundredths);
    let looks = !random.percent(habits.blind);
    if looks {
        // The drawn kind if it would be accepted, else another that would. No
        // withdrawal stands in for another kind: it would undo what was reached.
        let others = (1..=4).map(|turn| (kind + turn) % 4).filter(|&other| other != kind);
        for kind in std::iter::once(kind).chain(others) {
            if let Some(command) = accepted_command(ring, random, kind, unit) {
                return command;
            }
        }
    }
    let node = random.below(ring.node_count.max(1) as usize + 1) as u8;
    let channel = random.below(ring.channel_count.max(1) as usize + 1) as u8;
    match kind {
        0 => receive(channel),
        1 if random.percent(30) => send(channel, bad_fields(random, unit)),
        1 if random.percent(40) => send(channel, blank_ended_fields(random, unit)),
        1 => send(channel, good_fields(random, unit)),
        2 => enter(node),
        3 => move_at(node),
        _ => withdraw(channel),
    }
}

/// A run that sends in tenths alone draws nothing for it.
fn draw_unit(random: &mut Random, hundredths: usize) -> Unit {
    if hundredths > 0 && random.percent(hundredths) {
        Unit::Hundredths
    } else {
        Unit::Tenths
    }
}

fn weighted(random: &mut Random, weights: &[usize]) -> usize {
    let mut at = random.below(weights.iter().sum());
    for (kind, &weight) in weights.iter().enumerate() {
        if at < weight {
            return kind;
        }
        at -= weight;
    }
    weights.len() - 1
}

/// A command of this kind that the ring as it is would accept; a send in this unit.
fn accepted_command(ring: &Ring, random: &mut Random, kind: usize, unit: Unit) -> Option<Command> {
    let mut node = || around(random, ring.node_count);
    match kind {
        0 => around(random, ring.channel_count).find(|&at| ring.channels[at as usize].phase == RESTING).map(receive),
        1 => around(random, ring.channel_count)
            .find(|&at| ring.channels[at as usize].offer.is_none())
            .map(|at| send(at, fields_to_send(random, unit))),
        2 => node().find(|&at| enter_looks_good(ring, at)).map(enter),
        3 => node().find(|&at| move_looks_good(ring, at)).map(move_at),
        _ => around(random, ring.channel_count).find(|&at| withdraw_looks_good(ring, at)).map(withdraw),
    }
}

/// All numbers below `count`, once each, from a drawn one on.
fn around(random: &mut Random, count: u8) -> impl Iterator<Item = u8> {
    let count = count as usize;
    let first = random.below(count.max(1));
    (0..count).map(move |step| ((first + step) % count) as u8)
}

fn enter_looks_good(ring: &Ring, at: u8) -> bool {
    let node = &ring.nodes[at as usize];
    node.line_length > 0 && node.buffer_length < node.slots
}

fn move_looks_good(ring: &Ring, at: u8) -> bool {
    if ring.nodes[at as usize].buffer_length == 0 {
        return false;
    }
    let next = (at + 1) % ring.node_count;
    let there = &ring.nodes[next as usize];
    let first = ring.slots[at as usize * SLOTS] as usize - 1;
    let channel = &ring.channels[first];
    let target = if channel.phase == ASKING { channel.sender } else { channel.receiver };
    target.0 == next || (there.buffer_length < there.slots && there.turn_mark == 0)
}

fn withdraw_looks_good(ring: &Ring, at: u8) -> bool {
    let channel = &ring.channels[at as usize];
    let line = &ring.lines[channel.receiver.0 as usize * SLOTS..][..SLOTS];
    channel.phase == ASKING && line.contains(&(at + 1))
}

// ---- Commands drawn without looking.

/// A number near the limits 0, 16, 64 and 255 more often than others.
fn edge_number(random: &mut Random) -> u8 {
    match random.below(4) {
        0 => random.pick(&[0, 1, 15, 16, 17, 63, 64, 65, 127, 128, 254, 255]),
        1 => random.byte(),
        _ => random.below(6) as u8,
    }
}

fn wild_command(random: &mut Random) -> Command {
    let (one, two) = (edge_number(random), edge_number(random));
    match random.below(9) {
        0 => add_node(one),
        1 => add_channel(one, two),
        2 => Command::Start,
        3 => receive(one),
        4 => send(one, wild_fields(random)),
        5 => enter(one),
        6 => withdraw(one),
        _ => move_at(one),
    }
}

fn wild_fields(random: &mut Random) -> Fields {
    let unit = random.pick(&Unit::ALL);
    match random.below(4) {
        0 => good_fields(random, unit),
        1 => bad_fields(random, unit),
        2 => blank_ended_fields(random, unit),
        _ => Fields {
            unit,
            number: BatchNumber(random.draw() as u32),
            vessel: random.byte(),
            temperature: random.draw() as i16,
            length: random.byte(),
            name: std::array::from_fn(|_| random.byte()),
        },
    }
}

fn random_bytes(random: &mut Random, length: usize) -> Vec<u8> {
    (0..length).map(|_| random.byte()).collect()
}

// ---- Drawn tapes.

fn drawn_tape(drawn: usize, random: &mut Random) -> Vec<u8> {
    match drawn % 20 {
        0 => {
            let length = random.between(0, 2000);
            random_bytes(random, length)
        }
        1 => wild_tape(random),
        2 => run_tape(random, UNRULY, 0),
        3 => cut_tape(random),
        4 => spoilt_tape(random),
        5 => overfull_tape(random),
        6 => {
            // The largest ring, now and then as long as a tape may be.
            let limit = if drawn % 200 == 6 { TAPE_LIMIT } else { 6_000 };
            let spare = random.pick(&[0, 1, 16, 960]);
            started_run(random, NODES, CHANNELS, spare, STEADY, limit)
        }
        7 => {
            let channels = random.between(1, most_channels(1));
            started_run(random, 1, channels, 0, STEADY, 4_000)
        }
        8 => same_node_tape(random),
        9 | 10 => run_tape(random, CROWDED, 0),
        11 => {
            let habits = draw_habits(random);
            run_tape(random, habits, 0)
        }
        12 => run_tape(random, LEGAL, 40),
        13 | 14 => {
            let habits = draw_habits(random);
            run_tape(random, habits, 3)
        }
        _ => run_tape(random, STEADY, 8),
    }
}

fn run_tape(random: &mut Random, habits: Habits, most_spare: usize) -> Vec<u8> {
    let nodes = random.between(1, NODES);
    let most = most_channels(nodes);
    let channels = if random.percent(50) { random.between(1, most) } else { random.between(1, 8) };
    let spare = random.between(0, most_spare);
    let limit = match random.below(10) {
        0 => random.between(10_000, 20_000),
        1..=4 => random.between(3_000, 10_000),
        _ => random.between(500, 5_000),
    };
    started_run(random, nodes, channels, spare, habits, limit)
}

fn started_run(random: &mut Random, nodes: usize, channels: usize, spare: usize, habits: Habits, limit: usize) -> Vec<u8> {
    let mut writer = Writer::new();
    writer.add_all(&Plan::draw(random, nodes, channels, spare).commands());
    run(&mut writer, random, habits, limit);
    writer.bytes
}

/// Commands without any plan: most rings never start.
fn wild_tape(random: &mut Random) -> Vec<u8> {
    let mut writer = Writer::new();
    for _ in 0..random.between(1, 200) {
        writer.add(wild_command(random));
    }
    if random.percent(50) {
        writer.bytes.push(random.byte());
    }
    writer.bytes
}

/// A run whose last command may be cut.
fn cut_tape(random: &mut Random) -> Vec<u8> {
    let mut tape = run_tape(random, STEADY, 4);
    let cut = random.between(1, SEND_WIDTH.min(tape.len()));
    tape.truncate(tape.len() - cut);
    tape
}

/// A run with a few bytes changed, put in or taken out.
fn spoilt_tape(random: &mut Random) -> Vec<u8> {
    let mut tape = run_tape(random, STEADY, 4);
    for _ in 0..random.between(1, 4) {
        let at = random.below(tape.len());
        match random.below(3) {
            0 => tape[at] = random.byte(),
            1 => tape.insert(at, random.byte()),
            _ => {
                tape.remove(at);
            }
        }
    }
    tape
}

/// Tries more than 16 nodes and more than 64 channels, in mixed order.
fn overfull_tape(random: &mut Random) -> Vec<u8> {
    let mut writer = Writer::new();
    let nodes = random.between(12, 20);
    for _ in 0..nodes {
        let slots = if random.percent(10) { edge_number(random) } else { random.between(1, 9) as u8 };
        writer.add(add_node(slots));
        if random.percent(30) {
            writer.add(add_channel(random.below(nodes) as u8, random.below(nodes) as u8));
        }
    }
    for _ in 0..random.between(40, 90) {
        writer.add(add_channel(random.below(nodes) as u8, random.below(nodes) as u8));
    }
    writer.add_all(&[add_node(64), Command::Start, Command::Start]);
    if writer.ring.started == 1 {
        run(&mut writer, random, STEADY, 4_000);
    }
    writer.bytes
}

/// "A same-node channel's request and response each go round the whole ring".
fn same_node_tape(random: &mut Random) -> Vec<u8> {
    let nodes = random.between(1, NODES);
    let channels = random.between(1, most_channels(nodes).min(20));
    let mut plan = Plan::draw(random, nodes, channels, 2);
    for channel in &mut plan.channels {
        channel.1 = channel.0;
    }
    let mut writer = Writer::new();
    writer.add_all(&plan.commands());
    run(&mut writer, random, STEADY, 4_000);
    writer.bytes
}

// ---- Aimed tapes.

fn aimed_tapes(random: &mut Random) -> Vec<Vec<u8>> {
    let mut tapes = vec![Vec::new(), listing_tape(), turn_tape(), many_refusals_tape()];
    tapes.extend([freed_move_tape(), kept_mark_tape(), undone_receives_tape(), long_line_tape()]);
    tapes.extend([blank_ends_tape(), hundredths_tape()]);
    tapes.extend(record_edge_tapes());
    tapes.extend(plan_edge_tapes());
    tapes.extend(size_tapes(random));
    tapes.extend(cut_tapes());
    tapes.extend((0..=255).map(|byte| after_a_start(&[byte])));
    tapes
}

/// The tape that document 01 prints with its output.
pub fn listing_tape() -> Vec<u8> {
    let mut writer = Writer::new();
    writer.add_all(&[add_node(1), add_node(2), add_channel(1, 0), Command::Start]);
    writer.add_all(&[receive(0), receive(0), enter(0), move_at(0)]);
    writer.add_all(&[send(0, fields_named(b"A1")), enter(1), move_at(1), move_at(1)]);
    writer.bytes
}

/// The turn case of document 01.
pub fn turn_tape() -> Vec<u8> {
    let mut writer = Writer::new();
    writer.add_all(&[add_node(1), add_node(2), add_node(1)]);
    writer.add_all(&[add_channel(2, 0), add_channel(2, 1), add_channel(2, 0), Command::Start]);
    writer.add_all(&[receive(0), receive(1), receive(2), enter(0), move_at(0), enter(0)]);
    writer.add_all(&[move_at(0), enter(1), move_at(0), move_at(1), move_at(0)]);
    writer.bytes
}

/// A withdrawal frees a move: the plan of the turn case, where the move at node
/// 0 is 21 until the only request in node 1's line is taken out, and the mark
/// with it.
pub fn freed_move_tape() -> Vec<u8> {
    let mut writer = Writer::new();
    writer.add_all(&[add_node(1), add_node(2), add_node(1)]);
    writer.add_all(&[add_channel(2, 0), add_channel(2, 1), add_channel(2, 0), Command::Start]);
    writer.add_all(&[receive(0), receive(1), receive(2), enter(0), move_at(0), enter(0)]);
    writer.add_all(&[move_at(0), withdraw(1), move_at(0)]);
    writer.bytes
}

/// The first of a marked line is withdrawn: the mark stays, and the move at node
/// 0 is 21, while another waits in the line; it goes with the last.
pub fn kept_mark_tape() -> Vec<u8> {
    let mut writer = Writer::new();
    writer.add_all(&[add_node(1), add_node(3), add_node(1), add_channel(2, 0), add_channel(2, 1)]);
    writer.add_all(&[add_channel(2, 1), add_channel(2, 0), Command::Start]);
    writer.add_all(&[receive(0), receive(1), receive(2), enter(0), move_at(0), withdraw(1)]);
    writer.add_all(&[receive(3), enter(0), move_at(0), withdraw(2), move_at(0)]);
    writer.bytes
}

/// How many receives `undone_receives_tape` undoes.
pub const UNDONE_RECEIVES: u32 = 1_000;

/// A thousand receives undone between a match and its delivery, which they do
/// not put off: the record of channel 0 arrives as if they had not been.
pub fn undone_receives_tape() -> Vec<u8> {
    let mut writer = Writer::new();
    writer.add_all(&[add_node(1), add_node(2), add_channel(0, 0), add_channel(1, 1)]);
    writer.add_all(&[Command::Start, send(0, fields_named(b"A1")), receive(0)]);
    (0..UNDONE_RECEIVES).for_each(|_| writer.add_all(&[receive(1), withdraw(1)]));
    writer.add_all(&[enter(0), move_at(0), move_at(1), enter(0), move_at(0), move_at(1)]);
    writer.bytes
}

/// The longest line, 64 requests at node 0, with requests taken out at its ends
/// and in between; the records then arrive in the order of those left. One that
/// was taken out and asks again is the last.
pub fn long_line_tape() -> Vec<u8> {
    let mut writer = Writer::new();
    writer.add_all(&[add_node(64), add_node(1)]);
    let all = 0..CHANNELS as u8;
    all.clone().for_each(|_| writer.add(add_channel(1, 0)));
    writer.add(Command::Start);
    all.clone().for_each(|at| writer.add(send(at, fields_named(b"A1"))));
    all.clone().for_each(|at| writer.add(receive(at)));
    for at in [63, 0, 1, 31, 32, 17, 62, 61] {
        writer.add(withdraw(at));
    }
    writer.add_all(&[receive(31), withdraw(2), receive(2)]);
    for _ in all {
        writer.add_all(&[enter(0), move_at(0), enter(1), move_at(1)]);
    }
    writer.bytes
}

/// Names with a blank at an end, inside or not at all, each sent on a channel of
/// its own; then two on a channel that has a record offered, and all that was
/// accepted is delivered.
pub fn blank_ends_tape() -> Vec<u8> {
    let all = blank_fields();
    let mut writer = Writer::new();
    writer.add(add_node(64));
    all.iter().for_each(|_| writer.add(add_channel(0, 0)));
    writer.add(Command::Start);
    (0..).zip(&all).for_each(|(at, &fields)| writer.add(send(at, fields)));
    writer.add_all(&[send(0, fields_named(b"A ")), send(0, fields_named(b"AB"))]);
    deliver_all(&mut writer, all.len() as u8);
    writer.bytes
}

/// Brings home what is offered on so many channels of a ring of one node.
fn deliver_all(writer: &mut Writer, channels: u8) {
    (0..channels).for_each(|at| writer.add_all(&[receive(at), enter(0), move_at(0)]));
    (0..channels).for_each(|_| writer.add_all(&[enter(0), move_at(0)]));
}

/// Both commands that send, each with every temperature at an edge on a channel of
/// its own, and where 12 stands among the refusals; all that was accepted is
/// delivered.
pub fn hundredths_tape() -> Vec<u8> {
    let with = |unit, temperature| Fields { unit, temperature, ..fields_named(b"A1") };
    let edges = |unit| edge_temperatures(unit).iter().map(move |&value| with(unit, value));
    let all: Vec<Fields> = Unit::ALL.into_iter().flat_map(edges).collect();
    let hot = [with(Unit::Tenths, 1201), with(Unit::Hundredths, 12001)];
    let mut writer = Writer::new();
    hot.iter().for_each(|&fields| writer.add(send(0, fields)));
    writer.add(add_node(64));
    all.iter().for_each(|_| writer.add(add_channel(0, 0)));
    writer.add(Command::Start);
    for fields in hot {
        writer.add(send(all.len() as u8, fields));
        writer.add(send(0, Fields { number: BatchNumber(0), ..fields }));
        writer.add(send(0, Fields { length: 33, ..fields }));
    }
    (0..).zip(&all).for_each(|(at, &fields)| writer.add(send(at, fields)));
    deliver_all(&mut writer, all.len() as u8);
    writer.bytes
}

/// Names with blanks at all places where they matter. The first is accepted, so
/// that channel 0 of `blank_ends_tape` has a record offered.
fn blank_fields() -> Vec<Fields> {
    let mut last_of_32 = [b'A'; 32];
    last_of_32[31] = BLANK;
    let mut first_of_32 = [b'A'; 32];
    first_of_32[0] = BLANK;
    let names: [&[u8]; 13] = [
        b"",
        b" ",
        b"A ",
        b" A",
        b"A B",
        &last_of_32,
        &[b'A'; 32],
        &first_of_32,
        &[BLANK; 32],
        b" A ",
        b"  ",
        // A fault of the name or of its fill comes first.
        b" \x7F",
        b"\x1F ",
    ];
    let mut all: Vec<Fields> = names.iter().map(|name| fields_named(name)).collect();
    all.push(Fields { length: 33, ..fields_named(&last_of_32) });
    all.push(Fields { length: 1, ..fields_named(b"A ") });
    all.push(Fields { length: 1, ..fields_named(b" A") });
    all
}

/// Most refusals on one tape, 27 and 28 among them; a tape has 22 or 23 once, at
/// its end.
fn many_refusals_tape() -> Vec<u8> {
    let good = fields_named(b"A1");
    let mut writer = Writer::new();
    // 8 and, before any node, 6, 5 and 3.
    writer.add_all(&[receive(0), send(0, good), enter(0), move_at(0), withdraw(0)]);
    writer.add(Command::Start);
    writer.add_all(&[add_channel(0, 0), add_node(0), add_node(65), add_node(1), Command::Start]);
    writer.add_all(&[add_channel(0, 1), add_channel(1, 0), add_channel(0, 0), Command::Start]);
    (0..16).for_each(|_| writer.add(add_node(1)));
    writer.add(add_node(0));
    (0..14).for_each(|_| writer.add(add_channel(0, 15)));
    writer.add_all(&[Command::Start, add_node(1), add_channel(0, 0), Command::Start]);
    // 9, 27, 10, 16, 17, and 28 once the request of channel 0 has entered.
    writer.add_all(&[receive(15), withdraw(15), withdraw(0), receive(0), receive(0)]);
    writer.add_all(&[enter(16), move_at(16), enter(1), enter(0), withdraw(0)]);
    writer.add_all(&[receive(1), enter(15), move_at(15), move_at(15)]);
    writer.add_all(&[receive(2), enter(15), receive(3), enter(15), enter(15), move_at(1)]);
    writer.add_all(&[move_at(0), move_at(0), move_at(0), enter(0)]);
    for fields in edge_fields(Unit::Tenths) {
        writer.add(send(14, fields));
    }
    writer.add(send(14, good));
    let mut random = Random::new(1);
    run(&mut writer, &mut random, CROWDED, 12_000);
    writer.bytes.push(0x13);
    writer.bytes
}

/// Tapes that bring every edge of a record through a channel, or its refusal.
fn record_edge_tapes() -> Vec<Vec<u8>> {
    let mut tapes = Vec::new();
    for (nodes, from, to) in [(1, 0, 0), (2, 1, 0), (3, 1, 1)] {
        let mut writer = Writer::new();
        (0..nodes).for_each(|_| writer.add(add_node(2)));
        writer.add_all(&[add_channel(from, to), Command::Start]);
        for fields in Unit::ALL.into_iter().flat_map(edge_fields) {
            // Sent twice: the second is 15, or the fault once more.
            writer.add_all(&[send(0, fields), send(0, fields), receive(0)]);
            go_round(&mut writer, nodes);
        }
        tapes.push(writer.bytes);
    }
    tapes
}

/// Enters and moves at every node until a request and its response are home.
fn go_round(writer: &mut Writer, nodes: u8) {
    for _ in 0..3 {
        for node in 0..nodes {
            writer.add_all(&[enter(node), move_at(node)]);
        }
    }
}

fn edge_fields(unit: Unit) -> Vec<Fields> {
    let plain = Fields { unit, ..fields_named(b"A1") };
    let mut all = Vec::new();
    for number in [0, 1, 2, 255, 256, 65_535, 65_536, 1 << 31, u32::MAX] {
        all.push(Fields { number: BatchNumber(number), ..plain });
    }
    for &temperature in edge_temperatures(unit) {
        all.push(Fields { temperature, ..plain });
    }
    for vessel in [0, 1, 127, 128, 255] {
        all.push(Fields { vessel, ..plain });
    }
    for length in [0, 1, 2, 31, 32, 33, 34, 64, 128, 255] {
        // Once with the name as long as said (32 at most), once with all 32
        // bytes filled, once with none.
        let mut fitting = Fields { length, name: [0; 32], ..plain };
        fitting.name[..(length as usize).min(32)].fill(b'n');
        all.push(fitting);
        all.push(Fields { length, name: [b'n'; 32], ..plain });
        all.push(Fields { length, name: [0; 32], ..plain });
    }
    let named = name_byte_fields().into_iter().chain(blank_fields());
    all.extend(named.map(|fields| Fields { unit, ..fields }));
    // Several faults at once: the first in the order of 01 is the answer.
    let mut faulty = Fields { unit, ..fields_named(&[0x7F; 3]) };
    all.push(faulty);
    faulty.length = 33;
    all.push(faulty);
    faulty.temperature = unit.range().end() + 1;
    all.push(faulty);
    faulty.number = BatchNumber(0);
    all.push(faulty);
    all
}

/// A byte at the edges of those that a name may have, at places within the name,
/// at its ends, and in the fill behind it.
fn name_byte_fields() -> Vec<Fields> {
    let mut all = Vec::new();
    for byte in [0x00, 0x1F, 0x20, 0x7E, 0x7F, 0x80, 0xFF] {
        for place in [0, 2, 4, 5, 31] {
            let mut fields = fields_named(b"batch");
            fields.name[place] = byte;
            all.push(fields);
        }
        let mut full = fields_named(&[b'f'; 32]);
        full.name[31] = byte;
        all.push(full);
    }
    all
}

/// The limits of plans: P1, P2 and P10 of 01, every number of nodes, 17 nodes,
/// 64 and 65 channels, slots 0 to 255, and b = c beside b = c + 1.
fn plan_edge_tapes() -> Vec<Vec<u8>> {
    let mut tapes = Vec::new();
    for second in [1, 2] {
        let mut writer = Writer::new();
        writer.add_all(&[add_node(1), add_node(second), add_channel(0, 0), add_channel(1, 1)]);
        writer.add_all(&[Command::Start, receive(0), receive(1), enter(0), enter(1)]);
        writer.add_all(&[move_at(0), move_at(1), move_at(0), move_at(1)]);
        tapes.push(writer.bytes);
    }
    let mut slots = Writer::new();
    (0..=255).for_each(|count| slots.add(add_node(count)));
    tapes.push(slots.bytes);
    for nodes in 1..=17u8 {
        // One node cannot have 64 channels started: b is at most 64.
        let mut writer = Writer::new();
        (0..nodes).for_each(|_| writer.add(add_node(64)));
        for at in 0..66u8 {
            writer.add(add_channel(at % nodes, (at * 3 + 1) % nodes));
        }
        writer.add(add_channel(200, 200));
        writer.add_all(&[Command::Start, Command::Start, add_node(1), add_channel(0, 0)]);
        for at in 0..66 {
            writer.add_all(&[receive(at), enter(at % nodes), move_at(at % nodes)]);
        }
        tapes.push(writer.bytes);
    }
    for (slots, channels) in [(1, 1), (2, 1), (63, 63), (64, 63), (64, 64), (3, 2), (2, 2)] {
        let mut writer = Writer::new();
        writer.add(add_node(slots));
        (0..channels).for_each(|_| writer.add(add_channel(0, 0)));
        writer.add(Command::Start);
        (0..channels).for_each(|at| writer.add_all(&[receive(at), enter(0)]));
        writer.add_all(&[enter(0), move_at(0), move_at(0), move_at(0)]);
        tapes.push(writer.bytes);
    }
    tapes
}

/// Tapes at, just over and far over 60,000 bytes.
fn size_tapes(random: &mut Random) -> Vec<Vec<u8>> {
    let mut tapes = Vec::new();
    for length in [59_999, 60_000, 60_001] {
        let mut writer = Writer::new();
        writer.add_all(&Plan::draw(random, NODES, CHANNELS, 16).commands());
        run(&mut writer, random, LEGAL, length);
        writer.pad(length);
        tapes.push(writer.bytes);
    }
    // The longest listing by lines, and 60,000 bytes that end in a cut command.
    tapes.push(vec![tape::START; TAPE_LIMIT]);
    let mut cut = vec![tape::START; TAPE_LIMIT - 41];
    cut.resize(TAPE_LIMIT, 0);
    cut[TAPE_LIMIT - 41] = tape::SEND_TENTHS;
    tapes.push(cut.clone());
    // The same with the missing byte: a whole command, but too long.
    cut.push(0);
    tapes.push(cut);
    for length in [60_001, 60_002, 65_535, 65_536, 65_537, 131_072, 1_000_000] {
        tapes.push(vec![tape::START; length]);
        tapes.push(random_bytes(random, length));
    }
    tapes.push(random_bytes(random, TAPE_LIMIT));
    tapes
}

/// Each command cut at each place, and whole.
fn cut_tapes() -> Vec<Vec<u8>> {
    let whole = [
        add_node(1),
        add_channel(0, 0),
        Command::Start,
        receive(0),
        send(0, fields_named(b"A1")),
        enter(0),
        move_at(0),
        withdraw(0),
        send(0, Fields::of(&record_named(b"A1"))),
    ];
    let mut tapes = Vec::new();
    for command in whole {
        let mut bytes = vec![0; command.width()];
        tape::write(&command, &mut bytes, 0).expect("there is room");
        tapes.extend((1..=bytes.len()).map(|length| after_a_start(&bytes[..length])));
    }
    tapes
}

/// A small started ring, then these bytes.
fn after_a_start(bytes: &[u8]) -> Vec<u8> {
    let mut writer = Writer::new();
    writer.add_all(&[add_node(2), add_channel(0, 0), Command::Start, receive(0)]);
    writer.bytes.extend_from_slice(bytes);
    writer.bytes
}

// ---- Tapes for a benchmark.

/// A legal run close to 60,000 bytes on so many nodes and channels, with most
/// calls accepted and many deliveries. `channels` is at most
/// `most_channels(nodes)`.
pub fn long_run(seed: u64, nodes: usize, channels: usize) -> Vec<u8> {
    let random = &mut Random::new(seed);
    started_run(random, nodes, channels, nodes, LEGAL, TAPE_LIMIT)
}
