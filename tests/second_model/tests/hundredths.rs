//! Request N5 of document 02, "Hundredths of a degree": its worked rows, 12 in its
//! place for both commands, the units on a tape, the rings and tables that are
//! turned, and what `coverage` sees of temperatures.

use second_model::coverage::{self, Temperatures, TEMPERATURE_SIGHTS};
use second_model::generate::{self, fields_named, record_named, EDGE_HUNDREDTHS, EDGE_TENTHS};
use second_model::history::{History, Row, ROWS};
use second_model::listing;
use second_model::ring::*;
use second_model::tape::{self, Command, Read};

const CHANNEL_0: ChannelNumber = ChannelNumber(0);

/// Two nodes and a channel from 1 to 0, not started.
fn planned() -> Ring {
    let mut ring = Ring::fresh();
    ring.add_node(1).unwrap();
    ring.add_node(2).unwrap();
    ring.add_channel(NodeNumber(1), NodeNumber(0)).unwrap();
    ring
}

fn started() -> Ring {
    let mut ring = planned();
    ring.start().unwrap();
    ring
}

fn fields(unit: Unit, temperature: i16) -> Fields {
    Fields { unit, temperature, ..fields_named(b"A1") }
}

fn tenths(value: i16) -> Fields {
    fields(Unit::Tenths, value)
}

fn hundredths(value: i16) -> Fields {
    fields(Unit::Hundredths, value)
}

/// A send on channel 0: its refusal or 0. A refusal changes nothing.
fn send(ring: &mut Ring, fields: &Fields) -> u8 {
    let before = ring.clone();
    let answer = ring.send(CHANNEL_0, fields).map_or_else(|refusal| refusal as u8, |()| 0);
    assert!(answer == 0 || *ring == before);
    answer
}

/// The temperature that a send offers, or its refusal.
fn made(fields: &Fields) -> Result<i16, u8> {
    let mut ring = started();
    match send(&mut ring, fields) {
        0 => Ok(ring.channels[0].offer.temperature),
        refusal => Err(refusal),
    }
}

#[test]
fn the_worked_rows() {
    for (fields, answer) in [
        (tenths(1200), Ok(12000)),
        (tenths(1201), Err(12)),
        (tenths(-400), Ok(-4000)),
        (tenths(-401), Err(12)),
        (tenths(612), Ok(6120)),
        (tenths(3276), Err(12)),
        (tenths(3277), Err(12)),
        (tenths(32767), Err(12)),
        (tenths(-32768), Err(12)),
        (hundredths(12000), Ok(12000)),
        (hundredths(12001), Err(12)),
        (hundredths(-4000), Ok(-4000)),
        (hundredths(-4001), Err(12)),
        (hundredths(612), Ok(612)),
        (hundredths(1201), Ok(1201)),
        (hundredths(-401), Ok(-401)),
    ] {
        assert_eq!(made(&fields), answer, "{fields:?}");
    }
}

/// Every temperature in both units.
#[test]
fn made_by_the_letter() {
    for value in i16::MIN..=i16::MAX {
        let (given, by_tens) = (i32::from(value), 10 * i32::from(value));
        let in_range = |value: i32| (-4000..=12000).contains(&value).then_some(value);
        let made = |unit: Unit| unit.hundredths(value).ok().map(i32::from);
        assert_eq!(made(Unit::Tenths), in_range(by_tens));
        assert_eq!(made(Unit::Hundredths), in_range(given));
    }
}

/// 25, 8, 9, 11, 12, 13: all of them apply at first, and each that is taken away
/// leaves the next to be answered. Both commands alike.
#[test]
fn twelve_in_its_place() {
    for (unit, hottest) in [(Unit::Tenths, 1200), (Unit::Hundredths, 12000)] {
        let hot = fields(unit, hottest + 1);
        let mut sent = Fields { number: BatchNumber(0), length: 33, ..hot };
        let mut unsound = planned();
        unsound.started = 2;
        assert_eq!(send(&mut unsound, &sent), 25);
        assert_eq!(send(&mut planned(), &sent), 8);
        assert_eq!(send(&mut planned(), &hot), 8);
        let mut ring = started();
        assert_eq!(ring.send(ChannelNumber(1), &sent), Err(Refusal::NoSuchChannel));
        assert_eq!(send(&mut ring, &sent), 11);
        sent.number = BatchNumber(7);
        assert_eq!(send(&mut ring, &sent), 12);
        sent.temperature = hottest;
        assert_eq!(send(&mut ring, &sent), 13);
        sent.length = 2;
        assert_eq!(send(&mut ring, &sent), 0);
        // A record is offered now: 15 comes after 12.
        assert_eq!(send(&mut ring, &hot), 12);
        assert_eq!(send(&mut ring, &sent), 15);
    }
}

// ---- The tape.

/// The command in bytes.
fn written(command: &Command) -> Vec<u8> {
    let mut bytes = vec![0; command.width()];
    assert_eq!(tape::write(command, &mut bytes, 0), Ok(bytes.len()));
    bytes
}

/// "A command that was read keeps its own unit and is written back as the command it
/// was read as", whatever its temperature.
#[test]
fn a_command_keeps_its_unit() {
    for (unit, byte) in [(Unit::Tenths, 0x21), (Unit::Hundredths, 0x25)] {
        for value in EDGE_TENTHS.into_iter().chain(EDGE_HUNDREDTHS) {
            let command = Command::Send(CHANNEL_0, fields(unit, value));
            let bytes = written(&command);
            assert_eq!((bytes[0], bytes.len()), (byte, 42));
            assert_eq!(bytes[7..9], value.to_le_bytes());
            assert_eq!(tape::read(&bytes, 0), Ok(Read::Command(command, 42)));
        }
    }
}

/// The plan of `started` with two channels, then these commands, as a tape.
fn tape_of(commands: &[Command]) -> Vec<u8> {
    let [sender, receiver] = [NodeNumber(1), NodeNumber(0)];
    let plan = [
        Command::AddNode { slots: 1 },
        Command::AddNode { slots: 2 },
        Command::AddChannel { sender, receiver },
        Command::AddChannel { sender, receiver },
        Command::Start,
    ];
    plan.iter().chain(commands).flat_map(written).collect()
}

/// Both records go from node 1 to node 0.
fn carried_home(first: Fields, second: Fields) -> Vec<Command> {
    let other = ChannelNumber(1);
    let mut commands = vec![Command::Send(CHANNEL_0, first), Command::Send(other, second)];
    for channel in [CHANNEL_0, other] {
        commands.push(Command::Receive(channel));
        for node in [0, 1].map(NodeNumber) {
            commands.extend([Command::Enter(node), Command::Move(node)]);
        }
    }
    commands
}

#[test]
fn both_commands_in_one_listing() {
    let mut out = Vec::new();
    listing::run(&tape_of(&carried_home(tenths(612), hundredths(6125))), &mut out);
    let text = String::from_utf8(out).expect("listings are ASCII");
    let lines: Vec<&str> = text.lines().collect();
    assert_eq!(lines[5..8], ["6 21 0", "7 25 0", "8 20 0"]);
    assert_eq!(lines[11], "12 23 0 delivered 0 7 3 6120 2 A1");
    assert_eq!(lines[16], "17 23 0 delivered 1 7 3 6125 2 A1");
    assert_eq!(lines[17], "end 17 0");
}

#[test]
fn the_named_tape() {
    let mut out = Vec::new();
    let tape = generate::hundredths_tape();
    listing::run(&tape, &mut out);
    let text = String::from_utf8(out).expect("listings are ASCII");
    let delivered = text.lines().filter_map(|line| line.split_once(" delivered "));
    let arrived: Vec<i16> = delivered.map(|(_, record)| record.split(' ').nth(3).unwrap().parse().unwrap()).collect();
    let good = |range: std::ops::RangeInclusive<i16>| move |value: &i16| range.contains(value);
    let by_21 = EDGE_TENTHS.into_iter().filter(good(-400..=1200)).map(|value| 10 * value);
    let by_25 = EDGE_HUNDREDTHS.into_iter().filter(good(-4000..=12000));
    assert_eq!(arrived, Vec::from_iter(by_21.chain(by_25)));
    let seen = coverage::temperatures(&tape);
    assert_eq!(seen.sights.missing(), [""; 0]);
    assert_eq!(seen.both_delivered, 1);
}

// ---- Rings held in tenths. No call makes one now, so the temperatures are put in by
// hand.

/// Channel 0 answering, with a further record offered: in tenths.
fn ring_in_tenths(offered: i16, carried: i16) -> Ring {
    let mut ring = started();
    ring.receive(CHANNEL_0).unwrap();
    ring.enter_at(NodeNumber(0)).unwrap();
    ring.move_at(NodeNumber(0)).unwrap();
    ring.send(CHANNEL_0, &tenths(0)).unwrap();
    ring.send(CHANNEL_0, &tenths(0)).unwrap();
    assert_eq!(ring.channels[0].phase, ANSWERING);
    ring.channels[0].offer.temperature = offered;
    ring.channels[0].carried.temperature = carried;
    ring
}

/// "each temperature ... ten times as many, all else the same"
#[test]
fn turned() {
    for (offered, carried) in [(612, 613), (1200, -400), (-400, 1200), (0, 1), (-1, 0)] {
        let before = ring_in_tenths(offered, carried);
        let mut ring = before.clone();
        assert_eq!(ring.to_hundredths(), Ok(()));
        let mut by_hand = before;
        by_hand.channels[0].offer.temperature = 10 * offered;
        by_hand.channels[0].carried.temperature = 10 * carried;
        assert_eq!(ring, by_hand);
        assert!(ring.sound());
    }
}

#[test]
fn turned_with_nothing_held() {
    for ring in [Ring::fresh(), planned(), started()] {
        let mut after = ring.clone();
        assert_eq!(after.to_hundredths(), Ok(()));
        assert_eq!(after, ring);
    }
}

fn assert_not_turned(ring: &Ring) {
    let mut after = ring.clone();
    assert_eq!(after.to_hundredths(), Err(Refusal::Unsound), "{ring:?}");
    assert_eq!(after, *ring);
}

/// "25 where it isn't sound in tenths"
#[test]
fn not_sound_in_tenths() {
    let out = EDGE_TENTHS.into_iter().chain(EDGE_HUNDREDTHS);
    for value in out.filter(|value| !(-400..=1200).contains(value)) {
        assert_not_turned(&ring_in_tenths(value, 612));
        assert_not_turned(&ring_in_tenths(612, value));
    }
    // Sound in hundredths, and in them alone.
    assert!(ring_in_tenths(1201, 612).sound());
    let mut damaged = ring_in_tenths(612, 612);
    damaged.nodes[1].line_length = 2;
    assert_not_turned(&damaged);
    let mut offered = planned();
    offered.channels[0].offer = record_named(b"A1");
    offered.channels[0].offer.temperature = 612;
    assert_not_turned(&offered);
}

/// A temperature where no record is held, even one that ten times over is 0 in 16
/// bits.
#[test]
fn a_temperature_of_no_record() {
    for value in [1, 612, 1201, i16::MIN] {
        for at in [0, 1, 63] {
            let mut ring = started();
            ring.channels[at].offer.temperature = value;
            assert_not_turned(&ring);
            let mut ring = started();
            ring.channels[at].carried.temperature = value;
            assert_not_turned(&ring);
        }
    }
}

/// Not noticed where the turned ring is sound in tenths too.
#[test]
fn turned_twice() {
    let mut ring = ring_in_tenths(120, -40);
    assert_eq!(ring.to_hundredths(), Ok(()));
    assert_eq!(ring.to_hundredths(), Ok(()));
    assert_eq!(ring.channels[0].offer.temperature, 12000);
    assert_eq!(ring.channels[0].carried.temperature, -4000);
    assert_not_turned(&ring);
}

/// A turned ring delivers what it held, in hundredths.
#[test]
fn turned_then_run() {
    let mut ring = ring_in_tenths(613, 612);
    ring.to_hundredths().unwrap();
    for temperature in [6120, 6130] {
        let answer = ring.dispatch(ring.enough_rounds()).unwrap();
        let record = Record { temperature, ..record_named(b"A1") };
        assert_eq!(answer.deliveries, [Delivery { channel: CHANNEL_0, record }]);
        ring.receive(CHANNEL_0).unwrap();
    }
}

// ---- Tables held in tenths.

fn row(batch: u32, readings: &[i16]) -> Row {
    let mut row = Row { batch: BatchNumber(batch), count: readings.len() as u32, ..Row::EMPTY };
    row.readings[..readings.len()].copy_from_slice(readings);
    row
}

/// A table with these rows at 0, 64 and 127.
fn table(rows: [Row; 3]) -> [Row; ROWS] {
    let mut table = [Row::EMPTY; ROWS];
    [0, 64, 127].into_iter().zip(rows).for_each(|(at, row)| table[at] = row);
    table
}

/// (lowest, highest, sum)
fn figures(history: &History, batch: u32) -> (i32, i32, i32) {
    let figures = history.figures(BatchNumber(batch)).expect("the batch has a row");
    (figures.lowest.into(), figures.highest.into(), figures.sum)
}

#[test]
fn a_table_turned() {
    let full = [-400; 24];
    let before = table([row(7, &[-400, 5]), row(8, &full), row(9, &[1200, 0, -1])]);
    let turned = History::of_tenths(&before).unwrap();
    let by_hand = [row(7, &[-4000, 50]), row(8, &[-4000; 24]), row(9, &[12000, 0, -10])];
    assert_eq!(turned.table(), table(by_hand));
    assert_eq!(figures(&turned, 7), (-4000, 50, -3950));
    assert_eq!(figures(&turned, 8), (-4000, -4000, -96_000));
    // "each ... figure ten times as many"
    let held = History::of(&before).unwrap();
    for batch in [7, 8, 9] {
        let (lowest, highest, sum) = figures(&held, batch);
        assert_eq!(figures(&turned, batch), (10 * lowest, 10 * highest, 10 * sum));
    }
    let empty = [Row::EMPTY; ROWS];
    assert_eq!(History::of_tenths(&empty).map(|history| history.table()), Ok(empty));
}

#[test]
fn a_table_not_sound_in_tenths() {
    let sound = table([row(7, &[-400, 5]), row(8, &[0; 24]), row(9, &[1200])]);
    let assert_not_turned = |table: &[Row]| {
        assert_eq!(History::of_tenths(table), Err(Refusal::Unsound), "{table:?}");
    };
    for at in [0, 64, 127] {
        for value in [1201, -401, 3277, 6554, i16::MAX, i16::MIN, 12000] {
            let mut table = sound;
            table[at].readings[table[at].count as usize - 1] = value;
            assert_not_turned(&table);
        }
        let mut table = sound;
        // Ten times as many are 0 in 16 bits.
        table[at].readings[table[at].count as usize % 24] = i16::MIN;
        assert_not_turned(&table);
        table[at] = Row { count: 1, ..Row::EMPTY };
        assert_not_turned(&table);
    }
    let mut twice = sound;
    twice[1] = row(9, &[0]);
    assert_not_turned(&twice);
    assert_not_turned(&sound[..127]);
    assert_not_turned(&[&sound[..], &[Row::EMPTY]].concat());
    assert!(History::of(&table([row(7, &[1201]), Row::EMPTY, Row::EMPTY])).is_ok());
}

// ---- What is seen.

/// What the sends of a tape show, as far as it is among the sights.
fn seen(commands: &[Command]) -> Vec<&'static str> {
    sights_of(&tape_of(commands))
}

fn sights_of(tape: &[u8]) -> Vec<&'static str> {
    let seen = coverage::temperatures(tape).sights;
    TEMPERATURE_SIGHTS.into_iter().flat_map(|name| (0..seen.seen(name)).map(move |_| name)).collect()
}

#[test]
fn coverage_of_temperatures_is_exact() {
    let one = |fields: Fields| seen(&[Command::Send(CHANNEL_0, fields)]);
    let good_elsewhere = "21: 12 for a temperature that is good in hundredths";
    let wraps = "21: 12 where ten times as many, cut to 16 bits, are in range";
    let no_tenths = "25: 0 for hundredths that are no whole tenths";
    assert_eq!(one(tenths(612)), [""; 0]);
    assert_eq!(one(tenths(1200)), ["21: 0 for 1200"]);
    assert_eq!(one(tenths(-400)), ["21: 0 for -400"]);
    assert_eq!(one(tenths(1201)), ["21: 12 for 1201", good_elsewhere]);
    assert_eq!(one(tenths(-401)), ["21: 12 for -401", good_elsewhere]);
    let just_fit = "21: 12 for 3276, ten times as many just fit 16 bits";
    assert_eq!(one(tenths(3276)), [just_fit, good_elsewhere]);
    let do_not = "21: 12 for 3277, ten times as many do not";
    assert_eq!(one(tenths(3277)), [do_not, good_elsewhere]);
    assert_eq!(one(tenths(-3277)), ["21: 12 for -3277, ten times as many do not", good_elsewhere]);
    assert_eq!(one(tenths(6554)), [wraps, good_elsewhere]);
    assert_eq!(one(tenths(i16::MIN)), [wraps]);
    assert_eq!(one(hundredths(6120)), [""; 0]);
    assert_eq!(one(hundredths(12000)), ["25: 0 for 12000"]);
    assert_eq!(one(hundredths(-4000)), ["25: 0 for -4000"]);
    assert_eq!(one(hundredths(12001)), ["25: 12 for 12001"]);
    assert_eq!(one(hundredths(-4001)), ["25: 12 for -4001"]);
    assert_eq!(one(hundredths(1201)), ["25: 0 for 1201, out of range in tenths", no_tenths]);
    assert_eq!(one(hundredths(-401)), ["25: 0 for -401, out of range in tenths", no_tenths]);
    assert_eq!(one(hundredths(i16::MIN)), [""; 0]);
}

#[test]
fn coverage_of_the_order_is_exact() {
    let one = |fields: Fields| seen(&[Command::Send(CHANNEL_0, fields)]);
    let no_batch = |fields| Fields { number: BatchNumber(0), ..fields };
    let long = |fields| Fields { length: 33, ..fields };
    assert_eq!(one(no_batch(tenths(16000))), ["21: 11 where 12 applies too"]);
    assert_eq!(one(long(tenths(16000))), ["21: 12 where 13 applies too"]);
    assert_eq!(one(no_batch(hundredths(16000))), ["25: 11 where 12 applies too"]);
    assert_eq!(one(long(hundredths(16000))), ["25: 12 where 13 applies too"]);
    for fields in [tenths(612), hundredths(6120)] {
        assert_eq!(one(no_batch(fields)), [""; 0]);
        assert_eq!(one(long(fields)), [""; 0]);
    }
    let nowhere = |fields| Command::Send(ChannelNumber(9), fields);
    assert_eq!(seen(&[nowhere(tenths(16000))]), ["21: 9 where 12 applies too"]);
    assert_eq!(seen(&[nowhere(hundredths(16000))]), ["25: 9 where 12 applies too"]);
    assert_eq!(seen(&[nowhere(tenths(612)), nowhere(hundredths(6120))]), [""; 0]);
    assert_eq!(sights_of(&written(&nowhere(tenths(16000)))), ["21: 8 where 12 applies too"]);
}

/// Counted are tapes that deliver a record of each command.
#[test]
fn coverage_of_deliveries_is_exact() {
    for (first, second, both) in [
        (tenths(612), hundredths(6120), 1),
        (hundredths(6120), tenths(612), 1),
        (tenths(612), tenths(612), 0),
        (hundredths(6120), hundredths(6120), 0),
        (tenths(612), hundredths(12001), 0),
    ] {
        let commands = carried_home(first, second);
        let seen = coverage::temperatures(&tape_of(&commands));
        assert_eq!(seen.both_delivered, both, "{first:?}, {second:?}");
        let accepted = |unit| [first, second].iter().filter(|one| one.unit == unit).count() as u32;
        let refused = (second.temperature == 12001) as u32;
        let [by_21, by_25] = Unit::ALL.map(accepted);
        assert_eq!(seen.accepted, [by_21, by_25 - refused]);
        // Offered, and not delivered.
        let cut = coverage::temperatures(&tape_of(&commands[..commands.len() - 1]));
        assert_eq!(cut.both_delivered, 0);
    }
    assert_eq!(coverage::temperatures(&[0x12; listing::TAPE_LIMIT + 1]), Temperatures::default());
}
