//! Request N4 of document 02, "Blanks at the ends of a name": its worked rows,
//! the rings that hold such a name from before, and what `coverage` sees of names.

use common::random::Random;
use common::sights::Sights;
use second_model::coverage::{self, NAME_SIGHTS};
use second_model::generate::{self, fields_named, fields_to_send, good_record, record_named};
use second_model::history::History;
use second_model::listing;
use second_model::ring::*;
use second_model::tape::{self, Command};

const CHANNEL_0: ChannelNumber = ChannelNumber(0);

/// Two nodes and a channel from 1 to 0, started.
fn started() -> Ring {
    let mut ring = Ring::fresh();
    ring.add_node(1).unwrap();
    ring.add_node(2).unwrap();
    ring.add_channel(NodeNumber(1), NodeNumber(0)).unwrap();
    ring.start().unwrap();
    ring
}

/// A send on channel 0: its refusal or 0. A refusal changes nothing, and the
/// record offered is the one sent, to the byte.
fn send(ring: &mut Ring, fields: &Fields) -> u8 {
    let before = ring.clone();
    match ring.send(CHANNEL_0, fields) {
        Ok(()) => {
            assert_eq!(Ok(ring.channels[0].offer), fields.record());
            0
        }
        Err(refusal) => {
            assert_eq!(*ring, before);
            refusal as u8
        }
    }
}

fn ending_in(byte: u8) -> Fields {
    let mut name = [b'A'; 32];
    name[31] = byte;
    fields_named(&name)
}

#[test]
fn the_worked_rows() {
    for (fields, answer) in [
        (fields_named(b""), 0),
        (fields_named(b" "), 30),
        (fields_named(b"A "), 30),
        (fields_named(b" A"), 30),
        (fields_named(b"A B"), 0),
        (ending_in(b' '), 30),
        (ending_in(b'A'), 0),
        (Fields { length: 33, ..ending_in(b'A') }, 13),
        (fields_named(b" \x7F"), 14),
        (Fields { length: 1, ..fields_named(b"A ") }, 14),
    ] {
        assert_eq!(send(&mut started(), &fields), answer, "{fields:?}");
    }
    let mut ring = started();
    assert_eq!(send(&mut ring, &fields_named(b"A1")), 0);
    assert_eq!(send(&mut ring, &fields_named(b"A ")), 30);
    assert_eq!(send(&mut ring, &fields_named(b"AB")), 15);
}

/// 25, 8, 9, 11, 12, 13, 14, 30, 15: all of them apply at first, and each that is
/// taken away leaves the next to be answered.
#[test]
fn thirty_in_its_place() {
    let mut fields = ending_in(0x7F);
    fields.name[0] = b' ';
    let mut fields = Fields { number: BatchNumber(0), temperature: 1201, length: 33, ..fields };
    let mut unsound = Ring::fresh();
    unsound.started = 2;
    assert_eq!(send(&mut unsound, &fields), 25);
    assert_eq!(send(&mut Ring::fresh(), &fields), 8);
    let mut ring = started();
    assert_eq!(send(&mut ring, &fields_named(b"A1")), 0);
    assert_eq!(ring.send(ChannelNumber(1), &fields), Err(Refusal::NoSuchChannel));
    assert_eq!(send(&mut ring, &fields), 11);
    fields.number = BatchNumber(7);
    assert_eq!(send(&mut ring, &fields), 12);
    fields.temperature = 1200;
    assert_eq!(send(&mut ring, &fields), 13);
    fields.length = 32;
    assert_eq!(send(&mut ring, &fields), 14);
    fields.name[31] = b'A';
    assert_eq!(send(&mut ring, &fields), 30);
    fields.name[0] = b'A';
    assert_eq!(send(&mut ring, &fields), 15);
}

/// Every length with every printable byte first, last and between: only a blank
/// at an end is 30, and every such record is good.
#[test]
fn ends_by_the_letter() {
    for length in 1..=32 {
        for place in 0..length {
            for byte in 0x20..=0x7E {
                let mut fields = fields_named(&[b'x'; 32][..length]);
                fields.name[place] = byte;
                let blank_end = byte == b' ' && (place == 0 || place == length - 1);
                assert_eq!(send(&mut started(), &fields), if blank_end { 30 } else { 0 });
                assert!(fields.record().is_ok());
            }
        }
    }
}

// ---- "Records already offered or carried keep their names". No call makes such
// a ring now, so the name is put in by hand.

const BLANK_ENDED: [&[u8]; 4] = [b"A ", b" A", b" ", b" A "];

/// Runs a ring until its record is delivered; it stays sound all the way.
fn delivered(mut ring: Ring) -> Record {
    assert!(ring.sound());
    for at in [0, 1].repeat(3) {
        let _ = ring.enter_at(NodeNumber(at));
        let delivery = ring.move_at(NodeNumber(at));
        assert!(ring.sound());
        if let Ok(Some(delivery)) = delivery {
            return delivery.record;
        }
    }
    panic!("nothing was delivered");
}

#[test]
fn an_offer_is_delivered_unchanged() {
    for name in BLANK_ENDED {
        let record = record_named(name);
        let mut ring = started();
        ring.send(CHANNEL_0, &fields_named(b"A1")).unwrap();
        ring.channels[0].offer = record;
        assert!(ring.sound());
        // The offer still stands in the way of the next one, and not before 30.
        assert_eq!(send(&mut ring, &fields_named(name)), 30);
        assert_eq!(send(&mut ring, &fields_named(b"AB")), 15);
        ring.receive(CHANNEL_0).unwrap();
        assert_eq!(delivered(ring), record);
    }
}

#[test]
fn a_record_carried_is_delivered_unchanged() {
    for name in BLANK_ENDED {
        let record = record_named(name);
        let mut ring = started();
        ring.receive(CHANNEL_0).unwrap();
        ring.enter_at(NodeNumber(0)).unwrap();
        ring.move_at(NodeNumber(0)).unwrap();
        ring.send(CHANNEL_0, &fields_named(b"A1")).unwrap();
        ring.channels[0].carried = record;
        assert_eq!(send(&mut ring, &fields_named(name)), 30);
        assert_eq!(delivered(ring), record);
    }
}

/// The dispatcher too delivers it as it is, and a withdrawal leaves it offered.
#[test]
fn other_calls_take_it() {
    let record = record_named(b"A ");
    let mut ring = started();
    ring.channels[0].offer = record;
    ring.receive(CHANNEL_0).unwrap();
    ring.withdraw(CHANNEL_0).unwrap();
    assert_eq!(ring.channels[0].offer, record);
    ring.receive(CHANNEL_0).unwrap();
    let answer = ring.dispatch(ring.enough_rounds()).unwrap();
    assert_eq!(answer.deliveries, [Delivery { channel: CHANNEL_0, record }]);
}

/// "and the history still takes them"
#[test]
fn the_history_takes_it() {
    let mut history = History::empty();
    for name in BLANK_ENDED {
        assert_eq!(history.note(&record_named(name)), Ok(()));
    }
    let row = history.table()[0];
    assert_eq!((row.batch, row.count), (BatchNumber(7), BLANK_ENDED.len() as u32));
    assert_eq!(row.readings[..5], [6120, 6120, 6120, 6120, 0]);
}

// ---- The generator and what is seen of it.

/// What is sent is the good record of the same numbers, but for blank ends.
#[test]
fn records_to_send() {
    let (mut one, mut other) = (Random::new(1), Random::new(1));
    let mut changed = 0;
    for _ in 0..2_000 {
        let good = Fields::of(&good_record(&mut one));
        let sent = fields_to_send(&mut other, Unit::Hundredths);
        assert_eq!(send(&mut started(), &sent), 0);
        let refusal = send(&mut started(), &good);
        assert_eq!(refusal, if good == sent { 0 } else { 30 });
        changed += (good != sent) as u32;
    }
    assert!(changed > 100, "{changed}");
    assert_eq!(one.draw(), other.draw());
}

#[test]
fn the_named_tape() {
    let tape = generate::blank_ends_tape();
    let mut out = Vec::new();
    listing::run(&tape, &mut out);
    let text = String::from_utf8(out).expect("listings are ASCII");
    let sends: Vec<&str> = text.lines().filter_map(|line| line.split_once(" 21 ")).map(|(_, answer)| answer).collect();
    let answers = ["0", "30", "30", "30", "0", "30", "0", "30", "30", "30", "30", "14", "14", "13", "14", "14", "30", "15"];
    assert_eq!(sends, answers);
    let arrived: Vec<&str> = text.lines().filter_map(|line| line.split_once(" delivered ")).map(|(_, record)| record).collect();
    let long = "A".repeat(32);
    assert_eq!(arrived, ["0 7 3 6120 0", "4 7 3 6120 3 A B", &format!("6 7 3 6120 32 {long}")]);
    let seen = coverage::names(&tape);
    assert_eq!(seen.missing(), [""; 0]);
}

/// A started ring's tape with these sends on channel 0.
fn tape_of(sends: &[Fields]) -> Vec<u8> {
    let (sender, receiver) = (NodeNumber(0), NodeNumber(0));
    let plan = [Command::AddNode { slots: 2 }, Command::AddChannel { sender, receiver }, Command::Start];
    let sends = sends.iter().map(|fields| Command::Send(CHANNEL_0, *fields));
    let mut bytes = Vec::new();
    for command in plan.into_iter().chain(sends) {
        let place = bytes.len();
        bytes.resize(place + command.width(), 0);
        tape::write(&command, &mut bytes, place).unwrap();
    }
    bytes
}

/// What a send shows, as far as it is among the sights.
fn seen(sends: &[Fields]) -> Vec<&'static str> {
    let seen = coverage::names(&tape_of(sends));
    NAME_SIGHTS.into_iter().flat_map(|name| (0..seen.seen(name)).map(move |_| name)).collect()
}

#[test]
fn coverage_of_names_is_exact() {
    let [first, last] = ["30 for a blank first, not last", "30 for a blank last, not first"];
    let both = "30 for a blank first and last, in a longer name";
    let long = "30 for a name of 32 characters";
    let fault = "14 for a name with a blank end, where 30 applies too";
    assert_eq!(seen(&[fields_named(b" A")]), [first]);
    assert_eq!(seen(&[fields_named(b"A ")]), [last]);
    assert_eq!(seen(&[fields_named(b" A ")]), [both]);
    assert_eq!(seen(&[fields_named(b"  ")]), [both]);
    assert_eq!(seen(&[fields_named(b" ")]), ["30 for a name of one blank"]);
    assert_eq!(seen(&[ending_in(b' ')]), [last, long]);
    assert_eq!(seen(&[fields_named(b" \x7F")]), [fault]);
    assert_eq!(seen(&[fields_named(b"A\x7F")]), [""; 0]);
    assert_eq!(seen(&[Fields { length: 1, ..fields_named(b"A ") }]), [""; 0]);
    assert_eq!(seen(&[Fields { length: 33, ..ending_in(b' ') }]), [""; 0]);
    assert_eq!(seen(&[Fields { temperature: 1201, ..fields_named(b" ") }]), [""; 0]);
    assert_eq!(seen(&[fields_named(b"")]), ["0 for an empty name"]);
    assert_eq!(seen(&[ending_in(b'A')]), ["0 for a name of 32 characters"]);
    assert_eq!(seen(&[fields_named(b"A B")]), ["0 for a name with a blank inside only"]);
    assert_eq!(seen(&[fields_named(b"A")]), [""; 0]);
    let before_15 = "30 with a record offered, where 15 applies too";
    assert_eq!(seen(&[fields_named(b"A"), fields_named(b"A ")]), [last, before_15]);
    assert_eq!(seen(&[fields_named(b"A"), fields_named(b"AB")]), [""; 0]);
    assert_eq!(coverage::names(&[0x12; listing::TAPE_LIMIT + 1]), Sights::of(NAME_SIGHTS));
}
