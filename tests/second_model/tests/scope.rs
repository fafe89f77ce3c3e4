//! The worked cases of document 01: its listing, its turn case, P1 to P10, and
//! what it says of runs, checked on generated tapes.

use second_model::generate::{self, fields_named, record_named, Tapes};
use second_model::listing::{self, apply};
use second_model::ring::*;
use second_model::tape::{self, Command, Read};

fn listing_of(tape: &[u8]) -> String {
    let mut out = Vec::new();
    listing::run(tape, &mut out);
    String::from_utf8(out).expect("listings are ASCII")
}

/// A ring with these slots and channels (sender, receiver), started.
fn started(slots: &[u8], channels: &[(u8, u8)]) -> Ring {
    let mut ring = Ring::fresh();
    slots.iter().for_each(|&slots| ring.add_node(slots).unwrap());
    for &(sender, receiver) in channels {
        ring.add_channel(NodeNumber(sender), NodeNumber(receiver)).unwrap();
    }
    ring.start().unwrap();
    ring
}

fn node(number: u8) -> NodeNumber {
    NodeNumber(number)
}

fn channel(number: u8) -> ChannelNumber {
    ChannelNumber(number)
}

#[test]
fn the_listing() {
    let hexadecimal = "10 01 10 02 11 01 00 12 20 00 20 00 22 00 23 00 \
                       21 00 07 00 00 00 03 64 02 02 41 31";
    let mut tape: Vec<u8> = hexadecimal.split(' ').map(|byte| u8::from_str_radix(byte, 16).unwrap()).collect();
    tape.extend([0; 30]);
    tape.extend([0x22, 0x01, 0x23, 0x01, 0x23, 0x01]);
    assert_eq!(tape, generate::listing_tape());
    let expected = "1 10 0\n2 10 0\n3 11 0\n4 12 0\n5 20 0\n6 20 10\n7 22 0\n8 23 0\n9 21 0\n\
                    10 22 0\n11 23 0 delivered 0 7 3 6120 2 A1\n12 23 19\nend 10 2\n";
    assert_eq!(listing_of(&tape), expected);
}

#[test]
fn listings_at_the_edges() {
    assert_eq!(listing_of(&[]), "end 0 0\n");
    assert_eq!(listing_of(&[0x12, 0xAB, 0x12]), "1 12 6\n2 ab 22\nend 0 2\n");
    assert_eq!(listing_of(&[0x10, 0x01, 0x11, 0x00]), "1 10 0\n2 11 23\nend 1 1\n");
    assert!(listing_of(&[0x12; 60_000]).ends_with("60000 12 6\nend 0 60000\n"));
    assert_eq!(listing_of(&[0x12; 60_001]), "too long\n");
    assert_eq!(listing_of(&[0xFF; 60_001]), "too long\n");
}

#[test]
fn a_delivery_with_an_empty_name_and_a_negative_temperature() {
    let mut ring = started(&[2], &[(0, 0)]);
    let fields = Fields { temperature: -400, ..fields_named(b"") };
    ring.send(channel(0), &fields).unwrap();
    ring.receive(channel(0)).unwrap();
    for _ in 0..2 {
        ring.enter_at(node(0)).unwrap();
        ring.move_at(node(0)).unwrap();
    }
    assert_eq!(ring.deliveries, 1);

    let commands = [
        Command::AddNode { slots: 2 },
        Command::AddChannel { sender: node(0), receiver: node(0) },
        Command::Start,
        Command::Send(channel(0), fields),
        Command::Receive(channel(0)),
        Command::Enter(node(0)),
        Command::Move(node(0)),
        Command::Enter(node(0)),
        Command::Move(node(0)),
    ];
    let mut tape = Vec::new();
    for command in commands {
        let place = tape.len();
        tape.resize(place + command.width(), 0);
        tape::write(&command, &mut tape, place).unwrap();
    }
    assert!(listing_of(&tape).contains("\n9 23 0 delivered 0 7 3 -4000 0\nend 9 0\n"));
}

/// "Turn: slots 1, 2, 1; channels 0, 1, 2 all sent from node 2, received at 0,
/// 1, 0."
#[test]
fn the_turn_case() {
    let mut ring = started(&[1, 2, 1], &[(2, 0), (2, 1), (2, 0)]);
    for number in 0..3 {
        assert_eq!(ring.receive(channel(number)), Ok(()));
    }
    assert_eq!(ring.enter_at(node(0)), Ok(()));
    assert_eq!(ring.nodes[1].turn_mark, 0);
    // "move 0 goes into node 1 and sets its mark"
    assert_eq!(ring.move_at(node(0)), Ok(None));
    assert_eq!(ring.nodes[1].turn_mark, 1);
    assert_eq!(ring.enter_at(node(0)), Ok(()));
    // "move 0 is 21"
    assert_eq!(ring.move_at(node(0)), Err(Refusal::TurnMarkSet));
    // "enter 1 is accepted"
    assert_eq!(ring.enter_at(node(1)), Ok(()));
    assert_eq!(ring.nodes[1].turn_mark, 0);
    // "move 0 is 20"
    assert_eq!(ring.move_at(node(0)), Err(Refusal::NoFreeSlotThere));
    // "move 1, then move 0, are accepted"
    assert_eq!(ring.move_at(node(1)), Ok(None));
    assert_eq!(ring.channels[0].phase, READY);
    assert_eq!(ring.move_at(node(0)), Ok(None));
    let answers: Vec<String> =
        listing_of(&generate::turn_tape()).lines().skip(7).map(|line| line.rsplit(' ').next().unwrap().to_string()).collect();
    assert_eq!(answers, ["0", "0", "0", "0", "0", "0", "21", "0", "20", "0", "0", "2"]);
}

#[test]
fn p1_and_p2_slots_and_channels_at_start() {
    for (second, answer) in [(1, Err(Refusal::TooFewSlots)), (2, Ok(()))] {
        let mut ring = Ring::fresh();
        ring.add_node(1).unwrap();
        ring.add_node(second).unwrap();
        ring.add_channel(node(0), node(0)).unwrap();
        ring.add_channel(node(1), node(1)).unwrap();
        assert_eq!(ring.start(), answer);
    }
}

#[test]
fn p3_to_p5_hops() {
    assert_eq!(hops(3, 2, 1), 2);
    assert_eq!(hops(3, 1, 1), 3);
    assert_eq!(hops(1, 0, 0), 1);
}

/// 02, N6: "Replace the 4,096 by their formula. The table's rule stays as the
/// meaning of hops": "the least h from 1 to n with p + h and q leaving the same
/// remainder by n", and "0 where p or q is n or more".
#[test]
fn the_formula_keeps_the_rule() {
    for n in (0..=40).chain([254, 255u8]) {
        for p in 0..=n.saturating_add(2) {
            for q in 0..=n.saturating_add(2) {
                let reaches = |h: &u8| (p as u16 + *h as u16) % n as u16 == q as u16 % n as u16;
                let least = if p < n && q < n { (1..=n).find(reaches) } else { Some(0) };
                assert_eq!(Some(hops(n, p, q)), least, "{n} {p} {q}");
            }
        }
    }
}

/// 02, N5: "P8 and P9 are about command 21 from then on."
#[test]
fn p6_to_p9_records() {
    let long = fields_named(&[b'x'; 32]);
    let temperature = |temperature| Fields { temperature, ..fields_named(b"A1") };
    let rows = [
        (long, Ok(())),
        (Fields { length: 33, ..long }, Err(Refusal::NameTooLong)),
        (temperature(1200), Ok(())),
        (temperature(-400), Ok(())),
        (temperature(1201), Err(Refusal::TemperatureOutOfRange)),
        (temperature(-401), Err(Refusal::TemperatureOutOfRange)),
        (fields_named(b""), Ok(())),
        (fields_named(b"~ ~"), Ok(())),
        (fields_named(b"\x1f"), Err(Refusal::NameWrong)),
        (fields_named(b"\x7f"), Err(Refusal::NameWrong)),
        (Fields { length: 1, ..fields_named(b"A1") }, Err(Refusal::NameWrong)),
        (Fields { length: 3, ..fields_named(b"A1") }, Err(Refusal::NameWrong)),
        (Fields { number: BatchNumber(0), ..long }, Err(Refusal::BatchNumberZero)),
    ];
    for (fields, answer) in rows {
        assert_eq!(fields.unit, Unit::Tenths);
        assert_eq!(started(&[2], &[(0, 0)]).send(channel(0), &fields), answer, "{fields:?}");
    }
}

/// Every length with every byte at every place, by the words of 01.
#[test]
fn names_by_the_letter() {
    for length in 0..=32 {
        for place in 0..32 {
            for byte in 0..=255 {
                let mut record = record_named(&[b'x'; 32][..length]);
                record.name[place] = byte;
                let good = if place < length { (0x20..=0x7E).contains(&byte) } else { byte == 0 };
                assert_eq!(record.check().is_ok(), good);
            }
        }
    }
}

#[test]
fn p10_slots() {
    for slots in 0..=255 {
        let good = (1..=64).contains(&slots);
        let answer = if good { Ok(()) } else { Err(Refusal::SlotsOutOfRange) };
        assert_eq!(Ring::fresh().add_node(slots), answer);
    }
}

#[test]
fn records_of_the_same_batch() {
    let one = record_named(b"one");
    assert!(one.same_batch(&Record { vessel: 9, ..record_named(b"other") }));
    assert!(!one.same_batch(&Record { number: BatchNumber(8), ..one }));
}

/// A message for the next node needs neither a slot nor the turn there.
#[test]
fn a_taken_message_waits_for_nothing() {
    // Node 1 is full, has a line and its mark set; channel 0 is sent from it.
    let mut ring = started(&[2, 2, 1], &[(2, 0), (1, 0), (2, 1), (2, 1)]);
    for number in [2, 3, 0, 1] {
        ring.receive(channel(number)).unwrap();
    }
    for at in [0, 0, 1] {
        ring.enter_at(node(at)).unwrap();
    }
    ring.move_at(node(0)).unwrap();
    let there = &ring.nodes[1];
    assert_eq!((there.buffer_length, there.turn_mark, there.line_length), (2, 1, 1));
    assert_eq!(ring.move_at(node(0)), Ok(None));
    assert_eq!(ring.channels[1].phase, READY);
}

#[test]
fn a_same_node_record_goes_round_twice() {
    for n in 1..=16u8 {
        let mut ring = started(&vec![2; n as usize], &[(n / 2, n / 2)]);
        ring.send(channel(0), &fields_named(b"A1")).unwrap();
        ring.receive(channel(0)).unwrap();
        let mut moves = 0;
        while ring.deliveries == 0 {
            for at in 0..n {
                let _ = ring.enter_at(node(at));
                moves += ring.move_at(node(at)).is_ok() as u32;
            }
        }
        assert_eq!(moves, 2 * n as u32);
    }
}

#[test]
fn the_count_of_deliveries_stops() {
    let mut ring = started(&[2], &[(0, 0)]);
    ring.deliveries = u32::MAX - 1;
    for _ in 0..3 {
        ring.send(channel(0), &fields_named(b"A1")).unwrap();
        ring.receive(channel(0)).unwrap();
        for _ in 0..2 {
            ring.enter_at(node(0)).unwrap();
            ring.move_at(node(0)).unwrap();
        }
        assert_eq!(ring.deliveries, u32::MAX);
    }
}

#[test]
fn questions() {
    let mut ring = Ring::fresh();
    assert_eq!(ring.hops_left(channel(0)), Err(Refusal::NotStarted));
    assert_eq!(ring.waiting_set(node(0)), Err(Refusal::NoSuchNode));
    ring.add_node(2).unwrap();
    ring.add_node(2).unwrap();
    ring.add_channel(node(1), node(0)).unwrap();
    ring.add_channel(node(0), node(0)).unwrap();
    // Waiting set has no refusal 8.
    assert_eq!(ring.waiting_set(node(0)), Ok(0));
    ring.start().unwrap();
    assert_eq!(ring.hops_left(channel(2)), Err(Refusal::NoSuchChannel));
    assert_eq!(ring.waiting_set(node(2)), Err(Refusal::NoSuchNode));
    assert_eq!(ring.hops_left(channel(0)), Ok(0));
    ring.receive(channel(0)).unwrap();
    ring.receive(channel(1)).unwrap();
    assert_eq!(ring.waiting_set(node(0)), Ok(0b11));
    assert_eq!(ring.waiting_set(node(0)).unwrap().count_ones(), 2);
    assert_eq!(ring.waiting_set(node(1)), Ok(0));
    // 0 to 1 and back; round and round again.
    assert_eq!(ring.hops_left(channel(0)), Ok(2));
    assert_eq!(ring.hops_left(channel(1)), Ok(4));
    ring.enter_at(node(0)).unwrap();
    assert_eq!(ring.hops_left(channel(0)), Ok(2));
    ring.move_at(node(0)).unwrap();
    assert_eq!(ring.hops_left(channel(0)), Ok(1));
    ring.send(channel(0), &fields_named(b"A1")).unwrap();
    assert_eq!(ring.hops_left(channel(0)), Ok(1));
    ring.enter_at(node(1)).unwrap();
    assert_eq!(ring.hops_left(channel(0)), Ok(1));
    assert!(ring.move_at(node(1)).unwrap().is_some());
    assert_eq!(ring.waiting_set(node(0)), Ok(0b10));
}

/// On generated tapes: the ring stays sound, k delivered records are the first k
/// offered, an accepted move uses up one hop, a withdrawal gives up all hops of
/// its channel and nothing else uses one up, a refusal changes nothing.
#[test]
fn runs() {
    let tapes = Tapes::new(5);
    for index in tapes.aimed()..tapes.aimed() + 40 {
        let tape = tapes.tape(index);
        if tape.len() <= 6_000 {
            follow(&tape);
        }
    }
}

fn follow(tape: &[u8]) {
    let mut ring = Ring::fresh();
    let mut offered: Vec<Vec<Record>> = vec![Vec::new(); CHANNELS];
    let mut delivered = vec![0; CHANNELS];
    let mut place = 0;
    while let Ok(Read::Command(command, next)) = tape::read(tape, place) {
        let before = ring.clone();
        let answer = apply(&mut ring, &command);
        assert!(ring.sound());
        match (&answer, &command) {
            (Err(_), _) => assert_eq!(ring, before),
            (Ok(_), Command::Send(channel, fields)) => offered[channel.0 as usize].push(fields.record().unwrap()),
            (Ok(Some(delivery)), _) => {
                let at = delivery.channel.0 as usize;
                assert_eq!(delivery.record, offered[at][delivered[at]]);
                delivered[at] += 1;
            }
            _ => {}
        }
        check_hops(&before, &ring, &command, answer.is_ok());
        place = next;
    }
}

fn check_hops(before: &Ring, after: &Ring, command: &Command, accepted: bool) {
    if before.started == 0 {
        return;
    }
    let left = |ring: &Ring| -> u32 { (0..ring.channel_count).map(|at| ring.hops_left(channel(at)).unwrap() as u32).sum() };
    match command {
        Command::Move(_) if accepted => assert_eq!(left(after) + 1, left(before)),
        Command::Receive(at) if accepted => {
            assert_eq!(left(after), left(before) + after.hops_left(*at).unwrap() as u32)
        }
        Command::Withdraw(at) if accepted => {
            assert_eq!(left(after) + before.hops_left(*at).unwrap() as u32, left(before));
            assert_eq!(after.hops_left(*at), Ok(0));
        }
        _ => assert_eq!(left(after), left(before)),
    }
}
