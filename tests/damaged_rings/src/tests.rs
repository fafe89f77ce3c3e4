//! The conversion there and back, the rings, the changes, and that a wrong
//! verdict and a ring turned wrong are found out.

use crate::compare::{compare, Cases, Sums};
use crate::damage::{ALWAYS_SOUND, KINDS, NO_TENTHS};
use crate::expected;
use crate::form::{change_temperatures, lay_out, read_back, read_record};
use crate::rings::Rings;
use common::layout::*;
use common::random::Random;
use second_model::generate::fields_named;
use second_model::ring::{ChannelNumber, NodeNumber, Record, Ring, Unit, ANSWERING, ASKING, CHANNELS, NODES, READY, RESTING};
use std::sync::OnceLock;
use vessel_ring::RECORD_BYTES as RECORD;

const SEED: u64 = 1978;
const RINGS: u64 = 60_000;

fn laid_out(ring: &Ring) -> Bytes {
    // Every byte is written, whatever was there.
    let mut bytes = [0xA5; LENGTH];
    lay_out(ring, &mut bytes);
    bytes
}

/// Two nodes, a channel from 1 to 0 that is asking in line, and its offer.
fn asking() -> Ring {
    let mut ring = Ring::fresh();
    ring.add_node(1).unwrap();
    ring.add_node(2).unwrap();
    ring.add_channel(NodeNumber(1), NodeNumber(0)).unwrap();
    ring.start().unwrap();
    ring.receive(ChannelNumber(0)).unwrap();
    ring.send(ChannelNumber(0), &fields_named(b"A1")).unwrap();
    ring
}

/// The same, with the record carried in the buffer of node 1.
fn answering() -> Ring {
    let mut ring = asking();
    ring.enter_at(NodeNumber(0)).unwrap();
    ring.move_at(NodeNumber(0)).unwrap();
    ring.enter_at(NodeNumber(1)).unwrap();
    ring
}

// ---- The layout.

#[test]
fn the_parts_lie_one_behind_the_other() {
    let mut place = 0;
    for part in &PARTS {
        assert_eq!(part.first, place, "{}", part.name);
        place = part.end();
    }
    assert_eq!(place, LENGTH);
    assert_eq!(LENGTH, 7_496);
    assert_eq!(SLOTS, 328, "the head");
}

/// 01's record: the bytes of the send on its own tape, but for the temperature. Its 612
/// tenths are 6120 hundredths here.
fn record_of_01() -> [u8; RECORD] {
    let mut bytes = [0; RECORD];
    bytes[..10].copy_from_slice(&[0x07, 0, 0, 0, 0x03, 0xE8, 0x17, 0x02, 0x41, 0x31]);
    bytes
}

#[test]
fn rings_laid_out_by_hand() {
    assert_eq!(laid_out(&Ring::fresh()), [0; LENGTH]);
    let mut by_hand = [0; LENGTH];
    by_hand[..8].copy_from_slice(&[0, 0, 0, 0, 1, 2, 1, 0]);
    by_hand[8..10].copy_from_slice(&[1, 2]);
    by_hand[40] = 1;
    by_hand[72] = 1;
    by_hand[200] = ASKING;
    by_hand[264] = 1;
    by_hand[1352] = 1;
    by_hand[2376..2416].copy_from_slice(&record_of_01());
    assert_eq!(laid_out(&asking()), by_hand);
    by_hand[40] = 0;
    by_hand[25] = 1;
    by_hand[200] = ANSWERING;
    by_hand[264] = 0;
    by_hand[328 + 64] = 1;
    by_hand[1352] = 0;
    by_hand[2376..2416].fill(0);
    by_hand[4936..4976].copy_from_slice(&record_of_01());
    assert_eq!(laid_out(&answering()), by_hand);
}

#[test]
fn there_and_back() {
    let (mut rings, mut random) = (Rings::new(SEED), Random::new(1));
    for _ in 0..RINGS {
        let ring = rings.reach(&mut random);
        let bytes = laid_out(ring);
        assert_eq!(read_back(&bytes), *ring);
        assert!(expected::sound(&bytes), "{ring:?}");
    }
}

/// Whatever the bytes, all but the spare byte and the flags of the offers is in
/// the model's ring.
#[test]
fn back_and_there() {
    let mut cases = Cases::new(SEED);
    for _ in 0..RINGS {
        let bytes = cases.draw().bytes;
        let mut again = laid_out(&read_back(&bytes));
        let same = again == bytes;
        again[SPARE] = bytes[SPARE];
        again[OFFERED..SLOTS].copy_from_slice(&bytes[OFFERED..SLOTS]);
        assert!(again == bytes);
        // A ring that the model's types cannot hold is not the same again.
        assert!(same || !expected::sound(&bytes));
    }
}

// ---- The verdict expected.

fn sound_with(ring: &Ring, changes: &[(usize, u8)]) -> bool {
    let mut bytes = laid_out(ring);
    for &(at, value) in changes {
        bytes[at] = value;
    }
    expected::sound(&bytes)
}

#[test]
fn what_the_model_cannot_hold() {
    let ring = asking();
    assert!(sound_with(&ring, &[]));
    assert!(sound_with(&ring, &[(DELIVERIES, 0xFF)]), "any count of deliveries");
    assert!(!sound_with(&ring, &[(SPARE, 1)]));
    assert!(!sound_with(&ring, &[(OFFERED, 0)]), "an offer without its flag");
    assert!(!sound_with(&ring, &[(OFFERED, 2)]), "a flag that is neither 0 nor 1");
    assert!(!sound_with(&answering(), &[(OFFERED, 1)]), "a flag without its offer");
    assert!(!sound_with(&answering(), &[(OFFERED + 1, 1)]), "a flag of no channel");
    assert!(!sound_with(&ring, &[(OFFERED + 63, 255)]), "a flag of no channel");
    assert!(!sound_with(&Ring::fresh(), &[(OFFERED + 63, 1)]));
    assert!(!sound_with(&Ring::fresh(), &[(SPARE, 255)]));
}

#[test]
fn what_the_model_judges() {
    assert!(!sound_with(&asking(), &[(OFFERS, 0)]), "batch number 0");
    assert!(!sound_with(&asking(), &[(MARKS + 1, 1)]), "a mark without a line");
    assert!(sound_with(&asking(), &[(MARKS, 1)]), "a mark with a line");
    assert!(!sound_with(&asking(), &[(STARTED, 2)]));
    assert!(!sound_with(&answering(), &[(CARRIED + 6, 0x80)]), "the temperature's high byte");
    assert!(!sound_with(&answering(), &[(LENGTH - 1, 1)]), "the last byte");
}

/// A blank at an end of a name, offered or carried: sound by 02, N4. Elsewhere in
/// the record the same byte is not.
#[test]
fn a_ring_that_holds_a_blank_end() {
    for (ring, part) in [(asking(), OFFERS), (answering(), CARRIED)] {
        let [length, first, last, fill] = [7, 8, 9, 10].map(|at| part + at);
        assert!(sound_with(&ring, &[(first, b' ')]), "blank first");
        assert!(sound_with(&ring, &[(last, b' ')]), "blank last");
        assert!(sound_with(&ring, &[(first, b' '), (last, b' ')]), "two blanks");
        assert!(sound_with(&ring, &[(length, 1), (first, b' '), (last, 0)]), "one blank");
        assert!(!sound_with(&ring, &[(fill, b' ')]), "a blank behind the name");
        assert!(!sound_with(&ring, &[(length, 1), (last, b' ')]), "a blank behind the name");
        assert!(!sound_with(&ring, &[(first, b' '), (last, 0x7F)]), "a byte that no name has");
    }
}

/// The temperature of a record, offered or carried, at the edges of both units.
#[test]
fn a_ring_sound_in_both_units_or_in_one() {
    for (ring, part) in [(asking(), OFFERS), (answering(), CARRIED)] {
        for (value, sound, turned) in [
            (612, true, Some(6120)),
            (1200, true, Some(12000)),
            (-400, true, Some(-4000)),
            (1201, true, None),
            (-401, true, None),
            (12000, true, None),
            (-4000, true, None),
            (6554, true, None),
            (12001, false, None),
            (-4001, false, None),
            (i16::MIN, false, None),
        ] {
            let mut bytes = laid_out(&ring);
            put_temperature(&mut bytes[part..][..RECORD], value);
            assert_eq!(expected::sound(&bytes), sound, "{value}");
            let mut by_hand = bytes;
            let ten_times = turned.map(|value| put_temperature(&mut by_hand[part..], value));
            assert_eq!(expected::turned(&bytes), ten_times.map(|()| by_hand), "{value}");
        }
    }
    let mut flagged = laid_out(&Ring::fresh());
    flagged[OFFERED] = 1;
    assert_eq!(expected::turned(&flagged), None);
}

/// A withdrawal made by hand is the model's; one made by half is no sound ring.
#[test]
fn a_withdrawal_by_half() {
    let mut ring = asking();
    ring.nodes[0].turn_mark = 1;
    let [out, shorter, rests, unmarked] = [(LINES, 0), (WAITING, 0), (PHASES, RESTING), (MARKS, 0)];
    assert!(sound_with(&ring, &[]));
    assert!(!sound_with(&ring, &[out, shorter]), "the channel still asks");
    assert!(!sound_with(&ring, &[rests]), "the request is still in the line");
    assert!(!sound_with(&ring, &[out, rests]), "the line is still as long");
    assert!(!sound_with(&ring, &[out, shorter, rests]), "the mark is still set");
    let mut by_hand = laid_out(&ring);
    for (at, value) in [out, shorter, rests, unmarked] {
        by_hand[at] = value;
    }
    ring.withdraw(ChannelNumber(0)).unwrap();
    assert!(laid_out(&ring) == by_hand && expected::sound(&by_hand));
}

// ---- The rings.

#[test]
fn the_rings_have_everything() {
    let (mut rings, mut random) = (Rings::new(SEED), Random::new(1));
    let mut seen = Seen::default();
    for _ in 0..RINGS {
        seen.look(rings.reach(&mut random));
    }
    assert!(seen.nodes.iter().all(|&seen| seen > 50), "{:?}", seen.nodes);
    assert!(seen.channels.iter().all(|&seen| seen > 1), "{:?}", seen.channels);
    assert!(seen.phases.iter().all(|&seen| seen > 10_000), "{:?}", seen.phases);
    assert!(seen.fresh > 100 && seen.fresh < 3_000, "{}", seen.fresh);
    assert!(seen.not_started > 1_000, "{}", seen.not_started);
    assert!(seen.marks > 1_000, "{}", seen.marks);
    assert!(seen.full_buffers > 10_000 && seen.empty_buffers > 10_000);
    assert!(seen.long_lines > 1_000, "{}", seen.long_lines);
    assert!(seen.offers_beside_carried > 1_000, "{}", seen.offers_beside_carried);
    assert!(seen.same_node_moving > 10_000, "{}", seen.same_node_moving);
}

/// How often something was there, ring by ring, node by node or channel by
/// channel.
struct Seen {
    nodes: [u32; NODES + 1],
    channels: [u32; CHANNELS + 1],
    phases: [u32; 4],
    fresh: u32,
    not_started: u32,
    marks: u32,
    full_buffers: u32,
    empty_buffers: u32,
    long_lines: u32,
    offers_beside_carried: u32,
    same_node_moving: u32,
}

impl Default for Seen {
    fn default() -> Seen {
        Seen {
            nodes: [0; NODES + 1],
            channels: [0; CHANNELS + 1],
            phases: [0; 4],
            fresh: 0,
            not_started: 0,
            marks: 0,
            full_buffers: 0,
            empty_buffers: 0,
            long_lines: 0,
            offers_beside_carried: 0,
            same_node_moving: 0,
        }
    }
}

impl Seen {
    fn look(&mut self, ring: &Ring) {
        let (n, c) = (ring.node_count as usize, ring.channel_count as usize);
        self.nodes[n] += 1;
        self.channels[c] += 1;
        self.fresh += (*ring == Ring::fresh()) as u32;
        self.not_started += (ring.started == 0) as u32;
        for node in &ring.nodes[..n] {
            self.marks += node.turn_mark as u32;
            self.full_buffers += (node.buffer_length == node.slots) as u32;
            self.empty_buffers += (node.buffer_length == 0) as u32;
            self.long_lines += (node.line_length > 5) as u32;
        }
        for channel in &ring.channels[..c] {
            let carried = channel.phase == ANSWERING;
            let moving = carried || channel.phase == ASKING;
            self.phases[channel.phase as usize] += 1;
            self.offers_beside_carried += (carried && channel.offer != Record::NONE) as u32;
            self.same_node_moving += (moving && channel.sender == channel.receiver) as u32;
        }
    }
}

// ---- The changes.

#[test]
fn every_change_is_one() {
    let (mut rings, mut random) = (Rings::new(SEED), Random::new(1));
    for at in 0..RINGS as usize {
        let before = laid_out(rings.reach(&mut random));
        let mut bytes = before;
        let kind = &KINDS[at % KINDS.len()];
        let changed = (kind.change)(&mut bytes, &mut random);
        // Rings drawn as a whole may be as they were; no other change may.
        assert!(at % KINDS.len() < crate::damage::WHOLE || changed == (bytes != before));
    }
}

/// The kinds that leave no ring sound when they are the only change.
const NEVER_SOUND: [&str; 13] = [
    "every byte FF",
    "every byte drawn",
    "a byte beyond the nodes or channels",
    "the spare byte",
    "the count of nodes",
    "the length of a buffer or line",
    "the flag of an offer",
    "a cell of a queue drawn",
    "a cell behind a queue",
    "a message doubled",
    "a message lost",
    "a message put in",
    "a temperature out of range",
];

#[test]
fn kinds_that_leave_no_ring_sound() {
    let sums = stand_in();
    for (kind, sum) in KINDS.iter().zip(&sums.kinds) {
        assert!(sum.alone > 50, "{}: {}", kind.name, sum.alone);
        let never = NEVER_SOUND.contains(&kind.name);
        assert_eq!(sum.sound == 0, never, "{}: {} of {}", kind.name, sum.sound, sum.alone);
        let always = ALWAYS_SOUND.contains(&kind.name);
        assert_eq!(sum.sound == sum.alone, always, "{}", kind.name);
        assert!(sum.in_tenths > 20 && sum.in_tenths < sum.alone, "{}", kind.name);
        let never = never || kind.name == NO_TENTHS;
        assert_eq!(sum.turned == 0, never, "{}: {} of {}", kind.name, sum.turned, sum.in_tenths);
    }
}

// ---- The comparison.

fn model(bytes: &Bytes) -> u8 {
    expected::sound(bytes) as u8
}

fn model_turn(bytes: &mut Bytes) -> u8 {
    match expected::turned(bytes) {
        Some(turned) => {
            *bytes = turned;
            0
        }
        None => 25,
    }
}

/// The comparison with the verdict expected in place of the proved one, made
/// once for all tests.
fn stand_in() -> Sums {
    static SUMS: OnceLock<Sums> = OnceLock::new();
    SUMS.get_or_init(|| compare(RINGS, SEED, model, model_turn).expect("no difference")).clone()
}

#[test]
fn the_model_agrees_with_itself() {
    let sums = stand_in();
    assert_eq!(sums.rings, RINGS);
    assert_eq!(sums.changes.iter().sum::<u64>(), RINGS);
    assert!(sums.changes.iter().all(|&rings| rings > RINGS * 24 / 100), "{:?}", sums.changes);
    assert_eq!(sums.sights().missing(), [""; 0]);
}

#[test]
fn the_same_seed_draws_the_same_rings() {
    let [mut one, mut two, mut other] = [SEED, SEED, SEED + 1].map(Cases::new);
    let mut differ = false;
    for _ in 0..2_000 {
        let bytes = one.draw().bytes;
        assert!(bytes == two.draw().bytes);
        differ |= bytes != other.draw().bytes;
    }
    assert!(differ);
}

#[test]
fn too_little_compared_is_a_fault() {
    let missing = |sums: &Sums| sums.sights().missing();
    assert!(!missing(&Sums::new()).is_empty(), "no ring");
    let few = compare(10, SEED, model, model_turn).expect("no difference");
    assert!(!missing(&few).is_empty(), "kinds never made");
    let mut sums = stand_in();
    sums.kinds[7].made = 0;
    assert_eq!(missing(&sums), ["made: the spare byte: 0 times, at least 1"]);
    let blank_end = KINDS.iter().position(|kind| kind.name == "a blank at an end of a name").unwrap();
    let mut sums = stand_in();
    sums.kinds[blank_end].sound -= 1;
    assert_eq!(missing(&sums).len(), 1, "a ring that holds a blank end is unsound");
    (sums.kinds[blank_end].alone, sums.kinds[blank_end].sound) = (0, 0);
    assert_eq!(missing(&sums), ["sound, all of 0: a blank at an end of a name: 0 times, at least 1"]);
    let mut sums = stand_in();
    sums.kinds[blank_end].turned -= 1;
    assert_eq!(missing(&sums).len(), 1, "a ring that holds a blank end is not turned");
    let no_tenths = KINDS.iter().position(|kind| kind.name == NO_TENTHS).unwrap();
    let mut sums = stand_in();
    sums.kinds[no_tenths].turned = 1;
    assert_eq!(missing(&sums).len(), 1, "a ring that holds no tenths is turned");
    (sums.kinds[no_tenths].in_tenths, sums.kinds[no_tenths].turned) = (0, 0);
    assert_eq!(missing(&sums), [format!("not turned, all of 0: {NO_TENTHS}: 0 times, at least 1")]);
    let sums = Sums { turned: RINGS / 10 - 1, ..stand_in() };
    assert_eq!(missing(&sums).len(), 1, "too few are turned");
    let mut sums = Sums { sound: RINGS / 5 - 1, ..stand_in() };
    assert_eq!(missing(&sums).len(), 1, "too few are sound");
    sums.sound = RINGS - RINGS / 5 + 1;
    assert_eq!(missing(&sums).len(), 1, "too few are unsound");
    sums.sound = RINGS / 5;
    assert_eq!(missing(&sums), [""; 0]);
}

fn assert_found_out(slip: &str, verdict: impl Fn(&Bytes) -> u8) {
    let Err(text) = compare(RINGS, SEED, verdict, model_turn) else {
        panic!("not found out: {slip}");
    };
    assert!(text.starts_with("seed 1978, ring "), "{text}");
}

fn assert_turn_found_out(slip: &str, turn: impl Fn(&mut Bytes) -> u8) {
    let Err(text) = compare(RINGS, SEED, model, turn) else {
        panic!("not found out: {slip}");
    };
    assert!(text.starts_with("seed 1978, ring ") && text.contains(": turned with "), "{text}");
}

#[test]
fn wrong_verdicts_are_found_out() {
    assert_found_out("all are sound", |_| 1);
    assert_found_out("none is sound", |_| 0);
    assert_found_out("the other way round", |bytes| 1 - model(bytes));
    assert_found_out("a sound ring is 255", |bytes| model(bytes).wrapping_neg());
    assert_found_out("an unsound ring is 2", |bytes| 2 - model(bytes));
    assert_found_out("the flags of the offers", |bytes| read_back(bytes).sound() as u8);
    assert_found_out("an offer with a blank end is none", |bytes| model(bytes) & !holds_blank_end(bytes, OFFERS) as u8);
    assert_found_out("a record carried with a blank end is none", |bytes| model(bytes) & !holds_blank_end(bytes, CARRIED) as u8);
}

/// Whether a record among these has a name with a blank at an end.
fn holds_blank_end(bytes: &Bytes, part: usize) -> bool {
    let blank_ended = |at| {
        let record = read_record(bytes, part, at);
        let name = record.name.get(..record.length as usize).unwrap_or_default();
        name.first() == Some(&b' ') || name.last() == Some(&b' ')
    };
    (0..CHANNELS).any(blank_ended)
}

/// Turns a ring like the model, then changes what comes out.
fn then(change: impl Fn(&Bytes, &mut Bytes)) -> impl Fn(&mut Bytes) -> u8 {
    move |bytes| {
        let before = *bytes;
        let answer = model_turn(bytes);
        change(&before, bytes);
        answer
    }
}

/// Turns a ring that is sound with its temperatures changed like this, without a look
/// at them before.
fn untested(change: impl Fn(i16) -> i16) -> impl Fn(&mut Bytes) -> u8 {
    move |bytes| {
        let mut turned = *bytes;
        change_temperatures(&mut turned, &change);
        let sound = expected::sound(&turned);
        *bytes = if sound { turned } else { *bytes };
        25 * !sound as u8
    }
}

#[test]
fn rings_turned_wrong_are_found_out() {
    assert_turn_found_out("none is turned", |_| 25);
    assert_turn_found_out("all are left as they are", |_| 0);
    assert_turn_found_out("refused with 1", |bytes| model_turn(bytes).min(1));
    let keep = |first: usize, end: usize| then(move |before, after| after[first..end].copy_from_slice(&before[first..end]));
    assert_turn_found_out("the offers forgotten", keep(OFFERS, CARRIED));
    assert_turn_found_out("the records carried forgotten", keep(CARRIED, LENGTH));
    assert_turn_found_out("channel 63 forgotten", keep(LENGTH - RECORD, LENGTH));
    assert_turn_found_out("the deliveries too", then(|_, after| after[DELIVERIES] ^= 1));
    assert_turn_found_out("cut to 16 bits", untested(|value| value.wrapping_mul(10)));
    let clamped = |value: i16| value.clamp(-400, 1200) * 10;
    assert_turn_found_out("clamped to the range", untested(clamped));
    let twice = |value: i16| Unit::Tenths.hundredths(value).unwrap_or(value);
    assert_turn_found_out("what is no tenths left as it is", untested(twice));
    assert_turn_found_out("the flags of the offers", |bytes| {
        let mut ring = read_back(bytes);
        let turned = ring.to_hundredths().is_ok();
        lay_out(&ring, bytes);
        25 * !turned as u8
    });
    assert_turn_found_out("changed and refused", |bytes| {
        let answer = model_turn(bytes);
        if answer != 0 {
            change_temperatures(bytes, |value| value.wrapping_mul(10));
        }
        answer
    });
}

/// Tests that do not look at some byte: each judges the ring as if there were 0.
#[test]
fn a_byte_not_looked_at_is_found_out() {
    // The bytes of a record are alike by channel, as the cells are by node.
    let edges = [0, 8, 39].map(|at| [OFFERS + at, CARRIED + at]);
    let head = (STARTED..SLOTS).filter(|at| *at < CAPACITY || at % 13 == 0);
    let cells = [SLOTS, SLOTS + 1, LINES - 1, LINES, LINES + 1, OFFERS - 1];
    for at in head.chain(cells).chain(edges.into_iter().flatten()) {
        let verdict = |bytes: &Bytes| {
            let mut other = *bytes;
            other[at] = 0;
            model(&other)
        };
        assert_found_out(&format!("byte {at}"), verdict);
    }
}

/// Tests that leave one clause out, so that a ring with this fault alone is
/// sound for them.
#[test]
fn a_clause_left_out_is_found_out() {
    assert_slip("no mark without a line", |ring| {
        ring.nodes.iter_mut().filter(|node| node.line_length == 0).for_each(|node| {
            node.turn_mark = 0;
        })
    });
    assert_slip("a ready channel has no offer", |ring| {
        for channel in ring.channels.iter_mut().filter(|channel| channel.phase == READY) {
            channel.offer = Record::NONE;
        }
    });
    assert_slip("count 0 before the start", |ring| {
        if ring.started == 0 {
            ring.deliveries = 0;
        }
    });
    assert_slip("nothing carried but by an answering channel", |ring| {
        for channel in ring.channels.iter_mut().filter(|channel| channel.phase == RESTING) {
            channel.carried = Record::NONE;
        }
    });
    assert_slip("no buffer longer than its slots", |ring| {
        for node in &mut ring.nodes {
            node.slots = node.slots.max(node.buffer_length.min(64));
        }
    });
    assert_slip("at most 64 slots", |ring| {
        for node in &mut ring.nodes {
            node.slots = node.slots.min(64);
        }
    });
    assert_slip("b greater than c", |ring| {
        if ring.started == 1 && ring.nodes[0].slots != 0 {
            ring.nodes[0].slots = ring.nodes[0].slots.max(64);
        }
    });
}

/// Judges rings that the change has mended.
fn assert_slip(clause: &str, mend: impl Fn(&mut Ring)) {
    assert_found_out(clause, |bytes| {
        let mut ring = read_back(bytes);
        mend(&mut ring);
        (bytes[SPARE] == 0 && flags_agree(bytes) && ring.sound()) as u8
    });
}

fn flags_agree(bytes: &Bytes) -> bool {
    laid_out(&read_back(bytes))[OFFERED..SLOTS] == bytes[OFFERED..SLOTS]
}
