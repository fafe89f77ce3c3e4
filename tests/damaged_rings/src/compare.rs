//! The comparison: rings as the model reaches them and damaged ones, the
//! verdict of a test on each against the one expected, what each is turned into, and
//! what was compared.

use crate::damage::{change_place, change_whole, ALWAYS_SOUND, KINDS, NO_TENTHS};
use crate::expected;
use crate::form::{change_temperatures, lay_out};
use crate::rings::Rings;
use common::layout::{
    channels, deliveries, first_difference, name_of, nodes, record_at, Bytes, CAPACITY, CARRIED, CHANNEL_COUNT, LENGTH, LINES, MARKS,
    NODE_COUNT, OFFERED, OFFERS, PHASES, RECEIVERS, SENDERS, SLOTS, SPARE, STARTED, USED, WAITING,
};
use common::program::Shown;
use common::random::Random;
use common::sights::Sights;
use std::fmt::Write;
use vessel_ring::{CHANNELS, NODES, ROW, UNSOUND_RING};

/// At most so many places are changed in a ring, and at least none; each number
/// of them is drawn as often as the others.
const MOST_CHANGES: usize = 3;
/// One ring of so many is changed as a whole instead.
const WHOLE_EVERY: usize = 64;
/// Sound and unsound rings are at least one of so many each.
const LEAST_SHARE: u64 = 5;
/// Rings that are turned are at least one of so many.
const LEAST_TURNED_SHARE: u64 = 10;
/// So many changed places are printed, and no more.
const PLACES_PRINTED: usize = 60;

/// A ring to be judged, beside the ring that it was made of.
pub struct Case {
    pub reached: Bytes,
    pub bytes: Bytes,
    /// The ring that it was made of is held in tenths, and sound in them. Else it is
    /// held in hundredths.
    pub in_tenths: bool,
    /// The kinds of the changes made.
    pub kinds: Vec<usize>,
}

/// The cases of a seed, without end.
pub struct Cases {
    rings: Rings,
    random: Random,
    case: Case,
}

impl Cases {
    pub fn new(seed: u64) -> Cases {
        let (reached, bytes) = ([0; LENGTH], [0; LENGTH]);
        let case = Case { reached, bytes, in_tenths: false, kinds: Vec::new() };
        // Other numbers than those that the tapes are drawn with.
        Cases { rings: Rings::new(seed), random: Random::new(!seed), case }
    }

    pub fn draw(&mut self) -> &Case {
        let Cases { rings, random, case } = self;
        lay_out(rings.reach(random), &mut case.reached);
        case.in_tenths = random.percent(50);
        if case.in_tenths {
            change_temperatures(&mut case.reached, |hundredths| hundredths / 10);
        }
        case.bytes = case.reached;
        case.kinds.clear();
        if random.below(WHOLE_EVERY) == 0 {
            case.kinds.push(change_whole(&mut case.bytes, random));
        } else {
            for _ in 0..random.between(0, MOST_CHANGES) {
                case.kinds.push(change_place(&mut case.bytes, random));
            }
        }
        case
    }
}

/// Judges and turns `count` rings. A verdict is 1 for a sound ring and 0 for another;
/// a turned ring is answered with 0, another with 25 and as it was. The first that is
/// not as expected is answered as text.
pub fn compare(count: u64, seed: u64, verdict: impl Fn(&Bytes) -> u8, turn: impl Fn(&mut Bytes) -> u8) -> Result<Sums, String> {
    let mut cases = Cases::new(seed);
    let mut sums = Sums::new();
    for number in 1..=count {
        let case = cases.draw();
        let sound = expected::sound(&case.bytes);
        let answer = verdict(&case.bytes);
        if answer != sound as u8 {
            let title = format!("seed {seed}, ring {number}: {answer}, expected {}", sound as u8);
            return Err(title + "\n" + &show(case));
        }
        let turned = expected::turned(&case.bytes);
        if let Some(difference) = turned_wrong(&case.bytes, turned.as_ref(), &turn) {
            return Err(format!("seed {seed}, ring {number}: {difference}\n{}", show(case)));
        }
        sums.add(case, sound, turned.is_some());
    }
    Ok(sums)
}

/// What is wrong where a ring is turned into another than expected, which is nothing
/// for a ring that is to be refused.
fn turned_wrong(bytes: &Bytes, expected: Option<&Bytes>, turn: &impl Fn(&mut Bytes) -> u8) -> Option<String> {
    let mut after = *bytes;
    let answer = turn(&mut after);
    let right = if expected.is_some() { 0 } else { UNSOUND_RING };
    if answer != right {
        return Some(format!("turned with {answer}, expected {right}"));
    }
    let difference = first_difference(&after, expected.unwrap_or(bytes))?;
    Some(format!("turned with {answer}, and not as expected: {difference}"))
}

// ---- What was compared.

/// How often a kind of change was made, how often as the only one, and how many
/// of the latter left the ring sound; how often as the only one of a ring held in
/// tenths, and how many of these rings were turned.
#[derive(Clone, Copy, Default)]
pub struct KindSum {
    pub made: u64,
    pub alone: u64,
    pub sound: u64,
    pub in_tenths: u64,
    pub turned: u64,
}

#[derive(Clone)]
pub struct Sums {
    pub rings: u64,
    pub sound: u64,
    pub turned: u64,
    /// Rings with so many changes; a change of the whole ring is one.
    pub changes: [u64; MOST_CHANGES + 1],
    pub kinds: [KindSum; KINDS.len()],
}

impl Sums {
    pub fn new() -> Sums {
        let (changes, kinds) = ([0; MOST_CHANGES + 1], [KindSum::default(); KINDS.len()]);
        Sums { rings: 0, sound: 0, turned: 0, changes, kinds }
    }

    fn add(&mut self, case: &Case, sound: bool, turned: bool) {
        self.rings += 1;
        self.sound += sound as u64;
        self.turned += turned as u64;
        self.changes[case.kinds.len()] += 1;
        for &kind in &case.kinds {
            self.kinds[kind].made += 1;
        }
        if let [kind] = case.kinds[..] {
            self.kinds[kind].alone += 1;
            self.kinds[kind].sound += sound as u64;
            self.kinds[kind].in_tenths += case.in_tenths as u64;
            self.kinds[kind].turned += (case.in_tenths && turned) as u64;
        }
    }

    /// The figures, and what has to be seen.
    pub fn shown(&self, seed: u64) -> Shown {
        let mut figures = format!("seed {seed}: {} rings compared\n", self.rings);
        for (changes, count) in self.changes.iter().enumerate() {
            line(&mut figures, format_args!("with {changes} changes: {count}"));
        }
        line(&mut figures, format_args!("    made    alone    sound tenths: alone  turned  kind of change"));
        for (kind, sum) in KINDS.iter().zip(&self.kinds) {
            let KindSum { made, alone, sound, in_tenths, turned } = sum;
            line(&mut figures, format_args!("{made:8} {alone:8} {sound:8} {in_tenths:13} {turned:7}  {}", kind.name));
        }
        Shown { figures, sights: self.sights() }
    }

    /// What makes the comparison worth something. The rings that are changed are sound.
    pub fn sights(&self) -> Sights {
        let mut sights = Sights::default();
        for (name, count, share) in [
            ("sound rings", self.sound, LEAST_SHARE),
            ("unsound rings", self.rings - self.sound, LEAST_SHARE),
            ("turned from tenths into hundredths", self.turned, LEAST_TURNED_SHARE),
        ] {
            sights.ask(name, count, self.rings.div_ceil(share).max(1));
        }
        for (kind, sum) in KINDS.iter().zip(&self.kinds) {
            sights.ask(format!("made: {}", kind.name), sum.made, 1);
            if ALWAYS_SOUND.contains(&kind.name) {
                ask_always_sound(&mut sights, kind.name, sum);
            }
        }
        sights
    }
}

/// A kind that leaves every ring sound, and all rings in tenths sound in tenths, or none of them.
fn ask_always_sound(sights: &mut Sights, kind: &str, sum: &KindSum) {
    let KindSum { alone, sound, in_tenths, turned, .. } = *sum;
    sights.ask(format!("sound, all of {alone}: {kind}"), sound, alone.max(1));
    if kind == NO_TENTHS {
        sights.ask(format!("not turned, all of {in_tenths}: {kind}"), in_tenths - turned, in_tenths.max(1));
    } else {
        sights.ask(format!("turned, all of {in_tenths}: {kind}"), turned, in_tenths.max(1));
    }
}

impl Default for Sums {
    fn default() -> Sums {
        Sums::new()
    }
}

// ---- A ring as text.

/// The changes of a case, and of the ring what is not zero.
pub fn show(case: &Case) -> String {
    let mut text = String::new();
    for &kind in &case.kinds {
        text += &format!("  change: {}\n", KINDS[kind].name);
    }
    show_places(&mut text, case);
    show_counts(&mut text, &case.bytes);
    (0..NODES).for_each(|at| show_node(&mut text, &case.bytes, at));
    (0..CHANNELS).for_each(|at| show_channel(&mut text, &case.bytes, at));
    text
}

/// The places that the changes made different.
fn show_places(text: &mut String, case: &Case) {
    let places = (0..LENGTH).filter(|&at| case.reached[at] != case.bytes[at]);
    for at in places.take(PLACES_PRINTED) {
        let (before, after) = (case.reached[at], case.bytes[at]);
        line(text, format_args!("  byte {at}, {}: {before} became {after}", name_of(at)));
    }
}

fn show_counts(text: &mut String, bytes: &Bytes) {
    let deliveries = deliveries(bytes);
    let (n, c) = (bytes[NODE_COUNT], bytes[CHANNEL_COUNT]);
    let (started, spare) = (bytes[STARTED], bytes[SPARE]);
    line(text, format_args!("  started {started}, {n} nodes, {c} channels"));
    line(text, format_args!("  deliveries {deliveries}, spare byte {spare}"));
}

fn show_node(text: &mut String, bytes: &Bytes, at: usize) {
    let [slots, used, waiting, mark] = [CAPACITY, USED, WAITING, MARKS].map(|part| bytes[part + at]);
    let [buffer, queue] = [SLOTS, LINES].map(|part| &bytes[part + at * ROW..][..ROW]);
    if at >= nodes(bytes) && slots | used | waiting | mark == 0 && empty(buffer) && empty(queue) {
        return;
    }
    line(text, format_args!("  node {at}: slots {slots}, mark {mark}"));
    line(text, format_args!("    buffer of {used}: {}", hexadecimal(buffer)));
    line(text, format_args!("    line of {waiting}: {}", hexadecimal(queue)));
}

fn show_channel(text: &mut String, bytes: &Bytes, at: usize) {
    let [sender, receiver, phase, offered] = [SENDERS, RECEIVERS, PHASES, OFFERED].map(|part| bytes[part + at]);
    let [offer, carried] = [OFFERS, CARRIED].map(|part| record_at(bytes, part, at));
    let head = sender | receiver | phase | offered;
    if at >= channels(bytes) && head == 0 && empty(offer) && empty(carried) {
        return;
    }
    line(text, format_args!("  channel {at}: {sender} to {receiver}, phase {phase}"));
    if offered != 0 || !empty(offer) {
        line(text, format_args!("    offered {offered}: {}", hexadecimal(offer)));
    }
    if !empty(carried) {
        line(text, format_args!("    carried: {}", hexadecimal(carried)));
    }
}

fn line(text: &mut String, line: std::fmt::Arguments) {
    writeln!(text, "{line}").expect("a string takes every text");
}

fn empty(bytes: &[u8]) -> bool {
    bytes.iter().all(|&byte| byte == 0)
}

/// Bytes in hexadecimal up to the last that is not zero.
fn hexadecimal(bytes: &[u8]) -> String {
    let length = bytes.iter().rposition(|&byte| byte != 0).map_or(0, |last| last + 1);
    let words: Vec<String> = bytes[..length].iter().map(|byte| format!("{byte:02x}")).collect();
    words.join(" ")
}
