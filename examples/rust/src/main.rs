//! The two-node ring of document 01, call by call, as examples/c/listing.c runs it; the output is the same.

use vessel_ring::{batch_in, close, figures, list, note, read, version, write};
use vessel_ring::{Command, Delivery, Record, Ring, Row, HISTORY_ROWS, NOT_RESTING, VERSION};

struct Listing {
    calls: u32,
    accepted: u32,
    refused: u32,
    history: [Row; HISTORY_ROWS],
}

impl Listing {
    fn new() -> Listing {
        Listing { calls: 0, accepted: 0, refused: 0, history: [Row::default(); HISTORY_ROWS] }
    }

    fn begin(&mut self, code: u8, refusal: u8) {
        self.calls += 1;
        if refusal == 0 {
            self.accepted += 1;
        } else {
            self.refused += 1;
        }
        print!("{} {code:02x} {refusal}", self.calls);
    }

    fn plain(&mut self, code: u8, refusal: u8) {
        self.begin(code, refusal);
        println!();
    }

    fn moved(&mut self, answer: Delivery) {
        self.begin(0x23, answer.refusal);
        if answer.delivered == 1 {
            delivered(answer.channel, answer.record);
        }
        println!();
        if answer.delivered == 1 {
            self.note(answer.record);
        }
    }

    /// Notes a record in the history and says what is known of its batch then.
    fn note(&mut self, record: Record) {
        let refusal = note(&mut self.history, record);
        let batch = record.batch;
        let figures = figures(&self.history, batch);
        println!("  noted {refusal}: batch {batch} lowest {} highest {} sum {}", figures.lowest, figures.highest, figures.sum);
    }

    /// Entries and moves in one call: it runs the ring until nothing is on it, and hands over all that was delivered. c × (2n + 2) rounds
    /// are always enough; a controller that has other work to do gives fewer, and calls again later.
    fn dispatch(&mut self, ring: &mut Ring) {
        let enough = u16::from(ring.channel_count) * (2 * u16::from(ring.node_count) + 2);
        assert_eq!(ring.rounds_enough(), enough);
        let answer = ring.dispatch(enough);
        println!("dispatched {}: {} of {enough} rounds, {} delivery", answer.refusal, answer.rounds, answer.count);
        for (channel, record) in answer.deliveries() {
            print!(" ");
            delivered(channel, record);
            println!();
            self.note(record);
        }
    }

    /// A task that asks while its last request is still under way is refused, and asks again later.
    fn ask(&mut self, ring: &mut Ring, channel: u8) {
        let refusal = ring.receive(channel);
        self.plain(0x20, refusal);
        if refusal == NOT_RESTING {
            let left = ring.hops_left(channel);
            let waiting = ring.waiting_set(ring.receivers[usize::from(channel)]);
            println!("  under way: {} hops left, {} task waits, set {:x}", left.hops, waiting.tasks, waiting.set);
        }
    }
}

fn delivered(channel: u8, record: Record) {
    let Record { batch, vessel, temperature, name_length, name } = record;
    print!(" delivered {channel} {batch} {vessel} {temperature} {name_length}");
    if name_length > 0 {
        print!(" {}", String::from_utf8_lossy(&name[..name_length.into()]));
    }
}

/// One changed byte makes the ring unsound: every call refuses it and leaves it as it is.
fn damaged(ring: &Ring) {
    let mut copy = *ring;
    copy.used[0] = 1;
    let before = copy;
    print!("a byte changed: sound {}, calls", u8::from(copy.is_sound()));
    let answers = [
        copy.add_node(1),
        copy.add_channel(0, 0),
        copy.start(),
        copy.receive(0),
        copy.send(0, Record::default()),
        copy.send_tenths(0, Record::default()),
        copy.enter(0),
        copy.move_on(0).refusal,
        copy.dispatch(1).refusal,
        copy.withdraw(0),
        copy.hops_left(0).refusal,
        copy.waiting_set(0).refusal,
    ];
    for answer in answers {
        print!(" {answer}");
    }
    println!(", the ring {}", if copy == before { "as it was" } else { "CHANGED" });
}

/// A reading in a row of no batch: every call refuses the table and leaves it as it is.
fn damaged_history(history: &[Row; HISTORY_ROWS]) {
    let mut copy = *history;
    copy[90].readings[0] = 5;
    let before = copy;
    let answers = [note(&mut copy, Record::default()), close(&mut copy, 7), figures(&copy, 7).refusal];
    print!("a reading of no batch: calls");
    for answer in answers {
        print!(" {answer}");
    }
    println!(", the history {}", if copy == before { "as it was" } else { "CHANGED" });
}

/// The same calls as a tape: written, read back and run.
fn taped() {
    let plan = [[0x10, 1, 0], [0x10, 2, 0], [0x11, 1, 0], [0x12, 0, 0], [0x20, 0, 0]];
    let mut tape = [0; 16];
    let mut length = 0;
    for [code, first, second] in plan {
        let command = Command { code, first, second, ..Command::default() };
        length = write(&mut tape, length, command).next;
    }
    print!("a tape of {length} bytes:");
    let mut reading = read(&tape[..length], 0);
    while reading.end == 0 && reading.refusal == 0 {
        let Command { code, first, second, .. } = reading.command;
        print!(" {code:02x}({first}, {second})");
        reading = read(&tape[..length], reading.next);
    }
    let mut out = [0; 512];
    let written = list(&tape[..length], &mut out);
    print!("\n{}", String::from_utf8_lossy(&out[..written]));
}

fn main() {
    assert_eq!(version(), VERSION, "the library is of another version than its types here");
    let mut name = [0; 32];
    name[..2].copy_from_slice(b"A1");
    let record = Record { batch: 7, vessel: 3, temperature: 612, name_length: 2, name }; // tenths, as on the tape of document 01
    assert_eq!(Record::named(7, 3, 612, "A1").ok(), Some(record));

    let mut ring = Ring::fresh();
    let mut listing = Listing::new();
    listing.plain(0x10, ring.add_node(1));
    listing.plain(0x10, ring.add_node(2));
    listing.plain(0x11, ring.add_channel(1, 0));
    listing.plain(0x12, ring.start());
    listing.ask(&mut ring, 0);
    listing.ask(&mut ring, 0);
    listing.plain(0x22, ring.enter(0));
    listing.moved(ring.move_on(0));
    listing.plain(0x21, ring.send_tenths(0, record));
    listing.plain(0x22, ring.enter(1));
    listing.moved(ring.move_on(1));
    listing.moved(ring.move_on(1));
    println!("end {} {}", listing.accepted, listing.refused);
    ring.send(0, Record { temperature: 6345, ..record }); // hundredths
    assert_eq!(Record::from_bytes(&ring.offers[0]), Record { temperature: 6345, ..record });
    ring.receive(0);
    listing.dispatch(&mut ring);
    assert_eq!(ring.under_way(), 0);
    assert_eq!((batch_in(&listing.history, 0).batch, batch_in(&listing.history, 1).batch), (7, 0));
    damaged(&ring);
    damaged_history(&listing.history);
    taped();
}
