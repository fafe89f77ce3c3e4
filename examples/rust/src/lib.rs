//! include/vessel_ring.h for Rust: its types, and its functions as safe ones. They are safe because the library takes every value of every
//! argument, and a reference or a slice is what it asks of a pointer.

use std::mem::{offset_of, size_of};

/// The version of the header that these types are of; [`version`] is the library's.
pub const VERSION: u32 = 301;

pub const NODES: usize = 16;
pub const CHANNELS: usize = 64;
/// The most slots of a node, and the cells of a node's row.
pub const ROW: usize = 64;
pub const RECORD_BYTES: usize = 40;
/// The rows of a history, and the readings of a row.
pub const HISTORY_ROWS: usize = 128;
pub const READINGS: usize = 24;

pub const NOT_RESTING: u8 = 10;
pub const NAME_TOO_LONG: u8 = 13;
pub const UNSOUND_RING: u8 = 25;
pub const BLANK_END: u8 = 30;

#[repr(C)]
#[derive(Clone, Copy, PartialEq, Eq, Debug)]
pub struct Ring {
    pub deliveries: u32,
    pub started: u8,
    pub node_count: u8,
    pub channel_count: u8,
    pub spare: u8,
    pub capacity: [u8; NODES],
    pub used: [u8; NODES],
    pub waiting: [u8; NODES],
    pub marks: [u8; NODES],
    pub senders: [u8; CHANNELS],
    pub receivers: [u8; CHANNELS],
    pub phases: [u8; CHANNELS],
    pub offered: [u8; CHANNELS],
    pub slots: [[u8; ROW]; NODES],
    pub lines: [[u8; ROW]; NODES],
    pub offers: [[u8; RECORD_BYTES]; CHANNELS],
    pub carried: [[u8; RECORD_BYTES]; CHANNELS],
}

#[repr(C)]
#[derive(Clone, Copy, PartialEq, Eq, Debug, Default)]
pub struct Record {
    pub batch: u32,
    pub vessel: u8,
    pub name_length: u8,
    pub temperature: i16,
    pub name: [u8; 32],
}

#[repr(C)]
#[derive(Clone, Copy, PartialEq, Eq, Debug, Default)]
pub struct Delivery {
    pub refusal: u8,
    pub delivered: u8,
    pub channel: u8,
    pub record: Record,
}

#[repr(C)]
#[derive(Clone, Copy, PartialEq, Eq, Debug)]
pub struct Dispatched {
    pub rounds: u16,
    pub refusal: u8,
    pub count: u8,
    pub channels: [u8; CHANNELS],
    pub records: [Record; CHANNELS],
}

/// By hand: the standard library has it for arrays of up to 32.
impl Default for Dispatched {
    fn default() -> Dispatched {
        Dispatched { rounds: 0, refusal: 0, count: 0, channels: [0; CHANNELS], records: [Record::default(); CHANNELS] }
    }
}

#[repr(C)]
#[derive(Clone, Copy, PartialEq, Eq, Debug, Default)]
pub struct Hops {
    pub refusal: u8,
    pub hops: u8,
}

#[repr(C)]
#[derive(Clone, Copy, PartialEq, Eq, Debug, Default)]
pub struct Waiting {
    pub set: u64,
    pub tasks: u32,
    pub refusal: u8,
}

#[repr(C)]
#[derive(Clone, Copy, PartialEq, Eq, Debug, Default)]
pub struct Row {
    pub batch: u32,
    pub count: u32,
    pub readings: [i16; READINGS],
}

#[repr(C)]
#[derive(Clone, Copy, PartialEq, Eq, Debug, Default)]
pub struct Figures {
    pub sum: i32,
    pub lowest: i16,
    pub highest: i16,
    pub refusal: u8,
    pub held: u8,
}

#[repr(C)]
#[derive(Clone, Copy, PartialEq, Eq, Debug, Default)]
pub struct RowBatch {
    pub batch: u32,
    pub refusal: u8,
}

#[repr(C)]
#[derive(Clone, Copy, PartialEq, Eq, Debug, Default)]
pub struct Command {
    pub code: u8,
    pub first: u8,
    pub second: u8,
    pub record: Record,
}

#[repr(C)]
#[derive(Clone, Copy, PartialEq, Eq, Debug, Default)]
pub struct Reading {
    pub next: usize,
    pub refusal: u8,
    pub end: u8,
    pub command: Command,
}

#[repr(C)]
#[derive(Clone, Copy, PartialEq, Eq, Debug, Default)]
pub struct Writing {
    pub next: usize,
    pub refusal: u8,
}

// The header's assertions.
const _: () = {
    assert!(size_of::<Ring>() == 7496 && offset_of!(Ring, carried) == 4936);
    assert!(size_of::<Record>() == 40 && offset_of!(Record, temperature) == 6);
    assert!(size_of::<Delivery>() == 44 && offset_of!(Delivery, record) == 4);
    assert!(size_of::<Dispatched>() == 2628 && offset_of!(Dispatched, count) == 3 && offset_of!(Dispatched, records) == 68);
    assert!(size_of::<Hops>() == 2 && size_of::<Waiting>() == 16 && offset_of!(Waiting, refusal) == 12);
    assert!(size_of::<Row>() == 56 && offset_of!(Row, readings) == 8);
    assert!(size_of::<Figures>() == 12 && offset_of!(Figures, highest) == 6 && offset_of!(Figures, held) == 9);
    assert!(size_of::<RowBatch>() == 8 && offset_of!(RowBatch, refusal) == 4);
    assert!(size_of::<Command>() == 44 && offset_of!(Command, record) == 4);
    assert!(size_of::<Reading>() == 56 && offset_of!(Reading, command) == 12);
    assert!(size_of::<Writing>() == 16);
};

mod c {
    use super::{Command, Delivery, Dispatched, Figures, Hops, Reading, Record, Ring, Row, RowBatch, Waiting, Writing};

    extern "C" {
        pub fn vessel_version() -> u32;
        pub fn vessel_ring_fresh() -> Ring;
        pub fn vessel_ring_add_node(ring: &mut Ring, slots: u8) -> u8;
        pub fn vessel_ring_add_channel(ring: &mut Ring, sender: u8, receiver: u8) -> u8;
        pub fn vessel_ring_start(ring: &mut Ring) -> u8;
        pub fn vessel_ring_receive(ring: &mut Ring, channel: u8) -> u8;
        pub fn vessel_ring_send(ring: &mut Ring, channel: u8, record: Record) -> u8;
        pub fn vessel_ring_send_tenths(ring: &mut Ring, channel: u8, record: Record) -> u8;
        pub fn vessel_ring_enter(ring: &mut Ring, node: u8) -> u8;
        pub fn vessel_ring_move(ring: &mut Ring, node: u8) -> Delivery;
        pub fn vessel_ring_dispatch(ring: &mut Ring, rounds: u16) -> Dispatched;
        pub fn vessel_ring_withdraw(ring: &mut Ring, channel: u8) -> u8;
        pub fn vessel_ring_hops_left(ring: &Ring, channel: u8) -> Hops;
        pub fn vessel_ring_waiting_set(ring: &Ring, node: u8) -> Waiting;
        pub fn vessel_ring_is_sound(ring: &Ring) -> u8;
        pub fn vessel_record_in(bytes: *const u8, length: usize) -> Record;
        pub fn vessel_ring_to_hundredths(ring: &mut Ring) -> u8;
        pub fn vessel_history_note(table: *mut Row, rows: usize, record: Record) -> u8;
        pub fn vessel_history_close(table: *mut Row, rows: usize, batch: u32) -> u8;
        pub fn vessel_history_figures(table: *const Row, rows: usize, batch: u32) -> Figures;
        pub fn vessel_history_batch(table: *const Row, rows: usize, row: usize) -> RowBatch;
        pub fn vessel_history_to_hundredths(table: *mut Row, rows: usize) -> u8;
        pub fn vessel_tape_read(bytes: *const u8, length: usize, place: usize) -> Reading;
        pub fn vessel_tape_write(bytes: *mut u8, length: usize, place: usize, command: Command) -> Writing;
        pub fn vessel_ring_list(tape: *const u8, length: usize, out: *mut u8, room: usize) -> usize;
    }
}

/// The library's version.
pub fn version() -> u32 {
    unsafe { c::vessel_version() }
}

impl Record {
    /// A record with this name; 13 where it is too long, which is never cut.
    pub fn named(batch: u32, vessel: u8, temperature: i16, name: &str) -> Result<Record, u8> {
        let mut record = Record { batch, vessel, temperature, ..Record::default() };
        let cells = record.name.get_mut(..name.len()).ok_or(NAME_TOO_LONG)?;
        cells.copy_from_slice(name.as_bytes());
        record.name_length = name.len() as u8;
        Ok(record)
    }

    /// The record in bytes as a ring holds it; of fewer than 40, a record of zeros.
    pub fn from_bytes(bytes: &[u8]) -> Record {
        unsafe { c::vessel_record_in(bytes.as_ptr(), bytes.len()) }
    }
}

impl Ring {
    pub fn fresh() -> Ring {
        unsafe { c::vessel_ring_fresh() }
    }

    /// Any bytes: every pattern of them is a value.
    pub fn from_bytes(bytes: &[u8; size_of::<Ring>()]) -> Ring {
        unsafe { bytes.as_ptr().cast::<Ring>().read_unaligned() }
    }

    pub fn to_bytes(&self) -> [u8; size_of::<Ring>()] {
        unsafe { (self as *const Ring).cast::<[u8; size_of::<Ring>()]>().read() }
    }

    pub fn add_node(&mut self, slots: u8) -> u8 {
        unsafe { c::vessel_ring_add_node(self, slots) }
    }

    pub fn add_channel(&mut self, sender: u8, receiver: u8) -> u8 {
        unsafe { c::vessel_ring_add_channel(self, sender, receiver) }
    }

    pub fn start(&mut self) -> u8 {
        unsafe { c::vessel_ring_start(self) }
    }

    pub fn receive(&mut self, channel: u8) -> u8 {
        unsafe { c::vessel_ring_receive(self, channel) }
    }

    pub fn send(&mut self, channel: u8, record: Record) -> u8 {
        unsafe { c::vessel_ring_send(self, channel, record) }
    }

    /// A send whose temperature is in tenths.
    pub fn send_tenths(&mut self, channel: u8, record: Record) -> u8 {
        unsafe { c::vessel_ring_send_tenths(self, channel, record) }
    }

    pub fn enter(&mut self, node: u8) -> u8 {
        unsafe { c::vessel_ring_enter(self, node) }
    }

    pub fn move_on(&mut self, node: u8) -> Delivery {
        unsafe { c::vessel_ring_move(self, node) }
    }

    pub fn dispatch(&mut self, rounds: u16) -> Dispatched {
        unsafe { c::vessel_ring_dispatch(self, rounds) }
    }

    /// So many rounds that nothing is left on a sound ring: c × (2n + 2).
    pub fn rounds_enough(&self) -> u16 {
        u16::from(self.channel_count) * (2 * u16::from(self.node_count) + 2)
    }

    /// How many channels are asking or answering: 0 where nothing is left to dispatch.
    pub fn under_way(&self) -> usize {
        self.phases.iter().filter(|phase| matches!(phase, 1 | 3)).count()
    }

    pub fn withdraw(&mut self, channel: u8) -> u8 {
        unsafe { c::vessel_ring_withdraw(self, channel) }
    }

    pub fn hops_left(&self, channel: u8) -> Hops {
        unsafe { c::vessel_ring_hops_left(self, channel) }
    }

    pub fn waiting_set(&self, node: u8) -> Waiting {
        unsafe { c::vessel_ring_waiting_set(self, node) }
    }

    pub fn is_sound(&self) -> bool {
        unsafe { c::vessel_ring_is_sound(self) == 1 }
    }

    /// Turns a ring held in tenths into one held in hundredths.
    pub fn to_hundredths(&mut self) -> u8 {
        unsafe { c::vessel_ring_to_hundredths(self) }
    }
}

impl Dispatched {
    /// Channel and record of each delivery, in order.
    pub fn deliveries(&self) -> impl Iterator<Item = (u8, Record)> + '_ {
        self.channels.iter().copied().zip(self.records).take(self.count.into())
    }
}

/// Notes a record in a history, which is 128 rows; all of them empty to begin with.
pub fn note(table: &mut [Row], record: Record) -> u8 {
    unsafe { c::vessel_history_note(table.as_mut_ptr(), table.len(), record) }
}

/// Closes a batch of a history.
pub fn close(table: &mut [Row], batch: u32) -> u8 {
    unsafe { c::vessel_history_close(table.as_mut_ptr(), table.len(), batch) }
}

/// The figures of a batch in a history.
pub fn figures(table: &[Row], batch: u32) -> Figures {
    unsafe { c::vessel_history_figures(table.as_ptr(), table.len(), batch) }
}

/// The batch of a row of a history; 0 where there is none.
pub fn batch_in(table: &[Row], row: usize) -> RowBatch {
    unsafe { c::vessel_history_batch(table.as_ptr(), table.len(), row) }
}

/// Turns a history held in tenths into one held in hundredths.
pub fn to_hundredths(table: &mut [Row]) -> u8 {
    unsafe { c::vessel_history_to_hundredths(table.as_mut_ptr(), table.len()) }
}

pub fn read(tape: &[u8], place: usize) -> Reading {
    unsafe { c::vessel_tape_read(tape.as_ptr(), tape.len(), place) }
}

pub fn write(tape: &mut [u8], place: usize, command: Command) -> Writing {
    unsafe { c::vessel_tape_write(tape.as_mut_ptr(), tape.len(), place, command) }
}

/// How many bytes of the listing were written.
pub fn list(tape: &[u8], out: &mut [u8]) -> usize {
    unsafe { c::vessel_ring_list(tape.as_ptr(), tape.len(), out.as_mut_ptr(), out.len()) }
}
