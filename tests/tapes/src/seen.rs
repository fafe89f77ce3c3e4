//! What the tapes showed.

use calls::listing::{Listing, NUMBERS};
use common::program::Shown;
use common::sights::Sights;
use second_model::coverage::{self, Temperatures, Withdrawals, NAME_SIGHTS};
use second_model::generate::UNDONE_RECEIVES;

/// Fewer deliveries for each drawn tape would mean that the tapes test little.
const DELIVERIES_FLOOR: u64 = 20;
/// The same of accepted withdrawals.
const WITHDRAWALS_FLOOR: u64 = 8;
/// At least one of so many drawn tapes has a 27, and a 28, in the mean.
const NOT_WITHDRAWN_EVERY: u64 = 2;
/// As many 30 as drawn tapes, in the mean.
const BLANK_ENDS_FLOOR: u64 = 1;
/// So many accepted sends in tenths for each drawn tape, and in hundredths.
const SENDS_FLOOR: u64 = 10;
/// At least one of so many drawn tapes delivers records of both units.
const BOTH_DELIVERED_EVERY: u64 = 3;

/// What one tape shows, or several.
pub struct Seen {
    withdrawals: Withdrawals,
    names: Sights,
    temperatures: Temperatures,
}

impl Seen {
    pub fn of(tape: &[u8]) -> Seen {
        Seen { withdrawals: coverage::withdrawals(tape), names: coverage::names(tape), temperatures: coverage::temperatures(tape) }
    }
}

pub struct Sums {
    tapes: u64,
    too_long: u64,
    commands: u64,
    deliveries: u64,
    refusals: [u64; NUMBERS],
    seen: Seen,
    pub differences: usize,
}

impl Sums {
    pub fn new() -> Sums {
        let seen = Seen { withdrawals: Withdrawals::default(), names: Sights::of(NAME_SIGHTS), temperatures: Temperatures::default() };
        Sums { tapes: 0, too_long: 0, commands: 0, deliveries: 0, refusals: [0; NUMBERS], seen, differences: 0 }
    }

    pub fn add(&mut self, listing: &Listing, seen: &Seen) {
        self.tapes += 1;
        self.too_long += u64::from(listing.too_long);
        self.commands += listing.commands();
        self.deliveries += listing.deliveries;
        self.refusals.iter_mut().zip(listing.answers).for_each(|(sum, count)| *sum += count);
        self.seen.withdrawals.add(&seen.withdrawals);
        self.seen.names.add(&seen.names);
        self.seen.temperatures.add(&seen.temperatures);
    }

    /// What so many drawn tapes have to show, beside the aimed ones.
    pub fn shown(&self, seed: u64, drawn: u64) -> Shown {
        let Sums { tapes, too_long, commands, .. } = self;
        let figures = format!("seed {seed}: {tapes} tapes, {too_long} of them too long; {commands} commands");
        let mut sights = Sights::default();
        self.ask_refusals(&mut sights, drawn);
        self.ask_withdrawals(&mut sights, drawn);
        let [tenths, hundredths] = self.seen.temperatures.accepted.map(u64::from);
        let both = u64::from(self.seen.temperatures.both_delivered);
        sights.ask("deliveries", self.deliveries, drawn * DELIVERIES_FLOOR);
        sights.ask("sends in tenths accepted", tenths, drawn * SENDS_FLOOR);
        sights.ask("sends in hundredths accepted", hundredths, drawn * SENDS_FLOOR);
        sights.ask("tapes that deliver records of both units", both, 1 + drawn / BOTH_DELIVERED_EVERY);
        sights.take_in("send: ", &self.seen.names);
        sights.take_in("send: ", &self.seen.temperatures.sights);
        Shown { figures, sights }
    }

    /// A tape reaches 1 to 23, 27, 28 and 30; 24 and 26 belong to places and lent
    /// buffers, 25 to a ring that did not come from these operations, 29 to the history.
    fn ask_refusals(&self, sights: &mut Sights, drawn: u64) {
        for number in (1..=23).chain([27, 28, 30]) {
            let floor = match number {
                27 | 28 => drawn / NOT_WITHDRAWN_EVERY,
                30 => drawn * BLANK_ENDS_FLOOR,
                _ => 1,
            };
            sights.ask(format!("refusal {number}"), self.refusals[number], floor.max(1));
        }
    }

    fn ask_withdrawals(&self, sights: &mut Sights, drawn: u64) {
        let Withdrawals { accepted, marks_cleared, marks_kept, freed_moves, most_undone } = self.seen.withdrawals;
        sights.ask("withdraw: accepted", accepted.into(), drawn * WITHDRAWALS_FLOOR);
        sights.ask("withdraw: a turn mark cleared", marks_cleared.into(), 1);
        sights.ask("withdraw: the first out of a line that kept its mark", marks_kept.into(), 1);
        sights.ask("withdraw: a move freed that was 21", freed_moves.into(), 1);
        sights.ask("withdraw: the most receives undone between a match and its delivery", most_undone.into(), UNDONE_RECEIVES.into());
    }
}
