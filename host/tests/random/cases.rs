//! Registers by chance: their settings, and the reports that fill them.

use crate::chance::Chance;
use crate::reports::{clock, condition, ill_formed, well_formed};
use crate::settings::Timers;
use crate::trains::Yard;
use crate::values;
use crate::words;
use degvuurel::{HeadNumber, Report, Settings};
use std::fmt;

/// A register to fill.
#[derive(Clone)]
pub struct Case {
    pub settings: Settings,
    pub reports: Vec<Report>,
    /// The bytes lent beyond the entries.
    pub beyond: usize,
    /// What all lent bytes are before.
    pub filling: u8,
    /// Of the walk through the register and the appends that are refused.
    pub seed: u64,
}

/// A case in a planner's words.
impl fmt::Display for Case {
    fn fmt(&self, f: &mut fmt::Formatter<'_>) -> fmt::Result {
        write!(f, "settings: {}", words::settings(values::settings(self.settings)))?;
        for (place, report) in self.reports.iter().enumerate() {
            write!(f, "\n{:>5} {report}", place + 1)?;
        }
        Ok(())
    }
}

/// What the reports of a register are like.
#[derive(Clone, Copy)]
enum Kind {
    /// Trains, clocks and head conditions.
    Trains,
    /// Trains, and detectors that fail and are restored, islands cleared and the station normalised, and some wrong reports.
    Troubled,
    /// Any reports with fields as their kinds have them.
    WellFormed,
    /// Any reports, many with wrong fields.
    IllFormed,
}

/// A register of some kind, with timers and a length to fit.
pub fn by_chance(chance: &mut Chance) -> Case {
    let timers = Timers::by_chance(chance);
    let length = chance.below(timers.reports() + 1);
    of_length(chance, timers, length)
}

/// A register of so many reports.
pub fn of_length(chance: &mut Chance, timers: Timers, length: usize) -> Case {
    use Kind::{IllFormed, Trains, Troubled, WellFormed};
    let kind = chance.pick(&[Trains, Trains, Trains, Troubled, Troubled, Troubled, WellFormed, IllFormed]);
    let settings = timers.settings(chance);
    let mut filled =
        Filling { settings, ticks_left: timers.ticks(), yard: Yard::by_chance(chance, settings.tracks), reports: Vec::new() };
    // A fresh station is out of service, and few rules show in it.
    if !chance.one_in(12) {
        filled.reports.push(Report::normalise());
    }
    // Two trains at once put most rules to use, and a short register would seldom come to them.
    if chance.one_in(4) {
        let arrivals = [(); 2].map(|()| filled.yard.arrives(chance));
        filled.enter(arrivals.to_vec());
    }
    while filled.reports.len() < length {
        filled.go_on(chance, kind);
    }
    filled.reports.truncate(length);
    let beyond = chance.pick(&[0, 0, 1, 7, 8, 20]);
    Case { settings, reports: filled.reports, beyond, filling: chance.byte(), seed: chance.number() }
}

/// A register that is being filled.
struct Filling {
    settings: Settings,
    ticks_left: u32,
    yard: Yard,
    reports: Vec<Report>,
}

impl Filling {
    fn go_on(&mut self, chance: &mut Chance, kind: Kind) {
        let reports = match kind {
            // T5 may have latched the fault, and then only this shows other aspects again.
            Kind::Trains if chance.one_in(40) => self.yard.cleared(chance),
            Kind::Trains => vec![self.of_trains(chance)],
            Kind::Troubled if chance.one_in(12) => self.yard.cleared(chance),
            Kind::Troubled => vec![self.of_trouble(chance)],
            Kind::WellFormed => vec![well_formed(chance, self.settings, &mut self.ticks_left)],
            Kind::IllFormed => vec![self.of_any_form(chance)],
        };
        self.enter(reports);
    }

    fn enter(&mut self, reports: Vec<Report>) {
        reports.iter().for_each(|&report| self.yard.note(report));
        self.reports.extend(reports);
    }

    fn of_trains(&mut self, chance: &mut Chance) -> Report {
        let report = match chance.below(12) {
            0 => Some(Report::head(HeadNumber(chance.below(2) as u8), condition(chance))),
            1..=8 => self.yard.moves(chance),
            _ => None,
        };
        report.unwrap_or_else(|| clock(chance, self.settings, &mut self.ticks_left))
    }

    fn of_trouble(&mut self, chance: &mut Chance) -> Report {
        match chance.below(16) {
            0 => self.yard.detector(chance),
            1 => well_formed(chance, self.settings, &mut self.ticks_left),
            2 if chance.one_in(3) => ill_formed(chance, self.settings, &mut self.ticks_left),
            _ => self.of_trains(chance),
        }
    }

    fn of_any_form(&mut self, chance: &mut Chance) -> Report {
        if chance.one_in(2) {
            return ill_formed(chance, self.settings, &mut self.ticks_left);
        }
        well_formed(chance, self.settings, &mut self.ticks_left)
    }
}
