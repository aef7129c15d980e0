//! The library's values in the paper's types, in which both are compared.

use crate::paper;
use crate::words::Seen;
use degvuurel::{Condition, Island, Reading, Refusal, Report, Settings, Station};
use std::fmt;

pub fn settings(settings: Settings) -> paper::Settings {
    let Settings { tracks, t1, t2, t3, t4, t5 } = settings;
    paper::Settings { tracks, t1, t2, t3, t4, t5 }
}

pub fn report(report: Report) -> paper::Report {
    let Report { kind, a, b, spare, value } = report;
    paper::Report { kind, a, b, spare, value }
}

fn island(island: Island) -> paper::Island {
    let Island { occupied, leaving, failed, age } = island;
    paper::Island { occupied, leaving, failed, age }
}

pub fn station(station: &Station) -> paper::Station {
    paper::Station {
        settings: settings(station.settings),
        tracks: station.tracks.map(|track| track.islands.map(island)),
        hold: station.hold,
        fault: station.fault,
        conditions: station.conditions.map(Condition::bits),
    }
}

/// A station to be compared.
pub fn seen(shown: &Station) -> Seen {
    Seen(station(shown))
}

/// A number of the bytes, low byte first, of which those missing count as 0.
pub fn number_at(bytes: &[u8], at: usize) -> u16 {
    let byte = |at: usize| bytes.get(at).copied().unwrap_or(0);
    u16::from_le_bytes([byte(at), byte(at + 1)])
}

/// The report in an entry's bytes, of which those missing count as 0.
pub fn report_of(entry: &[u8]) -> Report {
    let [kind, a, b, spare] = [0, 1, 2, 3].map(|at| entry.get(at).copied().unwrap_or(0));
    Report { kind, a, b, spare, value: number_at(entry, 4) }
}

/// The number of an answer that carries nothing.
pub fn answer<T>(outcome: &Result<T, Refusal>) -> u8 {
    outcome.as_ref().map_or_else(|refusal| refusal.number(), |_| 0)
}

/// What reading, stepping or moving comes to. Refused, the package hands out no station and no count.
#[derive(Clone, Copy, Debug, PartialEq, Eq)]
pub struct Outcome {
    pub answer: u8,
    pub entry: usize,
    pub shown: Option<(usize, Seen)>,
}

impl Outcome {
    pub fn of_paper(reading: paper::Reading) -> Outcome {
        let shown = (reading.answer == 0).then_some((reading.count, Seen(reading.station)));
        Outcome { answer: reading.answer, entry: reading.entry, shown }
    }

    pub fn of_reading(outcome: Result<Reading, Refusal>) -> Outcome {
        match outcome {
            Ok(reading) => Outcome::of_step(Ok(reading.station), reading.count),
            Err(refusal) => Outcome::of_step(Err(refusal), 0),
        }
    }

    /// "A step's count is its row."
    pub fn of_step(outcome: Result<Station, Refusal>, row: usize) -> Outcome {
        match outcome {
            Ok(shown) => Outcome { answer: 0, entry: 0, shown: Some((row, seen(&shown))) },
            Err(refusal) => Outcome { answer: refusal.number(), entry: refusal.entry().unwrap_or(0), shown: None },
        }
    }
}

/// A difference in words, where there is one.
pub fn same<T: PartialEq + fmt::Debug>(what: fmt::Arguments, library: &T, paper: &T) -> Result<(), String> {
    if library == paper {
        return Ok(());
    }
    Err(format!("{what}\n    library {library:?}\n    paper   {paper:?}"))
}

/// As [`same`], for bytes, of which only the first that differs is shown.
pub fn same_bytes(what: fmt::Arguments, library: &[u8], paper: &[u8]) -> Result<(), String> {
    if library == paper {
        return Ok(());
    }
    let at = library.iter().zip(paper).take_while(|(one, other)| one == other).count();
    let (one, other) = (library.get(at), paper.get(at));
    let lengths = (library.len(), paper.len());
    Err(format!("{what}: byte {at} is {one:?} in the library's and {other:?} in the paper's, of lengths {lengths:?}"))
}
