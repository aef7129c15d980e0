//! A reader of planner's texts in plain Rust, which shares nothing with the library: bytes go in, and settings and reports with
//! their lines come out, or what is wrong.

use crate::paper::{append, make, settings_answer, start, Report, Settings};

const BYTE_ORDER_MARK: &[u8] = b"\xEF\xBB\xBF";

/// "At most 8,190 entries."
const MOST_REPORTS: usize = 8190;

const NEITHER: u8 = 1;
const NUMBER_MISSING: u8 = 2;
const WORD_TOO_MANY: u8 = 3;
const NOT_TO_255: u8 = 4;
const NOT_TO_65535: u8 = 5;
const LATE_SETTING: u8 = 6;
const SET_ALREADY: u8 = 7;
const REPORT_TOO_EARLY: u8 = 8;
const OUTSIDE_LIMITS: u8 = 9;
const TOO_MANY_REPORTS: u8 = 10;
const ENDS_TOO_EARLY: u8 = 11;

/// So many faults, and 0, which is none.
pub const FAULTS: usize = 12;

/// What is meant by a text: settings within their limits, and the reports, each with its line, counted from 1.
#[derive(Debug, PartialEq, Eq)]
pub struct Plan {
    pub settings: Settings,
    pub reports: Vec<(usize, Report)>,
}

impl Plan {
    /// The register that it means, as the paper fills it.
    pub fn register(&self) -> Vec<u8> {
        let mut bytes = vec![0; 16 + 8 * self.reports.len()];
        start(&mut bytes, self.settings);
        let (_, mut station) = make(self.settings);
        for (k, &(_, report)) in self.reports.iter().enumerate() {
            append(&mut bytes, k, &mut station, report);
        }
        bytes
    }
}

/// What is wrong with a text, 1 to 11, and on which line, counted from 1; 0 is the text's end.
#[derive(Clone, Copy, Debug, PartialEq, Eq)]
pub struct Misread {
    pub fault: u8,
    pub line: usize,
}

/// A number that a word is followed by: how great it may be, and what is wrong where it is not one up to that.
#[derive(Clone, Copy)]
enum Number {
    Byte,
    Pair,
}

impl Number {
    fn most(self) -> (u64, u8) {
        match self {
            Number::Byte => (255, NOT_TO_255),
            Number::Pair => (65_535, NOT_TO_65535),
        }
    }
}

use Number::{Byte, Pair};

/// What a line says, without regard to the others: numbers behind a setting, by its place in the header, or a report.
enum Line {
    Setting(usize, u64),
    Report(Report),
}

const SETTINGS: [(&str, Number); 6] = [("tracks", Byte), ("t1", Pair), ("t2", Pair), ("t3", Pair), ("t4", Pair), ("t5", Pair)];

/// A kind of report by its word, its number, and the numbers that follow. `report` has its kind among them.
const REPORTS: [(&str, u8, &[Number]); 8] = [
    ("occupied", 1, &[Byte, Byte]),
    ("free", 2, &[Byte, Byte]),
    ("clock", 3, &[Pair]),
    ("failed", 4, &[Byte, Byte]),
    ("restored", 5, &[Byte, Byte]),
    ("head", 6, &[Byte, Pair]),
    ("normalise", 7, &[]),
    ("report", 0, &[Byte, Byte, Byte, Byte, Pair]),
];

/// Reads a text, up to its first fault.
pub fn read(text: &[u8]) -> Result<Plan, Misread> {
    let mut given = [None; 6];
    let mut reports = Vec::new();
    let text = text.strip_prefix(BYTE_ORDER_MARK).unwrap_or(text);
    for (line, bytes) in (1..).zip(text.split(|&byte| byte == b'\n')) {
        let misread = |fault| Misread { fault, line };
        match said(bytes).map_err(misread)? {
            None => {}
            Some(Line::Setting(_, _)) if !reports.is_empty() => return Err(misread(LATE_SETTING)),
            Some(Line::Setting(place, _)) if given[place].is_some() => return Err(misread(SET_ALREADY)),
            Some(Line::Setting(place, number)) => {
                given[place] = Some(number);
                if settings_of(&given).is_some_and(|settings| settings_answer(settings) != 0) {
                    return Err(misread(OUTSIDE_LIMITS));
                }
            }
            Some(Line::Report(_)) if settings_of(&given).is_none() => return Err(misread(REPORT_TOO_EARLY)),
            Some(Line::Report(_)) if reports.len() == MOST_REPORTS => return Err(misread(TOO_MANY_REPORTS)),
            Some(Line::Report(report)) => reports.push((line, report)),
        }
    }
    let settings = settings_of(&given).ok_or(Misread { fault: ENDS_TOO_EARLY, line: 0 })?;
    Ok(Plan { settings, reports })
}

/// The settings, once all six are given.
fn settings_of(given: &[Option<u64>; 6]) -> Option<Settings> {
    let &[Some(tracks), Some(t1), Some(t2), Some(t3), Some(t4), Some(t5)] = given else { return None };
    let [t1, t2, t3, t4, t5] = [t1, t2, t3, t4, t5].map(|timer| timer as u16);
    Some(Settings { tracks: tracks as u8, t1, t2, t3, t4, t5 })
}

/// The words of a line, which a comment ends.
fn words(line: &[u8]) -> Vec<&[u8]> {
    let before = line.split(|&byte| byte == b'#').next().unwrap_or_default();
    before.split(|byte| b" \t\r".contains(byte)).filter(|word| !word.is_empty()).collect()
}

/// What a line says, or the first of 1 to 5 that is wrong with its words. Without words it says nothing.
fn said(line: &[u8]) -> Result<Option<Line>, u8> {
    let words = words(line);
    let Some((first, rest)) = words.split_first() else { return Ok(None) };
    let is = |name: &str| first.eq_ignore_ascii_case(name.as_bytes());
    if let Some(place) = SETTINGS.iter().position(|(name, _)| is(name)) {
        let numbers = numbers(rest, &[SETTINGS[place].1])?;
        return Ok(Some(Line::Setting(place, numbers[0])));
    }
    let &(_, kind, expected) = REPORTS.iter().find(|(name, _, _)| is(name)).ok_or(NEITHER)?;
    Ok(Some(Line::Report(report(kind, &numbers(rest, expected)?))))
}

/// The numbers that are expected behind a word, and no more words.
fn numbers(words: &[&[u8]], expected: &[Number]) -> Result<Vec<u64>, u8> {
    let mut numbers = Vec::new();
    for (place, number) in expected.iter().enumerate() {
        let word = words.get(place).ok_or(NUMBER_MISSING)?;
        let (most, fault) = number.most();
        numbers.push(value(word).filter(|&value| value <= most).ok_or(fault)?);
    }
    if words.len() > expected.len() {
        return Err(WORD_TOO_MANY);
    }
    Ok(numbers)
}

/// The value of a word of digits alone. One of many digits is no more than a very great number.
fn value(word: &[u8]) -> Option<u64> {
    let digit = |byte: u8| byte.is_ascii_digit().then(|| u64::from(byte - b'0'));
    word.iter().try_fold(0_u64, |value, &byte| Some(value.saturating_mul(10).saturating_add(digit(byte)?)))
}

/// A report of a kind; of kind 0 one of any numbers. What a kind does not have is 0.
fn report(kind: u8, numbers: &[u64]) -> Report {
    let byte = |place: usize| numbers[place] as u8;
    match kind {
        0 => Report { kind: byte(0), a: byte(1), b: byte(2), spare: byte(3), value: numbers[4] as u16 },
        3 => Report { kind, a: 0, b: 0, spare: 0, value: numbers[0] as u16 },
        6 => Report { kind, a: byte(0), b: 0, spare: 0, value: numbers[1] as u16 },
        7 => Report { kind, a: 0, b: 0, spare: 0, value: 0 },
        _ => Report { kind, a: byte(0), b: byte(1), spare: 0, value: 0 },
    }
}
