//! Damaged registers: a bit turned, cut, lengthened, other bytes, and bytes that never were a register.

use crate::cases;
use crate::chance::Chance;
use crate::paper;
use crate::reading;
use crate::runs::{guarded, Bench, Found};
use crate::settings::{outside, Timers};
use crate::shrink::fewest;
use crate::values;
use crate::words;
use degvuurel::{report_in, Register, ENTRY, HEADER, MOST, MOST_BYTES};

/// The most reports of a register that is damaged. A damaged clock may go for long, and every row after it walks it again.
const REPORTS: usize = 14;

pub fn try_case(chance: &mut Chance, bench: &mut Bench) -> Result<(), Found> {
    let bytes = match chance.below(40) {
        0 => (0..chance.below(80)).map(|_| chance.byte()).collect(),
        1 => of_any_bytes(chance),
        2 | 3 => over_long(chance),
        _ => damaged(chance),
    };
    agree(bytes, chance.number(), bench)
}

/// Hundreds of rows, or as many as there can be, of which one has another answer or aspect: 13 names entries of every size.
pub fn try_long(chance: &mut Chance, bench: &mut Bench) -> Result<(), Found> {
    let length = if chance.one_in(4) { MOST } else { 200 + chance.below(400) };
    let mut bytes = of_length(chance, length);
    outcome(&mut bytes, chance);
    agree(bytes, chance.number(), bench)
}

fn whole(chance: &mut Chance) -> Vec<u8> {
    let length = chance.below(REPORTS + 1);
    of_length(chance, length)
}

/// A register of so many reports as the paper fills it.
fn of_length(chance: &mut Chance, length: usize) -> Vec<u8> {
    let case = cases::of_length(chance, Timers::Small, length);
    let mut bytes = vec![0; HEADER + ENTRY * case.reports.len()];
    let settings = values::settings(case.settings);
    paper::start(&mut bytes, settings);
    let (_, mut station) = paper::make(settings);
    for (k, &report) in case.reports.iter().enumerate() {
        paper::append(&mut bytes, k, &mut station, values::report(report));
    }
    bytes
}

/// Up to three damages, so that the order of the tests shows.
fn damaged(chance: &mut Chance) -> Vec<u8> {
    let mut bytes = whole(chance);
    for _ in 0..1 + chance.below(3) {
        if bytes.is_empty() {
            return bytes;
        }
        match chance.below(12) {
            0 | 1 => turn_a_bit(&mut bytes, chance),
            2 => bytes.truncate(chance.below(bytes.len())),
            3 => bytes.truncate((bytes.len() - 1) / ENTRY * ENTRY),
            4 => bytes.extend((0..1 + chance.below(20)).map(|_| chance.byte())),
            5 => bytes.extend([chance.byte(); ENTRY]),
            6 => replace(&mut bytes, chance),
            7 => header(&mut bytes, chance),
            8 | 9 => outcome(&mut bytes, chance),
            10 => move_an_entry(&mut bytes, chance),
            _ => change(&mut bytes, chance.below(HEADER), chance),
        }
    }
    bytes
}

fn turn_a_bit(bytes: &mut [u8], chance: &mut Chance) {
    let at = chance.below(bytes.len());
    bytes[at] ^= 1 << chance.below(8);
}

fn change(bytes: &mut [u8], at: usize, chance: &mut Chance) {
    if let Some(byte) = bytes.get_mut(at) {
        *byte = chance.pick(&[0, 1, 2, 4, 5, 255]);
    }
}

/// Other bytes from some place on, but not for the header's mark, since little would be left to see.
fn replace(bytes: &mut [u8], chance: &mut Chance) {
    let first = chance.below(bytes.len()).max(3);
    let length = 1 + chance.below(ENTRY);
    bytes.iter_mut().skip(first).take(length).for_each(|byte| *byte = chance.byte());
}

/// The mark, the version or the settings.
fn header(bytes: &mut [u8], chance: &mut Chance) {
    match chance.below(4) {
        0 => change(bytes, chance.below(3), chance),
        1 => change(bytes, 3 + chance.below(2), chance),
        2 => change(bytes, 5 + chance.below(11), chance),
        _ => {
            let mut other = [0; HEADER];
            // Started with settings within their limits, whose timers are then made wrong or other ones.
            paper::start(&mut other, values::settings(Timers::Small.settings(chance)));
            let wrong = outside(chance);
            other[5] = wrong.tracks;
            other[8..10].copy_from_slice(&wrong.t2.to_le_bytes());
            let length = bytes.len().min(HEADER);
            bytes[..length].copy_from_slice(&other[..length]);
        }
    }
}

/// An entry's answer or aspect.
fn outcome(bytes: &mut [u8], chance: &mut Chance) {
    let entries = bytes.len().saturating_sub(HEADER) / ENTRY;
    if entries > 0 {
        let at = HEADER + ENTRY * chance.below(entries) + 6 + chance.below(2);
        bytes[at] = chance.between(0, 7) as u8;
    }
}

/// An entry is left out, or stands a second time.
fn move_an_entry(bytes: &mut Vec<u8>, chance: &mut Chance) {
    let entries = bytes.len().saturating_sub(HEADER) / ENTRY;
    if entries > 0 {
        let at = HEADER + ENTRY * chance.below(entries);
        let entry: Vec<u8> = bytes.drain(at..at + ENTRY).collect();
        if chance.one_in(2) {
            let to = HEADER + ENTRY * chance.below(entries);
            bytes.splice(to..to, entry);
        }
    }
}

/// A good header and any bytes after it.
fn of_any_bytes(chance: &mut Chance) -> Vec<u8> {
    let mut bytes = whole(chance);
    bytes[HEADER..].iter_mut().for_each(|byte| *byte = chance.between(0, 9) as u8);
    bytes
}

/// As many bytes as the most entries take, or some more or less. Their first entries are good ones.
fn over_long(chance: &mut Chance) -> Vec<u8> {
    let mut bytes = if chance.one_in(3) { damaged(chance) } else { whole(chance) };
    let length = match chance.below(4) {
        0 => MOST_BYTES + ENTRY * chance.below(3),
        1 => MOST_BYTES + chance.below(20) - 10,
        2 => MOST_BYTES + ENTRY,
        _ => HEADER + ENTRY * (MOST + 1 + chance.below(600)),
    };
    bytes.resize(length, chance.byte());
    bytes
}

/// Both sides agree, or this is the shortest register found on which they do not.
fn agree(bytes: Vec<u8>, seed: u64, bench: &mut Bench) -> Result<(), Found> {
    bench.tally.registers += 1;
    if guarded(|| reading::compare(&bytes, seed, bench)).is_ok() {
        return Ok(());
    }
    let header = bytes[..bytes.len().min(HEADER)].to_vec();
    let entries: Vec<Vec<u8>> = bytes[header.len()..].chunks(ENTRY).map(<[u8]>::to_vec).collect();
    let with = |entries: &[Vec<u8>]| [header.clone(), entries.concat()].concat();
    let kept = fewest(&entries, &mut |entries| guarded(|| reading::compare(&with(entries), seed, bench)).is_err());
    let shortest = with(&kept);
    let difference = guarded(|| reading::compare(&shortest, seed, bench)).err().unwrap_or_default();
    Err(Found { size: kept.len(), words: format!("{}\ndiffers: {difference}", in_words(&shortest)) })
}

/// So many of the last entries are shown.
const SHOWN: usize = 100;

/// The bytes of a damaged register, and what its entries say.
fn in_words(bytes: &[u8]) -> String {
    let header = &bytes[..bytes.len().min(HEADER)];
    let mut words = format!("header {header:?}: {}", words::settings(values::settings(Register::new(bytes).settings())));
    let entries = bytes[header.len()..].chunks(ENTRY);
    let left_out = entries.len().saturating_sub(SHOWN);
    if left_out > 0 {
        words += &format!("\n      the first {left_out} entries are left out here");
    }
    for (place, entry) in entries.enumerate().skip(left_out) {
        words += &format!("\n{:>5} {:<20} {entry:?}", place + 1, report_in(entry).to_string());
    }
    words
}
