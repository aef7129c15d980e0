//! Appending and starting where it is refused, or where it is not expected: any entry, other settings, bytes that are too few or no
//! register. Whole buffers are compared, so that a byte written by a refusal shows.

use crate::cases::Case;
use crate::chance::Chance;
use crate::filling::{append_both, made_by_both, start_both, Filled};
use crate::reports::{ill_formed, well_formed};
use crate::runs::Bench;
use crate::settings::{any, outside, Timers};
use degvuurel::{Settings, ENTRY, HEADER, MOST};

/// The appends tried after each register.
const TRIED: usize = 5;

/// The ticks of a clock in them.
const TICKS: u32 = 20;

pub fn compare(case: &Case, filled: &Filled, bench: &mut Bench) -> Result<(), String> {
    let mut chance = Chance::from(!case.seed);
    for _ in 0..TRIED {
        append_somewhere(case, filled.clone(), &mut chance, bench)?;
    }
    start_somewhere(&mut chance, bench)
}

/// One append, with up to three things changed, so that the order of the tests shows.
fn append_somewhere(case: &Case, mut filled: Filled, chance: &mut Chance, bench: &mut Bench) -> Result<(), String> {
    let mut k = chance.below(case.reports.len() + 1);
    let mut report = well_formed(chance, case.settings, &mut TICKS.clone());
    for _ in 0..1 + chance.below(3) {
        match chance.below(8) {
            0 => k = entry_somewhere(case.reports.len(), chance),
            1 => filled.station.settings = other_settings(case.settings, chance),
            2 => filled.station.settings = written_settings(&mut filled.bytes, case.settings, chance),
            3 => _ = written_settings(&mut filled.bytes, case.settings, chance),
            4 => filled.bytes.truncate(shorter(filled.bytes.len(), chance)),
            5 => change(&mut filled.bytes, chance.below(3), chance),
            6 => change(&mut filled.bytes, 3 + chance.below(2), chance),
            _ => report = ill_formed(chance, case.settings, &mut TICKS.clone()),
        }
    }
    let said = (filled.bytes.len(), filled.station.settings);
    let header = filled.bytes[..filled.bytes.len().min(HEADER)].to_vec();
    append_both(&mut filled, k, report, bench)
        .map_err(|difference| format!("{difference}\n    in (bytes, station's settings) {said:?}, header {header:?}"))
}

fn entry_somewhere(entries: usize, chance: &mut Chance) -> usize {
    let far = [MOST - 1, MOST, MOST + 1, usize::MAX, usize::MAX / ENTRY, usize::MAX / ENTRY + 1, usize::MAX - HEADER];
    if chance.one_in(2) {
        return chance.pick(&far);
    }
    entries + chance.below(4)
}

/// Settings of which one differs, or that are outside their limits.
fn other_settings(own: Settings, chance: &mut Chance) -> Settings {
    let other = if chance.one_in(3) { outside(chance) } else { Timers::Small.settings(chance) };
    match chance.below(7) {
        0 => Settings { tracks: other.tracks, ..own },
        1 => Settings { t1: other.t1, ..own },
        2 => Settings { t2: other.t2, ..own },
        3 => Settings { t3: other.t3, ..own },
        4 => Settings { t4: other.t4, ..own },
        5 => Settings { t5: other.t5, ..own },
        _ => other,
    }
}

/// Writes other settings in the header, so far as there is one.
fn written_settings(bytes: &mut [u8], own: Settings, chance: &mut Chance) -> Settings {
    let settings = other_settings(own, chance);
    let Settings { tracks, t1, t2, t3, t4, t5 } = settings;
    if bytes.len() >= HEADER {
        bytes[5] = tracks;
        for (pair, timer) in bytes[6..HEADER].chunks_exact_mut(2).zip([t1, t2, t3, t4, t5]) {
            pair.copy_from_slice(&timer.to_le_bytes());
        }
    }
    settings
}

fn shorter(length: usize, chance: &mut Chance) -> usize {
    if chance.one_in(2) {
        return chance.below(HEADER + ENTRY + 1);
    }
    length.saturating_sub(chance.below(2 * ENTRY))
}

fn change(bytes: &mut [u8], at: usize, chance: &mut Chance) {
    if let Some(byte) = bytes.get_mut(at) {
        *byte = chance.byte();
    }
}

/// Starts a register in few bytes, and with any settings.
fn start_somewhere(chance: &mut Chance, bench: &mut Bench) -> Result<(), String> {
    let settings = match chance.below(4) {
        0 => outside(chance),
        1 => any(chance),
        _ => Timers::Middle.settings(chance),
    };
    let mut bytes = vec![chance.byte(); chance.below(HEADER + ENTRY)];
    start_both(&mut bytes, settings, bench).map_err(|difference| format!("{difference}\n    of {settings:?}"))?;
    made_by_both(settings, &mut bench.tally).map(|_| ())
}
