//! Registers filled, read, stepped through and handed back by both sides.

use crate::cases::{self, Case};
use crate::chance::Chance;
use crate::filling::{fill, record, Filled};
use crate::reading;
use crate::refusals;
use crate::runs::{guarded, Bench, Found};
use crate::settings::Timers;
use crate::shrink::fewest_reports;
use degvuurel::{ENTRY, HEADER};

/// A register of some kind.
pub fn try_case(chance: &mut Chance, bench: &mut Bench) -> Result<(), Found> {
    agree(cases::by_chance(chance), bench)
}

/// A register of hundreds of rows.
pub fn try_long(chance: &mut Chance, bench: &mut Bench) -> Result<(), Found> {
    let length = 100 + chance.below(500);
    agree(cases::of_length(chance, Timers::Small, length), bench)
}

/// A register with no room for another entry.
pub fn try_full(chance: &mut Chance, bench: &mut Bench) -> Result<(), Found> {
    agree(cases::of_length(chance, Timers::Small, degvuurel::MOST), bench)
}

/// Both sides agree, or this is the shortest case found on which they do not. Where they differ on the register itself, the
/// appends tried after it are left out, since a report that is not in the register would be needed to see it.
fn agree(case: Case, bench: &mut Bench) -> Result<(), Found> {
    if guarded(|| compare(&case, bench)).is_ok() {
        return Ok(());
    }
    let itself = guarded(|| compare_itself(&case, bench).map(drop)).is_err();
    let mut compared = |case: &Case| guarded(|| if itself { compare_itself(case, bench).map(drop) } else { compare(case, bench) });
    let with = |reports: &[_]| Case { reports: reports.to_vec(), ..case.clone() };
    let reports = fewest_reports(&case.reports, &mut |reports| compared(&with(reports)).is_err());
    let shortest = with(&reports);
    let difference = compared(&shortest).err().unwrap_or_default();
    Err(Found { size: reports.len() + usize::from(!itself), words: format!("{shortest}\ndiffers: {difference}") })
}

/// A register filled, read and stepped through, and what it was filled to.
fn compare_itself(case: &Case, bench: &mut Bench) -> Result<Filled, String> {
    let filled = fill(case, bench)?;
    let end = HEADER + ENTRY * case.reports.len();
    reading::compare(&filled.bytes[..end], case.seed, bench)?;
    record(case, &filled)?;
    Ok(filled)
}

fn compare(case: &Case, bench: &mut Bench) -> Result<(), String> {
    let filled = compare_itself(case, bench)?;
    refusals::compare(case, &filled, bench)
}
