//! Stations that no run reaches, and reports of any kind taken by them.

use crate::chance::Chance;
use crate::filling::{append_both, made_by_both, shown_by_both, start_both, take_both, Filled};
use crate::reports::{ill_formed, well_formed};
use crate::runs::{guarded, Bench, Found};
use crate::settings::{any, outside, Timers};
use crate::shrink::fewest_reports;
use crate::values::seen;
use degvuurel::{Condition, Island, Report, Settings, Station, Track, ENTRY, HEADER};

/// The most reports that a station takes.
const REPORTS: usize = 4;

pub fn try_case(chance: &mut Chance, bench: &mut Bench) -> Result<(), Found> {
    // The paper's clock takes a while for the longest reports, so that few stations have long timers and long clocks.
    let (timers, mut ticks) = match chance.below(200) {
        0 => (Timers::Large, 65_535),
        1..=20 => (Timers::Middle, 2_000),
        _ => (Timers::Small, 60),
    };
    let settings = match chance.below(8) {
        0 => outside(chance),
        1 => any(chance),
        _ => timers.settings(chance),
    };
    let station = station(settings, chance);
    let reports: Vec<Report> = (0..1 + chance.below(REPORTS))
        .map(
            |_| if chance.one_in(4) { ill_formed(chance, settings, &mut ticks) } else { well_formed(chance, settings, &mut ticks) },
        )
        .collect();
    agree(&station, &reports, bench)
}

/// An age before, at or after something happens, or any.
fn age(settings: Settings, chance: &mut Chance) -> u16 {
    let Settings { t1, t2, t3, t5, .. } = settings;
    match chance.below(8) {
        0 => chance.word(),
        1 => u16::MAX - chance.between(0, 3),
        2 | 3 => chance.between(0, 10),
        _ => {
            let timer = chance.pick(&[t1, t2, t3, t5]);
            chance.near(timer).saturating_sub(chance.between(0, 2))
        }
    }
}

/// Any bools, any ages, any hold, any conditions, on the tracks beyond the station's number too.
pub fn station(settings: Settings, chance: &mut Chance) -> Station {
    // With every island busy most rules are hidden behind another, so that in most stations few are.
    let (busy, failing) = (chance.pick(&[2, 4, 8, 20]), chance.pick(&[2, 10, 100]));
    let tracks = [(); 4].map(|()| {
        let islands = [(); 5].map(|()| Island {
            occupied: chance.one_in(busy),
            leaving: chance.one_in(2),
            failed: chance.one_in(failing),
            age: age(settings, chance),
        });
        Track { islands }
    });
    let hold = match chance.below(4) {
        0 => 0,
        1 => chance.near(settings.t4),
        2 => chance.between(0, 12),
        _ => chance.word(),
    };
    Station {
        settings,
        tracks,
        hold,
        fault: chance.one_in(3),
        conditions: [chance.word(), chance.between(0, 1023)].map(Condition::of),
    }
}

/// Both sides agree, or these are the plainest station and the fewest reports found on which they do not.
fn agree(station: &Station, reports: &[Report], bench: &mut Bench) -> Result<(), Found> {
    bench.tally.stations += 1;
    if guarded(|| compare(station, reports, bench)).is_ok() {
        return Ok(());
    }
    let reports = fewest_reports(reports, &mut |reports| guarded(|| compare(station, reports, bench)).is_err());
    let station = plainest(*station, &mut |station| guarded(|| compare(station, &reports, bench)).is_err());
    let difference = guarded(|| compare(&station, &reports, bench)).err().unwrap_or_default();
    let said: Vec<String> = reports.iter().map(Report::to_string).collect();
    Err(Found {
        size: reports.len(),
        words: format!("station: {:?}\n  takes {}\ndiffers: {difference}", seen(&station), said.join("; ")),
    })
}

fn compare(station: &Station, reports: &[Report], bench: &mut Bench) -> Result<(), String> {
    made_by_both(station.settings, &mut bench.tally)?;
    shown_by_both(station, &mut bench.tally)?;
    append_there(station, reports, bench)?;
    let mut station = *station;
    for &report in reports {
        take_both(&mut station, report, &mut bench.tally)?;
        shown_by_both(&station, &mut bench.tally)?;
    }
    Ok(())
}

/// The first report is entered too, by a station that no register leads to.
fn append_there(station: &Station, reports: &[Report], bench: &mut Bench) -> Result<(), String> {
    let Some(&report) = reports.first() else { return Ok(()) };
    let mut bytes = vec![station.hold as u8; HEADER + 3 * ENTRY];
    start_both(&mut bytes, station.settings, bench)?;
    let mut filled = Filled { bytes, station: *station };
    append_both(&mut filled, usize::from(station.hold % 4), report, bench)
}

/// Frees islands, restores detectors and clears the rest, while there is still a difference.
fn plainest(station: Station, differs: &mut dyn FnMut(&Station) -> bool) -> Station {
    let mut kept = station;
    let mut plainer = |edit: &dyn Fn(&mut Station)| {
        let mut tried = kept;
        edit(&mut tried);
        if differs(&tried) {
            kept = tried;
        }
    };
    plainer(&|station| station.hold = 0);
    plainer(&|station| station.conditions = [Condition::NONE; 2]);
    plainer(&|station| station.fault = false);
    for (track, island) in (0..4).flat_map(|track| (0..5).map(move |island| (track, island))) {
        plainer(&|station| station.tracks[track].islands[island] = Island::default());
        plainer(&|station| station.tracks[track].islands[island].failed = false);
        plainer(&|station| station.tracks[track].islands[island].leaving = false);
        plainer(&|station| station.tracks[track].islands[island].age = 0);
    }
    kept
}
