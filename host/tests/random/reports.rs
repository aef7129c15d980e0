//! Reports by chance, without regard to trains.

use crate::chance::Chance;
use degvuurel::{Condition, HeadNumber, IslandNumber, Report, Settings, TrackNumber};

/// The clock goes on, mostly for about as long as something takes, so far as the ticks left allow.
pub fn clock(chance: &mut Chance, settings: Settings, ticks_left: &mut u32) -> Report {
    let Settings { t1, t2, t3, t4, t5, .. } = settings;
    let timer = chance.pick(&[t1, t2, t3, t4, t5]);
    let wanted = match chance.below(5) {
        0 => 1,
        1 => chance.between(1, 3),
        2 => chance.between(0, timer),
        3 if chance.one_in(8) => u16::MAX,
        _ => chance.near(timer),
    };
    let allowed = u32::from(wanted) <= *ticks_left;
    let ticks = if allowed { wanted.max(1) } else { chance.between(1, 2) };
    *ticks_left = ticks_left.saturating_sub(u32::from(ticks));
    Report::clock(ticks)
}

/// What has failed of a head: nothing, one part, two, or anything.
pub fn condition(chance: &mut Chance) -> Condition {
    Condition::of(match chance.below(4) {
        0 => 0,
        1 => 1 << chance.below(10),
        2 => 1 << chance.below(10) | 1 << chance.below(10),
        _ => chance.between(0, Condition::EVERY_PART_FAILED.bits()),
    })
}

/// A report whose fields are as its kind has them.
pub fn well_formed(chance: &mut Chance, settings: Settings, ticks_left: &mut u32) -> Report {
    let track = chance.below(usize::from(settings.tracks.clamp(1, 4))) as u8;
    let island = chance.below(5) as u8;
    match chance.below(20) {
        0..=6 => Report::occupied(TrackNumber(track), IslandNumber(island)),
        7..=10 => Report::free(TrackNumber(track), IslandNumber(island)),
        11..=14 => clock(chance, settings, ticks_left),
        15 => Report::failed(TrackNumber(track), IslandNumber(island)),
        16 => Report::restored(TrackNumber(track), IslandNumber(island)),
        17 => Report::head(HeadNumber(chance.below(2) as u8), condition(chance)),
        _ => Report::normalise(),
    }
}

/// A report with a field, or some, that may be wrong.
pub fn ill_formed(chance: &mut Chance, settings: Settings, ticks_left: &mut u32) -> Report {
    let mut report = well_formed(chance, settings, ticks_left);
    for _ in 0..1 + chance.below(3) {
        match chance.below(8) {
            0 => report.kind = chance.pick(&[0, 8, 9, 255]),
            1 => report.kind = chance.between(1, 7) as u8,
            2 => report.a = settings.tracks,
            3 => report.a = chance.pick(&[0, 1, 2, 3, 4, 5, 128, 255]),
            4 => report.b = chance.pick(&[0, 1, 4, 5, 6, 7, 255]),
            5 => report.spare = chance.pick(&[0, 1, 128, 255]),
            6 => report.value = chance.pick(&[0, 1, 256, 1023, 1024, 1025]),
            _ => report.value = 0,
        }
    }
    within_ticks(report, ticks_left)
}

/// A clock that goes too long for the ticks left goes one tick.
pub fn within_ticks(mut report: Report, ticks_left: &mut u32) -> Report {
    if report.kind == 3 {
        if u32::from(report.value) > *ticks_left {
            report.value = 1;
        }
        *ticks_left = ticks_left.saturating_sub(u32::from(report.value));
    }
    report
}
