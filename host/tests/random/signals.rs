//! The heads and the siting distances, each over all there is.

use crate::filling::shown_by_both;
use crate::paper;
use crate::shipped::{Fields, Shipped, SITE};
use crate::tally::{Asked, Tally};
use crate::values::{answer, same};
use degvuurel::{
    advance, warning, Aspect, Condition, Decimetres, IslandNumber, Outputs, Report, Seconds, Settings, Station, TrackNumber,
};

const SETTINGS: Settings = Settings { tracks: 2, t1: 3, t2: 3, t3: 3, t4: 0, t5: 9 };

/// The speeds within the limits, and some beyond.
const SPEEDS: u16 = 400;

/// Some parts together, all, and bits that are not read.
const TOGETHER: [Condition; 6] = [
    Condition::NONE,
    Condition::BOARD_FAILED.with(Condition::S1_FAILED),
    Condition::S1_FAILED.with(Condition::S2_FAILED),
    Condition::EVERY_PART_FAILED,
    Condition::of(1024),
    Condition::of(u16::MAX),
];

/// Heads of every condition, on every aspect and on every nine outputs.
pub fn heads(tally: &mut Tally) -> Result<(), String> {
    for number in 0..=u8::MAX {
        same(format_args!("outputs of aspect {number}"), &Outputs::of_aspect(number).bits(), &paper::outputs(number))?;
    }
    for aspect in Aspect::ALL {
        let outputs = aspect.outputs();
        same(format_args!("outputs of {aspect}"), &outputs.bits(), &paper::outputs(aspect.number()))?;
        // The bits from 10 up are not read, so every number of 16 bits is tried and not the 1,024 alone.
        for condition in 0..=u16::MAX {
            through(outputs, Condition::of(condition))?;
        }
    }
    for outputs in 0..512 {
        for condition in 0..1024 {
            through(Outputs::of(outputs), Condition::of(condition))?;
        }
    }
    for outputs in 512..=u16::MAX {
        for condition in Condition::ALL.into_iter().chain(TOGETHER) {
            through(Outputs::of(outputs), condition)?;
        }
    }
    heads_of_stations(tally)
}

fn through(outputs: Outputs, condition: Condition) -> Result<(), String> {
    let expected = paper::head(outputs.bits(), condition.bits());
    same(format_args!("head of {outputs} in condition {condition}"), &outputs.through(condition).bits(), &expected)
}

/// "The two heads are worked out apart": one has each condition and the other another, on each aspect.
fn heads_of_stations(tally: &mut Tally) -> Result<(), String> {
    for (aspect, reports) in leading_to_aspects() {
        let mut station = Station::make(SETTINGS).map_err(|refusal| refusal.to_string())?;
        for report in reports {
            station.take(report).map_err(|refusal| refusal.to_string())?;
        }
        same(format_args!("the aspect to try"), &station.aspect(), &aspect)?;
        for condition in (0..1024).map(Condition::of) {
            // What has not failed of the one has failed of the other.
            let rest = Condition::EVERY_PART_FAILED.without(condition);
            for other in [Condition::NONE, Condition::GREEN_FAILED, Condition::S3_FAILED, Condition::POWER_FAILED, rest] {
                station.conditions = [condition, other];
                shown_by_both(&station, tally)?;
                station.conditions = [other, condition];
                shown_by_both(&station, tally)?;
            }
        }
    }
    Ok(())
}

/// Reports that lead to each aspect from a fresh station.
fn leading_to_aspects() -> [(Aspect, Vec<Report>); 6] {
    let normalise = Report::normalise();
    [
        (Aspect::OutOfService, vec![]),
        (Aspect::Permitted, vec![normalise]),
        (Aspect::Clearing, vec![normalise, Report::occupied(TrackNumber(1), IslandNumber(0))]),
        (Aspect::Forbidden, vec![normalise, Report::occupied(TrackNumber(1), IslandNumber(1))]),
        (
            Aspect::GreatestRisk,
            vec![normalise, Report::occupied(TrackNumber(0), IslandNumber(4)), Report::occupied(TrackNumber(1), IslandNumber(1))],
        ),
        (Aspect::Surroundings, vec![normalise, Report::occupied(TrackNumber(1), IslandNumber(2)), Report::clock(3)]),
    ]
}

/// Every speed, message time and number of tracks within the limits, and beyond them.
pub fn siting(tally: &mut Tally) -> Result<(), String> {
    let mut given = 0;
    for speed in (0..=SPEEDS).chain([700, 32_768, u16::MAX]) {
        for message in (0..=70).chain([128, 256, 316, 32_768, u16::MAX]) {
            let sited = advance(speed, Seconds(message));
            let found = (answer(&sited), sited.map_or(0, Decimetres::number));
            tally.count(Asked::Site, found.0);
            given += u32::from(found.0 == 0);
            same(format_args!("advance distance, {speed} km/h, {message} s"), &found, &paper::advance(speed, message))?;
        }
        for tracks in 0..=u8::MAX {
            let sited = warning(speed, tracks);
            let found = (answer(&sited), sited.map_or(0, Decimetres::number));
            tally.count(Asked::Site, found.0);
            given += u32::from(found.0 == 0);
            same(format_args!("warning distance, {speed} km/h, {tracks} tracks"), &found, &paper::warning(speed, tracks))?;
        }
    }
    // "Speed v is 1 to 350 km/h, message time m 0 to 60 s, tracks n 1 to 4."
    same(format_args!("how many distances are given"), &given, &(350 * 61 + 350 * 4))
}

/// The same through the archive as it is shipped, to a step beyond the limits. One call asks for all distances of a speed.
pub fn shipped_siting(tally: &mut Tally) -> Result<(), String> {
    let mut shipped = Shipped::start();
    for speed in 0..=351 {
        let distances =
            (0..=61).map(|message| paper::advance(speed, message)).chain((0..=5).map(|tracks| paper::warning(speed, tracks)));
        let expected =
            distances.fold(Fields::default(), |fields, (answer, decimetres)| fields.byte(answer).bytes(&decimetres.to_le_bytes()));
        tally.shipped += 1;
        shipped.answers(format_args!("distances of {speed} km/h"), &Fields::call(SITE, usize::from(speed), &[]), &expected)?;
    }
    Ok(())
}
