//! How long the library takes, as a ratio to the independent implementation in plain Rust: both in one run, on the same input, and
//! their results compared. A ratio of 1 is as long; below 1 the library is the quicker one.

#[path = "../tests/paper/mod.rs"]
#[allow(dead_code, unused_imports)] // The benches call a part of it.
mod paper;
#[path = "../tests/plan/mod.rs"]
#[allow(dead_code)] // And of this.
mod plan;
#[path = "ratios/texts.rs"]
mod texts;
#[path = "ratios/traffic.rs"]
mod traffic;

use degvuurel::{Message, Register, Settings, Station};
use std::hint::black_box;
use std::time::{Duration, Instant};
use traffic::{both, paper_report, paper_settings, Busy};

/// The two sides of a line take turns so many times, and the shortest time of each counts: what else the machine does only
/// lengthens a time.
const TURNS: usize = 60;

/// A turn takes at least so long, so that the clock's own grain does not show.
const LEAST: Duration = Duration::from_millis(8);

fn main() {
    println!("{:<58} {:>12} {:>12} {:>7}", "", "library", "plain Rust", "ratio");
    ticks();
    reports();
    registers();
    plans();
    messages();
}

/// One line: what each side takes for one piece of work, of which a call does so many.
fn line(name: &str, pieces: usize, mut library: impl FnMut() -> u64, mut plain: impl FnMut() -> u64) {
    assert_eq!(library(), plain(), "{name}: the two sides differ");
    let calls = calls_in(LEAST, &mut plain);
    let (mut ours, mut theirs) = (Duration::MAX, Duration::MAX);
    for _ in 0..TURNS {
        ours = ours.min(time(calls, &mut library));
        theirs = theirs.min(time(calls, &mut plain));
    }
    let each = |whole: Duration| whole.as_secs_f64() * 1e9 / (calls * pieces) as f64;
    println!("{name:<58} {:>9.1} ns {:>9.1} ns {:>7.2}", each(ours), each(theirs), each(ours) / each(theirs));
}

/// How many calls last so long.
fn calls_in(least: Duration, work: &mut impl FnMut() -> u64) -> usize {
    let mut calls = 1;
    while time(calls, work) < least {
        calls *= 2;
    }
    calls
}

fn time(calls: usize, work: &mut impl FnMut() -> u64) -> Duration {
    let start = Instant::now();
    for _ in 0..calls {
        black_box(work());
    }
    start.elapsed()
}

/// What is compared of a station here: its hold, its fault and the ages. The tests compare all of it.
fn sum(hold: u16, fault: bool, ages: impl Iterator<Item = u16>) -> u64 {
    ages.fold(u64::from(hold) * 2 + u64::from(fault), |sum, age| sum.wrapping_mul(31).wrapping_add(u64::from(age)))
}

fn library_sum(station: &Station) -> u64 {
    sum(station.hold, station.fault, station.tracks.iter().flat_map(|track| track.islands.map(|island| island.age)))
}

fn paper_sum(station: &paper::Station) -> u64 {
    sum(station.hold, station.fault, station.tracks.iter().flatten().map(|island| island.age))
}

fn ticks() {
    for busy in Busy::ALL {
        for ticks in [1, 20, 600] {
            let (ours, theirs) = both(busy);
            let report = black_box(degvuurel::Report::clock(ticks));
            let (mut next, mut plain) = (ours, theirs);
            line(
                &format!("a tick, in clock reports of {ticks}, {busy}"),
                64 * usize::from(ticks),
                || {
                    next = black_box(ours);
                    for _ in 0..64 {
                        next.take(report).expect("a clock report is taken");
                    }
                    library_sum(&next)
                },
                || {
                    plain = black_box(theirs);
                    for _ in 0..64 {
                        assert_eq!(plain.take(paper_report(report)), 0);
                    }
                    paper_sum(&plain)
                },
            );
        }
    }
}

fn reports() {
    for (name, reports) in [("trains", traffic::trains(2, 0, 400)), ("trains, a head, a detector", traffic::everything(400))] {
        let settings: Settings = black_box(traffic::SETTINGS);
        line(
            &format!("a report taken, and the aspect after it: {name}"),
            reports.len(),
            || {
                let mut station = Station::make(settings).expect("the settings are good");
                reports.iter().fold(0, |sum, report| {
                    let answer = station.take(*report).map_or_else(|refusal| refusal.number(), |()| 0);
                    sum * 31 % 1_000_003 + u64::from(answer) * 7 + u64::from(station.aspect().number())
                })
            },
            || {
                let mut station = paper::make(paper_settings(settings)).1;
                reports.iter().fold(0, |sum, report| {
                    let answer = station.take(paper_report(*report));
                    sum * 31 % 1_000_003 + u64::from(answer) * 7 + u64::from(station.aspect())
                })
            },
        );
    }
}

fn registers() {
    let mut text = Box::new([0; degvuurel::SHEET]);
    let kinds = [
        ("trains", traffic::trains(2, 0, 8190)),
        ("trains, clocks of 1 to 20", traffic::trains(2, 20, 8190)),
        ("trains on 4 tracks, clocks of 1 to 600", traffic::trains(4, 600, 8190)),
    ];
    for (name, reports) in kinds {
        let bytes = traffic::register(traffic::SETTINGS, &reports);
        let register = Register::new(&bytes);
        line(
            &format!("an entry read, of 8,190: {name}"),
            8190,
            || library_sum(&register.read().expect("it reads back").station),
            || paper_sum(&paper::read(black_box(&bytes)).station),
        );
        line(
            &format!("stepping to row 4,095, an entry: {name}"),
            4095,
            || library_sum(&register.step(4095).expect("there is such a row")),
            || paper_sum(&paper::step(black_box(&bytes), 4095).station),
        );
        assert_eq!(
            degvuurel::print(&bytes, &mut text).map(str::as_bytes),
            Ok(&paper::print(&bytes)[..]),
            "the sheets of {name} differ"
        );
        line(
            &format!("a row printed, of 8,190: {name}"),
            8190,
            || degvuurel::print(&bytes, &mut text).map_or(0, str::len) as u64,
            || paper::print(black_box(&bytes)).len() as u64,
        );
    }
}

/// What is compared of a register that was recorded. The tests compare all of it.
fn register_sum(bytes: &[u8]) -> u64 {
    bytes.chunks(4).fold(0, |sum: u64, part| sum.wrapping_mul(31).wrapping_add(u64::from(part[part.len() - 1])))
}

fn plans() {
    let text = traffic::text(traffic::SETTINGS, &traffic::trains(2, 20, 8190));
    let text = black_box(text.into_bytes());
    line(
        "a line recorded, of 8,196: trains, clocks of 1 to 20",
        8196,
        || register_sum(degvuurel::record(&text).expect("nothing is wrong with it").register().bytes()),
        || register_sum(&plan::read(&text).expect("nothing is wrong with it").register()),
    );
}

/// What is compared of a message here. The tests compare all of it.
fn message_sum(station: u16, aspect: u8, tracks: u8) -> u64 {
    u64::from(station) * 65_536 + u64::from(aspect) * 256 + u64::from(tracks)
}

fn messages() {
    for (name, text) in texts::all() {
        let text = black_box(text);
        line(
            &format!("reading a message, {name}"),
            1,
            || Message::read(&text).map_or(0, |read| message_sum(read.station, read.aspect, read.tracks)),
            || {
                let (_, read) = paper::screen::read(&text);
                message_sum(read.station, read.aspect, read.tracks)
            },
        );
    }
}
