//! Filling a register by both sides.

use crate::cases::Case;
use crate::paper::{self, screen};
use crate::runs::Bench;
use crate::screens;
use crate::shipped::{Fields, APPEND, START};
use crate::tally::{Asked, Tally};
use crate::values::{self, answer, same, same_bytes, seen};
use crate::words::Seen;
use degvuurel::{append, start, Message, Recorder, Refusal, Report, Settings, Station, ENTRY, HEADER};

/// What both sides fill: lent bytes, and the station after the last entry.
#[derive(Clone)]
pub struct Filled {
    pub bytes: Vec<u8>,
    pub station: Station,
}

/// Starts a register and appends every report, by both, and compares all of it after each.
pub fn fill(case: &Case, bench: &mut Bench) -> Result<Filled, String> {
    let mut bytes = vec![case.filling; HEADER + ENTRY * case.reports.len() + case.beyond];
    start_both(&mut bytes, case.settings, bench)?;
    let station = made_by_both(case.settings, &mut bench.tally)?.ok_or("the settings are refused")?;
    let mut filled = Filled { bytes, station };
    for (k, &report) in case.reports.iter().enumerate() {
        append_both(&mut filled, k, report, bench)?;
        shown_by_both(&filled.station, &mut bench.tally).map_err(|difference| format!("after entry {}: {difference}", k + 1))?;
    }
    bench.tally.registers += 1;
    bench.tally.reports += case.reports.len() as u64;
    Ok(filled)
}

/// Starts a register by both.
pub fn start_both(bytes: &mut [u8], settings: Settings, bench: &mut Bench) -> Result<(), String> {
    let mut papers = bytes.to_vec();
    let of_paper = values::settings(settings);
    let expected = paper::start(&mut papers, of_paper);
    bench.tally.count(Asked::Start, expected);
    bench.ship(format_args!("starting"), || {
        let (number, fresh) = paper::make(of_paper);
        let expected = Fields::default().byte(number).station(&fresh).byte(expected).bytes(&papers);
        (Fields::call(START, 0, bytes).settings(of_paper), expected)
    })?;
    same(format_args!("starting, answer"), &answer(&start(bytes, settings)), &expected)?;
    same_bytes(format_args!("starting"), bytes, &papers)
}

/// Makes a station by both. Refused, the package hands out none.
pub fn made_by_both(settings: Settings, tally: &mut Tally) -> Result<Option<Station>, String> {
    let made = Station::make(settings);
    let (number, fresh) = paper::make(values::settings(settings));
    tally.count(Asked::Make, number);
    same(format_args!("what settings are answered with"), &paper::settings_answer(values::settings(settings)), &number)?;
    same(format_args!("making, answer"), &answer(&made), &number)?;
    if let Ok(station) = &made {
        same(format_args!("making, station"), &seen(station), &Seen(fresh))?;
    }
    Ok(made.ok())
}

/// Appends a report by both.
pub fn append_both(filled: &mut Filled, k: usize, report: Report, bench: &mut Bench) -> Result<(), String> {
    let mut papers = filled.bytes.clone();
    let mut of_paper = values::station(&filled.station);
    let expected = paper::append(&mut papers, k, &mut of_paper, values::report(report));
    bench.tally.count(Asked::Append, expected);
    bench.ship(format_args!("appending {report} at {k}"), || {
        let call = Fields::call(APPEND, k, &filled.bytes).station(&values::station(&filled.station));
        let expected = Fields::default().byte(expected).station(&of_paper).shown(&of_paper).bytes(&papers);
        (call.report(values::report(report)), expected)
    })?;
    let number = append(&mut filled.bytes, k, &mut filled.station, report).number();
    same(format_args!("appending {report} at {k}, answer"), &number, &expected)?;
    same(format_args!("appending {report} at {k}, station"), &seen(&filled.station), &Seen(of_paper))?;
    same_bytes(format_args!("appending {report} at {k}"), &filled.bytes, &papers)
}

/// Takes a report by both, having asked what it would be answered with.
pub fn take_both(station: &mut Station, report: Report, tally: &mut Tally) -> Result<(), String> {
    let mut of_paper = values::station(station);
    let asked = (station.answer(report).number(), of_paper.answer(values::report(report)));
    same(format_args!("what {report} would be answered with"), &asked.0, &asked.1)?;
    let answers = (answer(&station.take(report)), of_paper.take(values::report(report)));
    tally.count(Asked::Take, answers.1);
    tally.reports += 1;
    same(format_args!("taking {report}, answer"), &answers.0, &answers.1)?;
    same(format_args!("taking {report}, station"), &seen(station), &Seen(of_paper))
}

/// What a station shows, by both.
pub fn shown_by_both(station: &Station, tally: &mut Tally) -> Result<(), String> {
    let of_paper = values::station(station);
    let aspect = station.aspect();
    tally.show(of_paper.aspect());
    same(format_args!("aspect"), &aspect.number(), &of_paper.aspect())?;
    same(format_args!("outputs"), &aspect.outputs().bits(), &paper::outputs(of_paper.aspect()))?;
    same(format_args!("heads"), &station.heads().map(|outputs| outputs.bits()), &of_paper.heads())?;
    same(format_args!("zones"), &station.zones(), &of_paper.zones())?;
    same(format_args!("presence"), &station.presence(), &of_paper.presence())?;
    let number = station.hold;
    same(format_args!("message"), &screens::message(Message::of(number, station)), &screen::Message::of(number, &of_paper))
}

/// A recorder fills the same register, stops half way and goes on; and it goes back to where it stopped.
pub fn record(case: &Case, filled: &Filled) -> Result<(), String> {
    let told = |refusal: Refusal| refusal.to_string();
    let end = HEADER + ENTRY * case.reports.len();
    let half = case.reports.len() / 2;
    let mut recorder = Recorder::start(case.settings).map_err(told)?;
    for (k, &report) in case.reports.iter().enumerate() {
        if k == half {
            recorder = Recorder::resume(recorder.into_bytes()).map_err(told)?;
        }
        let answer = recorder.append(report).number();
        same(format_args!("recorder, answer {k}"), &answer, &filled.bytes[HEADER + ENTRY * k + 6])?;
    }
    same(format_args!("recorder, count"), &recorder.count(), &case.reports.len())?;
    same(format_args!("recorder, station"), &seen(recorder.station()), &seen(&filled.station))?;
    same_bytes(format_args!("recorder, register"), recorder.register().bytes(), &filled.bytes[..end])?;
    let rows: Vec<u8> = recorder.entries().flat_map(|entry| [entry.answer.number(), entry.aspect.number()]).collect();
    let papers = filled.bytes[HEADER..end].chunks(ENTRY).flat_map(|entry| [entry[6], entry[7]]);
    same(format_args!("recorder, entries"), &rows, &papers.collect())?;
    // There is no such row, and it stays as it is.
    let whole = recorder.clone();
    same(format_args!("recorder, answer to a row that is not there"), &answer(&recorder.undo_to(case.reports.len() + 1)), &14)?;
    same(format_args!("recorder, after a refused undo"), &recorder, &whole)?;
    let of_row = |row: usize| recorder.entry(row).map(|entry| entry.report);
    let ends = (of_row(0), of_row(half), of_row(half + 1), of_row(case.reports.len() + 1));
    let judged = (None, half.checked_sub(1).map(|k| case.reports[k]), case.reports.get(half).copied(), None);
    same(format_args!("recorder, entries of rows"), &ends, &judged)?;
    let undone = recorder.undo_to(half).map_err(told)?;
    same(format_args!("recorder, reports undone"), &undone.as_slice(), &&case.reports[half..])?;
    let papers = paper::step(&filled.bytes[..end], half);
    same(format_args!("recorder, station after undo"), &seen(recorder.station()), &Seen(papers.station))?;
    same_bytes(format_args!("recorder, after undo"), &recorder.into_bytes(), &filled.bytes[..HEADER + ENTRY * half])
}
