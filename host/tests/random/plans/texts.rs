//! Planner's texts by chance, from the words that they are made of.

use super::mistakes::{mistake, odd_number};
use super::writing::written;
use crate::cases::{self, Case};
use crate::chance::Chance;
use crate::settings::Timers;
use degvuurel::{Report, Settings};

/// A line is its words.
pub type Line = Vec<Vec<u8>>;

/// Every word that a line begins with.
pub const NAMES: [&str; 14] =
    ["tracks", "t1", "t2", "t3", "t4", "t5", "occupied", "free", "clock", "failed", "restored", "head", "normalise", "report"];

/// The words of a line that is typed.
pub fn line(typed: &str) -> Line {
    typed.split(' ').map(|word| word.as_bytes().to_vec()).collect()
}

/// The text of a register.
pub fn meant(chance: &mut Chance) -> Vec<u8> {
    let case = cases::by_chance(chance);
    written(&lines_of(&case, chance), chance)
}

/// The same with up to three mistakes, so that the order of the tests shows.
pub fn mistaken(chance: &mut Chance) -> Vec<u8> {
    let length = chance.below(10);
    let case = cases::of_length(chance, Timers::Small, length);
    let mut lines = lines_of(&case, chance);
    for _ in 0..1 + chance.below(3) {
        mistake(&mut lines, chance);
    }
    written(&lines, chance)
}

/// So many reports, and seldom a mistake among them.
pub fn long(chance: &mut Chance, reports: usize) -> Vec<u8> {
    let case = cases::of_length(chance, Timers::Small, reports);
    let mut lines = lines_of(&case, chance);
    if chance.one_in(6) {
        mistake(&mut lines, chance);
    }
    written(&lines, chance)
}

/// Lines of any words, mostly as many as are expected.
pub fn of_words(chance: &mut Chance) -> Vec<u8> {
    let lines: Vec<Line> = (0..chance.below(12)).map(|_| any_line(chance)).collect();
    written(&lines, chance)
}

fn any_line(chance: &mut Chance) -> Line {
    let name = chance.pick(&NAMES);
    let expected = match name {
        "normalise" => 0,
        "report" => 5,
        "occupied" | "free" | "failed" | "restored" | "head" => 2,
        _ => 1,
    };
    let count = if chance.one_in(8) { chance.below(8) } else { expected };
    let mut words = line(name);
    for _ in 0..count {
        let number = if chance.one_in(6) { odd_number(chance) } else { chance.below(300).to_string().into_bytes() };
        words.push(number);
    }
    words
}

/// The settings, in any order, and the reports.
fn lines_of(case: &Case, chance: &mut Chance) -> Vec<Line> {
    let Settings { tracks, t1, t2, t3, t4, t5 } = case.settings;
    let mut settings = vec![("tracks", u16::from(tracks)), ("t1", t1), ("t2", t2), ("t3", t3), ("t4", t4), ("t5", t5)];
    let mut lines = Vec::new();
    let ordered = chance.one_in(2);
    while !settings.is_empty() {
        let (name, number) = settings.remove(if ordered { 0 } else { chance.below(settings.len()) });
        lines.push(line(&format!("{name} {number}")));
    }
    lines.extend(case.reports.iter().map(|&report| line_of(report, chance)));
    lines
}

/// In the words of its kind, or in numbers.
fn line_of(report: Report, chance: &mut Chance) -> Line {
    let Report { kind, a, b, spare, value } = report;
    if chance.one_in(8) {
        return line(&format!("report {kind} {a} {b} {spare} {value}"));
    }
    line(&report.to_string())
}
