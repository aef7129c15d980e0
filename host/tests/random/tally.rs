//! How often each answer was seen, by what was asked.

use crate::plan::FAULTS;
use degvuurel::{Answer, Aspect, Fault};

/// What is asked of both sides.
#[derive(Clone, Copy)]
pub enum Asked {
    Make,
    Take,
    Start,
    Append,
    Read,
    Step,
    Entry,
    Browse,
    Print,
    Site,
    Screen,
    Write,
}

const KINDS: usize = 12;
const TITLES: [&str; KINDS] =
    ["make", "take", "start", "append", "read", "step", "entry", "browse", "print", "site", "screen", "write"];
const ANSWERS: usize = Answer::ALL.len();
const ASPECTS: usize = Aspect::ALL.len();

/// What can be asked, and the answers that it can give.
pub type Possible = [(Asked, &'static [u8])];

pub const OF_REGISTERS: &Possible = &[
    (Asked::Start, &[0, 8, 12]),
    (Asked::Append, &[0, 1, 2, 3, 4, 5, 6, 7, 8, 9, 10, 12]),
    (Asked::Read, &[0, 8, 9, 10, 11, 12, 13]),
    (Asked::Step, &[0, 8, 9, 10, 11, 12, 13, 14]),
    (Asked::Entry, &[0, 8, 9, 10, 11, 12, 14]),
    (Asked::Browse, &[0, 8, 9, 10, 11, 12, 13, 14]),
    (Asked::Print, &[0, 8, 9, 10, 11, 12, 13]),
];

pub const OF_STATIONS: &Possible = &[(Asked::Make, &[0, 8]), (Asked::Take, &[0, 1, 2, 3, 4, 5, 6, 7, 8]), (Asked::Site, &[0, 8])];

pub const OF_SCREENS: &Possible = &[(Asked::Screen, &[0, 15, 16]), (Asked::Write, &[0, 12, 16])];

/// Counts, which the threads add up.
#[derive(Clone, Default)]
pub struct Tally {
    seen: [[u64; ANSWERS]; KINDS],
    aspects: [u64; ASPECTS],
    /// Planner's texts by their fault; 0 is none.
    pub texts: [u64; FAULTS],
    pub registers: u64,
    pub stations: u64,
    pub reports: u64,
    pub rows: u64,
    pub shipped: u64,
}

impl Tally {
    pub fn count(&mut self, asked: Asked, answer: u8) {
        self.seen[asked as usize][usize::from(answer)] += 1;
    }

    /// An aspect was shown.
    pub fn show(&mut self, aspect: u8) {
        self.aspects[usize::from(aspect)] += 1;
    }

    pub fn add(&mut self, other: &Tally) {
        for (sums, counts) in self.seen.iter_mut().zip(&other.seen) {
            for (sum, count) in sums.iter_mut().zip(counts) {
                *sum += count;
            }
        }
        for (sum, count) in self.aspects.iter_mut().zip(&other.aspects) {
            *sum += count;
        }
        for (sum, count) in self.texts.iter_mut().zip(&other.texts) {
            *sum += count;
        }
        self.registers += other.registers;
        self.stations += other.stations;
        self.reports += other.reports;
        self.rows += other.rows;
        self.shipped += other.shipped;
    }

    fn of_answer(&self, answer: usize) -> u64 {
        self.seen.iter().map(|counts| counts[answer]).sum()
    }

    /// A line for each answer, a column for each thing asked.
    pub fn print(&self, title: &str) {
        let Tally { registers, stations, reports, rows, aspects, .. } = self;
        println!("{title}: {registers} registers, {stations} stations, {reports} reports, {rows} rows stepped to");
        println!("aspects 0 to 5 shown: {aspects:?}");
        print!("{:>6}{:>11}", "answer", "seen");
        TITLES.iter().for_each(|title| print!("{title:>10}"));
        println!();
        for answer in 0..ANSWERS {
            print!("{answer:>6}{:>11}", self.of_answer(answer));
            self.seen.iter().for_each(|counts| print!("{:>10}", counts[answer]));
            println!();
        }
    }

    /// A line for each fault of planner's texts.
    pub fn print_faults(&self, title: &str) {
        println!("{title}: {}", self.texts.iter().sum::<u64>());
        for (number, times) in (0..).zip(self.texts) {
            let words = Fault::of(number).map_or("recorded".to_owned(), |fault| fault.to_string());
            println!("{number:>6}{times:>11}  {words}");
        }
    }

    /// The faults, and none, that were found less often than they must be. A report too many has a least of its own.
    pub fn rare_faults(&self, least: u64, least_too_many: u64) -> Vec<String> {
        let least_of = |fault| if fault == usize::from(Fault::TooManyReports.number()) { least_too_many } else { least };
        let few = (0..FAULTS).filter(|&fault| self.texts[fault] < least_of(fault));
        few.map(|fault| format!("fault {fault} of planner's texts was found less than {} times", least_of(fault))).collect()
    }

    /// The answers that were seen less often than they must be.
    pub fn rare_answers(&self, least: u64) -> Vec<String> {
        let answers = (0..ANSWERS).filter(|&answer| self.of_answer(answer) < least);
        answers.map(|answer| format!("answer {answer} was seen less than {least} times")).collect()
    }

    /// The aspects that were shown less often, and the answers that something asked can give and gave less often.
    pub fn rare_by_what_was_asked(&self, possible: &Possible, least: u64) -> Vec<String> {
        let aspects = (0..ASPECTS).filter(|&aspect| self.aspects[aspect] < least);
        let mut rare: Vec<String> = aspects.map(|aspect| format!("aspect {aspect} was shown less than {least} times")).collect();
        for &(asked, answers) in possible {
            let few = answers.iter().filter(|&&answer| self.seen[asked as usize][usize::from(answer)] < least);
            let title = TITLES[asked as usize];
            rare.extend(few.map(|answer| format!("answer {answer} to {title} was seen less than {least} times")));
        }
        rare
    }
}
