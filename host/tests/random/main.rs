//! The proved library and the independent implementation of documents 01 and 02 side by side, over registers, damaged registers,
//! stations, planner's texts, and texts for the passenger screens by chance. Some registers, damaged ones and planner's texts go
//! through the archive as it is shipped too, on x86-64: that needs the kit, whose `rt` is on the PATH.
//!
//! `DEGVUUREL_SEED` is the seed, and `DEGVUUREL_REGISTERS` the number of registers; without them every run is the same. A part
//! that differs prints the shortest case found. What was seen is counted, and each answer must be seen often enough.

mod cases;
mod chance;
mod damaged;
mod filling;
mod last_entries;
mod lines;
#[path = "../paper/mod.rs"]
mod paper;
#[path = "../plan/mod.rs"]
mod plan;
mod plans;
mod reading;
mod refusals;
mod registers;
mod reports;
mod runs;
mod screens;
mod settings;
mod shipped;
mod shrink;
mod signals;
mod stations;
mod tally;
mod trains;
mod values;
mod words;

include!("../archive/declared.rs");

use std::env;
use std::process::ExitCode;
use std::time::Instant;
use tally::{Tally, OF_REGISTERS, OF_SCREENS, OF_STATIONS};

const SEED: u64 = 202_510;
const REGISTERS: u64 = 200_000;

/// What is not optimised takes ten times as long, so that without `--release` as few are tried as still see every answer.
const TRIED: u64 = if cfg!(debug_assertions) { FEWEST } else { REGISTERS };

/// Where fewer registers are asked for, damaged ones and stations are still as many as for these: some answers come from them
/// alone, and would else be missed by chance.
const FEWEST: u64 = 5_000;

/// Registers of hundreds of rows, and of as many as there can be.
const LONG: u64 = 200;
const FULL: u64 = 2;

/// Appends at the end of the largest register.
const LAST: u64 = 4_000;

/// Texts for the passenger screens to the usual number of registers, and messages.
const TEXTS: u64 = 1_000_000;
const MESSAGES: u64 = 100_000;

/// Planner's texts to the usual number of registers, and those of about as many reports as there can be.
const PLANS: u64 = 200_000;
const LONG_PLANS: u64 = 60;

/// Registers, and as many damaged ones, and planner's texts that go through the shipped code too.
const SHIPPED: u64 = 2_000;
const SHIPPED_PLANS: u64 = 2_000;

/// Each answer is seen at least so often among the usual number of registers, and among those that go through the shipped code.
const LEAST: u64 = 1_000;
const LEAST_SHIPPED: u64 = 10;

/// A report too many is seen at least so often, in long texts alone.
const LEAST_TOO_MANY: u64 = 10;

/// The least count falls with the number of registers, but never to nothing, which would prove nothing. It does not rise, since
/// what is tried whole is as much as ever.
fn least_of(registers: u64) -> u64 {
    (LEAST * registers.min(REGISTERS) / REGISTERS).max(1)
}

fn from_environment(name: &str, otherwise: u64) -> u64 {
    match env::var(name) {
        Ok(number) => number.parse().unwrap_or_else(|_| panic!("{name} is a number")),
        Err(_) => otherwise,
    }
}

fn main() -> ExitCode {
    let seed = from_environment("DEGVUUREL_SEED", SEED);
    let number = from_environment("DEGVUUREL_REGISTERS", TRIED);
    let others = number.max(FEWEST);
    let begun = Instant::now();
    let of_registers = [
        runs::run("registers", seed, number, registers::try_case),
        runs::run("long registers", seed, LONG, registers::try_long),
        runs::run("full registers", seed, FULL, registers::try_full),
        runs::run("last entries", seed, LAST, last_entries::try_case),
        runs::run("damaged registers", seed, others / 2, damaged::try_case),
        runs::run("long damaged registers", seed, LONG / 2, damaged::try_long),
    ];
    let signals = whole("heads, siting and lines of refusals", |tally| {
        signals::heads(tally).and_then(|()| signals::siting(tally)).and_then(|()| lines::of_refusals())
    });
    let of_stations = [runs::run("stations", seed, others * 2, stations::try_case), signals];
    let texts = screens::trial(screens::read, TEXTS * others / REGISTERS, seed);
    let of_screens = [texts.agreed(), runs::run("messages", seed, MESSAGES * others / REGISTERS, screens::try_writing)];
    let of_plans = [
        runs::run("planner's texts", seed, PLANS * others / REGISTERS, plans::try_case),
        runs::run("long planner's texts", seed, LONG_PLANS, plans::try_long),
    ];
    let mut of_shipped = Vec::new();
    if shipped::IS_HERE {
        shipped::link();
        of_shipped.extend([
            runs::run("shipped registers", seed, SHIPPED, |chance, bench| registers::try_case(chance, bench.with_shipped())),
            runs::run("shipped damaged registers", seed, SHIPPED, |chance, bench| damaged::try_case(chance, bench.with_shipped())),
            runs::run("shipped planner's texts", seed, SHIPPED_PLANS, |chance, bench| {
                plans::try_case(chance, bench.with_shipped())
            }),
            whole("shipped siting", signals::shipped_siting),
        ]);
    } else {
        println!("the shipped code is passed over: it is for x86-64");
    }
    let least = least_of(number);
    let registers = summed("registers and damaged ones", &of_registers);
    let mut rare = registers.rare_by_what_was_asked(OF_REGISTERS, least);
    let stations = summed("stations, heads and siting", &of_stations);
    rare.extend(stations.rare_by_what_was_asked(OF_STATIONS, least));
    let screens = summed("texts and messages for the screens", &of_screens);
    rare.extend(screens.rare_by_what_was_asked(OF_SCREENS, least));
    rare.extend(summed("all of these", &[Some(registers), Some(stations), Some(screens)]).rare_answers(least));
    rare.extend(texts.rare_or_wrong(least));
    let plans = added(&of_plans);
    plans.print_faults("planner's texts");
    rare.extend(plans.rare_faults(least, LEAST_TOO_MANY));
    if shipped::IS_HERE {
        let through = summed("through the shipped code too", &of_shipped);
        println!("{} calls of the shipped code", through.shipped);
        rare.extend(through.rare_by_what_was_asked(OF_REGISTERS, LEAST_SHIPPED));
        through.print_faults("planner's texts through the shipped code too");
        rare.extend(through.rare_faults(LEAST_SHIPPED, 0));
    }
    rare.iter().for_each(|what| println!("TOO FEW: {what}"));
    let agree = of_registers.iter().chain(&of_stations).chain(&of_screens).chain(&of_plans).chain(&of_shipped).all(Option::is_some);
    let verdict = if agree { "the library and the paper agree" } else { "THE LIBRARY AND THE PAPER DIFFER" };
    println!("{verdict}, {} s", begun.elapsed().as_secs());
    ExitCode::from(u8::from(!agree || !rare.is_empty()))
}

/// The counts of all the parts that agree.
fn added(parts: &[Option<Tally>]) -> Tally {
    let mut sum = Tally::default();
    parts.iter().flatten().for_each(|part| sum.add(part));
    sum
}

/// The same, printed.
fn summed(title: &str, parts: &[Option<Tally>]) -> Tally {
    let sum = added(parts);
    sum.print(title);
    sum
}

/// What is tried whole needs no seed.
fn whole(part: &str, try_all: impl FnOnce(&mut Tally) -> Result<(), String>) -> Option<Tally> {
    println!("{part}: all of them");
    let mut tally = Tally::default();
    match try_all(&mut tally) {
        Ok(()) => Some(tally),
        Err(difference) => {
            println!("DIFFERENCE: {difference}");
            None
        }
    }
}
