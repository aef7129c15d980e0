//! Programs in C and C++ that include the header, built by `cc` and `c++`, and run.

#[path = "c/compiled.rs"]
mod compiled;

use compiled::{compiled, package, refused, written_by, LANGUAGES};
use degvuurel::{Answer, Aspect, Condition, Fault, Outputs};
use std::fmt::{Display, Write};
use std::fs;

/// Structs go by value in other registers, or none, when a compiler does its best.
const LEVELS: [&str; 2] = ["-O0", "-O2"];

const WORKED_SHEET: &str = "\
entry zones outputs answer
1 11111 100000000 0
2 11110 010001000 0
3 11110 001000001 0
4 11100 000100100 0
5 11100 000100100 6
";

/// What a program of these files writes, in each language and at each level.
fn each_way(name: &str, files: &[&str], expected: &str) {
    for (compiler, language) in LANGUAGES {
        for level in LEVELS {
            let options = [language, &[level]].concat();
            let program = compiled(&format!("{name}_{compiler}{level}"), compiler, &options, files);
            assert_eq!(written_by(&program), expected, "{name} by {compiler} {level}");
        }
    }
}

#[test]
fn a_register_is_filled_and_printed() {
    each_way("fill", &["fill.c"], WORKED_SHEET);
}

#[test]
fn every_function_gives_what_the_documents_say() {
    each_way(
        "checks",
        &["checks.c", "check_stations.c", "check_structs.c", "check_registers.c", "check_plans.c", "check_screens.c"],
        "",
    );
}

/// The programs above are worth what they call.
#[test]
fn every_function_of_the_header_is_called() {
    let header = fs::read_to_string(package().join("include/degvuurel.h")).expect("the header is there");
    let called: String = ["check_stations.c", "check_structs.c", "check_registers.c", "check_plans.c", "check_screens.c"]
        .map(|file| fs::read_to_string(package().join("tests/c").join(file)).expect("the program is there"))
        .concat();
    let functions: Vec<&str> =
        header.split(|c: char| !c.is_alphanumeric() && c != '_' && c != '(').filter_map(function_in).collect();
    assert_eq!(functions.len(), 32);
    for function in functions {
        assert!(called.contains(&format!("{function}(")), "{function} is called by no program");
    }
}

/// The function that a word declares.
fn function_in(word: &str) -> Option<&str> {
    let (name, _) = word.split_once('(')?;
    name.starts_with("degvuurel_").then_some(name)
}

/// What is said of a number that has no words.
const NO_WORDS: &str = "no such number";

/// The words of numbers from 0 up to one that there is not.
fn words<W: Display>(lines: &mut String, what: &str, past: u8, of: impl Fn(u8) -> Option<W>) {
    for number in 0..=past {
        let words = of(number).map_or(NO_WORDS.to_string(), |words| words.to_string());
        writeln!(lines, "{what} {number}: {words}").expect("a string takes any text");
    }
}

#[test]
fn the_words_are_those_of_the_package() {
    let mut lines = String::new();
    words(&mut lines, "answer", 17, Answer::of);
    words(&mut lines, "aspect", 6, Aspect::of);
    for bit in 0..=15 {
        let [output, part] =
            [Outputs::of(1 << bit).names().next(), Condition::of(1 << bit).names().next()].map(|name| name.unwrap_or(NO_WORDS));
        writeln!(lines, "output {bit}: {output}\npart {bit}: {part}").expect("a string takes any text");
    }
    writeln!(lines, "none: {NO_WORDS}, {NO_WORDS}\ntwo: {NO_WORDS}").expect("a string takes any text");
    words(&mut lines, "fault", 12, |number| {
        if number == 0 {
            Some("understood".to_string())
        } else {
            Fault::of(number).map(|fault| fault.to_string())
        }
    });
    each_way("words", &["words.c"], &lines);
}

#[test]
fn another_machine_is_refused_in_a_clear_line() {
    for (compiler, language) in LANGUAGES {
        for other in ["-U__linux__", "-U__LP64__"] {
            let said = refused(compiler, &[language, &[other]].concat(), &["fill.c"]);
            assert!(said.contains("degvuurel: the proved library is for Linux on x86-64 and on 64-bit Arm"), "{compiler}: {said}");
        }
    }
}

/// A distance in decimetres is not taken for one in metres.
#[test]
fn a_program_for_metres_does_not_compile() {
    for (compiler, language) in LANGUAGES {
        let said = refused(compiler, language, &["metres.c"]);
        assert!(said.contains("'number'") || said.contains("‘number’"), "{compiler}: {said}");
    }
}

/// A header of another layout, or an archive of an older one, names a symbol that is not there.
#[test]
fn another_layout_does_not_link() {
    for (compiler, language) in LANGUAGES {
        for level in [LEVELS[0], LEVELS[1], "-Wl,--gc-sections", "-flto"] {
            let options = [language, &[level, "-Ddegvuurel_layout_2=degvuurel_layout_0"]].concat();
            let said = refused(compiler, &options, &["fill.c"]);
            assert!(said.contains("degvuurel_layout_0"), "{compiler}: {said}");
        }
    }
}
