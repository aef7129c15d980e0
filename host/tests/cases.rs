//! The cases of the repository, through the package: each planner's text and what was typed beside it. The plain reader and the
//! paper are held to the same sheets.

// Only a part of it is asked here.
#[allow(dead_code, unused_imports)]
mod paper;
#[allow(dead_code)]
mod plan;
#[path = "cases/shown.rs"]
mod shown;

use degvuurel::{record, Message, Register};
use std::fs;
use std::path::{Path, PathBuf};

fn folder() -> PathBuf {
    Path::new(env!("CARGO_MANIFEST_DIR")).join("../cases")
}

/// The names of the cases that have a file with this end.
fn names(end: &str) -> Vec<String> {
    let files = fs::read_dir(folder()).expect("the cases are there").map(|file| file.expect("it has a name").path());
    let ended = files.filter(|file| file.extension().is_some_and(|own| own == end));
    let mut names: Vec<String> =
        ended.map(|file| file.file_stem().expect("it has a name").to_str().expect("the name is plain").to_owned()).collect();
    names.sort();
    assert!(!names.is_empty(), "no case has a file .{end}");
    names
}

fn bytes_of(name: &str, end: &str) -> Vec<u8> {
    fs::read(folder().join(format!("{name}.{end}"))).unwrap_or_else(|error| panic!("{name}.{end}: {error}"))
}

fn text_of(name: &str, end: &str) -> String {
    String::from_utf8(bytes_of(name, end)).unwrap_or_else(|error| panic!("{name}.{end}: {error}"))
}

/// What is told of each text; and no text is recorded by one side alone.
#[test]
fn texts_are_recorded_or_not() {
    for name in names("txt") {
        let text = bytes_of(&name, "txt");
        let told = text_of(&name, "told");
        match record(&text) {
            Ok(plan) => {
                assert_eq!(shown::told(&plan), told, "{name}");
                let plain = plan::read(&text).unwrap_or_else(|misread| panic!("{name} is not recorded on paper: {misread:?}"));
                assert_eq!(plan.register().bytes(), plain.register(), "{name}");
            }
            Err(misread) => {
                assert_eq!(Some(misread.to_string().as_str()), told.lines().next(), "{name}");
                let same = plan::Misread { fault: misread.fault.number(), line: misread.line.unwrap_or(0) };
                assert_eq!(plan::read(&text), Err(same), "{name}");
            }
        }
    }
}

#[test]
fn sheets_are_printed() {
    for name in names("sheet") {
        let sheet = text_of(&name, "sheet");
        let plan = record(&bytes_of(&name, "txt")).unwrap_or_else(|misread| panic!("{name}: {misread}"));
        assert_eq!(plan.register().sheet().as_ref(), Ok(&sheet), "{name}");
        assert_eq!(paper::print(plan.register().bytes()), sheet.as_bytes(), "{name}, by the paper");
    }
}

#[test]
fn rows_are_stepped_to() {
    for name in names("steps") {
        let steps = text_of(&name, "steps");
        let plan = record(&bytes_of(&name, "txt")).unwrap_or_else(|misread| panic!("{name}: {misread}"));
        let rows = steps.lines().filter_map(|line| line.strip_prefix("row       "));
        let rows = rows.map(|row| row.parse().unwrap_or_else(|_| panic!("{name}: no row {row}")));
        assert_eq!(rows.map(|row| shown::row(plan.register(), row)).collect::<String>(), steps, "{name}");
    }
}

#[test]
fn messages_are_sent() {
    for name in names("json") {
        let plan = record(&bytes_of(&name, "txt")).unwrap_or_else(|misread| panic!("{name}: {misread}"));
        let last = plan.register().read().unwrap_or_else(|refusal| panic!("{name}: {refusal}"));
        let message = Message::of(7, &last.station);
        assert_eq!(message.text().map(|text| text + "\n").as_ref(), Ok(&text_of(&name, "json")), "{name}");
        assert_eq!(text_of(&name, "json").parse(), Ok(message), "{name}");
    }
}

/// The registers that are kept are still those of their texts.
#[test]
fn registers_are_as_they_were() {
    for name in names("cea") {
        let bytes = bytes_of(&name, "cea");
        let plan = record(&bytes_of(&name, "txt")).unwrap_or_else(|misread| panic!("{name}: {misread}"));
        assert_eq!(plan.register(), Register::new(&bytes), "{name}");
    }
}
