//! What docs/RUST-AND-C.md shows is what is compiled, run and compared here.

#[path = "c/compiled.rs"]
mod compiled;
#[path = "examples/run.rs"]
mod run;

use compiled::{compiled, package, written_by, LANGUAGES};
use run::written;
use std::fs;

/// A file of the repository, with no blanks at the ends of its lines, as a page has none.
fn text_of(name: &str) -> String {
    trimmed(&fs::read_to_string(package().join("..").join(name)).expect("the file is there"))
}

fn trimmed(text: &str) -> String {
    text.lines().map(|line| line.trim_end().to_owned() + "\n").collect()
}

/// The page shows these lines, set in by four blanks as it sets in what is typed and written.
fn shows(lines: &str) {
    let set_in: String =
        trimmed(lines).lines().map(|line| if line.is_empty() { "\n".to_owned() } else { format!("    {line}\n") }).collect();
    let shown = text_of("docs/RUST-AND-C.md");
    assert!(shown.contains(set_in.trim_end()), "the page does not show:\n{set_in}");
}

/// The lines of an example, but for the one that says what it is.
fn shows_example(name: &str) {
    let example = text_of(&format!("host/examples/{name}.rs"));
    shows(&example[example.find("use ").expect("the example uses the package")..]);
}

#[test]
fn the_programs_in_rust() {
    shows_example("first");
    shows(&written("first"));
    shows_example("editor");
}

/// What fill.c writes.
#[test]
fn the_program_in_c() {
    let (compiler, language) = LANGUAGES[0];
    shows(&written_by(&compiled("readme_fill", compiler, language, &["fill.c"])));
}
