//! The header against Rust's declarations and against the Rattle sources: none of the three can be changed alone.

#[path = "c/compiled.rs"]
mod compiled;
#[path = "c/sources.rs"]
mod sources;

include!("archive/declared.rs");

use compiled::{compiled, package, written_by, LANGUAGES};
use declared::{Entry, Heads, Line, Made, Presence, Reading, Received, Recorded, Sited, Taken, Written, Zones};
use degvuurel::{Decimetres, Fault, Island, Message, Report, RowFields, Seconds, Settings, Station, Track};
use std::collections::BTreeMap;
use std::fmt::Write;
use std::fs;
use std::mem::{offset_of, size_of};

/// The bytes of the field that a function picks out.
fn field_size<S, F>(_: impl Fn(&S) -> &F) -> usize {
    size_of::<F>()
}

/// The lines of one struct, as tests/c/layout.c prints them. The pattern has no rest, so that no field is forgotten.
macro_rules! layout {
    ($lines:ident, $name:literal, $struct:ident { $($field:tt $(as $word:literal)?),* }) => {
        let _ = |$struct { $($field: _),* }: $struct| ();
        writeln!($lines, "{} {}", $name, size_of::<$struct>()).unwrap();
        $(
            let word = [$($word,)? stringify!($field)][0];
            let size = field_size(|whole: &$struct| &whole.$field);
            writeln!($lines, "{}.{} {} {}", $name, word, offset_of!($struct, $field), size).unwrap();
        )*
    };
}

/// The layout that Rust gives each struct.
fn layout_in_rust() -> String {
    let mut lines = String::new();
    layout!(lines, "settings", Settings { tracks, t1, t2, t3, t4, t5 });
    layout!(lines, "island", Island { occupied, leaving, failed, age });
    layout!(lines, "track", Track { islands });
    layout!(lines, "station", Station { settings, tracks, hold, fault, conditions });
    layout!(lines, "report", Report { kind, a, b, spare, value });
    layout!(lines, "made", Made { answer, station });
    layout!(lines, "taken", Taken { answer, station });
    layout!(lines, "heads_shown", Heads { outputs });
    layout!(lines, "zones_shown", Zones { digits });
    layout!(lines, "presence_shown", Presence { tracks });
    layout!(lines, "seconds", Seconds { 0 as "number" });
    // Its one field is not for others to name, and begins where the struct does.
    let size = size_of::<Decimetres>();
    writeln!(lines, "decimetres {size}\ndecimetres.decimetres 0 {size}").unwrap();
    layout!(lines, "sited", Sited { answer, distance });
    layout!(lines, "reading", Reading { answer, entry, count, station });
    layout!(lines, "entry_place", Entry { answer, at, length });
    layout!(lines, "row_fields", RowFields { entry, zones, outputs, answer });
    layout!(lines, "message", Message { station, aspect, tracks, digits });
    layout!(lines, "received", Received { answer, message });
    layout!(lines, "written", Written { answer, length });
    layout!(lines, "recorded", Recorded { fault, line, count });
    layout!(lines, "line", Line { name, fault, numbers });
    lines
}

#[test]
fn the_header_lays_structs_out_as_rust_does() {
    for (compiler, language) in LANGUAGES {
        let program = compiled(&format!("layout_{compiler}"), compiler, language, &["layout.c"]);
        assert_eq!(written_by(&program), layout_in_rust(), "by {compiler}");
    }
    let header = text_of("include/degvuurel.h");
    for line in layout_in_rust().lines().filter(|line| !line.contains('.')) {
        let looked_at = format!("\nDEGVUUREL_SIZE({});", line.replace(' ', ", "));
        assert!(header.contains(&looked_at), "the header does not look at the size of {line}");
    }
}

fn text_of(file: &str) -> String {
    fs::read_to_string(package().join(file)).unwrap_or_else(|error| panic!("{file}: {error}"))
}

/// The sources of some crates, or of this package, one after the other.
fn texts_of(files: &[&str]) -> String {
    files.iter().map(|file| text_of(file)).collect()
}

/// The Rattle sources that declare what the archive passes.
fn rattle() -> String {
    texts_of(&[
        "../crates/rules/src/lib.rt",
        "../crates/rules_plan/src/lib.rt",
        "../crates/export/src/layout.rt",
        "../crates/export/src/plans.rt",
        "../crates/export/src/registers.rt",
        "../crates/export/src/screens.rt",
        "../crates/export/src/sheets.rt",
        "../crates/export/src/sitings.rt",
        "../crates/export/src/stations.rt",
    ])
}

#[test]
fn the_structs_are_those_of_the_rattle_sources() {
    let structs = sources::structs_in_source(&rattle());
    assert_eq!(structs.len(), 21);
    assert_eq!(sources::structs_in_c(&text_of("include/degvuurel.h")), structs, "in the header");
    assert_eq!(sources::structs_in_source(&texts_of(&["src/structs.rs", "src/declared.rs"])), structs, "in Rust");
}

#[test]
fn the_functions_are_those_of_the_rattle_sources() {
    let functions = sources::functions_in_source(&rattle());
    assert_eq!(functions.len(), 32);
    assert_eq!(sources::functions_in_c(&text_of("include/degvuurel.h")), functions, "in the header");
    // Rust leaves out what it can do without.
    for (name, types) in sources::functions_in_source(&text_of("src/declared.rs")) {
        assert_eq!(Some(&types), functions.get(&name), "{name} in Rust");
    }
}

/// The header has shorter names for the kinds of report.
fn name_in_header(name: &str) -> &str {
    name.trim_start_matches("ISLAND_").trim_start_matches("DETECTOR_").trim_end_matches("_CONDITION")
}

/// The numbers of a planner's text: the words that a line begins with, and then what is wrong with it, from 0 on.
fn words_and_faults() -> (BTreeMap<String, String>, BTreeMap<String, String>) {
    let source = text_of("../crates/rules_plan/src/lib.rt");
    let (words, faults) = source.split_at(source.find("pub const UNDERSTOOD").expect("the faults have names"));
    (sources::constants_in_source(words), sources::constants_in_source(faults))
}

/// In the header words that begin a line are told from kinds of report, which some of them name.
fn word_in_header(name: &str) -> String {
    if name.ends_with("_WORD") {
        name.to_string()
    } else {
        format!("WORD_{name}")
    }
}

#[test]
fn the_numbers_are_those_of_the_rattle_sources() {
    let header = text_of("include/degvuurel.h");
    let numbers = sources::constants_in_source(&text_of("../crates/rules/src/lib.rt"));
    let (words, faults) = words_and_faults();
    // Seventeen answers, seven kinds, six aspects, nine outputs, ten parts that fail and all of them, and three sizes; and of a
    // planner's text sixteen words and twelve faults.
    assert_eq!((numbers.len(), words.len(), faults.len()), (53, 16, 12));
    let words = words.into_iter().map(|(name, number)| (word_in_header(&name), number));
    let others = numbers.into_iter().chain(faults.clone()).map(|(name, number)| (name_in_header(&name).to_string(), number));
    for (name, number) in others.chain(words) {
        let forms =
            [',', ' ', '\n'].map(|end| (format!("DEGVUUREL_{name} = {number}{end}"), format!("DEGVUUREL_{name} {number}{end}")));
        assert!(forms.iter().any(|(answer, size)| header.contains(answer) || header.contains(size)), "{name} is not {number}");
    }
    // And no other: a size has another form.
    let in_header = header.lines().filter(|line| line.starts_with("    DEGVUUREL_") && line.contains(" = "));
    assert_eq!(in_header.count(), 53 - 3 + 16 + 12);
    for fault in Fault::ALL {
        let number = faults.iter().find(|(name, _)| name.replace('_', "") == format!("{fault:?}").to_uppercase());
        assert_eq!(number.map(|(_, number)| number.as_str()), Some(fault.number().to_string().as_str()), "{fault:?}");
    }
    let recorder = text_of("../crates/recorder/src/lib.rt");
    assert!(recorder.contains(&format!("pub type RegisterBytes = [u8; {}];", degvuurel::MOST_BYTES)));
    assert!(recorder.contains(&format!("pub type RowLines = [usize; {}];", degvuurel::MOST)));
    assert!(text_of("../crates/sheet/src/lib.rt").contains(&format!("pub type SheetText = [u8; {}];", degvuurel::SHEET)));
    assert!(header.contains(&format!("DEGVUUREL_SHEET {}\n", degvuurel::SHEET)));
    assert!(header.contains(&format!("DEGVUUREL_MESSAGE {}\n", degvuurel::MESSAGE)));
    assert!(header.contains(&format!("DEGVUUREL_MESSAGE_READ {}\n", degvuurel::MESSAGE_READ)));
    assert!(text_of("../crates/screen/src/reading.rt").contains(&format!("const LONGEST: usize = {};", degvuurel::MESSAGE_READ)));
}

/// Outputs and failed parts have the same names in Rust, and the same bits.
#[test]
fn the_bits_are_those_of_the_rattle_sources() {
    let rust = texts_of(&["src/outputs.rs", "src/condition.rs"]);
    let bits = sources::constants_in_source(&text_of("../crates/rules/src/lib.rt")).into_iter();
    let bits: Vec<_> = bits.filter(|(name, bit)| bit.starts_with("1 << ") || name == "EVERY_PART_FAILED").collect();
    assert_eq!(bits.len(), 9 + 10 + 1);
    for (name, bit) in bits {
        let kind = if name.ends_with("_FAILED") { "Condition" } else { "Outputs" };
        assert!(rust.contains(&format!("pub const {name}: {kind} = {kind}({bit});")), "{name} is not {bit} in Rust");
    }
    // And no other, but for those of nothing.
    assert_eq!(rust.matches("= Outputs(").count() + rust.matches("= Condition(").count(), 9 + 10 + 1 + 2);
}

/// The layout that the archive's symbol counts. Where this differs, something that goes through the door has changed: then the
/// number in `degvuurel_layout_2` is one more, everywhere that it stands, and the new layout is written down here.
#[test]
fn the_layout_is_the_one_that_is_counted() {
    let mut lines = layout_in_rust();
    for (name, types) in sources::functions_in_source(&rattle()) {
        writeln!(lines, "{name}({})", types.join(", ")).unwrap();
    }
    let counted = text_of("tests/layout_2.txt");
    assert!(lines == counted, "the layout has changed; it is now:\n{lines}");
    for file in ["include/degvuurel.h", "src/declared.rs", "build.rs", "../crates/export/src/layout.rt"] {
        assert!(text_of(file).contains("degvuurel_layout_2"), "{file} is of another layout");
    }
}
