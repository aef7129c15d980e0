//! Planner's texts: the library, and the reader in plain Rust that it is held to, by the same rows.

// Only its settings and reports are asked here.
#[allow(dead_code, unused_imports)]
mod paper;
#[allow(dead_code)]
mod plan;
#[path = "plan/rows.rs"]
mod rows;

use degvuurel::{
    record, Answer, Aspect, Condition, Decimetres, Fault, HeadNumber, IslandNumber, Message, NoKind, NoSuchNumber, NotAReport,
    NotSettings, Register, Report, Seconds, Settings, Station, TrackNumber,
};
use plan::{Misread, Plan};
use rows::SETTINGS;
use std::fmt::Display;

fn of_settings(settings: Settings) -> paper::Settings {
    let Settings { tracks, t1, t2, t3, t4, t5 } = settings;
    paper::Settings { tracks, t1, t2, t3, t4, t5 }
}

fn of_report(report: Report) -> paper::Report {
    let Report { kind, a, b, spare, value } = report;
    paper::Report { kind, a, b, spare, value }
}

/// What the library records, as it stands in the register.
fn recorded(text: &[u8]) -> Result<Plan, Misread> {
    let plan = record(text).map_err(|misread| Misread { fault: misread.fault.number(), line: misread.line.unwrap_or(0) })?;
    let count = plan.register().read().expect("what is recorded can be read").count;
    assert_eq!((plan.count(), plan.line_of(0), plan.line_of(count + 1)), (count, None, None));
    let entries = plan.register().entries().expect("what is recorded can be read");
    let reports = (1..).zip(entries).map(|(row, entry)| (plan.line_of(row).expect("the row has a line"), of_report(entry.report)));
    let reports = reports.collect();
    Ok(Plan { settings: of_settings(plan.register().settings()), reports })
}

#[test]
fn texts_are_read_as_they_should_be() {
    rows::hold(plan::read);
}

#[test]
fn texts_are_recorded_as_they_should_be() {
    rows::hold(recorded);
}

#[test]
fn a_report_is_read_as_it_is_shown() {
    for kind in 0..=8 {
        for (a, b, spare, value) in
            [(0, 0, 0, 0), (1, 4, 0, 0), (1, 0, 0, 1023), (0, 0, 0, 65535), (2, 3, 4, 5), (255, 255, 255, 256)]
        {
            let report = Report { kind, a, b, spare, value };
            let plan = record(format!("{SETTINGS}{report}").as_bytes()).expect("the report is understood");
            assert_eq!(plan.register().entry(1).map(|entry| entry.report), Ok(report));
            assert_eq!(report.to_string().parse(), Ok(report));
        }
    }
}

/// The words of the fault that a text has.
fn words(text: &str) -> String {
    record(text.as_bytes()).expect_err("something is wrong with the text").to_string()
}

#[test]
fn every_fault_is_said() {
    let missing = "all six settings (tracks, t1, t2, t3, t4, t5)";
    let behind = |lines: &str| words(&format!("{SETTINGS}\n{lines}"));
    assert_eq!(behind("ocupied 0 4"), "line 8: not a setting, and not a kind of report");
    assert_eq!(behind("occupied 0"), "line 8: a number is missing");
    assert_eq!(behind("normalise now"), "line 8: a word too many");
    assert_eq!(behind("occupied 256 4"), "line 8: not a number from 0 to 255");
    assert_eq!(behind("clock 65536"), "line 8: not a number from 0 to 65535");
    assert_eq!(behind("normalise\nt1 300"), "line 9: a setting after the first report");
    assert_eq!(behind("t1 300"), "line 8: set already");
    assert_eq!(words("t1 300\nnormalise"), format!("line 2: a report before {missing}"));
    assert_eq!(words(&SETTINGS.replace("600", "300")), "line 6: with this the settings are outside their limits");
    assert_eq!(behind(&"clock 1\n".repeat(8191)), "line 8198: more than 8190 reports");
    assert_eq!(words(""), format!("the text ends before {missing}"));
    assert_eq!(Fault::ALL.map(Fault::number), [1, 2, 3, 4, 5, 6, 7, 8, 9, 10, 11]);
    assert!(Fault::ALL.iter().all(|&fault| Fault::of(fault.number()) == Some(fault)));
    assert_eq!([0, 12, 255].map(Fault::of), [None; 3]);
}

/// The refused report is entered, and its line is told from the row.
#[test]
fn the_worked_sheet_is_recorded() {
    let text = format!("{SETTINGS}\nnormalise\noccupied 0 4\nclock 300\noccupied 0 3\noccupied 0 3  # refused by 6\n");
    let plan = record(text.as_bytes()).expect("nothing is wrong with it");
    let sheet = "\
entry zones outputs answer
1 11111 100000000 0
2 11110 010001000 0
3 11110 001000001 0
4 11100 000100100 0
5 11100 000100100 6
";
    assert_eq!((plan.register().sheet().as_deref(), plan.line_of(5)), (Ok(sheet), Some(12)));
    let bytes = plan.clone().into_bytes();
    assert_eq!((Register::new(&bytes), bytes.len()), (plan.register(), 56));
}

#[test]
fn a_line_that_is_no_report_says_why() {
    let table: [(&str, NotAReport, &str); 6] = [
        ("ocupied 0 4", NotAReport::Misread(Fault::NotAName), "not a setting, and not a kind of report"),
        ("clock 65536", NotAReport::Misread(Fault::NotSixteenBits), "not a number from 0 to 65535"),
        ("t1 300", NotAReport::Setting, "a setting, and no report"),
        ("# a train comes", NotAReport::Nothing, "no report"),
        ("\n", NotAReport::Nothing, "no report"),
        ("normalise # first\nclock 1", NotAReport::Lines, "more than one line"),
    ];
    for (line, why, words) in table {
        assert_eq!((line.parse::<Report>(), why.to_string().as_str()), (Err(why), words), "{line:?}");
        assert_eq!(Report::try_from(line), Err(why));
    }
    assert_eq!("clock 1 # a tick\n".parse(), Ok(Report::clock(1)));
}

#[test]
fn settings_are_read_as_they_are_shown() {
    let settings = Settings { tracks: 4, t1: 1, t2: 65534, t3: 3, t4: 0, t5: 65535 };
    assert_eq!(settings.to_string(), "tracks 4\nt1 1\nt2 65534\nt3 3\nt4 0\nt5 65535");
    assert_eq!(settings.to_string().parse(), Ok(settings));
    assert_eq!(Settings::try_from("# any order\nT5 65535\nt4 0\nt3 3\nt2 65534\nt1 1\n\ntracks 4\n"), Ok(settings));
    let said = |text: String| text.parse::<Settings>().expect_err("these are no settings").to_string();
    assert_eq!(said(format!("{settings}\n\nnormalise")), "line 8: a report, and no setting");
    assert_eq!(said(Settings { t5: 65534, ..settings }.to_string()), "line 6: with this the settings are outside their limits");
    assert_eq!(said("tracks 4".to_owned()), "the text ends before all six settings (tracks, t1, t2, t3, t4, t5)");
}

/// Where a width is asked for, everything that is shown keeps to it.
#[test]
fn what_is_shown_is_padded() {
    let settings = Settings { tracks: 1, t1: 1, t2: 1, t3: 1, t4: 0, t5: 2 };
    let message = Message::of(7, &Station::make(settings).expect("the settings are good"));
    let misread = record(b"x").expect_err("it is not understood");
    let shown: [&dyn Display; 14] = [
        &Answer::Done,
        &Answer::AlreadySo.done().expect_err("it is not done"),
        &Aspect::Clearing,
        &Aspect::Clearing.outputs(),
        &Fault::NotAName,
        &misread,
        &NoSuchNumber(17),
        &Report::clock(1),
        &Report { kind: 9, a: 0, b: 0, spare: 0, value: 0 },
        &NoKind(Report::clock(1)),
        &NotAReport::Setting,
        &NotSettings::Report(8),
        &settings,
        &message,
    ];
    for words in shown {
        let plain = words.to_string();
        assert_eq!(format!("{words:>120}"), format!("{plain:>120}"));
        assert_eq!(format!("{words:.3}"), format!("{plain:.3}"));
    }
    let numbers: [&dyn Display; 4] = [&TrackNumber(1), &IslandNumber(1), &HeadNumber(1), &Condition::GREEN_FAILED];
    for number in numbers {
        assert_eq!(format!("{number:>3}"), "  1");
    }
    let measured: [(&dyn Display, &str); 2] = [(&Seconds(60), "60 s"), (&Decimetres::of(12_917), "1291.7 m")];
    for (number, plain) in measured {
        assert_eq!(
            format!("{number}|{number:.1}|{number:12}|{number:<12.3}|"),
            format!("{plain}|{plain}|{plain:>12}|{plain:<12}|")
        );
    }
}
