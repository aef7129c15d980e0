//! Rows of planner's texts, typed from what a planner is told: each with what is meant, or with its fault and line.

use crate::paper::{Report, Settings};
use crate::plan::{Misread, Plan};

/// Six lines.
pub const SETTINGS: &str = "tracks 2\nt1 300\nt2 300\nt3 300\nt4 0\nt5 600\n";

const PLAIN: Settings = Settings { tracks: 2, t1: 300, t2: 300, t3: 300, t4: 0, t5: 600 };

/// Behind the settings, from line 7 on: what is wrong there.
const BEHIND: [(&[u8], u8, usize); 50] = [
    (b"ocupied 0 4", 1, 7),
    (b"occupied0 4", 1, 7),
    (b"clock\x0B1", 1, 7),
    (b"\x0Cclock 1", 1, 7),
    (b"\0", 1, 7),
    (b"norm\xE1lise", 1, 7),
    (b"\xEF\xBB\xBFnormalise", 1, 7),
    (b"t6 300", 1, 7),
    (b"t", 1, 7),
    (b"3 0 0 0 1", 1, 7),
    (b"normalis\xC5", 1, 7),
    // The case of letters does not count; bytes that differ from letters and digits by the same bit are others.
    (b"t\x11 300", 1, 7),
    (b"occupied", 2, 7),
    (b"occupied 0", 2, 7),
    (b"occupied # 0 4", 2, 7),
    (b"clock \t\r", 2, 7),
    (b"head 1", 2, 7),
    (b"report 1 2 3", 2, 7),
    (b"t1", 2, 7),
    (b"\n\noccupied x4 0", 4, 9),
    (b"occupied 256 0", 4, 7),
    (b"occupied 0 +4", 4, 7),
    (b"occupied 0 -1", 4, 7),
    (b"free 1,0 4", 4, 7),
    (b"failed 0 4.", 4, 7),
    (b"restored 0x0 4", 4, 7),
    (b"head 18446744073709551616 1", 4, 7),
    (b"report 1 2 3 300 70000", 4, 7),
    (b"tracks 4294967297", 4, 7),
    (b"clock 65536", 5, 7),
    (b"clock 4294967297", 5, 7),
    (b"clock 100000000000000000000000000000000000000001", 5, 7),
    (b"head 1 lamp", 5, 7),
    (b"report 1 2 3 4 x", 5, 7),
    (b"t1 -300", 5, 7),
    (b"normalise now", 3, 7),
    (b"free 0 4 1", 3, 7),
    (b"clock 1 1", 3, 7),
    (b"report 1 2 3 4 5 6", 3, 7),
    (b"clock 1\rclock 1", 3, 7),
    (b"t1 300 300", 3, 7),
    // From left to right: what is wrong with a number comes before a number that is missing, and that before a word too many.
    (b"occupied 256", 4, 7),
    (b"clock 65536 1", 5, 7),
    // A line by itself comes before where it stands.
    (b"normalise\nt1 65536", 5, 8),
    (b"normalise\nT1 300", 6, 8),
    (b"normalise\nt1 300 300", 3, 8),
    (b"t1 300", 7, 7),
    (b"TRACKS 9", 7, 7),
    (b"t1 300\nocupied", 7, 7),
    (b"normalise\nclock 1\n\n# done\nocupied\nt1", 1, 11),
];

/// Whole texts: what is wrong with them.
const WHOLE: [(&[u8], u8, usize); 22] = [
    (b"", 11, 0),
    (b"\n\n", 11, 0),
    (b"# tracks 2", 11, 0),
    (b"tracks 2\nt1 300\nt2 300\nt3 300\nt4 0\n", 11, 0),
    (b"t1 300\n\nnormalise", 8, 3),
    (b"normalise", 8, 1),
    (b"t1 300\nclock 65536", 5, 2),
    (b"t1 300\nt1 300\nnormalise", 7, 2),
    (b"tracks 256", 4, 1),
    (b"tracks", 2, 1),
    (b"tracks 0\nt1 300\nt2 300\nt3 300\nt4 0\nt5 600", 9, 6),
    (b"tracks 5\nt1 300\nt2 300\nt3 300\nt4 0\nt5 600", 9, 6),
    (b"tracks 2\nt1 0\nt2 300\nt3 300\nt4 0\nt5 600", 9, 6),
    (b"tracks 2\nt1 300\nt2 0\nt3 300\nt4 0\nt5 600", 9, 6),
    (b"tracks 2\nt1 300\nt2 300\nt3 0\nt4 0\nt5 600", 9, 6),
    (b"tracks 2\nt1 300\nt2 300\nt3 300\nt4 0\nt5 300", 9, 6),
    (b"t5 300\n\nt4 0\nt3 300\nt2 300\nt1 300\ntracks 2\nocupied", 9, 7),
    (b"t5 0\nt4 0\nt3 0\nt2 0\nt1 0\nnormalise", 8, 6),
    (b"\xEF\xBB\xBF\xEF\xBB\xBFtracks 2", 1, 1),
    (b"\xEF\xBBtracks 2", 1, 1),
    (b"\xEF\xBB\xBEtracks 2", 1, 1),
    (b"\n\xEF\xBB\xBFtracks 2", 1, 2),
];

/// Texts with settings of their own, of which nothing is wrong.
const MEANT: [(&str, Settings); 4] = [
    ("tracks 1\nt1 1\nt2 1\nt3 1\nt4 0\nt5 2", Settings { tracks: 1, t1: 1, t2: 1, t3: 1, t4: 0, t5: 2 }),
    (
        "t5 65535\nt4 65535\nt3 65535\nt2 65534\nt1 65535\ntracks 4\n",
        Settings { tracks: 4, t1: 65535, t2: 65534, t3: 65535, t4: 65535, t5: 65535 },
    ),
    (
        "\u{feff}# first\n\n  Tracks 3 # three\nT1 1\r\nt2\r2\n\tt3\t3\nt4 0#none\nT5 0000000000000000000000065535",
        Settings { tracks: 3, t1: 1, t2: 2, t3: 3, t4: 0, t5: 65535 },
    ),
    ("\r\ntracks 2\r\nt1 300\r\nt2 300\r\nt3 300\r\nt4 0\r\nt5 600\r\n\r\n", PLAIN),
];

/// A reader keeps to the rows.
pub fn hold(read: impl Fn(&[u8]) -> Result<Plan, Misread>) {
    for (lines, fault, line) in BEHIND {
        let text = [SETTINGS.as_bytes(), lines].concat();
        assert_eq!(read(&text), Err(Misread { fault, line }), "{}", lines.escape_ascii());
    }
    for (text, fault, line) in WHOLE {
        assert_eq!(read(text), Err(Misread { fault, line }), "{}", text.escape_ascii());
    }
    for (text, settings) in MEANT {
        assert_eq!(read(text.as_bytes()), Ok(Plan { settings, reports: vec![] }), "{text:?}");
    }
    hold_reports(&read);
    hold_most(&read);
}

fn hold_reports(read: &impl Fn(&[u8]) -> Result<Plan, Misread>) {
    let lines = b"Normalise#now\nOCCUPIED 255 0255\n\n free 1 4 # ma\xF1ana\nclock 65535\r\nfailed 0 1\n\trestored\t2 3\n\
                  head 1 1023\nreport 9 8 7 6 54321";
    let reports = [
        (7, [7, 0, 0, 0], 0),
        (8, [1, 255, 255, 0], 0),
        (10, [2, 1, 4, 0], 0),
        (11, [3, 0, 0, 0], 65535),
        (12, [4, 0, 1, 0], 0),
        (13, [5, 2, 3, 0], 0),
        (14, [6, 1, 0, 0], 1023),
        (15, [9, 8, 7, 6], 54321),
    ];
    let reports = reports.map(|(line, [kind, a, b, spare], value)| (line, Report { kind, a, b, spare, value })).to_vec();
    assert_eq!(read(&[SETTINGS.as_bytes(), lines].concat()), Ok(Plan { settings: PLAIN, reports }));
}

/// As many reports as a register has, and one more. What is wrong behind it is not looked at, and what is wrong with it comes
/// first.
fn hold_most(read: &impl Fn(&[u8]) -> Result<Plan, Misread>) {
    let most = format!("{SETTINGS}{}", "clock 1\n".repeat(8190));
    assert_eq!(read(most.as_bytes()).map(|plan| plan.reports.len()), Ok(8190));
    for (line, fault) in [("clock 1\nocupied", 10), ("ocupied", 1), ("t1 300", 6), ("clock", 2)] {
        assert_eq!(read(format!("{most}{line}").as_bytes()), Err(Misread { fault, line: 8197 }), "{line:?}");
    }
}
