//! Our members: their forms, their ranges, which of them counts, and where they stand.

use super::{read, Read, Row, FIRST, FIRST_READ, LONGEST, LONGEST_READ, NOT_OURS};

/// Whole texts.
const WHOLE: &[(&[u8], Read)] = &[
    (FIRST, FIRST_READ),
    (LONGEST, LONGEST_READ),
    // In another order, with blanks and other members.
    (br#"{"tracks":[[1,0,1,0,1]],"aspect":2,"station":1}"#, FIRST_READ),
    (b" \t\r\n{ \"station\" :\t1\r,\n\"aspect\" : 2 , \"tracks\" : [ [ 1 , 0 , 1 ,\n0\t,\r1 ] ] }\n\r\t ", FIRST_READ),
    (br#"{"text":"delayed","station":1,"":null,"aspect":2,"more":{"a":[]},"tracks":[[1,0,1,0,1]],"last":-1.5e3}"#, FIRST_READ),
    // The first of a name decides.
    (br#"{"station":1,"station":9,"aspect":2,"aspect":3,"tracks":[[1,0,1,0,1]],"tracks":[[0,0,0,0,0]]}"#, FIRST_READ),
    (br#"{"station":1,"aspect":2,"tracks":[[1,0,1,0,1]],"station":65536,"aspect":null,"tracks":[]}"#, FIRST_READ),
    (br#"{"station":65536,"aspect":2,"tracks":[[1,0,1,0,1]],"station":1}"#, NOT_OURS),
    (br#"{"station":1,"aspect":"2","aspect":2,"tracks":[[1,0,1,0,1]]}"#, NOT_OURS),
    (br#"{"station":1,"aspect":2,"tracks":[],"tracks":[[1,0,1,0,1]]}"#, NOT_OURS),
    (br#"{"station":null,"station":1,"aspect":2,"tracks":[[1,0,1,0,1]]}"#, NOT_OURS),
    // Names are compared after escapes.
    (br#"{"\u0073tation":1,"aspec\u0074":2,"t\u0072ac\u006bs":[[1,0,1,0,1]]}"#, FIRST_READ),
    (br#"{"\u0073\u0074\u0061\u0074\u0069\u006f\u006E":1,"aspect":2,"tracks":[[1,0,1,0,1]]}"#, FIRST_READ),
    (br#"{"st\u0061tion":1,"station":9,"aspect":2,"tracks":[[1,0,1,0,1]]}"#, FIRST_READ),
    (br#"{"station":1,"st\u0061tion":9,"aspect":2,"tracks":[[1,0,1,0,1]]}"#, FIRST_READ),
    (br#"{"st\u0061tion":null,"station":1,"aspect":2,"tracks":[[1,0,1,0,1]]}"#, NOT_OURS),
    // Names that are not ours: a large letter, more, less, a tab, a backslash, a code unit above 255, a nought.
    (br#"{"Station":1,"aspect":2,"tracks":[[1,0,1,0,1]]}"#, NOT_OURS),
    (br#"{"\u0053tation":1,"aspect":2,"tracks":[[1,0,1,0,1]]}"#, NOT_OURS),
    (br#"{"stations":1,"aspect":2,"tracks":[[1,0,1,0,1]]}"#, NOT_OURS),
    (br#"{"statio":1,"aspect":2,"tracks":[[1,0,1,0,1]]}"#, NOT_OURS),
    (br#"{"":1,"aspect":2,"tracks":[[1,0,1,0,1]]}"#, NOT_OURS),
    (br#"{"station ":1,"aspect":2,"tracks":[[1,0,1,0,1]]}"#, NOT_OURS),
    (br#"{"station":1,"aspect":2,"\tracks":[[1,0,1,0,1]]}"#, NOT_OURS),
    (br#"{"\\u0073tation":1,"aspect":2,"tracks":[[1,0,1,0,1]]}"#, NOT_OURS),
    (br#"{"\u0173tation":1,"aspect":2,"tracks":[[1,0,1,0,1]]}"#, NOT_OURS),
    (br#"{"station\u0000":1,"aspect":2,"tracks":[[1,0,1,0,1]]}"#, NOT_OURS),
    (b"{\"\xEF\xBD\x93tation\":1,\"aspect\":2,\"tracks\":[[1,0,1,0,1]]}", NOT_OURS),
    // They are skipped where ours stand too, before them or after.
    (br#"{"Station":9,"stations":9,"station":1,"statio":9,"aspect":2,"\tracks":0,"tracks":[[1,0,1,0,1]]}"#, FIRST_READ),
    // One of ours missing.
    (br#"{"aspect":2,"tracks":[[1,0,1,0,1]]}"#, NOT_OURS),
    (br#"{"station":1,"tracks":[[1,0,1,0,1]]}"#, NOT_OURS),
    (br#"{"station":1,"aspect":2}"#, NOT_OURS),
    (b"{}", NOT_OURS),
    (b" { } ", NOT_OURS),
    // Only the outermost object counts.
    (br#"{"in":{"station":9,"aspect":3,"tracks":[[0,0,0,0,0]]},"station":1,"aspect":2,"tracks":[[1,0,1,0,1]]}"#, FIRST_READ),
    (br#"{"in":[{"station":9}],"station":1,"aspect":2,"tracks":[[1,0,1,0,1]]}"#, FIRST_READ),
    (br#"{"in":{"station":1},"aspect":2,"tracks":[[1,0,1,0,1]]}"#, NOT_OURS),
    (br#"{"in":{"station":1,"aspect":2,"tracks":[[1,0,1,0,1]]}}"#, NOT_OURS),
    (br#"{"text":"\"station\":1","aspect":2,"tracks":[[1,0,1,0,1]]}"#, NOT_OURS),
    (br#"{"station":{"station":1},"aspect":2,"tracks":[[1,0,1,0,1]]}"#, NOT_OURS),
    // The outermost is no object.
    (br#"[{"station":1,"aspect":2,"tracks":[[1,0,1,0,1]]}]"#, NOT_OURS),
    (b"[[1,0,1,0,1]]", NOT_OURS),
    (b"[]", NOT_OURS),
    (b"0", NOT_OURS),
    (b"-1.5E+3", NOT_OURS),
    (b"\"station\"", NOT_OURS),
    (b"\"\"", NOT_OURS),
    (b" true ", NOT_OURS),
    (b"false", NOT_OURS),
    (b"null", NOT_OURS),
];

/// Values of the station, and the number where it is one.
const STATIONS: &[(&str, Option<u16>)] = &[
    ("0", Some(0)),
    ("9", Some(9)),
    ("10", Some(10)),
    ("9999", Some(9999)),
    ("10000", Some(10000)),
    ("65535", Some(65535)),
    ("65536", None),
    ("65537", None),
    ("65545", None),
    ("66000", None),
    ("99999", None),
    ("100000", None),
    ("131072", None),
    ("4294967296", None),
    ("4294967297", None),
    ("18446744073709551616", None),
    ("18446744073709551617", None),
    ("-0", None),
    ("-1", None),
    ("1.0", None),
    ("0.0", None),
    ("1e0", None),
    ("1E0", None),
    ("0e1", None),
    ("1.0e0", None),
    ("65535.0", None),
    ("\"1\"", None),
    ("\"\"", None),
    ("null", None),
    ("true", None),
    ("false", None),
    ("[]", None),
    ("[1]", None),
    ("{}", None),
];

const ASPECTS: &[(&str, Option<u8>)] = &[
    ("0", Some(0)),
    ("1", Some(1)),
    ("4", Some(4)),
    ("5", Some(5)),
    ("6", None),
    ("9", None),
    ("10", None),
    ("50", None),
    ("255", None),
    ("256", None),
    ("257", None),
    ("65536", None),
    ("-0", None),
    ("-1", None),
    ("5.0", None),
    ("0.5", None),
    ("5e0", None),
    ("50e-1", None),
    ("\"5\"", None),
    ("null", None),
    ("false", None),
    ("[0]", None),
    ("{}", None),
];

const TRACKS: &[(&str, Option<&[[u8; 5]]>)] = &[
    ("[[0,0,0,0,0]]", Some(&[[0; 5]])),
    ("[[1,0,0,0,0],[0,0,0,0,1]]", Some(&[[1, 0, 0, 0, 0], [0, 0, 0, 0, 1]])),
    ("[[1,1,1,1,1],[1,1,1,1,1],[1,1,1,1,0]]", Some(&[[1; 5], [1; 5], [1, 1, 1, 1, 0]])),
    ("[[0,1,1,1,1],[1,1,1,1,1],[1,1,1,1,1],[1,1,1,1,1]]", Some(&[[0, 1, 1, 1, 1], [1; 5], [1; 5], [1; 5]])),
    ("[\n[1,1,1,1,1]\t,\r[ 0,0 ,0,0,0 ] ]", Some(&[[1; 5], [0; 5]])),
    ("[]", None),
    ("[[]]", None),
    ("[[],[1,1,1,1,1]]", None),
    ("[[1,1,1,1,1],[]]", None),
    ("[[0,0,0,0,0],[0,0,0,0,0],[0,0,0,0,0],[0,0,0,0,0],[0,0,0,0,0]]", None),
    ("[[0,0,0,0,0],[0,0,0,0,0],[0,0,0,0,0],[0,0,0,0,0],null]", None),
    ("[[1,1,1,1]]", None),
    ("[[1,1,1,1,1,1]]", None),
    ("[[1,1,1,1,1],[1,1,1,1]]", None),
    ("[[1,1,1,1,1],[1,1,1,1,1,1]]", None),
    ("[[1,1,1,1,1],[1,1,1,1,1],[1,1,1,1,1],[1,1,1,1,1,1]]", None),
    ("[[2,1,1,1,1]]", None),
    ("[[1,1,1,1,2]]", None),
    ("[[1,1,1,1,10]]", None),
    ("[[1,1,1,1,1],[1,1,2,1,1]]", None),
    ("[[1,1,1,1,-0]]", None),
    ("[[1,1,1,1,-1]]", None),
    ("[[1,1,1,1,1.0]]", None),
    ("[[1,1,1,1,1e0]]", None),
    ("[[1,1,1,1,\"1\"]]", None),
    ("[[1,1,1,1,true]]", None),
    ("[[1,1,1,1,null]]", None),
    ("[[1,1,1,1,[1]]]", None),
    ("[[[1,1,1,1,1]]]", None),
    ("[1,1,1,1,1]", None),
    ("[[1,1,1,1,1],1]", None),
    ("[1,[1,1,1,1,1]]", None),
    ("[\"11111\"]", None),
    ("[[11111]]", None),
    ("{\"0\":[1,1,1,1,1]}", None),
    ("[{\"0\":1}]", None),
    ("\"[[1,1,1,1,1]]\"", None),
    ("1", None),
    ("null", None),
];

const TRACK: &str = "[[1,0,1,0,1]]";

fn with(station: &str, aspect: &str, tracks: &str) -> Vec<u8> {
    format!(r#"{{"station":{station},"aspect":{aspect},"tracks":{tracks}}}"#).into_bytes()
}

pub fn rows() -> Vec<Row> {
    let mut rows: Vec<Row> = WHOLE.iter().map(|&(text, expected)| Row { text: text.to_vec(), expected }).collect();
    let mut add = |text, read: Option<Read>| rows.push(Row { text, expected: read.unwrap_or(NOT_OURS) });
    for &(value, station) in STATIONS {
        add(with(value, "2", TRACK), station.map(|station| read(station, 2, &[[1, 0, 1, 0, 1]])));
    }
    for &(value, aspect) in ASPECTS {
        add(with("1", value, TRACK), aspect.map(|aspect| read(1, aspect, &[[1, 0, 1, 0, 1]])));
    }
    for &(value, tracks) in TRACKS {
        add(with("1", "2", value), tracks.map(|tracks| read(1, 2, tracks)));
    }
    // Numbers of thousands of digits.
    for digit in ["1", "9"] {
        add(with(&digit.repeat(4000), "2", TRACK), None);
        add(with("1", &digit.repeat(4000), TRACK), None);
    }
    rows
}
