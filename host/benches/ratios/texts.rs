//! Texts for the passenger screens: our own message, alone and behind what a desk might add to it.

const MESSAGE: &str = r#""station":7,"aspect":2,"tracks":[[1,1,1,1,0],[1,1,1,1,1]]}"#;

/// The most bytes that stand before our message.
const ROOM: usize = 3_900;

/// The pieces that a text is filled up with, by their number.
fn filled(start: &str, piece: impl Fn(usize) -> String, end: &str) -> Vec<u8> {
    let mut text = start.to_owned();
    for number in 0.. {
        let next = piece(number);
        if text.len() + next.len() > ROOM {
            break;
        }
        text += &next;
    }
    (text + end + MESSAGE).into_bytes()
}

fn line(number: usize) -> String {
    let (hour, minute, platform) = (number % 24, number * 7 % 60, number % 9);
    let late = number % 2 == 1;
    format!(
        r#""line {number}": {{"to": "Bourg-en-Bresse", "at": "{hour:02}:{minute:02}", "platform": {platform}, "late": {late}, "stops": [{number}, 1{number}, {number}.5]}}, "#
    )
}

/// Each text with a name.
pub fn all() -> [(&'static str, Vec<u8>); 6] {
    let string = |words: &'static str| filled(r#"{"text":""#, |_| words.to_owned(), r#"","#);
    [
        ("our own message", format!("{{{MESSAGE}").into_bytes()),
        ("4 kB of other members", filled("{", line, "")),
        ("4 kB of escapes", string(r#"\u00e9\n\"tr\u0041in\\ "#)),
        ("4 kB of UTF-8", string("Zürich – Genève → 東京 😀 ")),
        ("4 kB of ASCII", string("Please stand clear of the platform edge. ")),
        ("4 kB of lists, 8 deep", filled(r#"{"x":["#, |_| "[[[[[[1,0]]]]]],".to_owned(), "0],")),
    ]
}
