//! What is printed of bytes that cannot be read, and lines of any fields.

use super::{changed, Change};
use degvuurel::{print, refusal_line, row_line, Outputs, RowFields, SHEET};

#[test]
fn one_line_of_what_cannot_be_read() {
    let mut text = Box::new([0; SHEET]);
    let table: [(&[Change], usize, &str); 9] = [
        (&[], 0, "refused 9\n"),
        (&[(3, 2)], 56, "refused 10\n"),
        (&[], 17, "refused 11\n"),
        (&[(5, 5)], 56, "refused 8\n"),
        (&[(30, 6)], 56, "refused 13 at 2\n"),
        // Behind the five entries there are bytes of no sense.
        (&[], 65_536, "refused 13 at 6\n"),
        (&[(0, 68)], 65_536, "refused 9\n"),
        // More than 65,536 bytes come before any other test.
        (&[(0, 68)], 65_537, "refused 12\n"),
        (&[], 65_544, "refused 12\n"),
    ];
    for (changes, length, line) in table {
        let refusal = print(&changed(changes, length), &mut text).expect_err("it cannot be read");
        assert!(text.starts_with(line.as_bytes()), "{changes:?} in {length} bytes");
        assert!(refusal.to_string().starts_with(&format!("{}:", line.trim_end())), "{refusal} and not {line}");
    }
    assert_eq!(print(&changed(&[], 16), &mut text), Ok("entry zones outputs answer\n"));
}

#[test]
fn lines_of_any_fields() {
    let table = [
        (8190, [0, 1, 0, 0, 1], Outputs::VF | Outputs::VI | Outputs::RF, 14, "8190 01001 110100000 14\n"),
        // Past the nine outputs, and all nine.
        (0, [2, 255, 1, 0, 0], Outputs::of(512), 255, "0 11100 000000000 255\n"),
        (u64::MAX, [0; 5], Outputs::of(511), 10, "18446744073709551615 00000 111111111 10\n"),
    ];
    for (entry, zones, outputs, answer, line) in table {
        assert_eq!(row_line(&mut [9; 64], RowFields { entry, zones, outputs, answer }), line);
    }
    // The entry is named with 13 alone.
    for (answer, entry, line) in [(13, 8190, "refused 13 at 8190\n"), (12, 5, "refused 12\n"), (14, 5, "refused 14\n")] {
        assert_eq!(refusal_line(&mut [9; 64], answer, entry), line);
    }
}
