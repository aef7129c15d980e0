//! A sheet's lines one by one, in bytes that are enough for them or too few.

use crate::paper;
use crate::values::{self, report_of, same, same_bytes};
use degvuurel::{refusal_line, row_line, title_line, Outputs, RowFields, ENTRY, HEADER, MOST};

/// What the bytes lent hold before. No sheet has this byte.
const UNTOUCHED: u8 = 0xEE;

/// Room for any line.
const ROOM: usize = 48;

/// A sheet is its title line and a line for each row.
pub fn of_sheet(bytes: &[u8], expected: &[u8]) -> Result<(), String> {
    let mut lines = expected.split_inclusive(|&byte| byte == b'\n');
    written(lines.next().unwrap_or_default(), |out| title_line(out).len())?;
    let mut station = paper::step(bytes, 0).station;
    for (place, entry) in bytes[HEADER..].chunks(ENTRY).enumerate() {
        let answer = station.take(values::report(report_of(entry)));
        let outputs = paper::outputs(station.aspect());
        let fields = RowFields { entry: place as u64 + 1, zones: station.zones(), outputs: Outputs::of(outputs), answer };
        written(lines.next().unwrap_or_default(), |out| row_line(out, fields).len())?;
    }
    Ok(())
}

/// The one line of a register that cannot be read: every answer but done, and every entry that 13 can name.
pub fn of_refusals() -> Result<(), String> {
    for answer in (1..=14).filter(|&answer| answer != 13) {
        written(format!("refused {answer}\n").as_bytes(), |out| refusal_line(out, answer, 0).len())?;
    }
    for entry in 1..=MOST as u64 {
        written(format!("refused 13 at {entry}\n").as_bytes(), |out| refusal_line(out, 13, entry).len())?;
    }
    Ok(())
}

/// In bytes enough the line is written and nothing beyond it; in one byte too few, nothing.
fn written(line: &[u8], write: impl Fn(&mut [u8]) -> usize) -> Result<(), String> {
    let mut out = [UNTOUCHED; ROOM];
    let length = write(&mut out);
    same_bytes(format_args!("a line"), &out[..length], line)?;
    same(format_args!("bytes touched beyond a line"), &touched(&out[length..]), &0)?;
    let mut short = [UNTOUCHED; ROOM];
    let none = write(&mut short[..line.len() - 1]);
    same(format_args!("length of, and bytes touched by, a line that does not fit"), &(none, touched(&short)), &(0, 0))?;
    let fits = write(&mut short[..line.len()]);
    same(format_args!("length of a line that just fits"), &fits, &line.len())
}

fn touched(bytes: &[u8]) -> usize {
    bytes.iter().filter(|&&byte| byte != UNTOUCHED).count()
}
