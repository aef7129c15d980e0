//! One text recorded by both sides. Whole buffers are compared, so that a byte or a line written behind a register shows, and any
//! that is written of a text which is not recorded.

use crate::declared::{degvuurel_record, RegisterBytes, RowLines};
use crate::plan::{self, Misread};
use crate::runs::Bench;
use crate::shipped::{Fields, RECORD};
use crate::values::{self, same, same_bytes};
use degvuurel::{record, Fault, NotAReport, Report, MOST, MOST_BYTES};

/// What is expected of a text: its fault and its line, or the register's bytes, and the lines of its rows.
struct Expected {
    misread: Misread,
    bytes: Vec<u8>,
    lines: Vec<usize>,
}

fn expected(text: &[u8]) -> Expected {
    match plan::read(text) {
        Ok(plan) => Expected {
            misread: Misread { fault: 0, line: 0 },
            bytes: plan.register(),
            lines: plan.reports.iter().map(|&(line, _)| line).collect(),
        },
        Err(misread) => Expected { misread, bytes: Vec::new(), lines: Vec::new() },
    }
}

/// Through the archive, into bytes and lines that hold something before.
pub fn compare(text: &[u8], filling: u8, bench: &mut Bench) -> Result<(), String> {
    let expected = expected(text);
    let Misread { fault, line } = expected.misread;
    bench.tally.texts[usize::from(fault)] += 1;
    let before = usize::from(filling) << 40;
    let (mut bytes, mut lines) = (vec![filling; MOST_BYTES], vec![before; MOST]);
    let register: &mut RegisterBytes = bytes.as_mut_slice().try_into().expect("the room has the length of a register");
    let rows: &mut RowLines = lines.as_mut_slice().try_into().expect("the room has the length of a register's rows");
    // SAFETY: the pointer and the length are one slice, and what is lent has its length and is lent to nobody else.
    let recorded = unsafe { degvuurel_record(text.as_ptr(), text.len(), register, rows) };
    let said = (recorded.fault, recorded.line, recorded.count);
    same(format_args!("fault, line and reports"), &said, &(fault, line, expected.lines.len()))?;
    let (own, beyond) = bytes.split_at(expected.bytes.len());
    same_bytes(format_args!("the register"), own, &expected.bytes)?;
    same(format_args!("bytes touched beyond it"), &others(beyond, filling), &0)?;
    let (own, beyond) = lines.split_at(expected.lines.len());
    same(format_args!("the first line that differs"), &first_other(own, &expected.lines), &None)?;
    same(format_args!("lines touched beyond them"), &others(beyond, before), &0)?;
    compare_wrapped(text, &expected)?;
    compare_lines(text)?;
    bench.ship(format_args!("recording"), || (Fields::call(RECORD, 0, text), expected_of_shipped(&expected)))
}

fn others<T: PartialEq>(items: &[T], before: T) -> usize {
    items.iter().filter(|&item| *item != before).count()
}

/// The first row of which the lines differ, with both.
fn first_other(library: &[usize], judge: &[usize]) -> Option<(usize, usize, usize)> {
    let place = library.iter().zip(judge).position(|(one, other)| one != other)?;
    Some((place + 1, library[place], judge[place]))
}

/// Through the package's own function.
fn compare_wrapped(text: &[u8], expected: &Expected) -> Result<(), String> {
    match record(text) {
        Ok(plan) => {
            same(format_args!("wrapped, fault"), &0, &expected.misread.fault)?;
            same_bytes(format_args!("wrapped, the register"), plan.register().bytes(), &expected.bytes)?;
            let lines: Vec<usize> = (1..=plan.count()).filter_map(|row| plan.line_of(row)).collect();
            same(format_args!("wrapped, rows"), &lines.len(), &expected.lines.len())?;
            same(format_args!("wrapped, the first line that differs"), &first_other(&lines, &expected.lines), &None)?;
            same(format_args!("wrapped, lines of no rows"), &(plan.line_of(0), plan.line_of(lines.len() + 1)), &(None, None))
        }
        Err(misread) => {
            let wrapped = Misread { fault: misread.fault.number(), line: misread.line.unwrap_or(0) };
            same(format_args!("wrapped, fault and line"), &wrapped, &expected.misread)
        }
    }
}

/// Behind these any report can stand, and a setting is too late.
const BEFORE_A_REPORT: &[u8] = b"tracks 1\nt1 1\nt2 1\nt3 1\nt4 0\nt5 2\nnormalise\n";

/// So many lines of a text are read by themselves.
const READ_ALONE: usize = 8;

/// Lines by themselves, as reports, where they are strings at all: read by the package, and by the judge behind a report.
fn compare_lines(text: &[u8]) -> Result<(), String> {
    for line in text.split(|&byte| byte == b'\n').take(READ_ALONE) {
        let Ok(words) = std::str::from_utf8(line) else { continue };
        let judged = match plan::read(&[BEFORE_A_REPORT, line].concat()) {
            Ok(plan) => plan.reports.get(1).map(|&(_, report)| report).ok_or(NotAReport::Nothing),
            Err(misread) => match Fault::of(misread.fault) {
                Some(Fault::LateSetting) => Err(NotAReport::Setting),
                fault => Err(NotAReport::Misread(fault.ok_or("the judge finds a fault")?)),
            },
        };
        same(format_args!("the line {words:?} alone"), &words.parse::<Report>().map(values::report), &judged)?;
    }
    Ok(())
}

/// The shipped code tells of what lies behind how much was touched.
fn expected_of_shipped(expected: &Expected) -> Fields {
    let Misread { fault, line } = expected.misread;
    let said = Fields::default().byte(fault).number(line).number(expected.lines.len()).bytes(&expected.bytes);
    expected.lines.iter().fold(said, |fields, &line| fields.number(line)).number(0)
}
