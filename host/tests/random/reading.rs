//! Reading, stepping through, handing back, browsing and printing any bytes by both sides.

use crate::chance::Chance;
use crate::lines;
use crate::paper;
use crate::runs::Bench;
use crate::shipped::{self, Fields};
use crate::tally::Asked;
use crate::values::{self, answer, number_at, report_of, same, same_bytes, Outcome};
use degvuurel::{print, report_in, Browser, Entry, Refusal, Register, Report, Settings, Station, ENTRY, HEADER};

/// Registers of more entries are stepped to a sample of their rows: stepping to every row takes the square of their number.
const STEPPED_WHOLE: usize = 700;
const SAMPLE: usize = 40;

/// One register in so many has its sheet in a string, and all the room for a sheet looked at. For each the room is filled anew.
const SHEETS: usize = 50;

/// What both sides make of these bytes.
pub fn compare(bytes: &[u8], seed: u64, bench: &mut Bench) -> Result<(), String> {
    let mut chance = Chance::from(seed);
    let register = Register::new(bytes);
    let reading = paper::read(bytes);
    let read = Outcome::of_paper(reading);
    bench.tally.count(Asked::Read, read.answer);
    same(format_args!("reading"), &Outcome::of_reading(register.read()), &read)?;
    same(format_args!("the header's settings"), &register.settings(), &settings_of(bytes))?;
    bench.ship(format_args!("reading"), || {
        let settings = values::settings(settings_of(bytes));
        (Fields::call(shipped::READ, 0, bytes), Fields::default().reading(&reading).settings(settings))
    })?;
    let entries = bytes.len().saturating_sub(HEADER) / ENTRY;
    for row in rows(entries, &mut chance) {
        step(register, row, bench)?;
        hand_back(register, row, bench)?;
    }
    browse(register, entries, &mut chance, bench)?;
    let whole = chance.one_in(SHEETS);
    if whole {
        sheet(register)?;
    }
    print_both(bytes, &read, whole, bench)
}

/// Every row, or a sample of them, and rows past the last.
fn rows(entries: usize, chance: &mut Chance) -> Vec<usize> {
    let mut rows: Vec<usize> = if entries <= STEPPED_WHOLE {
        (0..=entries).collect()
    } else {
        let sample = (0..SAMPLE).map(|_| chance.below(entries + 1));
        sample.chain([0, 1, 2, entries - 1, entries]).collect()
    };
    rows.extend([entries + 1, entries + 2 + chance.below(9000), usize::MAX - chance.below(2), usize::MAX / 8 + 1]);
    rows
}

fn settings_of(bytes: &[u8]) -> Settings {
    let [t1, t2, t3, t4, t5] = [6, 8, 10, 12, 14].map(|at| number_at(bytes, at));
    Settings { tracks: bytes.get(5).copied().unwrap_or(0), t1, t2, t3, t4, t5 }
}

fn step(register: Register, row: usize, bench: &mut Bench) -> Result<(), String> {
    let reading = paper::step(register.bytes(), row);
    let expected = Outcome::of_paper(reading);
    bench.tally.count(Asked::Step, expected.answer);
    bench.tally.rows += 1;
    same(format_args!("stepping to row {row}"), &Outcome::of_step(register.step(row), row), &expected)?;
    bench.ship(format_args!("stepping to row {row}"), || {
        (Fields::call(shipped::STEP, row, register.bytes()), Fields::default().reading(&reading))
    })
}

/// Both hand back the same part of the lent register, not merely equal bytes.
fn hand_back(register: Register, row: usize, bench: &mut Bench) -> Result<(), String> {
    let handed = register.entry_bytes(row);
    let (number, part) = paper::entry(register.bytes(), row);
    bench.tally.count(Asked::Entry, number);
    same(format_args!("handing back row {row}, answer"), &answer(&handed), &number)?;
    same(format_args!("handing back row {row}, answer alone"), &register.entry_answer(row).number(), &number)?;
    if let Ok(bytes) = handed {
        same(format_args!("handing back row {row}, where it lies"), &bytes.as_ptr_range(), &part.as_ptr_range())?;
        same(format_args!("the report of row {row}"), &report_in(bytes), &report_of(part))?;
        let cut = &bytes[..row % ENTRY];
        same(format_args!("the report of row {row}, cut"), &report_in(cut), &report_of(cut))?;
    }
    same(format_args!("row {row} by name"), &by_name(register.entry(row)), &replayed(register.bytes(), row))?;
    bench.ship(format_args!("handing back row {row}"), || {
        let at = if number == 0 { HEADER + ENTRY * (row - 1) } else { 0 };
        let expected = Fields::default().byte(number).byte(number).number(at).number(part.len());
        (Fields::call(shipped::ENTRY, row, register.bytes()), expected)
    })
}

/// A refusal: its number, and the entry that it names or 0.
type Refused = (u8, usize);

/// A row's entry or its refusal, in numbers.
fn by_name(entry: Result<Entry, Refusal>) -> Result<(Report, u8, u8), Refused> {
    entry
        .map(|entry| (entry.report, entry.answer.number(), entry.aspect.number()))
        .map_err(|refusal| (refusal.number(), refusal.entry().unwrap_or(0)))
}

/// A row's entry as its eight bytes have it, or its refusal: what the paper hands back where it also steps there.
fn replayed(bytes: &[u8], row: usize) -> Result<(Report, u8, u8), Refused> {
    let (number, part) = paper::entry(bytes, row);
    let stepped = paper::step(bytes, row);
    match if number == 0 { (stepped.answer, stepped.entry) } else { (number, 0) } {
        (0, _) => Ok((report_of(part), part[6], part[7])),
        refused => Err(refused),
    }
}

/// A browser and where it should stand.
struct Walk<'a> {
    browser: Browser<'a>,
    place: usize,
}

/// Back from row 0 there is no row: it answers as stepping to a row that no register has.
const NO_ROW: usize = usize::MAX;

impl Walk<'_> {
    /// It moved towards a row, which the shipped code is asked for by a letter and a row.
    fn moved(
        &mut self,
        word: &str,
        row: usize,
        shown: Result<Station, Refusal>,
        (letter, asked): (u8, usize),
        bench: &mut Bench,
    ) -> Result<(), String> {
        let (bytes, place) = (self.browser.register().bytes(), self.place);
        let reading = paper::step(bytes, row);
        let expected = Outcome::of_paper(reading);
        bench.tally.count(Asked::Browse, expected.answer);
        same(format_args!("browsing {word} from row {place}"), &Outcome::of_step(shown, row), &expected)?;
        bench.ship(format_args!("browsing {word} from row {place}"), || {
            (Fields::call(letter, asked, bytes), Fields::default().reading(&reading))
        })?;
        if expected.answer == 0 {
            self.place = row;
        }
        same(format_args!("browsing {word}, the place after"), &self.browser.row(), &self.place)
    }

    fn jump(&mut self, row: usize, bench: &mut Bench) -> Result<(), String> {
        let shown = self.browser.to_row(row);
        self.moved("to a row", row, shown, (shipped::BROWSE, row), bench)
    }

    fn forward(&mut self, bench: &mut Bench) -> Result<(), String> {
        let shown = self.browser.forward();
        self.moved("forward", self.place + 1, shown, (shipped::FORWARD, self.place), bench)
    }

    fn back(&mut self, bench: &mut Bench) -> Result<(), String> {
        let shown = self.browser.back();
        self.moved("back", self.place.checked_sub(1).unwrap_or(NO_ROW), shown, (shipped::BACK, self.place), bench)
    }

    /// What it shows of the row that it stands on.
    fn look(&self) -> Result<(), String> {
        let (bytes, place) = (self.browser.register().bytes(), self.place);
        let expected = Outcome::of_paper(paper::step(bytes, place));
        same(format_args!("looking at row {place}"), &Outcome::of_step(self.browser.station(), place), &expected)?;
        same(format_args!("the entry that a browser stands on"), &by_name(self.browser.entry()), &replayed(bytes, place))
    }
}

/// A walk through the register: back from row 0, forward from the last row, rows past it, and some moves by chance.
fn browse(register: Register, entries: usize, chance: &mut Chance, bench: &mut Bench) -> Result<(), String> {
    let mut walk = Walk { browser: register.browse(), place: 0 };
    walk.back(bench)?;
    walk.forward(bench)?;
    walk.jump(entries, bench)?;
    walk.forward(bench)?;
    walk.back(bench)?;
    for _ in 0..chance.below(6) {
        match chance.below(4) {
            0 => walk.back(bench)?,
            1 => walk.forward(bench)?,
            2 => walk.jump(chance.below(entries + 1), bench)?,
            _ => walk.jump(entries + 1 + chance.below(9000), bench)?,
        }
    }
    walk.look()
}

/// What the room for a sheet holds before. No sheet has this byte.
const UNTOUCHED: u8 = 0xEE;

/// So many bytes after a sheet are looked at in every case; all of them would take longer than the rest.
const LOOKED_AT_BEYOND: usize = 256;

/// Both print the same, and the library writes no byte beyond it.
fn print_both(bytes: &[u8], read: &Outcome, whole: bool, bench: &mut Bench) -> Result<(), String> {
    let expected = paper::print(bytes);
    let near = (expected.len() + LOOKED_AT_BEYOND).min(bench.text.len());
    let end = if whole { bench.text.len() } else { near };
    bench.text[..end].fill(UNTOUCHED);
    let printed = print(bytes, &mut bench.text).map(str::len).map_err(|refusal| (refusal.number(), refusal.entry().unwrap_or(0)));
    let number = number_printed(&expected);
    let entry = if number == 13 { read.entry } else { 0 };
    let judged = if number == 0 { Ok(expected.len()) } else { Err((number, entry)) };
    same(format_args!("printing, its length or its refusal"), &printed, &judged)?;
    let printed = expected.len();
    bench.tally.count(Asked::Print, number);
    same_bytes(format_args!("printing"), &bench.text[..printed], &expected)?;
    let beyond = bench.text[printed..end].iter().filter(|&&byte| byte != UNTOUCHED).count();
    same(format_args!("printing, bytes touched beyond"), &beyond, &0)?;
    bench.ship(format_args!("printing"), || {
        (Fields::call(shipped::PRINT, 0, bytes), Fields::default().bytes(&expected).number(0))
    })?;
    if read.answer == 0 && bytes.len() < HEADER + ENTRY * STEPPED_WHOLE {
        lines::of_sheet(bytes, &expected)?;
    }
    Ok(())
}

/// A sheet in a string of its own is the same, or refused by the number that is printed.
fn sheet(register: Register) -> Result<(), String> {
    let expected = paper::print(register.bytes());
    match register.sheet() {
        Ok(sheet) => same_bytes(format_args!("a sheet in a string"), sheet.as_bytes(), &expected),
        Err(refusal) => same(format_args!("a sheet in a string, answer"), &refusal.number(), &number_printed(&expected)),
    }
}

/// The number of `refused 9` or `refused 13 at 2`, or 0 of a sheet.
fn number_printed(text: &[u8]) -> u8 {
    let text = str::from_utf8(text).unwrap_or_default();
    let number = text.strip_prefix("refused ").and_then(|rest| rest.split_whitespace().next());
    number.and_then(|number| number.parse().ok()).unwrap_or(0)
}
