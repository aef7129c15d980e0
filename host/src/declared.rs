//! The library's functions as the archive has them, and the structs that only they pass. A slice is a pointer and a length, and a
//! struct goes by value, field by field as in the Rattle source.
//!
//! No function asks anything of its arguments but that they are what their types say: that a pointer and a length are one slice,
//! which is not read or written by anyone else meanwhile, and that a bool is 0 or 1. The safe functions of this package take slices
//! and bools of Rust, for which both hold.

use crate::structs::{Decimetres, Message, Report, RowFields, Seconds, Settings, SheetText, Station, MOST, MOST_BYTES};

/// The answer to settings, and the station made of them.
#[repr(C)]
pub struct Made {
    pub answer: u8,
    pub station: Station,
}

/// The answer to a report, and the station after it.
#[repr(C)]
pub struct Taken {
    pub answer: u8,
    pub station: Station,
}

/// What reading or stepping returns.
#[repr(C)]
pub struct Reading {
    pub answer: u8,
    pub entry: usize,
    pub count: usize,
    pub station: Station,
}

/// Where a row's entry lies in its register.
#[repr(C)]
pub struct Entry {
    pub answer: u8,
    pub at: usize,
    pub length: usize,
}

/// What each head shows.
#[repr(C)]
pub struct Heads {
    pub outputs: [u16; 2],
}

/// The zone digits in island order.
#[repr(C)]
pub struct Zones {
    pub digits: [u8; 5],
}

/// Whether a track counts for the greatest risk.
#[repr(C)]
pub struct Presence {
    pub tracks: [bool; 4],
}

/// An answer, and a distance.
#[repr(C)]
pub struct Sited {
    pub answer: u8,
    pub distance: Decimetres,
}

/// The answer to a text, and its message: zeros where it is refused.
#[repr(C)]
pub struct Received {
    pub answer: u8,
    pub message: Message,
}

/// The answer to a message, and the length of its text.
#[repr(C)]
pub struct Written {
    pub answer: u8,
    pub length: usize,
}

/// What recording a planner's text gives: its fault, or 0, the line that is at fault, or 0, and the reports entered.
#[repr(C)]
pub struct Recorded {
    pub fault: u8,
    pub line: usize,
    pub count: usize,
}

/// What a line of a planner's text says: the word that it begins with, by its number, what is wrong with it, or 0, and its
/// numbers in the fields of a report.
#[repr(C)]
pub struct Line {
    pub name: u8,
    pub fault: u8,
    pub numbers: Report,
}

/// Room for any register.
pub type RegisterBytes = [u8; MOST_BYTES];

/// Room for the line of each of its rows.
pub type RowLines = [usize; MOST];

extern "C" {
    pub fn degvuurel_layout_2() -> u8;

    pub fn degvuurel_make(settings: Settings) -> Made;
    pub fn degvuurel_take(station: Station, report: Report) -> Taken;
    pub fn degvuurel_answer(station: Station, report: Report) -> u8;
    pub fn degvuurel_aspect(station: Station) -> u8;
    pub fn degvuurel_heads(station: Station) -> Heads;
    pub fn degvuurel_zones(station: Station) -> Zones;
    pub fn degvuurel_presence(station: Station) -> Presence;
    pub fn degvuurel_outputs(aspect: u8) -> u16;
    pub fn degvuurel_head(outputs: u16, condition: u16) -> u16;

    pub fn degvuurel_advance(speed: u16, message: Seconds) -> Sited;
    pub fn degvuurel_warning(speed: u16, tracks: u8) -> Sited;

    pub fn degvuurel_start(register: *mut u8, length: usize, settings: Settings) -> u8;
    pub fn degvuurel_append(register: *mut u8, length: usize, k: usize, station: Station, report: Report) -> Taken;
    pub fn degvuurel_read(register: *const u8, length: usize) -> Reading;
    pub fn degvuurel_step(register: *const u8, length: usize, row: usize) -> Reading;
    pub fn degvuurel_browse(register: *const u8, length: usize, row: usize) -> Reading;
    pub fn degvuurel_forward(register: *const u8, length: usize, row: usize) -> Reading;
    pub fn degvuurel_back(register: *const u8, length: usize, row: usize) -> Reading;
    pub fn degvuurel_entry_answer(register: *const u8, length: usize, row: usize) -> u8;
    pub fn degvuurel_entry(register: *const u8, length: usize, row: usize) -> Entry;
    pub fn degvuurel_settings_in(register: *const u8, length: usize) -> Settings;
    pub fn degvuurel_report_in(entry: *const u8, length: usize) -> Report;

    pub fn degvuurel_record(text: *const u8, length: usize, register: *mut RegisterBytes, rows: *mut RowLines) -> Recorded;
    pub fn degvuurel_line_in(line: *const u8, length: usize) -> Line;

    pub fn degvuurel_print(input: *const u8, length: usize, text: *mut SheetText) -> usize;
    pub fn degvuurel_title_line(out: *mut u8, length: usize) -> usize;
    pub fn degvuurel_row_line(out: *mut u8, length: usize, fields: RowFields) -> usize;
    pub fn degvuurel_refusal_line(out: *mut u8, length: usize, answer: u8, entry: u64) -> usize;

    pub fn degvuurel_message_of(number: u16, station: Station) -> Message;
    pub fn degvuurel_write_message(message: Message, buffer: *mut u8, length: usize) -> Written;
    pub fn degvuurel_read_message(text: *const u8, length: usize) -> Received;
}

/// Names the layout that these declarations are of, so that an archive of another one does not link.
#[used]
static LAYOUT: unsafe extern "C" fn() -> u8 = degvuurel_layout_2;
