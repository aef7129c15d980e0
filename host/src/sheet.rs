//! Sheets: document 01, "The matrix printer".

use crate::answer::{Answer, Refusal};
use crate::declared;
use crate::register::Register;
use crate::structs::{RowFields, SheetText, SHEET};
use std::str;

/// Room for a sheet, which is too large for a stack to be sure of.
fn room() -> Box<SheetText> {
    vec![0; SHEET].into_boxed_slice().try_into().expect("the room has the length of a sheet")
}

/// The text of the first bytes. Sheets are digits, letters, spaces and line feeds.
fn text_of(bytes: &[u8]) -> &str {
    str::from_utf8(bytes).expect("the library writes plain text")
}

/// The refusal that the one line of a register tells which cannot be read: `refused 9`, or `refused 13 at 2`. A sheet tells none.
fn refusal_in(text: &str) -> Option<Refusal> {
    let mut words = text.strip_prefix("refused ")?.split_whitespace();
    let mut number = || words.find_map(|word| word.parse::<usize>().ok());
    let answer = number().and_then(|number| u8::try_from(number).ok()).expect("a printed refusal has its number");
    Some(Refusal::naming(Answer::given(answer), number().unwrap_or(0)))
}

/// Writes the sheet of a register at the start of the text, and returns it: a row for each report.
///
/// ```
/// let mut text = Box::new([0; degvuurel::SHEET]);
/// assert_eq!(degvuurel::print(b"no register", &mut text).unwrap_err().number(), 9);
/// assert_eq!(text[..10], *b"refused 9\n");
/// ```
///
/// # Errors
///
/// 12 where there are more than [`MOST_BYTES`](crate::MOST_BYTES) bytes, else 8 to 13, as reading the register is refused. The text
/// then begins with the one line that the printer shows of it.
pub fn print<'t>(input: &[u8], text: &'t mut SheetText) -> Result<&'t str, Refusal> {
    // SAFETY: the pointer and the length are one slice, and the text is lent to nobody else.
    let length = unsafe { declared::degvuurel_print(input.as_ptr(), input.len(), text) };
    let printed = text_of(&text[..length]);
    refusal_in(printed).map_or(Ok(printed), Err)
}

impl Register<'_> {
    /// Its sheet, a row for each report. To print many, lend [`print`](crate::print) one buffer.
    ///
    /// # Errors
    ///
    /// As [`print`](crate::print).
    pub fn sheet(self) -> Result<String, Refusal> {
        print(self.bytes(), &mut room()).map(str::to_owned)
    }
}

/// Writes the title line at the start of the bytes, and returns it. Where it does not fit, nothing is written and it is empty.
pub fn title_line(out: &mut [u8]) -> &str {
    // SAFETY: the pointer and the length are one slice, which nobody else has.
    let length = unsafe { declared::degvuurel_title_line(out.as_mut_ptr(), out.len()) };
    text_of(&out[..length])
}

/// Writes a row's line, as [`title_line`] does.
///
/// ```
/// use degvuurel::{row_line, Aspect, RowFields};
///
/// let fields = RowFields { entry: 2, zones: [1, 1, 1, 1, 0], outputs: Aspect::Clearing.outputs(), answer: 0 };
/// assert_eq!(row_line(&mut [0; 40], fields), "2 11110 010001000 0\n");
/// ```
pub fn row_line(out: &mut [u8], fields: RowFields) -> &str {
    // SAFETY: the pointer and the length are one slice, which nobody else has.
    let length = unsafe { declared::degvuurel_row_line(out.as_mut_ptr(), out.len(), fields) };
    text_of(&out[..length])
}

/// Writes the one line of a register that cannot be read, as [`title_line`] does. The entry is named where the answer is 13.
pub fn refusal_line(out: &mut [u8], answer: u8, entry: u64) -> &str {
    // SAFETY: the pointer and the length are one slice, which nobody else has.
    let length = unsafe { declared::degvuurel_refusal_line(out.as_mut_ptr(), out.len(), answer, entry) };
    text_of(&out[..length])
}
