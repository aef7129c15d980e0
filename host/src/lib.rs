//! What a class 2-A platform crossing must show, row by row, from a library whose every function is proved.
//!
//! Reports of trains go in, or a planner's text of them; the aspect, the signal heads and a register that can be stepped back
//! through come out. The rules are those of document 01, "Exact rules for the build", written down in the repository's
//! `crates/rules/specs`, and what a planner's text means in `crates/rules_plan/specs`. This package declares the library's
//! functions and puts safe Rust around them. It adds no rule of its own: it passes values on, and gives names to the numbers that
//! come back.
//!
//! ```
//! use degvuurel::{Aspect, Recorder, Report, Settings};
//!
//! # fn main() -> Result<(), Box<dyn std::error::Error>> {
//! let mut recorder = Recorder::start(Settings { tracks: 2, t1: 300, t2: 300, t3: 300, t4: 0, t5: 600 })?;
//! recorder.append(Report::normalise()).done()?;
//! recorder.append("occupied 0 4".parse()?).done()?;
//! assert_eq!(recorder.station().aspect(), Aspect::Clearing);
//!
//! // Stepping back shows the station as it was, whatever came later.
//! let register = recorder.register();
//! assert_eq!(register.step(1)?.aspect(), Aspect::Permitted);
//! assert_eq!(register.sheet()?, "entry zones outputs answer\n1 11111 100000000 0\n2 11110 010001000 0\n");
//! # Ok(())
//! # }
//! ```
//!
//! **A report that is refused by 1 to 7 is entered all the same**, and [`Recorder::append`] gives its [`Answer`]. Whoever takes
//! that for an error says `.done()?`.

#![warn(missing_docs)]
#![warn(clippy::missing_errors_doc, clippy::must_use_candidate)]

mod answer;
mod aspect;
mod browser;
mod condition;
mod declared;
mod entry;
mod message;
mod named;
mod numbers;
mod outputs;
mod plan;
mod recorder;
mod register;
mod report;
mod sheet;
mod siting;
mod station;
mod structs;
mod typed;

pub use answer::{Answer, NoSuchNumber, Refusal};
pub use aspect::Aspect;
pub use browser::Browser;
pub use entry::Entry;
pub use numbers::{HeadNumber, IslandNumber, TrackNumber};
pub use plan::{record, Fault, Misread, Plan};
pub use recorder::{append, start, Recorder};
pub use register::{Reading, Register};
pub use report::{report_in, Kind, NoKind};
pub use sheet::{print, refusal_line, row_line, title_line};
pub use siting::{advance, warning};
pub use structs::{
    Condition, Decimetres, Island, Message, Outputs, Report, RowFields, Seconds, Settings, SheetText, Station, Track,
};
pub use structs::{ENTRY, HEADER, MESSAGE, MESSAGE_READ, MOST, MOST_BYTES, SHEET};
pub use typed::{NotAReport, NotSettings};
