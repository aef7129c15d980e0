//! The bench, written from documents 01 and 02 alone.

mod aspect;
mod heads;
mod json;
mod register;
mod reports;
pub mod screen;
mod sheet;
mod siting;
mod station;

pub use aspect::outputs;
pub use heads::head;
pub use register::{append, entry, read, start, step, Reading};
pub use reports::Report;
pub use sheet::print;
pub use siting::{advance, warning};
pub use station::{make, settings_answer, Island, Settings, Station};
