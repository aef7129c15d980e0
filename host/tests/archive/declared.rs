// Included by tests that call the archive itself. The declarations are the package's own file, which names its structs by this
// path, so that it stands at the root of the test.
#[allow(dead_code)]
#[path = "../../src/declared.rs"]
mod declared;
mod structs {
    pub use degvuurel::{Decimetres, Message, Report, RowFields, Seconds, Settings, SheetText, Station, MOST, MOST_BYTES};
}
