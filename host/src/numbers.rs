//! The numbers that a report names a place by. Each is a type of its own, so that a track is never taken for an island. Any
//! number can be named: one that there is not is answered by a number when the report is taken.

use std::fmt;

/// A track, from 0 on. Where a track is asked for, an island is not taken:
///
/// ```compile_fail,E0308
/// # use degvuurel::{IslandNumber, Report, TrackNumber};
/// let exchanged = Report::occupied(IslandNumber(4), TrackNumber(0));
/// ```
#[derive(Clone, Copy, Debug, PartialEq, Eq, Hash, PartialOrd, Ord)]
pub struct TrackNumber(pub u8);

/// An island of a track, 0 to 4.
#[derive(Clone, Copy, Debug, PartialEq, Eq, Hash, PartialOrd, Ord)]
pub struct IslandNumber(pub u8);

/// A head, 0 or 1.
#[derive(Clone, Copy, Debug, PartialEq, Eq, Hash, PartialOrd, Ord)]
pub struct HeadNumber(pub u8);

impl IslandNumber {
    /// Advance, side 1.
    pub const ADVANCE_1: IslandNumber = IslandNumber(0);
    /// Warning, side 1.
    pub const WARNING_1: IslandNumber = IslandNumber(1);
    /// The crossing.
    pub const CROSSING: IslandNumber = IslandNumber(2);
    /// Warning, side 2.
    pub const WARNING_2: IslandNumber = IslandNumber(3);
    /// Advance, side 2.
    pub const ADVANCE_2: IslandNumber = IslandNumber(4);
}

impl fmt::Display for TrackNumber {
    fn fmt(&self, f: &mut fmt::Formatter<'_>) -> fmt::Result {
        self.0.fmt(f)
    }
}

impl fmt::Display for IslandNumber {
    fn fmt(&self, f: &mut fmt::Formatter<'_>) -> fmt::Result {
        self.0.fmt(f)
    }
}

impl fmt::Display for HeadNumber {
    fn fmt(&self, f: &mut fmt::Formatter<'_>) -> fmt::Result {
        self.0.fmt(f)
    }
}
