//! Settings and stations in a planner's words, so that a difference can be read.

use crate::paper::{Island, Settings, Station};
use std::fmt;

pub fn settings(settings: Settings) -> String {
    let Settings { tracks, t1, t2, t3, t4, t5 } = settings;
    format!("{tracks} tracks, T1 {t1}, T2 {t2}, T3 {t3}, T4 {t4}, T5 {t5}")
}

/// A station, compared whole, and shown without the islands of which nothing is to say.
#[derive(Clone, Copy, PartialEq, Eq)]
pub struct Seen(pub Station);

impl fmt::Debug for Seen {
    fn fmt(&self, f: &mut fmt::Formatter<'_>) -> fmt::Result {
        let Station { settings: own, tracks, hold, fault, conditions } = self.0;
        let latched = if fault { "latched" } else { "not latched" };
        write!(f, "{}; hold {hold}, fault {latched}, conditions {conditions:?}", settings(own))?;
        for (track, islands) in tracks.iter().enumerate() {
            for (place, island) in islands.iter().enumerate() {
                write_island(f, track, place, *island)?;
            }
        }
        Ok(())
    }
}

fn write_island(f: &mut fmt::Formatter<'_>, track: usize, place: usize, island: Island) -> fmt::Result {
    let Island { occupied, leaving, failed, age } = island;
    if !occupied && !leaving && !failed && age == 0 {
        return Ok(());
    }
    let taken = if occupied { "occupied" } else { "free" };
    let mark = if leaving { "leaving" } else { "approaching" };
    let detector = if failed { ", detector failed" } else { "" };
    write!(f, "; {track} {place} {taken}, {mark}, age {age}{detector}")
}
