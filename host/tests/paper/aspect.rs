//! "From islands to aspect", and what is shown of the tracks.

use super::station::{Station, Track, ADVANCE_1, ADVANCE_2, CROSSING, ISLANDS, TRACKS, WARNING_1, WARNING_2};

const PERMITTED: u8 = 0;
const CLEARING: u8 = 1;
const FORBIDDEN: u8 = 2;
const GREATEST_RISK: u8 = 3;
const SURROUNDINGS: u8 = 4;
const OUT_OF_SERVICE: u8 = 5;

/// "Aspects 0 to 5 give 1, 34, 72, 152, 260, 0."
const OUTPUTS: [u16; 6] = [1, 34, 72, 152, 260, 0];

const ADVANCE: [usize; 2] = [ADVANCE_1, ADVANCE_2];
const WARNING_OR_CROSSING: [usize; 3] = [WARNING_1, CROSSING, WARNING_2];

/// The nine output bits of an aspect; "a number above 5 gives 0".
pub fn outputs(aspect: u8) -> u16 {
    OUTPUTS.get(usize::from(aspect)).copied().unwrap_or(0)
}

impl Station {
    /// "The first line that holds gives the aspect." Of a station whose
    /// settings are outside the limits it is 5.
    pub fn aspect(&self) -> u8 {
        if self.fault || !self.settings.within_limits() {
            OUT_OF_SERVICE
        } else if self.hold > 0 || self.greatest_risk() {
            GREATEST_RISK
        } else if self.fresh_approach(&WARNING_OR_CROSSING) {
            FORBIDDEN
        } else if self.fresh_approach(&ADVANCE) {
            CLEARING
        } else if self.any_held() {
            SURROUNDINGS
        } else {
            PERMITTED
        }
    }

    /// "Some track has a fresh approaching island, and at least two tracks have
    /// an island that is approaching, held, or a leaving warning island." Two
    /// trains on one track never count as two: tracks are counted, not islands.
    pub(super) fn greatest_risk(&self) -> bool {
        let timers = self.settings.timers();
        let fresh_approach =
            self.own_tracks().iter().any(|track| track.iter().zip(&timers).any(|(island, &timer)| island.fresh_approaching(timer)));
        let present = self.own_tracks().iter().filter(|track| counts(track, &timers));
        fresh_approach && present.count() >= 2
    }

    fn fresh_approach(&self, places: &[usize]) -> bool {
        let timers = self.settings.timers();
        self.own_tracks().iter().any(|track| places.iter().any(|&place| track[place].fresh_approaching(timers[place])))
    }

    fn any_held(&self) -> bool {
        let timers = self.settings.timers();
        self.own_tracks().iter().any(|track| track.iter().zip(&timers).any(|(island, &timer)| island.held(timer)))
    }

    /// "Five zone digits in island order (0 if any track occupies it)." With
    /// settings outside the limits every digit is 0.
    pub fn zones(&self) -> [u8; 5] {
        let mut zones = [0; ISLANDS];
        if self.settings.within_limits() {
            for (place, zone) in zones.iter_mut().enumerate() {
                let occupied = self.own_tracks().iter().any(|track| track[place].occupied);
                *zone = u8::from(!occupied);
            }
        }
        zones
    }

    /// Whether each track has an island that the greatest-risk condition
    /// counts. With settings outside the limits every track is present.
    pub fn presence(&self) -> [bool; 4] {
        if !self.settings.within_limits() {
            return [true; TRACKS];
        }
        let timers = self.settings.timers();
        let mut presence = [false; TRACKS];
        for (present, track) in presence.iter_mut().zip(self.own_tracks()) {
            *present = counts(track, &timers);
        }
        presence
    }
}

/// "An island that is approaching, held, or a leaving warning island."
fn counts(track: &Track, timers: &[u16; ISLANDS]) -> bool {
    track[WARNING_1].occupied
        || track[WARNING_2].occupied
        || track.iter().zip(timers).any(|(island, &timer)| island.approaching() || island.held(timer))
}
