//! "What the station is."

/// "A track is five islands, a station up to four tracks."
pub(super) const ISLANDS: usize = 5;
pub(super) const TRACKS: usize = 4;

/// "advance side 1, warning side 1, crossing, warning side 2, advance side 2"
pub(super) const ADVANCE_1: usize = 0;
pub(super) const WARNING_1: usize = 1;
pub(super) const CROSSING: usize = 2;
pub(super) const WARNING_2: usize = 3;
pub(super) const ADVANCE_2: usize = 4;

pub(super) const DONE: u8 = 0;
pub(super) const OUTSIDE_LIMITS: u8 = 8;

/// The number of tracks and the five timers, in ticks.
#[derive(Clone, Copy, PartialEq, Eq, Debug)]
pub struct Settings {
    pub tracks: u8,
    pub t1: u16,
    pub t2: u16,
    pub t3: u16,
    pub t4: u16,
    pub t5: u16,
}

/// "An island is free, or occupied with a mark (approaching or leaving) and an
/// age in clock ticks." The mark and the age of a free island are not read.
#[derive(Clone, Copy, PartialEq, Eq, Debug)]
pub struct Island {
    pub occupied: bool,
    pub leaving: bool,
    pub failed: bool,
    pub age: u16,
}

pub(super) type Track = [Island; ISLANDS];

#[derive(Clone, Copy, PartialEq, Eq, Debug)]
pub struct Station {
    pub settings: Settings,
    pub tracks: [[Island; 5]; 4],
    pub hold: u16,
    pub fault: bool,
    pub conditions: [u16; 2],
}

/// What a refused making, read or step returns: "a fresh station of 1 track
/// with T1 to T4 equal to 1 and T5 to 2".
const REFUSED: Settings = Settings { tracks: 1, t1: 1, t2: 1, t3: 1, t4: 1, t5: 2 };

impl Settings {
    /// "T1, T2, T3 from 1 to 65535; T4 from 0 to 65535; T5 from 1 to 65535 and
    /// greater than T2." T5 above T2 is above 0 already.
    pub(super) fn within_limits(&self) -> bool {
        (1..=TRACKS).contains(&usize::from(self.tracks)) && self.t1 > 0 && self.t2 > 0 && self.t3 > 0 && self.t5 > self.t2
    }

    /// "T1 belongs to the advance islands, T2 to warning, T3 to the crossing."
    /// One timer for each island, in island order.
    pub(super) fn timers(&self) -> [u16; ISLANDS] {
        [self.t1, self.t2, self.t3, self.t2, self.t1]
    }
}

impl Island {
    const FREE: Island = Island { occupied: false, leaving: false, failed: false, age: 0 };

    pub(super) fn approaching(&self) -> bool {
        self.occupied && !self.leaving
    }

    /// "An occupied island is held when its age is at least its timer."
    pub(super) fn held(&self, timer: u16) -> bool {
        self.occupied && self.age >= timer
    }

    pub(super) fn fresh_approaching(&self, timer: u16) -> bool {
        self.approaching() && self.age < timer
    }
}

impl Station {
    /// "A fresh station has every island free, no detector failed, both head
    /// conditions 0, no hold left, and its fault latched."
    pub(super) fn fresh(settings: Settings) -> Station {
        Station { settings, tracks: [[Island::FREE; ISLANDS]; TRACKS], hold: 0, fault: true, conditions: [0; 2] }
    }

    pub(super) fn refused() -> Station {
        Station::fresh(REFUSED)
    }

    /// "Tracks beyond the station's number are neither read nor changed."
    pub(super) fn own_tracks(&self) -> &[Track] {
        &self.tracks[..self.number_of_tracks()]
    }

    pub(super) fn own_tracks_mut(&mut self) -> &mut [Track] {
        let number = self.number_of_tracks();
        &mut self.tracks[..number]
    }

    /// Any station can be handed in, so the number is kept within the array.
    fn number_of_tracks(&self) -> usize {
        usize::from(self.settings.tracks).min(TRACKS)
    }
}

/// 0, or 8 for a setting outside its limits.
pub fn settings_answer(settings: Settings) -> u8 {
    if settings.within_limits() {
        DONE
    } else {
        OUTSIDE_LIMITS
    }
}

/// A fresh station of these settings; refused, the station of `REFUSED`.
pub fn make(settings: Settings) -> (u8, Station) {
    match settings_answer(settings) {
        DONE => (DONE, Station::fresh(settings)),
        refusal => (refusal, Station::refused()),
    }
}
