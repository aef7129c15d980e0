//! Settings by chance.

use crate::chance::Chance;
use degvuurel::Settings;

/// How long the timers are. The paper walks a clock tick by tick, and stepping to every row walks it again for each row, so that
/// only short registers have long timers.
#[derive(Clone, Copy, PartialEq, Eq)]
pub enum Timers {
    Small,
    Middle,
    Large,
}

impl Timers {
    pub fn by_chance(chance: &mut Chance) -> Timers {
        match chance.below(240) {
            0 => Timers::Large,
            1..=19 => Timers::Middle,
            _ => Timers::Small,
        }
    }

    fn most(self) -> u16 {
        match self {
            Timers::Small => 10,
            Timers::Middle => 400,
            Timers::Large => u16::MAX,
        }
    }

    /// The ticks that a register's clocks have together.
    pub fn ticks(self) -> u32 {
        match self {
            Timers::Small => 120,
            Timers::Middle => 3_000,
            Timers::Large => 140_000,
        }
    }

    /// A register's most reports.
    pub fn reports(self) -> usize {
        match self {
            Timers::Small => 40,
            Timers::Middle => 16,
            Timers::Large => 7,
        }
    }

    fn timer(self, chance: &mut Chance) -> u16 {
        match self {
            // Timers at the top show ages that stop there, and small ones beside them what is held early.
            Timers::Large if chance.one_in(3) => u16::MAX - chance.between(0, 2),
            Timers::Large if chance.one_in(3) => chance.between(1, 9),
            _ => chance.between(1, self.most()),
        }
    }

    /// Settings within their limits.
    pub fn settings(self, chance: &mut Chance) -> Settings {
        let [t1, t2, t3] = [(); 3].map(|()| self.timer(chance));
        let t4 = if chance.one_in(3) { 0 } else { self.timer(chance) };
        let t2 = t2.min(u16::MAX - 1);
        // Where T5 follows T2 at once the fault latches often, and a station out of service shows little else.
        let later = match chance.below(4) {
            0 => 1,
            1 => self.timer(chance),
            _ => self.timer(chance).saturating_mul(4),
        };
        Settings { tracks: chance.pick(&[1, 2, 2, 3, 3, 4, 4, 4]), t1, t2, t3, t4, t5: t2.saturating_add(later) }
    }
}

/// Settings of which one is, or some are, outside their limits, and seldom none.
pub fn outside(chance: &mut Chance) -> Settings {
    let mut settings = Timers::Small.settings(chance);
    for _ in 0..1 + chance.below(2) {
        match chance.below(6) {
            0 => settings.tracks = chance.pick(&[0, 5, 6, 255]),
            1 => settings.t1 = 0,
            2 => settings.t2 = 0,
            3 => settings.t3 = 0,
            4 => settings.t5 = settings.t2,
            _ => settings = any(chance),
        }
    }
    settings
}

/// Any numbers.
pub fn any(chance: &mut Chance) -> Settings {
    let [t1, t2, t3, t4, t5] = [(); 5].map(|()| match chance.below(3) {
        0 => chance.between(0, 2),
        1 => u16::MAX - chance.between(0, 2),
        _ => chance.word(),
    });
    let tracks = if chance.one_in(3) { chance.byte() } else { chance.between(0, 5) as u8 };
    Settings { tracks, t1, t2, t3, t4, t5 }
}
