//! "The heads."

use super::aspect::outputs;
use super::station::Station;

/// Of a condition: "bits 0 to 3 green, orange, red, OTRO TREN board; bits 4 to
/// 7 sounders S1 to S4; bit 8 power; bit 9 communication".
const LAMPS_AND_BOARD: u16 = 0b1111;
const FIRST_SOUNDER: u32 = 4;
const POWER_OR_COMMUNICATION: u16 = 0b11 << 8;

/// Of the outputs: "bit 0 first: VF, VI, NI, RF, R+, S1, S2, S3, S4".
const LAMP_OUTPUTS: u16 = 0b1_1111;
const FIRST_SOUNDER_OUTPUT: u32 = 5;
const ALL_OUTPUTS: u16 = 0b1_1111_1111;

/// What a head of this condition shows of these outputs. A condition's "bits
/// from 10 up are not read", nor are the outputs' from 9 up.
pub fn head(outputs: u16, condition: u16) -> u16 {
    let failed_sounders = (condition >> FIRST_SOUNDER) & 0b1111;
    if condition & POWER_OR_COMMUNICATION != 0 || failed_sounders.count_ones() > 1 {
        return 0;
    }
    // "One failed sounder: that one silent", beside a failed lamp too.
    let mut shown = outputs & ALL_OUTPUTS & !(failed_sounders << FIRST_SOUNDER_OUTPUT);
    if condition & LAMPS_AND_BOARD != 0 {
        shown &= !LAMP_OUTPUTS;
    }
    shown
}

impl Station {
    /// "The two heads are worked out apart." With settings outside the limits
    /// the aspect is 5, so both show 0.
    pub fn heads(&self) -> [u16; 2] {
        let outputs = outputs(self.aspect());
        self.conditions.map(|condition| head(outputs, condition))
    }
}
