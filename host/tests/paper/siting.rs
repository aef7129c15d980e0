//! "Siting", in decimetres since request 5.

use super::station::{DONE, OUTSIDE_LIMITS};

/// "50·v·(30+m)/18" decimetres, "message time m 0 to 60 s": speed in km/h,
/// message time in seconds. Gives the answer and the decimetres.
pub fn advance(speed: u16, message: u16) -> (u8, u32) {
    if message <= 60 {
        distance(speed, 30 + message)
    } else {
        (OUTSIDE_LIMITS, 0)
    }
}

/// "50·v·7·n/18" decimetres, "tracks n 1 to 4".
pub fn warning(speed: u16, tracks: u8) -> (u8, u32) {
    if (1..=4).contains(&tracks) {
        distance(speed, 7 * u16::from(tracks))
    } else {
        (OUTSIDE_LIMITS, 0)
    }
}

/// "Both siting answers become decimetres, rounded up once": those run in so
/// many seconds (at most 90) at a speed in km/h. "Speed v is 1 to 350 km/h."
/// "Refused siting returns distance 0."
fn distance(speed: u16, seconds: u16) -> (u8, u32) {
    if !(1..=350).contains(&speed) {
        return (OUTSIDE_LIMITS, 0);
    }
    // The product is at most 1575000, the distance 87500: both above 65535.
    (DONE, (50 * u32::from(speed) * u32::from(seconds)).div_ceil(18))
}
