//! Messages of any bytes, written by both sides into buffers of any length near the text's.

use super::write_into;
use crate::chance::Chance;
use crate::paper::screen::{self, Message};
use crate::runs::{guarded, Bench, Found};
use crate::tally::Asked;
use crate::values::{same, same_bytes};

/// A byte more than the longest text.
const ROOM: usize = 88;

/// A number in its range, but for one in eight.
fn ranged(chance: &mut Chance, least: u16, most: u16) -> u8 {
    if chance.one_in(8) {
        chance.pick(&[0, 5, 6, 51, 255])
    } else {
        chance.between(least, most) as u8
    }
}

fn message(chance: &mut Chance) -> Message {
    let tracks = ranged(chance, 1, 4);
    let shown = 5 * usize::from(tracks);
    let mut digits = [0; 20];
    digits.iter_mut().take(shown).for_each(|digit| *digit = chance.between(0, 1) as u8);
    if chance.one_in(4) {
        digits[chance.below(20)] = chance.pick(&[0, 1, 2, 255]);
    }
    let station = if chance.one_in(2) { chance.word() } else { chance.pick(&[0, 9, 10, 99, 100, 999, 1000, 9999, 10000, 65535]) };
    Message { station, aspect: ranged(chance, 0, 5), tracks, digits }
}

pub fn try_case(chance: &mut Chance, bench: &mut Bench) -> Result<(), Found> {
    let message = message(chance);
    let length = screen::write(&message).map_or(ROOM, |text| text.len());
    let room = if chance.one_in(3) { chance.below(length + 1) } else { length + chance.below(3) };
    let before: Vec<u8> = (0..room).map(|_| chance.byte()).collect();
    guarded(|| compare(&message, &before, bench))
        .map_err(|difference| Found { size: room, words: format!("{message:?} into {room} bytes\ndiffers: {difference}") })
}

fn compare(message: &Message, before: &[u8], bench: &mut Bench) -> Result<(), String> {
    let (mut library, mut paper) = (before.to_vec(), before.to_vec());
    let written = screen::write_into(message, &mut paper);
    bench.tally.count(Asked::Write, written.0);
    same(format_args!("writing"), &write_into(message, &mut library), &written)?;
    same_bytes(format_args!("the buffer"), &library, &paper)?;
    if written.0 == 0 {
        same(format_args!("reading what was written"), &super::read(&library[..written.1]), &(0, *message))?;
    }
    Ok(())
}
