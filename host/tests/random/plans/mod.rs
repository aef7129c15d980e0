//! Planner's texts by chance, recorded by the library, and by the plain reader and the paper.

mod damage;
mod mistakes;
mod recording;
mod texts;
mod writing;

use crate::chance::Chance;
use crate::runs::{guarded, Bench, Found};
use crate::shrink::fewest;
use degvuurel::MOST;

/// A text of some kind.
pub fn try_case(chance: &mut Chance, bench: &mut Bench) -> Result<(), Found> {
    let text = match chance.below(20) {
        0..=2 => texts::meant(chance),
        3..=12 => texts::mistaken(chance),
        13..=16 => damage::by_chance(texts::meant(chance), chance),
        17 | 18 => texts::of_words(chance),
        _ => (0..chance.below(60)).map(|_| chance.byte()).collect(),
    };
    agree(text, chance.byte(), bench)
}

/// A text of about as many reports as a register has.
pub fn try_long(chance: &mut Chance, bench: &mut Bench) -> Result<(), Found> {
    let reports = MOST - 1 + chance.below(4);
    agree(texts::long(chance, reports), chance.byte(), bench)
}

/// Both sides agree, or this is the shortest text found on which they do not.
fn agree(text: Vec<u8>, filling: u8, bench: &mut Bench) -> Result<(), Found> {
    if guarded(|| recording::compare(&text, filling, bench)).is_ok() {
        return Ok(());
    }
    let mut differs = |text: &[u8]| guarded(|| recording::compare(text, filling, bench)).is_err();
    let lines: Vec<&[u8]> = text.split_inclusive(|&byte| byte == b'\n').collect();
    let kept = fewest(&lines, &mut |lines| differs(&lines.concat())).concat();
    let shortest = fewest(&kept, &mut differs);
    let difference = guarded(|| recording::compare(&shortest, filling, bench)).err().unwrap_or_default();
    Err(Found { size: shortest.len(), words: format!("{}\ndiffers: {difference}", shortest.escape_ascii()) })
}
