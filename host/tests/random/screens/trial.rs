//! Texts for the passenger screens, read by the library and by the paper.

use super::texts::{self, KINDS};
use crate::chance::Chance;
use crate::paper::screen::{self, Message};
use crate::runs::guarded;
use crate::shrink::fewest;
use crate::tally::{Asked, Tally};
use crate::values::same;

const PART: &str = "texts for the screens";

/// What came of a trial.
pub struct Trial {
    pub tally: Tally,
    pub differences: u64,
    /// How often each answer, by its number, came of each kind of text.
    seen: [[u64; 17]; KINDS.len()],
}

/// Reads so many texts by both sides, and prints what was seen and the shortest text found on which they differ.
pub fn trial(read_ours: impl Fn(&[u8]) -> (u8, Message), times: u64, seed: u64) -> Trial {
    println!("{PART}: {times} cases from seed {seed}");
    let mut trial = Trial { tally: Tally::default(), differences: 0, seen: [[0; 17]; KINDS.len()] };
    let mut shortest: Option<Vec<u8>> = None;
    for case in 0..times {
        let (kind, text) = texts::by_chance(&mut Chance::of(seed, PART, case));
        let (answer, message) = screen::read(&text);
        trial.tally.count(Asked::Screen, answer);
        trial.seen[kind as usize][usize::from(answer)] += 1;
        if answer == 0 {
            trial.tally.show(message.aspect);
        }
        if compare(&read_ours, &text).is_err() {
            trial.differences += 1;
            shortest = shortest.filter(|other| other.len() <= text.len()).or(Some(text));
        }
    }
    trial.print();
    if let Some(text) = shortest {
        let text = fewest(&text, &mut |text| compare(&read_ours, text).is_err());
        let difference = compare(&read_ours, &text).err().unwrap_or_default();
        println!("DIFFERENCE in {PART}: {} found, the shortest\n{}\ndiffers: {difference}", trial.differences, text.escape_ascii());
    }
    trial
}

/// Both read the same; and what is written of the message is read as it, by both.
fn compare(read_ours: &impl Fn(&[u8]) -> (u8, Message), text: &[u8]) -> Result<(), String> {
    guarded(|| {
        let read = screen::read(text);
        same(format_args!("reading"), &read_ours(text), &read)?;
        if let Ok(written) = screen::write(&read.1) {
            same(format_args!("reading what was written, by the paper"), &screen::read(&written), &read)?;
            same(format_args!("reading what was written"), &read_ours(&written), &read)?;
        }
        Ok(())
    })
}

impl Trial {
    /// The counts, where both sides agree on every text.
    pub fn agreed(&self) -> Option<Tally> {
        (self.differences == 0).then(|| self.tally.clone())
    }

    fn print(&self) {
        println!("{:<12}{:>10}{:>10}{:>10}", "texts", "taken", "15", "16");
        for ((_, title, _), seen) in KINDS.iter().zip(&self.seen) {
            println!("{title:<12}{:>10}{:>10}{:>10}", seen[0], seen[15], seen[16]);
        }
        let sum = |answer: usize| -> u64 { self.seen.iter().map(|seen| seen[answer]).sum() };
        println!("{:<12}{:>10}{:>10}{:>10}", "all", sum(0), sum(15), sum(16));
    }

    /// The answers that a kind of text can have and had less often, or cannot have and had.
    pub fn rare_or_wrong(&self, least: u64) -> Vec<String> {
        let mut found = Vec::new();
        for ((_, title, possible), seen) in KINDS.iter().zip(&self.seen) {
            for (answer, &times) in (0..).zip(seen) {
                if possible.contains(&answer) && times < least {
                    found.push(format!("answer {answer} to texts of kind {title:?} was seen less than {least} times"));
                } else if !possible.contains(&answer) && times > 0 {
                    found.push(format!("answer {answer} to texts of kind {title:?} was seen {times} times, and cannot be"));
                }
            }
        }
        found
    }
}
