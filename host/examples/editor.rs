//! A small editor. A line on standard input is a report in a planner's words, `undo ROW`, `step ROW` or `sheet`.

use degvuurel::{Recorder, Report, Settings};
use std::error::Error;
use std::io::stdin;

fn edit(recorder: &mut Recorder, line: &str) -> Result<(), Box<dyn Error>> {
    match line.split_whitespace().collect::<Vec<_>>()[..] {
        ["undo", row] => println!("{} undone", recorder.undo_to(row.parse()?)?.len()),
        ["step", row] => println!("row {row} shows {}", recorder.register().step(row.parse()?)?.aspect()),
        ["sheet"] => print!("{}", recorder.register().sheet()?),
        _ => {
            let answer = recorder.append(line.parse::<Report>()?);
            println!("row {}: {}", recorder.count(), recorder.station().aspect());
            answer.done()?; // a refused report has its row too, and is told
        }
    }
    Ok(())
}

fn main() -> Result<(), Box<dyn Error>> {
    let settings: Settings = "tracks 2\nt1 300\nt2 300\nt3 300\nt4 50\nt5 600".parse()?;
    let mut recorder = Recorder::start(settings)?;
    for line in stdin().lines() {
        let line = line?;
        edit(&mut recorder, &line).unwrap_or_else(|error| println!("{line}: {error}"));
    }
    Ok(())
}
