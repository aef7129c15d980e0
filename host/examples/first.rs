//! A register is started and filled, stepped back through and printed.

use degvuurel::{Aspect, IslandNumber, Recorder, Refusal, Report, Settings, TrackNumber};

fn main() -> Result<(), Refusal> {
    let settings = Settings { tracks: 2, t1: 300, t2: 300, t3: 300, t4: 0, t5: 600 };
    let mut recorder = Recorder::start(settings)?;
    recorder.append(Report::normalise()).done()?;
    recorder.append(Report::occupied(TrackNumber(0), IslandNumber::ADVANCE_2)).done()?;
    assert_eq!(recorder.station().aspect(), Aspect::Clearing);

    let register = recorder.register();
    assert_eq!(register.step(1)?.aspect(), Aspect::Permitted);
    print!("{}", register.sheet()?);
    Ok(())
}
