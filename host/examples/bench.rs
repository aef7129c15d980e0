//! A bench: a planner's text sets it up, reports are entered as they come, rows are looked at again, and the passenger screens are
//! told what is shown last.

use degvuurel::{
    record, Answer, Condition, HeadNumber, IslandNumber, Message, Outputs, Recorder, Refusal, Register, Report, TrackNumber,
};
use std::error::Error;

const PLAN: &[u8] = b"tracks 2\nt1 300\nt2 300\nt3 300\nt4 50\nt5 600\n\nnormalise\n";

/// The number of this station.
const STATION: u16 = 7;

/// What the detectors would send.
fn coming() -> [Report; 6] {
    let (first, second) = (TrackNumber(0), TrackNumber(1));
    [
        Report::occupied(first, IslandNumber::ADVANCE_2),
        Report::occupied(first, IslandNumber::ADVANCE_2),
        Report::occupied(second, IslandNumber::ADVANCE_1),
        Report::head(HeadNumber(1), Condition::BOARD_FAILED),
        Report::free(second, IslandNumber::ADVANCE_1),
        Report::clock(50),
    ]
}

/// Enters a report, and says what is shown then.
fn enter(recorder: &mut Recorder, report: Report) {
    // Asking changes nothing, so that a report that will be refused can be told from the others first.
    let answer = recorder.station().answer(report);
    if answer != Answer::Done {
        println!("{report} will be refused by {}: {answer}", answer.number());
    }
    assert_eq!(recorder.append(report), answer, "it is answered as it was said to be");
    let [head_0, head_1] = recorder.station().heads().map(by_name);
    println!("row {}: {report}, {}: {head_0} and {head_1}", recorder.count(), recorder.station().aspect());
}

/// The lamps and sounders of a head.
fn by_name(outputs: Outputs) -> String {
    outputs.names().collect::<Vec<_>>().join(" ")
}

/// From the last row back to the one before the hold ran out, and forward again. What came later changes no row.
fn look_again(register: Register) -> Result<(), Refusal> {
    let mut browser = register.browse();
    browser.to_row(register.read()?.count)?;
    println!("back to row {}: {}", browser.row() - 1, browser.back()?.aspect());
    println!("forward to row {}: {}", browser.row() + 1, browser.forward()?.aspect());
    if let Err(refusal) = browser.forward() {
        println!("forward again is {refusal}; still at row {}", browser.row());
    }
    Ok(())
}

fn main() -> Result<(), Box<dyn Error>> {
    let plan = record(PLAN)?;
    println!("row 1 is line {} of the plan", plan.line_of(1).unwrap_or(0));
    let mut recorder = Recorder::resume(plan.into_bytes())?;
    for report in coming() {
        enter(&mut recorder, report);
    }
    look_again(recorder.register())?;
    println!("{}", Message::of(STATION, recorder.station()).text()?);
    Ok(())
}
