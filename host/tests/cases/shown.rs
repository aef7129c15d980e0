//! What a case has typed of a register, from what the package gives.

use degvuurel::{Plan, Refusal, Register, Station};

/// The refused reports with their lines, and how many there are.
pub fn told(plan: &Plan) -> String {
    let (mut told, mut refused) = (String::new(), 0);
    for (row, line, entry) in plan.refused() {
        told += &format!("line {line}: refused {}: {}; entered as row {row}\n", entry.answer.number(), entry.answer);
        refused += 1;
    }
    let reports = if plan.count() == 1 { "report" } else { "reports" };
    told + &format!("{} {reports} entered, {refused} of them refused\n", plan.count())
}

/// A row as it is stepped to, or that it is refused.
pub fn row(register: Register, row: usize) -> String {
    let refused = |refusal: Refusal| format!("row       {row}\nrefused   {}: {}\n\n", refusal.number(), refusal.answer());
    shown(register, row).unwrap_or_else(refused)
}

fn shown(register: Register, row: usize) -> Result<String, Refusal> {
    let station = register.browse().to_row(row)?;
    let entered = match row {
        0 => "none, the fresh station".to_owned(),
        _ => {
            let entry = register.entry(row)?;
            format!("{}\nanswer    {} {}", entry.report, entry.answer.number(), entry.answer)
        }
    };
    let aspect = station.aspect();
    let [head_0, head_1] = station.heads();
    let zones: String = station.zones().iter().map(ToString::to_string).collect();
    let lines = [
        format!("row       {row}"),
        format!("report    {entered}"),
        format!("aspect    {} {aspect}", aspect.number()),
        format!("heads     {head_0} {head_1}"),
        format!("zones     {zones}"),
        format!("presence  {}\n\n", present(&station)),
    ];
    Ok(lines.join("\n"))
}

/// The tracks that count for the greatest risk.
fn present(station: &Station) -> String {
    let tracks: Vec<String> = (0..4).filter(|&track| station.presence()[track]).map(|track| track.to_string()).collect();
    match tracks.len() {
        0 => "no track".to_owned(),
        1 => format!("track {}", tracks[0]),
        _ => format!("tracks {}", tracks.join(" ")),
    }
}
