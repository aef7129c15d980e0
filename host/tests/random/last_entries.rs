//! Appending at the last entries of the largest register. The entries before are any bytes, since appending does not read them.

use crate::chance::Chance;
use crate::filling::{append_both, start_both, Filled};
use crate::reports::well_formed;
use crate::runs::{guarded, Bench, Found};
use crate::settings::Timers;
use crate::stations::station;
use crate::values::seen;
use degvuurel::{ENTRY, MOST, MOST_BYTES};

/// The ticks of a clock here.
const TICKS: u32 = 20;

pub fn try_case(chance: &mut Chance, bench: &mut Bench) -> Result<(), Found> {
    let settings = Timers::Small.settings(chance);
    let report = well_formed(chance, settings, &mut TICKS.clone());
    let station = station(settings, chance);
    let k = MOST - 3 + chance.below(6);
    let length = MOST_BYTES - 2 * ENTRY + chance.below(5 * ENTRY);
    let filling = chance.byte();
    let compared = guarded(|| {
        let mut bytes = vec![filling; length];
        start_both(&mut bytes, settings, bench)?;
        append_both(&mut Filled { bytes, station }, k, report, bench)
    });
    compared.map_err(|difference| Found {
        size: 1,
        words: format!("station: {:?}\nin {length} bytes\ndiffers: {difference}", seen(&station)),
    })
}
