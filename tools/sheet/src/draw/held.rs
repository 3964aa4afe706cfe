//! Which cells are held at the ceiling. A pass answers how many; where that leaves open which, the library is asked of each cell at the ceiling by
//! itself: of the same sheet in which every other pair is barred.

use dispatch_bench::{CEILING, Pass};
use sheetgen::Sheet;
use sheetgen::sheet::mask_bit;

/// For each cell of a pass, row by row, whether it is held; `pending` are the stops of its columns.
pub fn held(sheet: &Sheet, pass: &Pass, pending: &[u32]) -> Vec<bool> {
    let at_ceiling = pass.matrix.iter().map(|cell| *cell == CEILING);
    match at_ceiling.clone().filter(|is| *is).count() as u64 {
        _ if pass.held == 0 => vec![false; pass.matrix.len()],
        many if many == pass.held => at_ceiling.collect(),
        _ => {
            let columns = pass.columns();
            let is_held = |k: usize| {
                let stop = pending.get(k % columns);
                stop.is_some_and(|stop| is_held_alone(sheet, k / columns, *stop))
            };
            let cells = at_ceiling.enumerate();
            cells.map(|(k, is)| is && is_held(k)).collect()
        }
    }
}

/// The pass of the sheet in which the car of a row may go to this stop alone, and every other car nowhere, has a held cell. What is barred decides
/// neither which stops are pending nor what a pair costs.
fn is_held_alone(sheet: &Sheet, row: usize, stop: u32) -> bool {
    let mut alone = sheet.clone();
    let all = (0..alone.stops.len()).fold(0, |mask, k| mask | mask_bit(k));
    let place = alone.stops.iter().position(|other| other.id == stop);
    let only = place.map_or(0, mask_bit);
    for (k, car) in alone.cars.iter_mut().filter(|car| car.idle).enumerate() {
        car.restricted = if k == row { all & !only } else { all };
    }
    dispatch_bench::pass(&alone.write()).is_ok_and(|pass| pass.held > 0)
}
