//! Bars added to a sheet (document 02, F-14): a bar is a bit of a car's mask of restricted stops.

use sheetgen::Sheet;
use sheetgen::rng::Rng;
use sheetgen::sheet::mask_bit;

/// The places of a car record and of a stop record.
pub type Bar = (usize, usize);

/// The bars that a sheet does not have.
fn absent(sheet: &Sheet) -> Vec<Bar> {
    let stops = 0..sheet.stops.len();
    let all = (0..sheet.cars.len()).flat_map(|car| stops.clone().map(move |stop| (car, stop)));
    let is_absent = |(car, stop): &Bar| sheet.cars[*car].restricted & mask_bit(*stop) == 0;
    all.filter(is_absent).collect()
}

/// A bar that a sheet does not have: in three of four, where there is one, of an idle car at a pending stop.
fn drawn(rng: &mut Rng, sheet: &Sheet, pending: &[u32]) -> Option<Bar> {
    let all = absent(sheet);
    let counts =
        |(car, stop): &Bar| sheet.cars[*car].idle && pending.contains(&sheet.stops[*stop].id);
    let counting: Vec<Bar> = all.iter().copied().filter(counts).collect();
    let from = match rng.one_in(4) || counting.is_empty() {
        true => all,
        false => counting,
    };
    (!from.is_empty()).then(|| rng.pick(&from))
}

/// How many bars are added: one in two of three, two to four otherwise.
pub fn count(rng: &mut Rng) -> usize {
    match rng.one_in(3) {
        true => 2 + rng.below(3),
        false => 1,
    }
}

/// The sheet with so many bars added, where it has room for them.
pub fn added(rng: &mut Rng, sheet: &Sheet, pending: &[u32], count: usize) -> Option<Sheet> {
    let mut barred = sheet.clone();
    for _ in 0..count {
        let (car, stop) = drawn(rng, &barred, pending)?;
        barred.cars[car].restricted |= mask_bit(stop);
    }
    Some(barred)
}

/// Whether the second sheet is the first with one or more bars added and nothing else changed.
pub fn are_added(first: &Sheet, second: &Sheet) -> bool {
    let mut lifted = second.clone();
    for (car, before) in lifted.cars.iter_mut().zip(&first.cars) {
        car.restricted &= before.restricted;
    }
    lifted.write() == first.write() && second.write() != first.write()
}

/// The bars that the second sheet has and the first has not.
pub fn between(first: &Sheet, second: &Sheet) -> Vec<Bar> {
    let is_new = |(car, stop): &Bar| second.cars[*car].restricted & mask_bit(*stop) != 0;
    absent(first).into_iter().filter(is_new).collect()
}

#[cfg(test)]
mod tests {
    use super::*;

    #[test]
    fn bars_are_added() {
        let sheet = Sheet::example();
        for index in 0..100 {
            let rng = &mut Rng::new(1, 300, index);
            let count = 1 + index as usize % 6;
            let barred = added(rng, &sheet, &[2, 3], count).unwrap();
            assert!(are_added(&sheet, &barred));
            assert_eq!(between(&sheet, &barred).len(), count);
        }
    }

    #[test]
    fn no_more_than_there_is_room_for() {
        let rng = &mut Rng::new(1, 300, 0);
        assert_eq!(added(rng, &Sheet::example(), &[2, 3], 7), None);
    }

    #[test]
    fn other_changes_are_not_bars() {
        let sheet = Sheet::example();
        let mut barred = sheet.clone();
        assert!(!are_added(&sheet, &barred), "no bar");
        barred.cars[1].restricted = mask_bit(2);
        assert!(are_added(&sheet, &barred));
        assert!(!are_added(&barred, &sheet), "a bar lifted");
        barred.cars[1].position = 19.0;
        assert!(!are_added(&sheet, &barred), "a car moved");
    }
}
