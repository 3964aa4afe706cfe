//! Matrices for the matcher: the documents' answer to a matrix, generated ones, and their shrinking.

use pathfinding::least_choice;
use sheetgen::rng::Rng;

use crate::answer::SENTINEL;

/// The columns and their total, or `None` where document 01 has the matcher answer "none".
pub fn expected(
    cars: usize,
    columns: usize,
    cells: &[u64],
    places: usize,
) -> Option<(Vec<u32>, u64)> {
    let outside = cars > 32
        || columns > 64
        || columns < cars
        || cells.len() != cars * columns
        || cells.iter().any(|c| *c > SENTINEL as u64)
        || places < cars;
    if outside {
        return None;
    }
    let cells: Vec<i64> = cells.iter().map(|c| *c as i64).collect();
    let chosen = least_choice(cars, columns, &cells);
    let total = (0..cars)
        .map(|i| cells[i * columns + chosen[i]])
        .sum::<i64>();
    Some((chosen.iter().map(|j| *j as u32).collect(), total as u64))
}

#[derive(Clone, Debug)]
pub struct Matrix {
    pub cars: usize,
    pub columns: usize,
    pub cells: Vec<u64>,
    pub places: usize,
}

/// Matrix `index` under a seed: mostly well formed, of every size, with ties, sentinels and ceilings.
pub fn generate(seed: u64, index: u64) -> Matrix {
    let rng = &mut Rng::new(seed, 100, index);
    let size = |rng: &mut Rng, most: usize| {
        if rng.one_in(4) {
            most
        } else {
            rng.below(most + 1)
        }
    };
    let small = !rng.one_in(8);
    let columns = if small { rng.below(9) } else { size(rng, 64) };
    let cars = size(rng, columns.min(32));
    let top = rng.pick(&[1, 2, 5, 100, 1_000_000_000, SENTINEL as u64 - 1]);
    let sentinels = rng.pick(&[2, 4, 100]);
    let mut cells: Vec<u64> = (0..cars * columns)
        .map(|_| match rng.below(sentinels) {
            0 => SENTINEL as u64,
            1 if rng.one_in(4) => SENTINEL as u64 - 1,
            _ => rng.next() % (top + 1),
        })
        .collect();
    let (mut cars, mut columns) = (cars, columns);
    let mut places = cars + if rng.flag() { 0 } else { rng.below(4) };
    match rng.below(40) {
        0 => places = cars.saturating_sub(1),
        1 => cars += 1,
        2 => columns += 1,
        3 => {
            cells.pop();
        }
        4 => cells.push(0),
        5 if !cells.is_empty() => {
            let k = rng.below(cells.len());
            cells[k] = rng.pick(&[SENTINEL as u64 + 1, u64::MAX, 1 << 63]);
        }
        6 => (cars, columns, cells) = (33, 40, vec![0; 33 * 40]),
        7 => (cars, columns, cells) = (2, 65, vec![0; 130]),
        8 => (cars, columns) = (columns, cars),
        9 => (cars, columns) = (rng.pick(&[usize::MAX, 1 << 63]), rng.pick(&[2, usize::MAX])),
        _ => {}
    }
    Matrix {
        cars,
        columns,
        cells,
        places,
    }
}

/// Drops rows and columns, then lowers cells, as long as the test holds.
pub fn shrink(matrix: &Matrix, holds: &mut dyn FnMut(&Matrix) -> bool) -> Matrix {
    let mut best = matrix.clone();
    let whole = |m: &Matrix| m.cars.checked_mul(m.columns) == Some(m.cells.len());
    loop {
        let mut moved = false;
        if whole(&best) {
            for i in (0..best.cars).rev() {
                let mut m = best.clone();
                m.cells.drain(i * m.columns..(i + 1) * m.columns);
                m.cars -= 1;
                m.places = m.places.saturating_sub(1);
                if holds(&m) {
                    best = m;
                    moved = true;
                }
            }
            for j in (0..best.columns).rev() {
                let mut m = best.clone();
                m.cells = (0..m.cells.len())
                    .filter(|k| k % m.columns != j)
                    .map(|k| m.cells[k])
                    .collect();
                m.columns -= 1;
                if holds(&m) {
                    best = m;
                    moved = true;
                }
            }
        }
        for k in 0..best.cells.len() {
            for low in [0, 1, 2] {
                if best.cells[k] > low {
                    let mut m = best.clone();
                    m.cells[k] = low;
                    if holds(&m) {
                        best = m;
                        moved = true;
                        break;
                    }
                }
            }
        }
        if !moved {
            return best;
        }
    }
}
