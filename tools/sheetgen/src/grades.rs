//! What sites send to be graded, from a seed: choices that are least, with the prices of a solver, and others beside them; and each way of having no
//! column, or no price, for a car or a column. It depends on the matrix and the source of numbers alone.

use crate::grade::{LEAST_CELLS, MOST_PRICE, Matrix, Sent, Solved, solve};
use crate::rng::Rng;

#[derive(Clone, Copy, Debug, PartialEq, Eq)]
pub enum Way {
    /// A least choice with prices that show it.
    Shown,
    /// The same, with prices that were raised for the cars and lowered for the columns.
    Shifted,
    /// A least choice that the solver found with the columns turned around, with the prices that show the other.
    AnotherLeast,
    /// Two cars' columns exchanged.
    Swapped,
    /// A car moved to a free column.
    Moved,
    /// Two cars' columns exchanged, or a car moved, with any prices.
    AnyPrices,
    /// The prices that a wrong choice would need, equal where chosen.
    EqualWhereChosen,
    /// One price a little higher or lower.
    Nudged,
    /// A price above or below zero on a column that nobody took.
    FreeColumnPriced,
    /// Prices above zero for the columns that were taken, and less for their cars.
    ColumnsAboveZero,
    /// All prices at an end of their range, or nearly so.
    Ends,
    /// Not one column for each idle car.
    ColumnCount,
    /// A column outside the matrix.
    Outside,
    /// A column that repeats.
    Repeats,
    /// Not one price for each car.
    CarPriceCount,
    /// Not one price for each column.
    ColumnPriceCount,
    /// A price beyond its range.
    Beyond,
    /// A wrong column and a wrong price.
    ColumnAndPrice,
}

pub const WAYS: [(&str, Way); 18] = [
    ("shown", Way::Shown),
    ("shifted", Way::Shifted),
    ("another_least", Way::AnotherLeast),
    ("swapped", Way::Swapped),
    ("moved", Way::Moved),
    ("any_prices", Way::AnyPrices),
    ("equal_where_chosen", Way::EqualWhereChosen),
    ("nudged", Way::Nudged),
    ("free_column_priced", Way::FreeColumnPriced),
    ("columns_above_zero", Way::ColumnsAboveZero),
    ("ends", Way::Ends),
    ("column_count", Way::ColumnCount),
    ("outside", Way::Outside),
    ("repeats", Way::Repeats),
    ("car_price_count", Way::CarPriceCount),
    ("column_price_count", Way::ColumnPriceCount),
    ("beyond", Way::Beyond),
    ("column_and_price", Way::ColumnAndPrice),
];

/// What a site sends with a sheet of this matrix. Of a refused sheet the matrix is empty.
pub fn sent(rng: &mut Rng, way: Way, matrix: &Matrix) -> Sent {
    let solved = solve(matrix);
    let mut sent = Sent {
        columns: solved.columns.clone(),
        car_prices: solved.car_prices.clone(),
        column_prices: solved.column_prices.clone(),
        lent: match rng.below(32) {
            0 => LEAST_CELLS - 1,
            1 => rng.below(LEAST_CELLS),
            k => LEAST_CELLS + k % 4,
        },
    };
    match way {
        Way::Shown => {}
        Way::Shifted => shift(rng, matrix, &mut sent),
        Way::AnotherLeast => sent.columns = turned(matrix).columns,
        Way::Swapped => swap(rng, &mut sent),
        Way::Moved => shift_to_free(rng, matrix, &mut sent),
        Way::AnyPrices => {
            swap_or_move(rng, matrix, &mut sent);
            any_prices(rng, matrix, &mut sent);
        }
        Way::EqualWhereChosen => {
            swap_or_move(rng, matrix, &mut sent);
            equal_where_chosen(rng, matrix, &mut sent);
        }
        Way::Nudged => nudge(rng, &mut sent),
        Way::FreeColumnPriced => price_free(rng, matrix, &mut sent),
        Way::ColumnsAboveZero => above_zero(rng, matrix, &mut sent),
        Way::Ends => ends(rng, &mut sent),
        Way::ColumnCount | Way::Outside | Way::Repeats => {
            spoil_columns(rng, way, matrix, &mut sent)
        }
        Way::CarPriceCount | Way::ColumnPriceCount | Way::Beyond => {
            spoil_prices(rng, way, &mut sent);
        }
        Way::ColumnAndPrice => {
            let column = rng.pick(&[Way::ColumnCount, Way::Outside, Way::Repeats]);
            let price = rng.pick(&[Way::CarPriceCount, Way::ColumnPriceCount, Way::Beyond]);
            spoil_columns(rng, column, matrix, &mut sent);
            spoil_prices(rng, price, &mut sent);
        }
    }
    sent
}

/// A least choice of the matrix whose columns stand the other way round.
fn turned(matrix: &Matrix) -> Solved {
    let width = matrix.columns();
    let mut back = matrix.clone();
    for row in back.cells.chunks_mut(width.max(1)) {
        row.reverse();
    }
    let mut solved = solve(&back);
    for column in &mut solved.columns {
        *column = (width - 1) as u32 - *column;
    }
    solved
}

/// A step: often a small one, now and then a large one.
fn step(rng: &mut Rng) -> i64 {
    match rng.below(4) {
        0 => 1,
        1 => 1 + rng.below(1_000_000) as i64,
        2 => 1 << rng.below(54),
        _ => MOST_PRICE,
    }
}

fn held(price: i64) -> i64 {
    price.clamp(-MOST_PRICE, MOST_PRICE)
}

/// Where every column is taken all prices of the columns may fall as those of the cars rise; where one is free they may not.
fn shift(rng: &mut Rng, matrix: &Matrix, sent: &mut Sent) {
    let least = sent.column_prices.iter().min().copied().unwrap_or(0);
    let most = sent.car_prices.iter().max().copied().unwrap_or(0);
    let room = (MOST_PRICE + least).min(MOST_PRICE - most);
    let by = step(rng).min(room);
    let is_square = matrix.cars == matrix.columns();
    if is_square || rng.one_in(4) {
        sent.car_prices.iter_mut().for_each(|price| *price += by);
        sent.column_prices.iter_mut().for_each(|price| *price -= by);
    }
}

fn swap(rng: &mut Rng, sent: &mut Sent) {
    let cars = sent.columns.len();
    if cars > 1 {
        let one = rng.below(cars);
        let other = (one + 1 + rng.below(cars - 1)) % cars;
        sent.columns.swap(one, other);
    }
}

fn free(matrix: &Matrix, sent: &Sent) -> Vec<u32> {
    let columns = 0..matrix.columns() as u32;
    columns.filter(|j| !sent.columns.contains(j)).collect()
}

fn shift_to_free(rng: &mut Rng, matrix: &Matrix, sent: &mut Sent) {
    let free = free(matrix, sent);
    if !free.is_empty() && !sent.columns.is_empty() {
        let car = rng.below(sent.columns.len());
        sent.columns[car] = rng.pick(&free);
    }
}

fn swap_or_move(rng: &mut Rng, matrix: &Matrix, sent: &mut Sent) {
    match rng.flag() {
        true => swap(rng, sent),
        false => shift_to_free(rng, matrix, sent),
    }
}

fn any_prices(rng: &mut Rng, matrix: &Matrix, sent: &mut Sent) {
    let sizes = [1, 4, 1_000_000, 1 << 48, MOST_PRICE];
    let size = rng.pick(&sizes);
    let any = |rng: &mut Rng| (rng.next() % (2 * size as u64 + 1)) as i64 - size;
    sent.car_prices = (0..matrix.cars).map(|_| any(rng)).collect();
    sent.column_prices = (0..matrix.columns()).map(|_| any(rng)).collect();
    if rng.flag() {
        sent.column_prices
            .iter_mut()
            .for_each(|price| *price = -price.abs());
    }
}

/// Each car's price is what its cell leaves, whatever the columns': all that is wrong is that some pair's sum exceeds its cell.
fn equal_where_chosen(rng: &mut Rng, matrix: &Matrix, sent: &mut Sent) {
    if rng.flag() {
        sent.column_prices.fill(0);
    }
    for free in free(matrix, sent) {
        sent.column_prices[free as usize] = 0;
    }
    for (car, column) in sent.columns.iter().enumerate() {
        let column = *column as usize;
        let rest = matrix.cell(car, column) as i64 - sent.column_prices[column];
        sent.car_prices[car] = held(rest);
    }
}

fn nudge(rng: &mut Rng, sent: &mut Sent) {
    let cars = sent.car_prices.len();
    let all = cars + sent.column_prices.len();
    if all > 0 {
        let at = rng.below(all);
        let by = if rng.flag() { step(rng) } else { -step(rng) };
        let price = match at < cars {
            true => &mut sent.car_prices[at],
            false => &mut sent.column_prices[at - cars],
        };
        *price = held(price.saturating_add(by));
    }
}

fn price_free(rng: &mut Rng, matrix: &Matrix, sent: &mut Sent) {
    let free = free(matrix, sent);
    if !free.is_empty() {
        let by = if rng.one_in(4) { step(rng) } else { -step(rng) };
        sent.column_prices[rng.pick(&free) as usize] = by;
    }
}

/// All sums stay as they are, for every column gets as much as every car loses; or one column's alone, and its car's.
fn above_zero(rng: &mut Rng, matrix: &Matrix, sent: &mut Sent) {
    let by = step(rng).min(1 << 52);
    if matrix.cars == matrix.columns() && rng.flag() {
        sent.car_prices
            .iter_mut()
            .for_each(|price| *price = held(*price - by));
        sent.column_prices
            .iter_mut()
            .for_each(|price| *price = held(*price + by));
    } else if matrix.cars > 0 {
        let car = rng.below(matrix.cars);
        let column = sent.columns[car] as usize;
        let by = 1 - sent.column_prices[column] + rng.below(3) as i64;
        sent.column_prices[column] += by;
        sent.car_prices[car] = held(sent.car_prices[car] - by);
    }
}

fn ends(rng: &mut Rng, sent: &mut Sent) {
    let ends = [MOST_PRICE, -MOST_PRICE, MOST_PRICE - 1, 1 - MOST_PRICE];
    let (car, column) = (rng.pick(&ends), rng.pick(&ends));
    let mixed = rng.flag();
    let mut each = |prices: &mut [i64], end: i64| {
        for price in prices {
            *price = if mixed { rng.pick(&ends) } else { end };
        }
    };
    each(&mut sent.car_prices, car);
    each(&mut sent.column_prices, column);
}

fn spoil_columns(rng: &mut Rng, way: Way, matrix: &Matrix, sent: &mut Sent) {
    let columns = &mut sent.columns;
    let width = matrix.columns() as u32;
    match way {
        Way::ColumnCount if rng.flag() && !columns.is_empty() => {
            let left = rng.below(columns.len());
            columns.truncate(if rng.one_in(4) { 0 } else { left });
        }
        Way::Outside if !columns.is_empty() => {
            let car = rng.below(columns.len());
            columns[car] = rng
                .pick(&[width, width + 1, 64, 65_536, 1 << 31, u32::MAX])
                .max(width);
        }
        Way::Repeats if columns.len() > 1 => {
            let one = rng.below(columns.len());
            let other = (one + 1 + rng.below(columns.len() - 1)) % columns.len();
            columns[one] = columns[other];
        }
        // One more, or many.
        _ => {
            let more = rng.pick(&[1, 2, 33, 70]);
            columns.extend((0..more).map(|k| match rng.flag() {
                true => k,
                false => width.saturating_sub(1),
            }));
        }
    }
}

fn spoil_prices(rng: &mut Rng, way: Way, sent: &mut Sent) {
    if way == Way::Beyond && sent.car_prices.len() + sent.column_prices.len() > 0 {
        let beyond = [
            MOST_PRICE + 1,
            -MOST_PRICE - 1,
            i64::MAX,
            i64::MIN,
            i64::MIN + 1,
        ];
        let price = rng.pick(&beyond);
        let at = rng.below(sent.car_prices.len() + sent.column_prices.len());
        let cars = sent.car_prices.len();
        match at < cars {
            true => sent.car_prices[at] = price,
            false => sent.column_prices[at - cars] = price,
        }
        return;
    }
    let prices = match way {
        Way::CarPriceCount => &mut sent.car_prices,
        _ => &mut sent.column_prices,
    };
    let fewer = rng.below(prices.len().max(1));
    match rng.below(4) {
        0 | 1 if !prices.is_empty() => prices.truncate(fewer),
        2 if prices.len() > 1 => prices.truncate(prices.len() - 1),
        _ => prices.extend(vec![0; rng.pick(&[1, 2, 40, 70])]),
    }
}

#[cfg(test)]
mod tests {
    use super::*;
    use crate::grade::{Answer, Grader};

    fn any(rng: &mut Rng) -> Matrix {
        let (cars, stops) = (rng.below(6), rng.below(7));
        let cells = (0..cars * cars.max(stops)).map(|_| rng.next() % 5);
        let cells = cells.collect();
        Matrix { cars, stops, cells }
    }

    /// Each way has the answers that it is for, and no other: least, not shown, 19, 20.
    #[test]
    fn ways_have_their_answers() {
        let grader = Grader { fault: None };
        for (name, way) in WAYS {
            let mut seen = [false; 4];
            for index in 0..2_000 {
                let mut rng = Rng::new(3, way as u64, index);
                let matrix = any(&mut rng);
                let mut sent = sent(&mut rng, way, &matrix);
                sent.lent = LEAST_CELLS;
                let place = match grader.answer(Ok(&matrix), &sent) {
                    Answer::Least => 0,
                    Answer::NotShown => 1,
                    Answer::Refused(refusal) => refusal.number as usize - 17,
                };
                seen[place] = true;
            }
            let wanted = match way {
                Way::Shown | Way::AnotherLeast => [true, false, false, false],
                Way::ColumnCount | Way::Outside | Way::Repeats | Way::ColumnAndPrice => {
                    [false, false, true, false]
                }
                Way::CarPriceCount | Way::ColumnPriceCount | Way::Beyond => {
                    [false, false, false, true]
                }
                _ => [true, true, false, false],
            };
            assert_eq!(seen, wanted, "{name}");
        }
    }
}
