//! Request F-8, written from document 02 alone: what the grader answers to a sheet and to what a site sent; and a plain solver, whose prices show that
//! its choice is least.

use crate::reader::Refusal;

/// "beyond 18,014,398,509,481,984 either way"
pub const MOST_PRICE: i64 = 18_014_398_509_481_984;
/// "1 when below 2,048"
pub const LEAST_CELLS: usize = 2_048;

/// The cells of an accepted sheet, a row for each idle car, as the pass has them.
#[derive(Clone, Debug, Default, PartialEq, Eq)]
pub struct Matrix {
    pub cars: usize,
    pub stops: usize,
    pub cells: Vec<u64>,
}

impl Matrix {
    /// The pending stops, or as many as there are idle cars where these are more.
    pub fn columns(&self) -> usize {
        self.cars.max(self.stops)
    }

    pub fn cell(&self, car: usize, column: usize) -> i128 {
        self.cells[car * self.columns() + column].into()
    }

    /// The sum of the cells of a choice.
    pub fn total(&self, columns: &[u32]) -> i128 {
        let of_car = |(car, column): (usize, &u32)| self.cell(car, *column as usize);
        columns.iter().enumerate().map(of_car).sum()
    }
}

/// "Sites send the columns that their controller chose, one an idle car, and prices from a solver of their own."
#[derive(Clone, Debug, Default, PartialEq, Eq)]
pub struct Sent {
    pub columns: Vec<u32>,
    pub car_prices: Vec<i64>,
    pub column_prices: Vec<i64>,
    /// The cells of the matrix that the grader is lent.
    pub lent: usize,
}

#[derive(Clone, Copy, Debug, PartialEq, Eq)]
pub enum Answer {
    Least,
    NotShown,
    Refused(Refusal),
}

/// A way of reading document 02 wrongly, for a comparison that must find it out.
#[derive(Clone, Copy, Debug, PartialEq, Eq)]
pub enum Fault {
    AboveZero,
    FreeColumns,
    FreeColumnsAboveZeroAlone,
    EqualInFirstRow,
    EqualNowhere,
    AtMostWhereChosen,
    SpareColumns,
    LastColumn,
    BelowTheCell,
    SumsAsDoubles,
    RuleOfTies,
    TotalAlone,
    OneLast,
    NineteenFirst,
    TwentyFirst,
    TwentyBeforeNineteen,
    MoreColumns,
    FewerColumns,
    ColumnOfTheWidth,
    StopsAlone,
    RepeatsSideBySide,
    PricesOfStops,
    MoreCarPrices,
    EndRefused,
    OneBeyond,
    BelowUnbounded,
    FirstPriceAlone,
    CarPricesAlone,
    OffsetOfSheet,
}

/// Every fault, by name.
pub const FAULTS: [(&str, Fault); 29] = [
    ("above_zero", Fault::AboveZero),
    ("free_columns", Fault::FreeColumns),
    (
        "free_columns_above_zero_alone",
        Fault::FreeColumnsAboveZeroAlone,
    ),
    ("equal_in_first_row", Fault::EqualInFirstRow),
    ("equal_nowhere", Fault::EqualNowhere),
    ("at_most_where_chosen", Fault::AtMostWhereChosen),
    ("spare_columns", Fault::SpareColumns),
    ("last_column", Fault::LastColumn),
    ("below_the_cell", Fault::BelowTheCell),
    ("sums_as_doubles", Fault::SumsAsDoubles),
    ("rule_of_ties", Fault::RuleOfTies),
    ("total_alone", Fault::TotalAlone),
    ("one_last", Fault::OneLast),
    ("nineteen_first", Fault::NineteenFirst),
    ("twenty_first", Fault::TwentyFirst),
    ("twenty_before_nineteen", Fault::TwentyBeforeNineteen),
    ("more_columns", Fault::MoreColumns),
    ("fewer_columns", Fault::FewerColumns),
    ("column_of_the_width", Fault::ColumnOfTheWidth),
    ("stops_alone", Fault::StopsAlone),
    ("repeats_side_by_side", Fault::RepeatsSideBySide),
    ("prices_of_stops", Fault::PricesOfStops),
    ("more_car_prices", Fault::MoreCarPrices),
    ("end_refused", Fault::EndRefused),
    ("one_beyond", Fault::OneBeyond),
    ("below_unbounded", Fault::BelowUnbounded),
    ("first_price_alone", Fault::FirstPriceAlone),
    ("car_prices_alone", Fault::CarPricesAlone),
    ("offset_of_sheet", Fault::OffsetOfSheet),
];

/// Document 02 as it is read, with at most one fault.
pub struct Grader {
    pub fault: Option<Fault>,
}

impl Grader {
    fn has(&self, fault: Fault) -> bool {
        self.fault == Some(fault)
    }

    /// The answer to what was sent with a sheet, of which its refusal or its cells are known.
    pub fn answer(&self, sheet: Result<&Matrix, Refusal>, sent: &Sent) -> Answer {
        let is_short = sent.lent < LEAST_CELLS;
        // Without cells there is neither a car nor a column to speak of.
        let none = Matrix::default();
        let matrix = sheet.unwrap_or(&none);
        let (columns, prices) = (
            self.columns_refused(matrix, sent),
            self.prices_refused(matrix, sent),
        );
        let offset = match self.fault {
            Some(Fault::OffsetOfSheet) => 24,
            _ => 0,
        };
        let own = |number| Refusal { number, offset };
        let of_sheet = sheet.err();
        let of_columns = columns.then_some(own(19));
        let of_prices = prices.then_some(own(20));
        let of_lent = is_short.then_some(Refusal {
            number: 1,
            offset: 0,
        });
        // "The sheet's own refusals come first, then 19, then 20"
        let order = match self.fault {
            Some(Fault::OneLast) => [of_sheet, of_columns, of_prices, of_lent],
            Some(Fault::NineteenFirst) => [of_lent, of_columns, of_sheet, of_prices],
            Some(Fault::TwentyFirst) => [of_lent, of_prices, of_sheet, of_columns],
            Some(Fault::TwentyBeforeNineteen) => [of_lent, of_sheet, of_prices, of_columns],
            _ => [of_lent, of_sheet, of_columns, of_prices],
        };
        match order.into_iter().flatten().next() {
            Some(refusal) => Answer::Refused(refusal),
            None if self.is_shown(matrix, sent) => Answer::Least,
            None => Answer::NotShown,
        }
    }

    /// "19 when there isn't one column for each idle car, or a column repeats or lies outside the matrix"
    fn columns_refused(&self, matrix: &Matrix, sent: &Sent) -> bool {
        let columns = &sent.columns;
        let width = match self.fault {
            Some(Fault::ColumnOfTheWidth) => matrix.columns() + 1,
            Some(Fault::StopsAlone) => matrix.stops,
            _ => matrix.columns(),
        };
        let is_number_wrong = match self.fault {
            Some(Fault::MoreColumns) => columns.len() < matrix.cars,
            Some(Fault::FewerColumns) => columns.len() > matrix.cars,
            _ => columns.len() != matrix.cars,
        };
        let repeats = |i: usize| {
            let others = match self.fault {
                Some(Fault::RepeatsSideBySide) => i.saturating_sub(1)..i,
                _ => 0..i,
            };
            others.into_iter().any(|other| columns[other] == columns[i])
        };
        is_number_wrong
            || columns.iter().any(|column| *column as usize >= width)
            || (0..columns.len()).any(repeats)
    }

    /// "20 when there isn't one price for each car and column, or a price is beyond 18,014,398,509,481,984 either way"
    fn prices_refused(&self, matrix: &Matrix, sent: &Sent) -> bool {
        let (cars, columns) = (&sent.car_prices, &sent.column_prices);
        let width = match self.fault {
            Some(Fault::PricesOfStops) => matrix.stops,
            _ => matrix.columns(),
        };
        let are_cars_wrong = match self.fault {
            Some(Fault::MoreCarPrices) => cars.len() < matrix.cars,
            _ => cars.len() != matrix.cars,
        };
        let most = match self.fault {
            Some(Fault::EndRefused) => MOST_PRICE - 1,
            Some(Fault::OneBeyond) => MOST_PRICE + 1,
            _ => MOST_PRICE,
        };
        let least = match self.fault {
            Some(Fault::BelowUnbounded) => i64::MIN,
            _ => -most,
        };
        let is_beyond = |price: &i64| *price < least || *price > most;
        let looked_at = match self.fault {
            Some(Fault::FirstPriceAlone) => 1,
            _ => usize::MAX,
        };
        are_cars_wrong
            || columns.len() != width
            || cars.iter().take(looked_at).any(is_beyond)
            || !self.has(Fault::CarPricesAlone) && columns.iter().take(looked_at).any(is_beyond)
    }

    /// Whether the prices show that the choice is least.
    fn is_shown(&self, matrix: &Matrix, sent: &Sent) -> bool {
        if self.has(Fault::TotalAlone) {
            return matrix.total(&sent.columns) == solve(matrix).total;
        }
        let pairs = (0..matrix.cars).flat_map(|i| (0..self.compared(matrix)).map(move |j| (i, j)));
        let is_lowest = || lowest(matrix) == sent.columns;
        (0..matrix.columns()).all(|j| self.is_column_priced(sent, j))
            && pairs
                .into_iter()
                .all(|(i, j)| self.is_pair_priced(matrix, sent, i, j))
            && (!self.has(Fault::RuleOfTies) || is_lowest())
    }

    fn compared(&self, matrix: &Matrix) -> usize {
        match self.fault {
            Some(Fault::SpareColumns) => matrix.stops,
            Some(Fault::LastColumn) => matrix.columns().saturating_sub(1),
            _ => matrix.columns(),
        }
    }

    /// "column prices are zero or less, and zero on columns nobody took"
    fn is_column_priced(&self, sent: &Sent, column: usize) -> bool {
        let Some(price) = sent.column_prices.get(column) else {
            return true;
        };
        let is_taken = sent.columns.contains(&(column as u32));
        match self.fault {
            Some(Fault::AboveZero) => is_taken || *price == 0,
            Some(Fault::FreeColumns) => *price <= 0,
            Some(Fault::FreeColumnsAboveZeroAlone) => !is_taken || *price <= 0,
            _ => *price <= 0 && (is_taken || *price == 0),
        }
    }

    /// "The price of a car plus the price of a column never exceeds their cell and equals it where chosen"
    fn is_pair_priced(&self, matrix: &Matrix, sent: &Sent, car: usize, column: usize) -> bool {
        let price = |prices: &[i64], k: usize| i128::from(prices.get(k).copied().unwrap_or(0));
        let (one, other) = (
            price(&sent.car_prices, car),
            price(&sent.column_prices, column),
        );
        let sum = match self.fault {
            Some(Fault::SumsAsDoubles) => (one as f64 + other as f64) as i128,
            _ => one + other,
        };
        let cell = matrix.cell(car, column);
        let is_chosen = sent.columns.get(car) == Some(&(column as u32));
        let must_equal = match self.fault {
            Some(Fault::EqualInFirstRow) => is_chosen && car == 0,
            Some(Fault::EqualNowhere) => false,
            _ => is_chosen,
        };
        match self.fault {
            Some(Fault::AtMostWhereChosen) => !is_chosen || sum == cell,
            Some(Fault::BelowTheCell) => sum < cell || is_chosen && sum == cell,
            _ => sum <= cell && (!must_equal || sum == cell),
        }
    }
}

/// A choice with the least total, and whole prices that show it.
#[derive(Clone, Debug, PartialEq, Eq)]
pub struct Solved {
    pub columns: Vec<u32>,
    pub car_prices: Vec<i64>,
    pub column_prices: Vec<i64>,
    pub total: i128,
}

/// Solves a matrix by shortest augmenting paths, one car after the other, in whole numbers. Column prices only fall, from zero, and only on columns
/// that are taken.
pub fn solve(matrix: &Matrix) -> Solved {
    let width = matrix.columns();
    // Car 0 and column 0 stand for none.
    let (mut of_cars, mut of_columns) = (vec![0_i128; matrix.cars + 1], vec![0_i128; width + 1]);
    let mut taken_by = vec![0; width + 1];
    for car in 1..=matrix.cars {
        taken_by[0] = car;
        let (mut least, mut is_done) = (vec![i128::MAX; width + 1], vec![false; width + 1]);
        let mut before = vec![0; width + 1];
        let mut at = 0;
        while taken_by[at] != 0 {
            is_done[at] = true;
            let from = taken_by[at];
            for column in (1..=width).filter(|j| !is_done[*j]) {
                let rest = matrix.cell(from - 1, column - 1) - of_cars[from] - of_columns[column];
                if rest < least[column] {
                    (least[column], before[column]) = (rest, at);
                }
            }
            let open = (1..=width).filter(|j| !is_done[*j]);
            let next = open.min_by_key(|j| least[*j]).expect("a free column");
            let step = least[next];
            for column in 0..=width {
                if is_done[column] {
                    of_cars[taken_by[column]] += step;
                    of_columns[column] -= step;
                } else if least[column] != i128::MAX {
                    least[column] -= step;
                }
            }
            at = next;
        }
        while at != 0 {
            taken_by[at] = taken_by[before[at]];
            at = before[at];
        }
    }
    let mut columns = vec![0; matrix.cars];
    for column in (1..=width).filter(|j| taken_by[*j] != 0) {
        columns[taken_by[column] - 1] = column as u32 - 1;
    }
    let whole = |prices: &[i128]| -> Vec<i64> {
        let whole = prices[1..].iter().map(|price| i64::try_from(*price));
        whole
            .collect::<Result<_, _>>()
            .expect("prices are few cells")
    };
    Solved {
        car_prices: whole(&of_cars),
        column_prices: whole(&of_columns),
        total: matrix.total(&columns),
        columns,
    }
}

/// The least choice with the lowest column for the first car, then for the second, on: each car in turn is held to its lowest column with which the
/// rest still has the least total.
pub fn lowest(matrix: &Matrix) -> Vec<u32> {
    let least = solve(matrix).total;
    let width = matrix.columns();
    let mut held = matrix.clone();
    let mut columns = Vec::new();
    // Above every total of cells.
    let barred = 1_u64 << 56;
    for car in 0..matrix.cars {
        let row = held.cells[car * width..(car + 1) * width].to_vec();
        let fits = (0..width).find(|column| {
            let only = (0..width).map(|j| if j == *column { row[j] } else { barred });
            held.cells.splice(car * width..(car + 1) * width, only);
            solve(&held).total == least
        });
        columns.push(fits.expect("a least choice") as u32);
    }
    columns
}

#[cfg(test)]
mod tests {
    use super::*;
    use crate::rng::Rng;

    /// Every choice of some cars over the columns.
    fn choices(cars: usize, columns: usize) -> Vec<Vec<u32>> {
        if cars == 0 {
            return vec![Vec::new()];
        }
        let shorter = choices(cars - 1, columns);
        let longer = |choice: &Vec<u32>| -> Vec<Vec<u32>> {
            let free = (0..columns as u32).filter(|j| !choice.contains(j));
            free.map(|j| [&choice[..], &[j]].concat()).collect()
        };
        shorter.iter().flat_map(longer).collect()
    }

    fn any(rng: &mut Rng) -> Matrix {
        let (cars, stops) = (rng.below(5), rng.below(6));
        let cells = (0..cars * cars.max(stops)).map(|_| match rng.below(8) {
            0 => 1 << 48,
            1 => (1 << 48) - 1,
            _ => rng.next() % 6,
        });
        let cells = cells.collect();
        Matrix { cars, stops, cells }
    }

    /// The solver is least by a search of every choice, and its prices keep document 02's rules; of the least choices exactly those pass with them,
    /// and the lowest is the first of them.
    #[test]
    fn prices_show_the_least_choices() {
        let grader = Grader { fault: None };
        let mut rng = Rng::new(1, 0, 0);
        for _ in 0..2_000 {
            let matrix = any(&mut rng);
            let solved = solve(&matrix);
            let all = choices(matrix.cars, matrix.columns());
            let least = all.iter().map(|choice| matrix.total(choice)).min();
            assert_eq!(least, Some(solved.total));
            let first = all.iter().find(|c| matrix.total(c) == solved.total);
            assert_eq!(first, Some(&lowest(&matrix)));
            for columns in all {
                let is_least = matrix.total(&columns) == solved.total;
                let sent = Sent {
                    columns,
                    car_prices: solved.car_prices.clone(),
                    column_prices: solved.column_prices.clone(),
                    lent: LEAST_CELLS,
                };
                let answer = grader.answer(Ok(&matrix), &sent);
                assert_eq!(answer == Answer::Least, is_least, "{matrix:?} {sent:?}");
                assert!(answer == Answer::Least || answer == Answer::NotShown);
            }
        }
    }
}
