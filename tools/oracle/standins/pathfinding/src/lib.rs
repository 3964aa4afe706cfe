//! Stand-in for the pathfinding library: the matrix and the least-total choice that assignment.rs asks
//! for. The library's own tie order isn't known here; this choice takes, among the least totals, the one
//! with the fewest cells at the sentinel (document 02, F-9), and among these the lowest column for the
//! first row, then the second, on (document 01's rule).

use std::ops::{Add, Sub};

pub mod matrix {
    use std::ops::{Index, IndexMut};

    /// Cells row by row.
    #[derive(Debug, Clone, PartialEq, Eq)]
    pub struct Matrix<C> {
        pub rows: usize,
        pub columns: usize,
        cells: Vec<C>,
    }

    impl<C: Clone> Matrix<C> {
        pub fn new(rows: usize, columns: usize, value: C) -> Self {
            Self {
                rows,
                columns,
                cells: vec![value; rows * columns],
            }
        }

        pub fn fill(&mut self, value: C) {
            self.cells.fill(value);
        }

        pub fn cells(&self) -> &[C] {
            &self.cells
        }
    }

    impl<C> Index<(usize, usize)> for Matrix<C> {
        type Output = C;
        fn index(&self, (row, column): (usize, usize)) -> &C {
            assert!(row < self.rows && column < self.columns);
            &self.cells[row * self.columns + column]
        }
    }

    impl<C> IndexMut<(usize, usize)> for Matrix<C> {
        fn index_mut(&mut self, (row, column): (usize, usize)) -> &mut C {
            assert!(row < self.rows && column < self.columns);
            &mut self.cells[row * self.columns + column]
        }
    }
}

pub mod kuhn_munkres {
    use crate::matrix::Matrix;

    /// The least total and its choice.
    pub fn kuhn_munkres_min(weights: &Matrix<i64>) -> (i64, Vec<usize>) {
        let chosen = crate::least_choice(weights.rows, weights.columns, weights.cells());
        let total = (0..weights.rows).map(|i| weights[(i, chosen[i])]).sum();
        (total, chosen)
    }
}

/// The cell of a car that is not sent to a column.
pub const SENTINEL: i64 = 1 << 48;

/// The least-total choice of one column a row, among these the one with the fewest sentinels, among these
/// the lowest columns.
pub fn least_choice(rows: usize, columns: usize, cells: &[i64]) -> Vec<usize> {
    let pair = |x: &i64| Cost(*x, i64::from(*x == SENTINEL));
    let pairs: Vec<Cost> = cells.iter().map(pair).collect();
    lowest_of(rows, columns, &pairs)
}

/// The least-total choice of one column a row, lowest columns first among equals, whoever gets a sentinel.
pub fn lowest_choice(rows: usize, columns: usize, cells: &[i64]) -> Vec<usize> {
    let alone: Vec<Cost> = cells.iter().map(|x| Cost(*x, 0)).collect();
    lowest_of(rows, columns, &alone)
}

/// A cell and whether it is the sentinel; the first decides, and the second among equals.
#[derive(Clone, Copy, PartialEq, Eq, PartialOrd, Ord)]
struct Cost(i64, i64);

impl Cost {
    const ZERO: Self = Self(0, 0);
    const MAX: Self = Self(i64::MAX, i64::MAX);
}

impl Add for Cost {
    type Output = Self;
    fn add(self, other: Self) -> Self {
        Self(self.0 + other.0, self.1 + other.1)
    }
}

impl Sub for Cost {
    type Output = Self;
    fn sub(self, other: Self) -> Self {
        Self(self.0 - other.0, self.1 - other.1)
    }
}

/// The choice of the least cost, lowest columns first among equals. Rows are padded to a square with rows
/// of zeros; shortest augmenting paths give prices under which exactly the least choices use tight cells
/// only, and the lowest of these is found row by row.
fn lowest_of(rows: usize, columns: usize, cells: &[Cost]) -> Vec<usize> {
    assert!(rows <= columns && cells.len() == rows * columns);
    let n = columns;
    let cell = |i: usize, j: usize| {
        if i < rows {
            cells[i * columns + j]
        } else {
            Cost::ZERO
        }
    };
    let (row_price, column_price, mut row_of) = prices(n, &cell);
    let tight = |i: usize, j: usize| cell(i, j) == row_price[i] + column_price[j];
    let mut column_of = vec![0; n];
    for j in 0..n {
        column_of[row_of[j]] = j;
    }
    // Rows below `i` are settled: their columns take no part any more.
    for i in 0..rows {
        for j in 0..column_of[i] {
            if !tight(i, j) || row_of[j] < i {
                continue;
            }
            // Give j to i; the row that had j must reach i's old column along tight cells of rows above i.
            let goal = column_of[i];
            let mut came_from = vec![usize::MAX; n];
            let mut queue = vec![j];
            let mut seen = vec![false; n];
            seen[j] = true;
            let mut at = 0;
            let mut found = false;
            while at < queue.len() && !found {
                let held = queue[at];
                at += 1;
                let r = row_of[held];
                for k in 0..n {
                    if !seen[k] && tight(r, k) && row_of[k] >= i {
                        seen[k] = true;
                        came_from[k] = held;
                        if k == goal {
                            found = true;
                            break;
                        }
                        queue.push(k);
                    }
                }
            }
            if found {
                let mut k = goal;
                while k != j {
                    let held = came_from[k];
                    let r = row_of[held];
                    row_of[k] = r;
                    column_of[r] = k;
                    k = held;
                }
                row_of[j] = i;
                column_of[i] = j;
                break;
            }
        }
    }
    column_of.truncate(rows);
    column_of
}

/// Row prices, column prices and the row of each column for a least choice of a square matrix.
fn prices(n: usize, cell: &dyn Fn(usize, usize) -> Cost) -> (Vec<Cost>, Vec<Cost>, Vec<usize>) {
    // One-based, column 0 is the start of each search.
    let mut u = vec![Cost::ZERO; n + 1];
    let mut v = vec![Cost::ZERO; n + 1];
    let mut row_of = vec![0usize; n + 1];
    let mut way = vec![0usize; n + 1];
    for i in 1..=n {
        row_of[0] = i;
        let mut j0 = 0;
        let mut least = vec![Cost::MAX; n + 1];
        let mut used = vec![false; n + 1];
        loop {
            used[j0] = true;
            let i0 = row_of[j0];
            let mut delta = Cost::MAX;
            let mut j1 = 0;
            for j in 1..=n {
                if !used[j] {
                    let slack = cell(i0 - 1, j - 1) - u[i0] - v[j];
                    if slack < least[j] {
                        least[j] = slack;
                        way[j] = j0;
                    }
                    if least[j] < delta {
                        delta = least[j];
                        j1 = j;
                    }
                }
            }
            for j in 0..=n {
                if used[j] {
                    u[row_of[j]] = u[row_of[j]] + delta;
                    v[j] = v[j] - delta;
                } else {
                    least[j] = least[j] - delta;
                }
            }
            j0 = j1;
            if row_of[j0] == 0 {
                break;
            }
        }
        while j0 != 0 {
            let j1 = way[j0];
            row_of[j0] = row_of[j1];
            j0 = j1;
        }
    }
    let rows = row_of[1..].iter().map(|r| r - 1).collect();
    (u[1..].to_vec(), v[1..].to_vec(), rows)
}

#[cfg(test)]
mod tests {
    use super::{SENTINEL, least_choice, lowest_choice};

    /// The definition: the first row is given each free column in turn, the rest is passed on. A choice
    /// comes with its total and how many sentinels it has, where they count.
    fn plain(
        i: usize,
        rows: usize,
        columns: usize,
        cells: &[i64],
        counted: bool,
        taken: u64,
    ) -> ((i64, i64), Vec<usize>) {
        if i == rows {
            return ((0, 0), Vec::new());
        }
        let mut best: Option<((i64, i64), Vec<usize>)> = None;
        for j in 0..columns {
            if taken >> j & 1 == 1 {
                continue;
            }
            let (rest, tail) = plain(i + 1, rows, columns, cells, counted, taken | 1 << j);
            let cell = cells[i * columns + j];
            let found = (
                cell + rest.0,
                i64::from(counted && cell == SENTINEL) + rest.1,
            );
            if best.as_ref().is_none_or(|(least, _)| found < *least) {
                let mut choice = vec![j];
                choice.extend(tail);
                best = Some((found, choice));
            }
        }
        best.unwrap()
    }

    #[test]
    fn cases_of_the_documents() {
        let s = SENTINEL;
        assert_eq!(least_choice(2, 2, &[1, 2, 1, 9]), [1, 0]);
        assert_eq!(least_choice(2, 2, &[5, 5, 5, 5]), [0, 1]);
        assert_eq!(least_choice(2, 2, &[s - 1, 1, s, s - 1]), [1, 0]);
        assert_eq!(least_choice(0, 3, &[]), [] as [usize; 0]);
        // document 02, F-9
        assert_eq!(least_choice(2, 2, &[1, s - 1, 2, s]), [1, 0]);
        assert_eq!(lowest_choice(2, 2, &[1, s - 1, 2, s]), [0, 1]);
    }

    #[test]
    fn agrees_with_the_definition() {
        let mut seed = 1u64;
        let mut next = move || {
            seed ^= seed << 13;
            seed ^= seed >> 7;
            seed ^= seed << 17;
            seed
        };
        let mut unlike = 0;
        for _ in 0..20_000 {
            let columns = 1 + (next() % 6) as usize;
            let rows = (next() % (columns as u64 + 1)) as usize;
            let top = [1, 2, 3, 10, 1 << 48][(next() % 5) as usize];
            let cells: Vec<i64> = (0..rows * columns)
                .map(|_| match next() % 8 {
                    0..4 => SENTINEL,
                    4..6 => SENTINEL - 1,
                    _ => (next() % (top + 1)) as i64,
                })
                .collect();
            let most = least_choice(rows, columns, &cells);
            let lowest = lowest_choice(rows, columns, &cells);
            assert_eq!(most, plain(0, rows, columns, &cells, true, 0).1);
            assert_eq!(lowest, plain(0, rows, columns, &cells, false, 0).1);
            unlike += u64::from(most != lowest);
        }
        assert!(unlike > 100, "the two rules differ on {unlike} matrices");
    }
}
