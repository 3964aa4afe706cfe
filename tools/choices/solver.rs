// The choice by a solver of another kind than the matchers', least-cost flow by the Bellman-Ford method over pairs of a cell and whether it is the
// sentinel, and for the lowest columns the whole problem solved again with one car more held to a column; and a search of every choice.

pub const SENTINEL: u64 = 1 << 48;

// A total and how many cars are left standing with it, at the sentinel: the total decides, and among equals the number.
type Cost = (i128, i128);

fn cost(x: u64) -> Cost {
    (x as i128, (x == SENTINEL) as i128)
}

fn add(a: Cost, b: Cost) -> Cost {
    (a.0 + b.0, a.1 + b.1)
}

fn less(a: Cost, b: Cost) -> Cost {
    (a.0 - b.0, a.1 - b.1)
}

// The least cost of the rows from `first` on over the columns that are not taken, by augmenting along shortest paths, one row after the other.
fn least(n: usize, m: usize, cells: &[u64], first: usize, taken: &[bool]) -> Cost {
    let mut row_of: Vec<Option<usize>> = vec![None; m];
    let mut col_of: Vec<Option<usize>> = vec![None; n];
    for start in first..n {
        // distances to rows and columns from the new row, over cells forth and matched cells back
        let mut to_row: Vec<Option<Cost>> = vec![None; n];
        let mut to_col: Vec<Option<Cost>> = vec![None; m];
        let mut from: Vec<usize> = vec![0; m];
        to_row[start] = Some((0, 0));
        loop {
            let mut changed = false;
            for i in first..n {
                let Some(d) = to_row[i] else { continue };
                for j in 0..m {
                    if taken[j] || col_of[i] == Some(j) {
                        continue;
                    }
                    let e = add(d, cost(cells[i * m + j]));
                    if to_col[j].map_or(true, |old| e < old) {
                        to_col[j] = Some(e);
                        from[j] = i;
                        changed = true;
                    }
                }
            }
            for j in 0..m {
                if let (Some(d), Some(i)) = (to_col[j], row_of[j]) {
                    let e = less(d, cost(cells[i * m + j]));
                    if to_row[i].map_or(true, |old| e < old) {
                        to_row[i] = Some(e);
                        changed = true;
                    }
                }
            }
            if !changed {
                break;
            }
        }
        let mut j = (0..m).filter(|&j| row_of[j].is_none() && to_col[j].is_some()).min_by_key(|&j| to_col[j].unwrap()).expect("a free column");
        loop {
            let i = from[j];
            let before = col_of[i];
            row_of[j] = Some(i);
            col_of[i] = Some(j);
            match before {
                Some(b) => j = b,
                None => break,
            }
        }
    }
    (first..n).map(|i| cost(cells[i * m + col_of[i].unwrap()])).fold((0, 0), add)
}

// The choice: its total and columns; none where the matcher must refuse.
pub fn choice(n: usize, m: usize, cells: &[u64], places: usize) -> Option<(u64, Vec<usize>)> {
    if n > 32 || m > 64 || m < n || cells.len() != n * m || places < n || cells.iter().any(|&x| x > SENTINEL) {
        return None;
    }
    let mut taken = vec![false; m];
    let total = least(n, m, cells, 0, &taken).0 as u64;
    let mut rest = least(n, m, cells, 0, &taken);
    let mut columns = Vec::new();
    for i in 0..n {
        for j in 0..m {
            let x = cost(cells[i * m + j]);
            if taken[j] || x.0 > rest.0 {
                continue;
            }
            taken[j] = true;
            if add(x, least(n, m, cells, i + 1, &taken)) == rest {
                rest = less(rest, x);
                columns.push(j);
                break;
            }
            taken[j] = false;
        }
    }
    Some((total, columns))
}

// The first of every choice, in the order of its columns, that has the least total and leaves fewest cars standing with it.
pub fn every_choice(n: usize, m: usize, cells: &[u64]) -> (u64, Vec<usize>) {
    fn go(n: usize, m: usize, cells: &[u64], columns: &mut Vec<usize>, best: &mut Option<((u64, usize), Vec<usize>)>) {
        if columns.len() == n {
            let chosen: Vec<u64> = (0..n).map(|i| cells[i * m + columns[i]]).collect();
            let found = (chosen.iter().sum(), chosen.iter().filter(|&&x| x == SENTINEL).count());
            if best.as_ref().map_or(true, |b| found < b.0) {
                *best = Some((found, columns.clone()));
            }
            return;
        }
        for j in 0..m {
            if !columns.contains(&j) {
                columns.push(j);
                go(n, m, cells, columns, best);
                columns.pop();
            }
        }
    }
    let mut best = None;
    go(n, m, cells, &mut Vec::new(), &mut best);
    let (found, columns) = best.expect("a choice");
    (found.0, columns)
}
