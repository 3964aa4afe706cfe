//! Which decisions were made by the rule of ties: another choice has the same total. The library is asked, of the matrix without the chosen cell.

use dispatch_bench::{Pass, SENTINEL, choose};

/// For each idle car whether it is sent by the rule of ties; `columns` are the chosen ones.
pub fn ties(pass: &Pass, columns: &[u32]) -> Vec<bool> {
    let rows = columns.iter().enumerate();
    rows.map(|(row, column)| is_tied(pass, row * pass.columns() + *column as usize))
        .collect()
}

/// A chosen cell with a rank without which the least total is the same. A car that stays idle has no such cell.
fn is_tied(pass: &Pass, cell: usize) -> bool {
    let mut without = pass.matrix.clone();
    match without.get_mut(cell) {
        Some(cell) if *cell < SENTINEL => *cell = SENTINEL,
        _ => return false,
    }
    let other = choose(pass.cars, pass.columns(), &without);
    other.is_some_and(|other| other.total == pass.total)
}
