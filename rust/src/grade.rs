use crate::pass::CELLS;
use crate::{Refusal, library};

/// The largest price of a car or a column that is taken; as far below zero the least.
pub const MOST_PRICE: i64 = 18_014_398_509_481_984;

/// What a site sends of its choice, for the idle cars in record order and the columns of a pass's matrix.
#[derive(Clone, Copy, Debug, PartialEq, Eq)]
pub struct Sent<'s> {
    /// The column of each idle car, from 0.
    pub columns: &'s [u32],
    /// A price for each idle car.
    pub car_prices: &'s [i64],
    /// A price for each column, the spare ones included.
    pub column_prices: &'s [i64],
}

/// What a site's prices show of its choice.
#[derive(Clone, Copy, Debug, PartialEq, Eq)]
pub enum Grade {
    /// No choice has a smaller total, whoever supplied the prices. Others may have the same one, and that of a pass among them.
    Least,
    /// These prices do not show it. The choice may be least all the same, with other prices.
    NotShown,
}

/// A grade, and the matrix that it is of.
#[derive(Clone, Copy, Debug, PartialEq, Eq)]
pub struct Graded<'b> {
    pub grade: Grade,
    /// The cells, a row for each idle car, as a pass gives them.
    pub matrix: &'b [u64],
}

/// Grades a site's choice, into a matrix that can be lent again; its further cells are kept, and a refusal leaves all of it.
///
/// With fewer than 2,048 cells every sheet is refused by number 1. Then the sheet's own refusals come, then 19 for the columns, then 20 for
/// the prices, both at offset 0.
pub fn grade_into<'b>(
    sheet: &[u8],
    sent: &Sent,
    matrix: &'b mut [u64],
) -> Result<Graded<'b>, Refusal> {
    let (mut least, mut offset) = (0, 0);
    match library::grade(sheet, sent, matrix, &mut least, &mut offset) {
        0 => {
            let grade = match least {
                1 => Grade::Least,
                _ => Grade::NotShown,
            };
            // What was sent has a column for each car and a price for each column, else it were refused.
            let cells = sent.columns.len() * sent.column_prices.len();
            let matrix = &matrix[..matrix.len().min(cells)];
            Ok(Graded { grade, matrix })
        }
        number => Err(Refusal { number, offset }),
    }
}

/// Grades a site's choice: it is least where the price of a car plus the price of a column never exceeds their cell and equals it where
/// chosen, and column prices are zero or less, and zero on columns nobody took.
///
/// ```
/// # let sheet = include_bytes!(concat!(env!("CARGO_MANIFEST_DIR"), "/../crates/passprint/stdin"));
/// use dispatch_bench::{Grade, Sent, grade};
///
/// let pass = dispatch_bench::pass(sheet)?;
/// assert_eq!(pass.matrix, [10_000_000, 20_000_000, 10_000_000, 0]);
/// let sent = Sent {
///     columns: &[0, 1],
///     car_prices: &[10_000_000, 5_000_000],
///     column_prices: &[0, -5_000_000],
/// };
/// assert_eq!(grade(sheet, &sent)?, Grade::Least);
/// let other = Sent { columns: &[1, 0], ..sent };
/// assert_eq!(grade(sheet, &other)?, Grade::NotShown);
/// let twice = Sent { columns: &[1, 1], ..sent };
/// assert_eq!(grade(sheet, &twice).unwrap_err().number, 19);
/// # Ok::<(), dispatch_bench::Refusal>(())
/// ```
pub fn grade(sheet: &[u8], sent: &Sent) -> Result<Grade, Refusal> {
    let mut matrix = [0; CELLS];
    grade_into(sheet, sent, &mut matrix).map(|graded| graded.grade)
}
