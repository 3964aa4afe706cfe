use std::fmt;

use crate::{Choice, library, rules};

/// The most cars of a matrix for the plain matcher.
pub const PLAIN_CARS: usize = 4;

/// The most columns of a matrix for the plain matcher.
pub const PLAIN_COLUMNS: usize = 5;

/// Why the plain matcher has no choice: more than [`PLAIN_CARS`] cars or [`PLAIN_COLUMNS`] columns, fewer columns than cars, not cars × columns
/// cells, or a cell above [`SENTINEL`](crate::SENTINEL). It is displayed with its number and the rule; [`remedy`](NotSmall::remedy) says what to do.
#[derive(Clone, Copy, Debug, PartialEq, Eq, Hash)]
pub struct NotSmall;

impl NotSmall {
    /// The refusal's number.
    pub const NUMBER: u32 = 22;

    /// The rule that the number stands for.
    pub fn rule(&self) -> &'static str {
        rules::rule(Self::NUMBER).map_or("", |rule| rule.says)
    }

    /// What puts an end to the refusal.
    pub fn remedy(&self) -> &'static str {
        rules::rule(Self::NUMBER).map_or("", |rule| rule.remedy)
    }
}

impl fmt::Display for NotSmall {
    fn fmt(&self, f: &mut fmt::Formatter<'_>) -> fmt::Result {
        write!(f, "refused {}: {}", Self::NUMBER, self.rule())
    }
}

impl std::error::Error for NotSmall {}

/// The choice of a small matrix by the plain matcher, which gives the first car each free column and passes the remaining cars to itself. It
/// chooses as [`choose`](crate::choose) does, and is there to be read. The cells stand row by row.
///
/// ```
/// use dispatch_bench::{NotSmall, choose, choose_plain};
///
/// let choice = choose_plain(2, 3, &[2, 0, 1, 1, 0, 2]).unwrap();
/// assert_eq!((&choice.columns[..], choice.total), (&[1, 0][..], 1));
/// assert_eq!(choose(2, 3, &[2, 0, 1, 1, 0, 2]), Some(choice));
/// assert_eq!(choose_plain(5, 5, &[0; 25]), Err(NotSmall));
/// ```
pub fn choose_plain(cars: usize, columns: usize, cells: &[u64]) -> Result<Choice, NotSmall> {
    let mut chosen = [0; PLAIN_CARS];
    let mut total = 0;
    match library::choose_plain(cars, columns, cells, &mut chosen, &mut total) {
        0 => {
            let columns = chosen.get(..cars).ok_or(NotSmall)?.to_vec();
            Ok(Choice { columns, total })
        }
        _ => Err(NotSmall),
    }
}
