use std::fmt;

use crate::rules;

/// Why there is no pass, or no grade: the number of a rule, and the bit offset where the refused record starts. It is displayed with both and the rule;
/// [`remedy`](Refusal::remedy) says what to do.
///
/// ```
/// let refusal = dispatch_bench::read(&[3, 0, 0]).unwrap_err();
/// assert_eq!((refusal.number, refusal.offset), (3, 0));
/// assert_eq!(
///     refusal.to_string(),
///     "refused 3 at 0: The edition in the first 8 bits is not 1 or 2."
/// );
/// ```
#[derive(Clone, Copy, Debug, PartialEq, Eq, Hash)]
pub struct Refusal {
    /// 1 to 16, and of a grade 19 and 20; 1 is given for short buffers alone, and 15 not any more.
    pub number: u32,
    /// In bits from the sheet's start; 0 for 1, 19 and 20, for 3, and for a sheet that ends within its head.
    pub offset: u64,
}

impl Refusal {
    /// The rule that the number stands for. Empty for a number that is none.
    pub fn rule(&self) -> &'static str {
        rules::rule(self.number).map_or("", |rule| rule.says)
    }

    /// What puts an end to the refusal. Empty for a number that is none.
    pub fn remedy(&self) -> &'static str {
        rules::rule(self.number).map_or("", |rule| rule.remedy)
    }
}

impl fmt::Display for Refusal {
    fn fmt(&self, f: &mut fmt::Formatter<'_>) -> fmt::Result {
        write!(f, "refused {} at {}", self.number, self.offset)?;
        match rules::rule(self.number) {
            Some(rule) => write!(f, ": {}", rule.says),
            None => Ok(()),
        }
    }
}

impl std::error::Error for Refusal {}
