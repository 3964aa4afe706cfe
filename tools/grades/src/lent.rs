//! A call of the grader: what it is lent, what it answers and what it leaves.

// For the library that it links.
use dispatch_bench as _;
use sheetgen::Refusal;
use sheetgen::grade::{Answer, Grader, Matrix, Sent};

unsafe extern "C" {
    fn dispatch_bench_grade(
        sheet: *const u8,
        length: usize,
        columns: *const u32,
        column_count: usize,
        car_prices: *const i64,
        car_price_count: usize,
        column_prices: *const i64,
        column_price_count: usize,
        matrix: *mut u64,
        cell_count: usize,
        least: *mut u32,
        offset: *mut u64,
    ) -> u32;
}

/// What stands in a cell, in `least` and in the offset before the call.
const KEPT_CELL: u64 = 0xdead_beef_dead_beef;
const KEPT_LEAST: u32 = 0xa5a5_a5a5;
const KEPT_OFFSET: u64 = 0xa5a5_a5a5_a5a5;
/// Cells that stand behind those that are lent.
const BEHIND: usize = 4;

/// A sheet with what was sent.
#[derive(Clone, Debug)]
pub struct Call {
    pub sheet: Vec<u8>,
    pub sent: Sent,
}

/// The number, and what stands in every place after the call.
#[derive(Clone, Debug, PartialEq, Eq)]
pub struct Left {
    pub number: u32,
    pub offset: u64,
    pub least: u32,
    pub matrix: Vec<u64>,
}

impl Left {
    fn untouched(call: &Call) -> Self {
        Self {
            number: 0,
            offset: KEPT_OFFSET,
            least: KEPT_LEAST,
            matrix: vec![KEPT_CELL; call.sent.lent + BEHIND],
        }
    }
}

/// The library's answer. What was sent is only read.
pub fn library(call: &Call) -> Left {
    let mut left = Left::untouched(call);
    let Call { sheet, sent } = call.clone();
    // SAFETY: every slice is lent as its address and its length, and the matrix has as many cells and more; the others are fields of their own.
    left.number = unsafe {
        dispatch_bench_grade(
            sheet.as_ptr(),
            sheet.len(),
            sent.columns.as_ptr(),
            sent.columns.len(),
            sent.car_prices.as_ptr(),
            sent.car_prices.len(),
            sent.column_prices.as_ptr(),
            sent.column_prices.len(),
            left.matrix.as_mut_ptr(),
            sent.lent,
            &mut left.least,
            &mut left.offset,
        )
    };
    assert_eq!(
        (sheet, sent),
        (call.sheet.clone(), call.sent.clone()),
        "what was sent is written"
    );
    left
}

/// A way of leaving the lent places wrongly, for a comparison that must find it out.
#[derive(Clone, Copy, Debug, PartialEq, Eq)]
pub enum Writing {
    MatrixBefore19,
    MatrixBefore20,
    OneCellMore,
    NoMatrixUnshown,
    LeastOnRefusal,
    OffsetCleared,
}

pub const WRITINGS: [(&str, Writing); 6] = [
    ("matrix_before_19", Writing::MatrixBefore19),
    ("matrix_before_20", Writing::MatrixBefore20),
    ("one_cell_more", Writing::OneCellMore),
    ("no_matrix_unshown", Writing::NoMatrixUnshown),
    ("least_on_refusal", Writing::LeastOnRefusal),
    ("offset_cleared", Writing::OffsetCleared),
];

/// The second grader, with at most one fault.
pub struct Second {
    pub grader: Grader,
    pub writing: Option<Writing>,
}

impl Second {
    fn has(&self, writing: Writing) -> bool {
        self.writing == Some(writing)
    }

    /// Its answer, where a sheet's refusal or its cells are known.
    pub fn left(&self, call: &Call, sheet: Result<&Matrix, Refusal>) -> Left {
        let mut left = Left::untouched(call);
        let answer = self.grader.answer(sheet, &call.sent);
        let mut is_filled = true;
        match answer {
            Answer::Refused(refusal) => {
                (left.number, left.offset) = (refusal.number, refusal.offset);
                is_filled = refusal.number == 19 && self.has(Writing::MatrixBefore19)
                    || refusal.number == 20 && self.has(Writing::MatrixBefore20);
                if self.has(Writing::LeastOnRefusal) {
                    left.least = 0;
                }
            }
            Answer::Least => left.least = 1,
            Answer::NotShown => {
                left.least = 0;
                is_filled = !self.has(Writing::NoMatrixUnshown);
            }
        }
        if let (Ok(matrix), true) = (sheet, is_filled) {
            left.matrix[..matrix.cells.len()].copy_from_slice(&matrix.cells);
            if self.has(Writing::OneCellMore) {
                left.matrix[matrix.cells.len()] = 0;
            }
        }
        if self.has(Writing::OffsetCleared) && left.number == 0 {
            left.offset = 0;
        }
        left
    }
}
