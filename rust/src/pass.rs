use std::fmt;
use std::num::NonZeroU32;
use std::slice::ChunksExact;

use crate::library::{self, Numbers};
use crate::{Refusal, cars};

/// The least cells of a matrix that is lent.
pub(crate) const CELLS: usize = 2_048;

/// Where an idle car goes: the id of a stop, or `None` for a car that stays idle.
pub type Decision = Option<NonZeroU32>;

#[derive(Clone, Copy, Debug, PartialEq, Eq)]
pub enum SweepDirection {
    Up,
    Down,
}

#[derive(Clone, Copy, Debug, PartialEq, Eq)]
pub enum SweepMode {
    Strict,
    Lenient,
}

/// A car's sweep after the pass.
#[derive(Clone, Copy, Default, PartialEq, Eq)]
#[repr(transparent)]
pub struct Sweep(u8);

impl fmt::Debug for Sweep {
    fn fmt(&self, f: &mut fmt::Formatter<'_>) -> fmt::Result {
        f.debug_struct("Sweep")
            .field("direction", &self.direction())
            .field("mode", &self.mode())
            .finish()
    }
}

impl Sweep {
    pub fn direction(self) -> SweepDirection {
        match self.0 & 2 {
            0 => SweepDirection::Up,
            _ => SweepDirection::Down,
        }
    }

    pub fn mode(self) -> SweepMode {
        match self.0 & 1 {
            0 => SweepMode::Strict,
            _ => SweepMode::Lenient,
        }
    }

    /// 2 × sweep + mode, as the library writes it.
    pub fn code(self) -> u8 {
        self.0
    }
}

/// What a pass writes to. Longer vectors are taken too; their further entries are kept. With a shorter one the pass is refused by number 1.
#[derive(Clone, Debug, PartialEq, Eq)]
pub struct Buffers {
    /// At least 32.
    pub decisions: Vec<Decision>,
    /// At least 2,048.
    pub matrix: Vec<u64>,
    /// At least 32.
    pub sweeps: Vec<Sweep>,
}

impl Buffers {
    /// The least buffers, which are long enough for every sheet.
    pub fn new() -> Self {
        Self {
            decisions: vec![None; 32],
            matrix: vec![0; CELLS],
            sweeps: vec![Sweep::default(); 32],
        }
    }
}

impl Default for Buffers {
    fn default() -> Self {
        Self::new()
    }
}

/// A pass whose lists stand in the buffers that were lent.
#[derive(Clone, Copy, Debug, PartialEq, Eq)]
pub struct Summary<'b> {
    /// The idle cars.
    pub cars: usize,
    /// The pending stops.
    pub stops: usize,
    /// The sum of the chosen cells: 1,000,000 for a cost of 1, and [`SENTINEL`](crate::SENTINEL) for each car that stays idle.
    pub total: u64,
    /// How many pairs of a car and a stop were ranked: for each idle car the smaller of the limit and its viable stops, summed.
    pub ranked: u64,
    /// How many cells were held down to [`CEILING`](crate::CEILING): these alone are less than the cost. One that rounds to the ceiling is not held.
    pub held: u64,
    /// One for each idle car, in record order.
    pub decisions: &'b [Decision],
    /// The cells, a row for each idle car; the columns are the pending stops by rising id, then spare ones.
    pub matrix: &'b [u64],
    /// One for each car record.
    pub sweeps: &'b [Sweep],
}

impl<'b> Summary<'b> {
    /// The length of a row: the larger of the idle cars and the pending stops.
    pub fn columns(&self) -> usize {
        self.cars.max(self.stops)
    }

    /// The matrix, row by row.
    pub fn rows(&self) -> ChunksExact<'b, u64> {
        self.matrix.chunks_exact(self.columns().max(1))
    }
}

/// A pass, with lists of its own.
#[derive(Clone, Debug, PartialEq, Eq)]
pub struct Pass {
    /// The idle cars.
    pub cars: usize,
    /// The pending stops.
    pub stops: usize,
    /// The sum of the chosen cells: 1,000,000 for a cost of 1, and [`SENTINEL`](crate::SENTINEL) for each car that stays idle.
    pub total: u64,
    /// How many pairs of a car and a stop were ranked: for each idle car the smaller of the limit and its viable stops, summed.
    pub ranked: u64,
    /// How many cells were held down to [`CEILING`](crate::CEILING): these alone are less than the cost. One that rounds to the ceiling is not held.
    pub held: u64,
    /// One for each idle car, in record order.
    pub decisions: Vec<Decision>,
    /// The cells, a row for each idle car; the columns are the pending stops by rising id, then spare ones.
    pub matrix: Vec<u64>,
    /// One for each car record.
    pub sweeps: Vec<Sweep>,
}

impl Pass {
    /// The length of a row: the larger of the idle cars and the pending stops.
    pub fn columns(&self) -> usize {
        self.cars.max(self.stops)
    }

    /// The matrix, row by row.
    pub fn rows(&self) -> ChunksExact<'_, u64> {
        self.matrix.chunks_exact(self.columns().max(1))
    }
}

/// A pass over a sheet, into buffers that can be lent again. Nothing is allocated, and nothing of an earlier pass counts.
///
/// A refusal leaves the buffers as they are.
///
/// ```
/// # let sheet = include_bytes!(concat!(env!("CARGO_MANIFEST_DIR"), "/../crates/passprint/stdin"));
/// # let another_sheet = sheet;
/// use dispatch_bench::{Buffers, pass_into};
///
/// let mut buffers = Buffers::new();
/// let total = pass_into(sheet, &mut buffers)?.total;
/// let next = pass_into(another_sheet, &mut buffers)?;
/// assert_eq!(next.rows().count(), next.cars);
/// # assert_eq!(total, 10_000_000);
/// # Ok::<(), dispatch_bench::Refusal>(())
/// ```
pub fn pass_into<'b>(sheet: &[u8], buffers: &'b mut Buffers) -> Result<Summary<'b>, Refusal> {
    let Buffers {
        decisions,
        matrix,
        sweeps,
    } = buffers;
    let mut numbers = Numbers::default();
    let number = library::pass(sheet, decisions, matrix, sweeps, &mut numbers);
    if number != 0 {
        let offset = numbers.offset;
        return Err(Refusal { number, offset });
    }
    let (cars, stops) = (numbers.cars as usize, numbers.stops as usize);
    Ok(Summary {
        cars,
        stops,
        total: numbers.total,
        ranked: numbers.ranked,
        held: numbers.held,
        decisions: first(decisions, cars),
        matrix: first(matrix, cars * cars.max(stops)),
        sweeps: first(sweeps, self::cars(sheet).count()),
    })
}

/// The first entries of a buffer, or all where it holds fewer.
fn first<T>(buffer: &[T], count: usize) -> &[T] {
    &buffer[..count.min(buffer.len())]
}

/// A pass over a sheet.
///
/// ```
/// # let sheet = include_bytes!(concat!(env!("CARGO_MANIFEST_DIR"), "/../crates/passprint/stdin"));
/// let pass = dispatch_bench::pass(sheet)?;
/// assert_eq!((pass.cars, pass.stops, pass.total, pass.held), (2, 2, 10_000_000, 0));
/// let stops: Vec<u32> = pass.decisions.iter().flatten().map(|id| id.get()).collect();
/// assert_eq!(stops, [2, 3]);
/// # Ok::<(), dispatch_bench::Refusal>(())
/// ```
pub fn pass(sheet: &[u8]) -> Result<Pass, Refusal> {
    let mut buffers = Buffers::new();
    let summary = pass_into(sheet, &mut buffers)?;
    Ok(Pass {
        cars: summary.cars,
        stops: summary.stops,
        total: summary.total,
        ranked: summary.ranked,
        held: summary.held,
        decisions: summary.decisions.to_vec(),
        matrix: summary.matrix.to_vec(),
        sweeps: summary.sweeps.to_vec(),
    })
}
