use crate::{Decision, Pass, Refusal, Sweep, cars, pass, pending};

/// A pass whose idle cars and columns have the ids of the sheet.
#[derive(Clone, Debug, PartialEq, Eq)]
pub struct PassById {
    /// The ids of the idle cars, in the order of the decisions and rows.
    pub cars: Vec<u32>,
    /// The ids of the pending stops, in the order of the columns. Spare columns have none.
    pub stops: Vec<u32>,
    /// The sweep of each idle car.
    pub sweeps: Vec<Sweep>,
    pub pass: Pass,
}

impl PassById {
    fn row(&self, car: u32) -> Option<usize> {
        self.cars.iter().position(|id| *id == car)
    }

    /// Where the car goes. `None` where the sheet has no idle-listed car with this id.
    pub fn decision(&self, car: u32) -> Option<Decision> {
        self.pass.decisions.get(self.row(car)?).copied()
    }

    /// The cell of a car and a stop. `None` where the car is not idle-listed or the stop not pending.
    pub fn cell(&self, car: u32, stop: u32) -> Option<u64> {
        let column = self.stops.iter().position(|id| *id == stop)?;
        self.pass.rows().nth(self.row(car)?)?.get(column).copied()
    }
}

/// A pass over a sheet, with its cars and columns by id.
///
/// ```
/// # let sheet = include_bytes!(concat!(env!("CARGO_MANIFEST_DIR"), "/../crates/passprint/stdin"));
/// let found = dispatch_bench::pass_by_id(sheet)?;
/// assert_eq!((&found.cars[..], &found.stops[..]), (&[7, 8][..], &[2, 3][..]));
/// assert_eq!(found.cell(7, 3), Some(20_000_000));
/// assert_eq!(found.cell(7, 1), None, "stop 1 is not pending");
/// assert_eq!(found.decision(8).flatten().map(u32::from), Some(3));
/// assert_eq!(format!("{:?}", found.sweeps[1]), "Sweep { direction: Down, mode: Lenient }");
/// # Ok::<(), dispatch_bench::Refusal>(())
/// ```
pub fn pass_by_id(sheet: &[u8]) -> Result<PassById, Refusal> {
    let pass = pass(sheet)?;
    let swept = cars(sheet).zip(&pass.sweeps);
    let (cars, sweeps) = swept
        .filter(|(car, _)| car.idle_listed)
        .map(|(car, sweep)| (car.id, *sweep))
        .unzip();
    Ok(PassById {
        cars,
        stops: pending(sheet)?,
        sweeps,
        pass,
    })
}
