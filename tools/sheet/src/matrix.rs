//! The matrix of a pass as a table: a row for each idle car, a column for each pending stop and each spare one.

use dispatch_bench::{Pass, Refusal, SENTINEL};

use crate::csv;
use crate::json::{Json, big};
use crate::report::Form;
use crate::source::Source;

/// A pass with the ids of its rows and columns.
pub struct Matrix {
    pub pass: Pass,
    /// The idle cars.
    pub cars: Vec<u32>,
    /// The pending stops, which are the first columns.
    pub stops: Vec<u32>,
}

impl Matrix {
    pub fn new(bytes: &[u8]) -> Result<Self, Refusal> {
        let idle = dispatch_bench::cars(bytes).filter(|car| car.idle_listed);
        Ok(Self {
            pass: dispatch_bench::pass(bytes)?,
            cars: idle.map(|car| car.id).collect(),
            stops: dispatch_bench::pending(bytes)?,
        })
    }

    /// Where an idle car is sent.
    pub fn sent(&self, row: usize) -> Option<u32> {
        Some((*self.pass.decisions.get(row)?)?.get())
    }

    /// The cell of a car and a stop, where the car is idle and the stop pending.
    pub fn cell(&self, car: u32, stop: u32) -> Option<u64> {
        let row = self.cars.iter().position(|id| *id == car)?;
        let column = self.stops.iter().position(|id| *id == stop)?;
        self.pass.rows().nth(row)?.get(column).copied()
    }

    /// `stop 5` or `spare`.
    fn column(&self, k: usize) -> String {
        match self.stops.get(k) {
            Some(id) => format!("stop {id}"),
            None => "spare".into(),
        }
    }

    fn columns(&self) -> Vec<String> {
        (0..self.pass.columns()).map(|k| self.column(k)).collect()
    }
}

/// What `sheet matrix` prints.
pub fn of(source: &Source, form: Form) -> String {
    let matrix = Matrix::new(&source.bytes);
    match (form, matrix) {
        (Form::Json, matrix) => format!("{}\n", json(&source.file, matrix)),
        (_, Err(Refusal { number, offset })) => format!("refused {number} at {offset}\n"),
        (Form::Words, Ok(matrix)) => words(&matrix),
        (Form::Csv, Ok(matrix)) => rows(&matrix),
    }
}

fn json(file: &str, matrix: Result<Matrix, Refusal>) -> Json {
    let refusal = matrix.as_ref().err().copied();
    let matrix = matrix.ok();
    let row = |m: &Matrix, k: usize, cells: &[u64]| {
        Json::object([
            ("car", m.cars.get(k).copied().into()),
            ("stop", m.sent(k).into()),
            ("cells", Json::array(cells.iter().map(|cell| big(*cell)))),
        ])
    };
    let rows = matrix.as_ref().map(|m| {
        let rows = m.pass.rows().enumerate();
        Json::array(rows.map(|(k, cells)| row(m, k, cells)))
    });
    let status = if refusal.is_some() {
        "refused"
    } else {
        "accepted"
    };
    Json::object([
        ("file", file.into()),
        ("status", status.into()),
        ("refusal", refusal.map(|r| r.number).into()),
        ("offset", refusal.map(|r| r.offset as usize).into()),
        (
            "pending",
            matrix.as_ref().map(|m| Json::array(m.stops.clone())).into(),
        ),
        ("columns", matrix.as_ref().map(|m| m.pass.columns()).into()),
        ("sentinel", big(SENTINEL)),
        ("rows", rows.into()),
    ])
}

/// A row for each idle car; `sent` is the stop that it is sent to.
fn rows(matrix: &Matrix) -> String {
    let heading = ["car".to_string(), "sent".into()]
        .into_iter()
        .chain(matrix.columns());
    let mut lines = csv::row(&heading.collect::<Vec<_>>());
    for (k, cells) in matrix.pass.rows().enumerate() {
        let sent = matrix.sent(k).map_or(String::new(), |id| id.to_string());
        let front = [matrix.cars[k].to_string(), sent];
        let cells = cells.iter().map(u64::to_string);
        lines += &csv::row(&front.into_iter().chain(cells).collect::<Vec<_>>());
    }
    lines
}

/// The cells under the stops; `*` at the one where a car is sent, `-` where there is no rank.
fn words(matrix: &Matrix) -> String {
    if matrix.cars.is_empty() {
        return "There is no idle car.\n".into();
    }
    let cell = |k: usize, j: usize, cell: u64| match cell {
        SENTINEL.. => "- ".into(),
        _ if matrix.sent(k).is_some() && matrix.sent(k) == matrix.stops.get(j).copied() => {
            format!("{cell}*")
        }
        _ => format!("{cell} "),
    };
    let heading = matrix.columns().into_iter().map(|name| format!("{name} "));
    let mut table = vec![
        [String::new()]
            .into_iter()
            .chain(heading)
            .collect::<Vec<_>>(),
    ];
    for (k, cells) in matrix.pass.rows().enumerate() {
        let cells = cells.iter().enumerate().map(|(j, c)| cell(k, j, *c));
        let name = format!("car {}", matrix.cars[k]);
        table.push([name].into_iter().chain(cells).collect());
    }
    aligned(&table) + "*: the car is sent there. -: no rank. A cost of 1 is 1,000,000.\n"
}

/// The first column to the left, the others to the right.
pub fn aligned(table: &[Vec<String>]) -> String {
    let columns = table.iter().map(Vec::len).max().unwrap_or(0);
    let length = |row: &Vec<String>, k: usize| row.get(k).map_or(0, |word| word.chars().count());
    let widths: Vec<usize> = (0..columns)
        .map(|k| table.iter().map(|row| length(row, k)).max().unwrap_or(0))
        .collect();
    let line = |row: &Vec<String>| {
        let mut line = String::new();
        for (k, word) in row.iter().enumerate() {
            line += &match k {
                0 => format!("{word:<width$}", width = widths[0]),
                _ => format!("  {word:>width$}", width = widths[k]),
            };
        }
        line.trim_end().to_string() + "\n"
    };
    table.iter().map(line).collect()
}
