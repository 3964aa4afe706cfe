//! One drawing of a sheet and its pass, or of a refused record where it stands.

mod aboard;
mod building;
mod header;
mod heights;
mod held;
mod html;
mod key;
mod landings;
mod legend;
mod matrix;
mod pair;
mod plan;
mod raised;
mod reasons;
mod refused;
mod riders;
mod shaft;
mod svg;
mod ties;
mod title;

use dispatch_bench::{OutsideDomain, Pass, Refusal, SENTINEL, Why};
use sheetgen::{Car, Sheet};

use crate::fields::PHASES;
use crate::names::Names;
use crate::ramps::Ramps;
use crate::source::Source;
use crate::travel;
use building::Building;
pub use html::{html, pair_page};
pub use pair::pair;
pub use raised::raised;
use svg::{Anchor, Svg};

/// What a cost of 1 counts.
const UNIT: u64 = 1_000_000;
const EDGE: f64 = 24.0;
/// The least width of a legend.
const LEGEND: f64 = 780.0;
/// The widest name in a label; under the pointer it is whole.
const NAME: f64 = 110.0;

/// What is drawn with a sheet that the sheet does not say.
#[derive(Default)]
pub struct About<'a> {
    /// The file that it is of.
    pub file: Option<&'a str>,
    /// The rates of a run: with them the seconds of each run to a stop are drawn.
    pub ramps: Option<&'a Ramps>,
    pub names: Names,
    /// Lines without an idle-listed car are drawn as one narrow strip each.
    pub fold: bool,
    /// Cars whose decisions differ from those of a sheet that is drawn beside this one.
    pub marked: Vec<u32>,
    /// Where its bytes come from; a refusal is drawn with the line of its text.
    pub source: Option<&'a Source>,
}

impl About<'_> {
    /// `5`, with its name where it has one: `5 lobby`.
    fn stop(&self, id: u32) -> String {
        named(&id.to_string(), self.names.stops.get(&id), f64::INFINITY)
    }

    /// The same for a label.
    fn stop_label(&self, id: u32) -> String {
        named(&id.to_string(), self.names.stops.get(&id), NAME)
    }

    /// `car 3`, with its name where it has one.
    fn car(&self, id: u32) -> String {
        named(
            &format!("car {id}"),
            self.names.cars.get(&id),
            f64::INFINITY,
        )
    }

    fn car_label(&self, id: u32) -> String {
        named(&format!("car {id}"), self.names.cars.get(&id), NAME)
    }

    /// The file's name above the title, as far as there is room.
    fn name_file(&self, svg: &mut Svg, width: f64) {
        if let Some(file) = self.file {
            let file = svg::cropped("small", file, width);
            svg.text("file", EDGE, 13.0, Anchor::Start, &file);
        }
    }
}

fn named(id: &str, name: Option<&String>, most: f64) -> String {
    match name {
        Some(name) => format!("{id} {}", svg::cropped("name", name, most)),
        None => id.into(),
    }
}

/// A car's phase in words.
fn phase(car: &Car) -> String {
    let name = PHASES.get(usize::from(car.phase));
    name.unwrap_or(&"?").replace('_', " ")
}

/// A sheet and its pass, or where the sheet is refused.
pub fn draw(bytes: &[u8], about: &About) -> String {
    match Chosen::of(bytes) {
        Ok(chosen) => draw_pass(&Sheet::of_accepted(bytes), &chosen, about),
        Err(refusal) => refused::draw(bytes, refusal, about),
    }
}

/// A pass and what it chose.
struct Chosen {
    pass: Pass,
    /// The column of each idle car: the matrix has one choice that the rules allow.
    columns: Vec<u32>,
    /// The stop of each column that is not spare.
    pending: Vec<u32>,
    /// The cells that are held at the ceiling, row by row.
    held: Vec<bool>,
    /// For each idle car whether it is sent by the rule of ties.
    ties: Vec<bool>,
    /// For each idle car and pending stop, row by row, what the cost is made of, or why there is none.
    whys: Vec<Why>,
}

impl Chosen {
    fn of(bytes: &[u8]) -> Result<Self, Refusal> {
        let pass = dispatch_bench::pass(bytes)?;
        let choice = dispatch_bench::choose(pass.cars, pass.columns(), &pass.matrix);
        let pending = dispatch_bench::pending(bytes)?;
        let columns = choice.map_or(Vec::new(), |choice| choice.columns);
        Ok(Self {
            held: held::held(&Sheet::of_accepted(bytes), &pass, &pending),
            ties: ties::ties(&pass, &columns),
            whys: whys(bytes, &pending)?,
            pass,
            columns,
            pending,
        })
    }

    fn is_held(&self, row: usize, column: usize) -> bool {
        let cell = self.held.get(row * self.pass.columns() + column);
        cell.is_some_and(|held| *held)
    }

    /// `None` in a spare column.
    fn why(&self, row: usize, column: usize) -> Option<Why> {
        let is_stop = column < self.pending.len();
        let why = self.whys.get(row * self.pending.len() + column);
        why.filter(|_| is_stop).copied()
    }

    /// The cell of an idle car as a cost: of a held one, that it is more.
    fn cost(&self, row: usize, column: usize) -> Option<String> {
        let cost = cost(cell(&self.pass, row, column)?);
        Some(match self.is_held(row, column) {
            true => format!("> {cost}"),
            false => cost,
        })
    }

    /// Some sent car's cell is held, so that the sum of their cells is less than their cost.
    fn sends_held(&self) -> bool {
        let mut columns = self.columns.iter().enumerate();
        columns.any(|(row, column)| self.is_held(row, *column as usize))
    }

    /// The chosen cell of an idle car, as a cost.
    fn chosen_cost(&self, row: usize) -> Option<String> {
        self.cost(row, *self.columns.get(row)? as usize)
    }

    /// The number of car record `k` among the idle-listed ones, where it is one.
    fn row(&self, sheet: &Sheet, k: usize) -> Option<usize> {
        let idle = sheet.cars[..k].iter().filter(|car| car.idle).count();
        sheet.cars[k].idle.then_some(idle)
    }

    /// The sweep and mode of car record `k` after the pass.
    fn sweep(&self, k: usize) -> &'static str {
        match self.pass.sweeps.get(k).map(|sweep| sweep.code()) {
            None => "",
            Some(0) => "up strict",
            Some(1) => "up lenient",
            Some(2) => "down strict",
            Some(_) => "down lenient",
        }
    }

    /// The seconds of the run of car record `k`, where it is sent and there are rates.
    fn seconds(&self, sheet: &Sheet, about: &About, k: usize) -> Option<String> {
        let row = self.row(sheet, k)?;
        let id = (*self.pass.decisions.get(row)?)?;
        let stop = sheet.stops.iter().find(|stop| stop.id == id.get())?;
        Some(match travel::seconds(&sheet.cars[k], stop, about.ramps?) {
            Ok(seconds) => format!("{} s", svg::short(seconds)),
            Err(_) => format!("refused {}", OutsideDomain::NUMBER),
        })
    }

    /// The chosen cell of an idle car.
    fn cell(&self, row: usize) -> Option<u64> {
        cell(&self.pass, row, *self.columns.get(row)? as usize)
    }

    fn is_tied(&self, row: usize) -> bool {
        self.ties.get(row).is_some_and(|tied| *tied)
    }

    /// Some car is sent to a stop.
    fn is_sent_to(&self, stop: u32) -> bool {
        let mut stops = self.pass.decisions.iter().flatten();
        stops.any(|id| id.get() == stop)
    }

    /// How many cars are sent, and the sum of their cells.
    fn sent(&self) -> (usize, u64) {
        let rows = self.pass.decisions.iter().enumerate();
        let sent = rows.filter(|(_, decision)| decision.is_some());
        let cells = sent.filter_map(|(row, _)| self.cell(row));
        cells.fold((0, 0), |(cars, sum), cell| (cars + 1, sum + cell))
    }
}

/// The library's answer for each idle car and pending stop.
fn whys(bytes: &[u8], pending: &[u32]) -> Result<Vec<Why>, Refusal> {
    let idle = dispatch_bench::cars(bytes).filter(|car| car.idle_listed);
    let pairs = idle.flat_map(|car| pending.iter().map(move |stop| (car.id, *stop)));
    pairs
        .map(|(car, stop)| dispatch_bench::why(bytes, car, stop))
        .collect()
}

fn cell(pass: &Pass, row: usize, column: usize) -> Option<u64> {
    pass.rows().nth(row)?.get(column).copied()
}

fn draw_pass(sheet: &Sheet, chosen: &Chosen, about: &About) -> String {
    let mut svg = Svg::default();
    if !about.marked.is_empty() {
        svg.style(pair::STYLE);
    }
    let building = Building::new(sheet, chosen, about, EDGE);
    let matrix = matrix::Table::new(sheet, chosen, about, EDGE);
    let narrow = matrix.right();
    let width = building.right().max(narrow);
    let top = title::draw(&mut svg, sheet, chosen, about, width - EDGE);
    let below = building.draw(&mut svg, top + 30.0, width);
    svg.view("building", [0.0, 0.0, width + EDGE, below + 10.0]);
    let bottom = matrix.draw(&mut svg, below + 34.0);
    let costs = below + 14.0;
    svg.view("costs", [0.0, costs, narrow + EDGE, bottom + 10.0 - costs]);
    svg.finish(width + EDGE, bottom + EDGE)
}

/// A sum of cells as a cost, with all its digits.
fn exact(cells: u64) -> String {
    let text = format!("{}.{:06}", cells / UNIT, cells % UNIT);
    text.trim_end_matches('0').trim_end_matches('.').into()
}

/// A cell as a cost, rounded.
fn cost(cell: u64) -> String {
    match cell {
        SENTINEL.. => "no rank".into(),
        _ => svg::short(cell as f64 / UNIT as f64),
    }
}

#[cfg(test)]
mod tests {
    use super::*;

    #[test]
    fn costs_keep_their_digits() {
        for (cells, words) in [
            (0, "0"),
            (1, "0.000001"),
            (1_500_000, "1.5"),
            (20_000_000, "20"),
            (32 * (SENTINEL - 1), "9007199254.74096"),
            (SENTINEL - 1, "281474976.710655"),
        ] {
            assert_eq!(exact(cells), words);
        }
    }
}
