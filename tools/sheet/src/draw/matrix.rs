//! The cost matrix as a heat map, the chosen cells framed, the cells without a rank marked by their reasons, the held ones by a bar.

use dispatch_bench::{CEILING, Reason, SENTINEL, Why};
use sheetgen::Sheet;
use sheetgen::sheet::SCAN;

use super::legend::Legend;
use super::pair;
use super::reasons::{NoRank, Reasons};
use super::svg::{self, Anchor, Svg, widest};
use super::{About, Chosen, LEGEND, cost, exact};
use crate::why::{brief, in_short};

/// From the least cost to the most, in the order of the costs.
const COLOURS: [&str; 7] = [
    "#fff7ec", "#d9ecd8", "#a8d8d2", "#6fbcd0", "#3f8fc0", "#2c5fa3", "#253677",
];
const NO_RANK: &str = "#e6e6e6";

/// What a cost is, by strategy.
const COSTS: [&str; 3] = [
    "A cost is the car's rank for the stop. ETD's is a weighted sum and has no unit: travel, the delay of riders aboard and doors on the way, less the bonuses for direction and for waits; never below 0.",
    "A cost is the car's rank for the stop. RSR's is a weighted sum and has no unit: travel, the penalty for the wrong direction and the load of a car that is not in phase idle, less the bonuses for a car call and for waits; never below 0.",
    "A cost is the car's rank for the stop. SCAN's is the distance from the car to the stop, as positions count it.",
];
/// SCAN's in edition 2.
const COST_SIDEWAYS: &str = "A cost is the car's rank for the stop. SCAN's is the distance from the car to the stop, the sum of the differences of both coordinates.";
const DIGITS: &str = "Drawn costs are rounded; under the pointer stands the cell.";
const TIES: &str = "Rule of ties: of the choices with the least total one that sends most cars, then the lowest columns: the lowest for the first car, then for the second, and so on.";

/// What is said of a held cell after its cost.
const HELD: &str = ", held at the ceiling";
/// What is said of a decision by the rule of ties.
const TIED: &str = "by the rule of ties: another choice has the same total";
const NO_TIE: &str = "A held cell counts 281474976710655, the ceiling; its cost is larger. Nothing says that costs of held cells are equal: lower the weights to tell them apart.";

/// The most columns and rows with wide and high cells.
const FEW: usize = 16;

/// Where the cells stand, and what their rows and columns are called.
pub struct Table<'a> {
    sheet: &'a Sheet,
    chosen: &'a Chosen,
    reasons: Reasons<'a>,
    shades: Shades,
    left: f64,
    corner: (f64, f64),
    size: (f64, f64),
    pub rows: Vec<String>,
    pub columns: Vec<String>,
    /// For each row whether its decision is marked.
    marked: Vec<bool>,
    /// The same, with whole names.
    whole: (Vec<String>, Vec<String>),
}

impl<'a> Table<'a> {
    pub fn new(sheet: &'a Sheet, chosen: &'a Chosen, about: &About, left: f64) -> Self {
        let idle = || sheet.cars.iter().filter(|car| car.idle);
        let rows: Vec<String> = idle().map(|car| about.car_label(car.id)).collect();
        let columns = column_names(chosen, |stop| about.stop_label(stop));
        let whole = (
            idle().map(|car| about.car(car.id)).collect(),
            column_names(chosen, |stop| about.stop(stop)),
        );
        // The columns' names rise by 55 degrees.
        let header = 28.0 + 0.82 * widest("small", &columns);
        let size = (
            cell_width(chosen),
            if rows.len() > FEW { 12.0 } else { 22.0 },
        );
        Table {
            sheet,
            chosen,
            reasons: Reasons::new(sheet, chosen),
            shades: Shades::new(&chosen.pass.matrix),
            left,
            corner: (left + 16.0 + widest(row_class(&size), &rows), header),
            size,
            rows,
            columns,
            marked: idle().map(|car| about.marked.contains(&car.id)).collect(),
            whole,
        }
    }

    /// The right edge, slanted names and the legend included.
    pub fn right(&self) -> f64 {
        let cells = self.at(0, self.columns.len()).0;
        (cells + 0.57 * widest("small", &self.columns)).max(self.left + LEGEND)
    }

    /// Draws below a height; answers the lower edge.
    pub fn draw(mut self, svg: &mut Svg, top: f64) -> f64 {
        let title = "Costs of idle cars and pending stops";
        svg.text("name", self.left, top, Anchor::Start, title);
        if self.rows.is_empty() {
            let none = "There is no idle car.";
            svg.text("small", self.left, top + 16.0, Anchor::Start, none);
            return top + 24.0;
        }
        self.corner.1 += top;
        self.names(svg);
        for row in 0..self.rows.len() {
            for column in 0..self.columns.len() {
                self.cell(svg, row, column);
            }
        }
        self.frames(svg);
        let bottom = self.at(self.rows.len(), 0).1;
        self.legend(svg, bottom + 20.0)
    }

    fn at(&self, row: usize, column: usize) -> (f64, f64) {
        let (x, y) = self.corner;
        (
            x + self.size.0 * column as f64,
            y + self.size.1 * row as f64,
        )
    }

    /// The stops above the columns and the cars beside the rows.
    fn names(&self, svg: &mut Svg) {
        for (k, name) in self.columns.iter().enumerate() {
            let (x, y) = self.at(0, k);
            svg.slanted("small", x + self.size.0 / 2.0, y - 5.0, name);
        }
        for (row, name) in self.rows.iter().enumerate() {
            let (x, y) = self.at(row, 0);
            let y = y + self.size.1 / 2.0 + 3.5;
            svg.text(row_class(&self.size), x - 6.0, y, Anchor::End, name);
        }
    }

    /// What stands under the pointer at a cell, line by line: with a rank its terms too.
    pub fn details(&self, row: usize, column: usize) -> Vec<String> {
        let Some(value) = super::cell(&self.chosen.pass, row, column) else {
            return Vec::new();
        };
        let name = format!("{}, {}", self.whole.0[row], self.whole.1[column]);
        let said = match self.reasons.of(row, column) {
            Some(reason) => self.said(reason),
            None => {
                let held = if self.chosen.is_held(row, column) {
                    HELD
                } else {
                    ""
                };
                format!("{}{held}", self.cost(row, column))
            }
        };
        let mut lines = vec![format!("{name}: {said} (cell {value})")];
        if let Some(Why::Ranked(terms)) = self.chosen.why(row, column) {
            lines.extend(brief(&terms, svg::short).into_iter().flatten());
        }
        if self.is_chosen(row, column) {
            lines.push(match (self.is_sent(row), self.chosen.is_tied(row)) {
                (false, _) => "chosen, the car stays idle".into(),
                (true, false) => "chosen, the car is sent".into(),
                (true, true) => format!("chosen, the car is sent; {TIED}"),
            });
        }
        lines
    }

    /// A reason in words, with the rank that the limit cut.
    fn said(&self, reason: NoRank) -> String {
        let words = match reason {
            NoRank::Other(reason) => in_short(reason, self.sheet.policy.strategy),
            _ => reason.words(),
        };
        match reason {
            NoRank::Cut(CEILING) => format!("no rank, {words}: {} or more", cost(CEILING)),
            NoRank::Cut(rank) => format!("no rank, {words}: {}", cost(rank)),
            _ => format!("no rank, {words}"),
        }
    }

    fn cost(&self, row: usize, column: usize) -> String {
        self.chosen.cost(row, column).unwrap_or_default()
    }

    /// The cost of a cell with all its digits, or in a word why it has none.
    pub fn exact(&self, row: usize, column: usize) -> String {
        match (
            self.reasons.of(row, column),
            super::cell(&self.chosen.pass, row, column),
        ) {
            (Some(reason), _) => reason.word().into(),
            (None, Some(cell)) if self.chosen.is_held(row, column) => format!("> {}", exact(cell)),
            (None, cell) => cell.map_or(String::new(), exact),
        }
    }

    pub fn has_rank(&self, row: usize, column: usize) -> bool {
        self.reasons.of(row, column).is_none()
    }

    pub fn is_chosen(&self, row: usize, column: usize) -> bool {
        let chosen = self.chosen.columns.get(row);
        chosen.is_some_and(|chosen| *chosen as usize == column)
    }

    pub fn is_sent(&self, row: usize) -> bool {
        let decisions = &self.chosen.pass.decisions;
        decisions.get(row).is_some_and(Option::is_some)
    }

    fn cell(&self, svg: &mut Svg, row: usize, column: usize) {
        let Some(value) = super::cell(&self.chosen.pass, row, column) else {
            return;
        };
        let (at, (w, h)) = (self.at(row, column), self.size);
        let tip = self.details(row, column).join("\n");
        if let Some(reason) = self.reasons.of(row, column) {
            mark(svg, at, self.size, reason, &tip);
            return;
        }
        svg.tile(at, self.size, self.shades.of(value), "cell", &tip);
        if self.chosen.is_held(row, column) {
            bar(svg, at, w);
        }
        let (cost, class) = (self.cost(row, column), number_class(w));
        if svg::width(class, &cost) < w {
            let is_dark = self.shades.shade(value) >= 4;
            let pale = if is_dark { " pale" } else { "" };
            let (x, y) = (at.0 + w / 2.0, at.1 + h / 2.0 + 3.0);
            svg.text(&format!("{class}{pale}"), x, y, Anchor::Middle, &cost);
        }
    }

    /// The chosen cells; broken where the car stays idle, with a sign where the rule of ties decided.
    fn frames(&self, svg: &mut Svg) {
        for (row, column) in self.chosen.columns.iter().enumerate() {
            let (x, y) = self.at(row, *column as usize);
            let class = if self.is_sent(row) {
                "chosen"
            } else {
                "unsent"
            };
            let (w, h) = self.size;
            svg.rect(class, x + 1.0, y + 1.0, w - 2.0, h - 2.0);
            if self.chosen.is_tied(row) {
                tie(svg, (x + w - 1.5, y + 1.5));
            }
            if self.marked.get(row) == Some(&true) {
                pair::mark(svg, (x + 1.0, y + 1.0), (w - 2.0, h - 2.0));
            }
        }
    }

    fn legend(&self, svg: &mut Svg, top: f64) -> f64 {
        let mut legend = Legend::new(svg, self.left, top, self.right() - self.left);
        svg.group("key", |svg| self.entries(svg, &mut legend));
        legend.end()
    }

    fn entries(&self, svg: &mut Svg, legend: &mut Legend) {
        let has_held = self.chosen.pass.held > 0;
        self.shades.legend(svg, legend, has_held);
        self.kinds(svg, legend);
        let words = "chosen, the car is sent";
        legend.entry_of(svg, "\"chosen\"", words, |svg, x, y| {
            svg.rect("chosen", x - 7.0, y - 5.0, 14.0, 10.0);
        });
        let words = "chosen, the car stays idle";
        legend.entry_of(svg, "\"unsent\"", words, |svg, x, y| {
            svg.rect("unsent", x - 7.0, y - 5.0, 14.0, 10.0);
        });
        legend.entry_of(svg, "\"tie\"", TIED, |svg, x, y| tie(svg, (x, y)));
        legend.entry_of(svg, "\"differs\"", pair::DIFFERS, |svg, x, y| {
            pair::mark(svg, (x - 5.5, y - 3.5), (11.0, 7.0));
        });
        let costs = match (self.sheet.policy.strategy, self.sheet.edition) {
            (SCAN, 2) => Some(&COST_SIDEWAYS),
            (strategy, _) => COSTS.get(usize::from(strategy)),
        };
        legend.sentence(svg, &format!("{} {DIGITS}", costs.unwrap_or(&"")));
        if self.chosen.ties.contains(&true) {
            legend.sentence(svg, TIES);
        }
        if has_held {
            legend.sentence(svg, NO_TIE);
        }
    }

    /// The cells without a rank, by their reasons, and the held ones.
    fn kinds(&self, svg: &mut Svg, legend: &mut Legend) {
        let kinds = [
            NoRank::Line,
            NoRank::Barred,
            NoRank::Cut(0),
            NoRank::Other(Reason::NoRank),
            NoRank::Spare,
        ];
        for kind in kinds.into_iter().filter(|kind| self.has(*kind)) {
            legend.entry(svg, kind.words(), |svg, x, y| {
                mark(svg, (x - 8.0, y - 6.0), (16.0, 12.0), kind, "");
            });
        }
        if self.chosen.pass.held > 0 {
            let words = "held at the ceiling, the cost is larger";
            legend.entry(svg, words, |svg, x, y| {
                let (at, size) = ((x - 8.0, y - 6.0), (16.0, 12.0));
                svg.tile(at, size, self.shades.of(CEILING), "cell", "");
                bar(svg, at, size.0);
            });
        }
    }

    /// Some cell has no rank for a reason of this kind.
    fn has(&self, kind: NoRank) -> bool {
        let same = |reason| std::mem::discriminant(&reason) == std::mem::discriminant(&kind);
        let columns = 0..self.columns.len();
        let is_in = |row| {
            let mut reasons = columns.clone().filter_map(|k| self.reasons.of(row, k));
            reasons.any(same)
        };
        (0..self.rows.len()).any(is_in)
    }
}

/// A cell without a rank; each reason has a form of its own, that reads without colours too.
fn mark(svg: &mut Svg, at: (f64, f64), size: (f64, f64), reason: NoRank, tip: &str) {
    let (x, y) = (at.0 + size.0 / 2.0, at.1 + size.1 / 2.0);
    match reason {
        NoRank::Spare => {
            let (at, size) = ((at.0 + 1.0, at.1 + 1.0), (size.0 - 2.0, size.1 - 2.0));
            svg.tile(at, size, "#fff", "spare", tip);
        }
        NoRank::Line => svg.tile(at, size, "url(#hatch)", "cell", tip),
        _ => svg.tile(at, size, NO_RANK, "cell", tip),
    }
    match reason {
        NoRank::Barred => svg.cross("barred", x, y, 3.5),
        NoRank::Cut(_) => svg.line("cut", (x - 5.0, y + 5.0), (x + 5.0, y - 5.0)),
        NoRank::Other(_) => svg.line("dash", (x - 3.5, y), (x + 3.5, y)),
        NoRank::Spare | NoRank::Line => {}
    }
}

/// The ceiling, along the upper edge of a cell.
fn bar(svg: &mut Svg, at: (f64, f64), width: f64) {
    svg.rect("held", at.0 + 0.5, at.1 + 0.5, width - 1.0, 4.0);
}

/// The sign of the rule of ties, around a middle.
fn tie(svg: &mut Svg, (x, y): (f64, f64)) {
    svg.circle("tie", x, y, 3.0);
    for y in [y - 1.0, y + 1.0] {
        svg.line("equal", (x - 1.6, y), (x + 1.6, y));
    }
}

/// What each column stands for.
fn column_names(chosen: &Chosen, stop: impl Fn(u32) -> String) -> Vec<String> {
    let name = |k: usize| match chosen.pending.get(k) {
        Some(id) => format!("stop {}", stop(*id)),
        None => "spare".into(),
    };
    (0..chosen.pass.columns()).map(name).collect()
}

/// Wide cells where there are few columns, else as wide as the widest number, up to a most.
fn cell_width(chosen: &Chosen) -> f64 {
    let (rows, columns) = (chosen.pass.cars, chosen.pass.columns());
    if columns <= FEW {
        return 50.0;
    }
    let cells = (0..rows).flat_map(|row| (0..columns).map(move |column| (row, column)));
    let cell = |row, column| super::cell(&chosen.pass, row, column);
    let ranked = cells.filter(|(r, k)| cell(*r, *k).is_some_and(|cell| cell < SENTINEL));
    let numbers: Vec<String> = ranked.filter_map(|(r, k)| chosen.cost(r, k)).collect();
    (widest("tiny", &numbers) + 2.0).clamp(16.0, 26.0)
}

fn number_class(width: f64) -> &'static str {
    if width < 30.0 { "tiny" } else { "number" }
}

fn row_class((_, height): &(f64, f64)) -> &'static str {
    if *height < 20.0 { "tag" } else { "name" }
}

/// A colour for each cost.
struct Shades {
    /// The distinct ranked cells, rising.
    cells: Vec<u64>,
}

impl Shades {
    fn new(matrix: &[u64]) -> Self {
        let mut cells: Vec<u64> = matrix.iter().copied().filter(|c| *c < SENTINEL).collect();
        cells.sort_unstable();
        cells.dedup();
        Self { cells }
    }

    /// 0 for the least cost, the last colour for the most.
    fn shade(&self, cell: u64) -> usize {
        let place = self.cells.partition_point(|other| *other < cell);
        let last = self.cells.len().saturating_sub(1).max(1);
        (place * (COLOURS.len() - 1) / last).min(COLOURS.len() - 1)
    }

    fn of(&self, cell: u64) -> &'static str {
        COLOURS[self.shade(cell)]
    }

    /// The costs from the least to the most; where cells are held, there are costs above the most.
    fn legend(&self, svg: &mut Svg, legend: &mut Legend, is_held: bool) {
        let more = if is_held { " or more" } else { "" };
        match self.cells.as_slice() {
            [] => legend.sentence(svg, "No cell has a rank."),
            [one] => {
                let words = format!("every cost is {}{more}", cost(*one));
                legend.colours(svg, &COLOURS[..1], &words);
            }
            [least, .., most] => {
                let (least, most) = (cost(*least), cost(*most));
                let words = format!("costs from {least} to {most}{more}, by their order");
                legend.colours(svg, &COLOURS, &words);
            }
        }
        legend.next_row();
    }
}
