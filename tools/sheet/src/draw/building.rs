//! The shafts by line, with stops, cars, riders and decisions.

use sheetgen::{Car, Line, Sheet};

use super::header::Headers;
use super::heights::Heights;
use super::landings::{self, Columns, Label};
use super::plan::Plan;
use super::shaft::Form;
use super::svg::{self, Anchor, Svg};
use super::{About, Chosen, key};
use crate::show::number_of;

const GAP: f64 = 14.0;
/// The width of a folded line.
const STRIP: f64 = 22.0;

pub struct Building<'a> {
    pub sheet: &'a Sheet,
    pub chosen: &'a Chosen,
    pub about: &'a About<'a>,
    pub form: Form,
    pub headers: Headers,
    pub heights: Heights,
    pub left: f64,
    columns: Columns,
    labels: Vec<Label>,
    /// Where height 0 stands.
    pub top: f64,
    /// Both coordinates, where there is a second one.
    pub plan: Option<Plan>,
    /// Each waiting rider has words beside the mark.
    pub in_words: bool,
}

/// The cars of a line with their places among the car records.
fn cars_of<'a>(sheet: &'a Sheet, line: &Line) -> Vec<(usize, &'a Car)> {
    let cars = sheet.cars.iter().enumerate();
    cars.filter(|(_, car)| car.line == line.id).collect()
}

/// No car of the line may be sent by this pass.
fn can_be_folded(sheet: &Sheet, line: &Line) -> bool {
    !cars_of(sheet, line).iter().any(|(_, car)| car.idle)
}

/// Some line can be folded.
pub fn has_folds(sheet: &Sheet) -> bool {
    sheet.lines.iter().any(|line| can_be_folded(sheet, line))
}

fn axis(sheet: &Sheet) -> &'static str {
    match (sheet.stops.is_empty(), sheet.edition) {
        (true, _) => "no stop",
        (_, 2) => "stop at position, across",
        _ => "stop at position",
    }
}

impl<'a> Building<'a> {
    pub fn new(sheet: &'a Sheet, chosen: &'a Chosen, about: &'a About, left: f64) -> Self {
        let is_folded = |line: &Line| about.fold && can_be_folded(sheet, line);
        let shafts = sheet.lines.iter().filter(|line| !is_folded(line));
        let shafts = shafts.map(|line| cars_of(sheet, line).len().max(1)).sum();
        let form = Form::of(shafts, sheet.stops.len(), about.ramps.is_some());
        let stops: Vec<f64> = sheet.stops.iter().map(|s| s.position).collect();
        let cars: Vec<f64> = sheet.cars.iter().map(|c| c.position).collect();
        let height = match stops.len() {
            0 => 60.0,
            many => (form.stop.0 * many as f64).max(230.0),
        };
        let heights = Heights::new(&stops, &cars, height);
        let labels = landings::labels(sheet, chosen, about, &heights, form.stop.1);
        let in_words = labels.iter().all(|label| label.riders.have_room());
        let folded: Vec<&Line> = sheet.lines.iter().filter(|line| is_folded(line)).collect();
        let is_folded = |id: u32| folded.iter().any(|line| line.id == id);
        let columns = Columns::new(&labels, left, in_words, form.stop_class, axis(sheet));
        let mut building = Self {
            sheet,
            chosen,
            about,
            headers: Headers::new(sheet, chosen, about, &form, is_folded),
            form,
            heights,
            left,
            columns,
            labels,
            top: 0.0,
            plan: None,
            in_words,
        };
        building.plan = Plan::of(sheet, building.shafts_end());
        building
    }

    /// Draws below a height, with a legend up to a right edge; answers the lower edge.
    pub fn draw(mut self, svg: &mut Svg, at: f64, right: f64) -> f64 {
        self.top = at + 20.0 + self.headers.height() + 30.0;
        let (x, y) = (self.columns.names, self.top - 30.0);
        svg.text("small", x, y, Anchor::End, axis(self.sheet));
        for label in &self.labels {
            self.stop(svg, label);
        }
        self.shafts(svg, at);
        if let Some(plan) = &self.plan {
            let y = |position: f64| self.y(position);
            let of = (self.sheet, self.chosen, self.about);
            plan.draw(svg, of, &y, (self.top - 24.0, self.bottom()));
        }
        key::draw(svg, &self, self.bottom() + 26.0, right)
    }

    /// What is said beside the stops.
    pub fn words(&self) -> Vec<&str> {
        self.labels
            .iter()
            .map(|label| label.more.as_str())
            .collect()
    }

    pub fn y(&self, position: f64) -> f64 {
        self.top + self.heights.of(position)
    }

    fn bottom(&self) -> f64 {
        self.top + self.heights.height + 24.0
    }

    pub fn is_folded(&self, line: &Line) -> bool {
        self.about.fold && can_be_folded(self.sheet, line)
    }

    /// How wide a line is: a shaft for each car, or an empty one, or a strip.
    fn width(&self, line: &Line) -> f64 {
        match self.is_folded(line) {
            true => STRIP,
            false => self.form.pitch * cars_of(self.sheet, line).len().max(1) as f64,
        }
    }

    fn shafts_end(&self) -> f64 {
        let lines = self.sheet.lines.iter();
        let widths: f64 = lines.map(|line| self.width(line) + GAP).sum();
        self.columns.end + GAP + widths
    }

    /// The right edge, the plan's where there is one.
    pub fn right(&self) -> f64 {
        self.plan.as_ref().map_or(self.shafts_end(), Plan::right)
    }

    /// A stop's name, who waits there, and its height in the shafts.
    fn stop(&self, svg: &mut Svg, stop: &Label) {
        let (at, label) = (&self.columns, self.top + stop.height);
        let y = self.y(stop.position);
        svg.tipped(&stop.tip, |svg| {
            let class = self.form.stop_class;
            svg.text(class, at.names, label + 3.5, Anchor::End, &stop.name);
        });
        svg.line("guide", (at.call, label), (at.end - 12.0, label));
        svg.line("guide", (at.end - 12.0, label), (at.end, y));
        svg.line("guide", (at.end, y), (self.shafts_end(), y));
        if stop.has_call {
            svg.circle("call", at.call, label, 4.0);
        }
        stop.riders.draw(svg, at.waiting, label, self.in_words);
        if !stop.more.is_empty() {
            let (x, y) = (at.waiting + stop.more_at(self.in_words), label + 3.0);
            let class = format!("{} halo", stop.class());
            svg.text(&class, x, y, Anchor::Start, &stop.more);
        }
    }

    /// All shafts, line by line.
    fn shafts(&self, svg: &mut Svg, y: f64) {
        let mut x = self.columns.end + GAP;
        for line in &self.sheet.lines {
            let end = x + self.width(line);
            let cars = cars_of(self.sheet, line);
            if self.is_folded(line) {
                self.strip(svg, line, &cars, (x + end) / 2.0);
            } else {
                self.line_name(svg, line, (x, end), y);
                let middle = |k: usize| x + self.form.pitch * (k as f64 + 0.5);
                for (k, car) in cars.iter().enumerate() {
                    self.shaft(svg, line, Some(*car), middle(k));
                }
                if cars.is_empty() {
                    self.shaft(svg, line, None, middle(0));
                }
            }
            x = end + GAP;
        }
    }

    /// The line's name over its shafts; its id alone where there is little room.
    fn line_name(&self, svg: &mut Svg, line: &Line, (from, to): (f64, f64), y: f64) {
        let name = format!("line {}", line.id);
        let class = match svg::width("name", &name) > to - from + GAP {
            true => "tiny",
            false => "name",
        };
        svg.text(class, (from + to) / 2.0, y, Anchor::Middle, &name);
        svg.line("floor", (from + 3.0, y + 5.0), (to - 3.0, y + 5.0));
    }

    /// A folded line.
    fn strip(&self, svg: &mut Svg, line: &Line, cars: &[(usize, &Car)], middle: f64) {
        let (top, bottom) = (self.top - 12.0, self.bottom() - 12.0);
        let words = format!(
            "line {}: {}, none idle-listed",
            line.id,
            number_of(cars.len(), "car")
        );
        let names: Vec<String> = cars.iter().map(|(_, car)| self.car_tip(car)).collect();
        let tip = format!("{words}\n{}", names.join("\n"));
        svg.tipped(tip.trim_end(), |svg| {
            svg.rect("folded", middle - STRIP / 2.0, top, STRIP, bottom - top);
            svg.upright(
                "small",
                middle + 3.0,
                (top + bottom) / 2.0,
                Anchor::Middle,
                &words,
            );
        });
    }
}
