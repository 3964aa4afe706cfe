//! Stops and cars at both coordinates, beside the shafts: position upward, at the heights of the shafts, the second coordinate to the right.

use sheetgen::{Car, Sheet, Stop};

use super::heights::Heights;
use super::svg::{self, Anchor, Svg, short};
use super::{About, Chosen};

const WIDTH: f64 = 260.0;
/// Left of the plan, and beside its frame for what lies at its edges.
const GAP: f64 = 34.0;
const MARGIN: f64 = 26.0;
/// How a decision looks.
const STYLE: &str = ".way{stroke:#0072b2;stroke-width:1.2}.sent{stroke:#d55e00;stroke-width:1.2;stroke-dasharray:4 3}.goal{stroke:#d55e00;stroke-width:1.6;fill:none}";

/// Where the plan stands.
pub struct Plan {
    left: f64,
    across: Heights,
}

impl Plan {
    /// The plan of a sheet whose stops and cars are not all at 0 of the second coordinate, right of what is drawn already.
    pub fn of(sheet: &Sheet, right: f64) -> Option<Self> {
        let stops: Vec<f64> = sheet.stops.iter().map(|s| s.across).collect();
        let cars: Vec<f64> = sheet.cars.iter().map(|c| c.across).collect();
        sheet.runs_sideways().then(|| Self {
            left: right + GAP,
            across: Heights::new(&stops, &cars, WIDTH),
        })
    }

    pub fn right(&self) -> f64 {
        self.left + WIDTH + 2.0 * MARGIN
    }

    pub fn is_to_scale(&self) -> bool {
        self.across.is_to_scale
    }

    /// The larger a second coordinate, the farther to the right.
    fn x(&self, across: f64) -> f64 {
        self.left + MARGIN + WIDTH - self.across.of(across)
    }

    /// Draws stops, cars and decisions between two heights; `y` is that of a position.
    pub fn draw(
        &self,
        svg: &mut Svg,
        (sheet, chosen, about): (&Sheet, &Chosen, &About),
        y: &dyn Fn(f64) -> f64,
        (top, bottom): (f64, f64),
    ) {
        svg.style(STYLE);
        let middle = self.left + MARGIN + WIDTH / 2.0;
        svg.text("name", middle, top - 26.0, Anchor::Middle, "plan");
        let axes = "position upward, across to the right";
        svg.text("small", middle, top - 14.0, Anchor::Middle, axes);
        let frame = Area {
            from: (self.left, top),
            to: (self.right(), bottom),
        };
        svg.rect("shaft", self.left, top, WIDTH + 2.0 * MARGIN, bottom - top);
        self.names(svg, sheet, y, frame);
        for stop in &sheet.stops {
            self.stop(svg, stop, about, y(stop.position));
        }
        self.goings(svg, sheet, y);
        self.decisions(svg, sheet, chosen, y);
        for car in &sheet.cars {
            self.car(svg, car, about, y(car.position));
        }
        self.scale(svg, sheet, bottom + 12.0);
    }

    /// The names of stops and cars that have room beside them, clear of every mark and of each other.
    fn names(&self, svg: &mut Svg, sheet: &Sheet, y: &dyn Fn(f64) -> f64, frame: Area) {
        let stops = sheet.stops.iter();
        let stops = stops.map(|s| (s.id.to_string(), "small", s.across, s.position));
        let cars = sheet.cars.iter();
        let cars = cars.map(|c| (format!("car {}", c.id), "name", c.across, c.position));
        let marked: Vec<_> = stops.chain(cars).collect();
        let mark =
            |at: &(String, &str, f64, f64)| Area::around((self.x(at.2), y(at.3)), (6.0, 5.0));
        let mut taken: Vec<Area> = marked.iter().map(mark).collect();
        for (name, class, across, position) in &marked {
            let (x, y) = (self.x(*across), y(*position));
            let half = svg::width(class, name) / 2.0;
            let beside = 9.0 + half;
            let places = [(0.0, 11.0), (0.0, -11.0), (beside, 0.0), (-beside, 0.0)];
            let area = |by: &(f64, f64)| Area::around((x + by.0, y + by.1), (half, 4.5));
            let has_room = |area: &Area| frame.holds(area) && !taken.iter().any(|t| t.meets(area));
            if let Some(area) = places.iter().map(area).find(has_room) {
                let (x, y) = ((area.from.0 + area.to.0) / 2.0, area.to.1 - 1.0);
                svg.text(class, x, y, Anchor::Middle, name);
                taken.push(area);
            }
        }
    }

    /// The least and the largest second coordinate of a stop, under the plan.
    fn scale(&self, svg: &mut Svg, sheet: &Sheet, y: f64) {
        let across = || sheet.stops.iter().map(|s| s.across);
        let (low, high) = (across().reduce(f64::min), across().reduce(f64::max));
        let (Some(low), Some(high)) = (low, high) else {
            return;
        };
        svg.text("small", self.x(low), y, Anchor::Middle, &short(low));
        if high > low {
            svg.text("small", self.x(high), y, Anchor::Middle, &short(high));
        }
    }

    fn stop(&self, svg: &mut Svg, stop: &Stop, about: &About, y: f64) {
        let x = self.x(stop.across);
        let (id, position, across) = (about.stop(stop.id), stop.position, stop.across);
        let tip = format!("stop {id} at {position}, across {across}");
        svg.tipped(&tip, |svg| mark_stop(svg, x, y));
    }

    fn car(&self, svg: &mut Svg, car: &Car, about: &About, y: f64) {
        let (x, name) = (self.x(car.across), about.car(car.id));
        let tip = format!("{name} at {}, across {}", car.position, car.across);
        mark_car(svg, (x, y), car.idle, &tip);
    }

    /// From each moving car to the stop that it moves to.
    fn goings(&self, svg: &mut Svg, sheet: &Sheet, y: &dyn Fn(f64) -> f64) {
        for car in &sheet.cars {
            let stops = sheet.stops.iter();
            for stop in stops.filter(|stop| car.stop != 0 && stop.id == car.stop) {
                let from = (self.x(car.across), y(car.position));
                svg.line("way", from, (self.x(stop.across), y(stop.position)));
            }
        }
    }

    /// From each sent car to its stop.
    fn decisions(&self, svg: &mut Svg, sheet: &Sheet, chosen: &Chosen, y: &dyn Fn(f64) -> f64) {
        let idle = sheet.cars.iter().filter(|car| car.idle);
        for (car, decision) in idle.zip(&chosen.pass.decisions) {
            let stop = decision.and_then(|id| sheet.stops.iter().find(|s| s.id == id.get()));
            if let Some(stop) = stop {
                let from = (self.x(car.across), y(car.position));
                let to = (self.x(stop.across), y(stop.position));
                svg.line("sent", from, to);
                svg.circle("goal", to.0, to.1, 5.0);
            }
        }
    }
}

/// A stop around a middle.
pub fn mark_stop(svg: &mut Svg, x: f64, y: f64) {
    svg.line("floor", (x - 6.0, y), (x + 6.0, y));
    svg.circle("served", x, y, 2.6);
}

/// A car around a middle, whose frame is thick where it is idle-listed.
pub fn mark_car(svg: &mut Svg, (x, y): (f64, f64), idle: bool, tip: &str) {
    let class = if idle { "car listed" } else { "car" };
    svg.tile((x - 5.0, y - 4.0), (10.0, 8.0), "#fff", class, tip);
}

/// A rectangle, by its upper left and lower right corners.
struct Area {
    from: (f64, f64),
    to: (f64, f64),
}

impl Area {
    fn around((x, y): (f64, f64), (half, high): (f64, f64)) -> Self {
        Self {
            from: (x - half, y - high),
            to: (x + half, y + high),
        }
    }

    fn holds(&self, other: &Self) -> bool {
        self.from.0 <= other.from.0
            && self.from.1 <= other.from.1
            && other.to.0 <= self.to.0
            && other.to.1 <= self.to.1
    }

    fn meets(&self, other: &Self) -> bool {
        self.from.0 < other.to.0
            && other.from.0 < self.to.0
            && self.from.1 < other.to.1
            && other.from.1 < self.to.1
    }
}
