//! One shaft: as far as its line serves, with the car, who is aboard, where it is going, its target and its decision.

use sheetgen::sheet::mask_bit;
use sheetgen::{Car, Line, Stop};

use super::aboard::Aboard;
use super::building::Building;
use super::pair;
use super::phase;
use super::svg::{Anchor, Svg};

/// The sizes of shafts and of what stands in them.
pub struct Form {
    /// Words stand upright, numbers in them and not at the arrows.
    pub dense: bool,
    /// From one shaft to the next.
    pub pitch: f64,
    pub shaft: f64,
    car: (f64, f64),
    /// From the middle of a shaft: a car call and a barred stop to the left, riders aboard farther, the arrow to the right.
    call: f64,
    barred: f64,
    pub bound: f64,
    arrow: f64,
    /// Half the width of an arrow's head.
    head: f64,
    /// The most riders for a stop that have a mark each.
    pub marks: usize,
    /// From one stop to the next, and of their names.
    pub stop: (f64, f64),
    pub stop_class: &'static str,
}

/// Few cars; few stops.
const ROOMY: Form = Form {
    dense: false,
    pitch: 122.0,
    shaft: 38.0,
    car: (30.0, 18.0),
    call: 25.0,
    barred: 33.0,
    bound: 42.0,
    arrow: 29.0,
    head: 7.0,
    marks: 3,
    stop: (17.0, 14.0),
    stop_class: "name",
};
const DENSE: Form = Form {
    dense: true,
    pitch: 42.0,
    shaft: 20.0,
    car: (22.0, 11.0),
    call: 13.0,
    barred: 10.0,
    bound: 18.5,
    arrow: 16.5,
    head: 4.0,
    marks: 1,
    ..ROOMY
};
/// How far a shaft goes past its last stop, at the most.
const EDGE: f64 = 12.0;
/// The most cars and stops that are drawn roomy.
const FEW_CARS: usize = 12;
const FEW_STOPS: usize = 36;

impl Form {
    pub fn of(cars: usize, stops: usize, with_seconds: bool) -> Self {
        let mut form = if cars > FEW_CARS { DENSE } else { ROOMY };
        if form.dense && with_seconds {
            form.pitch = 52.0;
        }
        if stops > FEW_STOPS {
            (form.stop, form.stop_class) = ((10.5, 10.0), "tag");
        }
        form
    }
}

/// A car's fill by phase; every drawn car also has its phase in words.
pub const COLOURS: [&str; 7] = [
    "#ffffff", "#9ad0f5", "#cfe8fb", "#fbe7a1", "#f6cf57", "#fbe7a1", "#d9d9d9",
];

impl Building<'_> {
    /// Where the stops of a mask stand.
    fn heights_in(&self, mask: u64) -> impl Iterator<Item = f64> {
        let stops = self.sheet.stops.iter().enumerate();
        let inside = stops.filter(move |(k, _)| mask & mask_bit(*k) != 0);
        inside.map(|(_, stop)| self.y(stop.position))
    }

    /// The mask of the closed landings.
    fn closed(&self) -> u64 {
        let stops = self.sheet.stops.iter().enumerate();
        let closed = stops.filter(|(_, stop)| self.sheet.closed.contains(&stop.id));
        closed.fold(0, |mask, (k, _)| mask | mask_bit(k))
    }

    /// The stretches of a line from stop to stop without a skipped one between, from the highest down: where each begins and ends.
    fn stretches(&self, line: &Line) -> Vec<(f64, f64)> {
        let mut stops: Vec<(f64, bool)> = Vec::new();
        for (k, stop) in self.sheet.stops.iter().enumerate() {
            stops.push((self.y(stop.position), line.mask & mask_bit(k) != 0));
        }
        // Of stops at one height a served one comes first.
        stops.sort_by(|a, b| a.0.total_cmp(&b.0).then(b.1.cmp(&a.1)));
        stops.dedup_by(|next, kept| next.0 == kept.0);
        let edge = |from: f64, to: Option<&(f64, bool)>| match to {
            Some((to, _)) => ((to - from) / 2.0).clamp(-EDGE, EDGE),
            None => EDGE,
        };
        let mut stretches: Vec<(f64, f64)> = Vec::new();
        for (k, (y, _)) in stops.iter().enumerate().filter(|(_, stop)| stop.1) {
            let end = y + edge(*y, stops.get(k + 1));
            let above = k.checked_sub(1).and_then(|above| stops.get(above));
            match stretches.last_mut() {
                Some(last) if above.is_some_and(|above| above.1) => last.1 = end,
                _ => stretches.push((y - edge(*y, above).abs(), end)),
            }
        }
        stretches
    }

    /// A shaft as far as its line serves and its car stands, narrow where no stop is served.
    fn hoistway(&self, svg: &mut Svg, line: &Line, car: Option<&Car>, middle: f64) {
        let mut stretches = self.stretches(line);
        let (half, wide) = (self.form.shaft / 2.0, self.form.shaft);
        for (from, to) in &stretches {
            svg.rect("shaft", middle - half, *from, wide, to - from);
        }
        let car = car.map(|car| self.y(car.position));
        stretches.extend(car.map(|y| (y, y)));
        stretches.sort_by(|a, b| a.0.total_cmp(&b.0));
        let Some((top, mut end)) = stretches.first().copied() else {
            return;
        };
        svg.line("guide", (middle, self.top - 26.0), (middle, top));
        for (from, to) in stretches {
            if from > end {
                svg.rect("blind", middle - 2.0, end, 4.0, from - end);
            }
            end = end.max(to);
        }
    }

    pub fn shaft(&self, svg: &mut Svg, line: &Line, car: Option<(usize, &Car)>, middle: f64) {
        let half = self.form.shaft / 2.0;
        self.hoistway(svg, line, car.map(|(_, car)| car), middle);
        for y in self.heights_in(line.mask) {
            svg.line("floor", (middle - half, y), (middle + half, y));
        }
        for y in self.heights_in(line.mask & self.closed()) {
            svg.rect("closed", middle - half, y - 2.0, 2.0 * half, 4.0);
        }
        let Some((k, car)) = car else { return };
        for y in self.heights_in(car.calls) {
            let radius = if self.form.dense { 2.2 } else { 3.0 };
            svg.circle("button", middle - self.form.call, y, radius);
        }
        self.headers.draw(svg, k, middle, self.top - 28.0);
        self.going(svg, car, middle);
        self.car(svg, car, middle);
        for y in self.heights_in(car.restricted) {
            svg.cross("barred", middle - self.form.barred, y, 3.0);
        }
        let y = |position: f64| self.y(position);
        Aboard::of(self.sheet, car).draw(svg, car, self.about, &self.form, (middle, &y));
        self.target(svg, car, middle);
        self.decision(svg, k, car, middle);
    }

    fn stop_of(&self, id: u32) -> Option<&Stop> {
        self.sheet.stops.iter().find(|stop| stop.id == id)
    }

    /// From a moving car to the stop that it moves to.
    fn going(&self, svg: &mut Svg, car: &Car, middle: f64) {
        let Some(stop) = self.stop_of(car.stop).filter(|_| car.stop != 0) else {
            return;
        };
        let way = Run::new(self, car, stop);
        if way.is_level {
            return;
        }
        let tip = format!(
            "car {} is on its way to {}",
            car.id,
            self.about.stop(stop.id)
        );
        svg.tipped(&tip, |svg| {
            svg.line("going", (middle, way.tail), (middle, way.to + way.by(5.0)));
            let base = (middle, way.to + way.by(5.0));
            svg.triangle("ahead", base, (3.5, 5.0), way.up);
        });
    }

    /// The stop that the car was given earlier, on the shaft's right edge.
    fn target(&self, svg: &mut Svg, car: &Car, middle: f64) {
        let Some(stop) = car.target.and_then(|id| self.stop_of(id)) else {
            return;
        };
        let half = if self.form.dense { 2.4 } else { 3.4 };
        let (x, y) = (middle + self.form.shaft / 2.0, self.y(stop.position));
        let tip = format!(
            "the target of car {} is {}",
            car.id,
            self.about.stop(stop.id)
        );
        svg.tipped(&tip, |svg| {
            svg.rect("target", x - half, y - half, 2.0 * half, 2.0 * half);
        });
    }

    /// The car with its load, who is aboard and its lamps.
    fn car(&self, svg: &mut Svg, car: &Car, middle: f64) {
        let (w, h) = self.form.car;
        let (x, y) = (middle - w / 2.0, self.y(car.position) - h / 2.0);
        let colour = COLOURS.get(usize::from(car.phase)).unwrap_or(&"#fff");
        let class = if car.idle { "car listed" } else { "car" };
        svg.tile((x, y), (w, h), colour, class, &self.car_tip(car));
        let thick = if self.form.dense { 2.4 } else { 4.0 };
        gauge(svg, car, (x + 2.4, y + 2.4), (thick, h - 4.8));
        let aboard = Aboard::of(self.sheet, car).total();
        if aboard > 0 && !(self.form.dense && aboard > 99) {
            let class = if self.form.dense { "tiny" } else { "inside" };
            let (x, y) = (middle - w / 2.0 + thick + 3.6, y + h / 2.0 + 2.9);
            svg.text(class, x, y, Anchor::Start, &aboard.to_string());
        }
        let half = if self.form.dense { 2.0 } else { 3.2 };
        lamps(svg, car, (middle + w / 2.0 - half - 2.4, y + h / 2.0), half);
        if self.about.marked.contains(&car.id) {
            pair::mark(svg, (x, y), (w, h));
        }
    }

    /// A car in words: where it is, what it does, what it carries.
    pub fn car_tip(&self, car: &Car) -> String {
        let stop = |id: u32| self.about.stop(id);
        let mut at = format!("{} at {}", self.about.car(car.id), car.position);
        if self.sheet.edition == 2 {
            at += &format!(", across {}", car.across);
        }
        let mut does = format!("line {}, {}", car.line, phase(car));
        if car.stop != 0 {
            does += &format!(" for {}", stop(car.stop));
        }
        does += &car
            .target
            .map_or(String::new(), |id| format!(", target {}", stop(id)));
        if car.idle {
            does += ", idle-listed";
        }
        let lamps = match (car.going_up, car.going_down) {
            (true, true) => "both lamps lit",
            (true, false) => "up lamp lit",
            (false, true) => "down lamp lit",
            (false, false) => "no lamp lit",
        };
        let (load, capacity, speed) = (car.load, car.capacity, car.speed);
        let carries = format!("load {load} of {capacity}, max speed {speed}, {lamps}");
        let aboard = Aboard::of(self.sheet, car).words(self.about);
        format!("{at}\n{does}\n{carries}\n{aboard}")
    }

    /// An arrow to the stop that the car is sent to, with the cell as a cost and the seconds of the run.
    fn decision(&self, svg: &mut Svg, k: usize, car: &Car, middle: f64) {
        let row = self.chosen.row(self.sheet, k);
        let Some(decision) = row.and_then(|row| self.chosen.pass.decisions.get(row)) else {
            return;
        };
        let x = middle + self.form.arrow;
        let Some(id) = decision else {
            if !self.form.dense {
                let y = self.y(car.position) + 3.5;
                svg.text("small halo", x - 4.0, y, Anchor::Start, "idle");
            }
            return;
        };
        let Some(stop) = self.stop_of(id.get()) else {
            return;
        };
        let way = Run::new(self, car, stop);
        self.arrow(svg, car, stop, &way, x);
        if self.form.dense {
            return;
        }
        if let Some(cost) = row.and_then(|row| self.chosen.chosen_cost(row)) {
            svg.text("cost halo", x + 9.0, way.to + 3.5, Anchor::Start, &cost);
        }
        if let Some(seconds) = self.chosen.seconds(self.sheet, self.about, k) {
            // Beside the arrow, next to the cost at its head.
            let y = way.to + if way.up || way.is_level { 14.5 } else { -7.5 };
            svg.text("small halo", x + 9.0, y, Anchor::Start, &seconds);
        }
    }

    /// A ring where the car is at the stop, sideways where the stop is at its height, else up or down.
    fn arrow(&self, svg: &mut Svg, car: &Car, stop: &Stop, way: &Run, x: f64) {
        let head = self.form.head;
        if !way.is_level {
            let base = way.to + way.by(head);
            svg.line("arrow", (x, way.tail), (x, base));
            svg.triangle("head", (x, base), (head, head), way.up);
        } else if car.across == stop.across {
            svg.circle("arrow", x, way.to, 0.58 * head);
        } else {
            let by = if stop.across > car.across {
                head
            } else {
                -head
            };
            svg.line("arrow", (x - by, way.to), (x, way.to));
            svg.pointer("head aside", (x, way.to), (head, by));
        }
    }
}

/// How a run from a car to a stop is drawn: by the positions, not by where they stand in the drawing.
struct Run {
    up: bool,
    /// Car and stop have the same position.
    is_level: bool,
    /// Where an arrow to the stop begins: at the car, or a little off the stop where they stand too close to be told apart.
    tail: f64,
    to: f64,
}

/// The least length of an arrow.
const SHORT: f64 = 13.0;

impl Run {
    fn new(building: &Building, car: &Car, stop: &Stop) -> Self {
        let (from, to) = (building.y(car.position), building.y(stop.position));
        let up = stop.position > car.position;
        let tail = match up {
            true => from.max(to + SHORT),
            false => from.min(to - SHORT),
        };
        Self {
            up,
            is_level: stop.position == car.position,
            tail,
            to,
        }
    }

    /// So far from the stop toward the car.
    fn by(&self, distance: f64) -> f64 {
        if self.up { distance } else { -distance }
    }
}

/// The load as a part of the capacity, from below; the phase's colour stays beside it.
pub fn gauge(svg: &mut Svg, car: &Car, (x, y): (f64, f64), (w, h): (f64, f64)) {
    let share = if car.capacity > 0.0 {
        (car.load / car.capacity).clamp(0.0, 1.0)
    } else {
        0.0
    };
    if share > 0.0 {
        svg.rect("gauge", x, y, w, h);
        svg.rect("full", x, y + h * (1.0 - share), w, h * share);
    }
}

/// Both lamps around a middle, lit or dark.
pub fn lamps(svg: &mut Svg, car: &Car, (x, y): (f64, f64), half: f64) {
    for (is_lit, up) in [(car.going_up, true), (car.going_down, false)] {
        let class = if is_lit { "lit" } else { "dark" };
        let base = if up { y - 0.9 } else { y + 0.9 };
        svg.triangle(class, (x, base), (half, 1.2 * half), up);
    }
}
