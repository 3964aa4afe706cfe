//! The stops left of the shafts: their names, who waits there, and what else is to be said of each.

use sheetgen::{Sheet, Stop};

use super::heights::{self, Heights};
use super::riders::Riders;
use super::svg::{self, short};
use super::{About, Chosen};

/// What stands left of the shafts, from the left: where it begins, or for names ends.
pub struct Columns {
    pub names: f64,
    pub call: f64,
    pub waiting: f64,
    pub end: f64,
}

impl Columns {
    pub fn new(labels: &[Label], left: f64, in_words: bool, class: &str, axis: &str) -> Self {
        let widest = |width: &dyn Fn(&Label) -> f64| labels.iter().map(width).fold(0.0, f64::max);
        let axis = svg::width("small", axis);
        let names = left + widest(&|l| svg::width(class, &l.name)).max(axis);
        let (call, waiting) = (names + 10.0, names + 22.0);
        let width = |l: &Label| match l.more.as_str() {
            "" => l.riders.width(in_words),
            more => l.more_at(in_words) + svg::width(l.class(), more),
        };
        let end = waiting + widest(&width) + 22.0;
        Self {
            names,
            call,
            waiting,
            end,
        }
    }
}

/// A stop and who waits there.
pub struct Label {
    pub name: String,
    /// The stop in words, under the pointer.
    pub tip: String,
    pub has_call: bool,
    pub riders: Riders,
    /// Its landing is closed.
    is_closed: bool,
    /// The riders bound for the stop, and whether it is closed or no pending one.
    pub more: String,
    pub height: f64,
    pub position: f64,
}

impl Label {
    fn of(sheet: &Sheet, chosen: &Chosen, about: &About, stop: &Stop, height: f64) -> Self {
        let demand = sheet.demands.iter().find(|d| d.stop == stop.id);
        let mut name = format!("{} at {}", about.stop_label(stop.id), short(stop.position));
        if sheet.edition == 2 {
            name += &format!(", {}", short(stop.across));
        }
        Self {
            name,
            tip: tip(sheet, chosen, about, stop),
            has_call: demand.is_some_and(|d| d.call),
            riders: Riders::at(sheet, stop, about),
            is_closed: sheet.closed.contains(&stop.id),
            more: more(sheet, chosen, stop.id),
            height,
            position: stop.position,
        }
    }

    /// How its words stand out.
    pub fn class(&self) -> &'static str {
        match self.is_closed {
            true => "shut",
            false => "small",
        }
    }

    /// Where `more` begins, after the riders.
    pub fn more_at(&self, in_words: bool) -> f64 {
        match self.riders.is_empty() {
            true => 0.0,
            false => self.riders.width(in_words) + 8.0,
        }
    }
}

/// `closed, 2 riding, not pending`, as far as it is so.
fn more(sheet: &Sheet, chosen: &Chosen, stop: u32) -> String {
    let demand = sheet.demands.iter().find(|d| d.stop == stop);
    let riding = demand.map_or(0, |d| d.riding);
    let is_closed = sheet.closed.contains(&stop);
    let mut more = Vec::new();
    if is_closed {
        more.push("closed".into());
    }
    if riding > 0 {
        more.push(format!("{riding} riding"));
    }
    if sheet.has_demand(stop) && !chosen.pending.contains(&stop) {
        more.push("not pending".into());
    }
    let bound = sheet.bound_aboard(stop);
    if is_closed && bound > 0 {
        more.push(format!("{bound} aboard for it"));
    }
    more.join(", ")
}

fn tip(sheet: &Sheet, chosen: &Chosen, about: &About, stop: &Stop) -> String {
    let mut at = format!("stop {} at {}", about.stop(stop.id), stop.position);
    if sheet.edition == 2 {
        at += &format!(", across {}", stop.across);
    }
    let is_pending = chosen.pending.contains(&stop.id);
    let state = match (is_pending, chosen.is_sent_to(stop.id)) {
        (true, true) => "pending, a car is sent to it",
        (true, false) => "pending, no car is sent to it",
        (false, _) if sheet.has_demand(stop.id) => "not pending",
        (false, _) => "no demand",
    };
    format!("{at}\n{state}")
}

/// The stops from the highest to the lowest, so far apart that each can be read.
pub fn labels(
    sheet: &Sheet,
    chosen: &Chosen,
    about: &About,
    heights: &Heights,
    apart: f64,
) -> Vec<Label> {
    let mut stops: Vec<&Stop> = sheet.stops.iter().collect();
    stops.sort_by(|a, b| b.position.total_cmp(&a.position).then(b.id.cmp(&a.id)));
    let wanted: Vec<f64> = stops.iter().map(|s| heights.of(s.position)).collect();
    let placed = heights::spread(&wanted, apart, heights.height + 10.0);
    let placed = stops.into_iter().zip(placed);
    placed
        .map(|(stop, height)| Label::of(sheet, chosen, about, stop, height))
        .collect()
}
