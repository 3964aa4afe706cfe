//! Who is aboard a car, and for where.

use sheetgen::{Car, Sheet, Stop};

use super::svg::{Anchor, Svg};
use super::{About, shaft::Form};

/// The riders of a car by their destinations.
pub struct Aboard<'a> {
    /// The stops with a record, in record order, and how many are bound for each.
    bound: Vec<(&'a Stop, usize)>,
    /// The destinations without a stop record, and how many are bound for each.
    nowhere: Vec<(u32, usize)>,
    /// How many have not said where to.
    unsaid: usize,
}

impl<'a> Aboard<'a> {
    pub fn of(sheet: &'a Sheet, car: &Car) -> Self {
        let riders = || sheet.aboard.iter().filter(|rider| rider.car == car.id);
        let to = |stop: Option<u32>| riders().filter(|r| r.destination == stop).count();
        let stops = sheet.stops.iter().map(|stop| (stop, to(Some(stop.id))));
        let has_record = |id: &u32| sheet.stops.iter().any(|stop| stop.id == *id);
        let mut nowhere: Vec<u32> = riders().filter_map(|rider| rider.destination).collect();
        nowhere.retain(|id| !has_record(id));
        nowhere.sort_unstable();
        nowhere.dedup();
        Self {
            bound: stops.filter(|(_, count)| *count > 0).collect(),
            nowhere: nowhere.into_iter().map(|id| (id, to(Some(id)))).collect(),
            unsaid: to(None),
        }
    }

    pub fn total(&self) -> usize {
        let bound: usize = self.bound.iter().map(|(_, count)| count).sum();
        bound + self.without_stop()
    }

    /// How many have no mark at a stop.
    fn without_stop(&self) -> usize {
        let nowhere: usize = self.nowhere.iter().map(|(_, count)| count).sum();
        nowhere + self.unsaid
    }

    /// `3 aboard, 1 unknown`; nothing of an empty car.
    pub fn count(&self) -> String {
        match (self.total(), self.without_stop()) {
            (0, _) => String::new(),
            (total, 0) => format!("{total} aboard"),
            (total, unknown) => format!("{total} aboard, {unknown} unknown"),
        }
    }

    /// `3 aboard: 2 to 5, 1 unknown`.
    pub fn words(&self, about: &About) -> String {
        let stops = self.bound.iter();
        let mut parts: Vec<String> = stops
            .map(|(stop, count)| format!("{count} to {}", about.stop(stop.id)))
            .collect();
        let nowhere = self.nowhere.iter();
        parts.extend(nowhere.map(|(id, count)| format!("{count} to {id}, which has no stop")));
        if self.unsaid > 0 {
            parts.push(format!("{} unknown", self.unsaid));
        }
        match parts.is_empty() {
            true => "nobody aboard".into(),
            false => format!("{} aboard: {}", self.total(), parts.join(", ")),
        }
    }

    /// A mark for each rider left of the shaft, at the height of the destination; where there are many, their number.
    pub fn draw(&self, svg: &mut Svg, car: &Car, about: &About, form: &Form, at: Heights) {
        for (stop, count) in &self.bound {
            let (x, y) = (at.0 - form.bound, at.1(stop.position));
            let who = match count {
                1 => "1 rider".into(),
                _ => format!("{count} riders"),
            };
            let tip = format!("{who} aboard car {} to {}", car.id, about.stop(stop.id));
            svg.tipped(&tip, |svg| {
                if *count > form.marks {
                    let y = y + 3.0;
                    svg.text("bound halo", x + 3.0, y, Anchor::End, &count.to_string());
                    return;
                }
                for k in 0..*count {
                    mark(svg, x - 6.0 * k as f64, y);
                }
            });
        }
    }
}

/// The middle of a shaft, and the height of a position.
pub type Heights<'f> = (f64, &'f dyn Fn(f64) -> f64);

/// A rider aboard.
pub fn mark(svg: &mut Svg, x: f64, y: f64) {
    svg.diamond("aboard", (x, y), 2.8);
}

#[cfg(test)]
mod tests {
    use super::*;

    #[test]
    fn who_is_bound_for_where() {
        let mut sheet = Sheet::example();
        let car = sheet.cars[0].clone();
        assert_eq!(Aboard::of(&sheet, &car).count(), "");
        let about = About::default();
        assert_eq!(Aboard::of(&sheet, &car).words(&about), "nobody aboard");
        for destination in [Some(3), None, Some(2), Some(99), Some(3)] {
            let rider = sheetgen::Aboard {
                car: car.id,
                destination,
            };
            sheet.aboard.push(rider);
        }
        let aboard = Aboard::of(&sheet, &car);
        assert_eq!(aboard.count(), "5 aboard, 2 unknown");
        let words = "5 aboard: 1 to 2, 2 to 3, 1 to 99, which has no stop, 1 unknown";
        assert_eq!(aboard.words(&about), words);
        let other = Aboard::of(&sheet, &sheet.cars[1]);
        assert_eq!(other.total(), 0);
    }
}
