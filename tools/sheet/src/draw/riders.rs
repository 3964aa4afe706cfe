//! Who waits at a stop: which way, where to, how long, for which line.

use sheetgen::{Sheet, Stop, Waiting};

use super::About;
use super::svg::{self, Anchor, Svg};

/// The most riders that are drawn one by one.
const MOST: usize = 8;
/// From one mark to the next, and from a mark to its words.
const STEP: f64 = 9.0;
const GAP: f64 = 6.0;
/// The widest row of riders with their words.
const ROOM: f64 = 380.0;

/// The way to the destination, as far as the records say it.
#[derive(Clone, Copy, PartialEq, Eq)]
pub enum Way {
    Up,
    Down,
    /// No destination, none with a stop record, or one at the same position.
    Unknown,
}

impl Way {
    const ALL: [Way; 3] = [Way::Up, Way::Down, Way::Unknown];

    fn of(sheet: &Sheet, from: &Stop, rider: &Waiting) -> Self {
        let to = sheet.stops.iter().find(|s| Some(s.id) == rider.destination);
        match to {
            Some(to) if to.position > from.position => Way::Up,
            Some(to) if to.position < from.position => Way::Down,
            _ => Way::Unknown,
        }
    }

    pub fn words(self) -> &'static str {
        match self {
            Way::Up => "up",
            Way::Down => "down",
            Way::Unknown => "unknown",
        }
    }

    pub fn class(self) -> &'static str {
        match self {
            Way::Up => "waiting up",
            Way::Down => "waiting down",
            Way::Unknown => "waiting unknown",
        }
    }

    /// Its mark around a middle.
    pub fn draw(self, svg: &mut Svg, x: f64, y: f64) {
        let class = self.class();
        match self {
            Way::Up => svg.triangle(class, (x, y + 3.0), (3.6, 6.0), true),
            Way::Down => svg.triangle(class, (x, y - 3.0), (3.6, 6.0), false),
            Way::Unknown => svg.circle(class, x, y, 2.8),
        }
    }
}

struct Rider {
    way: Way,
    /// `to 4, 600 ticks, line 2`.
    words: String,
    /// All that is known of the rider, under the pointer.
    tip: String,
}

/// The riders who wait at a stop.
pub struct Riders(Vec<Rider>);

impl Riders {
    pub fn at(sheet: &Sheet, stop: &Stop, about: &About) -> Self {
        let here = sheet.waiting.iter().filter(|rider| rider.stop == stop.id);
        let rider = |rider: &Waiting| {
            let way = Way::of(sheet, stop, rider);
            let (named, weight) = (words(rider, |id| about.stop(id)), rider.weight);
            Rider {
                way,
                words: words(rider, |id| id.to_string()),
                tip: format!("a waiting rider, {}: {named}, weight {weight}", way.words()),
            }
        };
        Self(here.map(rider).collect())
    }

    pub fn is_empty(&self) -> bool {
        self.0.is_empty()
    }

    /// There is room for the words of each rider.
    pub fn have_room(&self) -> bool {
        self.0.len() <= MOST && self.width(true) <= ROOM
    }

    /// The width of the marks, with or without words.
    pub fn width(&self, in_words: bool) -> f64 {
        let step = |rider: &Rider| step(rider, in_words);
        match self.0.len() {
            0..=MOST => self.0.iter().map(step).sum(),
            _ => svg::width("small", &self.count()),
        }
    }

    pub fn draw(&self, svg: &mut Svg, x: f64, y: f64, in_words: bool) {
        if self.0.len() > MOST {
            let tips: Vec<&str> = self.0.iter().map(|rider| rider.tip.as_str()).collect();
            svg.tipped(&tips.join("\n"), |svg| {
                svg.text("many halo", x, y + 3.0, Anchor::Start, &self.count());
            });
            return;
        }
        let mut x = x + 3.0;
        for rider in &self.0 {
            svg.tipped(&rider.tip, |svg| {
                rider.way.draw(svg, x, y);
                if in_words {
                    svg.text("many halo", x + GAP, y + 3.0, Anchor::Start, &rider.words);
                }
            });
            x += step(rider, in_words);
        }
    }

    /// `54 waiting: 30 up, 20 down, 4 unknown`.
    fn count(&self) -> String {
        let number = |way: Way| self.0.iter().filter(|rider| rider.way == way).count();
        let ways = Way::ALL.iter().filter(|way| number(**way) > 0);
        let parts: Vec<String> = ways
            .map(|way| format!("{} {}", number(*way), way.words()))
            .collect();
        format!("{} waiting: {}", self.0.len(), parts.join(", "))
    }
}

fn step(rider: &Rider, in_words: bool) -> f64 {
    match in_words {
        true => STEP + GAP + svg::width("small", &rider.words),
        false => STEP,
    }
}

fn words(rider: &Waiting, stop: impl Fn(u32) -> String) -> String {
    let mut parts = Vec::new();
    parts.extend(rider.destination.map(|id| format!("to {}", stop(id))));
    parts.push(match rider.wait {
        1 => "1 tick".into(),
        ticks => format!("{ticks} ticks"),
    });
    parts.extend(rider.line.map(|line| format!("line {line}")));
    parts.join(", ")
}

#[cfg(test)]
mod tests {
    use super::*;

    /// Stops 1, 2 and 3 at 0, 10 and 20, another at 10, and riders who wait at stop 2.
    fn riders(destinations: &[Option<u32>]) -> Riders {
        let mut sheet = Sheet::example();
        sheet.stops.push(Stop::at(4, 10.0));
        for (k, destination) in destinations.iter().enumerate() {
            sheet.waiting.push(Waiting {
                stop: 2,
                line: (k == 0).then_some(7),
                destination: *destination,
                weight: 75.5,
                wait: k as u64,
            });
        }
        Riders::at(&sheet, &sheet.stops[1], &About::default())
    }

    #[test]
    fn ways_and_words() {
        let riders = riders(&[Some(3), Some(1), Some(2), Some(4), Some(9), None]);
        let tips: Vec<&str> = riders.0.iter().map(|rider| rider.tip.as_str()).collect();
        let said = [
            "up: to 3, 0 ticks, line 7",
            "down: to 1, 1 tick",
            "unknown: to 2, 2 ticks",
            "unknown: to 4, 3 ticks",
            "unknown: to 9, 4 ticks",
            "unknown: 5 ticks",
        ];
        assert_eq!(
            tips,
            said.map(|words| format!("a waiting rider, {words}, weight 75.5"))
        );
    }

    #[test]
    fn many_are_counted() {
        let many = riders(&[[Some(3); 5], [None; 5]].concat());
        assert_eq!(many.count(), "10 waiting: 5 up, 5 unknown");
        assert!(!many.have_room() && riders(&[None; 3]).have_room());
    }
}
