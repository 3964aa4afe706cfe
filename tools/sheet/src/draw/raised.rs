//! The passes under rising limits as a small plot: total, cars sent, and the shares of decisions that changed.

use super::svg::{self, Anchor, Svg, widest};
use super::{EDGE, pair};
use crate::proved::limit_word;
use crate::raise::{Raised, Step};

/// From one limit to the next, and the width of a bar.
const PITCH: f64 = 30.0;
const BAR: f64 = 18.0;
/// The height of bars, and of a level of totals.
const HEIGHT: f64 = 44.0;
const LEVEL: f64 = 15.0;
/// The most totals that have a level with its number each.
const LEVELS: usize = 14;

const STYLE: &str = ".bar{fill:#8fb8de;stroke:#3a6ea5;stroke-width:0.6}\
.step{stroke:#d55e00;stroke-width:2.2;fill:none}\
.settled{stroke:#00734f;stroke-width:1.2;stroke-dasharray:4 3}\
.agreed{stroke:#00734f;stroke-width:1.6}";

struct Plot<'a> {
    raised: &'a Raised,
    svg: Svg,
    left: f64,
    y: f64,
    /// What is written over the lines that cross the panels.
    headings: Vec<(f64, String)>,
}

/// What `sheet raise SHEET OUT.svg` writes.
pub fn raised(raised: &Raised, file: Option<&str>) -> String {
    let totals = totals(raised);
    let labels: Vec<String> = totals.iter().map(u64::to_string).collect();
    let left = EDGE + widest("small", &labels).max(60.0) + 10.0;
    let mut svg = Svg::default();
    svg.style(STYLE);
    svg.style(pair::STYLE);
    let mut plot = Plot {
        raised,
        svg,
        left,
        y: 28.0,
        headings: Vec::new(),
    };
    let width = (left + PITCH * raised.steps.len() as f64).max(left + 360.0);
    plot.title(file, width);
    let top = plot.y;
    plot.totals(&totals);
    let cars = raised.cars.max(1) as f64;
    plot.bars("cars sent", |step| {
        (step.sent as f64 / cars, step.sent.to_string())
    });
    plot.bars("decisions that changed since the limit before", |step| {
        plot_share(raised, step.changed)
    });
    plot.bars("decisions unlike those without a limit", |step| {
        plot_share(raised, Some(step.unlike))
    });
    plot.axis(top);
    let bottom = plot.y + EDGE;
    plot.svg.finish(width + EDGE, bottom)
}

fn plot_share(raised: &Raised, cars: Option<usize>) -> (f64, String) {
    match cars {
        None => (0.0, String::new()),
        Some(0) => (0.0, "0".into()),
        Some(cars) => {
            let share = raised.share(cars);
            (share / 100.0, format!("{share:.0} %"))
        }
    }
}

/// The distinct totals, from the largest down.
fn totals(raised: &Raised) -> Vec<u64> {
    let mut totals: Vec<u64> = raised.steps.iter().map(|step| step.total).collect();
    totals.sort_unstable_by(|one, other| other.cmp(one));
    totals.dedup();
    totals
}

impl Plot<'_> {
    fn x(&self, k: usize) -> f64 {
        self.left + PITCH * (k as f64 + 0.5)
    }

    fn title(&mut self, file: Option<&str>, width: f64) {
        if let Some(file) = file {
            let file = svg::cropped("small", file, width - EDGE);
            self.svg.text("file", EDGE, 13.0, Anchor::Start, &file);
        }
        let (agreed, settled) = (self.raised.agreed(), self.raised.settled());
        let title = format!(
            "From limit {} on decided as without a limit",
            limit_word(agreed)
        );
        self.svg.text("title", EDGE, self.y, Anchor::Start, &title);
        let more = format!(
            "Total and decisions are those without a limit from limit {} on; from limit {} on no pair is cut.",
            limit_word(agreed),
            limit_word(settled)
        );
        for line in svg::wrapped("", &more, width - EDGE) {
            self.y += 15.0;
            self.svg.text("", EDGE, self.y, Anchor::Start, &line);
        }
        self.y += 24.0;
    }

    fn heading(&mut self, words: &str) {
        self.headings.push((self.y, words.into()));
        self.y += 18.0;
    }

    /// The totals as steps down; each distinct one has a level, so that the smallest fall is seen too.
    fn totals(&mut self, totals: &[u64]) {
        self.heading("total, by its order and not to scale");
        let shown = totals.len().min(LEVELS) as f64;
        let level = LEVEL * shown / totals.len().max(1) as f64;
        let height = |total: u64| {
            let place = totals.iter().position(|other| *other == total);
            self.y + level * place.unwrap_or(0) as f64
        };
        let every = totals.len().div_ceil(LEVELS);
        for (k, total) in totals.iter().enumerate() {
            let is_last = k + 1 == totals.len();
            let is_near_last = k + every > totals.len() - 1;
            if is_last || (k % every == 0 && !is_near_last) {
                let y = height(*total) + 3.0;
                self.svg
                    .text("small", self.left - 6.0, y, Anchor::End, &total.to_string());
            }
        }
        let heights: Vec<f64> = self
            .raised
            .steps
            .iter()
            .map(|step| height(step.total))
            .collect();
        for (k, y) in heights.iter().enumerate() {
            let (from, to) = (self.x(k) - PITCH / 2.0, self.x(k) + PITCH / 2.0);
            self.svg.line("step", (from, *y), (to, *y));
            if let Some(next) = heights.get(k + 1).filter(|next| *next != y) {
                self.svg.line("step", (to, *y), (to, *next));
            }
        }
        self.y += level * totals.len() as f64 + 18.0;
    }

    /// A bar for each limit, by its share of the height, with its number.
    fn bars(&mut self, words: &str, of: impl Fn(&Step) -> (f64, String)) {
        self.heading(words);
        let bottom = self.y + HEIGHT;
        for (k, step) in self.raised.steps.iter().enumerate() {
            let (share, number) = of(step);
            let (x, tall) = (self.x(k), (HEIGHT - 8.0) * share);
            self.svg
                .rect("bar", x - BAR / 2.0, bottom - tall, BAR, tall);
            self.svg
                .text("tiny", x, bottom - tall - 3.0, Anchor::Middle, &number);
        }
        let right = self.x(self.raised.steps.len()) - PITCH / 2.0;
        self.svg.line("floor", (self.left, bottom), (right, bottom));
        self.y = bottom + 24.0;
    }

    /// The limits, the sheet's own in a frame, and where the limit stops mattering.
    fn axis(&mut self, top: f64) {
        let marks = [
            ("agreed", self.raised.agreed()),
            ("settled", self.raised.settled()),
        ];
        self.y -= 8.0;
        for (k, step) in self.raised.steps.iter().enumerate() {
            let (x, word) = (self.x(k), limit_word(step.limit));
            if step.limit == self.raised.own {
                let half = svg::width("small", &word) / 2.0 + 2.0;
                pair::mark(&mut self.svg, (x - half, self.y - 8.0), (2.0 * half, 10.0));
            }
            self.svg.text("small", x, self.y, Anchor::Middle, &word);
            for (class, _) in marks.iter().filter(|mark| mark.1 == step.limit) {
                let x = x - PITCH / 2.0;
                self.svg.line(class, (x, top - 4.0), (x, self.y + 4.0));
            }
        }
        for (y, words) in std::mem::take(&mut self.headings) {
            self.svg.text("name halo", EDGE, y, Anchor::Start, &words);
        }
        self.svg
            .text("small", self.left - 6.0, self.y, Anchor::End, "limit");
        self.y += 20.0;
        let own = match self.raised.steps.iter().any(|s| s.limit == self.raised.own) {
            true => "In a frame: the sheet's own limit.".into(),
            false => format!("The sheet's own limit is {}.", self.raised.own),
        };
        let words = format!(
            "{own} Line: from here on total and decisions are those without a limit. Broken line: from here on no pair is cut."
        );
        for line in svg::wrapped("small", &words, 360.0 + self.left - EDGE) {
            self.svg.text("small", EDGE, self.y, Anchor::Start, &line);
            self.y += 13.0;
        }
        self.y -= 13.0;
    }
}
