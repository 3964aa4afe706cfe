//! What each car is and does, in words above its shaft.

use sheetgen::{Car, Sheet};

use super::aboard::Aboard;
use super::shaft::Form;
use super::svg::{self, Anchor, Svg, short};
use super::{About, Chosen, phase};

/// From one line of words to the next.
const LINE: f64 = 12.0;
const UPRIGHT_LINE: f64 = 10.0;
/// The widest words of a stop with its name.
const ROOM: f64 = 112.0;

/// A class and words of it.
type Words = (&'static str, String);

/// The words of every car record, line by line, those of its decision at the end.
pub struct Headers {
    cars: Vec<Vec<Words>>,
    upright: bool,
}

impl Headers {
    /// Cars of folded lines have none.
    pub fn new(
        sheet: &Sheet,
        chosen: &Chosen,
        about: &About,
        form: &Form,
        is_folded: impl Fn(u32) -> bool,
    ) -> Self {
        let words = |(k, car): (usize, &Car)| {
            if is_folded(car.line) {
                return Vec::new();
            }
            let said = Said::of(sheet, chosen, about, k, car);
            match form.dense {
                true => said.upright(),
                false => said.lines(form),
            }
        };
        Self {
            cars: sheet.cars.iter().enumerate().map(words).collect(),
            upright: form.dense,
        }
    }

    pub fn height(&self) -> f64 {
        let all = self.cars.iter().flatten();
        match self.upright {
            true => all.map(|(c, w)| svg::width(c, w)).fold(0.0, f64::max) + 4.0,
            false => LINE * self.cars.iter().map(Vec::len).fold(0, usize::max) as f64,
        }
    }

    /// Draws the words of car record `k` above the middle of its shaft.
    pub fn draw(&self, svg: &mut Svg, k: usize, middle: f64, bottom: f64) {
        let lines = &self.cars[k];
        for (line, (class, words)) in lines.iter().enumerate() {
            if self.upright {
                let first = middle - UPRIGHT_LINE * (lines.len() as f64 / 2.0 - 0.8);
                let x = first + UPRIGHT_LINE * line as f64;
                svg.upright(class, x, bottom - 2.0, Anchor::Start, words);
            } else {
                let top = bottom - self.height() + 8.0;
                let y = match line + 1 == lines.len() {
                    true => bottom + 8.0 - LINE,
                    false => top + LINE * line as f64,
                };
                svg.text(class, middle, y, Anchor::Middle, words);
            }
        }
    }
}

/// A stop after a word, with its name where it has one and there is room.
fn to(before: &str, stop: u32, about: &About) -> String {
    let named = format!("{before} {}", about.stop_label(stop));
    match svg::width("name", &named) > ROOM {
        true => format!("{before} {stop}"),
        false => named,
    }
}

struct Said<'a> {
    car: String,
    name: String,
    phase: String,
    going: String,
    target: String,
    listed: &'static str,
    load: String,
    aboard: Aboard<'a>,
    across: String,
    sweep: &'static str,
    decision: (&'static str, String),
    cost: String,
    seconds: String,
}

impl<'a> Said<'a> {
    fn of(sheet: &'a Sheet, chosen: &Chosen, about: &About, k: usize, car: &Car) -> Self {
        let decided = chosen.row(sheet, k).and_then(|row| {
            let decision = chosen.pass.decisions.get(row)?;
            Some((decision.map(|id| id.get()), chosen.chosen_cost(row)))
        });
        let (decision, cost) = match decided {
            Some((None, _)) => (("name", "stays idle".into()), None),
            Some((Some(stop), cost)) => (("cost", to("to", stop, about)), cost),
            None => (("small", String::new()), None),
        };
        let name = about.names.cars.get(&car.id);
        let going = Some(car.stop).filter(|stop| *stop != 0);
        let words = |before: &str, stop: Option<u32>| {
            stop.map_or(String::new(), |stop| to(before, stop, about))
        };
        Self {
            car: format!("car {}", car.id),
            name: name.map_or(String::new(), |name| {
                svg::cropped("name", name, super::NAME)
            }),
            phase: phase(car),
            going: words("for", going),
            target: words("target", car.target),
            listed: if car.idle { "idle-listed" } else { "" },
            load: format!("{} of {}", short(car.load), short(car.capacity)),
            aboard: Aboard::of(sheet, car),
            across: match sheet.edition {
                2 => format!("across {}", short(car.across)),
                _ => String::new(),
            },
            sweep: chosen.sweep(k),
            decision,
            cost: cost.unwrap_or_default(),
            seconds: chosen.seconds(sheet, about, k).unwrap_or_default(),
        }
    }

    /// Below each other; costs and seconds stand at the arrow.
    fn lines(self, form: &Form) -> Vec<Words> {
        let load = match svg::width("small", &self.load) > form.pitch {
            true => self.load.replace(" of ", "/"),
            false => self.load,
        };
        let mut lines = vec![
            ("name", self.car),
            ("name", self.name),
            ("small", self.phase),
            ("small", self.going),
            ("small", self.target),
            ("small", self.listed.into()),
            ("small", load),
            ("small", self.aboard.count()),
            ("small", self.across),
            ("small", self.sweep.into()),
        ];
        lines.retain(|(_, words)| !words.is_empty());
        lines.push(self.decision);
        lines
    }

    /// Beside each other, from below to above.
    fn upright(self) -> Vec<Words> {
        let joined = |parts: &[&str], by: &str| {
            let parts: Vec<&str> = parts.iter().copied().filter(|p| !p.is_empty()).collect();
            parts.join(by)
        };
        let phase = joined(&[&self.phase, &self.going], " ");
        let aboard = match self.aboard.total() {
            0 => String::new(),
            total => format!("{total} aboard"),
        };
        let (class, decision) = self.decision;
        let mut lines = vec![
            ("tag", joined(&[&self.car, &self.name, self.sweep], ", ")),
            ("small", joined(&[&phase, &self.target, &self.across], ", ")),
            ("small", joined(&[&self.load, &aboard], ", ")),
            (class, joined(&[&decision, &self.cost], " at ")),
            ("small", self.seconds),
        ];
        lines.retain(|(_, words)| !words.is_empty());
        lines
    }
}
