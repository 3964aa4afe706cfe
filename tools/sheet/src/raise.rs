//! A sheet passed under every limit from 1 on, and without one: from which limit on it matters no more. Passes are the library's.

use dispatch_bench::{Pass, Refusal};
use sheetgen::sheet::NO_LIMIT;

use crate::csv;
use crate::json::{Json, big};
use crate::matrix::aligned;
use crate::proved::{limit, limit_word, with_limit};
use crate::report::Form;

/// A pass under a limit.
pub struct Step {
    /// 65,535 is none.
    pub limit: u16,
    pub total: u64,
    pub sent: usize,
    pub ranked: u64,
    /// The cars whose decisions are others than under the limit before.
    pub changed: Option<usize>,
    /// The cars whose decisions are others than without a limit.
    pub unlike: usize,
}

/// The passes under rising limits, up to the first that answers all that the pass without a limit does, and that one.
pub struct Raised {
    /// The sheet's own limit.
    pub own: u16,
    pub cars: usize,
    pub steps: Vec<Step>,
}

impl Raised {
    pub fn new(bytes: &[u8]) -> Result<Self, Refusal> {
        let under = |limit| dispatch_bench::pass(&with_limit(bytes, limit));
        dispatch_bench::read(bytes)?;
        let none = under(NO_LIMIT)?;
        let mut passes: Vec<(u16, Pass)> = Vec::new();
        for limit in 1..NO_LIMIT {
            let pass = under(limit)?;
            let is_last = pass == none;
            passes.push((limit, pass));
            if is_last {
                break;
            }
        }
        let cars = none.cars;
        passes.push((NO_LIMIT, none));
        Ok(Self {
            own: limit(bytes),
            cars,
            steps: steps(&passes),
        })
    }

    /// The limit from which on all answers are those without one. Its pass ranked as many pairs, so it cuts none, and no higher one does.
    pub fn settled(&self) -> u16 {
        let last = self.steps.iter().rev().nth(1);
        last.map_or(NO_LIMIT, |step| step.limit)
    }

    /// The limit from which on the total and the decisions are those without one.
    pub fn agreed(&self) -> u16 {
        let total = self.steps.last().map_or(0, |step| step.total);
        self.since(|step| step.total == total && step.unlike == 0)
    }

    /// The first limit from which on something is as without one.
    fn since(&self, is_so: impl Fn(&Step) -> bool) -> u16 {
        let same = self.steps.iter().rev().take_while(|step| is_so(step));
        same.last().map_or(NO_LIMIT, |step| step.limit)
    }

    /// A share of the idle cars.
    pub fn share(&self, cars: usize) -> f64 {
        match self.cars {
            0 => 0.0,
            all => 100.0 * cars as f64 / all as f64,
        }
    }

    fn percent(&self, cars: Option<usize>) -> String {
        match cars.filter(|_| self.cars > 0) {
            Some(cars) => format!("{:.1} %", self.share(cars)),
            None => "-".into(),
        }
    }

    /// What `sheet raise` prints.
    pub fn text(&self, file: &str, form: Form) -> String {
        match form {
            Form::Words => self.words(),
            Form::Json => format!("{}\n", self.json(file)),
            Form::Csv => self.rows(),
        }
    }

    fn words(&self) -> String {
        let heading = ["limit", "total", "cars sent", "changed", "unlike none"];
        let mut table = vec![heading.map(String::from).to_vec()];
        for step in &self.steps {
            table.push(vec![
                limit_word(step.limit),
                step.total.to_string(),
                step.sent.to_string(),
                self.percent(step.changed),
                self.percent(Some(step.unlike)),
            ]);
        }
        aligned(&table) + &self.sentences()
    }

    fn sentences(&self) -> String {
        let settled = self.settled();
        let total = self.steps.last().map_or(0, |step| step.total);
        let same_total = self.since(|step| step.total == total);
        let same_decisions = self.since(|step| step.unlike == 0);
        let own = match self.own {
            NO_LIMIT => "The sheet has no limit.".into(),
            own if own >= settled => format!("The sheet's own limit, {own}, cuts no pair."),
            own => format!("The sheet's own limit, {own}, cuts pairs."),
        };
        format!(
            "changed: the share of idle cars whose decisions are others than in the line above; unlike none: than without a limit.\n\
             From limit {settled} on all answers are those without a limit: no pair is cut. The total is that without a limit from limit {same_total} on, \
             the decisions from limit {same_decisions} on.\n{own} A higher limit never has a larger total: demand 3, proved.\n"
        )
    }

    fn json(&self, file: &str) -> Json {
        let limit = |limit: u16| Json::from((limit != NO_LIMIT).then_some(u32::from(limit)));
        let step = |step: &Step| {
            Json::object([
                ("limit", limit(step.limit)),
                ("total", big(step.total)),
                ("sent", step.sent.into()),
                ("ranked", (step.ranked as usize).into()),
                ("changed", step.changed.into()),
                ("unlike_none", step.unlike.into()),
            ])
        };
        Json::object([
            ("file", file.into()),
            ("cars", self.cars.into()),
            ("own_limit", limit(self.own)),
            ("agreed", limit(self.agreed())),
            ("settled", limit(self.settled())),
            ("steps", Json::array(self.steps.iter().map(step))),
        ])
    }

    fn rows(&self) -> String {
        let mut rows = csv::row(&["limit", "total", "sent", "ranked", "changed", "unlike_none"]);
        for step in &self.steps {
            let changed = step.changed.map_or(String::new(), |cars| cars.to_string());
            rows += &csv::row(&[
                limit_word(step.limit),
                step.total.to_string(),
                step.sent.to_string(),
                step.ranked.to_string(),
                changed,
                step.unlike.to_string(),
            ]);
        }
        rows
    }
}

fn steps(passes: &[(u16, Pass)]) -> Vec<Step> {
    let unlike = |one: &Pass, other: &Pass| {
        let both = one.decisions.iter().zip(&other.decisions);
        both.filter(|(one, other)| one != other).count()
    };
    let Some((_, none)) = passes.last() else {
        return Vec::new();
    };
    let step = |(k, (limit, pass)): (usize, &(u16, Pass))| Step {
        limit: *limit,
        total: pass.total,
        sent: pass.decisions.iter().flatten().count(),
        ranked: pass.ranked,
        changed: k
            .checked_sub(1)
            .map(|before| unlike(&passes[before].1, pass)),
        unlike: unlike(pass, none),
    };
    passes.iter().enumerate().map(step).collect()
}
