//! The parts of a cost: each term with its weight, and the running cost where the library answers one.

use dispatch_bench::Terms;
use sheetgen::{Car, Policy, Sheet};

use crate::fields::{WEIGHTS, policy_fields};

/// A line of a cost.
pub struct Part {
    pub term: &'static str,
    pub amount: Amount,
    /// The weights by the policy's names.
    pub weights: Vec<(&'static str, f64)>,
    pub effect: Effect,
    /// The cost with this part, where the library answers it.
    pub so_far: Option<f64>,
}

/// What is weighed.
#[derive(Clone, Copy, PartialEq)]
pub enum Amount {
    Seconds(f64),
    Ticks(f64),
    /// Squares of ticks.
    Squares(f64),
    /// A length, or what has no unit.
    Plain(f64),
    /// A load and the capacity.
    Share(f64, f64),
    /// The weight is all.
    One,
}

#[derive(Clone, Copy, PartialEq, Eq)]
pub enum Effect {
    Added,
    Taken,
    /// The weight is 0.
    LeftOut,
    /// The cost stays what it was.
    Nothing,
}

/// The codes of traffic that RSR's multiplier is for.
const PEAKS: [u8; 2] = [1, 3];

/// The parts of a cost in the order in which they count.
pub fn of(terms: &Terms, sheet: &Sheet, car: u32) -> Vec<Part> {
    let weights = Weights(&sheet.policy);
    match terms {
        Terms::Etd { .. } => etd(terms, &weights),
        Terms::Rsr { .. } => {
            let car = sheet.cars.iter().find(|record| record.id == car);
            car.map_or(Vec::new(), |car| rsr(terms, &weights, car))
        }
        Terms::Scan { distance, cost } => vec![Part {
            term: "distance",
            amount: Amount::Plain(*distance),
            weights: Vec::new(),
            effect: Effect::Added,
            so_far: Some(*cost),
        }],
    }
}

/// The weights of a policy by slot.
struct Weights<'a>(&'a Policy);

impl Weights<'_> {
    fn named(&self, slot: usize) -> (&'static str, f64) {
        let fields = policy_fields(self.0.strategy.into());
        (fields[WEIGHTS + slot].name, self.0.weights[slot])
    }

    /// A part that always counts.
    fn added(&self, term: &'static str, amount: Amount, slot: usize, so_far: Option<f64>) -> Part {
        Part {
            term,
            amount,
            weights: vec![self.named(slot)],
            effect: Effect::Added,
            so_far,
        }
    }

    /// A part whose weight of 0 takes it out.
    fn taken(&self, term: &'static str, amount: Amount, slot: usize, so_far: Option<f64>) -> Part {
        let is_out = self.0.weights[slot] == 0.0;
        Part {
            effect: if is_out {
                Effect::LeftOut
            } else {
                Effect::Taken
            },
            ..self.added(term, amount, slot, so_far)
        }
    }

    /// A part that counts or not, which shows in the running costs before and after it.
    fn step(&self, part: Part, (before, after): (f64, f64), effect: Effect) -> Part {
        let is_out = part.weights.iter().any(|(_, weight)| *weight == 0.0);
        let effect = match before.to_bits() == after.to_bits() {
            true if is_out => Effect::LeftOut,
            true => Effect::Nothing,
            false => effect,
        };
        Part {
            effect,
            so_far: Some(after),
            ..part
        }
    }
}

fn etd(terms: &Terms, weights: &Weights) -> Vec<Part> {
    let Terms::Etd {
        travel,
        delay,
        doors,
        bonus,
        sum,
        squares,
        waited,
        cost,
    } = *terms
    else {
        return Vec::new();
    };
    vec![
        weights.added("travel", Amount::Seconds(travel), 0, None),
        weights.added("delay", Amount::Seconds(delay), 1, None),
        weights.added("doors", Amount::Seconds(doors), 2, None),
        Part {
            term: "bonus",
            amount: Amount::Plain(bonus),
            weights: Vec::new(),
            effect: Effect::Added,
            so_far: Some(sum),
        },
        weights.taken("squares", Amount::Squares(squares), 3, None),
        weights.taken("waited", Amount::Ticks(waited), 4, Some(cost)),
    ]
}

fn rsr(terms: &Terms, weights: &Weights, car: &Car) -> Vec<Part> {
    let Terms::Rsr {
        travel,
        eta,
        direction,
        car_call,
        load,
        waited,
        age,
        ..
    } = *terms
    else {
        return Vec::new();
    };
    let plain = |term, amount, slot| weights.added(term, amount, slot, None);
    let mut reversed = plain("wrong direction", Amount::One, 1);
    if PEAKS.contains(&weights.0.traffic) {
        reversed.weights.push(weights.named(5));
    }
    let called = plain("car call", Amount::One, 2);
    let loaded = plain("load", Amount::Share(car.load, car.capacity), 3);
    vec![
        weights.added("travel", Amount::Seconds(travel), 0, Some(eta)),
        weights.step(reversed, (eta, direction), Effect::Added),
        weights.step(called, (direction, car_call), Effect::Taken),
        weights.step(loaded, (car_call, load), Effect::Added),
        weights.taken("waited", Amount::Ticks(waited), 4, Some(age)),
    ]
}
