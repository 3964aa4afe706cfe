//! The fields of each kind of record, in document 01's order, and document 02's kind 8 and edition 2: name, place in the body, form.

use sheetgen::sheet::{ETD, RSR};

/// What an id field names.
#[derive(Clone, Copy, PartialEq, Eq)]
pub enum Names {
    /// The record itself.
    Itself,
    /// A stop, line or car that must have a record, by its kind.
    Record(usize),
    /// Something that needs no record.
    Anything,
}

/// The doubles that are admitted.
#[derive(Clone, Copy, PartialEq, Eq)]
pub enum Range {
    Position,
    Speed,
    Amount,
    Threshold,
    TickRate,
}

impl Range {
    pub const fn words(self) -> &'static str {
        match self {
            Range::Position => "-1,000,000 to 1,000,000",
            Range::Speed => "0, or 1/1,024 to 1,000",
            Range::Amount => "0 to 1,000,000,000",
            Range::Threshold => "0 to 1,000",
            Range::TickRate => "1 to 1,000,000",
        }
    }
}

#[derive(Clone, Copy, PartialEq, Eq)]
pub enum Form {
    /// A whole number of so many bits.
    Number(usize),
    /// 32 bits.
    Id(Names),
    /// 16 bits; 65,535 is none.
    Limit,
    /// A code of so many bits; those without a name are written as numbers.
    Code(&'static [&'static str], usize),
    /// 64 IEEE bits.
    Double(Range),
    /// 64 bits, the highest for the first stop record.
    Mask,
}

/// How a field may be missing.
#[derive(Clone, Copy, PartialEq, Eq)]
pub enum Absence {
    /// It is always there.
    Never,
    /// A present bit stands before it.
    PresentBit,
    /// It is all zeros.
    Zeros,
    /// It is all zeros, and the text then leaves it out.
    Unused,
}

#[derive(Clone, Copy)]
pub struct Field {
    pub name: &'static str,
    /// The first bit in the body; of an optional field, the present bit.
    pub at: usize,
    pub form: Form,
    pub absence: Absence,
}

impl Field {
    /// A field that can be none may be left out of a line.
    pub fn can_be_none(&self) -> bool {
        self.absence != Absence::Never || matches!(self.form, Form::Limit | Form::Mask)
    }
}

impl Form {
    pub const fn width(self) -> usize {
        match self {
            Form::Number(width) | Form::Code(_, width) => width,
            Form::Id(_) => 32,
            Form::Limit => 16,
            Form::Double(_) | Form::Mask => 64,
        }
    }
}

/// The word that begins a record's line, by kind; index 0 is unused.
pub const KINDS: [&str; 9] = [
    "", "policy", "stop", "line", "car", "aboard", "waiting", "demand", "closed",
];
pub const STRATEGIES: &[&str] = &["ETD", "RSR", "SCAN"];
const TRAFFIC: &[&str] = &["idle", "up_peak", "inter_floor", "down_peak"];
pub const PHASES: &[&str] = &[
    "idle",
    "moving",
    "repositioning",
    "door_opening",
    "loading",
    "door_closing",
    "stopped",
];
const NO_YES: &[&str] = &["no", "yes"];
const SWEEPS: &[&str] = &["up", "down"];
const MODES: &[&str] = &["strict", "lenient"];

const fn always(name: &'static str, at: usize, form: Form) -> Field {
    Field {
        name,
        at,
        form,
        absence: Absence::Never,
    }
}

const fn optional(name: &'static str, at: usize, form: Form) -> Field {
    Field {
        name,
        at,
        form,
        absence: Absence::PresentBit,
    }
}

/// The policy's fields; the weights from `used` on are unused.
const fn policy(weights: [&'static str; 6], used: usize) -> [Field; 10] {
    let amount = Form::Double(Range::Amount);
    let mut fields = [always("strategy", 0, Form::Code(STRATEGIES, 2)); 10];
    fields[1] = always("limit", 2, Form::Limit);
    fields[2] = always("tick_rate", 18, Form::Double(Range::TickRate));
    fields[3] = always("traffic", 82, Form::Code(TRAFFIC, 2));
    let mut k = 0;
    while k < 6 {
        let absence = if k < used {
            Absence::Never
        } else {
            Absence::Unused
        };
        fields[4 + k] = Field {
            name: weights[k],
            at: 84 + 64 * k,
            form: amount,
            absence,
        };
        k += 1;
    }
    fields
}

/// How many fields of a policy stand before its six weights.
pub const WEIGHTS: usize = 4;

/// The names of the six weights, by strategy.
const WEIGHTS_ETD: [&str; 6] = ["wait", "delay", "door", "wait_squared", "age", "weight_6"];
const WEIGHTS_RSR: [&str; 6] = [
    "eta",
    "wrong_direction",
    "coincident_call",
    "load",
    "age",
    "peak_multiplier",
];
const WEIGHTS_SCAN: [&str; 6] = [
    "weight_1", "weight_2", "weight_3", "weight_4", "weight_5", "weight_6",
];

static POLICY_ETD: [Field; 10] = policy(WEIGHTS_ETD, 5);
static POLICY_RSR: [Field; 10] = policy(WEIGHTS_RSR, 6);
static POLICY_SCAN: [Field; 10] = policy(WEIGHTS_SCAN, 0);

/// The fields of a record of a store of weights.
const fn stored(setting: Form) -> [Field; 4] {
    [
        always("setting", 0, setting),
        always("start", 8, Form::Number(32)),
        always("issue", 40, Form::Number(16)),
        always("value", 56, Form::Double(Range::Amount)),
    ]
}

static STORED: [Field; 4] = stored(Form::Number(8));
static STORED_ETD: [Field; 4] = stored(Form::Code(&WEIGHTS_ETD, 8));
static STORED_RSR: [Field; 4] = stored(Form::Code(&WEIGHTS_RSR, 8));
static STORED_SCAN: [Field; 4] = stored(Form::Code(&WEIGHTS_SCAN, 8));

/// The name of the second coordinate.
pub const ACROSS: &str = "across";

/// The fields of edition 2: a second coordinate right after the position, which is the field at this place, and the others behind it.
const fn sideways<const N: usize, const M: usize>(of: [Field; N], position: usize) -> [Field; M] {
    let coordinate = of[position].form;
    let across = of[position].at + coordinate.width();
    let mut fields = [always(ACROSS, across, coordinate); M];
    let mut k = 0;
    while k < N {
        if k <= position {
            fields[k] = of[k];
        } else {
            fields[k + 1] = Field {
                at: of[k].at + coordinate.width(),
                ..of[k]
            };
        }
        k += 1;
    }
    fields
}

const STOP: [Field; 2] = [
    always("id", 0, Form::Id(Names::Itself)),
    always("position", 32, Form::Double(Range::Position)),
];
static STOPS: (&[Field], &[Field]) = (&STOP, &sideways::<2, 3>(STOP, 1));

static LINE: [Field; 2] = [
    always("id", 0, Form::Id(Names::Itself)),
    always("serves", 32, Form::Mask),
];

const CAR: [Field; 20] = [
    always("id", 0, Form::Id(Names::Itself)),
    always("line", 32, Form::Id(Names::Record(3))),
    always("phase", 64, Form::Code(PHASES, 3)),
    Field {
        name: "stop",
        at: 67,
        form: Form::Id(Names::Anything),
        absence: Absence::Zeros,
    },
    optional("target", 99, Form::Id(Names::Anything)),
    always("idle_listed", 132, Form::Code(NO_YES, 1)),
    always("going_up", 133, Form::Code(NO_YES, 1)),
    always("going_down", 134, Form::Code(NO_YES, 1)),
    always("sweep", 135, Form::Code(SWEEPS, 1)),
    always("mode", 136, Form::Code(MODES, 1)),
    always("position", 137, Form::Double(Range::Position)),
    always("max_speed", 201, Form::Double(Range::Speed)),
    always("capacity", 265, Form::Double(Range::Amount)),
    always("load", 329, Form::Double(Range::Amount)),
    optional("up_threshold", 393, Form::Double(Range::Threshold)),
    optional("down_threshold", 458, Form::Double(Range::Threshold)),
    always("transition_ticks", 523, Form::Number(32)),
    always("open_ticks", 555, Form::Number(32)),
    always("restricted", 587, Form::Mask),
    always("car_calls", 651, Form::Mask),
];
static CARS: (&[Field], &[Field]) = (&CAR, &sideways::<20, 21>(CAR, 10));

static ABOARD: [Field; 2] = [
    always("car", 0, Form::Id(Names::Record(4))),
    optional("destination", 32, Form::Id(Names::Anything)),
];

static WAITING: [Field; 5] = [
    always("stop", 0, Form::Id(Names::Record(2))),
    optional("required_line", 32, Form::Id(Names::Anything)),
    optional("destination", 65, Form::Id(Names::Anything)),
    always("weight", 98, Form::Double(Range::Amount)),
    always("wait_ticks", 162, Form::Number(64)),
];

static DEMAND: [Field; 3] = [
    always("stop", 0, Form::Id(Names::Record(2))),
    always("riding_count", 32, Form::Number(16)),
    always("riderless_call", 48, Form::Code(NO_YES, 1)),
];

static CLOSED: [Field; 1] = [always("stop", 0, Form::Id(Names::Record(2)))];

/// The fields of a policy, whose weights have the names of its strategy.
pub fn policy_fields(strategy: u64) -> &'static [Field] {
    if strategy == u64::from(ETD) {
        &POLICY_ETD
    } else if strategy == u64::from(RSR) {
        &POLICY_RSR
    } else {
        &POLICY_SCAN
    }
}

/// The fields of a record of a store; its settings have the names of a strategy's weights where one is given.
pub fn store_fields(strategy: Option<u64>) -> &'static [Field; 4] {
    match strategy {
        None => &STORED,
        Some(strategy) if strategy == u64::from(ETD) => &STORED_ETD,
        Some(strategy) if strategy == u64::from(RSR) => &STORED_RSR,
        Some(_) => &STORED_SCAN,
    }
}

/// The fields of a record of kind 2 to 8 in an edition, others being read as the first; a policy's depend on its strategy.
pub fn fields(edition: u64, kind: usize) -> &'static [Field] {
    let of = |editions: &(&'static [Field], &'static [Field])| match edition {
        2 => editions.1,
        _ => editions.0,
    };
    match kind {
        2 => of(&STOPS),
        3 => &LINE,
        4 => of(&CARS),
        5 => &ABOARD,
        6 => &WAITING,
        7 => &DEMAND,
        8 => &CLOSED,
        _ => &[],
    }
}

/// The ranges, each with the names of the doubles that have it, a name once.
pub fn doubles() -> Vec<(Range, Vec<&'static str>)> {
    let policies = (0..3).flat_map(policy_fields);
    let fields = policies.chain((2..KINDS.len()).flat_map(|kind| fields(2, kind)));
    let mut ranges: Vec<(Range, Vec<&str>)> = Vec::new();
    for field in fields {
        let Form::Double(range) = field.form else {
            continue;
        };
        // An unused weight has no range: it is zeros.
        if field.absence == Absence::Unused {
            continue;
        }
        match ranges.iter_mut().find(|found| found.0 == range) {
            Some(found) if found.1.contains(&field.name) => {}
            Some(found) => found.1.push(field.name),
            None => ranges.push((range, vec![field.name])),
        }
    }
    ranges
}

#[cfg(test)]
mod tests {
    use super::*;
    use sheetgen::sheet::{EDITIONS, body_bits};
    use sheetgen::store::RECORD_BITS;

    /// The fields follow each other without a gap and fill the body.
    fn fill(fields: &[Field], bits: usize) {
        let mut at = 0;
        for field in fields {
            assert_eq!(field.at, at, "{}", field.name);
            at += field.form.width() + usize::from(field.absence == Absence::PresentBit);
        }
        assert_eq!(at, bits);
    }

    #[test]
    fn fields_fill_their_bodies() {
        assert_eq!(KINDS.len(), sheetgen::sheet::KINDS + 1);
        for edition in EDITIONS {
            for strategy in 0..4 {
                fill(policy_fields(strategy), body_bits(edition, 1));
            }
            for kind in 2..KINDS.len() {
                fill(fields(edition, kind), body_bits(edition, kind));
            }
        }
        for strategy in [None, Some(0), Some(1), Some(2)] {
            fill(store_fields(strategy), RECORD_BITS);
        }
    }

    /// A store's setting has the name of the policy's weight.
    #[test]
    fn settings_are_the_weights() {
        for strategy in 0..3 {
            let weights = policy_fields(strategy)[WEIGHTS..].iter().map(|f| f.name);
            let Form::Code(names, 8) = store_fields(Some(strategy))[0].form else {
                panic!("a setting has no names");
            };
            assert!(weights.eq(names.iter().copied()), "{strategy}");
        }
    }
}
