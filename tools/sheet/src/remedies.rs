//! What to do about a refused field, where the general words of its rule do not fit it.

use sheetgen::sheet::body_bits;

use crate::cut::{Cut, Record};
use crate::fields::{Absence, Field, Form, KINDS, Names, STRATEGIES};
use crate::rules;
use crate::value::{self, Value};

/// The kind of a closed landing.
const CLOSED: usize = 8;

/// Words in the place of a rule's; what the rule says of a file that was changed on its way stays.
pub fn instead(number: u32, words: &str) -> String {
    let remedy = rules::rule(number).map_or("", |rule| rule.remedy);
    if remedy.ends_with(rules::CHANGED) {
        format!("{words} {}", rules::CHANGED)
    } else {
        words.into()
    }
}

/// What to do about a fault, without what is said of a file that was changed on its way.
pub fn short(cut: &Cut, record: &Record, number: u32, name: &str) -> String {
    let of_rule = || rules::rule(number).map_or("", |rule| rule.remedy);
    let found = find(cut, record, number, name);
    let words = found.unwrap_or_else(|| of_rule().into());
    words.trim_end_matches(rules::CHANGED).trim_end().into()
}

/// `None` where the rule's own words fit.
pub fn find(cut: &Cut, record: &Record, number: u32, name: &str) -> Option<String> {
    let fields = cut.fields(record);
    let field = || fields.iter().find(|field| field.name == name);
    let held = |field: &Field| cut.value(record, field);
    match number {
        4 | 5 if is_first(cut, record) && record.kind != 1 => {
            Some("Make the policy the first record; a newer writer, or a file that is no sheet, can cause this.".into())
        }
        5 => other_edition(record),
        6 => order(cut, record),
        7 if record.kind == 1 => Some("Leave this policy out; a sheet has one.".into()),
        8 => field().map(|field| unused(cut, record, field, held(field))),
        9 => field().map(|field| id(record, field, held(field))),
        10 => field().and_then(|field| missing(cut, record, field, held(field))),
        11 => Some(format!("Give {name} a value inside of its range.")),
        _ => None,
    }
}

/// 5, of a stop or a car with the length of the other edition.
fn other_edition(record: &Record) -> Option<String> {
    record.bits()?;
    let other = match record.edition {
        2 => 1,
        _ => 2,
    };
    let words = match other {
        1 => {
            "Write the record with its second coordinate, across, or the sheet as edition 1, which has none."
        }
        _ => {
            "Write the sheet as edition 2, which has a second coordinate, or the record without one."
        }
    };
    (body_bits(other, record.kind) == record.length).then(|| words.into())
}

fn is_first(cut: &Cut, record: &Record) -> bool {
    cut.records.first().is_some_and(|r| r.at == record.at)
}

/// 6, of a record that is there.
fn order(cut: &Cut, record: &Record) -> Option<String> {
    let has_policy = cut.records.iter().any(|r| r.kind == 1);
    let words = match (is_first(cut, record), has_policy) {
        (true, true) => "Put the policy in front of all other records.",
        (true, false) => "Add a policy, in front of all other records.",
        _ if record.kind == 1 => "Leave this policy out; a sheet has one, its first record.",
        _ => return None,
    };
    Some(words.into())
}

/// 8: a code without a meaning, or bits where none may be.
fn unused(cut: &Cut, record: &Record, field: &Field, held: Value) -> String {
    let name = field.name;
    match field.absence {
        Absence::Never => {
            format!("Give {name} one of the names above; a newer writer can cause this.")
        }
        Absence::PresentBit => {
            let present = Value {
                present: true,
                ..held
            };
            let shown = value::show(field, present, &cut.stops());
            format!("Write {name}=none, or {name}={shown} if that is meant.")
        }
        Absence::Unused => {
            let strategy = cut.named(record, "strategy").unwrap_or(0) as usize;
            let strategy = STRATEGIES.get(strategy).unwrap_or(&"the strategy");
            format!("Leave {name} out, or make it 0; {strategy} does not use it.")
        }
        Absence::Zeros => format!(
            "Leave {name} out, or give the car the phase moving or repositioning, which alone have a {name}."
        ),
    }
}

/// 9: an id that is 0, or one that an earlier record has.
fn id(record: &Record, field: &Field, held: Value) -> String {
    let (name, kind) = (field.name, KINDS[record.kind]);
    match (field.form, field.absence) {
        (_, Absence::Zeros) => format!(
            "Give the car {name}= with the id of the stop that it moves to, or a phase other than moving and repositioning."
        ),
        (_, Absence::PresentBit) => {
            format!("Give {name}= an id of 1 or more, or none if there is none.")
        }
        (Form::Id(Names::Record(other)), _) if held.bits == 0 => {
            format!("Give {name}= the id of a {} record.", KINDS[other])
        }
        _ if record.kind == CLOSED => {
            format!(
                "Leave this record out; the landing of stop {} is closed already.",
                held.bits
            )
        }
        (Form::Id(Names::Record(_)), _) => {
            format!("Make one {kind} of the records that name this {name}.")
        }
        _ if record.kind == 2 => {
            "Put the stops in the order of their ids, each with an id of its own, 1 or more.".into()
        }
        _ => format!("Give the {kind} an id of its own, 1 or more."),
    }
}

/// 10: an id without its record, or a mask bit without a stop.
fn missing(cut: &Cut, record: &Record, field: &Field, held: Value) -> Option<String> {
    let name = field.name;
    let Form::Id(Names::Record(kind)) = field.form else {
        let is_late = |stop: &Record| stop.at > record.at;
        let words = || match cut.of_kind(2).any(is_late) {
            true => "Put all stops in front of the lines and cars.".into(),
            false => format!("Give {name}= stops that have a record: their ids, all, or none."),
        };
        return (field.form == Form::Mask).then(words);
    };
    let (noun, id, ids) = (KINDS[kind], held.bits, cut.ids(kind));
    Some(if ids.contains(&id) {
        format!("Put {noun} {id} in front of the records that name it.")
    } else if record.kind == CLOSED && ids.is_empty() {
        format!("Leave the closure out, or add {noun} {id}.")
    } else if record.kind == CLOSED {
        format!("Give {name}= the id of a {noun} that is there, or leave the closure out.")
    } else if ids.is_empty() {
        format!("Add {noun} {id}.")
    } else {
        format!("Give {name}= the id of a {noun} that is there, or add {noun} {id}.")
    })
}
