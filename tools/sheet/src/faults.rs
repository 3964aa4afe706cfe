//! Which field of a refused record a refusal's number is about, and what it holds. Only records that the
//! proved library has refused by that number are looked at.

use sheetgen::sheet::MOST;

use crate::cut::{Cut, Record};
use crate::fields::{Absence, Field, Form, KINDS, Names, PHASES, Range};
use crate::numbers::{grouped, grouped_text};
use crate::show::{in_edition, number_of};
use crate::value::{self, Value};

/// The most ids that a sentence names.
const IDS_IN_A_LIST: usize = 16;

/// What a refusal is about.
#[derive(Clone)]
pub struct Fault {
    /// The field's name; kind and length stand in front of the body.
    pub field: &'static str,
    /// What it holds and what it must hold, without a full stop.
    pub says: String,
}

pub fn find(cut: &Cut, record: &Record, number: u32) -> Option<Fault> {
    let of = |field: &'static str, says: String| Fault { field, says };
    let by_field = |test: &dyn Fn(&Field, Value) -> Option<String>| {
        let mut fields = cut.fields(record).iter();
        fields.find_map(|f| test(f, cut.value(record, f)).map(|says| of(f.name, says)))
    };
    let kinds = || format!("kind is {}, but kinds are 1 to 8", record.kind);
    let limit = || "limit is 0, but it must be 1 or more".to_string();
    match number {
        4 => Some(of("kind", kinds())),
        5 => length(record).map(|says| of("length", says)),
        6 => order(cut, record).map(|says| of("kind", says)),
        7 => too_many(record).map(|says| of("kind", says)),
        8 => by_field(&|field, held| unused(cut, record, field, held)),
        9 => by_field(&|field, held| zero(cut, record, field, held))
            .or_else(|| repeated(cut, record)),
        10 => by_field(&|field, held| missing(cut, record, field, held)),
        11 => by_field(&outside),
        12 => Some(of("limit", limit())),
        13 => ticks(cut, record).map(|says| of("transition_ticks", says)),
        14 => wait(cut, record).map(|says| of("wait_ticks", says)),
        _ => None,
    }
}

fn wait(cut: &Cut, record: &Record) -> Option<String> {
    let wait = grouped(cut.named(record, "wait_ticks")?);
    Some(format!(
        "wait_ticks is {wait}, but the most is 9,007,199,254,740,992"
    ))
}

fn length(record: &Record) -> Option<String> {
    let (kind, stated) = (record.kind, grouped(record.length as u64));
    let (bits, edition) = (record.bits()?, in_edition(record));
    let name = KINDS.get(kind)?;
    Some(format!(
        "length is {stated}, but the body of kind {kind} ({name}) has {bits} bits{edition}"
    ))
}

fn order(cut: &Cut, record: &Record) -> Option<String> {
    let name = KINDS.get(record.kind)?;
    let before = cut.records.iter().rev().find(|other| other.at < record.at);
    Some(match before {
        None => format!(
            "kind is {} ({name}), but the first record must be the policy, kind 1",
            record.kind
        ),
        Some(before) => {
            let last = KINDS.get(before.kind)?;
            format!(
                "kind is {} ({name}), but it comes after kind {} ({last})",
                record.kind, before.kind
            )
        }
    })
}

fn too_many(record: &Record) -> Option<String> {
    let most = MOST.get(record.kind)?;
    let name = KINDS.get(record.kind)?;
    Some(format!(
        "it is one more than the {most} of kind {} ({name}) that a sheet may have",
        record.kind
    ))
}

/// 8: a code without a meaning, or bits where none may be.
fn unused(cut: &Cut, record: &Record, field: &Field, held: Value) -> Option<String> {
    let shown = value::show(field, held, &cut.stops());
    let name = field.name;
    match (field.form, field.absence) {
        (Form::Code(names, _), _) if held.bits as usize >= names.len() => Some(format!(
            "{name} is {shown}, but it must be one of {}",
            names.join(", ")
        )),
        (_, Absence::PresentBit) if !held.present && held.bits != 0 => Some(format!(
            "{name} is absent, but its bits are not zeros ({shown})"
        )),
        (_, Absence::Unused) if held.bits != 0 => Some(format!(
            "{name} is {}, but the strategy has no such weight, so it must be zeros",
            grouped_text(&shown)
        )),
        (_, Absence::Zeros) if held.bits != 0 && !is_bound(cut, record) => Some(format!(
            "{name} is {shown}, but in phase {} it must be zeros",
            phase(cut, record)
        )),
        _ => None,
    }
}

fn phase(cut: &Cut, record: &Record) -> &'static str {
    let phase = cut.named(record, "phase").unwrap_or(0) as usize;
    PHASES.get(phase).unwrap_or(&"7")
}

/// The phase is moving or repositioning, so that the stop is used.
fn is_bound(cut: &Cut, record: &Record) -> bool {
    matches!(cut.named(record, "phase"), Some(1 | 2))
}

/// 9: an id that is present, used and 0.
fn zero(cut: &Cut, record: &Record, field: &Field, held: Value) -> Option<String> {
    let name = field.name;
    let is_zero_id = matches!(field.form, Form::Id(_)) && held.present && held.bits == 0;
    match field.absence {
        _ if !is_zero_id => None,
        Absence::Zeros => is_bound(cut, record).then(|| {
            let phase = phase(cut, record);
            format!("{name} is none, but in phase {phase} it is the stop that the car moves to")
        }),
        _ => Some(format!("{name} is 0, but ids are 1 or more")),
    }
}

/// 9: an id that an earlier record has, or a stop's that does not rise.
fn repeated(cut: &Cut, record: &Record) -> Option<Fault> {
    let field = if record.kind >= 7 { "stop" } else { "id" };
    let id = cut.named(record, field)?;
    let earlier = || {
        cut.of_kind(record.kind)
            .take_while(|other| other.at < record.at)
    };
    let says = if record.kind == 2 {
        let last = cut.named(earlier().last()?, "id")?;
        if id > last {
            return None;
        }
        format!("id is {id}, but it must be above {last}, the id of the stop before")
    } else {
        let nth = 1 + earlier().position(|other| cut.named(other, field) == Some(id))?;
        let name = KINDS[record.kind];
        format!("{field} is {id}, but {name} record {nth} has it too")
    };
    Some(Fault { field, says })
}

/// 10: an id without its record, or a mask bit without a stop.
fn missing(cut: &Cut, record: &Record, field: &Field, held: Value) -> Option<String> {
    let name = field.name;
    match field.form {
        Form::Id(Names::Record(kind)) => {
            let mut records = cut.of_kind(kind).take_while(|other| other.at < record.at);
            let found = records.any(|other| cut.named(other, "id") == Some(held.bits));
            (!found).then(|| unnamed(cut, name, kind, held.bits))
        }
        Form::Mask => {
            let stops = cut
                .of_kind(2)
                .take_while(|other| other.at < record.at)
                .count();
            let past = (stops..64).find(|k| held.bits >> (63 - k) & 1 == 1)?;
            let (nth, before) = (past + 1, number_of(stops, "stop record"));
            Some(match past < cut.of_kind(2).count() {
                true => format!(
                    "{name} has a one bit for stop record {nth}, but that stop comes after it"
                ),
                false => format!(
                    "{name} has a one bit for stop record {nth}, but the sheet has {before} before it"
                ),
            })
        }
        _ => None,
    }
}

/// 10: no record of the kind, in front of the one that names it, has the id.
pub fn unnamed(cut: &Cut, name: &str, kind: usize, id: u64) -> String {
    let noun = KINDS[kind];
    let ids = cut.ids(kind);
    if ids.contains(&id) {
        return format!("{name} is {id}, but the {noun} with that id comes after it");
    }
    let there = match ids.len() {
        0 => format!("there is no {noun}"),
        1 => format!("no {noun} has id {id}; the only {noun} is {}", listed(&ids)),
        _ => format!("no {noun} has id {id}; {noun}s are {}", listed(&ids)),
    };
    format!("{name} is {id}, but {there}")
}

/// The first ids, and how many more there are.
fn listed(ids: &[u64]) -> String {
    let (first, others) = ids.split_at(ids.len().min(IDS_IN_A_LIST));
    let first: Vec<String> = first.iter().map(u64::to_string).collect();
    match others.len() {
        0 => first.join(", "),
        more => format!("{} and {} more", first.join(", "), grouped(more as u64)),
    }
}

/// 11: a double outside of its range.
pub fn outside(field: &Field, held: Value) -> Option<String> {
    let Form::Double(range) = field.form else {
        return None;
    };
    let value = f64::from_bits(held.bits);
    let inside = match range {
        Range::Position => within(value, -1e6, 1e6),
        Range::Speed => value == 0.0 || within(value, 1.0 / 1_024.0, 1e3),
        Range::Amount => within(value, 0.0, 1e9),
        Range::Threshold => within(value, 0.0, 1e3),
        Range::TickRate => within(value, 1.0, 1e6),
    };
    let words = range.words();
    let shown = value::show_double(held.bits);
    let shown = if value.is_nan() {
        format!("not a number ({shown})")
    } else {
        grouped_text(&shown)
    };
    (!inside).then(|| format!("{} is {shown}, but its range is {words}", field.name))
}

fn within(value: f64, low: f64, high: f64) -> bool {
    low <= value && value <= high
}

fn ticks(cut: &Cut, record: &Record) -> Option<String> {
    let transition = cut.named(record, "transition_ticks")?;
    let open = cut.named(record, "open_ticks")?;
    let [transition, open, sum] = [transition, open, 2 * transition + open].map(grouped);
    Some(format!(
        "twice transition_ticks {transition} plus open_ticks {open} is {sum}, but the most is 4,294,967,295"
    ))
}

#[cfg(test)]
mod tests {
    use super::*;
    use dispatch_bench::Refusal;
    use sheetgen::generate::{Profile, generate};

    /// The numbers whose field is searched for.
    const SEARCHED: std::ops::RangeInclusive<u32> = 8..=11;

    #[test]
    fn accepted_sheets_have_no_fault() {
        let profiles = [
            Profile::Valid,
            Profile::Full,
            Profile::Near,
            Profile::Extreme,
            Profile::Sideways,
        ];
        for profile in profiles {
            for index in 0..40 {
                let bytes = generate(profile, 5, index);
                let cut = Cut::new(&bytes);
                for record in &cut.records {
                    for number in SEARCHED {
                        let fault = find(&cut, record, number).map(|fault| fault.says);
                        assert_eq!(fault, None, "{profile:?} {index}, {number}");
                    }
                }
            }
        }
    }

    /// The library gives the lowest number, so a refused record has no fault of a lower one.
    #[test]
    fn refused_records_have_no_lower_fault() {
        let mut searched = 0;
        for index in 0..4_000 {
            let bytes = generate(Profile::Provoked, 5, index);
            let Err(Refusal { number, offset }) = dispatch_bench::read(&bytes) else {
                continue;
            };
            let cut = Cut::new(&bytes);
            let found = cut.records.iter().find(|r| r.at as u64 == offset);
            let Some(record) = found.filter(|_| (8..16).contains(&number)) else {
                continue;
            };
            assert!(find(&cut, record, number).is_some(), "{index}");
            for lower in SEARCHED.filter(|lower| *lower < number) {
                let fault = find(&cut, record, lower).map(|fault| fault.says);
                assert_eq!(fault, None, "{index}, {number}, {lower}");
            }
            searched += 1;
        }
        assert!(searched > 1_000, "{searched}");
    }
}
