//! The weights of a store for a day. They are the proved library's, and so is a refusal; what stands here names the records, and says which field a
//! refusal is about.

use std::path::Path;

use dispatch_bench::StoreRefusal;
use sheetgen::store::{MOST_RECORDS, RECORD_BITS, RECORD_BYTES, Record, records, taken};

use crate::explain::bit_and_byte;
use crate::faults::outside;
use crate::fields::{self, Absence, Form, STRATEGIES, WEIGHTS};
use crate::numbers::{grouped, grouped_text};
use crate::show::number_of;
use crate::store::{self, Cut};
use crate::{files, text, value};

/// The weights of a store in a file, or why there are none.
pub fn of_file(path: &Path, day: u32) -> Result<[f64; 6], String> {
    let shown = path.display();
    let bytes = std::fs::read(path).map_err(|error| format!("{shown}: {}", files::why(&error)))?;
    dispatch_bench::weights(&bytes, day).map_err(|refusal| {
        let reason = reason(&Cut::new(&bytes), day, None, refusal);
        format!("{shown} for day {day}: {refusal} {reason}")
    })
}

/// The lines of `sheet store weights`: the record that each slot takes, or the refusal explained.
pub fn weights(bytes: &[u8], day: u32, strategy: Option<u64>) -> String {
    match dispatch_bench::weights(bytes, day) {
        Ok(six) => found(bytes, day, strategy, six),
        Err(refusal) => refused(bytes, day, strategy, refusal),
    }
}

fn found(bytes: &[u8], day: u32, strategy: Option<u64>, six: [f64; 6]) -> String {
    let records = records(bytes);
    let names = fields::store_fields(strategy);
    let mut lines = String::new();
    for (slot, weight) in six.iter().enumerate() {
        // The value is the library's; which record it is of is looked up here.
        let record = taken(&records, day, slot).filter(|i| records[*i].double() == *weight);
        let shown = value::show_double(weight.to_bits());
        let setting = setting(names[0].form, slot as u64);
        let from = record.map_or(String::new(), |i| {
            let Record { start, issue, .. } = records[i];
            format!(" # record {}: start={start} issue={issue}", i + 1)
        });
        lines += &format!("setting={setting} value={shown}{from}\n");
    }
    if let Some(strategy) = strategy {
        lines += &policy(strategy, &six);
    }
    lines
}

/// The weights as a policy's line has them.
fn policy(strategy: u64, six: &[f64; 6]) -> String {
    let mut used = String::new();
    let mut unused = Vec::new();
    for (field, weight) in fields::policy_fields(strategy)[WEIGHTS..].iter().zip(six) {
        if field.absence == Absence::Unused {
            unused.push(field.name);
        } else {
            let shown = value::show_double(weight.to_bits());
            used += &format!(" {}={shown}", field.name);
        }
    }
    let name = STRATEGIES[strategy as usize];
    let stays = match unused.len() {
        0 => String::new(),
        _ => format!(" # unused, zero in the policy: {}", unused.join(", ")),
    };
    format!("# policy strategy={name}{used}{stays}\n")
}

fn setting(form: Form, slot: u64) -> String {
    match form {
        Form::Code(names, _) => names[slot as usize].into(),
        _ => slot.to_string(),
    }
}

fn refused(bytes: &[u8], day: u32, strategy: Option<u64>, refusal: StoreRefusal) -> String {
    let cut = Cut::new(bytes);
    let StoreRefusal { number, offset } = refusal;
    let place = match refusal.slot() {
        Some(slot) => format!("slot {slot}"),
        None => offset.to_string(),
    };
    let mut lines = format!("refused {number} at {place}\n");
    lines += &format!("{}\n", reason(&cut, day, strategy, refusal));
    lines += &format!("rule {number}: {}\n", refusal.rule());
    lines += &format!("to do: {}\n", refusal.remedy());
    let record = refusal.record().map(|record| record as usize - 1);
    if let Some(record) = record.filter(|record| *record < cut.records) {
        let line = grouped((store::lines_above(strategy) + record + 1) as u64);
        let words = strategy.and_then(|code| STRATEGIES.get(code as usize));
        let show = words.map_or(String::new(), |name| format!(" {name}"));
        lines += &format!(
            "text: {}\nrepair: If the file is as its writer wrote it: `sheet store show FILE{show} >a.txt`, put right line {line} of a.txt, which is this record, `sheet store write a.txt FILE`.\n",
            cut.line(record, strategy)
        );
    }
    if text::is_text(bytes) {
        lines += &format!("hint: {}\n", store::HINT);
    }
    lines
}

/// Which record, which field, what it holds and what it must hold; or which slot.
fn reason(cut: &Cut, day: u32, strategy: Option<u64>, refusal: StoreRefusal) -> String {
    if let Some(slot) = refusal.slot() {
        return missing(cut, day, strategy, slot);
    }
    let at = usize::try_from(refusal.offset).unwrap_or(usize::MAX);
    let record = at / RECORD_BITS;
    let says = if record < cut.records {
        fault(cut, record, strategy, refusal.number)
    } else {
        let verb = |number| if number == 1 { "is" } else { "are" };
        let (left, whole) = (cut.rest, number_of(cut.records, "record"));
        format!(
            "it takes {RECORD_BYTES} bytes, but {left} {} left; {whole} {} whole",
            verb(left),
            verb(cut.records)
        )
    };
    format!(
        "Record {} ({}): {says}.",
        grouped(record as u64 + 1),
        bit_and_byte(at)
    )
}

/// The fault of a whole record, without a full stop.
fn fault(cut: &Cut, record: usize, strategy: Option<u64>, number: u32) -> String {
    let fields = fields::store_fields(strategy);
    let held = |k: usize| cut.value(record, &fields[k]);
    match number {
        7 => format!(
            "a store has at most {MOST_RECORDS} records, but here are {}",
            grouped(cut.records as u64)
        ),
        8 => format!("setting is {}, but it must be 0 to 5", held(0).bits),
        11 => outside(&fields[3], held(3)).unwrap_or_default(),
        17 => disagrees(&records(cut.bytes), record, fields[0].form),
        _ => String::new(),
    }
}

/// 17: the first earlier record that agrees in all but the value.
fn disagrees(records: &[Record], record: usize, form: Form) -> String {
    let this = records[record];
    let key = |r: &Record| (r.setting, r.start, r.issue);
    let is_other = |r: &&Record| key(r) == key(&this) && r.value != this.value;
    let earlier = records.iter().take(record).position(|r| is_other(&r));
    let shown = |r: &Record| grouped_text(&value::show_double(r.value));
    let Record { start, issue, .. } = this;
    let setting = setting(form, this.setting.into());
    let other = earlier.map_or(String::new(), |i| {
        format!(
            ", but in record {} it is {}, with the same setting {setting}, start {start} and issue {issue}",
            grouped(i as u64 + 1),
            shown(&records[i])
        )
    });
    format!("value is {}{other}", shown(&this))
}

/// 18: what there is of a slot.
fn missing(cut: &Cut, day: u32, strategy: Option<u64>, slot: u64) -> String {
    let records = records(cut.bytes);
    let name = match fields::store_fields(strategy)[0].form {
        Form::Code(names, _) => format!(" ({})", names[slot as usize]),
        _ => String::new(),
    };
    let starts = |slot: u64| {
        let of_slot = records.iter().filter(move |r| u64::from(r.setting) == slot);
        of_slot.map(|r| r.start)
    };
    let there = match starts(slot).min() {
        None => "no record has this setting".into(),
        Some(start) => format!("the first record with this setting starts on day {start}"),
    };
    let also = (slot + 1..6).filter(|other| starts(*other).all(|start| start > day));
    let also: Vec<String> = also.map(|other| other.to_string()).collect();
    let also = match also.len() {
        0 => String::new(),
        1 => format!("; slot {} has none either", also[0]),
        _ => format!("; slots {} have none either", also.join(", ")),
    };
    format!("Slot {slot}{name}: it has no record for day {day}: {there}{also}.")
}
