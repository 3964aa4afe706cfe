//! A sheet as text that `write` turns into the same bytes.

use sheetgen::bits;
use sheetgen::sheet::across_at;

use crate::cut::{Cut, Record};
use crate::fields::{Absence, KINDS};
use crate::numbers::grouped;
use crate::value::{self, Stops};

/// The most raw bits in one line of the rest.
const BITS_IN_A_LINE: usize = 256;

pub fn show(bytes: &[u8]) -> String {
    let cut = Cut::new(bytes);
    let stops = cut.stops();
    let mut lines = front(&cut);
    for record in &cut.records {
        lines.push(record_line(&cut, record, &stops));
    }
    if !cut.is_whole() {
        lines.extend(rest(&cut));
    }
    lines.push(String::new());
    lines.join("\n")
}

/// What stands above the records.
fn front(cut: &Cut) -> Vec<String> {
    let counts = format!("# {}", counts(cut));
    [counts].into_iter().chain(head(cut)).collect()
}

/// The line of a record in what `show` prints, from 1.
pub fn line_number(cut: &Cut, record: &Record) -> usize {
    let above = cut.records.iter().filter(|other| other.at < record.at);
    front(cut).len() + above.count() + 1
}

/// How many bytes and records there are: `326 bytes, 9 records: 1 policy, 3 stops, ..`.
pub fn counts(cut: &Cut) -> String {
    let of = |kind: usize| cut.of_kind(kind).count();
    let mut parts: Vec<String> = Vec::new();
    for (kind, name) in KINDS.iter().enumerate().skip(1) {
        // Most sheets have no closed landing.
        if of(kind) > 0 || *name != "closed" {
            parts.push(number_of(of(kind), name));
        }
    }
    let raw = cut.records.iter().filter(|r| !r.has_fields()).count();
    if raw > 0 {
        parts.push(format!("{} without fields", grouped(raw as u64)));
    }
    let bytes = number_of(cut.bytes.len(), "byte");
    let records = number_of(cut.records.len(), "record");
    format!("{bytes}, {records}: {}", parts.join(", "))
}

/// A number and its noun: `1 stop`, `2 stops`, `2 policies`, `2 aboard`, `2 closed`.
pub fn number_of(number: usize, noun: &str) -> String {
    let said = grouped(number as u64);
    match (number, noun) {
        (1, _) | (_, "aboard" | "waiting" | "closed") => format!("{said} {noun}"),
        (_, "policy") => format!("{said} policies"),
        _ => format!("{said} {noun}s"),
    }
}

/// The line of the head, where it is not what `write` would make of the records.
fn head(cut: &Cut) -> Option<String> {
    let Some(head) = cut.head else {
        return Some("sheet head=none # fewer than 24 bits".into());
    };
    let records = cut.records.len();
    match head.edition {
        // A text without a record is none of a sheet where no line says so.
        _ if records == 0 => {}
        1 if head.count == records => return None,
        2 if head.count == records => return Some("sheet edition=2".into()),
        _ => {}
    }
    let mut line = format!("sheet edition={} records={}", head.edition, head.count);
    if head.count != records {
        line += &format!(" # {records} could be cut");
    }
    Some(line)
}

/// A record as a line.
pub fn record_line(cut: &Cut, record: &Record, stops: &Stops) -> String {
    if !record.has_fields() {
        return raw_line(cut, record);
    }
    let mut line = KINDS[record.kind].to_string();
    for field in cut.fields(record) {
        let held = cut.value(record, field);
        if field.absence == Absence::Unused && held.bits == 0 {
            continue;
        }
        line += &format!(" {}={}", field.name, value::show(field, held, stops));
    }
    line
}

fn raw_line(cut: &Cut, record: &Record) -> String {
    let (kind, length) = (record.kind, record.length);
    let why = match record.bits() {
        Some(bits) => format!("a {} has {bits} bits{}", KINDS[kind], in_edition(record)),
        None => "no such kind".into(),
    };
    let digits = hex(cut.bytes, record.body(), length);
    format!("record kind={kind} length={length} bits={digits} # {why}")
}

/// The edition, where it matters to the length of the record's kind.
pub fn in_edition(record: &Record) -> &'static str {
    match across_at(record.kind) {
        Some(_) if record.edition == 2 => " in edition 2",
        _ => "",
    }
}

/// What follows the last record that could be cut, as raw bits.
fn rest(cut: &Cut) -> Vec<String> {
    let mut lines = Vec::new();
    let left = cut.bits() - cut.end;
    if left > 0 {
        let (left, end) = (grouped(left as u64), grouped(cut.end as u64));
        lines.push(format!(
            "# not cut into records: {left} bits from bit {end}"
        ));
    }
    let mut at = cut.end;
    while at < cut.bits() {
        let length = BITS_IN_A_LINE.min(cut.bits() - at);
        lines.push(format!(
            "rest length={length} bits={}",
            hex(cut.bytes, at, length)
        ));
        at += length;
    }
    lines
}

/// Bits as hexadecimal digits, the last one filled up with zeros; none where there are none.
pub fn hex(bytes: &[u8], at: usize, length: usize) -> String {
    if length == 0 {
        return "none".into();
    }
    let digit = |from: usize| {
        let width = 4.min(length - from);
        let digit = bits::get(bytes, at + from, width) << (4 - width);
        char::from_digit(digit as u32, 16).unwrap_or('0')
    };
    (0..length).step_by(4).map(digit).collect()
}
