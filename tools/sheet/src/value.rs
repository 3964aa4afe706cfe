//! A field's value as bits and as text.

use sheetgen::bits;
use sheetgen::sheet::NO_LIMIT;

use crate::bits::Writer;
use crate::fields::{Absence, Field, Form};
use crate::near::did_you_mean;

/// What a field holds.
#[derive(Clone, Copy, Debug, PartialEq, Eq)]
pub struct Value {
    /// The present bit of an optional field; true elsewhere.
    pub present: bool,
    pub bits: u64,
}

/// The ids of a sheet's stop records in order, by which a mask's bits are named. `None`: not readable.
pub struct Stops(pub Vec<Option<u32>>);

impl Stops {
    /// The mask of all stop records that have a bit.
    fn all(&self) -> u64 {
        match self.0.len() {
            0 => 0,
            n => u64::MAX << (64 - n.min(64)),
        }
    }

    /// The id of the record that bit `index` stands for, where no other record has that id.
    fn name(&self, index: usize) -> Option<u32> {
        let id = (*self.0.get(index)?)?;
        let same = self.0.iter().filter(|other| **other == Some(id)).count();
        (same == 1).then_some(id)
    }

    /// The bits of the stop records from one id to another, both of which must be there.
    fn between(&self, first: u32, last: u32) -> Result<u64, String> {
        if first > last {
            return Err(format!("{first}-{last} runs down; write {last}-{first}"));
        }
        let mask = self.bit(first)? | self.bit(last)?;
        let ids = self.0.iter().flatten();
        let mut ids = ids.filter(|id| (first..=last).contains(id));
        ids.try_fold(mask, |mask, id| Ok(mask | self.bit(*id)?))
    }

    /// The bit of the stop record with this id.
    fn bit(&self, id: u32) -> Result<u64, String> {
        let mut found = (0..self.0.len()).filter(|k| self.0[*k] == Some(id));
        match (found.next(), found.next()) {
            (None, _) => Err(format!("no stop line has id {id}")),
            (_, Some(_)) => Err(format!(
                "more than one stop line has id {id}; a mask then needs 0x and 16 digits"
            )),
            (Some(k), None) if k < 64 => Ok(1 << (63 - k)),
            _ => Err(format!("stop {id} is past the 64 that a mask has bits for")),
        }
    }
}

/// The value of a field in the body that starts at bit `body`. The body must be there.
pub fn take(bytes: &[u8], body: usize, field: &Field) -> Value {
    let at = body + field.at;
    let width = field.form.width();
    if field.absence == Absence::PresentBit {
        let present = bits::get(bytes, at, 1) == 1;
        Value {
            present,
            bits: bits::get(bytes, at + 1, width),
        }
    } else {
        Value {
            present: true,
            bits: bits::get(bytes, at, width),
        }
    }
}

pub(crate) fn put(writer: &mut Writer, field: &Field, value: Value) {
    if field.absence == Absence::PresentBit {
        writer.put(1, value.present.into());
    }
    writer.put(field.form.width(), value.bits);
}

/// The value as text, from which `parse` makes the same bits.
pub fn show(field: &Field, value: Value, stops: &Stops) -> String {
    let zeros = matches!(field.absence, Absence::Zeros | Absence::Unused);
    if (!value.present || zeros) && value.bits == 0 {
        return "none".into();
    }
    let shown = show_bits(field.form, value.bits, stops);
    if value.present {
        shown
    } else {
        format!("none:{shown}")
    }
}

fn show_bits(form: Form, bits: u64, stops: &Stops) -> String {
    match form {
        Form::Number(_) | Form::Id(_) => bits.to_string(),
        Form::Limit if bits == u64::from(NO_LIMIT) => "none".into(),
        Form::Limit => bits.to_string(),
        Form::Code(names, _) => match names.get(bits as usize) {
            Some(name) => (*name).into(),
            None => bits.to_string(),
        },
        Form::Double(_) => show_double(bits),
        Form::Mask => show_mask(bits, stops),
    }
}

/// The shortest decimal that reads back to the same bits; a NaN by its bits.
pub fn show_double(bits: u64) -> String {
    let value = f64::from_bits(bits);
    if value.is_nan() {
        return format!("0x{bits:016x}");
    }
    let text = format!("{value:?}");
    text.strip_suffix(".0").unwrap_or(&text).into()
}

fn show_mask(mask: u64, stops: &Stops) -> String {
    if mask == 0 {
        return "none".into();
    }
    if mask == stops.all() {
        return "all".into();
    }
    let set = (0..64).filter(|k| mask >> (63 - k) & 1 == 1);
    let names: Option<Vec<String>> = set
        .map(|k| stops.name(k).map(|id| id.to_string()))
        .collect();
    match names {
        Some(names) => names.join(","),
        None => format!("0x{mask:016x}"),
    }
}

/// The value that a text says, or what was expected instead.
pub fn parse(field: &Field, text: &str, stops: &Stops) -> Result<Value, String> {
    let wrong = |why: String| format!("expected {}, found \"{text}\"{why}", expected(field));
    let Some(after) = text.strip_prefix("none") else {
        let bits = parse_bits(field.form, text, stops).map_err(wrong)?;
        return Ok(Value {
            present: true,
            bits,
        });
    };
    let optional = field.absence == Absence::PresentBit;
    match after.strip_prefix(':') {
        Some(hidden) if optional => {
            let bits = parse_bits(field.form, hidden, stops).map_err(wrong)?;
            Ok(Value {
                present: false,
                bits,
            })
        }
        None if after.is_empty() && field.can_be_none() => Ok(none(field, !optional)),
        _ => Err(wrong(String::new())),
    }
}

/// The value of a field that is left out or said to be none.
fn none(field: &Field, present: bool) -> Value {
    let bits = if field.form == Form::Limit {
        NO_LIMIT.into()
    } else {
        0
    };
    Value { present, bits }
}

/// The bits that a text says; otherwise why it says none, where that needs a word.
fn parse_bits(form: Form, text: &str, stops: &Stops) -> Result<u64, String> {
    let found = match form {
        Form::Number(width) => whole(text, width),
        Form::Id(_) => whole(text, 32),
        Form::Limit => whole(text, 16),
        Form::Code(names, width) => match names.iter().position(|name| *name == text) {
            Some(code) => Some(code as u64),
            None => return whole(text, width).ok_or_else(|| did_you_mean(text, names)),
        },
        Form::Double(_) => return double(text),
        Form::Mask => return mask(text, stops).map_err(|why| format!(": {why}")),
    };
    found.ok_or_else(String::new)
}

/// A whole number that fits so many bits.
pub fn whole(text: &str, width: usize) -> Option<u64> {
    if text.is_empty() || !text.bytes().all(|b| b.is_ascii_digit()) {
        return None;
    }
    let value: u64 = text.parse().ok()?;
    (width >= 64 || value >> width == 0).then_some(value)
}

/// `0x` and 16 hexadecimal digits.
fn sixteen(text: &str) -> Option<u64> {
    let digits = text.strip_prefix("0x")?;
    let fits = digits.len() == 16 && digits.bytes().all(|b| b.is_ascii_hexdigit());
    if fits {
        u64::from_str_radix(digits, 16).ok()
    } else {
        None
    }
}

/// What a double's text may be.
pub const DOUBLE: &str = "a decimal number, inf, -inf, or 0x and 16 hexadecimal digits";

/// The bits of a double; otherwise why there are none, where that needs a word.
pub fn double(text: &str) -> Result<u64, String> {
    match text {
        "inf" => return Ok(f64::INFINITY.to_bits()),
        "-inf" => return Ok(f64::NEG_INFINITY.to_bits()),
        _ => {}
    }
    if text.starts_with("0x") {
        return sixteen(text).ok_or_else(String::new);
    }
    let decimal = |b: u8| b.is_ascii_digit() || b"+-.eE".contains(&b);
    let value: Option<f64> = text.parse().ok();
    match value.filter(|_| text.bytes().all(decimal)) {
        None => Err(String::new()),
        Some(value) if value.is_finite() => Ok(value.to_bits()),
        Some(_) => Err(": no double is so large".into()),
    }
}

fn mask(text: &str, stops: &Stops) -> Result<u64, String> {
    if text == "all" {
        return Ok(stops.all());
    }
    if text.starts_with("0x") {
        return sixteen(text).ok_or("these are not 16 hexadecimal digits".into());
    }
    let id = |part: &str| match whole(part, 32) {
        Some(id) => Ok(id as u32),
        None => Err(format!("\"{part}\" is no id")),
    };
    let mut mask = 0;
    for part in text.split(',') {
        mask |= match part.split_once('-') {
            Some((first, last)) => stops.between(id(first)?, id(last)?)?,
            None => stops.bit(id(part)?)?,
        };
    }
    Ok(mask)
}

/// What a field's text may be.
pub fn expected(field: &Field) -> String {
    let what = match field.form {
        Form::Number(64) => format!("a whole number from 0 to {}", u64::MAX),
        Form::Number(width) => format!("a whole number from 0 to {}", (1u64 << width) - 1),
        Form::Id(_) => format!("an id from 0 to {}", u32::MAX),
        Form::Limit => format!("a whole number from 0 to {NO_LIMIT}"),
        Form::Code(names, width) => {
            let last = (1 << width) - 1;
            let number = match last + 1 - names.len() {
                0 => String::new(),
                1 => format!(" or {last}"),
                _ => format!(", or a whole number from 0 to {last}"),
            };
            format!("one of {}{number}", names.join(", "))
        }
        Form::Double(_) => DOUBLE.into(),
        Form::Mask => {
            "all, stop ids or ranges of them (1-12) with commas between, or 0x and 16 hexadecimal digits".into()
        }
    };
    match field.absence {
        Absence::PresentBit => {
            format!("{what}, or none, or none: and a value for bits in an absent field")
        }
        _ if field.can_be_none() => format!("{what}, or none"),
        _ => what,
    }
}
