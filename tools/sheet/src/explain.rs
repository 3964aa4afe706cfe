//! A verdict in words. The verdict is the proved library's; what stands here only looks for the field
//! that the refusal's number is about, and says so where it finds none.

use dispatch_bench::{CEILING, Refusal};
use sheetgen::Sheet;

use crate::cut::{Cut, Record};
use crate::faults;
use crate::fields::KINDS;
use crate::foreign::Foreign;
use crate::mend::{self, Also, End, Further};
use crate::names::Names;
use crate::numbers::grouped;
use crate::show::number_of;
use crate::source::Source;
use crate::usage::capital;
use crate::warnings::{self, Warning};
use crate::{remedies, repair, rules, show};

/// A refusal in words.
pub struct Reason {
    /// Which record, which field, what it holds and what it must hold.
    pub sentence: String,
    /// The refused record, where it can be cut.
    pub record: Option<Record>,
    /// The field's name, where one is at fault.
    pub field: Option<&'static str>,
    /// What to do: the rule's words, or others that fit the field.
    pub remedy: String,
}

/// The lines of `sheet explain` for the bytes of a sheet.
pub fn explain(bytes: &[u8]) -> String {
    of(&Source::of_sheet(bytes.to_vec()))
}

/// The lines of `sheet explain`.
pub fn of(source: &Source) -> String {
    let cut = Cut::new(&source.bytes);
    let Err(refusal) = dispatch_bench::read(&source.bytes) else {
        return accepted(&cut) + &warned(source, &cut, &[]);
    };
    let Refusal { number, offset } = refusal;
    let reason = named_reason(&cut, refusal, &source.names);
    let before = before(source, &cut, refusal);
    let mut lines = format!(
        "refused {number} at {offset}\n{before}{}\n",
        reason.sentence
    );
    lines += &format!("rule {number}: {}\n", refusal.rule());
    if let Some(Foreign { is, to_do }) = source.foreign {
        let to_do = capital(&to_do.replace("FILE", &source.shell_name()));
        return lines + &format!("file: This is {is}, and no sheet.\nto do: {to_do}.\n");
    }
    // A text is no file that a carrier changed.
    let remedy = match source.places {
        Some(_) => reason.remedy.trim_end_matches(rules::CHANGED).trim_end(),
        None => &reason.remedy,
    };
    lines += &format!("to do: {remedy}\n");
    lines += &repair::lines(source, &cut, &reason, refusal);
    lines += &carried(source);
    let further = mend::further(&cut);
    lines += &also(source, &cut, &further);
    if further.end == End::Accepted {
        let others = further.also.iter();
        let others = others.filter_map(|o| Some((o.record?.at, o.fault.as_ref()?.field)));
        let first = reason.record.map(|record| record.at).zip(reason.field);
        lines += &warned(source, &cut, &others.chain(first).collect::<Vec<_>>());
    }
    lines
}

/// A hint, where the bytes look as those of a sheet that was carried as a text.
fn carried(source: &Source) -> String {
    let bytes = &source.bytes;
    let feeds = bytes.iter().filter(|b| **b == b'\n').count();
    let ends = bytes.windows(2).filter(|pair| pair == b"\r\n").count();
    let says = if source.places.is_some() {
        return String::new();
    } else if feeds >= 2 && feeds == ends {
        "Each byte 0a of the file stands behind a 0d, as where a carrier changed line ends"
    } else if !bytes.is_ascii() && std::str::from_utf8(bytes).is_ok() {
        "The bytes above 7f are those of UTF-8, as where a carrier recoded a file"
    } else {
        return String::new();
    };
    format!("hint: {says}: fetch it again, in binary.\n")
}

/// The faults that would be refused once the ones before them are mended, and how they were found.
fn also(source: &Source, cut: &Cut, further: &Further) -> String {
    let line = |also: &Also| {
        let number = also.number;
        let at = also.record.map_or(cut.end, |record| record.at);
        let before = source.before(Some(at));
        let Some(record) = also.record else {
            let offset = at as u64;
            let reason = reason(cut, Refusal { number, offset });
            return format!("also {number}: {before}{}\n", reason.sentence);
        };
        let place = place(cut, &record, &source.names);
        let fault = also.fault.as_ref();
        let says = fault.map_or("see the rule", |fault| &fault.says);
        let to_do = remedies::short(cut, &record, number, fault.map_or("", |f| f.field));
        format!("also {number}: {before}{place}: {says}. To do: {to_do}\n")
    };
    let lines: String = further.also.iter().map(line).collect();
    let found = match (further.end, further.also.len()) {
        (End::Accepted, 0) => {
            "In a copy this fault was mended, and the bench accepts the copy: there is no other one."
        }
        (End::Accepted, _) => {
            "In a copy these faults were mended one after the other; the bench named each line `also`, and accepts the copy with all of them mended."
        }
        (End::More, _) => {
            "In a copy these faults were mended one after the other; the bench named each line `also`. There are more: mend these first."
        }
        (End::Untold, 0) => {
            "Nothing: records that follow cannot be told apart, or are not there, so no further fault can be named."
        }
        (End::Untold, _) => {
            "In a copy these faults were mended one after the other; the bench named each line `also`. What follows the last one cannot be told apart, or is not there, so no further fault can be named."
        }
    };
    lines + &format!("mended: {found}\n")
}

/// The most lines of warnings.
const WARNINGS: usize = 20;

/// What is allowed and hardly meant, but for the fields, by their records' offsets, that are named already.
fn warned(source: &Source, cut: &Cut, named: &[(usize, &str)]) -> String {
    let mut warnings = warnings::find(cut);
    warnings.retain(|warning| !named.contains(&(warning.record.at, warning.field)));
    let line = |warning: &Warning| {
        let before = source.before(Some(warning.record.at));
        let place = place(cut, &warning.record, &source.names);
        format!("warning: {before}{place}: {}.\n", warning.says(cut))
    };
    let mut lines: String = warnings.iter().take(WARNINGS).map(line).collect();
    if warnings.len() > WARNINGS {
        let more = number_of(warnings.len() - WARNINGS, "more warning");
        lines += &format!("warning: There are {more} like these.\n");
    }
    lines
}

/// `FILE:LINE: ` of what is refused, where the sheet was a text.
fn before(source: &Source, cut: &Cut, refusal: Refusal) -> String {
    let is_empty = cut.head.is_some_and(|head| head.count == 0);
    let bit = (!is_empty).then_some(refusal.offset as usize);
    source.before(bit)
}

/// What `pass` and `draw` say beside what they print: the line where a text is refused, or what a file is that is no sheet.
pub fn beside(source: &Source) -> Option<String> {
    let sentence = sentence(source)?;
    match source.foreign {
        Some(foreign) => Some(foreign.named(&source.file)),
        None => {
            source.places.as_ref()?;
            Some(format!("{sentence} `sheet explain` says what to do."))
        }
    }
}

/// The sentence of a refusal, with the line and the names of its text.
pub fn sentence(source: &Source) -> Option<String> {
    let refusal = dispatch_bench::read(&source.bytes).err()?;
    let cut = Cut::new(&source.bytes);
    let before = before(source, &cut, refusal);
    let reason = named_reason(&cut, refusal, &source.names);
    Some(format!("{before}{}", reason.sentence))
}

/// An accepted sheet, and what to ask where a host does not accept it.
fn accepted(cut: &Cut) -> String {
    let bytes = number_of(cut.bytes.len(), "byte");
    let mut lines = format!(
        "accepted\n{}\nto do: Nothing for this bench. If a host refuses the sheet, ask for the number that it gave (1: the host's own buffers are too short; 19 or 20: what a site sent to be graded) and for the length of its file: here it is {bytes}.",
        show::counts(cut)
    );
    if cut.head.is_some_and(|head| head.edition == 2) {
        lines += " If it is 3 at 0, the host has a bench that reads edition 1 alone: renew it, or write the sheet as edition 1, which has no second coordinates.";
    }
    if let Some(policy) = cut
        .records
        .first()
        .filter(|policy| weighs_loads(cut, policy))
    {
        let at = policy.at;
        lines += &format!(
            " If it is 15 at {at}, the host has a bench of the first release, which has no load term: renew it, or set load to 0."
        );
    }
    if let Some(closed) = cut.records.iter().find(|record| record.kind == 8) {
        let at = closed.at;
        lines += &format!(
            " If it is 4 at {at}, the host has a bench of the first release, which takes no closed landings: renew it, or write the sheet without them."
        );
    }
    lines += &bound_for_closed(&Sheet::of_accepted(cut.bytes).closed_first());
    lines += "\n";
    if let Ok(pass) = dispatch_bench::pass(cut.bytes)
        && pass.held > 0
    {
        let cells = number_of(pass.held as usize, "cell");
        let (are, ceiling) = (if pass.held == 1 { "is" } else { "are" }, grouped(CEILING));
        lines += &format!(
            "held: {cells} of its pass {are} held at the ceiling, {ceiling}: the cost is larger there. Cells at the ceiling look alike, but nothing says that their costs are equal: lower the weights to tell them apart.\n"
        );
    }
    lines
}

/// What a bench of before request F-6 does with closed stops that riders of idle-listed cars are bound for.
fn bound_for_closed(stops: &[u32]) -> String {
    let named: Vec<String> = stops.iter().map(u32::to_string).collect();
    let noun = match named.len() {
        0 => return String::new(),
        1 => "stop",
        _ => "stops",
    };
    format!(
        " Riders of idle-listed cars are bound for closed {noun} {}: no car is sent there. If a host's pass has another number of stops, the host may have a bench in which such riders come before closure: renew it.",
        named.join(", ")
    )
}

/// The policy is RSR's, which alone has a field of this name, and its load weight is above 0.
fn weighs_loads(cut: &Cut, policy: &Record) -> bool {
    let load = cut.named(policy, "load").map(f64::from_bits);
    load.is_some_and(|load| load > 0.0)
}

/// Why a sheet was refused.
pub fn reason(cut: &Cut, refusal: Refusal) -> Reason {
    named_reason(cut, refusal, &Names::default())
}

/// The same, with the names that a text gives.
fn named_reason(cut: &Cut, refusal: Refusal, names: &Names) -> Reason {
    let number = refusal.number;
    let at = usize::try_from(refusal.offset).unwrap_or(usize::MAX);
    let whole = |sentence: String| Reason {
        sentence,
        record: None,
        field: None,
        remedy: refusal.remedy().into(),
    };
    match number {
        2 => return whole(passes_the_end(cut, at)),
        3 => return whole(edition(cut)),
        16 => return tail(cut, at, refusal),
        6 if cut.head.is_some_and(|head| head.count == 0) => return no_record(at),
        _ => {}
    }
    let Some(record) = cut.records.iter().find(|record| record.at == at) else {
        return whole(format!("The refusal is at {}.", bit_and_byte(at)));
    };
    let place = place(cut, record, names);
    let fault = faults::find(cut, record, number);
    let says = fault.as_ref().map_or("see the rule", |fault| &fault.says);
    let field = fault.as_ref().map(|fault| fault.field);
    let remedy = field.and_then(|name| remedies::find(cut, record, number, name));
    let remedy = remedy.map(|words| remedies::instead(number, &words));
    Reason {
        sentence: format!("{place}: {says}."),
        record: Some(*record),
        field,
        remedy: remedy.unwrap_or_else(|| refusal.remedy().into()),
    }
}

/// 6, of a head that counts no record; it is given where the first one would start.
fn no_record(at: usize) -> Reason {
    let place = bit_and_byte(at);
    let words = "Add a policy; if there are records, have the head count them.";
    Reason {
        sentence: format!(
            "Record 1 of the sheet ({place}): it must be the policy, but the head counts 0 records."
        ),
        record: None,
        field: None,
        remedy: remedies::instead(6, words),
    }
}

/// `Car record 2 (id 8, bit 1,723; byte 215, bit 3)`; a name stands behind the id.
fn place(cut: &Cut, record: &Record, names: &Names) -> String {
    let earlier = cut.records.iter().take_while(|other| other.at < record.at);
    let nth = 1 + earlier
        .clone()
        .filter(|other| other.kind == record.kind)
        .count();
    let place = match KINDS.get(record.kind) {
        Some(name) if record.kind > 0 => {
            format!("{} record {}", capital(name), grouped(nth as u64))
        }
        _ => format!(
            "Record {} of the sheet",
            grouped(1 + earlier.count() as u64)
        ),
    };
    let id = cut.named(record, "id").map_or(String::new(), |id| {
        let name = names.of(record.kind, id as u32);
        let name = name.map_or(String::new(), |name| format!(" \"{name}\""));
        format!("id {id}{name}, ")
    });
    format!("{place} ({id}{})", bit_and_byte(record.at))
}

/// A bit's offset in both ways, each counted from 0: `bit 1,723; byte 215, bit 3`.
pub fn bit_and_byte(at: usize) -> String {
    let (bit, byte) = (grouped(at as u64), grouped(at as u64 / 8));
    format!("bit {bit}; byte {byte}, bit {}", at % 8)
}

fn passes_the_end(cut: &Cut, at: usize) -> String {
    let Some(head) = cut.head else {
        return short_head(cut);
    };
    let left = cut.bits().saturating_sub(at);
    let whole = whole_records(cut.records.len(), head.count);
    match cut.stated_at(at) {
        None => {
            let nth = grouped(cut.records.len() as u64 + 1);
            let (count, place) = (grouped(head.count as u64), bit_and_byte(at));
            format!(
                "Record {nth} of the {count} that the head counts ({place}): kind and length take 22 bits, but {left} are left; {whole}."
            )
        }
        Some(stated) => {
            let place = place(cut, &stated, &Names::default());
            let [length, left] = [stated.length, left - 22].map(|bits| grouped(bits as u64));
            format!(
                "{place}: length is {length}, but {left} bits are left after the record's 22; {whole}."
            )
        }
    }
}

/// 2, of a file that ends within its head.
fn short_head(cut: &Cut) -> String {
    match cut.bytes.len() {
        0 => "Head (bit 0): it takes 3 bytes, but the file is empty.".into(),
        bytes => format!("Head (bit 0): it takes 3 bytes, but the file has {bytes}."),
    }
}

/// `13 of 15 records are whole`.
fn whole_records(whole: usize, count: usize) -> String {
    let verb = if whole == 1 { "is" } else { "are" };
    let [whole, count] = [whole, count].map(|records| grouped(records as u64));
    format!("{whole} of {count} records {verb} whole")
}

fn edition(cut: &Cut) -> String {
    let edition = cut.head.map_or(0, |head| head.edition);
    format!("Head (bit 0): edition is {edition}, but this bench reads editions 1 and 2.")
}

fn tail(cut: &Cut, at: usize, refusal: Refusal) -> Reason {
    let left = cut.bits().saturating_sub(at);
    let (sentence, remedy) = if left >= 8 {
        (bytes_too_many(cut, at, left), refusal.remedy())
    } else {
        let sentence = "a bit after the last record is one, but they must be zeros".into();
        let remedy =
            "Make the bits that fill the last byte zeros; if the file was damaged, fetch it again.";
        (sentence, remedy)
    };
    Reason {
        sentence: format!("Tail ({}): {sentence}.", bit_and_byte(at)),
        record: None,
        field: None,
        remedy: remedy.into(),
    }
}

/// A tail in bits and in bytes.
fn bytes_too_many(cut: &Cut, at: usize, left: usize) -> String {
    let [left, end, all] = [left, at.div_ceil(8), cut.bytes.len()].map(|n| grouped(n as u64));
    format!(
        "{left} bits follow the last record, but at most 7 may: the sheet ends after {end} bytes, the file has {all}"
    )
}
