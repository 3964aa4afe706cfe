//! How a refused sheet is put right, in commands that can be typed as they stand.

use dispatch_bench::Refusal;
use sheetgen::bits;
use sheetgen::sheet::HEAD_BITS;

use crate::cut::{Cut, Record};
use crate::explain::Reason;
use crate::numbers::grouped;
use crate::show;
use crate::source::Source;
use crate::usage::capital;

/// The most characters of a record's line, with fields and without; `show` prints all of them.
const TEXT: usize = 480;
const RAW_TEXT: usize = 120;

/// What the repair is good for.
const AS_WRITTEN: &str = "If the file is as its writer wrote it:";

/// The lines `text` and `repair` of a refusal.
pub fn lines(source: &Source, cut: &Cut, reason: &Reason, refusal: Refusal) -> String {
    if source.places.is_some() {
        return of_text(source, cut, reason, refusal);
    }
    let file = source.shell_name();
    match (reason.record, refusal.number) {
        (Some(record), number) => of_record(cut, &record, number, &file),
        (None, 3) => of_head(cut, &file),
        (None, 16) => of_tail(cut, refusal.offset as usize, &file),
        _ => String::new(),
    }
}

/// In the planner's own text.
fn of_text(source: &Source, cut: &Cut, reason: &Reason, refusal: Refusal) -> String {
    let place = |bit: usize| source.before(Some(bit)).trim_end_matches(": ").to_string();
    let there = place(refusal.offset as usize);
    if there == source.file {
        return String::new();
    }
    let line = |record: &Record| match place(record.at).rsplit_once(':') {
        Some((_, line)) => line.to_string(),
        None => String::new(),
    };
    let edit = match reason.record {
        Some(record) => edit(cut, &record, refusal.number, &there, &line),
        None => format!("put right {there}"),
    };
    format!("repair: {}, then explain it again.\n", capital(&edit))
}

/// What is to be done with the line of a record, which is `this`; `line` says the line of another one.
fn edit(
    cut: &Cut,
    record: &Record,
    number: u32,
    this: &str,
    line: &dyn Fn(&Record) -> String,
) -> String {
    let earlier = cut.records.iter().take_while(|r| r.at < record.at);
    let above = earlier.into_iter().find(|other| other.kind > record.kind);
    let policy = cut.records.iter().find(|other| other.kind == 1);
    match (number, above, policy) {
        // A second policy, and a record that is one too many or of no known kind, has no place.
        (6, Some(_), _) if record.kind == 1 => format!("leave out {this}"),
        (4 | 7, ..) if record.at > HEAD_BITS => format!("leave out {this}"),
        (6, Some(above), _) => format!("move {this} above line {}", line(above)),
        (6, None, Some(policy)) => format!("move line {}, the policy, above {this}", line(policy)),
        _ => format!("put right {this}"),
    }
}

/// Through the text of the sheet.
fn through_text(file: &str, edit: &str) -> String {
    format!(
        "repair: {AS_WRITTEN} `sheet show {file} >a.txt`, {edit}, `sheet write a.txt {file}`.\n"
    )
}

/// The record's line of text, and how to put it right there; bits without fields are nothing to edit where they are many.
fn of_record(cut: &Cut, record: &Record, number: u32, file: &str) -> String {
    let whole = show::record_line(cut, record, &cut.stops());
    let most = if record.has_fields() { TEXT } else { RAW_TEXT };
    let text = cropped(&whole, most);
    if text != whole && !record.has_fields() {
        return format!("text: {text}\n");
    }
    let line = |record: &Record| grouped(show::line_number(cut, record) as u64);
    let this = format!("line {} of a.txt, which is this record,", line(record));
    let edit = edit(cut, record, number, &this, &line);
    format!(
        "text: {text}\n{}",
        through_text(file, edit.trim_end_matches(','))
    )
}

/// An edition that there is not, of a file that can be cut into records by it.
fn of_head(cut: &Cut, file: &str) -> String {
    match cut.is_whole() && !cut.records.is_empty() {
        true => through_text(
            file,
            "give edition= of line 2 of a.txt, which is the head, the edition of its records, 1 or 2",
        ),
        false => String::new(),
    }
}

/// Bytes, or one bits, after the last record.
fn of_tail(cut: &Cut, at: usize, file: &str) -> String {
    let bytes = at.div_ceil(8);
    let is_filled = bits::get(cut.bytes, at, 8 * bytes - at) == 0;
    if !is_filled {
        return through_text(
            file,
            "leave out the last lines of a.txt, which begin with rest",
        );
    }
    let said = grouped(bytes as u64);
    format!(
        "repair: {AS_WRITTEN} cut it to {said} bytes: `head -c {bytes} {file} >a.sheet`, then explain a.sheet.\n"
    )
}

/// A line, or how it begins.
fn cropped(line: &str, most: usize) -> String {
    match line.char_indices().nth(most) {
        Some((end, _)) => {
            let all = grouped(line.chars().count() as u64);
            let start = &line[..end];
            format!("{start}.. ({all} characters, `sheet show` prints them)")
        }
        None => line.into(),
    }
}
