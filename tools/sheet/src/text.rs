//! The text of a sheet into its bytes.

use std::collections::BTreeMap;
use std::path::Path;

use sheetgen::sheet::{across_at, body_bits};

use crate::bits::Writer;
use crate::fields::{self, ACROSS, Absence, Field, KINDS, WEIGHTS};
use crate::line::{self, Fault, Line};
use crate::names::{self, Names};
use crate::near::did_you_mean;
use crate::store;
use crate::value::{self, Stops, Value};
use crate::weights::of_file;

/// For who hands a text over where a sheet is expected.
pub const HINT: &str = "If this is a sheet's text, `sheet write` turns it into a sheet.";

/// Bytes that are printed characters and line ends alone. No accepted sheet is: its first byte is 1 or 2.
pub fn is_text(bytes: &[u8]) -> bool {
    let is_printed = |c: char| !c.is_control() || "\t\r\n".contains(c);
    let text = std::str::from_utf8(bytes).unwrap_or("");
    !text.is_empty() && text.chars().all(is_printed)
}

/// What a text says.
#[derive(Clone, Debug)]
pub struct Written {
    pub bytes: Vec<u8>,
    pub names: Names,
    pub places: Places,
}

/// Which line of a text each bit of its sheet is of.
#[derive(Clone, Debug, Default)]
pub struct Places {
    /// The line of the head, where there is one.
    head: Option<usize>,
    /// The first bit of each record or rest, and its line.
    starts: Vec<(usize, usize)>,
    /// The bits that the text says.
    end: usize,
}

impl Places {
    /// The line of a bit; past the last record, and before the first one, that of the head.
    pub fn line(&self, bit: usize) -> Option<usize> {
        let before = self.starts.iter().rev().find(|start| start.0 <= bit);
        match before {
            Some(start) if bit < self.end => Some(start.1),
            _ => self.head,
        }
    }

    pub fn head(&self) -> Option<usize> {
        self.head
    }
}

/// The bytes that a text says, or every field that says none. A store that a policy names is looked for from `folder` on.
pub fn write(text: &[u8], folder: &Path) -> Result<Vec<u8>, Vec<Fault>> {
    read(text, folder).map(|written| written.bytes)
}

/// The same, with what the text says beside the bytes.
pub fn read(text: &[u8], folder: &Path) -> Result<Written, Vec<Fault>> {
    let text = line::utf8(text, "`sheet show` makes text of a sheet");
    let (lines, faults) = line::lines(text.map_err(|fault| vec![fault])?);
    let stop_lines = lines.iter().filter(|line| line.word == "stop");
    let mut reader = Reader {
        edition: edition(&lines),
        records: lines.iter().filter(|line| is_record(line)).count(),
        stops: Stops(stop_lines.map(stop_id).collect()),
        folder,
        defaults: BTreeMap::new(),
        writer: Writer::default(),
        names: Names::default(),
        places: Places::default(),
        faults,
    };
    reader.read(&lines);
    reader
        .faults
        .sort_by_key(|fault| (fault.line, fault.column));
    reader.places.end = reader.writer.len();
    match reader.faults.is_empty() {
        true => Ok(Written {
            bytes: reader.writer.finish(),
            names: reader.names,
            places: reader.places,
        }),
        false => Err(reader.faults),
    }
}

/// The edition that the first line says where it is the head's, and 1 where none is said.
fn edition(lines: &[Line]) -> u64 {
    let head = lines.first().filter(|line| line.word == "sheet");
    let said = head.and_then(|line| line.number("edition", 8).ok().flatten());
    said.unwrap_or(1)
}

fn is_record(line: &Line) -> bool {
    !line.is_default && (kind(line).is_some() || line.word == "record")
}

/// The kind whose name a line begins with.
fn kind(line: &Line) -> Option<usize> {
    (1..KINDS.len()).find(|k| KINDS[*k] == line.word)
}

fn stop_id(line: &Line) -> Option<u32> {
    line.number("id", 32).ok().flatten().map(|id| id as u32)
}

/// What stands above a line.
#[derive(Clone, Copy, PartialEq, Eq, PartialOrd, Ord)]
enum Before {
    Nothing,
    Record,
    Rest,
}

/// The head comes first and the rest last.
fn place(line: &Line, before: Before) -> Result<(), Fault> {
    match (line.word, before) {
        ("sheet", Before::Record | Before::Rest) => {
            Err(line.fault("sheet: expected once, before every other line".into()))
        }
        (word, Before::Rest) if word != "rest" => {
            Err(line.fault(format!("{word}: expected above the lines of the rest")))
        }
        _ => Ok(()),
    }
}

fn counted(records: usize) -> Result<u64, String> {
    match records {
        0..65_536 => Ok(records as u64),
        _ => Err(format!("records: expected at most 65535, found {records}")),
    }
}

/// Said of a text that has neither a record nor a line that says so.
const NO_RECORD: &str = "the text has no record: the first is a line policy, and `sheet example` prints a text to start from";

/// What a policy says in the place of its six weights.
const OF_A_STORE: [&str; 2] = ["weights", "day"];

/// A text that is being read.
struct Reader<'a> {
    /// That of the line of the head, or 1.
    edition: u64,
    /// How many records the text has.
    records: usize,
    stops: Stops,
    /// Where the stores of weights are looked for.
    folder: &'a Path,
    /// The fields of `car default` so far; one without a value has been named as a fault.
    defaults: BTreeMap<&'static str, Option<Value>>,
    writer: Writer,
    names: Names,
    places: Places,
    faults: Vec<Fault>,
}

impl Reader<'_> {
    fn read(&mut self, lines: &[Line]) {
        if lines.first().is_none_or(|line| line.word != "sheet") {
            self.default_head(lines);
        }
        let mut before = Before::Nothing;
        for line in lines {
            match place(line, before) {
                Ok(()) => self.line(line),
                Err(fault) => self.faults.push(fault),
            }
            before = match line.word {
                "rest" => Before::Rest,
                _ => before.max(Before::Record),
            };
        }
        let head = lines.first().filter(|line| line.word == "sheet");
        let is_said =
            head.is_some_and(|head| ["records", "head"].iter().any(|f| head.get(f).is_some()));
        if self.records == 0 && !is_said && self.faults.is_empty() {
            self.faults.push(Fault {
                line: 1,
                column: 1,
                what: NO_RECORD.into(),
            });
        }
    }

    fn line(&mut self, line: &Line) {
        let at = self.writer.len();
        match (line.word, kind(line)) {
            ("car", Some(kind)) if line.is_default => return self.default_car(line, kind),
            (word, _) if line.is_default => self.faults.push(line.fault(format!(
                "{word} default: is no line; `car default` alone says what holds for later cars"
            ))),
            (_, Some(kind)) => self.named_record(line, kind),
            ("sheet", _) => {
                self.places.head = Some(line.number);
                return self.head(line);
            }
            ("record", _) => self.raw_record(line),
            ("rest", _) => self.rest(line),
            _ => self.faults.push(unknown(line)),
        }
        self.places.starts.push((at, line.number));
    }

    /// What was read, where it could be; a fault is kept.
    fn kept<T>(&mut self, read: Result<T, Fault>) -> Option<T> {
        read.map_err(|fault| self.faults.push(fault)).ok()
    }

    /// Edition 1 and the number of records there are.
    fn default_head(&mut self, lines: &[Line]) {
        let line = lines.last().map_or(1, |line| line.number);
        self.writer.put(8, 1);
        match counted(self.records) {
            Ok(count) => self.writer.put(16, count),
            Err(what) => self.faults.push(Fault {
                line,
                column: 1,
                what,
            }),
        }
    }

    fn head(&mut self, line: &Line) {
        if line.get("head") == Some("none") {
            return self.faults.extend(line.beside(&["head"], &[]));
        }
        if let Some(text) = line.get("head") {
            let what = format!("expected none, found \"{text}\"");
            self.faults.push(line.fault_in("head", &what));
        }
        let fields = ["edition", "records", "head"];
        self.faults.extend(line.beside(&fields, &[]));
        self.kept(line.number("edition", 8));
        let count = match self.kept(line.number("records", 16)).flatten() {
            Some(count) => Some(count),
            None => self.kept(counted(self.records).map_err(|what| line.fault(what))),
        };
        self.writer.put(8, self.edition);
        self.writer.put(16, count.unwrap_or(0));
    }

    fn named_record(&mut self, line: &Line, kind: usize) {
        let fields = match kind {
            1 => match self.strategy(line) {
                Some(strategy) => fields::policy_fields(strategy),
                None => return,
            },
            _ => fields::fields(self.edition, kind),
        };
        let stored = kind == 1 && OF_A_STORE.iter().any(|name| line.get(name).is_some());
        let (own, weights) = fields.split_at(if stored { WEIGHTS } else { fields.len() });
        let mut names: Vec<&str> = fields.iter().map(|field| field.name).collect();
        match kind {
            1 => names.extend(OF_A_STORE),
            2 | 4 => names.push(names::NAME),
            _ => {}
        }
        self.beside(line, kind, &names, &[]);
        self.writer.put(6, kind as u64);
        self.writer.put(16, body_bits(self.edition, kind) as u64);
        for field in own {
            if let Some(value) = self.value(line, kind, field, &names) {
                value::put(&mut self.writer, field, value);
            }
        }
        if stored {
            self.stored_weights(line, weights);
        }
        if let Some(name) = line
            .get(names::NAME)
            .filter(|_| names.contains(&names::NAME))
        {
            self.kept(names::check(name).map_err(|what| line.fault_in(names::NAME, &what)));
            self.names.give(kind, stop_id(line), name);
        }
    }

    /// The fields of a line that its kind does not have; some are named elsewhere.
    fn beside(&mut self, line: &Line, kind: usize, names: &[&str], elsewhere: &[&str]) {
        let early = across_at(kind).is_some() && self.edition != 2 && line.get(ACROSS).is_some();
        let across = if early { &[ACROSS][..] } else { &[] };
        let elsewhere = [elsewhere, across].concat();
        self.faults.extend(line.beside(names, &elsewhere));
        if early {
            let what =
                "is a field of edition 2; the first line of such a text is `sheet edition=2`";
            self.faults.push(line.fault_in(ACROSS, what));
        }
    }

    /// What a line says of a field, or else what a default says; a fault is named.
    fn value(&mut self, line: &Line, kind: usize, field: &Field, names: &[&str]) -> Option<Value> {
        let default = self
            .defaults
            .get(field.name)
            .filter(|_| KINDS[kind] == "car");
        let text = match (line.get(field.name), default) {
            (Some(text), _) => text,
            (None, Some(value)) => return *value,
            (None, None) if field.can_be_none() => "none",
            (None, None) => {
                let is_named = line.may_mean(field.name, names);
                self.faults.extend((!is_named).then(|| line.lacks(field)));
                return None;
            }
        };
        let value = value::parse(field, text, &self.stops);
        self.kept(value.map_err(|what| line.fault_in(field.name, &what)))
    }

    /// Fields that hold for later cars; a later line changes those that it names.
    fn default_car(&mut self, line: &Line, kind: usize) {
        let fields = fields::fields(self.edition, kind);
        let shared = fields.iter().filter(|field| field.name != "id");
        let names: Vec<&str> = shared.clone().map(|field| field.name).collect();
        let own = ["id", names::NAME];
        for name in own.iter().filter(|name| line.get(name).is_some()) {
            let what = "is for each car to say; `car default` says what holds for all later ones";
            self.faults.push(line.fault_in(name, what));
        }
        self.beside(line, kind, &names, &own);
        for field in shared {
            if let Some(text) = line.get(field.name) {
                let value = value::parse(field, text, &self.stops);
                let value = self.kept(value.map_err(|what| line.fault_in(field.name, &what)));
                self.defaults.insert(field.name, value);
            }
        }
    }

    /// The weights of a store for a day; one that the strategy leaves unused stays zero.
    fn stored_weights(&mut self, line: &Line, fields: &[Field]) {
        let own = fields.iter().filter(|field| line.get(field.name).is_some());
        let has_own = own.clone().next().is_some();
        for field in own {
            let what =
                "expected no weight of its own beside weights= and day=, which give all of them";
            self.faults.push(line.fault_in(field.name, what));
        }
        let file = line
            .get("weights")
            .ok_or_else(|| line.fault_in("weights", "is missing; expected the file of a store"));
        let (file, day) = (self.kept(file), self.kept(line.needed("day", 32)));
        let (Some(file), Some(day), false) = (file, day, has_own) else {
            return;
        };
        let six = of_file(&self.folder.join(file), day as u32);
        let six = six.map_err(|what| line.fault_in("weights", &what));
        for (field, weight) in fields.iter().zip(self.kept(six).unwrap_or_default()) {
            let bits = match field.absence {
                Absence::Unused => 0,
                _ => weight.to_bits(),
            };
            let present = true;
            value::put(&mut self.writer, field, Value { present, bits });
        }
    }

    /// The strategy, by which the weights have their names; without one the other fields that every policy has are looked at.
    fn strategy(&mut self, line: &Line) -> Option<u64> {
        let fields = &fields::policy_fields(0)[..WEIGHTS];
        let names: Vec<&str> = fields.iter().map(|field| field.name).collect();
        if let Some(Ok(value)) = line
            .get(fields[0].name)
            .map(|text| value::parse(&fields[0], text, &self.stops))
        {
            return Some(value.bits);
        }
        for field in fields {
            self.value(line, 1, field, &names);
        }
        None
    }

    fn raw_record(&mut self, line: &Line) {
        self.faults
            .extend(line.beside(&["kind", "length", "bits"], &[]));
        let kind = self.kept(line.needed("kind", 6)).unwrap_or(0);
        self.writer.put(6, kind);
        if let Some(length) = self.kept(line.needed("length", 16)) {
            self.writer.put(16, length);
            let read = raw_bits(&mut self.writer, line, length as usize);
            self.kept(read);
        }
    }

    fn rest(&mut self, line: &Line) {
        self.faults.extend(line.beside(&["length", "bits"], &[]));
        if let Some(length) = self.kept(line.needed("length", 32)) {
            let read = raw_bits(&mut self.writer, line, length as usize);
            self.kept(read);
        }
    }
}

/// A line that begins with no word of a sheet's text.
fn unknown(line: &Line) -> Fault {
    let word = line.word;
    if store::WORDS.contains(&word) {
        return line.fault(format!(
            "{word}: is a line of a store of weights, which `sheet store write` writes"
        ));
    }
    let names = KINDS[1..].join(", ");
    let words = [&["sheet", "record", "rest"], &KINDS[1..]].concat();
    let meant = did_you_mean(word, &words);
    let word = word.escape_debug();
    line.fault(format!(
        "\"{word}\": expected sheet, {names}, record or rest{meant}"
    ))
}

/// `length` bits from the hexadecimal digits of the field bits.
pub(crate) fn raw_bits(writer: &mut Writer, line: &Line, length: usize) -> Result<(), Fault> {
    let digits = line.get("bits").unwrap_or("none");
    let digits = if digits == "none" { "" } else { digits };
    let wrong =
        |what: String| line.fault_in("bits", &format!("expected {what}, found \"{digits}\""));
    if digits.len() != length.div_ceil(4) {
        return Err(wrong(format!(
            "{} hexadecimal digits for {length} bits",
            length.div_ceil(4)
        )));
    }
    for (k, digit) in digits.chars().enumerate() {
        let digit = digit
            .to_digit(16)
            .ok_or_else(|| wrong("hexadecimal digits".into()))?;
        let width = 4.min(length - 4 * k);
        let spare = 4 - width;
        if digit & ((1 << spare) - 1) != 0 {
            return Err(wrong(format!("zeros after bit {length} in the last digit")));
        }
        writer.put(width, u64::from(digit >> spare));
    }
    Ok(())
}
