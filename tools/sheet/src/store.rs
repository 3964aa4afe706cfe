//! A store of weights as text, and the text into its bytes.

use sheetgen::store::{RECORD_BITS, RECORD_BYTES};

use crate::bits::Writer;
use crate::fields::{self, Field, STRATEGIES};
use crate::line::{self, Fault, Line};
use crate::near::did_you_mean;
use crate::show::{hex, number_of};
use crate::text::raw_bits;
use crate::value::{self, Stops, Value};

/// The words that begin a line.
pub const WORDS: [&str; 3] = ["store", "weight", "rest"];

/// For who hands a text over where a store is expected.
pub const HINT: &str =
    "If this is a store's text, `sheet store write` turns it into a store of weights.";

/// The number of a strategy by its name.
pub fn strategy(name: &str) -> Option<u64> {
    let found = STRATEGIES.iter().position(|strategy| *strategy == name);
    found.map(|code| code as u64)
}

/// The whole records of a byte string, and the bytes after them.
pub struct Cut<'a> {
    pub bytes: &'a [u8],
    pub records: usize,
    /// The bytes of a record that is cut short.
    pub rest: usize,
}

impl<'a> Cut<'a> {
    pub fn new(bytes: &'a [u8]) -> Self {
        Self {
            bytes,
            records: bytes.len() / RECORD_BYTES,
            rest: bytes.len() % RECORD_BYTES,
        }
    }

    /// A field of a whole record, counted from 0.
    pub fn value(&self, record: usize, field: &Field) -> Value {
        value::take(self.bytes, RECORD_BITS * record, field)
    }

    /// A whole record as a line; its setting by name where a strategy is given.
    pub fn line(&self, record: usize, strategy: Option<u64>) -> String {
        let field = |field: &Field| {
            let shown = value::show(field, self.value(record, field), &Stops(Vec::new()));
            format!(" {}={shown}", field.name)
        };
        let fields = fields::store_fields(strategy).iter().map(field);
        format!("weight{}", fields.collect::<String>())
    }
}

/// How many lines `show` prints above the records.
pub fn lines_above(strategy: Option<u64>) -> usize {
    1 + usize::from(strategy.is_some())
}

/// A store, refused or not, as text that `write` turns into the same bytes.
pub fn show(bytes: &[u8], strategy: Option<u64>) -> String {
    let cut = Cut::new(bytes);
    let (bytes, records) = (
        number_of(bytes.len(), "byte"),
        number_of(cut.records, "record"),
    );
    let mut lines = vec![format!("# {bytes}, {records}")];
    if let Some(name) = strategy.and_then(|code| STRATEGIES.get(code as usize)) {
        lines.push(format!("store strategy={name}"));
    }
    lines.extend((0..cut.records).map(|record| cut.line(record, strategy)));
    if cut.rest > 0 {
        let (length, rest) = (8 * cut.rest, number_of(cut.rest, "byte"));
        let bits = hex(cut.bytes, RECORD_BITS * cut.records, length);
        lines.push(format!(
            "rest length={length} bits={bits} # cut short: {rest} of a record's {RECORD_BYTES}"
        ));
    }
    lines.push(String::new());
    lines.join("\n")
}

/// The bytes that a text says, or every line that says none.
pub fn write(text: &[u8]) -> Result<Vec<u8>, Vec<Fault>> {
    let text = line::utf8(text, "`sheet store show` makes text of a store");
    let (lines, mut faults) = line::lines(text.map_err(|fault| vec![fault])?);
    let mut writer = Writer::default();
    let named = lines.first().filter(|line| line.word == "store");
    let strategy = match named.map(head) {
        Some(Err(fault)) => {
            faults.push(fault);
            None
        }
        Some(Ok(strategy)) => Some(strategy),
        None => None,
    };
    for (index, line) in lines.iter().enumerate() {
        let one = |fault: Fault| vec![fault];
        let written = match line.word {
            word if line.is_default => Err(one(
                line.fault(format!("{word} default: is no line of a store"))
            )),
            "store" if index == 0 => Ok(()),
            "store" => Err(one(
                line.fault("store: expected once, before every other line".into())
            )),
            _ if index > 0 && lines[index - 1].word == "rest" => Err(one(
                line.fault(format!("{}: expected above the line rest", line.word))
            )),
            "weight" => record(&mut writer, line, strategy),
            "rest" => rest(&mut writer, line).map_err(one),
            _ => Err(one(unknown(line))),
        };
        faults.extend(written.err().into_iter().flatten());
    }
    faults.sort_by_key(|fault| (fault.line, fault.column));
    if faults.is_empty() {
        Ok(writer.finish())
    } else {
        Err(faults)
    }
}

/// The strategy whose weights give the settings their names.
fn head(line: &Line) -> Result<u64, Fault> {
    line.only(&["strategy"])?;
    let expected = format!("expected one of {}", STRATEGIES.join(", "));
    let Some(name) = line.get("strategy") else {
        return Err(line.fault_in("strategy", &format!("is missing; {expected}")));
    };
    strategy(name).ok_or_else(|| {
        let meant = did_you_mean(name, STRATEGIES);
        line.fault_in("strategy", &format!("{expected}, found \"{name}\"{meant}"))
    })
}

/// Writes a record, or names every fault of its line.
fn record(writer: &mut Writer, line: &Line, strategy: Option<u64>) -> Result<(), Vec<Fault>> {
    let fields = fields::store_fields(strategy);
    let names = fields.each_ref().map(|field| field.name);
    let (mut values, mut faults) = (Vec::new(), line.beside(&names, &[]));
    for field in fields {
        match line.get(field.name) {
            None if line.may_mean(field.name, &names) => {}
            None => faults.push(line.lacks(field)),
            Some(text) => match value::parse(field, text, &Stops(Vec::new())) {
                Ok(value) => values.push((field, value)),
                Err(what) => faults.push(wrong(line, field, text, &what, strategy)),
            },
        }
    }
    for (field, value) in values {
        value::put(writer, field, value);
    }
    match faults.is_empty() {
        true => Ok(()),
        false => Err(faults),
    }
}

/// A value that a field cannot have; a setting's name needs a strategy.
fn wrong(line: &Line, field: &Field, text: &str, what: &str, strategy: Option<u64>) -> Fault {
    let by_name = field.name == "setting" && strategy.is_none();
    let named = by_name && !text.starts_with(|c: char| c.is_ascii_digit());
    let more = match named {
        true => "; names need a first line such as store strategy=ETD",
        false => "",
    };
    line.fault_in(field.name, &format!("{what}{more}"))
}

/// The bytes of a record that is cut short.
fn rest(writer: &mut Writer, line: &Line) -> Result<(), Fault> {
    line.only(&["length", "bits"])?;
    let length = line.needed("length", 16)? as usize;
    if !length.is_multiple_of(8) || !(8..RECORD_BITS).contains(&length) {
        let expected = "expected the bits of 1 to 14 bytes, a multiple of 8 from 8 to 112";
        return Err(line.fault_in("length", &format!("{expected}, found \"{length}\"")));
    }
    raw_bits(writer, line, length)
}

fn unknown(line: &Line) -> Fault {
    let word = line.word;
    if fields::KINDS.contains(&word) || word == "sheet" {
        return line.fault(format!(
            "{word}: is a line of a sheet, which `sheet write` writes"
        ));
    }
    let meant = did_you_mean(word, &WORDS);
    line.fault(format!("\"{word}\": expected store, weight or rest{meant}"))
}
