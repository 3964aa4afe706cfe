//! What else would be refused of a sheet: each fault that the library names is mended in a copy, and the library is asked again. A verdict is
//! always the library's; what stands here only changes the copy, by a value that the field surely may have.

use dispatch_bench::Refusal;
use sheetgen::bits;
use sheetgen::sheet::{ACROSS_BITS, EDITIONS, HEAD_BITS, RECORD_HEAD_BITS, across_at, body_bits};

use crate::bits::{Writer, set};
use crate::cut::{Cut, Record};
use crate::faults::{self, Fault};
use crate::fields::{Absence, Field, Form, KINDS, Names, Range};

/// The most faults that are named beside the first, and the most that are mended.
const NAMED: usize = 30;
const MENDED: usize = 200;

/// A fault that would be refused once the ones before it are mended.
pub struct Also {
    pub number: u32,
    /// Where it is, in the sheet as it came; `None` is the tail.
    pub record: Option<Record>,
    pub fault: Option<Fault>,
}

/// How the mending ended.
#[derive(Clone, Copy, Debug, PartialEq, Eq)]
pub enum End {
    /// The library accepts the copy.
    Accepted,
    /// There are more faults than are named.
    More,
    /// From some record on the others cannot be told apart.
    Untold,
}

pub struct Further {
    pub also: Vec<Also>,
    pub end: End,
}

/// What would be refused after the first refusal.
pub fn further(cut: &Cut) -> Further {
    let mut copy = Copy::of(cut);
    let mut also = Vec::new();
    let ended = |also, end| Further { also, end };
    if cut.head.is_none() {
        return ended(also, End::Untold);
    }
    for round in 0..MENDED {
        let bytes = copy.bytes();
        let Err(refusal) = dispatch_bench::read(&bytes) else {
            return ended(also, End::Accepted);
        };
        let found = copy.found(&bytes, refusal);
        if round > 0 && !copy.follows(&found) {
            if also.len() == NAMED {
                break;
            }
            also.push(copy.named(cut, &found));
        }
        if !copy.mend(&found) {
            return ended(also, End::Untold);
        }
    }
    ended(also, End::More)
}

/// What the library refuses of the copy.
struct Found {
    number: u32,
    /// The place of the refused record; `None` for the head and the tail.
    index: Option<usize>,
    fault: Option<Fault>,
    /// The field at fault, where it stands in the body.
    field: Option<Field>,
}

/// A record of the copy.
struct Piece {
    /// Its place among the records of the sheet as it came; `None` for one that was added.
    origin: Option<usize>,
    kind: usize,
    /// The bits of its body, the last byte filled up.
    body: Vec<u8>,
    length: usize,
    /// Its body was made to fit, so that what it holds says nothing of the sheet.
    is_fitted: bool,
}

/// A sheet that is mended.
struct Copy {
    edition: u64,
    /// How many records the head counts past those that are there.
    lacking: usize,
    pieces: Vec<Piece>,
    /// The bits that follow the last record.
    rest: Vec<u8>,
    rest_length: usize,
    /// Stops, lines and cars that were left out, by kind and id.
    gone: Vec<(usize, u64)>,
}

/// Bits of a byte string as bytes of their own.
fn taken(bytes: &[u8], at: usize, length: usize) -> Vec<u8> {
    let mut writer = Writer::default();
    copied(&mut writer, bytes, at, length);
    writer.finish()
}

fn copied(writer: &mut Writer, bytes: &[u8], at: usize, length: usize) {
    for from in (0..length).step_by(32) {
        let width = 32.min(length - from);
        writer.put(width, bits::get(bytes, at + from, width));
    }
}

impl Copy {
    fn of(cut: &Cut) -> Self {
        let piece = |(origin, record): (usize, &Record)| Piece {
            origin: Some(origin),
            kind: record.kind,
            body: taken(cut.bytes, record.body(), record.length),
            length: record.length,
            is_fitted: false,
        };
        let count = cut.head.map_or(0, |head| head.count);
        let rest_length = if cut.is_whole() {
            0
        } else {
            cut.bits() - cut.end
        };
        Self {
            edition: cut.head.map_or(0, |head| head.edition),
            lacking: count - cut.records.len(),
            pieces: cut.records.iter().enumerate().map(piece).collect(),
            rest: taken(cut.bytes, cut.end, rest_length),
            rest_length,
            gone: Vec::new(),
        }
    }

    fn bytes(&self) -> Vec<u8> {
        let mut writer = Writer::default();
        writer.put(8, self.edition);
        // A policy that was added may be one record more than the head can count.
        writer.put(16, (self.pieces.len() + self.lacking).min(65_535) as u64);
        for piece in &self.pieces {
            writer.put(6, piece.kind as u64);
            writer.put(16, piece.length as u64);
            copied(&mut writer, &piece.body, 0, piece.length);
        }
        copied(&mut writer, &self.rest, 0, self.rest_length);
        writer.finish()
    }

    /// The piece that starts at a bit.
    fn at(&self, offset: u64) -> Option<usize> {
        let mut start = HEAD_BITS;
        self.pieces.iter().position(|piece| {
            let here = start;
            start += RECORD_HEAD_BITS + piece.length;
            here as u64 == offset
        })
    }

    /// Which record and field of the copy is refused.
    fn found(&self, bytes: &[u8], refusal: Refusal) -> Found {
        let Refusal { number, offset } = refusal;
        let cut = Cut::new(bytes);
        let index = self.at(offset);
        let record = index.and_then(|index| cut.records.get(index));
        let fault = record.and_then(|record| faults::find(&cut, record, number));
        let fields = record.map_or(&[][..], |record| cut.fields(record));
        let is_at_fault = |field: &&Field| fault.as_ref().is_some_and(|f| f.field == field.name);
        Found {
            number,
            index,
            field: fields.iter().find(is_at_fault).copied(),
            fault,
        }
    }

    /// The fault in words of the sheet as it came, where that has it in the same field.
    fn named(&self, cut: &Cut, found: &Found) -> Also {
        let origin = found.index.and_then(|index| self.pieces[index].origin);
        let record = origin.and_then(|origin| cut.records.get(origin)).copied();
        let as_it_came = record.and_then(|record| faults::find(cut, &record, found.number));
        let name = |fault: &Option<Fault>| fault.as_ref().map(|fault| fault.field);
        let is_same = name(&as_it_came) == name(&found.fault);
        Also {
            number: found.number,
            record,
            fault: if is_same {
                as_it_came
            } else {
                found.fault.clone()
            },
        }
    }

    /// A refusal that is there only since something was left out or made to fit.
    fn follows(&self, found: &Found) -> bool {
        let Some(index) = found.index else {
            return false;
        };
        let names_gone = found.field.is_some_and(|field| match field.form {
            Form::Id(Names::Record(kind)) => self.gone.contains(&(kind, self.get(index, &field))),
            _ => false,
        });
        self.pieces[index].is_fitted || found.number == 10 && names_gone
    }
}

/// What is changed of the copy.
impl Copy {
    /// Mends what is refused; `false` where nothing that follows could be told apart.
    fn mend(&mut self, found: &Found) -> bool {
        match found.number {
            3 => return self.mend_edition(),
            16 => {
                (self.rest, self.rest_length) = (Vec::new(), 0);
                return true;
            }
            _ => {}
        }
        let Some(index) = found.index else {
            return false;
        };
        // A kind or a length that leads past the end, or short of it, is damaged.
        let is_whole = self.lacking == 0 && self.rest_length == 0;
        match found.number {
            4 if is_whole => self.leave_out(index),
            5 if is_whole => {
                if !self.mend_edition() {
                    self.fit(index);
                }
            }
            4 | 5 => return false,
            6 => self.put_in_order(index),
            7 => self.leave_out(index),
            number => match &found.field {
                Some(field) => self.mend_field(index, number, field),
                None => return false,
            },
        }
        true
    }

    /// The edition by which every record has its kind's length.
    fn mend_edition(&mut self) -> bool {
        let fits = |edition: u64| {
            let mut pieces = self.pieces.iter();
            let known = 1..KINDS.len();
            pieces.all(|p| known.contains(&p.kind) && p.length == body_bits(edition, p.kind))
        };
        let found = EDITIONS.into_iter().find(|edition| fits(*edition));
        let is_whole = self.lacking == 0 && self.rest_length == 0 && !self.pieces.is_empty();
        match found.filter(|_| is_whole) {
            Some(edition) => {
                self.edition = edition;
                true
            }
            None => false,
        }
    }

    /// Gives a record its kind's length: without the second coordinate of the other edition, or with one, or cut, or filled up with zeros.
    fn fit(&mut self, index: usize) {
        let (edition, piece) = (self.edition, &mut self.pieces[index]);
        let wanted = body_bits(edition, piece.kind);
        let other = EDITIONS.into_iter().find(|e| *e != edition).unwrap_or(1);
        let across = across_at(piece.kind).filter(|_| body_bits(other, piece.kind) == piece.length);
        let mut writer = Writer::default();
        match across {
            Some(at) => {
                copied(&mut writer, &piece.body, 0, at);
                let after = match piece.length > wanted {
                    true => at + ACROSS_BITS,
                    false => {
                        writer.put(ACROSS_BITS, 0);
                        at
                    }
                };
                copied(&mut writer, &piece.body, after, piece.length - after);
            }
            None => {
                copied(&mut writer, &piece.body, 0, piece.length.min(wanted));
                piece.is_fitted = true;
            }
        }
        while writer.len() < wanted {
            writer.put(1, 0);
        }
        (piece.body, piece.length) = (writer.finish(), wanted);
    }

    /// Moves a record to where its kind belongs. A second policy is left out; where there is none, one is added.
    fn put_in_order(&mut self, index: usize) {
        let policy = self.pieces.iter().position(|piece| piece.kind == 1);
        match (index, policy) {
            (0, Some(policy)) => self.pieces[..=policy].rotate_right(1),
            (0, None) => self.pieces.insert(0, plain_policy()),
            _ if self.pieces[index].kind == 1 => drop(self.pieces.remove(index)),
            _ => {
                let kind = self.pieces[index].kind;
                let before = self.pieces.iter().position(|piece| piece.kind > kind);
                let to = before.unwrap_or(index).min(index);
                self.pieces[to..=index].rotate_right(1);
            }
        }
    }

    /// Leaves a record out; those that name it are then without it, which is no fault of theirs. One of an unknown kind may be of any.
    fn leave_out(&mut self, index: usize) {
        let (own, id) = (self.pieces[index].kind, self.id(index));
        let is_known = (1..KINDS.len()).contains(&own);
        let kinds = (2..=4).filter(|kind| *kind == own || !is_known);
        self.gone.extend(kinds.map(|kind| (kind, id)));
        self.pieces.remove(index);
    }

    fn mend_field(&mut self, index: usize, number: u32, field: &Field) {
        match (number, field.form, field.absence) {
            (8, Form::Code(..), _) => self.mend_code(index, field),
            (9 | 10, Form::Id(names), Absence::Never) => self.mend_id(index, field, names),
            // The stop of a car that moves needs no record.
            (9, _, Absence::Zeros) => self.set(index, field, 1),
            (10, Form::Mask, _) => {
                let stops = self.of_kind(2).filter(|k| *k < index).count();
                let all = u64::MAX.checked_shl(64 - stops as u32).unwrap_or(0);
                let held = self.get(index, field);
                self.set(index, field, held & all);
            }
            (11, Form::Double(Range::TickRate), _) => self.set(index, field, 1f64.to_bits()),
            (12, ..) => self.set(index, field, 1),
            (13, ..) => {
                // Both ticks stand side by side.
                self.set(index, field, 0);
                let at = field.at + field.form.width();
                self.set(index, &Field { at, ..*field }, 0);
            }
            (8 | 9, ..) => self.set_absent(index, field),
            _ => self.set(index, field, 0),
        }
    }

    /// A strategy that uses every weight; a phase that has a stop where there is one.
    fn mend_code(&mut self, index: usize, field: &Field) {
        let has_stop = bits::get(&self.pieces[index].body, 67, 32) != 0;
        let code = match field.name {
            "strategy" => 1,
            _ => u64::from(has_stop),
        };
        self.set(index, field, code);
    }

    /// An id that is 0, that another record has, or that no record has.
    fn mend_id(&mut self, index: usize, field: &Field, names: Names) {
        let kind = self.pieces[index].kind;
        match names {
            Names::Itself if kind == 2 && self.is_unlike_earlier(index) => self.merge_stops(index),
            Names::Itself => {
                let fresh = self.unused(kind);
                self.set(index, field, fresh);
                if kind == 2 {
                    self.sort_stops();
                }
            }
            Names::Record(other) => match self.to_name(index, other) {
                Some(id) => self.set(index, field, id),
                None => self.leave_out(index),
            },
            Names::Anything => self.set(index, field, 0),
        }
    }

    /// A stop whose id no earlier one has, and that is not 0.
    fn is_unlike_earlier(&self, index: usize) -> bool {
        let id = self.id(index);
        let mut earlier = self.of_kind(2).filter(|k| *k < index);
        id != 0 && earlier.all(|k| self.id(k) != id)
    }

    /// Puts the rising run of stops that begins here among the rising ones before it. The order of stops changes what masks mean, and nothing
    /// of what is refused.
    fn merge_stops(&mut self, index: usize) {
        let first = self.of_kind(2).next().unwrap_or(index);
        let mut end = index + 1;
        while self.pieces.get(end).is_some_and(|p| p.kind == 2) && self.id(end) > self.id(end - 1) {
            end += 1;
        }
        self.pieces[first..end].sort_by_key(|piece| bits::get(&piece.body, 0, 32));
    }

    /// Stops in the order of their ids.
    fn sort_stops(&mut self) {
        let stops: Vec<usize> = self.of_kind(2).collect();
        let (Some(first), Some(last)) = (stops.first(), stops.last()) else {
            return;
        };
        if last - first + 1 == stops.len() {
            self.pieces[*first..=*last].sort_by_key(|piece| bits::get(&piece.body, 0, 32));
        }
    }

    /// An id that no record of a kind has: above all of them, where that can be.
    fn unused(&self, kind: usize) -> u64 {
        let ids: Vec<u64> = self.of_kind(kind).map(|k| self.id(k)).collect();
        let above = ids.iter().max().map_or(1, |most| most + 1);
        match above <= u64::from(u32::MAX) {
            true => above,
            false => (1..).find(|id| !ids.contains(id)).unwrap_or(1),
        }
    }

    /// An id of an earlier record that a record may name: of demands and closures a stop that no other one names.
    fn to_name(&self, index: usize, kind: usize) -> Option<u64> {
        let own = self.pieces[index].kind;
        let named: Vec<u64> = match own {
            7 | 8 => self.of_kind(own).map(|k| self.id(k)).collect(),
            _ => Vec::new(),
        };
        let ids = self.of_kind(kind).filter(|k| *k < index);
        let mut ids = ids.map(|k| self.id(k)).filter(|id| *id != 0);
        ids.find(|id| !named.contains(id))
    }

    /// The places of the records of a kind.
    fn of_kind(&self, kind: usize) -> impl Iterator<Item = usize> + '_ {
        (0..self.pieces.len()).filter(move |k| self.pieces[*k].kind == kind)
    }

    /// The first 32 bits of a body, which are its id, or that of the stop or car that it names.
    fn id(&self, index: usize) -> u64 {
        let piece = &self.pieces[index];
        match piece.length >= 32 {
            true => bits::get(&piece.body, 0, 32),
            false => 0,
        }
    }

    fn get(&self, index: usize, field: &Field) -> u64 {
        let at = field.at + usize::from(field.absence == Absence::PresentBit);
        bits::get(&self.pieces[index].body, at, field.form.width())
    }

    fn set(&mut self, index: usize, field: &Field, value: u64) {
        let at = field.at + usize::from(field.absence == Absence::PresentBit);
        let body = &mut self.pieces[index].body;
        set(body, at, field.form.width(), value);
    }

    /// Zeros, and no present bit.
    fn set_absent(&mut self, index: usize, field: &Field) {
        self.set(index, field, 0);
        if field.absence == Absence::PresentBit {
            set(&mut self.pieces[index].body, field.at, 1, 0);
        }
    }
}

/// A policy of SCAN, whose weights are unused.
fn plain_policy() -> Piece {
    let mut writer = Writer::default();
    writer.put(2, 2);
    writer.put(16, 1);
    writer.put(64, 1.0_f64.to_bits());
    while writer.len() < body_bits(1, 1) {
        writer.put(1, 0);
    }
    Piece {
        origin: None,
        kind: 1,
        length: writer.len(),
        body: writer.finish(),
        is_fitted: true,
    }
}
