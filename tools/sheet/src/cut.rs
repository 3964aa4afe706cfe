//! A byte string cut into records, as far as that goes. Nothing here says whether a sheet is accepted.

use sheetgen::bits;
use sheetgen::sheet::{HEAD_BITS, RECORD_HEAD_BITS, body_bits};

use crate::fields::{self, Field, KINDS};
use crate::value::{self, Stops, Value};

#[derive(Clone, Copy)]
pub struct Head {
    pub edition: u64,
    pub count: usize,
}

/// A record whose stated body is there.
#[derive(Clone, Copy)]
pub struct Record {
    /// The bit where it starts.
    pub at: usize,
    pub kind: usize,
    /// The stated length of its body, in bits.
    pub length: usize,
    /// The edition of its sheet.
    pub edition: u64,
}

impl Record {
    pub fn body(&self) -> usize {
        self.at + RECORD_HEAD_BITS
    }

    /// The bits of its body by its kind, where that is known.
    pub fn bits(&self) -> Option<usize> {
        let is_known = (1..KINDS.len()).contains(&self.kind);
        is_known.then(|| body_bits(self.edition, self.kind))
    }

    /// Its kind is known and its length is the kind's, so that it has fields.
    pub fn has_fields(&self) -> bool {
        self.bits() == Some(self.length)
    }
}

pub struct Cut<'a> {
    pub bytes: &'a [u8],
    /// `None` where there are fewer than 24 bits.
    pub head: Option<Head>,
    pub records: Vec<Record>,
    /// The bit after the last record that could be cut.
    pub end: usize,
}

impl<'a> Cut<'a> {
    pub fn new(bytes: &'a [u8]) -> Self {
        let mut cut = Cut {
            bytes,
            head: None,
            records: Vec::new(),
            end: 0,
        };
        if cut.bits() < HEAD_BITS {
            return cut;
        }
        let count = bits::get(bytes, 8, 16) as usize;
        cut.head = Some(Head {
            edition: bits::get(bytes, 0, 8),
            count,
        });
        cut.end = HEAD_BITS;
        for _ in 0..count {
            let Some(record) = cut.record_at(cut.end) else {
                break;
            };
            cut.records.push(record);
            cut.end = record.body() + record.length;
        }
        cut
    }

    pub fn bits(&self) -> usize {
        self.bytes.len() * 8
    }

    /// Kind and stated length at a bit, where their 22 bits are there.
    pub fn stated_at(&self, at: usize) -> Option<Record> {
        if at + RECORD_HEAD_BITS > self.bits() {
            return None;
        }
        let kind = bits::get(self.bytes, at, 6) as usize;
        let length = bits::get(self.bytes, at + 6, 16) as usize;
        let edition = self.head.map_or(1, |head| head.edition);
        Some(Record {
            at,
            kind,
            length,
            edition,
        })
    }

    fn record_at(&self, at: usize) -> Option<Record> {
        self.stated_at(at).filter(|stated| self.has_body(stated))
    }

    /// The stated body is there.
    fn has_body(&self, record: &Record) -> bool {
        record.body() + record.length <= self.bits()
    }

    /// The fields of a record that has them; none where its body passes the end.
    pub fn fields(&self, record: &Record) -> &'static [Field] {
        if !record.has_fields() || !self.has_body(record) {
            return &[];
        }
        if record.kind == 1 {
            fields::policy_fields(bits::get(self.bytes, record.body(), 2))
        } else {
            fields::fields(record.edition, record.kind)
        }
    }

    pub fn value(&self, record: &Record, field: &Field) -> Value {
        value::take(self.bytes, record.body(), field)
    }

    /// The bits of the field with this name, where the record has it.
    pub fn named(&self, record: &Record, name: &str) -> Option<u64> {
        let field = self.fields(record).iter().find(|f| f.name == name)?;
        Some(self.value(record, field).bits)
    }

    /// The records of a kind that have its fields.
    pub fn of_kind(&self, kind: usize) -> impl Iterator<Item = &Record> {
        self.records
            .iter()
            .filter(move |r| r.kind == kind && r.has_fields())
    }

    /// The ids of the records of a kind, in record order.
    pub fn ids(&self, kind: usize) -> Vec<u64> {
        let records = self.of_kind(kind);
        records.filter_map(|r| self.named(r, "id")).collect()
    }

    /// A record that the head counts passes the end; it would start at `end`.
    pub fn is_cut_short(&self) -> bool {
        self.head
            .is_some_and(|head| head.count > self.records.len())
    }

    pub fn stops(&self) -> Stops {
        let id = |r: &Record| self.named(r, "id").map(|id| id as u32);
        Stops(self.of_kind(2).map(id).collect())
    }

    /// After the last counted record there are 0 to 7 zero bits, and all counted ones could be cut.
    pub fn is_whole(&self) -> bool {
        let left = self.bits() - self.end;
        let all = self
            .head
            .is_some_and(|head| head.count == self.records.len());
        all && left < 8 && bits::get(self.bytes, self.end, left) == 0
    }
}
