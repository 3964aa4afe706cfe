//! The store of weights, written from document 02 alone: its records and their bits, and what a byte string answers for a day. Refusal 1 is the
//! host's and needs no bytes.

use crate::Refusal;
use crate::bits::{Writer, get};

/// "setting 8 bits (0 to 5, the weight slots), start day 32, issue 16, value 64"
pub const RECORD_BITS: usize = 8 + 32 + 16 + 64;
pub const RECORD_BYTES: usize = RECORD_BITS / 8;
/// "up to 256 records"
pub const MOST_RECORDS: usize = 256;
pub const SLOTS: usize = 6;
/// The weights' range is 0 to this.
pub const MOST_WEIGHT: f64 = 1e9;

#[derive(Clone, Copy, Debug, PartialEq, Eq)]
pub struct Record {
    pub setting: u8,
    pub start: u32,
    pub issue: u16,
    /// The 64 bits of the value.
    pub value: u64,
}

impl Record {
    pub fn new(setting: u8, start: u32, issue: u16, value: f64) -> Self {
        Self {
            setting,
            start,
            issue,
            value: value.to_bits(),
        }
    }

    pub fn double(&self) -> f64 {
        f64::from_bits(self.value)
    }

    /// Setting, day and issue are the same.
    fn agrees(&self, other: &Self) -> bool {
        (self.setting, self.start, self.issue) == (other.setting, other.start, other.issue)
    }
}

pub fn write(records: &[Record]) -> Vec<u8> {
    let mut writer = Writer::default();
    for record in records {
        writer.put(8, record.setting.into());
        writer.put(32, record.start.into());
        writer.put(16, record.issue.into());
        writer.put(64, record.value);
    }
    writer.finish()
}

/// The records that are there whole.
pub fn records(bytes: &[u8]) -> Vec<Record> {
    let starts = (0..bytes.len() / RECORD_BYTES).map(|i| RECORD_BITS * i);
    let record = |at| Record {
        setting: get(bytes, at, 8) as u8,
        start: get(bytes, at + 8, 32) as u32,
        issue: get(bytes, at + 40, 16) as u16,
        value: get(bytes, at + 56, 64),
    };
    starts.map(record).collect()
}

/// A way of reading document 02 wrongly, for a comparison that must find it out.
#[derive(Clone, Copy, Debug, PartialEq, Eq)]
pub enum Fault {
    LowestIssue,
    EarliestStart,
    HighestIssueFirst,
    StartAfterDay,
    StartBeforeDay,
    MinusZeroAsZero,
    ZerosAreOne,
    NextRecordAlone,
    EarlierRecordRefused,
    TwoValuesInTheLookUp,
    HighestMissingSlot,
    ManyRecords,
    OneRecordLess,
    SevenBeforeTwo,
    ElevenBeforeEight,
    NotANumberInside,
    EndsOutside,
    ByteOffset,
    SettingSix,
}

/// Every fault, by name.
pub const FAULTS: [(&str, Fault); 19] = [
    ("lowest_issue", Fault::LowestIssue),
    ("earliest_start", Fault::EarliestStart),
    ("highest_issue_first", Fault::HighestIssueFirst),
    ("start_after_day", Fault::StartAfterDay),
    ("start_before_day", Fault::StartBeforeDay),
    ("minus_zero_as_zero", Fault::MinusZeroAsZero),
    ("zeros_are_one", Fault::ZerosAreOne),
    ("next_record_alone", Fault::NextRecordAlone),
    ("earlier_record_refused", Fault::EarlierRecordRefused),
    ("two_values_in_the_look_up", Fault::TwoValuesInTheLookUp),
    ("highest_missing_slot", Fault::HighestMissingSlot),
    ("many_records", Fault::ManyRecords),
    ("one_record_less", Fault::OneRecordLess),
    ("seven_before_two", Fault::SevenBeforeTwo),
    ("eleven_before_eight", Fault::ElevenBeforeEight),
    ("not_a_number_inside", Fault::NotANumberInside),
    ("ends_outside", Fault::EndsOutside),
    ("byte_offset", Fault::ByteOffset),
    ("setting_six", Fault::SettingSix),
];

/// The bits of the six weights of a store for a day, in slot order; or its refusal, whose offset is the slot for 18.
pub fn weights(bytes: &[u8], day: u32) -> Result<[u64; SLOTS], Refusal> {
    Reading { fault: None }.weights(bytes, day)
}

/// Document 02 as it is read, with at most one fault.
pub struct Reading {
    pub fault: Option<Fault>,
}

impl Reading {
    fn has(&self, fault: Fault) -> bool {
        self.fault == Some(fault)
    }

    pub fn weights(&self, bytes: &[u8], day: u32) -> Result<[u64; SLOTS], Refusal> {
        let records = records(bytes);
        let bits = if self.has(Fault::ByteOffset) {
            RECORD_BYTES
        } else {
            RECORD_BITS
        };
        let at = |record: usize| (bits * record) as u64;
        if let Some((number, record)) = self.record_refused(bytes.len(), &records) {
            let offset = at(record);
            return Err(Refusal { number, offset });
        }
        let missing = self.missing(&records, day);
        let two_values = self.first_disagreeing(&records).map(|record| Refusal {
            number: 17,
            offset: at(record),
        });
        let refusal = if self.has(Fault::TwoValuesInTheLookUp) {
            missing.or(two_values)
        } else {
            two_values.or(missing)
        };
        match refusal {
            Some(refusal) => Err(refusal),
            None => {
                let slot = |slot| self.weight(&records, day, slot).unwrap_or(0);
                Ok(std::array::from_fn(slot))
            }
        }
    }

    /// "Record by record, within each by rising number": the first number that holds, and its record.
    fn record_refused(&self, length: usize, whole: &[Record]) -> Option<(u32, usize)> {
        let count = length.div_ceil(RECORD_BYTES);
        (0..count).find_map(|i| {
            let most = match self.fault {
                Some(Fault::ManyRecords) => MOST_RECORDS + 1,
                Some(Fault::OneRecordLess) => MOST_RECORDS - 1,
                _ => MOST_RECORDS,
            };
            let record = whole.get(i);
            let is_outside = record.is_some_and(|r| self.is_outside(r));
            let numbers = [
                (7, self.has(Fault::SevenBeforeTwo) && i >= most),
                // "2 when the last one is cut short"
                (2, record.is_none()),
                // "7 at a 257th"
                (7, i >= most),
                (11, self.has(Fault::ElevenBeforeEight) && is_outside),
                // "8 for a setting above 5"
                (8, record.is_some_and(|r| self.is_unknown(r))),
                // "11 for a value outside the weights' range"
                (11, is_outside),
            ];
            let first = numbers.iter().find(|(_, holds)| *holds);
            first.map(|(number, _)| (*number, i))
        })
    }

    fn is_unknown(&self, record: &Record) -> bool {
        record.setting > 5 && !(self.has(Fault::SettingSix) && record.setting == 6)
    }

    /// A NaN is outside, minus zero is inside.
    fn is_outside(&self, record: &Record) -> bool {
        let value = record.double();
        match self.fault {
            Some(Fault::NotANumberInside) if value.is_nan() => false,
            Some(Fault::EndsOutside) => !(0.0..MOST_WEIGHT).contains(&value),
            _ => !(0.0..=MOST_WEIGHT).contains(&value),
        }
    }

    /// "17 when two records agree in setting, day and issue but not in value, at the first record that disagrees with an earlier one"
    fn first_disagreeing(&self, records: &[Record]) -> Option<usize> {
        let disagree = |i: usize, j: usize| {
            let is_near = !self.has(Fault::NextRecordAlone) || i + 1 == j;
            is_near && records[i].agrees(&records[j]) && !self.same(&records[i], &records[j])
        };
        let pair = (0..records.len()).find_map(|j| {
            let earlier = (0..j).find(|i| disagree(*i, j));
            earlier.map(|i| (i, j))
        });
        pair.map(|(i, j)| {
            if self.has(Fault::EarlierRecordRefused) {
                i
            } else {
                j
            }
        })
    }

    /// "Two values are the same from now on only if all 64 bits agree"
    fn same(&self, one: &Record, other: &Record) -> bool {
        if self.has(Fault::ZerosAreOne) {
            one.double() == other.double()
        } else {
            one.value == other.value
        }
    }

    /// "18 when a slot has no record for the day, with the lowest such slot in the offset's stead"
    fn missing(&self, records: &[Record], day: u32) -> Option<Refusal> {
        let is_missing = |slot: &usize| self.weight(records, day, *slot).is_none();
        let mut slots = 0..SLOTS;
        let slot = if self.has(Fault::HighestMissingSlot) {
            slots.rfind(is_missing)
        } else {
            slots.find(is_missing)
        };
        slot.map(|slot| Refusal {
            number: 18,
            offset: slot as u64,
        })
    }

    /// "each slot takes the record with the latest start not after it, and of these the highest issue"
    fn weight(&self, records: &[Record], day: u32, slot: usize) -> Option<u64> {
        let is_started = |record: &&Record| match self.fault {
            Some(Fault::StartAfterDay) => record.start <= day.saturating_add(1),
            Some(Fault::StartBeforeDay) => record.start < day,
            _ => record.start <= day,
        };
        let of_slot = records.iter().filter(|r| usize::from(r.setting) == slot);
        let started: Vec<&Record> = of_slot.filter(is_started).collect();
        let starts = started.iter().map(|r| r.start);
        let issues = started.iter().map(|r| r.issue);
        let latest = match self.fault {
            Some(Fault::EarliestStart) => starts.min()?,
            Some(Fault::HighestIssueFirst) => {
                let highest = issues.max()?;
                let of_issue = started.iter().filter(|r| r.issue == highest);
                of_issue.map(|r| r.start).max()?
            }
            _ => starts.max()?,
        };
        let of_start = started.iter().filter(|r| r.start == latest);
        let issues = of_start.clone().map(|r| r.issue);
        let issue = if self.has(Fault::LowestIssue) {
            issues.min()?
        } else {
            issues.max()?
        };
        let taken = of_start.clone().find(|r| r.issue == issue)?;
        Some(self.given(taken))
    }

    /// "The look-up then hands back the stored bits"
    fn given(&self, record: &Record) -> u64 {
        let is_changed = record.double() == 0.0 && self.has(Fault::MinusZeroAsZero);
        if is_changed { 0 } else { record.value }
    }
}

/// The record that a slot takes for a day, of an accepted store: its number, from 0.
pub fn taken(records: &[Record], day: u32, slot: usize) -> Option<usize> {
    let is_of_slot = |r: &Record| usize::from(r.setting) == slot && r.start <= day;
    let of_slot = (0..records.len()).filter(|i| is_of_slot(&records[*i]));
    let best = of_slot
        .clone()
        .map(|i| (records[i].start, records[i].issue))
        .max()?;
    of_slot
        .clone()
        .find(|i| (records[*i].start, records[*i].issue) == best)
}

#[cfg(test)]
mod tests {
    use super::*;

    /// Document 02's bits, written out by hand: setting 3, start 20,454, issue 2, value 1.5.
    #[test]
    fn a_record_by_hand() {
        let record = Record::new(3, 20_454, 2, 1.5);
        let bytes = [3, 0, 0, 0x4f, 0xe6, 0, 2, 0x3f, 0xf8, 0, 0, 0, 0, 0, 0];
        assert_eq!(write(&[record]), bytes);
        assert_eq!(records(&bytes), [record]);
        assert_eq!(records(&bytes[..14]), []);
    }
}
