//! The look-up as it is usually written: every record is read and tested once, records that agree in setting, start and issue are found by comparing
//! each with those before it, by a sort or by a table, and one walk keeps the best record of each slot.

use std::collections::HashMap;

/// Number and offset.
pub type Refused = (u32, u64);

struct Record {
    setting: u8,
    start: u32,
    issue: u16,
    /// The value's bits.
    value: u64,
}

impl Record {
    fn of(bytes: &[u8; 15]) -> Self {
        let [setting, a, b, c, d, e, f, value @ ..] = *bytes;
        Self {
            setting,
            start: u32::from_be_bytes([a, b, c, d]),
            issue: u16::from_be_bytes([e, f]),
            value: u64::from_be_bytes(value),
        }
    }

    /// Setting, start and issue as one number.
    fn key(&self) -> u64 {
        u64::from(self.setting) << 48 | u64::from(self.start) << 16 | u64::from(self.issue)
    }
}

/// 2, 7, 8 and 11, record by record.
fn read(store: &[u8]) -> Result<Vec<Record>, Refused> {
    let mut records = Vec::with_capacity(store.len() / 15);
    let (whole, rest) = store.as_chunks::<15>();
    for (i, bytes) in whole.iter().enumerate() {
        let record = Record::of(bytes);
        let number = if i >= 256 {
            7
        } else if record.setting > 5 {
            8
        } else if !(0.0..=1e9).contains(&f64::from_bits(record.value)) {
            11
        } else {
            records.push(record);
            continue;
        };
        return Err((number, 120 * i as u64));
    }
    match rest {
        [] => Ok(records),
        _ => Err((2, 120 * whole.len() as u64)),
    }
}

/// The first record that disagrees with an earlier one, pair by pair, as document 02 says it.
fn disagreeing_by_pairs(records: &[Record]) -> Option<usize> {
    let keys: Vec<u64> = records.iter().map(Record::key).collect();
    (0..keys.len())
        .find(|&j| (0..j).any(|i| keys[i] == keys[j] && records[i].value != records[j].value))
}

/// The same by a sort of the keys.
fn disagreeing_by_sort(records: &[Record]) -> Option<usize> {
    let mut keys: Vec<(u64, usize)> = records
        .iter()
        .enumerate()
        .map(|(i, record)| (record.key(), i))
        .collect();
    keys.sort_unstable();
    let groups = keys.chunk_by(|a, b| a.0 == b.0);
    let first = |group: &[(u64, usize)]| {
        let value = records[group[0].1].value;
        let other = group.iter().find(|(_, i)| records[*i].value != value);
        other.map(|(_, i)| *i)
    };
    groups.filter_map(first).min()
}

/// And by a table of what was seen.
fn disagreeing_by_table(records: &[Record]) -> Option<usize> {
    let mut seen = HashMap::with_capacity(records.len());
    records
        .iter()
        .position(|record| *seen.entry(record.key()).or_insert(record.value) != record.value)
}

/// The best record of each slot; 18 for the lowest slot without one.
fn look_up(records: &[Record], day: u32) -> Result<[f64; 6], Refused> {
    let mut best: [Option<&Record>; 6] = [None; 6];
    for record in records.iter().filter(|record| record.start <= day) {
        let taken = &mut best[usize::from(record.setting)];
        if taken.is_none_or(|taken| record.key() > taken.key()) {
            *taken = Some(record);
        }
    }
    let mut six = [0.0; 6];
    for (slot, record) in best.iter().enumerate() {
        six[slot] = f64::from_bits(record.ok_or((18, slot as u64))?.value);
    }
    Ok(six)
}

pub fn by_pairs(store: &[u8], day: u32) -> Result<[f64; 6], Refused> {
    let records = read(store)?;
    match disagreeing_by_pairs(&records) {
        Some(i) => Err((17, 120 * i as u64)),
        None => look_up(&records, day),
    }
}

pub fn by_sort(store: &[u8], day: u32) -> Result<[f64; 6], Refused> {
    let records = read(store)?;
    match disagreeing_by_sort(&records) {
        Some(i) => Err((17, 120 * i as u64)),
        None => look_up(&records, day),
    }
}

pub fn by_table(store: &[u8], day: u32) -> Result<[f64; 6], Refused> {
    let records = read(store)?;
    match disagreeing_by_table(&records) {
        Some(i) => Err((17, 120 * i as u64)),
        None => look_up(&records, day),
    }
}
