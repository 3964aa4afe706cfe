//! Stores of weights from a seed, with the day that they are asked for. A case depends on profile, seed and index alone.

use std::collections::HashMap;

use crate::rng::Rng;
use crate::store::{MOST_RECORDS, MOST_WEIGHT, RECORD_BYTES, Record, SLOTS, write};

#[derive(Clone, Copy, Debug, PartialEq, Eq)]
pub enum Profile {
    /// Corrections and starts ahead, every slot with a record.
    Valid,
    /// Few days and issues, records repeated, zeros of both signs.
    Ties,
    /// One setting, day and issue with more than one value, next to each other or far apart.
    TwoValues,
    /// A value at an end of the range or one step outside, a NaN, an infinity, any bits.
    Ranges,
    /// A setting above 5.
    Settings,
    /// 250 to 260 records, the last one whole or cut short.
    Most,
    /// A small store cut at each of its bytes in turn.
    Cut,
    /// One slot, or several, without a record for the day.
    Missing,
    /// One to three flipped bits, a cut, bytes added.
    Damaged,
    /// Bytes without a plan.
    Garbage,
}

pub const PROFILES: [(&str, Profile); 10] = [
    ("valid", Profile::Valid),
    ("ties", Profile::Ties),
    ("two_values", Profile::TwoValues),
    ("ranges", Profile::Ranges),
    ("settings", Profile::Settings),
    ("most", Profile::Most),
    ("cut", Profile::Cut),
    ("missing", Profile::Missing),
    ("damaged", Profile::Damaged),
    ("garbage", Profile::Garbage),
];

/// A store and what it is asked for.
#[derive(Clone, Debug, PartialEq)]
pub struct Case {
    pub bytes: Vec<u8>,
    pub day: u32,
    /// How many places are lent.
    pub places: usize,
}

pub fn generate(profile: Profile, seed: u64, index: u64) -> Case {
    let mut rng = Rng::new(seed, 1_000 + profile as u64, index);
    let rng = &mut rng;
    let mut records = match profile {
        Profile::Ties | Profile::TwoValues => close(rng),
        Profile::Most => {
            let count = 250 + rng.below(11);
            many(rng, count)
        }
        Profile::Cut => (0..6).map(|slot| plain(rng, slot)).collect(),
        Profile::Garbage => Vec::new(),
        _ => {
            let count = SLOTS + rng.below(40);
            many(rng, count)
        }
    };
    spoil(rng, profile, &mut records);
    let day = day(rng, &records);
    if profile == Profile::Missing {
        remove(rng, day, &mut records);
    }
    let mut bytes = write(&records);
    spoil_bytes(rng, profile, index, &mut bytes);
    let places = if rng.one_in(50) {
        rng.below(SLOTS)
    } else {
        SLOTS + rng.below(3)
    };
    Case { bytes, day, places }
}

/// Ordinary weights, zeros of both signs, the ends of the range, subnormals.
fn value(rng: &mut Rng) -> f64 {
    match rng.below(10) {
        0 => 0.0,
        1 => -0.0,
        2 => MOST_WEIGHT,
        3 => f64::from_bits(1 + rng.next() % 4),
        4 => MOST_WEIGHT * rng.unit(),
        5 => 10f64.powi(rng.below(320) as i32 - 310) * rng.unit(),
        _ => rng.below(4_096) as f64 / 64.0,
    }
}

fn plain(rng: &mut Rng, setting: usize) -> Record {
    let start = rng.pick(&[0, 1, 5, 20_454, 20_635, u32::MAX]);
    Record::new(setting as u8, start, rng.below(3) as u16, value(rng))
}

/// Records whose values agree wherever setting, day and issue do.
fn agreeing(rng: &mut Rng, keys: impl IntoIterator<Item = (u8, u32, u16)>) -> Vec<Record> {
    let mut known = HashMap::new();
    let mut records = Vec::new();
    for (setting, start, issue) in keys {
        let drawn = value(rng);
        let value: f64 = *known.entry((setting, start, issue)).or_insert(drawn);
        records.push(Record::new(setting, start, issue, value));
    }
    shuffle(rng, &mut records);
    records
}

/// So many records, each slot with one from an early day on.
fn many(rng: &mut Rng, count: usize) -> Vec<Record> {
    let span = rng.pick(&[4, 400, 1 << 32]);
    let issues = rng.pick(&[2, 6, 1 << 16]);
    let key = |rng: &mut Rng, i: usize| {
        let slot = if i < SLOTS { i } else { rng.below(SLOTS) };
        let start = if i < SLOTS && rng.below(4) != 0 {
            rng.below(3)
        } else {
            rng.below(span)
        };
        (slot as u8, start as u32, rng.below(issues) as u16)
    };
    let keys: Vec<_> = (0..count).map(|i| key(rng, i)).collect();
    agreeing(rng, keys)
}

/// Few settings, days and issues, so that most records have others that agree with them.
fn close(rng: &mut Rng) -> Vec<Record> {
    let count = if rng.one_in(8) {
        200 + rng.below(57)
    } else {
        SLOTS + rng.below(60)
    };
    let first = rng.pick(&[0, 20_454, u32::MAX - 2]);
    let (days, issues) = (1 + rng.below(3), 1 + rng.below(3));
    let key = |rng: &mut Rng, i: usize| {
        let slot = if i < SLOTS { i } else { rng.below(SLOTS) };
        let start = first + rng.below(days) as u32;
        let issue = rng.pick(&[0, 1, u16::MAX][..issues]);
        (slot as u8, start, issue)
    };
    let keys: Vec<_> = (0..count).map(|i| key(rng, i)).collect();
    agreeing(rng, keys)
}

fn shuffle(rng: &mut Rng, records: &mut [Record]) {
    for i in (1..records.len()).rev() {
        records.swap(i, rng.below(i + 1));
    }
}

fn any(rng: &mut Rng, records: &[Record]) -> usize {
    rng.below(records.len())
}

/// What a profile does to whole records.
fn spoil(rng: &mut Rng, profile: Profile, records: &mut Vec<Record>) {
    match profile {
        Profile::TwoValues => {
            for _ in 0..1 + rng.below(2) {
                disagree(rng, records);
            }
        }
        Profile::Ranges => {
            let i = any(rng, records);
            records[i].value = at_the_ends(rng);
        }
        Profile::Settings => {
            let i = any(rng, records);
            records[i].setting = rng.pick(&[5, 6, 7, 127, 128, 255]);
            if rng.one_in(4) {
                records[i].value = at_the_ends(rng);
            }
        }
        _ => {}
    }
}

/// A record again, with another value, with the next double, or the two as zeros of either sign.
fn disagree(rng: &mut Rng, records: &mut Vec<Record>) {
    let i = any(rng, records);
    let mut other = records[i];
    other.value = match rng.below(4) {
        0 | 1 => other.value ^ 1,
        2 => value(rng).to_bits(),
        _ => {
            let zero: f64 = rng.pick(&[0.0, -0.0]);
            records[i].value = zero.to_bits();
            (-zero).to_bits()
        }
    };
    let at = if rng.flag() {
        i + 1
    } else {
        rng.below(records.len() + 1)
    };
    records.insert(at, other);
}

/// The bits of a double at an end of the range, one step outside, or of another sort.
fn at_the_ends(rng: &mut Rng) -> u64 {
    let most = MOST_WEIGHT.to_bits();
    let minus = 1 << 63;
    let nan = 0x7ff8_0000_0000_0000;
    let any_bits = rng.next();
    rng.pick(&[
        0,
        minus,
        1,
        minus + 1,
        most,
        most + 1,
        most - 1,
        minus + most,
        nan,
        nan - 1,
        nan + minus,
        u64::MAX,
        f64::INFINITY.to_bits(),
        f64::NEG_INFINITY.to_bits(),
        f64::INFINITY.to_bits() - 1,
        any_bits,
    ])
}

/// 0, the last day, or near the start of a record.
fn day(rng: &mut Rng, records: &[Record]) -> u32 {
    let start = match records.len() {
        0 => 0,
        _ => records[any(rng, records)].start,
    };
    match rng.below(8) {
        0 => 0,
        1 => u32::MAX,
        2 => rng.next() as u32,
        3 => start.saturating_sub(1),
        4 => start.saturating_add(1),
        _ => start,
    }
}

/// Takes from a slot, or from several, what has started; or lets it start later.
fn remove(rng: &mut Rng, day: u32, records: &mut Vec<Record>) {
    for _ in 0..1 + rng.below(3) {
        let slot = rng.below(SLOTS);
        let is_later = rng.flag() && day < u32::MAX;
        let is_taken = |r: &Record| usize::from(r.setting) == slot && r.start <= day;
        if is_later {
            for record in records.iter_mut().filter(|r| is_taken(r)) {
                record.start = day + 1;
            }
        } else {
            records.retain(|r| !is_taken(r));
        }
    }
}

/// What a profile does to the bytes.
fn spoil_bytes(rng: &mut Rng, profile: Profile, index: u64, bytes: &mut Vec<u8>) {
    match profile {
        Profile::Cut => bytes.truncate(index as usize % (bytes.len() + 1)),
        Profile::Most if rng.one_in(3) => {
            let left = bytes.len() - rng.below(RECORD_BYTES);
            bytes.truncate(left);
        }
        Profile::Damaged => damage(rng, bytes),
        Profile::Garbage => {
            let most = rng.pick(&[1, RECORD_BYTES, 100, RECORD_BYTES * (MOST_RECORDS + 2)]);
            let low = rng.flag();
            for _ in 0..rng.below(most + 1) {
                let byte = rng.next() as u8;
                bytes.push(if low { byte & 1 } else { byte });
            }
        }
        _ => {}
    }
}

fn damage(rng: &mut Rng, bytes: &mut Vec<u8>) {
    match rng.below(4) {
        0 => {
            let left = rng.below(bytes.len() + 1);
            bytes.truncate(left);
        }
        1 => {
            let more = 1 + rng.below(2 * RECORD_BYTES);
            bytes.extend((0..more).map(|_| rng.next() as u8));
        }
        _ => {
            for _ in 0..1 + rng.below(3) {
                let at = rng.below(bytes.len());
                bytes[at] ^= 1 << rng.below(8);
            }
        }
    }
}

#[cfg(test)]
mod tests {
    use super::*;

    #[test]
    fn a_case_depends_on_its_number_alone() {
        for (name, profile) in PROFILES {
            let case = |index| generate(profile, 3, index);
            assert_eq!(case(7), case(7), "{name}");
            assert_ne!(case(7), case(8), "{name}");
        }
    }

    /// Every cut of a small store comes up, in turn.
    #[test]
    fn every_cut() {
        let lengths: Vec<usize> = (0..91)
            .map(|index| generate(Profile::Cut, 3, index).bytes.len())
            .collect();
        assert_eq!(lengths, (0..91).collect::<Vec<_>>());
    }
}
