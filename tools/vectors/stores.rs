//! Stores of weights and their answers, by a look-up written from the words of requests F-1 and F-10 alone: the program `replay_stores` asks the proved
//! one for the same.
//!
//!     rustc -O --edition 2021 -o target/make-stores tools/vectors/stores.rs
//!     target/make-stores > crates/replay_stores/stdin
//!
//! It writes cases to standard output, numbers most significant byte first: the store's length in 2 bytes and its bytes, the day (4 bytes), a
//! strategy's code (1), the refusal's number (1), 0 for none, its offset (4), and the 8 bytes of each of the six weights as a policy record of the
//! strategy takes them, all zero where the store is refused. The same cases come out each time; how many of each number there are goes to standard
//! error.

use std::collections::BTreeMap;
use std::io::Write;

/// A record: setting, start day, issue, and the value's bits.
type Record = (u8, u32, u16, u64);

const MINUS_ZERO: u64 = 1 << 63;
const BILLION: f64 = 1_000_000_000.0;

fn bytes(records: &[Record]) -> Vec<u8> {
    let mut out = Vec::new();
    for &(setting, start, issue, value) in records {
        out.push(setting);
        out.extend(start.to_be_bytes());
        out.extend(issue.to_be_bytes());
        out.extend(value.to_be_bytes());
    }
    out
}

/// Record by record, 2, 7, 8 and 11; then 17 over the whole store; then the look-up with 18. The weights are by their bits.
fn answer(store: &[u8], day: u32) -> Result<[u64; 6], (u8, u32)> {
    let mut records = Vec::new();
    for (i, part) in store.chunks(15).enumerate() {
        let refused = |number| Err((number, 120 * i as u32));
        let Ok(part) = <[u8; 15]>::try_from(part) else { return refused(2) };
        if i == 256 {
            return refused(7);
        }
        let number = |from: usize, to: usize| part[from..to].iter().fold(0u64, |sum, &b| sum << 8 | u64::from(b));
        let (setting, start, issue) = (part[0], number(1, 5), number(5, 7));
        let value = number(7, 15);
        if setting > 5 {
            return refused(8);
        }
        if !(0.0..=BILLION).contains(&f64::from_bits(value)) {
            return refused(11);
        }
        records.push((setting, start, issue, value));
    }
    let mut seen = BTreeMap::new();
    for (i, &(setting, start, issue, value)) in records.iter().enumerate() {
        if *seen.entry((setting, start, issue)).or_insert(value) != value {
            return Err((17, 120 * i as u32));
        }
    }
    let mut six = [0; 6];
    for slot in 0..6u8 {
        let of_slot = seen.range((slot, 0, 0)..=(slot, u64::from(day), u64::from(u16::MAX)));
        let Some((_, value)) = of_slot.last() else { return Err((18, u32::from(slot))) };
        six[usize::from(slot)] = *value;
    }
    Ok(six)
}

/// ETD leaves the sixth weight unused, SCAN all six.
fn used_by(strategy: u8, mut six: [u64; 6]) -> [u64; 6] {
    match strategy {
        0 => six[5] = 0,
        1 => (),
        _ => six = [0; 6],
    }
    six
}

/// Xorshift, from a fixed start.
struct Random(u64);

impl Random {
    fn next(&mut self) -> u64 {
        self.0 ^= self.0 << 13;
        self.0 ^= self.0 >> 7;
        self.0 ^= self.0 << 17;
        self.0
    }

    fn below(&mut self, n: u64) -> u64 {
        self.next() % n
    }
}

/// The cases, and how many there are of each number.
struct List {
    out: Vec<u8>,
    numbers: BTreeMap<u8, u32>,
    strategies: u8,
}

impl List {
    /// The store for the day, under the next of the three strategies.
    fn put(&mut self, store: &[u8], day: u32) {
        let strategy = self.strategies % 3;
        self.strategies = strategy + 1;
        self.under(strategy, store, day);
    }

    fn under(&mut self, strategy: u8, store: &[u8], day: u32) {
        let (number, offset, six) = match answer(store, day) {
            Ok(six) => (0, 0, used_by(strategy, six)),
            Err((number, offset)) => (number, offset, [0; 6]),
        };
        *self.numbers.entry(number).or_default() += 1;
        self.out.extend((store.len() as u16).to_be_bytes());
        self.out.extend(store);
        self.out.extend(day.to_be_bytes());
        self.out.extend([strategy, number]);
        self.out.extend(offset.to_be_bytes());
        for bits in six {
            self.out.extend(bits.to_be_bytes());
        }
    }
}

/// One record a slot from day 0, with values 1 to 6.
fn plain() -> Vec<Record> {
    (0..6).map(|k| (k, 0, 0, f64::from(k + 1).to_bits())).collect()
}

/// `plain` with one more record in front and at the end.
fn around(list: &mut List, one: Record, days: &[u32]) {
    for &day in days {
        let mut records = plain();
        records.insert(0, one);
        list.put(&bytes(&records), day);
        records.remove(0);
        records.push(one);
        list.put(&bytes(&records), day);
    }
}

/// Each strategy, each slot empty, starts and issues at the ends of their ranges and beside each other.
fn look_ups(list: &mut List) {
    for day in [0, 1, u32::MAX] {
        list.put(&[], day);
        for strategy in 0..3 {
            list.under(strategy, &bytes(&plain()), day);
        }
        for slot in 0..6 {
            let mut records = plain();
            records.remove(slot);
            list.put(&bytes(&records), day);
            records.insert(slot, (slot as u8, u32::MAX, 0, 0));
            list.put(&bytes(&records), day);
        }
    }
    for day in [0, 1, 2, u32::MAX - 1, u32::MAX] {
        for (start, issue) in [(0, 0), (0, 1), (0, u16::MAX), (1, 0), (1, u16::MAX), (2, 1), (u32::MAX, 0), (u32::MAX, u16::MAX)] {
            let slot = (start % 6) as u8;
            around(list, (slot, start, issue, if (start, issue) == (0, 0) { f64::from(slot + 1) } else { 7.5 }.to_bits()), &[day]);
        }
    }
}

/// Values at the ends of their range and just outside, both zeros, infinities and NaNs; settings at and above 5.
fn ranges(list: &mut List) {
    let top = BILLION.to_bits();
    for value in [0, 1, MINUS_ZERO, MINUS_ZERO | 1, top - 1, top, top + 1, (-1.0f64).to_bits(), MINUS_ZERO | top] {
        around(list, (2, 3, 1, value), &[2, 3]);
    }
    for value in [0x7ff0 << 48, 0xfff0 << 48, 0x7ff8 << 48, 0xfff8 << 48, 0x7ff0 << 48 | 1, u64::MAX, u64::MAX >> 1] {
        around(list, (4, 0, 1, value), &[u32::MAX]);
    }
    for setting in [5, 6, 7, 128, 255] {
        around(list, (setting, 0, 1, 0), &[0]);
        around(list, (setting, 0, 1, top + 1), &[0]);
    }
}

/// Records that agree in setting, day and issue, with equal values and others; in that order and the other way round; of both zeros; far apart.
fn repeats(list: &mut List) {
    let one = 1.0f64.to_bits();
    for (a, b) in [(one, one), (one, one + 1), (0, MINUS_ZERO), (MINUS_ZERO, 0), (MINUS_ZERO, MINUS_ZERO), (0, 1), (MINUS_ZERO, 1)] {
        for gap in [0, 1, 5] {
            let mut records = plain();
            records.insert(6 - gap, (3, 9, 2, a));
            records.push((3, 9, 2, b));
            list.put(&bytes(&records), 9);
            records.push((3, 9, 2, a));
            list.put(&bytes(&records), 8);
        }
    }
    // one field differs: no repetition
    for other in [(2, 9, 2, one), (3, 8, 2, one), (3, 9, 1, one)] {
        let mut records = plain();
        records.extend([(3, 9, 2, 0), other]);
        list.put(&bytes(&records), 9);
    }
    // 17 is tested after every record has passed, and before 18
    let unlike = [(1, 1, 1, 0), (1, 1, 1, one)];
    list.put(&bytes(&unlike), 0);
    for last in [(6, 1, 1, 0), (1, 1, 1, MINUS_ZERO | 1), (0, 1, 1, 0)] {
        list.put(&bytes(&[unlike[0], unlike[1], last]), 1);
    }
    let mut short = bytes(&unlike);
    short.push(0);
    list.put(&short, 1);
    // the first that disagrees, not the first that is disagreed with
    list.put(&bytes(&[unlike[0], (0, 1, 1, one), (0, 1, 1, 0), unlike[1]]), 1);
    list.put(&bytes(&[unlike[0], (0, 1, 1, one), unlike[1], (0, 1, 1, 0)]), 1);
}

/// Every cut of a small store, and of its first refused record.
fn cuts(list: &mut List) {
    let mut records = plain();
    records.truncate(2);
    let store = bytes(&records);
    for end in 0..store.len() {
        list.put(&store[..end], 5);
    }
    let bad = bytes(&[(9, 0, 0, MINUS_ZERO | 1)]);
    for end in [1, 14, 15] {
        list.put(&bad[..end], 5);
        list.put(&[&store[..], &bad[..end]].concat(), 5);
    }
}

/// 255, 256 and 257 records, and past that: distinct, all alike, the last one that counts, refused, repeated or cut.
fn sizes(list: &mut List, random: &mut Random) {
    let full: Vec<Record> = (0..256).map(|i| ((i % 6) as u8, i / 6, (i * 7 % 5) as u16, (f64::from(i) * 1.25).to_bits())).collect();
    for n in [255, 256] {
        for day in [0, 20, u32::MAX] {
            list.put(&bytes(&full[..n]), day);
        }
        let mut turned = full[..n].to_vec();
        turned.reverse();
        list.put(&bytes(&turned), 20);
        for _ in 0..2 {
            for i in (1..n).rev() {
                turned.swap(i, random.below(i as u64 + 1) as usize);
            }
            list.put(&bytes(&turned), 30);
        }
    }
    list.put(&bytes(&vec![(0, 0, 0, 0); 256]), 0);
    for last in [(5, u32::MAX, 9, 0), (6, 0, 0, 0), (0, 0, 0, MINUS_ZERO | 1), (0, 0, 0, 0), (0, 0, 0, 1)] {
        let mut records = full.clone();
        records[255] = last;
        list.put(&bytes(&records), u32::MAX);
        records[255] = full[255];
        records.push(last);
        list.put(&bytes(&records), u32::MAX);
    }
    let mut past = bytes(&full);
    for more in [1, 14, 15, 16, 30] {
        past.resize(256 * 15 + more, 0xff);
        list.put(&past, 0);
    }
}

/// Random stores with few starts, issues and values, so that ties, repetitions and empty slots come up; some spoiled or cut.
fn randoms(list: &mut List, random: &mut Random) {
    let values = [0, MINUS_ZERO, 1.0f64.to_bits(), 2.5f64.to_bits(), BILLION.to_bits()];
    for round in 0..300 {
        let n = 3 + random.below(24);
        // half of them have one value for each setting, day and issue
        let agree = round % 2 == 0;
        let mut records: Vec<Record> = Vec::new();
        for _ in 0..n {
            let (setting, start, issue) = (random.below(6) as u8, random.below(5) as u32, random.below(3) as u16);
            let of = if agree { u64::from(setting) + u64::from(start) * 3 + u64::from(issue) * 7 } else { random.next() >> 8 };
            records.push((setting, start, issue, values[(of % 5) as usize]));
        }
        if round % 3 == 0 {
            records.extend((0..6).map(|k| (k, 0, 3, 3.0f64.to_bits())));
        }
        let mut store = bytes(&records);
        match random.below(16) {
            0 => {
                let at = random.below(store.len() as u64) as usize;
                store[at] ^= 1 << random.below(8);
            }
            1 => store.truncate(random.below(store.len() as u64) as usize),
            _ => (),
        }
        list.put(&store, random.below(6) as u32);
    }
}

fn main() {
    let mut list = List { out: Vec::new(), numbers: BTreeMap::new(), strategies: 0 };
    let mut random = Random(0x9e37_79b9_7f4a_7c15);
    look_ups(&mut list);
    ranges(&mut list);
    repeats(&mut list);
    cuts(&mut list);
    sizes(&mut list, &mut random);
    randoms(&mut list, &mut random);
    std::io::stdout().write_all(&list.out).expect("standard output");
    eprintln!("{} bytes, cases by number: {:?}", list.out.len(), list.numbers);
}
