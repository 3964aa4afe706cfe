//! Test vectors for `scale_cost` and for bit fields, evaluated by Rust itself: the program `vectors` runs the proved functions on them.
//!
//!     rustc -O --edition 2021 -o target/make-vectors tools/vectors/vectors.rs
//!     target/make-vectors > crates/vectors/stdin
//!
//! It writes records to standard output, numbers most significant byte first:
//!
//!     1, the 8 bytes of a cost, the 8 bytes of its cell
//!     2, at (4 bytes), off (4 bytes), width (1), length (1), that many bytes, the 8 bytes of the field of `width` bits at `at + off`
//!
//! The same records come out each time.

use std::io::Write;

const ASSIGNMENT_SENTINEL: i64 = 1 << 48;
const ASSIGNMENT_SCALE: f64 = 1_000_000.0;

/// `scale_cost` of elevator-core's assignment.rs, without its debug assertion.
fn scale_cost(cost: f64) -> i64 {
    if !cost.is_finite() || cost < 0.0 {
        return ASSIGNMENT_SENTINEL;
    }
    (cost * ASSIGNMENT_SCALE).round().clamp(0.0, (ASSIGNMENT_SENTINEL - 1) as f64) as i64
}

/// The `w` bits from bit `from` of `bytes`, most significant first, one by one; past the end a bit is 0.
fn field(bytes: &[u8], from: u64, w: u32) -> u64 {
    (0..u64::from(w)).fold(0, |sum, i| {
        let bit = from + i;
        let byte = usize::try_from(bit / 8).ok().and_then(|k| bytes.get(k)).copied().unwrap_or(0);
        sum << 1 | u64::from(byte >> (7 - bit % 8) & 1)
    })
}

/// Xorshift, from a fixed start.
struct Random(u64);

impl Random {
    fn next(&mut self) -> u64 {
        self.0 ^= self.0 << 13;
        self.0 ^= self.0 >> 7;
        self.0 ^= self.0 << 17;
        self.0
    }
}

/// `x` and the doubles next to it, `n` to each side.
fn around(costs: &mut Vec<u64>, x: f64, n: u64) {
    let bits = x.to_bits();
    costs.extend(bits.saturating_sub(n)..=bits.saturating_add(n));
}

fn costs(random: &mut Random) -> Vec<u64> {
    let mut costs = Vec::new();
    // both zeros, the least and the greatest subnormals, the least normal double, and the same below zero
    for bits in [0, 1, 2, 3, 0x000f_ffff_ffff_ffff, 0x0010_0000_0000_0000, 0x0010_0000_0000_0001] {
        costs.extend([bits, bits | 1 << 63]);
    }
    // infinities and NaNs: quiet and signalling, with and without payloads, of both signs
    for bits in [
        0x7ff0_0000_0000_0000,
        0x7ff0_0000_0000_0001,
        0x7ff7_ffff_ffff_ffff,
        0x7ff8_0000_0000_0000,
        0x7fff_ffff_ffff_ffff,
    ] {
        costs.extend([bits, bits | 1 << 63]);
    }
    // below zero
    for x in [-1e-300, -1e-9, -0.3, -0.5, -1.0, -281_474_976.0, f64::MIN] {
        costs.push(f64::to_bits(x));
    }
    // products that are a half exactly, and a quarter: 1,000,000 is 2^6 * 15,625
    for k in (1u64..64).step_by(2).chain([255, 1_001, 65_535, 1_048_577, 36_028_796_911]) {
        costs.push((k as f64 / 128.0).to_bits());
        costs.push((k as f64 / 256.0).to_bits());
    }
    // about the half of whole numbers
    let halves = (0u64..24).chain([
        99,
        999,
        3_906,
        7_812,
        7_813,
        65_536,
        999_999,
        1 << 30,
        1 << 40,
        (1 << 47) + 1,
        (1 << 48) - 2,
        (1 << 48) - 1,
    ]);
    for n in halves {
        around(&mut costs, (n as f64 + 0.5) / 1_000_000.0, 2);
    }
    // powers of two
    for k in -24..=50 {
        around(&mut costs, 2.0f64.powi(k), 1);
    }
    // the ceiling, what rounds to it, and above
    around(&mut costs, 281_474_976.710_655, 8);
    around(&mut costs, 281_474_976.0, 1);
    around(&mut costs, 281_474_977.0, 1);
    around(&mut costs, 2.0f64.powi(63) / 1_000_000.0, 1);
    // products that are infinite, and those just below
    around(&mut costs, f64::MAX / 1_000_000.0, 3);
    costs.push(f64::MAX.to_bits());
    // any cost between 2^-24 and 2^30
    for _ in 0..128 {
        let exponent = 1023 - 24 + random.next() % 54;
        costs.push(exponent << 52 | random.next() >> 12);
    }
    costs.sort_unstable();
    costs.dedup();
    costs
}

fn put_field(out: &mut Vec<u8>, at: u32, off: u32, w: u32, bytes: &[u8]) {
    out.push(2);
    out.extend(at.to_be_bytes());
    out.extend(off.to_be_bytes());
    out.extend([w as u8, bytes.len() as u8]);
    out.extend(bytes);
    out.extend(field(bytes, u64::from(at) + u64::from(off), w).to_be_bytes());
}

fn main() {
    let mut random = Random(0x9e37_79b9_7f4a_7c15);
    let mut out = Vec::new();
    for bits in costs(&mut random) {
        out.push(1);
        out.extend(bits.to_be_bytes());
        out.extend(scale_cost(f64::from_bits(bits)).to_be_bytes());
    }
    // every width at every place in a byte, inside the bytes
    for w in 0..=64 {
        for place in 0..8 {
            let bytes: Vec<u8> = (0..14).map(|_| (random.next() >> 32) as u8).collect();
            let from = 8 * ((random.next() >> 32) as u32 % 5) + place;
            let at = (random.next() >> 32) as u32 % (from + 1);
            put_field(&mut out, at, from - at, w, &bytes);
        }
    }
    // across the end, and far past it
    for w in 0..=64 {
        let bytes: Vec<u8> = (0..3 + w % 3).map(|_| (random.next() >> 32) as u8).collect();
        put_field(&mut out, w % 24, w % 7, w, &bytes);
    }
    put_field(&mut out, u32::MAX, u32::MAX, 64, &[255; 4]);
    put_field(&mut out, 0, 0, 64, &[]);
    std::io::stdout().write_all(&out).expect("standard output takes the vectors");
}
