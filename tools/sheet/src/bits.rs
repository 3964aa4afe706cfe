//! Bits of a sheet or a store, put field by field by the proved library; nothing else in this program places a bit.

use dispatch_bench::put_field;

/// A growing row of bits.
#[derive(Default)]
pub struct Writer {
    bytes: Vec<u8>,
    used: usize,
}

impl Writer {
    /// Puts a number behind the last one. It fits the width.
    pub fn put(&mut self, width: usize, value: u64) {
        let at = self.used;
        self.used += width;
        self.bytes.resize(self.used.div_ceil(8), 0);
        set(&mut self.bytes, at, width, value);
    }

    /// The number of bits so far.
    pub fn len(&self) -> usize {
        self.used
    }

    /// The bytes, the last one filled up with zero bits.
    pub fn finish(self) -> Vec<u8> {
        self.bytes
    }
}

/// Sets the `width` bits from bit `at`, which are there. The library counts bits by 32 bits; lent from the field's first byte on, no row is too long.
pub fn set(bytes: &mut [u8], at: usize, width: usize, value: u64) {
    let from = (at / 8).min(bytes.len());
    let put = put_field(&mut bytes[from..], (at % 8) as u32, width as u32, value);
    put.expect("a field is in its row, and holds its number");
}

#[cfg(test)]
mod tests {
    use super::*;
    use sheetgen::bits;
    use sheetgen::rng::Rng;

    /// The rows of the second writer, and what is set in them as it sets it.
    #[test]
    fn as_the_second_writer() {
        let mut rng = Rng::new(5, 1, 0);
        for _ in 0..500 {
            let (mut one, mut other) = (Writer::default(), bits::Writer::default());
            for _ in 0..rng.below(30) {
                let width = rng.below(65);
                let value = rng.next().checked_shr(64 - width as u32).unwrap_or(0);
                one.put(width, value);
                other.put(width, value);
            }
            assert_eq!(one.len(), other.len());
            let (mut one, mut other) = (one.finish(), other.finish());
            assert_eq!(one, other);
            for _ in 0..10 {
                let width = rng.below(65).min(8 * one.len());
                let at = rng.below(8 * one.len() - width + 1);
                let value = rng.next().checked_shr(64 - width as u32).unwrap_or(0);
                set(&mut one, at, width, value);
                bits::set(&mut other, at, width, value);
                assert_eq!(one, other, "{width} bits at {at}");
            }
        }
    }

    #[test]
    #[should_panic(expected = "holds its number")]
    fn a_number_is_not_cut_off() {
        Writer::default().put(3, 8);
    }
}
