//! Packed bits, most significant first.

/// The `width` bits of `bytes` from bit `at`, as a number. The bits must be there.
pub fn get(bytes: &[u8], at: usize, width: usize) -> u64 {
    let (mut k, end) = (at, at + width);
    let mut value = 0;
    while k < end {
        let here = 8 - k % 8;
        let take = here.min(end - k);
        let chunk = bytes[k / 8] >> (here - take) & (0xff >> (8 - take));
        value = value << take | u64::from(chunk);
        k += take;
    }
    value
}

/// Sets the `width` bits of `bytes` from bit `at`.
pub fn set(bytes: &mut [u8], at: usize, width: usize, value: u64) {
    for i in 0..width {
        let k = at + i;
        let mask = 1 << (7 - k % 8);
        if value >> (width - 1 - i) & 1 == 1 {
            bytes[k / 8] |= mask;
        } else {
            bytes[k / 8] &= !mask;
        }
    }
}

/// A growing row of bits.
#[derive(Clone, Default)]
pub struct Writer {
    bytes: Vec<u8>,
    used: usize,
}

impl Writer {
    pub fn put(&mut self, width: usize, value: u64) {
        let mut left = width;
        while left > 0 {
            if self.used % 8 == 0 {
                self.bytes.push(0);
            }
            let room = 8 - self.used % 8;
            let take = room.min(left);
            let chunk = (value >> (left - take)) as u8 & (0xff >> (8 - take));
            self.bytes[self.used / 8] |= chunk << (room - take);
            self.used += take;
            left -= take;
        }
    }

    pub fn double(&mut self, value: f64) {
        self.put(64, value.to_bits());
    }

    /// A present bit, then the field; an absent field is all zeros.
    pub fn opt(&mut self, width: usize, value: Option<u64>) {
        self.put(1, u64::from(value.is_some()));
        self.put(width, value.unwrap_or(0));
    }

    /// The number of bits so far.
    pub fn len(&self) -> usize {
        self.used
    }

    pub fn is_empty(&self) -> bool {
        self.used == 0
    }

    /// The bytes, the last one filled up with zero bits.
    pub fn finish(self) -> Vec<u8> {
        self.bytes
    }
}
