//! A call of the look-up: what it is lent, what it answers and what it leaves.

// For the library that it links.
use dispatch_bench as _;
use sheetgen::store::{Reading, SLOTS};
use sheetgen::stores::Case;

unsafe extern "C" {
    fn dispatch_bench_weights(
        store: *const u8,
        length: usize,
        day: u32,
        weights: *mut f64,
        places: usize,
        offset: *mut u64,
    ) -> u32;
}

/// The places that stand there; a case lends the first of them, at most all but one.
const PLACES: usize = SLOTS + 3;
/// The bits of a place before the call, of a NaN that is no answer.
const KEPT: u64 = 0x7ff4_dead_beef_dead;
const KEPT_OFFSET: u64 = 0xa5a5_a5a5_a5a5;

/// The number, and what stands in every place after the call.
#[derive(Clone, Copy, Debug, PartialEq, Eq)]
pub struct Left {
    pub number: u32,
    pub offset: u64,
    pub places: [u64; PLACES],
}

/// The library's answer. The store is only read.
pub fn library(case: &Case) -> Left {
    assert!(case.places < PLACES);
    let mut places = [f64::from_bits(KEPT); PLACES];
    let mut offset = KEPT_OFFSET;
    let store = case.bytes.clone();
    // SAFETY: the store and the places are lent as their addresses and lengths, of which there are as many; the offset is a local.
    let number = unsafe {
        dispatch_bench_weights(
            store.as_ptr(),
            store.len(),
            case.day,
            places.as_mut_ptr(),
            case.places,
            &mut offset,
        )
    };
    assert_eq!(store, case.bytes, "the store is written");
    Left {
        number,
        offset,
        places: places.map(f64::to_bits),
    }
}

/// The answer of the second look-up: 1 in front where fewer than 6 places are lent.
pub fn second(case: &Case, reading: &Reading) -> Left {
    let mut left = Left {
        number: 1,
        offset: 0,
        places: [KEPT; PLACES],
    };
    if case.places < SLOTS {
        return left;
    }
    match reading.weights(&case.bytes, case.day) {
        Ok(six) => {
            (left.number, left.offset) = (0, KEPT_OFFSET);
            left.places[..SLOTS].copy_from_slice(&six);
        }
        Err(refusal) => (left.number, left.offset) = (refusal.number, refusal.offset),
    }
    left
}
