//! The twin of an edition 2 sheet in edition 1, made bit by bit: the second coordinates are taken out, the lengths that stops and cars
//! state and the edition are edition 1's, and everything else stays.

use crate::bits::{Writer, get};
use crate::sheet::{ACROSS_BITS, HEAD_BITS, RECORD_HEAD_BITS, across_at};

/// The twin of accepted bytes of edition 2.
pub fn twin(bytes: &[u8]) -> Vec<u8> {
    let mut w = Writer::default();
    let copy = |w: &mut Writer, from: usize, to: usize| {
        for k in from..to {
            w.put(1, get(bytes, k, 1));
        }
    };
    w.put(8, 1);
    copy(&mut w, 8, HEAD_BITS);
    let mut at = HEAD_BITS;
    for _ in 0..get(bytes, 8, 16) {
        let (kind, length) = (get(bytes, at, 6), get(bytes, at + 6, 16) as usize);
        let body = at + RECORD_HEAD_BITS;
        w.put(6, kind);
        match across_at(kind as usize) {
            Some(across) => {
                w.put(16, (length - ACROSS_BITS) as u64);
                copy(&mut w, body, body + across);
                copy(&mut w, body + across + ACROSS_BITS, body + length);
            }
            None => {
                w.put(16, length as u64);
                copy(&mut w, body, body + length);
            }
        }
        at = body + length;
    }
    w.finish()
}

#[cfg(test)]
mod tests {
    use super::*;
    use crate::generate::{Profile, generate};
    use crate::{Sheet, read};

    /// What is left is an accepted sheet of edition 1 with the records of the other, but for the second coordinates.
    #[test]
    fn twins_differ_in_the_second_coordinates_alone() {
        for profile in [Profile::Sideways, Profile::Level] {
            for index in 0..2_000 {
                let bytes = generate(profile, 3, index);
                let twin = twin(&bytes);
                assert_eq!(read(&twin), None, "{index}");
                let mut sheet = Sheet::of_accepted(&bytes);
                assert_eq!(sheet.edition, 2, "{index}");
                sheet.edition = 1;
                assert_eq!(sheet.write(), twin, "{index}");
                let coordinates = sheet.stops.len() + sheet.cars.len();
                assert_eq!(twin.len() + 8 * coordinates, bytes.len(), "{index}");
            }
        }
    }

    /// Document 01's example with second coordinates 0 is five times eight bytes longer than the example.
    #[test]
    fn the_example_is_a_twin() {
        let mut sheet = Sheet::example();
        let example = sheet.write();
        sheet.edition = 2;
        let bytes = sheet.write();
        assert_eq!((bytes.len(), bytes[0]), (366, 2));
        assert_eq!(twin(&bytes), example);
    }
}
