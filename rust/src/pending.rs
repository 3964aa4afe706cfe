use crate::{Refusal, library};

/// The most stops of a sheet, and so the least places for its pending ones.
pub const STOPS: usize = 64;

/// The ids of the pending stops, in the order of a pass's columns, which is that of the ids; into places that can be lent again. Further
/// places are kept, and a refusal leaves all. With fewer than [`STOPS`] places every sheet is refused by number 1. A stop whose landing is
/// closed is never pending.
///
/// ```
/// # let sheet = include_bytes!(concat!(env!("CARGO_MANIFEST_DIR"), "/../crates/passprint/stdin"));
/// let mut places = [0; dispatch_bench::STOPS];
/// assert_eq!(dispatch_bench::pending_into(sheet, &mut places)?, [2, 3]);
/// # Ok::<(), dispatch_bench::Refusal>(())
/// ```
pub fn pending_into<'b>(sheet: &[u8], places: &'b mut [u32]) -> Result<&'b [u32], Refusal> {
    let (mut count, mut offset) = (0, 0);
    match library::pending(sheet, places, &mut count, &mut offset) {
        0 => Ok(&places[..places.len().min(count as usize)]),
        number => Err(Refusal { number, offset }),
    }
}

/// The ids of the pending stops, in the order of a pass's columns, which is that of the ids.
///
/// ```
/// # let sheet = include_bytes!(concat!(env!("CARGO_MANIFEST_DIR"), "/../crates/passprint/stdin"));
/// assert_eq!(dispatch_bench::pending(sheet)?, [2, 3]);
/// # Ok::<(), dispatch_bench::Refusal>(())
/// ```
pub fn pending(sheet: &[u8]) -> Result<Vec<u32>, Refusal> {
    let mut places = [0; STOPS];
    pending_into(sheet, &mut places).map(<[u32]>::to_vec)
}
