/// What decisions and sweeps are given for: a car record.
#[derive(Clone, Copy, Debug, PartialEq, Eq)]
pub struct Car {
    pub id: u32,
    /// Whether the car is one of the idle ones, which get a decision.
    pub idle_listed: bool,
}

const CAR: u64 = 4;
/// The edition and the number of records.
pub(crate) const HEAD: usize = 24;
/// A record's kind and length.
pub(crate) const FRONT: usize = 22;
/// Where a car record holds whether it is idle-listed, in both editions: edition 2 has more behind the position, which comes later.
const IDLE_LISTED: usize = 154;
/// Bytes past these change no answer.
const MOST_BYTES: usize = 65_536;

/// The car records of an accepted sheet, in record order. A pass has a decision for each idle-listed one, and a sweep for each.
///
/// This is decoded here, not by the proved library. In bytes that are no accepted sheet, the records are those whose stated bodies
/// are there.
///
/// ```
/// # let sheet = include_bytes!(concat!(env!("CARGO_MANIFEST_DIR"), "/../crates/passprint/stdin"));
/// let ids: Vec<u32> = dispatch_bench::cars(sheet).map(|car| car.id).collect();
/// assert_eq!(ids, [7, 8]);
/// ```
pub fn cars(sheet: &[u8]) -> impl Iterator<Item = Car> + '_ {
    let sheet = &sheet[..sheet.len().min(MOST_BYTES)];
    let mut at = HEAD;
    let records = (0..field(sheet, 8, 16)).map_while(move |_| {
        let start = at;
        at += FRONT + field(sheet, start + 6, 16) as usize;
        (at <= 8 * sheet.len()).then_some(start)
    });
    records
        .filter(|start| field(sheet, *start, 6) == CAR)
        .map(|start| Car {
            id: field(sheet, start + FRONT, 32) as u32,
            idle_listed: field(sheet, start + IDLE_LISTED, 1) == 1,
        })
}

/// The code of an accepted sheet's strategy, which begins the body of its first record: 0 ETD, 1 RSR, 2 SCAN.
pub(crate) fn strategy(sheet: &[u8]) -> u64 {
    field(sheet, HEAD + FRONT, 2)
}

/// Up to 64 bits at a bit, most significant first; past the end they are zero.
pub(crate) fn field(sheet: &[u8], at: usize, width: usize) -> u64 {
    (at..at + width).fold(0, |value, bit| {
        let byte = sheet.get(bit / 8).copied().unwrap_or(0);
        value << 1 | u64::from(byte >> (7 - bit % 8) & 1)
    })
}
