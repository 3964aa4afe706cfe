use std::fmt;

use crate::{NotWritten, library, rules};

/// The weights of a policy, by slot.
pub const SLOTS: usize = 6;

/// The bits of a record of a store of weights.
const RECORD_BITS: u64 = 120;

/// Why a store gives no weights: the number of a rule, and where. It is displayed with both and the rule; [`remedy`](StoreRefusal::remedy) says
/// what to do.
///
/// ```
/// let refusal = dispatch_bench::weights(&[0; 22], 20_261).unwrap_err();
/// assert_eq!((refusal.number, refusal.record()), (2, Some(2)));
/// assert_eq!(
///     refusal.to_string(),
///     "refused 2 at 120, record 2: The last record is cut short: a record has 15 bytes."
/// );
/// ```
#[derive(Clone, Copy, Debug, PartialEq, Eq, Hash)]
pub struct StoreRefusal {
    /// 2, 7, 8, 11, 17 or 18. The library's 1, for fewer than 6 places, is not given here.
    pub number: u32,
    /// In bits from the store's start, where the refused record starts; for 18 the slot in its stead.
    pub offset: u64,
}

impl StoreRefusal {
    /// The refused record, counted from 1; none for 18.
    pub fn record(&self) -> Option<u64> {
        let has_record = self.slot().is_none() && self.number != 1;
        has_record.then_some(self.offset / RECORD_BITS + 1)
    }

    /// The slot without a record for the day, from 0; for 18 alone.
    pub fn slot(&self) -> Option<u64> {
        (self.number == 18).then_some(self.offset)
    }

    /// The rule that the number stands for. Empty for a number that a store is not refused by.
    pub fn rule(&self) -> &'static str {
        rules::store_rule(self.number).map_or("", |rule| rule.says)
    }

    /// What puts an end to the refusal. Empty for a number that a store is not refused by.
    pub fn remedy(&self) -> &'static str {
        rules::store_rule(self.number).map_or("", |rule| rule.remedy)
    }
}

impl fmt::Display for StoreRefusal {
    fn fmt(&self, f: &mut fmt::Formatter<'_>) -> fmt::Result {
        match (self.slot(), self.record()) {
            (Some(slot), _) => write!(f, "refused {} at slot {slot}", self.number)?,
            (_, Some(record)) => write!(
                f,
                "refused {} at {}, record {record}",
                self.number, self.offset
            )?,
            _ => write!(f, "refused {} at {}", self.number, self.offset)?,
        }
        match self.rule() {
            "" => Ok(()),
            says => write!(f, ": {says}"),
        }
    }
}

impl std::error::Error for StoreRefusal {}

/// The six weights of a store for a day, in slot order: of each slot the value of the record with the latest start not after the day, and of
/// these the highest issue. A weight has the bits of its record, so a minus zero is given as such. A policy record takes the six; those that its
/// strategy leaves unused stay zero there.
///
/// ```
/// // Six slots from day 100 on, slot 0 corrected on the day by issue 1.
/// let record = |setting: u8, issue: u16, value: f64| {
///     let mut record = vec![setting];
///     record.extend(100_u32.to_be_bytes());
///     record.extend(issue.to_be_bytes());
///     record.extend(value.to_be_bytes());
///     record
/// };
/// let mut store: Vec<u8> = (0..6).flat_map(|slot| record(slot, 0, 0.5)).collect();
/// store.extend(record(0, 1, 2.0));
/// assert_eq!(dispatch_bench::weights(&store, 100)?, [2.0, 0.5, 0.5, 0.5, 0.5, 0.5]);
/// let early = dispatch_bench::weights(&store, 99).unwrap_err();
/// assert_eq!((early.number, early.slot()), (18, Some(0)));
/// # Ok::<(), dispatch_bench::StoreRefusal>(())
/// ```
pub fn weights(store: &[u8], day: u32) -> Result<[f64; SLOTS], StoreRefusal> {
    let (mut weights, mut offset) = ([0.0; SLOTS], 0);
    match library::weights(store, day, &mut weights, &mut offset) {
        0 => Ok(weights),
        number => Err(StoreRefusal { number, offset }),
    }
}

/// A record of a store of weights.
#[derive(Clone, Copy, Debug, Default, PartialEq)]
pub struct StoreEntry {
    /// The slot of the weight, 0 to 5.
    pub setting: u8,
    /// The first day on which it holds.
    pub start: u32,
    /// Of records with one setting and start the highest issue holds.
    pub issue: u16,
    pub value: f64,
}

/// The bytes of a store with these records, by the proved writer; more than 256 are [`NotWritten::Full`]. A setting above 5 and a value out of range
/// are written, and refused by [`weights`].
///
/// ```
/// use dispatch_bench::{StoreEntry, weights, write_store};
///
/// let entry = |setting, value| StoreEntry { setting, start: 100, issue: 0, value };
/// let entries: Vec<StoreEntry> = (0..6).map(|slot| entry(slot, 0.5)).collect();
/// let store = write_store(&entries)?;
/// assert_eq!(store.len(), 90);
/// assert_eq!(weights(&store, 100)?, [0.5; 6]);
/// # Ok::<(), Box<dyn std::error::Error>>(())
/// ```
pub fn write_store(entries: &[StoreEntry]) -> Result<Vec<u8>, NotWritten> {
    let mut store = vec![0; entries.len() * (RECORD_BITS / 8) as usize];
    let mut count = 0;
    for entry in entries {
        match library::put_weight(&mut store, &mut count, entry) {
            0 => {}
            number => return Err(NotWritten::of(number)),
        }
    }
    Ok(store)
}
