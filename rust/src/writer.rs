use std::fmt;

use crate::library;
use crate::record::{Edition, Record};

/// The numbers of a writer's state.
const STATE: usize = 9;

/// The bytes of the longest sheet that is accepted.
pub const SHEET_BYTES: usize = 27_283;

/// Why a record or a field was not written: neither the sheet nor what is counted has changed, and other records may be put.
#[derive(Clone, Copy, Debug, PartialEq, Eq, Hash)]
pub enum NotWritten {
    /// The bytes that were lent end before the record or the field does. Not given of a writer with bytes of its own.
    NoRoom,
    /// The first record is no policy, or the kind is below that of the last record.
    OutOfOrder,
    /// There are as many records of the kind as a sheet may have, or 65,535 in all; or 256 of a store.
    Full,
    /// A field of more than 64 bits, or a number that needs more bits than the field has.
    NotHeld,
    /// The library answered another number, which one of this interface does not.
    Unknown(u32),
}

impl NotWritten {
    pub(crate) fn of(number: u32) -> Self {
        match number {
            2 => NotWritten::NoRoom,
            6 => NotWritten::OutOfOrder,
            7 => NotWritten::Full,
            8 => NotWritten::NotHeld,
            number => NotWritten::Unknown(number),
        }
    }

    /// The number of the refusal that a reader would give.
    pub fn number(&self) -> u32 {
        match self {
            NotWritten::NoRoom => 2,
            NotWritten::OutOfOrder => 6,
            NotWritten::Full => 7,
            NotWritten::NotHeld => 8,
            NotWritten::Unknown(number) => *number,
        }
    }
}

impl fmt::Display for NotWritten {
    fn fmt(&self, f: &mut fmt::Formatter<'_>) -> fmt::Result {
        f.write_str(match self {
            NotWritten::NoRoom => "not written: the bytes that were lent end before the record or the field does",
            NotWritten::OutOfOrder => {
                "not written: records come in the order policy, stop, line, car, aboard, waiting, demand, closed, and the policy is the first"
            }
            NotWritten::Full => {
                "not written: a sheet has at most 1 policy, 64 stops, 8 lines, 32 cars, 512 riders aboard, 512 waiting and 65,535 records, a store 256"
            }
            NotWritten::NotHeld => {
                "not written: a field has at most 64 bits, and holds no number that needs more bits than it has"
            }
            NotWritten::Unknown(number) => {
                return write!(f, "not written: the library answered {number}");
            }
        })
    }
}

impl std::error::Error for NotWritten {}

/// Where the sheet is written.
enum Room<'b> {
    Own(Vec<u8>),
    Lent(&'b mut [u8]),
}

/// Writes a sheet record by record, by the proved writer: what is finished is read as exactly the records that were put, and is accepted where no
/// value of theirs is refused, by 8 to 14 ([`read`](crate::read)).
///
/// ```
/// use dispatch_bench::record::{Car, Demand, Edition, Line, Policy, Stop, Strategy, Traffic, mask};
/// use dispatch_bench::SheetWriter;
///
/// let mut writer = SheetWriter::new(Edition::First);
/// writer
///     .put(Policy { strategy: Strategy::Scan, limit: None, tick_rate: 60.0, traffic: Traffic::Idle })?
///     .put(Stop { id: 1, position: 0.0, ..Stop::default() })?
///     .put(Stop { id: 2, position: 4.0, ..Stop::default() })?
///     .put(Line { id: 1, serves: mask([0, 1]).unwrap_or(0) })?
///     .put(Car { id: 7, line: 1, idle_listed: true, max_speed: 2.0, capacity: 600.0, ..Car::default() })?
///     .put(Demand { stop: 2, riding_count: 0, riderless_call: true })?;
/// let sheet = writer.finish();
/// assert_eq!(dispatch_bench::pass(&sheet)?.total, 4_000_000);
/// # Ok::<(), Box<dyn std::error::Error>>(())
/// ```
pub struct SheetWriter<'b> {
    room: Room<'b>,
    state: [u32; STATE],
}

/// How many records of each kind were put.
impl fmt::Debug for SheetWriter<'_> {
    fn fmt(&self, f: &mut fmt::Formatter<'_>) -> fmt::Result {
        let kinds = [
            "policies", "stops", "lines", "cars", "aboard", "waiting", "demands", "closed",
        ];
        let mut said = f.debug_struct("SheetWriter");
        for (kind, count) in kinds.iter().zip(&self.state[1..]) {
            said.field(kind, count);
        }
        said.finish()
    }
}

impl SheetWriter<'static> {
    /// A sheet in bytes of its own, which become more as records need them.
    pub fn new(edition: Edition) -> Self {
        let mut state = [0; STATE];
        let mut bytes = vec![0; 512];
        // Three bytes are enough for the head, and both editions are known: the answer is 0.
        library::start(&mut bytes, &mut state, edition);
        Self {
            room: Room::Own(bytes),
            state,
        }
    }
}

impl<'b> SheetWriter<'b> {
    /// A sheet in bytes that are lent; [`SHEET_BYTES`] hold every sheet that is accepted. Nothing is allocated, but by [`finish`](Self::finish).
    ///
    /// ```
    /// use dispatch_bench::record::{Edition, Stop};
    /// use dispatch_bench::{NotWritten, SheetWriter};
    ///
    /// let mut bytes = [0; 80];
    /// let mut writer = SheetWriter::lent(&mut bytes, Edition::Second)?;
    /// let refused = writer.put(Stop::default()).err();
    /// assert_eq!(refused, Some(NotWritten::OutOfOrder));
    /// assert_eq!(writer.sheet(), [2, 0, 0]);
    /// # Ok::<(), NotWritten>(())
    /// ```
    pub fn lent(bytes: &'b mut [u8], edition: Edition) -> Result<Self, NotWritten> {
        let mut state = [0; STATE];
        match library::start(bytes, &mut state, edition) {
            0 => Ok(Self {
                room: Room::Lent(bytes),
                state,
            }),
            number => Err(NotWritten::of(number)),
        }
    }

    /// Puts a record behind the last one.
    pub fn put(&mut self, record: impl Into<Record>) -> Result<&mut Self, NotWritten> {
        let record = record.into();
        loop {
            match (
                library::put(self.room.bytes(), &mut self.state, &record),
                &mut self.room,
            ) {
                (0, _) => return Ok(self),
                (2, Room::Own(bytes)) => bytes.resize(2 * bytes.len(), 0),
                (number, _) => return Err(NotWritten::of(number)),
            }
        }
    }

    /// The sheet with the records that were put until now. More may be put after it.
    pub fn sheet(&mut self) -> &[u8] {
        let bytes = self.room.bytes();
        let length = library::finish(bytes, &self.state);
        &bytes[..length.min(bytes.len())]
    }

    /// The sheet with the records that were put.
    pub fn finish(mut self) -> Vec<u8> {
        self.sheet().to_vec()
    }
}

impl Room<'_> {
    fn bytes(&mut self) -> &mut [u8] {
        match self {
            Room::Own(bytes) => bytes,
            Room::Lent(bytes) => bytes,
        }
    }
}

/// Puts one field of a sheet or of a store, whatever it is to hold: the `width` bits from bit `at`, the highest bit of the first byte being bit 0,
/// are then those of `value`, and every other bit is kept. By the proved library, for what no [`Record`] holds: a single field changed in place, a
/// code that stands for nothing. Otherwise nothing is written: [`NotWritten::NotHeld`] for more than 64 bits or a value that needs more than `width`,
/// else [`NotWritten::NoRoom`] where the field passes the last byte.
///
/// ```
/// use dispatch_bench::{NotWritten, put_field, read};
///
/// # let mut sheet = include_bytes!(concat!(env!("CARGO_MANIFEST_DIR"), "/../crates/passprint/stdin")).to_vec();
/// // the candidate limit of a policy, which is the first record
/// put_field(&mut sheet, 48, 16, 0)?;
/// assert_eq!(read(&sheet).map_err(|refusal| refusal.number), Err(12));
/// assert_eq!(put_field(&mut sheet, 48, 16, 65_536), Err(NotWritten::NotHeld));
/// assert_eq!(put_field(&mut sheet[..7], 48, 16, 1), Err(NotWritten::NoRoom));
/// # Ok::<(), NotWritten>(())
/// ```
pub fn put_field(sheet: &mut [u8], at: u32, width: u32, value: u64) -> Result<(), NotWritten> {
    match library::put_field(sheet, at, width, value) {
        0 => Ok(()),
        number => Err(NotWritten::of(number)),
    }
}
