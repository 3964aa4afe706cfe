//! The pass as document 01 defines it, apart from the published Rust: group, demand, coverage, the candidate
//! cut by counting, ranks, cells. Compared with the Rust it shows that document 01 says what the Rust does. With
//! document 02's closed landings and second coordinates, which the Rust does not have, it is what a bench is held to.
//! RSR's load term is document 02's too; the Rust has it.
//! Each fault below changes one place of it; the comparison must find every one of them out.

use sheetgen::sheet::{ETD, HEAD_BITS, NO_LIMIT, RECORD_HEAD_BITS, RSR, SCAN, mask_bit};
use sheetgen::{Car, Sheet, Stop, Waiting, bits, read};

use crate::answer::{self, SENTINEL};
use crate::bench::{Bench, Has, KEPT, Lent, Places};
use crate::choice;

macro_rules! faults {
    ($($(#[$about:meta])* $name:ident)*) => {
        #[derive(Clone, Copy, Debug, PartialEq, Eq)]
        pub enum Fault { $($(#[$about])* $name),* }
        pub const FAULTS: &[Fault] = &[$(Fault::$name),*];
    };
}

faults! {
    /// As document 01 has it.
    None
    /// 16 is given where the last record starts.
    TailOffset
    /// A second demand for a stop passes.
    SecondDemand
    /// A minus zero load is outside its range.
    MinusZero
    /// A threshold of exactly 1,000 is outside.
    ThresholdEnd
    /// An empty count is 2.
    EmptyCount
    /// A second policy is 6.
    SecondPolicy
    /// A stated body past the end of an unknown kind is 4.
    UnknownKindFirst
    /// A refusal clears the decisions.
    RefusalWrites
    /// One matrix entry too many is written.
    OneEntryMore
    /// The total leaves idle cars out.
    TotalOfSent
    /// Ties go to the highest column.
    HighestColumn
    /// Each car takes its nearest free column.
    Greedy
    /// Most cars sent first.
    MostSent
    /// Among least totals the lowest columns, however many cars are left standing.
    LeftStanding
    /// A cell above the sentinel is taken by the matcher.
    CellAboveSentinel
    /// The nearest stops are kept before the line filter.
    LimitBeforeLine
    /// The limit doesn't cut under SCAN.
    NoCutUnderScan
    /// Of equal distances the higher id comes first.
    CutByHigherId
    /// Covered stops don't intervene.
    CoveredNotCounted
    /// A stop 1e-9 ahead intervenes.
    CountAtTolerance
    /// The waiters' sum must be below the capacity.
    CoverBelow
    /// Remaining capacities are added in record order.
    CapacityInRecordOrder
    /// A car serves the stop of its phase.
    CoverByPhaseStop
    /// Repositioning cars serve their target.
    RepositioningServes
    /// A required line without a record is ignored.
    UnrecordedLineIgnored
    /// A stop wanted by an idle car's rider is dropped when covered.
    BoundForDropped
    /// A riding count doesn't make demand.
    RidingIgnored
    /// The sweep stays as the sheet has it.
    SweepKept
    /// SCAN looks ahead among pending stops only.
    AheadPendingOnly
    /// SCAN looks ahead on the car's line only.
    AheadOnLineOnly
    /// SCAN prepares every car.
    PrepareAll
    /// SCAN prepares with no pending stop too.
    PrepareAlways
    /// A stop exactly 1e-9 ahead is ahead.
    AheadAtTolerance
    /// Strict and lenient accept alike.
    AlwaysStrict
    /// The aboard-path test under ETD too.
    PathUnderEtd
    /// The aboard-path test compares signs.
    PathBySigns
    /// A rider without a destination keeps a pickup off the path.
    PathWithoutDestination
    /// A load exactly at the threshold doesn't bypass.
    BypassAbove
    /// Lamps aren't looked at.
    LampsIgnored
    /// Riders of exactly the remaining capacity can't board.
    BoardBelow
    /// ETD's bonus is weighted.
    BonusWeighted
    /// A repositioning car earns no bonus.
    NoBonusRepositioning
    /// A stopped car earns the idle bonus.
    BonusStopped
    /// A stop beyond the target is ahead too.
    AheadBeyondTarget
    /// The three ETD terms are added in another order.
    OtherOrder
    /// One rounding instead of two.
    Fused
    /// The wait terms are applied in the other order.
    AgeBeforeSquares
    /// The squared waits are those of the sum.
    SquareOfSum
    /// The door ticks count the transition once.
    OneTransition
    /// The peak multiplier holds off peak.
    AlwaysPeak
    /// Down peak isn't a peak.
    NoDownPeak
    /// The call bonus is subtracted without a call.
    BonusWithoutCall
    /// A rider-less call isn't servable.
    CallIgnored
    /// Speed 0 gives ETD a rank.
    SpeedZeroRanked
    /// Halves to even.
    HalfToEven
    /// The fraction is cut off.
    CutOff
    /// Held to the sentinel.
    CeilingIsSentinel
    /// The pending stops are named by their records' places.
    PendingByPlace
    /// 63 places are taken for the pending stops.
    FewPlacesTaken
    /// One place past the pending stops is cleared.
    OnePlaceMore
    /// Kind 8 is unknown, as in the first release.
    ClosedUnknown
    /// A second closure of a stop passes.
    SecondClosure
    /// A closed stop is like any other.
    ClosureIgnored
    /// A closed stop where somebody waits is like any other.
    ClosedUnlessWaited
    /// Closure counts only where a car has the stop for its target.
    ClosedIfServed
    /// A closed stop that an idle car's rider is bound for is pending, as before F-6.
    BoundFirst
    /// A closed stop that any car's rider is bound for is like any other.
    ClosedUnlessBound
    /// Closed stops don't intervene.
    ClosedNotCounted
    /// SCAN doesn't look ahead to closed stops.
    ClosedNotAhead
    /// A closed stop is the one at its id's place.
    ClosedByPlace
    /// RSR with a load weight is refused by 15, as in the first release.
    LoadRefused
    /// The load term is left out.
    LoadIgnored
    /// The load's part is rounded before it is added.
    LoadRoundedTwice
    /// A load ratio above 1 counts as it is.
    LoadUnclamped
    /// The load term counts in phase idle too.
    LoadInPhaseIdle
    /// The load term counts where the capacity is 0 too.
    LoadWithoutCapacity
    /// The load term comes before the coincident call.
    LoadBeforeCall
    /// The load term comes after the age term.
    LoadAfterAge
    /// The ratio is that of what is left to the capacity.
    LoadOfRemaining
    /// No cell is said to be held.
    HeldNever
    /// A value that rounds to the ceiling is held.
    HeldAtCeiling
    /// A value above the ceiling is held, though it rounds to it.
    HeldUnrounded
    /// A value is held where it is above the ceiling with its fraction cut off.
    HeldCutOff
    /// Cells without a rank are held too, spare ones not.
    HeldWithoutRank
    /// Spare cells are held too.
    HeldSpare
    /// Pairs that the limit cut are held too.
    HeldBeyondLimit
    /// The chosen cells alone are counted.
    HeldOfChosen
    /// A car is counted once, however many of its cells are held.
    HeldCars
    /// A sheet without a held cell keeps what stood there.
    HeldKeptAtZero
    /// Only pairs with a rank count as ranked.
    RankedUseful
    /// Every viable pair counts as ranked, whatever the limit.
    RankedBeyondLimit
    /// The pairs of every car count as ranked.
    RankedOfAllCars
    /// Edition 2 is refused by 3, as before F-12.
    EditionTwoRefused
    /// Every edition is read as edition 2 where it is not 1.
    EditionThreeRead
    /// Edition 1 is held to edition 2's lengths.
    LengthsOfEditionTwo
    /// A second coordinate may be anything.
    AcrossUnchecked
    /// A second coordinate below zero is outside its range.
    AcrossFromZero
    /// A minus zero second coordinate is outside its range.
    AcrossMinusZero
    /// Second coordinates are read and left out of everything.
    AcrossIgnored
    /// A distance is the larger of the two differences.
    AcrossLarger
    /// A distance is the straight one.
    AcrossStraight
    /// The differences are added before they lose their signs.
    AcrossSigned
    /// A stop's second coordinate alone is the difference.
    AcrossOfStopAlone
    /// A distance in the candidate cut is the first coordinates'.
    AcrossNotInCut
    /// ETD's and RSR's travel is the first coordinates'.
    AcrossNotInTravel
    /// ETD's detours are the first coordinates'.
    AcrossNotInDetours
    /// A detour's direct way is the first coordinates'.
    AcrossNotInDirect
    /// SCAN's cost is the first coordinates'.
    AcrossNotInScan
    /// Where a car is bound is a matter of the sum of both coordinates: bypass, wrong direction and ahead.
    AcrossInDirection
    /// A waiting rider's direction is that of the sum of both coordinates.
    AcrossInLamps
    /// SCAN's sweep looks ahead by the sum of both coordinates.
    AcrossInSweep
    /// SCAN accepts a stop by the sum of both coordinates.
    AcrossInAccept
    /// The aboard-path test compares distances.
    AcrossInPath
    /// The aboard-path test asks for the second coordinate's direction too.
    AcrossInPathSigns
    /// A stop intervenes only between the second coordinates too.
    AcrossInBetween
}

/// Where a stop or a car is: the first coordinate, and the second, 0 in edition 1.
#[derive(Clone, Copy)]
struct Point {
    position: f64,
    across: f64,
}

impl Point {
    fn of_stop(stop: &Stop) -> Self {
        Self {
            position: stop.position,
            across: stop.across,
        }
    }

    fn of_car(car: &Car) -> Self {
        Self {
            position: car.position,
            across: car.across,
        }
    }

    /// "the sum of the two absolute differences", each rounded, then the sum.
    fn distance(self, other: Self) -> f64 {
        (self.position - other.position).abs() + (self.across - other.across).abs()
    }
}

impl Fault {
    /// Only a sheet of edition 2 shows it, or that there is one.
    pub fn is_of_editions(self) -> bool {
        matches!(
            self,
            Fault::EditionTwoRefused
                | Fault::EditionThreeRead
                | Fault::LengthsOfEditionTwo
                | Fault::AcrossUnchecked
                | Fault::AcrossFromZero
                | Fault::AcrossMinusZero
                | Fault::AcrossIgnored
                | Fault::AcrossLarger
                | Fault::AcrossStraight
                | Fault::AcrossSigned
                | Fault::AcrossOfStopAlone
                | Fault::AcrossNotInCut
                | Fault::AcrossNotInTravel
                | Fault::AcrossNotInDetours
                | Fault::AcrossNotInDirect
                | Fault::AcrossNotInScan
                | Fault::AcrossInDirection
                | Fault::AcrossInLamps
                | Fault::AcrossInSweep
                | Fault::AcrossInAccept
                | Fault::AcrossInPath
                | Fault::AcrossInPathSigns
                | Fault::AcrossInBetween
        )
    }

    /// Only a sheet with closed landings shows it.
    pub fn is_of_closures(self) -> bool {
        matches!(
            self,
            Fault::ClosedUnknown
                | Fault::SecondClosure
                | Fault::ClosureIgnored
                | Fault::ClosedUnlessWaited
                | Fault::ClosedIfServed
                | Fault::BoundFirst
                | Fault::ClosedUnlessBound
                | Fault::ClosedNotCounted
                | Fault::ClosedNotAhead
                | Fault::ClosedByPlace
        )
    }

    /// The number of ranked pairs alone shows it.
    pub fn is_of_ranked(self) -> bool {
        matches!(
            self,
            Fault::RankedUseful | Fault::RankedBeyondLimit | Fault::RankedOfAllCars
        )
    }

    /// The number of held cells alone shows it.
    pub fn is_of_held(self) -> bool {
        matches!(
            self,
            Fault::HeldNever
                | Fault::HeldAtCeiling
                | Fault::HeldUnrounded
                | Fault::HeldCutOff
                | Fault::HeldWithoutRank
                | Fault::HeldSpare
                | Fault::HeldBeyondLimit
                | Fault::HeldOfChosen
                | Fault::HeldCars
                | Fault::HeldKeptAtZero
        )
    }

    /// Only a sheet of RSR with a load weight shows it.
    pub fn is_of_loads(self) -> bool {
        matches!(
            self,
            Fault::LoadRefused
                | Fault::LoadIgnored
                | Fault::LoadRoundedTwice
                | Fault::LoadUnclamped
                | Fault::LoadInPhaseIdle
                | Fault::LoadWithoutCapacity
                | Fault::LoadBeforeCall
                | Fault::LoadAfterAge
                | Fault::LoadOfRemaining
        )
    }
}

type Verdict = Option<(u32, u64)>;

/// The first release gives 4 at the first record of kind 8, where `right` finds nothing earlier.
fn closed_unknown(sheet: &[u8], right: Verdict) -> Verdict {
    let found = sheetgen::generate::records(sheet).into_iter();
    let mut closed = found.filter(|r| r.1 == 8).map(|r| r.0 as u64);
    let first = closed.find(|at| right.is_none_or(|r| r.1 >= *at));
    first.map(|at| (4, at)).or(right)
}

/// The policy of a sheet, which must be whole, is RSR's and has a load weight above 0.
pub fn weighs_loads(sheet: &[u8]) -> bool {
    let body = HEAD_BITS + RECORD_HEAD_BITS;
    let load = || f64::from_bits(bits::get(sheet, body + 84 + 3 * 64, 64));
    bits::get(sheet, body, 2) == u64::from(RSR) && load() > 0.0
}

/// The first release gives 15 at such a policy, where `right` finds nothing there or in the head.
fn load_refused(sheet: &[u8], right: Verdict) -> Verdict {
    let is_past = right.is_none_or(|r| r.1 > HEAD_BITS as u64);
    match is_past && weighs_loads(sheet) {
        true => Some((15, HEAD_BITS as u64)),
        false => right,
    }
}

/// A bench that does not know edition 2 gives 3 for it, where the head is there.
fn edition_two_refused(sheet: &[u8], right: Verdict) -> Verdict {
    match sheet.len() >= 3 && sheet[0] == 2 {
        true => Some((3, 0)),
        false => right,
    }
}

/// 5 at the first stop or car of edition 1, where `right` finds nothing there or earlier.
fn lengths_of_edition_two(sheet: &[u8], right: Verdict) -> Verdict {
    let found = sheetgen::generate::records(sheet).into_iter();
    let mut longer = found.filter(|r| r.1 == 2 || r.1 == 4).map(|r| r.0 as u64);
    let first = longer.find(|_| sheet[0] == 1);
    let first = first.filter(|at| right.is_none_or(|r| r.1 > *at));
    first.map(|at| (5, at)).or(right)
}

/// Whether the refusal by 11 is for a second coordinate.
fn is_of_across(sheet: &[u8], at: u64) -> bool {
    let across = sheetgen::sheet::across_at(bits::get(sheet, at as usize, 6) as usize);
    let value = |from: usize| bits::get(sheet, at as usize + RECORD_HEAD_BITS + from, 64);
    let outside = |bits: u64| !(-1e6..=1e6).contains(&f64::from_bits(bits));
    sheet[0] == 2 && across.is_some_and(|from| outside(value(from)))
}

/// The refusal of a bench of the first release.
pub fn of_first_release(sheet: &[u8]) -> Verdict {
    let now = read(sheet).map(|r| (r.number, r.offset));
    let now = edition_two_refused(sheet, now);
    if now == Some((3, 0)) {
        return now;
    }
    load_refused(sheet, closed_unknown(sheet, now))
}

pub struct Paper {
    pub fault: Fault,
    /// Whether refusals and choices are to be compared as well: with a fault they may differ.
    pub whole: bool,
}

impl Paper {
    /// The refusal with this bench's fault.
    fn refusal(&self, sheet: &[u8]) -> Verdict {
        let right = read(sheet).map(|r| (r.number, r.offset));
        let kind = |at: u64| bits::get(sheet, at as usize, 6);
        match (self.fault, right) {
            (Fault::TailOffset, Some((16, at))) => Some((16, at - at.min(49))),
            (Fault::SecondDemand, Some((9, at))) if kind(at) == 7 => None,
            (Fault::SecondClosure, Some((9, at))) if kind(at) == 8 => None,
            (Fault::ClosedUnknown, _) => closed_unknown(sheet, right),
            (Fault::LoadRefused, _) => load_refused(sheet, right),
            (Fault::EmptyCount, Some((6, 24))) if bits::get(sheet, 8, 16) == 0 => Some((2, 24)),
            (Fault::SecondPolicy, Some((7, at))) if kind(at) == 1 => Some((6, at)),
            (Fault::UnknownKindFirst, Some((2, at)))
                if at as usize + 22 <= sheet.len() * 8
                    && at > 0
                    && !(1..=8).contains(&kind(at)) =>
            {
                Some((4, at))
            }
            (Fault::EditionTwoRefused, _) => edition_two_refused(sheet, right),
            (Fault::EditionThreeRead, Some((3, _))) => {
                let mut other = sheet.to_vec();
                other[0] = 2;
                read(&other).map(|r| (r.number, r.offset))
            }
            (Fault::LengthsOfEditionTwo, _) => lengths_of_edition_two(sheet, right),
            (Fault::AcrossUnchecked, Some((11, at))) if is_of_across(sheet, at) => None,
            (Fault::AcrossFromZero | Fault::AcrossMinusZero, None) => {
                let s = Sheet::of_accepted(sheet);
                let outside = |across: f64| match self.fault {
                    Fault::AcrossFromZero => across < 0.0,
                    _ => across.to_bits() == 1 << 63,
                };
                let stops = s.stops.iter().map(|s| s.across);
                let mut all = stops.chain(s.cars.iter().map(|c| c.across));
                all.any(outside).then_some((11, 24))
            }
            (Fault::MinusZero, None) => {
                let s = Sheet::of_accepted(sheet);
                s.cars
                    .iter()
                    .any(|c| c.load.to_bits() == 1 << 63)
                    .then_some((11, 24))
            }
            (Fault::ThresholdEnd, None) => {
                let s = Sheet::of_accepted(sheet);
                s.cars
                    .iter()
                    .any(|c| c.up_threshold == Some(1000.0))
                    .then_some((11, 24))
            }
            (_, right) => right,
        }
    }

    fn chosen(&self, cars: usize, columns: usize, cells: &[u64]) -> Vec<usize> {
        let signed = |f: &dyn Fn(usize, usize) -> i64| -> Vec<i64> {
            (0..cars * columns)
                .map(|k| f(k / columns, k % columns))
                .collect()
        };
        let cell = |i: usize, j: usize| cells[i * columns + j] as i64;
        match self.fault {
            Fault::HighestColumn => {
                let mirrored = signed(&|i, j| cell(i, columns - 1 - j));
                let found = pathfinding::least_choice(cars, columns, &mirrored);
                found.iter().map(|j| columns - 1 - j).collect()
            }
            Fault::Greedy => {
                let mut free = vec![true; columns];
                (0..cars)
                    .map(|i| {
                        let j = (0..columns)
                            .filter(|j| free[*j])
                            .min_by_key(|j| cell(i, *j))
                            .unwrap();
                        free[j] = false;
                        j
                    })
                    .collect()
            }
            Fault::MostSent => {
                let heavy = signed(&|i, j| {
                    if cell(i, j) == SENTINEL {
                        1 << 55
                    } else {
                        cell(i, j)
                    }
                });
                pathfinding::least_choice(cars, columns, &heavy)
            }
            Fault::LeftStanding => pathfinding::lowest_choice(cars, columns, &signed(&cell)),
            _ => pathfinding::least_choice(cars, columns, &signed(&cell)),
        }
    }
}

/// One sheet under the definitions.
struct Pass<'a> {
    fault: Fault,
    sheet: &'a Sheet,
    /// Stops of any line, with demand, covered, pending: masks by stop index.
    group: u64,
    demand: u64,
    pending: u64,
    /// 2 × sweep + mode of each car, after preparing.
    sweeps: Vec<u8>,
}

fn nth(mask: u64, j: usize) -> bool {
    mask & mask_bit(j) != 0
}

impl<'a> Pass<'a> {
    fn new(fault: Fault, sheet: &'a Sheet) -> Self {
        let group = sheet.lines.iter().fold(0, |mask, l| mask | l.mask);
        let mut pass = Self {
            fault,
            sheet,
            group,
            demand: 0,
            pending: 0,
            sweeps: Vec::new(),
        };
        for j in 0..sheet.stops.len() {
            if pass.has_demand(j) {
                pass.demand |= mask_bit(j);
            }
        }
        for j in 0..sheet.stops.len() {
            let wanted = pass.bound(j, |c| c.idle) && !pass.is(Fault::BoundForDropped);
            let is_open = !pass.shut(j) && (wanted || !pass.covered(j));
            if nth(group, j) && nth(pass.demand, j) && is_open {
                pass.pending |= mask_bit(j);
            }
        }
        pass.sweeps = sheet.cars.iter().map(|c| pass.sweep(c)).collect();
        pass
    }

    /// The places of the pending stops' records, in column order.
    fn pending_stops(&self) -> Vec<usize> {
        let stops = 0..self.sheet.stops.len();
        stops.filter(|j| nth(self.pending, *j)).collect()
    }

    fn is(&self, fault: Fault) -> bool {
        self.fault == fault
    }

    fn waiters(&self, j: usize) -> impl Iterator<Item = &'a Waiting> + use<'a> {
        let id = self.sheet.stops[j].id;
        self.sheet.waiting.iter().filter(move |w| w.stop == id)
    }

    fn call(&self, j: usize) -> bool {
        let id = self.sheet.stops[j].id;
        self.sheet.demands.iter().any(|d| d.stop == id && d.call)
    }

    fn has_demand(&self, j: usize) -> bool {
        let id = self.sheet.stops[j].id;
        let riding = self
            .sheet
            .demands
            .iter()
            .any(|d| d.stop == id && d.riding > 0);
        self.waiters(j).next().is_some() || riding && !self.is(Fault::RidingIgnored) || self.call(j)
    }

    /// Line by line, records in order.
    fn group_cars(&self) -> Vec<&'a Car> {
        if self.is(Fault::CapacityInRecordOrder) {
            return self.sheet.cars.iter().collect();
        }
        let on = |line: u32| self.sheet.cars.iter().filter(move |c| c.line == line);
        self.sheet.lines.iter().flat_map(|l| on(l.id)).collect()
    }

    /// A record of kind 8 names the stop.
    fn closed(&self, j: usize) -> bool {
        let id = match self.fault {
            Fault::ClosedByPlace => j as u32,
            _ => self.sheet.stops[j].id,
        };
        self.sheet.closed.contains(&id)
    }

    /// A rider of one of these cars is bound for the stop.
    fn bound(&self, j: usize, of: impl Fn(&Car) -> bool) -> bool {
        let id = self.sheet.stops[j].id;
        let sheet = self.sheet;
        let riders = sheet.aboard.iter().filter(|a| a.destination == Some(id));
        let cars = |car: u32| sheet.cars.iter().filter(move |c| c.id == car);
        riders.flat_map(|a| cars(a.car)).any(of)
    }

    /// Whether a closure keeps cars away from a stop: "closure comes first and no car is sent there", "whoever waits there".
    fn shut(&self, j: usize) -> bool {
        let id = self.sheet.stops[j].id;
        let is_open = match self.fault {
            Fault::ClosureIgnored => true,
            Fault::ClosedUnlessWaited => self.waiters(j).next().is_some(),
            Fault::ClosedIfServed => self.sheet.cars.iter().all(|c| c.target != Some(id)),
            Fault::BoundFirst => self.bound(j, |c| c.idle),
            Fault::ClosedUnlessBound => self.bound(j, |_| true),
            _ => false,
        };
        self.closed(j) && !is_open
    }

    fn closed_mask(&self) -> u64 {
        let stops = (0..self.sheet.stops.len()).filter(|j| self.closed(*j));
        stops.fold(0, |mask, j| mask | mask_bit(j))
    }

    fn covered(&self, j: usize) -> bool {
        if self.shut(j) {
            return true;
        }
        let id = self.sheet.stops[j].id;
        let serves = |c: &Car| {
            let target = if self.is(Fault::CoverByPhaseStop) {
                (c.stop != 0).then_some(c.stop)
            } else {
                c.target
            };
            target == Some(id)
                && (matches!(c.phase, 1 | 3 | 4 | 5)
                    || c.phase == 2 && self.is(Fault::RepositioningServes))
        };
        let serving: Vec<&Car> = self
            .group_cars()
            .into_iter()
            .filter(|c| serves(c))
            .collect();
        if serving.is_empty() {
            return false;
        }
        let mut capacity = 0.0;
        for c in &serving {
            capacity += c.capacity - c.load;
        }
        let mut weight = 0.0;
        for w in self.waiters(j) {
            if let Some(line) = w.line {
                let recorded = self.sheet.lines.iter().any(|l| l.id == line);
                let ignored = !recorded && self.is(Fault::UnrecordedLineIgnored);
                if !ignored && !serving.iter().any(|c| c.line == line) {
                    return false;
                }
            }
            weight += w.weight;
        }
        if self.is(Fault::CoverBelow) {
            weight < capacity
        } else {
            weight <= capacity
        }
    }

    fn sweep(&self, c: &Car) -> u8 {
        let kept = 2 * u8::from(c.sweep_down) + u8::from(c.lenient);
        let prepared = self.sheet.policy.strategy == SCAN
            && (c.idle || self.is(Fault::PrepareAll))
            && (self.pending != 0 || self.is(Fault::PrepareAlways))
            && !self.is(Fault::SweepKept);
        if !prepared {
            return kept;
        }
        let among = if self.is(Fault::AheadPendingOnly) {
            self.pending
        } else if self.is(Fault::AheadOnLineOnly) {
            self.demand & self.line_mask(c)
        } else if self.is(Fault::ClosedNotAhead) {
            self.demand & self.group & !self.closed_mask()
        } else {
            self.demand & self.group
        };
        let wide = self.is(Fault::AheadAtTolerance);
        let ahead = (0..self.sheet.stops.len()).any(|j| {
            let p = self.along(Point::of_stop(&self.sheet.stops[j]), Fault::AcrossInSweep);
            let at = self.along(Point::of_car(c), Fault::AcrossInSweep);
            let past = if c.sweep_down {
                p < at - 1e-9 || wide && p == at - 1e-9
            } else {
                p > at + 1e-9 || wide && p == at + 1e-9
            };
            nth(among, j) && past
        });
        if ahead {
            2 * u8::from(c.sweep_down)
        } else {
            2 * u8::from(!c.sweep_down) + 1
        }
    }

    fn line_mask(&self, c: &Car) -> u64 {
        self.sheet
            .lines
            .iter()
            .find(|l| l.id == c.line)
            .unwrap()
            .mask
    }

    /// The first coordinate, by which directions are told; with this fault the sum of both.
    fn along(&self, at: Point, fault: Fault) -> f64 {
        match self.is(fault) {
            true => at.position + at.across,
            false => at.position,
        }
    }

    /// The distance of two points; with this fault that of the first coordinates.
    fn distance(&self, from: Point, to: Point, fault: Fault) -> f64 {
        let (along, aside) = (from.position - to.position, from.across - to.across);
        match self.fault {
            at if at == fault => along.abs(),
            Fault::AcrossIgnored => along.abs(),
            Fault::AcrossLarger => along.abs().max(aside.abs()),
            Fault::AcrossStraight => along.hypot(aside),
            Fault::AcrossSigned => (along + aside).abs(),
            Fault::AcrossOfStopAlone => along.abs() + to.across.abs(),
            _ => from.distance(to),
        }
    }

    /// That of a car and a stop.
    fn to_stop(&self, c: &Car, j: usize, fault: Fault) -> f64 {
        let stop = Point::of_stop(&self.sheet.stops[j]);
        self.distance(Point::of_car(c), stop, fault)
    }

    fn kept(&self, c: &Car, j: usize) -> bool {
        let viable = self.pending & !c.restricted & self.line_mask(c);
        let limit = self.sheet.policy.limit;
        let none = limit == NO_LIMIT
            || self.sheet.policy.strategy == SCAN && self.is(Fault::NoCutUnderScan);
        let among = if self.is(Fault::LimitBeforeLine) {
            self.pending
        } else {
            viable
        };
        let here = (self.to_stop(c, j, Fault::AcrossNotInCut), j);
        let before = (0..self.sheet.stops.len())
            .filter(|k| nth(among, *k))
            .filter(|k| {
                let there = (self.to_stop(c, *k, Fault::AcrossNotInCut), *k);
                if self.is(Fault::CutByHigherId) && there.0 == here.0 {
                    return there.1 > here.1;
                }
                there < here
            })
            .count();
        nth(viable, j) && (none || before < usize::from(limit))
    }

    /// Where a stop is, by id.
    fn place(&self, id: u32) -> Option<Point> {
        let stop = self.sheet.stops.iter().find(|s| s.id == id);
        stop.map(Point::of_stop)
    }

    fn aboard(&self, c: &Car) -> Vec<Option<u32>> {
        self.sheet
            .aboard
            .iter()
            .filter(|a| a.car == c.id)
            .map(|a| a.destination)
            .collect()
    }

    /// Where a moving or repositioning car is bound.
    fn heading(&self, c: &Car) -> Option<f64> {
        if c.phase == 1 || c.phase == 2 {
            let to = self.place(c.stop)?;
            Some(self.along(to, Fault::AcrossInDirection))
        } else {
            None
        }
    }

    /// Where a car and a stop are on the way that directions are told by.
    fn directed(&self, c: &Car, j: usize) -> (f64, f64) {
        let fault = Fault::AcrossInDirection;
        let stop = Point::of_stop(&self.sheet.stops[j]);
        (self.along(Point::of_car(c), fault), self.along(stop, fault))
    }

    fn bypass(&self, c: &Car, j: usize) -> bool {
        let Some(target) = self.heading(c) else {
            return false;
        };
        let (at, p) = self.directed(c, j);
        let (up, down) = (target > at, target < at);
        if !up && !down {
            return false;
        }
        let Some(threshold) = (if up { c.up_threshold } else { c.down_threshold }) else {
            return false;
        };
        if c.capacity <= 0.0 {
            return false;
        }
        let ratio = c.load / c.capacity;
        if ratio < threshold || ratio == threshold && self.is(Fault::BypassAbove) {
            return false;
        }
        up && p > at || down && p < at
    }

    fn can_board(&self, c: &Car, w: &Waiting, stop: &Stop, remaining: f64) -> bool {
        if w.weight > remaining || w.weight == remaining && self.is(Fault::BoardBelow) {
            return false;
        }
        let Some(to) = w.destination.and_then(|id| self.place(id)) else {
            return true;
        };
        let to = self.along(to, Fault::AcrossInLamps);
        let p = self.along(Point::of_stop(stop), Fault::AcrossInLamps);
        if self.is(Fault::LampsIgnored) {
            return true;
        }
        !(to > p && !c.going_up) && !(to < p && !c.going_down)
    }

    fn useful(&self, c: &Car, j: usize, path: bool) -> bool {
        let stop = &self.sheet.stops[j];
        let aboard = self.aboard(c);
        if aboard.contains(&Some(stop.id)) {
            return true;
        }
        if self.bypass(c, j) {
            return false;
        }
        let remaining = c.capacity - c.load;
        if remaining <= 0.0 {
            return false;
        }
        let servable = if self.waiters(j).next().is_none() {
            self.call(j) && !self.is(Fault::CallIgnored)
        } else {
            self.waiters(j)
                .any(|w| self.can_board(c, w, stop, remaining))
        };
        if !servable {
            return false;
        }
        let strict = self.is(Fault::PathWithoutDestination) && !aboard.is_empty();
        if !path || !strict && aboard.iter().all(Option::is_none) {
            return true;
        }
        let to_stop = stop.position - c.position;
        aboard.iter().any(|a| {
            let Some(at) = a.and_then(|id| self.place(id)) else {
                return false;
            };
            let to_there = at.position - c.position;
            let aside = (at.across - c.across) * (stop.across - c.across);
            if self.is(Fault::AcrossInPathSigns) && aside < 0.0 {
                return false;
            }
            let onward = if self.is(Fault::PathBySigns) {
                !(to_there > 0.0 && to_stop < 0.0 || to_there < 0.0 && to_stop > 0.0)
            } else {
                to_there * to_stop >= 0.0
            };
            let (car, stop) = (Point::of_car(c), Point::of_stop(stop));
            match self.is(Fault::AcrossInPath) {
                true => onward && car.distance(stop) <= car.distance(at),
                false => onward && to_stop.abs() <= to_there.abs(),
            }
        })
    }

    fn fma(&self, a: f64, b: f64, c: f64) -> f64 {
        if self.is(Fault::Fused) {
            a.mul_add(b, c)
        } else {
            a * b + c
        }
    }

    fn waits(&self, j: usize) -> f64 {
        self.waiters(j).fold(0.0, |sum, w| sum + w.wait as f64)
    }

    fn squares(&self, j: usize) -> f64 {
        if self.is(Fault::SquareOfSum) {
            return self.waits(j) * self.waits(j);
        }
        self.waiters(j)
            .fold(0.0, |sum, w| sum + w.wait as f64 * w.wait as f64)
    }

    fn eased(&self, cost: f64, weight: f64, term: f64) -> f64 {
        if weight > 0.0 {
            self.fma(weight, -term, cost).max(0.0)
        } else {
            cost
        }
    }

    fn etd(&self, c: &Car, j: usize) -> Option<f64> {
        if !self.useful(c, j, self.is(Fault::PathUnderEtd)) {
            return None;
        }
        let w = self.sheet.policy.weights;
        let p = self.sheet.stops[j].position;
        if c.speed <= 0.0 && !self.is(Fault::SpeedZeroRanked) {
            return None;
        }
        let travel = if c.speed > 0.0 {
            self.to_stop(c, j, Fault::AcrossNotInTravel) / c.speed
        } else {
            0.0
        };
        let transitions = if self.is(Fault::OneTransition) {
            1.0
        } else {
            2.0
        };
        let door = (transitions * f64::from(c.transition) + f64::from(c.open))
            / self.sheet.policy.tick_rate;
        let (low, high) = if c.position < p {
            (c.position, p)
        } else {
            (p, c.position)
        };
        let among = if self.is(Fault::CoveredNotCounted) {
            self.pending
        } else if self.is(Fault::ClosedNotCounted) {
            self.demand & self.group & !self.closed_mask()
        } else {
            self.demand & self.group
        };
        let between = (0..self.sheet.stops.len())
            .filter(|k| nth(among, *k))
            .filter(|k| {
                let q = self.sheet.stops[*k].position;
                if self.is(Fault::AcrossInBetween) {
                    let (a, b) = (c.across, self.sheet.stops[j].across);
                    let aside = self.sheet.stops[*k].across;
                    if aside < a.min(b) || aside > a.max(b) {
                        return false;
                    }
                }
                if self.is(Fault::CountAtTolerance) {
                    q >= low + 1e-9 && q <= high - 1e-9
                } else {
                    q > low + 1e-9 && q < high - 1e-9
                }
            })
            .count() as f64;
        let mut delay = 0.0;
        for to in self
            .aboard(c)
            .into_iter()
            .flatten()
            .filter_map(|id| self.place(id))
        {
            let fault = Fault::AcrossNotInDetours;
            let (car, stop) = (Point::of_car(c), Point::of_stop(&self.sheet.stops[j]));
            let direct = match self.fault {
                Fault::AcrossNotInDirect => (car.position - to.position).abs(),
                _ => self.distance(car, to, fault),
            };
            let detour = self.distance(car, stop, fault) + self.distance(stop, to, fault);
            if c.speed > 0.0 {
                delay += (detour - direct).max(0.0) / c.speed;
            }
        }
        let mut bonus = match self.heading(c) {
            _ if c.phase == 2 && self.is(Fault::NoBonusRepositioning) => 0.0,
            Some(to) => {
                let beyond = self.is(Fault::AheadBeyondTarget);
                let (at, p) = self.directed(c, j);
                let ahead = if to > at {
                    p > at && (p <= to || beyond)
                } else {
                    p < at && (p >= to || beyond)
                };
                if ahead { -travel * 0.5 } else { 0.0 }
            }
            None if c.phase == 0 || c.phase == 6 && self.is(Fault::BonusStopped) => -travel * 0.3,
            None => 0.0,
        };
        if self.is(Fault::BonusWeighted) {
            bonus *= w[0];
        }
        let raw = if self.is(Fault::OtherOrder) {
            self.fma(
                w[2],
                between * door,
                self.fma(w[1], delay, self.fma(w[0], travel, bonus)),
            )
        } else {
            self.fma(
                w[0],
                travel,
                self.fma(w[1], delay, self.fma(w[2], between * door, bonus)),
            )
        };
        let cost = raw.max(0.0);
        let cost = if self.is(Fault::AgeBeforeSquares) {
            self.eased(self.eased(cost, w[4], self.waits(j)), w[3], self.squares(j))
        } else {
            self.eased(self.eased(cost, w[3], self.squares(j)), w[4], self.waits(j))
        };
        cost.is_finite().then_some(cost)
    }

    fn rsr(&self, c: &Car, j: usize) -> Option<f64> {
        if !self.useful(c, j, true) || c.speed <= 0.0 {
            return None;
        }
        let w = self.sheet.policy.weights;
        let (at, p) = self.directed(c, j);
        let mut cost = w[0] * (self.to_stop(c, j, Fault::AcrossNotInTravel) / c.speed);
        if let Some(to) = self.heading(c)
            && w[1] > 0.0
            && (to > at && p < at || to < at && p > at)
        {
            let traffic = self.sheet.policy.traffic;
            let peak = traffic == 1 || traffic == 3 && !self.is(Fault::NoDownPeak);
            cost += w[1]
                * if peak || self.is(Fault::AlwaysPeak) {
                    w[5]
                } else {
                    1.0
                };
        }
        if self.is(Fault::LoadBeforeCall) {
            cost = self.loaded(c, cost);
        }
        if w[2] > 0.0 && (nth(c.calls, j) || self.is(Fault::BonusWithoutCall)) {
            cost -= w[2];
        }
        if !self.is(Fault::LoadBeforeCall) && !self.is(Fault::LoadAfterAge) {
            cost = self.loaded(c, cost);
        }
        cost = self.eased(cost, w[4], self.waits(j));
        if self.is(Fault::LoadAfterAge) {
            cost = self.loaded(c, cost);
        }
        let cost = cost.max(0.0);
        cost.is_finite().then_some(cost)
    }

    /// "the load ratio, held to 0 and 1, times the weight plus the running cost, the exact value rounded once to nearest, ties
    /// to even", for a car that has a capacity and is not in phase idle.
    fn loaded(&self, c: &Car, cost: f64) -> f64 {
        let weight = self.sheet.policy.weights[3];
        let counts = weight > 0.0
            && (c.phase != 0 || self.is(Fault::LoadInPhaseIdle))
            && (c.capacity > 0.0 || self.is(Fault::LoadWithoutCapacity))
            && !self.is(Fault::LoadIgnored);
        if !counts {
            return cost;
        }
        let ratio = match self.fault {
            Fault::LoadOfRemaining => (c.capacity - c.load) / c.capacity,
            _ => c.load / c.capacity,
        };
        let ratio = match self.fault {
            Fault::LoadUnclamped => ratio,
            _ => ratio.clamp(0.0, 1.0),
        };
        match self.fault {
            Fault::LoadRoundedTwice => weight * ratio + cost,
            _ => weight.mul_add(ratio, cost),
        }
    }

    fn scan(&self, c: &Car, sweep: u8, j: usize) -> Option<f64> {
        if !self.useful(c, j, false) {
            return None;
        }
        let p = self.along(Point::of_stop(&self.sheet.stops[j]), Fault::AcrossInAccept);
        let at = self.along(Point::of_car(c), Fault::AcrossInAccept);
        let down = sweep >= 2;
        let lenient = sweep % 2 == 1 && !self.is(Fault::AlwaysStrict);
        let accepted = match (lenient, down) {
            (false, false) => p > at + 1e-9,
            (false, true) => p < at - 1e-9,
            (true, false) => p > at - 1e-9,
            (true, true) => p < at + 1e-9,
        };
        accepted.then(|| self.to_stop(c, j, Fault::AcrossNotInScan))
    }

    fn scale(&self, cost: f64) -> u64 {
        if !cost.is_finite() || cost < 0.0 {
            return SENTINEL as u64;
        }
        let scaled = cost * 1_000_000.0;
        let whole = match self.fault {
            Fault::HalfToEven => scaled.round_ties_even(),
            Fault::CutOff => scaled.trunc(),
            _ => scaled.round(),
        };
        let most = if self.is(Fault::CeilingIsSentinel) {
            SENTINEL
        } else {
            SENTINEL - 1
        };
        whole.min(most as f64) as u64
    }

    fn rank(&self, i: usize, j: usize) -> Option<f64> {
        let c = &self.sheet.cars[i];
        match self.sheet.policy.strategy {
            ETD => self.etd(c, j),
            RSR => self.rsr(c, j),
            _ => self.scan(c, self.sweeps[i], j),
        }
    }

    fn cell(&self, i: usize, j: usize) -> u64 {
        let rank = match self.kept(&self.sheet.cars[i], j) {
            true => self.rank(i, j),
            false => None,
        };
        rank.map_or(SENTINEL as u64, |cost| self.scale(cost))
    }

    /// "whether it held the value down": the cost's cell is less than its rounded value. "A value that rounds exactly to the ceiling isn't
    /// held."
    fn held_down(&self, cost: f64) -> bool {
        let scaled = cost * 1_000_000.0;
        let ceiling = (SENTINEL - 1) as f64;
        match self.fault {
            Fault::HeldNever => false,
            Fault::HeldAtCeiling => scaled.round() >= ceiling,
            Fault::HeldUnrounded => scaled > ceiling,
            Fault::HeldCutOff => scaled.trunc() > ceiling,
            _ => scaled.round() > ceiling,
        }
    }

    /// Whether the cell of a car and a stop was held down: that of a pair without a rank, or that the limit cut, was not.
    fn held(&self, i: usize, j: usize) -> bool {
        let is_kept = self.kept(&self.sheet.cars[i], j) || self.is(Fault::HeldBeyondLimit);
        let rank = self.rank(i, j).filter(|_| is_kept);
        rank.map_or(self.is(Fault::HeldWithoutRank), |cost| self.held_down(cost))
    }

    /// "the number of held cells" of some rows, by car and stop records; `chosen` are their columns.
    fn held_cells(&self, idle: &[usize], pending: &[usize], chosen: &[usize]) -> u64 {
        let spare = idle.len().saturating_sub(pending.len());
        let of_row = |row: usize| {
            let held = |column: &usize| self.held(idle[row], pending[*column]);
            let columns = (0..pending.len()).filter(held);
            match self.fault {
                Fault::HeldOfChosen => columns.filter(|column| *column == chosen[row]).count(),
                Fault::HeldCars => columns.count().min(1),
                Fault::HeldSpare => columns.count() + spare,
                _ => columns.count(),
            }
        };
        (0..idle.len()).map(|row| of_row(row) as u64).sum()
    }

    /// "for each idle car the smaller of the limit and its viable stops, summed"
    fn ranked_pairs(&self, idle: &[usize]) -> u64 {
        let all: Vec<usize> = (0..self.sheet.cars.len()).collect();
        let cars = if self.is(Fault::RankedOfAllCars) {
            &all
        } else {
            idle
        };
        let of_car = |i: &usize| {
            let c = &self.sheet.cars[*i];
            let viable = self.pending & !c.restricted & self.line_mask(c);
            let stops = (0..self.sheet.stops.len()).filter(|j| nth(viable, *j));
            match self.fault {
                Fault::RankedUseful => stops
                    .filter(|j| self.cell(*i, *j) < SENTINEL as u64)
                    .count(),
                Fault::RankedBeyondLimit => stops.count(),
                _ => stops.count().min(usize::from(self.sheet.policy.limit)),
            }
        };
        cars.iter().map(|i| of_car(i) as u64).sum()
    }

    /// The places of the idle cars' records.
    fn idle(&self) -> Vec<usize> {
        let cars = 0..self.sheet.cars.len();
        cars.filter(|i| self.sheet.cars[*i].idle).collect()
    }
}

/// The rank of each idle car for each pending stop, kept by the limit or not, by the definitions alone.
pub fn ranks(sheet: &Sheet) -> Vec<Option<f64>> {
    let pass = Pass::new(Fault::None, sheet);
    let pending = pass.pending_stops();
    let of_car = |i: usize| pending.iter().map(move |j| (i, *j));
    let pairs = pass.idle().into_iter().flat_map(of_car);
    pairs.map(|(i, j)| pass.rank(i, j)).collect()
}

/// The same with the ids of car and stop.
pub fn named_ranks(sheet: &Sheet) -> Vec<(u32, u32, Option<f64>)> {
    let pass = Pass::new(Fault::None, sheet);
    let cars = pass.idle().into_iter().map(|i| sheet.cars[i].id);
    let stops: Vec<u32> = answered(sheet).pending;
    let pairs = cars.flat_map(|car| stops.iter().map(move |stop| (car, *stop)));
    let ranks = pairs.zip(ranks(sheet));
    ranks.map(|((car, stop), rank)| (car, stop, rank)).collect()
}

/// What a pass of an accepted sheet writes and answers, by the definitions alone.
pub fn answered(sheet: &Sheet) -> answer::Pass {
    let mut paper = Paper {
        fault: Fault::None,
        whole: true,
    };
    let bytes = sheet.write();
    let (mut lent, mut places) = (Lent::new(32, 2048, 32), Places::new(64));
    let numbers = (
        paper.pass(&bytes, &mut lent),
        paper.pending(&bytes, &mut places),
    );
    assert_eq!(numbers, (0, 0), "an accepted sheet is refused");
    let (n, m) = (lent.cars as usize, lent.stops as usize);
    answer::Pass {
        cars: lent.cars,
        stops: lent.stops,
        total: lent.total,
        ranked: lent.ranked,
        held: lent.held,
        decisions: lent.decisions[..n].to_vec(),
        cells: lent.matrix[..n * n.max(m)].to_vec(),
        sweeps: lent.sweeps[..sheet.cars.len()].to_vec(),
        pending: places.stops[..m].to_vec(),
        source: answer::Source::Model,
    }
}

impl Bench for Paper {
    fn has(&self) -> Has {
        Has {
            read: self.whole,
            pass: true,
            choose: self.whole,
            pending: true,
        }
    }

    fn read(&mut self, sheet: &[u8]) -> (u32, u64) {
        self.refusal(sheet).unwrap_or((0, KEPT))
    }

    fn pass(&mut self, bytes: &[u8], lent: &mut Lent) -> u32 {
        let small = lent.decisions.len() < 32 || lent.matrix.len() < 2048 || lent.sweeps.len() < 32;
        let refusal = if small {
            Some((1, 0))
        } else {
            self.refusal(bytes)
        };
        if let Some((number, offset)) = refusal {
            lent.offset = offset;
            if self.fault == Fault::RefusalWrites {
                lent.decisions.fill(0);
            }
            return number;
        }
        if read(bytes).is_some() {
            return 0;
        }
        let sheet = Sheet::of_accepted(bytes);
        let pass = Pass::new(self.fault, &sheet);
        let idle = pass.idle();
        let pending = pass.pending_stops();
        let (n, m) = (idle.len(), pending.len());
        let columns = n.max(m);
        let mut cells = vec![SENTINEL as u64; n * columns];
        for (row, i) in idle.iter().enumerate() {
            for (column, j) in pending.iter().enumerate() {
                cells[row * columns + column] = pass.cell(*i, *j);
            }
        }
        let chosen = self.chosen(n, columns, &cells);
        lent.total = 0;
        for row in 0..n {
            let cell = cells[row * columns + chosen[row]];
            let sent = chosen[row] < m && cell < SENTINEL as u64;
            lent.decisions[row] = if sent {
                sheet.stops[pending[chosen[row]]].id
            } else {
                0
            };
            if sent || self.fault != Fault::TotalOfSent {
                lent.total += cell;
            }
        }
        lent.cars = n as u64;
        lent.stops = m as u64;
        lent.ranked = pass.ranked_pairs(&idle);
        let held = pass.held_cells(&idle, &pending, &chosen);
        if held > 0 || self.fault != Fault::HeldKeptAtZero {
            lent.held = held;
        }
        lent.matrix[..cells.len()].copy_from_slice(&cells);
        if self.fault == Fault::OneEntryMore && cells.len() < lent.matrix.len() {
            lent.matrix[cells.len()] = SENTINEL as u64;
        }
        lent.sweeps[..pass.sweeps.len()].copy_from_slice(&pass.sweeps);
        0
    }

    fn choose(
        &mut self,
        cars: usize,
        columns: usize,
        cells: &[u64],
        chosen: &mut [u32],
        total: &mut u64,
    ) -> u32 {
        let mut seen = cells.to_vec();
        if self.fault == Fault::CellAboveSentinel {
            seen.iter_mut().for_each(|c| *c = (*c).min(SENTINEL as u64));
        }
        if choice::expected(cars, columns, &seen, chosen.len()).is_none() {
            return 0;
        }
        let found = self.chosen(cars, columns, &seen);
        *total = 0;
        for i in 0..cars {
            chosen[i] = found[i] as u32;
            *total += seen[i * columns + found[i]];
        }
        1
    }

    fn pending(&mut self, bytes: &[u8], places: &mut Places) -> u32 {
        let least = match self.fault {
            Fault::FewPlacesTaken => 63,
            _ => 64,
        };
        let refusal = if places.stops.len() < least {
            Some((1, 0))
        } else {
            self.refusal(bytes)
        };
        if let Some((number, offset)) = refusal {
            places.offset = offset;
            return number;
        }
        if read(bytes).is_some() {
            return 0;
        }
        let sheet = Sheet::of_accepted(bytes);
        let pending = Pass::new(self.fault, &sheet).pending_stops();
        for (place, j) in places.stops.iter_mut().zip(&pending) {
            *place = match self.fault {
                Fault::PendingByPlace => *j as u32,
                _ => sheet.stops[*j].id,
            };
        }
        if self.fault == Fault::OnePlaceMore && pending.len() < places.stops.len() {
            places.stops[pending.len()] = 0;
        }
        places.count = pending.len() as u64;
        0
    }
}
