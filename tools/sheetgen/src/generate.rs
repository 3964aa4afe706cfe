//! Sheets from a seed, by profile. Sheet `index` of a profile depends on nothing but the seed, the
//! profile and the index.

use crate::bits;
use crate::provoke;
use crate::rng::Rng;
use crate::sheet::{
    ACROSS_BITS, Aboard, Car, Demand, ETD, HEAD_BITS, KINDS, Line, NO_LIMIT, Policy,
    RECORD_HEAD_BITS, RSR, SCAN, Sheet, Stop, Waiting, across_at, body_bits, field_at, mask_bit,
};

#[derive(Clone, Copy, Debug, PartialEq, Eq)]
pub enum Profile {
    /// Accepted, of every size and strategy, ordinary values.
    Valid,
    /// Accepted, every kind at or near the table's most.
    Full,
    /// Accepted, few distinct positions, speeds and weights.
    Ties,
    /// Accepted, positions within 1e-9 of each other, weights that sum to a capacity or nearly so.
    Near,
    /// Accepted, every double at or near an end of its range, subnormals, minus zeros.
    Extreme,
    /// Accepted, many viable stops and a small limit.
    Limits,
    /// Accepted, costs so large or so nearly cancelled that their last bits reach the cell.
    Fine,
    /// Accepted, waiters whose weights sum to the serving cars' remaining capacity or nearly so.
    Cover,
    /// Accepted sheets after one to three damages; some are still accepted.
    Damaged,
    /// Each refusal 2 to 14 and 16 on purpose, at each kind that can cause it, and values just inside.
    Provoked,
    /// Bytes without a plan, some with a plausible head.
    Garbage,
    /// Accepted, of the other accepted profiles, with closed landings.
    Closed,
    /// Accepted, RSR with a load weight above 0; the idle-listed cars are not in phase idle and carry loads.
    Load,
    /// Accepted, ETD and RSR with costs at the ceiling, within last places of it, and above.
    Ceiling,
    /// Accepted, edition 2, of the other accepted profiles, with second coordinates.
    Sideways,
    /// Accepted, edition 2, of the other accepted profiles; every second coordinate is a zero of either sign.
    Level,
    /// Sheets of edition 2 after one to three damages; some are still accepted.
    DamagedSideways,
}

pub const PROFILES: [(&str, Profile); 17] = [
    ("valid", Profile::Valid),
    ("full", Profile::Full),
    ("ties", Profile::Ties),
    ("near", Profile::Near),
    ("extreme", Profile::Extreme),
    ("limits", Profile::Limits),
    ("fine", Profile::Fine),
    ("cover", Profile::Cover),
    ("load", Profile::Load),
    ("ceiling", Profile::Ceiling),
    ("closed", Profile::Closed),
    ("sideways", Profile::Sideways),
    ("level", Profile::Level),
    ("damaged", Profile::Damaged),
    ("damaged-sideways", Profile::DamagedSideways),
    ("provoked", Profile::Provoked),
    ("garbage", Profile::Garbage),
];

pub fn profile(name: &str) -> Option<Profile> {
    PROFILES.iter().find(|(n, _)| *n == name).map(|(_, p)| *p)
}

/// The bytes of sheet `index`.
pub fn generate(profile: Profile, seed: u64, index: u64) -> Vec<u8> {
    let rng = &mut Rng::new(seed, profile as u64, index);
    match profile {
        Profile::Damaged => damaged(rng, |_, _| {}),
        Profile::DamagedSideways => damaged(rng, sideways),
        Profile::Sideways => {
            of_edition_2(rng, |maker, sheet| maker.second_coordinates(sheet)).write()
        }
        Profile::Level => of_edition_2(rng, |maker, sheet| maker.zeros(sheet)).write(),
        Profile::Provoked => provoke::provoke(rng, index).bytes,
        Profile::Garbage => garbage(rng),
        Profile::Closed => with_closures(rng).write(),
        _ => accepted(profile, rng).write(),
    }
}

/// A small sheet, changed first, after one to three damages.
fn damaged(rng: &mut Rng, change: fn(&mut Rng, &mut Sheet)) -> Vec<u8> {
    let mut sheet = any_small(rng);
    change(rng, &mut sheet);
    let mut bytes = sheet.write();
    for _ in 0..1 + rng.below(3) {
        damage(rng, &mut bytes);
    }
    bytes
}

/// What an accepted sheet is given before its profile shapes it.
type Change = fn(&mut Maker, &mut Sheet);

/// A sheet of another accepted profile in edition 2, some with closed landings.
fn of_edition_2(rng: &mut Rng, change: Change) -> Sheet {
    let profile = rng.pick(&[
        Profile::Valid,
        Profile::Ties,
        Profile::Near,
        Profile::Extreme,
        Profile::Limits,
        Profile::Fine,
        Profile::Cover,
        Profile::Load,
        Profile::Ceiling,
    ]);
    let full = rng.one_in(200);
    let mut sheet = shaped(if full { Profile::Full } else { profile }, rng, change);
    if rng.one_in(8) && !sheet.stops.is_empty() {
        close(rng, &mut sheet);
    }
    sheet
}

/// Makes a sheet one of edition 2, with ordinary second coordinates.
pub fn sideways(rng: &mut Rng, sheet: &mut Sheet) {
    let profile = Profile::Valid;
    Maker { rng, profile }.second_coordinates(sheet);
}

/// A valid sheet of a strategy with so many stops, cars and riders, on one line for every eight cars.
pub fn sized(
    strategy: u8,
    stops: usize,
    cars: usize,
    riders: usize,
    seed: u64,
    index: u64,
) -> Sheet {
    let rng = &mut Rng::new(seed, 1000 + u64::from(strategy), index);
    let size = Size {
        stops,
        lines: cars.div_ceil(8),
        cars,
        aboard: riders / 2,
        waiting: riders - riders / 2,
        demands: stops / 4,
    };
    let profile = Profile::Valid;
    loop {
        let sheet = Maker { rng, profile }.sheet(&size);
        if sheet.policy.strategy == strategy {
            return sheet;
        }
    }
}

/// A sheet of one of the accepted profiles and of a strategy, with many cars and pending stops.
pub fn crowded(profile: Profile, strategy: u8, seed: u64, index: u64) -> Sheet {
    let source = 2000 + 10 * profile as u64 + u64::from(strategy);
    let rng = &mut Rng::new(seed, source, index);
    let is_sideways = profile == Profile::Sideways;
    let profile = match index % 4 {
        _ if !is_sideways => profile,
        0 => Profile::Valid,
        1 => Profile::Ties,
        2 => Profile::Near,
        _ => Profile::Extreme,
    };
    let size = Size {
        stops: 12 + rng.below(13),
        lines: 1 + rng.below(3),
        cars: 8 + rng.below(9),
        aboard: rng.below(16),
        waiting: 4 + rng.below(14),
        demands: 8 + rng.below(12),
    };
    let mut maker = Maker { rng, profile };
    let mut sheet = maker.sheet(&size);
    sheet.policy = maker.policy_of(strategy);
    if is_sideways {
        maker.second_coordinates(&mut sheet);
    }
    match profile {
        Profile::Fine if strategy != SCAN => cancel(rng, &mut sheet),
        Profile::Load => loads(rng, &mut sheet),
        Profile::Ceiling if strategy != SCAN => to_the_ceiling(rng, &mut sheet),
        _ => {}
    }
    sheet
}

/// A sheet of one of the accepted profiles, of edition 1.
pub fn accepted(profile: Profile, rng: &mut Rng) -> Sheet {
    shaped(profile, rng, |_, _| {})
}

/// The same, changed before the profile shapes it.
fn shaped(profile: Profile, rng: &mut Rng, change: Change) -> Sheet {
    let size = if profile == Profile::Full {
        Size::full(rng)
    } else {
        Size::any(rng, profile)
    };
    let mut maker = Maker { rng, profile };
    let mut sheet = maker.sheet(&size);
    change(&mut maker, &mut sheet);
    match profile {
        Profile::Fine => cancel(rng, &mut sheet),
        Profile::Cover => cover(rng, &mut sheet),
        Profile::Load => loads(rng, &mut sheet),
        Profile::Ceiling => to_the_ceiling(rng, &mut sheet),
        _ => {}
    }
    sheet
}

/// A sheet of another accepted profile, some of its landings closed; riders of idle cars are bound for some of these.
fn with_closures(rng: &mut Rng) -> Sheet {
    let profile = rng.pick(&[
        Profile::Valid,
        Profile::Ties,
        Profile::Near,
        Profile::Extreme,
        Profile::Limits,
        Profile::Fine,
        Profile::Cover,
        Profile::Load,
    ]);
    let full = rng.one_in(200);
    let mut sheet = loop {
        let sheet = accepted(if full { Profile::Full } else { profile }, rng);
        if !sheet.stops.is_empty() {
            break sheet;
        }
    };
    close(rng, &mut sheet);
    sheet
}

/// Closes at least one landing of a sheet with stops, those where somebody waits or calls more often than others.
pub fn close(rng: &mut Rng, sheet: &mut Sheet) {
    let waiting = sheet.waiting.iter().map(|w| w.stop);
    let mut wanted: Vec<u32> = waiting
        .chain(sheet.demands.iter().map(|d| d.stop))
        .collect();
    let mut left: Vec<u32> = sheet.stops.iter().map(|s| s.id).collect();
    let many = match rng.below(8) {
        0 => left.len(),
        1..=4 => 1,
        _ => 1 + rng.below(left.len()),
    };
    for _ in 0..many {
        let stop = match wanted.is_empty() || rng.one_in(4) {
            true => left[rng.below(left.len())],
            false => wanted[rng.below(wanted.len())],
        };
        left.retain(|id| *id != stop);
        wanted.retain(|id| *id != stop);
        sheet.closed.push(stop);
    }
    let idle: Vec<u32> = sheet.cars.iter().filter(|c| c.idle).map(|c| c.id).collect();
    let riders = sheet.aboard.iter_mut().filter(|a| idle.contains(&a.car));
    for rider in riders {
        if rng.one_in(4) {
            rider.destination = Some(rng.pick(&sheet.closed));
        }
    }
}

/// Sets the weights so that the wait terms take nearly all of some car's travel term away.
fn cancel(rng: &mut Rng, sheet: &mut Sheet) {
    let Some(w) = sheet.waiting.first() else {
        return;
    };
    let Some(car) = sheet.cars.iter().find(|c| c.idle && c.speed > 0.0) else {
        return;
    };
    let at = sheet.stops.iter().find(|s| s.id == w.stop).unwrap();
    let travel = car.distance(at) / car.speed;
    let here = sheet.waiting.iter().filter(|v| v.stop == w.stop);
    let (mut sum, mut squares) = (0.0, 0.0);
    for v in here {
        sum += v.wait as f64;
        squares += v.wait as f64 * v.wait as f64;
    }
    if travel < 1.0 || sum < 1.0 {
        return;
    }
    // The travel term's size, and what may be left of it.
    let size = 10f64.powf(rng.between(2.0, 16.0));
    let weights = &mut sheet.policy.weights;
    weights[0] = (size / travel).min(1e9);
    let travel_term = weights[0] * travel;
    let left = (1e8 / travel_term).min(1.0) * rng.unit();
    let share = match rng.below(3) {
        _ if sheet.policy.strategy == RSR => 0.0,
        0 => 0.0,
        1 => 1.0,
        _ => rng.unit(),
    };
    weights[4] = (travel_term * (1.0 - left) * (1.0 - share) / sum).min(1e9);
    if sheet.policy.strategy == ETD {
        weights[3] = (travel_term * (1.0 - left) * share / squares).min(1e9);
    }
}

/// Several cars serve the first stop; its waiters weigh what is left in them, added in one order or another.
fn cover(rng: &mut Rng, sheet: &mut Sheet) {
    if sheet.stops.is_empty() {
        return;
    }
    let first = sheet.stops[0].id;
    let amounts = [0.1, 0.2, 0.3, 0.7, 1.1, 3.3, 1e-9, 1e9, 123.456];
    for c in &mut sheet.cars {
        if rng.one_in(5) {
            continue;
        }
        c.target = Some(first);
        c.phase = rng.pick(&[1, 3, 4, 5]);
        c.stop = if c.phase == 1 { first } else { 0 };
        c.capacity = rng.pick(&amounts);
        c.load = if rng.flag() {
            0.0
        } else {
            rng.pick(&amounts).min(c.capacity)
        };
    }
    let left = |c: &&Car| c.target == Some(first) && matches!(c.phase, 1 | 3 | 4 | 5);
    let by_line = sheet
        .lines
        .iter()
        .flat_map(|l| sheet.cars.iter().filter(|c| c.line == l.id));
    let group = by_line
        .filter(left)
        .fold(0.0, |sum, c| sum + (c.capacity - c.load));
    let record = sheet
        .cars
        .iter()
        .filter(left)
        .fold(0.0, |sum, c| sum + (c.capacity - c.load));
    let back = sheet
        .cars
        .iter()
        .rev()
        .filter(left)
        .fold(0.0, |sum, c| sum + (c.capacity - c.load));
    let weight: f64 = rng.pick(&[group, record, back]);
    if !(0.0..=1e9).contains(&weight) {
        return;
    }
    sheet.waiting.retain(|w| w.stop != first);
    let first_part = if rng.flag() {
        0.0
    } else {
        rng.pick(&amounts).min(weight)
    };
    for weight in [first_part, weight - first_part] {
        sheet.waiting.push(Waiting {
            stop: first,
            line: None,
            destination: None,
            weight,
            wait: 1,
        });
    }
}

/// Idle-listed cars leave phase idle and get loads, and of those that are full riders get off where there is demand: such a
/// pair alone has a rank then. In every other sheet the load's part takes nearly all of some car's call bonus away.
fn loads(rng: &mut Rng, sheet: &mut Sheet) {
    let waiting = sheet.waiting.iter().map(|w| w.stop);
    let wanted: Vec<u32> = waiting
        .chain(sheet.demands.iter().map(|d| d.stop))
        .collect();
    for car in sheet.cars.iter_mut().filter(|c| c.idle) {
        if car.phase == 0 {
            car.phase = 1 + rng.below(6) as u8;
            car.stop = match sheet.stops.len() {
                _ if car.phase > 2 => 0,
                0 => 1 + rng.below(60) as u32,
                stops => sheet.stops[rng.below(stops)].id,
            };
        }
        // A car that covers the stop where it is sent has no pair to be ranked for.
        if rng.flag() {
            car.target = None;
        }
        (car.capacity, car.load) = a_load(rng);
        let ratio = car.load / car.capacity;
        for threshold in [&mut car.up_threshold, &mut car.down_threshold] {
            *threshold = match rng.below(6) {
                0 => *threshold,
                1 if (0.0..=1000.0).contains(&ratio) => Some(ratio),
                _ => None,
            };
        }
        if car.load < car.capacity {
            if rng.flag() {
                sheet.aboard.retain(|a| a.car != car.id);
            }
        } else if !wanted.is_empty() {
            for _ in 0..1 + rng.below(4) {
                sheet.aboard.push(Aboard {
                    car: car.id,
                    destination: Some(rng.pick(&wanted)),
                });
            }
        }
    }
    if sheet.policy.strategy == RSR && rng.flag() {
        against_the_bonus(rng, sheet);
    }
}

/// A capacity, 0 and subnormal ones among them, and a load: below it, at it, above it, and at both ends of its range.
fn a_load(rng: &mut Rng) -> (f64, f64) {
    let capacity: f64 = match rng.below(16) {
        0 => rng.pick(&[0.0, -0.0]),
        1 => rng.pick(&[5e-324, 1e-310, 2.2250738585072014e-308]),
        2 => any_magnitude(rng, 1e9),
        3 => 1e9,
        _ => rng.pick(&[500.0, 800.0, 1000.0, 1200.0, 3.0, 0.7]),
    };
    let load = match rng.below(12) {
        0 => rng.pick(&[0.0, -0.0, 5e-324]),
        1 => capacity,
        2 => capacity * rng.between(1.0, 3.0),
        3 => rng.between(0.0, 1e9),
        4 => ulps(capacity.min(1e6), -1).abs(),
        _ => capacity * rng.unit(),
    };
    (capacity, load.min(1e9))
}

/// The load's part of a car, in its calls the bonus that it takes away, and what is left of both: nothing, last places, the travel term.
fn against_the_bonus(rng: &mut Rng, sheet: &mut Sheet) {
    let has_part = |c: &&mut Car| c.idle && c.capacity > 0.0 && c.load > 0.0;
    let Some(car) = sheet.cars.iter_mut().find(has_part) else {
        return;
    };
    let ratio = (car.load / car.capacity).clamp(0.0, 1.0);
    let weights = &mut sheet.policy.weights;
    weights[3] = 10f64.powf(rng.between(6.0, 9.0)).min(1e9);
    let part = weights[3] * ratio;
    weights[2] = match rng.below(4) {
        0 => part,
        1 => f64::from_bits(part.to_bits() + rng.below(4) as u64),
        _ => part * rng.between(0.999_999, 1.000_001),
    }
    .min(1e9);
    if rng.flag() {
        weights[4] = 0.0;
    }
    car.calls = (0..sheet.stops.len()).fold(0, |mask, i| mask | mask_bit(i));
}

/// The first weight makes the travel term of an idle-listed car and a stop with demand the ceiling, give or take last places, or some of it; in most
/// sheets that is the whole cost. The car stands still, empty, and so do others beside it.
fn to_the_ceiling(rng: &mut Rng, sheet: &mut Sheet) {
    const CEILING: f64 = 281_474_976.710_655;
    let waiting = sheet.waiting.iter().map(|w| w.stop);
    let wanted: Vec<u32> = waiting
        .chain(sheet.demands.iter().map(|d| d.stop))
        .collect();
    let idle: Vec<usize> = (0..sheet.cars.len())
        .filter(|i| sheet.cars[*i].idle && sheet.cars[*i].speed > 0.0)
        .collect();
    if wanted.is_empty() || idle.is_empty() {
        return;
    }
    let stop = rng.pick(&wanted);
    let at = sheet.stops.iter().find(|s| s.id == stop).unwrap();
    let first = &sheet.cars[rng.pick(&idle)];
    let (position, across, speed) = (first.position, first.across, first.speed);
    let travel = first.distance(at) / speed;
    if travel < 0.3 {
        return;
    }
    for i in idle {
        let car = &mut sheet.cars[i];
        if car.position != position && rng.flag() {
            continue;
        }
        (car.position, car.across, car.speed) = (position, across, speed);
        (car.phase, car.stop, car.target) = (rng.pick(&[3, 4, 5, 6]), 0, None);
        (car.load, car.capacity) = (0.0, 1e9);
        (car.going_up, car.going_down) = (true, true);
        let id = car.id;
        sheet.aboard.retain(|a| a.car != id);
    }
    let share = match rng.below(6) {
        0 => rng.between(0.5, 2.0),
        1 => rng.pick(&[0.999_999_9, 1.000_000_1, 2.0]),
        _ => 1.0,
    };
    let weight = f64::from_bits((share * CEILING / travel).to_bits() + rng.below(49) as u64 - 24);
    let weights = &mut sheet.policy.weights;
    if !rng.one_in(4) {
        *weights = [0.0; 6];
    }
    weights[0] = weight.min(1e9);
}

/// A small accepted sheet with at least one record of each kind but 8, which one in two has.
pub fn any_small(rng: &mut Rng) -> Sheet {
    let profile = rng.pick(&[
        Profile::Valid,
        Profile::Ties,
        Profile::Near,
        Profile::Extreme,
    ]);
    let size = Size {
        stops: 1 + rng.below(6),
        lines: 1 + rng.below(3),
        cars: 1 + rng.below(4),
        aboard: 1 + rng.below(4),
        waiting: 1 + rng.below(4),
        demands: 1 + rng.below(3),
    };
    let mut sheet = Maker { rng, profile }.sheet(&size);
    if rng.flag() {
        close(rng, &mut sheet);
    }
    sheet
}

struct Size {
    stops: usize,
    lines: usize,
    cars: usize,
    aboard: usize,
    waiting: usize,
    demands: usize,
}

impl Size {
    fn any(rng: &mut Rng, profile: Profile) -> Self {
        if profile == Profile::Cover || profile == Profile::Fine {
            return Self {
                stops: 1 + rng.below(8),
                lines: 1 + rng.below(4),
                cars: 1 + rng.below(8),
                aboard: rng.below(8),
                waiting: 1 + rng.below(6),
                demands: rng.below(4),
            };
        }
        let stops = match rng.below(20) {
            _ if profile == Profile::Limits => 8 + rng.below(57),
            0..=4 => rng.below(4),
            5..=14 => 3 + rng.below(10),
            15..=18 => 10 + rng.below(55),
            _ => 64,
        };
        let cars = match rng.below(10) {
            0..=3 => rng.below(4),
            4..=8 => 2 + rng.below(7),
            _ => 8 + rng.below(25),
        };
        let lines = match rng.below(10) {
            0 => rng.below(9),
            1..=5 => 1,
            _ => 1 + rng.below(4),
        };
        let aboard = if rng.one_in(3) {
            0
        } else {
            rng.below(3 * cars + 1)
        };
        let waiting = if rng.one_in(5) {
            0
        } else {
            rng.below(2 * stops + 2)
        };
        let demands = if rng.one_in(4) {
            0
        } else {
            rng.below(stops + 1)
        };
        Self {
            stops,
            lines,
            cars,
            aboard,
            waiting,
            demands,
        }
    }

    fn full(rng: &mut Rng) -> Self {
        let mut near = |most: usize| {
            if rng.one_in(3) {
                most - rng.below(most / 4 + 1)
            } else {
                most
            }
        };
        Self {
            stops: near(64),
            lines: near(8),
            cars: near(32),
            aboard: near(512),
            waiting: near(512),
            demands: near(64),
        }
    }
}

/// Magnitudes that no plan foresees: any exponent up to `most`.
pub fn any_magnitude(rng: &mut Rng, most: f64) -> f64 {
    let top = most.to_bits() >> 52;
    let bits = (rng.next() % (top + 1)) << 52 | rng.next() >> 12;
    f64::from_bits(bits).min(most)
}

struct Maker<'a> {
    rng: &'a mut Rng,
    profile: Profile,
}

impl Maker<'_> {
    fn sheet(&mut self, size: &Size) -> Sheet {
        let mut sheet = Sheet::new(ETD);
        sheet.policy = self.policy();
        let mut id = if self.rng.one_in(10) { 0x7fff_ff00 } else { 0 };
        for _ in 0..size.stops {
            id += 1 + if self.rng.one_in(4) {
                self.rng.below(50) as u32
            } else {
                0
            };
            let position = self.position(&positions(&sheet.stops));
            sheet.stops.push(Stop::at(id, position));
        }
        for k in 0..size.lines {
            let id = self.fresh(sheet.lines.iter().map(|l| l.id).collect());
            // Every third line or so leaves stops out.
            let all = k == 0 && self.rng.flag();
            let mut mask = 0;
            for i in 0..size.stops {
                if all || !self.rng.one_in(3) {
                    mask |= mask_bit(i);
                }
            }
            sheet.lines.push(Line { id, mask });
        }
        let cars = if size.lines == 0 { 0 } else { size.cars };
        for _ in 0..cars {
            let id = self.fresh(sheet.cars.iter().map(|c| c.id).collect());
            let car = self.car(id, &sheet);
            sheet.cars.push(car);
        }
        let aboard = if cars == 0 { 0 } else { size.aboard };
        for _ in 0..aboard {
            let car = sheet.cars[self.rng.below(cars)].id;
            let destination = self.opt_stop(&sheet);
            sheet.aboard.push(Aboard { car, destination });
        }
        let waiting = if size.stops == 0 { 0 } else { size.waiting };
        for _ in 0..waiting {
            let rider = self.waiting(&sheet);
            sheet.waiting.push(rider);
        }
        let mut left: Vec<u32> = sheet.stops.iter().map(|s| s.id).collect();
        for _ in 0..size.demands.min(size.stops) {
            let stop = left.remove(self.rng.below(left.len()));
            let riding = self.rng.pick(&[0, 0, 0, 1, 3, 65_535]);
            let call = !self.rng.one_in(3);
            sheet.demands.push(Demand { stop, riding, call });
        }
        sheet
    }

    /// An id that isn't among `taken`.
    fn fresh(&mut self, taken: Vec<u32>) -> u32 {
        loop {
            let id = match self.rng.below(8) {
                0 => self.rng.next() as u32,
                1 => u32::MAX - self.rng.below(3) as u32,
                _ => 1 + self.rng.below(60) as u32,
            };
            if id != 0 && !taken.contains(&id) {
                return id;
            }
        }
    }

    fn stop_id(&mut self, sheet: &Sheet) -> u32 {
        if sheet.stops.is_empty() || self.rng.one_in(8) {
            self.fresh(Vec::new())
        } else {
            sheet.stops[self.rng.below(sheet.stops.len())].id
        }
    }

    fn opt_stop(&mut self, sheet: &Sheet) -> Option<u32> {
        if self.rng.one_in(6) {
            None
        } else {
            Some(self.stop_id(sheet))
        }
    }

    fn policy(&mut self) -> Policy {
        let strategy = match self.profile {
            Profile::Fine | Profile::Ceiling => self.rng.pick(&[ETD, RSR]),
            Profile::Load => RSR,
            _ => self.rng.pick(&[ETD, RSR, SCAN]),
        };
        self.policy_of(strategy)
    }

    fn policy_of(&mut self, strategy: u8) -> Policy {
        let limit = match self.rng.below(10) {
            _ if self.profile == Profile::Limits => 1 + self.rng.below(12) as u16,
            0..=4 => NO_LIMIT,
            5..=7 => 1 + self.rng.below(4) as u16,
            8 => 1 + self.rng.below(66) as u16,
            _ => NO_LIMIT - 1,
        };
        let tick_rate = match self.profile {
            Profile::Extreme => {
                self.rng
                    .pick(&[1.0, 1.0000000000000002, 60.0, 999_999.999, 1_000_000.0, 3.7])
            }
            _ => self.rng.pick(&[60.0, 60.0, 30.0, 20.0, 1.0]),
        };
        let mut weights = [0.0; 6];
        if strategy != SCAN {
            for (k, weight) in weights.iter_mut().enumerate() {
                *weight = self.weight(strategy, k);
            }
            if strategy == ETD {
                weights[5] = 0.0;
            } else {
                weights[3] = self.load_weight();
            }
        }
        Policy {
            strategy,
            limit,
            tick_rate,
            traffic: self.rng.below(4) as u8,
            weights,
        }
    }

    fn weight(&mut self, strategy: u8, k: usize) -> f64 {
        let usual = if strategy == ETD {
            [1.0, 1.0, 0.5, 0.0, 0.005, 0.0][k]
        } else {
            [1.0, 15.0, 5.0, 0.0, 0.002, 2.0][k]
        };
        match (self.profile, self.rng.below(6)) {
            (Profile::Extreme, 0) => 1_000_000_000.0,
            (Profile::Extreme, 1) => self.rng.pick(&[5e-324, 1e-300, 2.2250738585072014e-308]),
            (Profile::Extreme, 2) => any_magnitude(self.rng, 1e9),
            (Profile::Extreme, 3) => self.rng.pick(&[0.0, -0.0]),
            (Profile::Extreme, 4) => 999_999_999.9999999,
            (Profile::Ties, 0..=2) => self.rng.pick(&[0.0, 1.0]),
            (Profile::Fine, 0..=3) => 10f64.powf(self.rng.between(-3.0, 6.0)),
            (_, 0..=2) => usual,
            (_, 3) => 0.0,
            (_, 4) => self.rng.between(0.0, 20.0),
            _ => self.rng.between(0.0, 0.01),
        }
    }

    /// RSR's: none in four of ten sheets, else elevator-core's own, ordinary and large ones, ends of its range, subnormals.
    fn load_weight(&mut self) -> f64 {
        match self.rng.below(10) {
            0..=3 if self.profile != Profile::Load => self.rng.pick(&[0.0, 0.0, 0.0, -0.0]),
            0..=4 => 3.0,
            5 => self.rng.between(0.0, 100.0),
            6 | 7 => 10f64.powf(self.rng.between(-3.0, 9.0)).min(1e9),
            8 => self.rng.pick(&[
                1e9,
                999_999_999.9999999,
                5e-324,
                1e-310,
                2.2250738585072014e-308,
            ]),
            _ => any_magnitude(self.rng, 1e9),
        }
    }

    /// Edition 2: stops and cars get second coordinates.
    fn second_coordinates(&mut self, sheet: &mut Sheet) {
        sheet.edition = 2;
        let mut taken = Vec::new();
        for stop in &mut sheet.stops {
            stop.across = self.across(&taken);
            taken.push(stop.across);
        }
        for car in &mut sheet.cars {
            let here = sheet.stops.iter().find(|s| s.position == car.position);
            car.across = match here {
                Some(stop) if self.rng.flag() => stop.across,
                _ => self.across(&taken),
            };
        }
    }

    /// One as positions are, or one of those that are taken, or a zero of either sign.
    fn across(&mut self, taken: &[f64]) -> f64 {
        match self.rng.below(6) {
            0 => self.rng.pick(&[0.0, -0.0]),
            1 | 2 if !taken.is_empty() => self.rng.pick(taken),
            _ => self.position(taken),
        }
    }

    /// Edition 2: every second coordinate is a zero, of either sign.
    fn zeros(&mut self, sheet: &mut Sheet) {
        sheet.edition = 2;
        let stops = sheet.stops.iter_mut().map(|s| &mut s.across);
        for across in stops.chain(sheet.cars.iter_mut().map(|c| &mut c.across)) {
            *across = self.rng.pick(&[0.0, -0.0]);
        }
    }

    /// A coordinate, by the profile; near ones are near to those that are taken.
    fn position(&mut self, taken: &[f64]) -> f64 {
        match self.profile {
            Profile::Ties if self.rng.flag() => self.rng.below(1024) as f64 / 128.0,
            Profile::Ties => self.rng.below(6) as f64 - 1.0,
            Profile::Fine => self.rng.between(-1e6, 1e6),
            Profile::Near => {
                let base = if !taken.is_empty() && self.rng.flag() {
                    taken[self.rng.below(taken.len())]
                } else {
                    self.rng
                        .pick(&[0.0, -0.0, 1.0, -1.0, 1.0, 1000.0, 0.1, 999_999.0])
                };
                let step = self.rng.below(7) as f64 - 3.0;
                let by = match self.rng.below(6) {
                    0 => 0.0,
                    1 => 1e-9 * step,
                    2 => 5e-10 * step,
                    3 => f64::from_bits(1e-9f64.to_bits() + self.rng.below(3) as u64 - 1) * step,
                    4 => 1e-9 * step * self.rng.unit(),
                    _ => return ulps(base, self.rng.below(5) as i64 - 2),
                };
                (base + by).clamp(-1e6, 1e6)
            }
            Profile::Extreme => match self.rng.below(8) {
                0 => 1e6,
                1 => -1e6,
                2 => self.rng.pick(&[0.0, -0.0, 5e-324, -5e-324]),
                3 => 999_999.999_999_999_9,
                4 | 5 => {
                    let size = any_magnitude(self.rng, 1e6);
                    if self.rng.flag() { size } else { -size }
                }
                6 => {
                    let size = f64::from_bits(self.rng.next() % (1 << 52));
                    if self.rng.flag() { size } else { -size }
                }
                _ => self.rng.between(-1e6, 1e6),
            },
            _ => match self.rng.below(3) {
                0 => self.rng.below(40) as f64 * 3.5,
                1 => self.rng.between(-100.0, 100.0),
                _ => self.rng.below(60) as f64,
            },
        }
    }

    fn capacity(&mut self) -> f64 {
        match self.profile {
            Profile::Ties => self.rng.pick(&[100.0, 100.0, 200.0, 50.0]),
            Profile::Near => self.rng.pick(&[0.1, 0.2, 0.3, 0.4, 0.6, 0.7, 1.1]),
            Profile::Extreme => match self.rng.below(6) {
                0 => 1e9,
                1 => self.rng.pick(&[0.0, -0.0, 5e-324, 1e-310]),
                2 | 3 => any_magnitude(self.rng, 1e9),
                _ => self.rng.between(0.0, 1e9),
            },
            _ => self.rng.pick(&[500.0, 800.0, 1000.0, 1200.0, 100.0]),
        }
    }

    fn load(&mut self, capacity: f64) -> f64 {
        match (self.profile, self.rng.below(6)) {
            (Profile::Near, k) => [0.0, 0.0, 0.1, 0.2, capacity, -0.0][k],
            (Profile::Extreme, 0) => any_magnitude(self.rng, 1e9),
            (Profile::Extreme, 1) => self.rng.pick(&[0.0, -0.0, 1e9, 5e-324]),
            (Profile::Extreme, 2) => capacity,
            (Profile::Ties, 0..=2) => self.rng.pick(&[0.0, 40.0, 60.0]),
            (_, 0..=2) => 0.0,
            (_, 3) => capacity,
            (_, 4) => (capacity * 0.5).abs(),
            _ => (capacity * self.rng.between(0.0, 1.1)).abs().min(1e9),
        }
    }

    fn threshold(&mut self, load: f64, capacity: f64) -> Option<f64> {
        let exact = load / capacity;
        match self.rng.below(9) {
            0..=4 => None,
            5 => Some(self.rng.between(0.0, 1.0)),
            6 if (0.0..=1000.0).contains(&exact) => Some(exact),
            7 if self.profile == Profile::Extreme => {
                Some(self.rng.pick(&[0.0, -0.0, 1000.0, 5e-324]))
            }
            7 => Some(0.0),
            _ => Some(0.8),
        }
    }

    fn ticks(&mut self) -> (u32, u32) {
        match (self.profile, self.rng.below(4)) {
            (Profile::Extreme, 0) => (0, u32::MAX),
            (Profile::Extreme, 1) => (2_147_483_647, 1),
            (Profile::Extreme | Profile::Fine, 2) => {
                let transition = (self.rng.next() % (1 << 31)) as u32;
                let most = u32::MAX - 2 * transition;
                (transition, (self.rng.next() % (u64::from(most) + 1)) as u32)
            }
            (Profile::Ties, _) => (10, 60),
            _ => (self.rng.below(60) as u32, self.rng.below(300) as u32),
        }
    }

    fn car(&mut self, id: u32, sheet: &Sheet) -> Car {
        let line = sheet.lines[self.rng.below(sheet.lines.len())].id;
        let phase = if self.rng.one_in(3) {
            0
        } else {
            self.rng.below(7) as u8
        };
        let stop = if phase == 1 || phase == 2 {
            self.stop_id(sheet)
        } else {
            0
        };
        let target = match self.rng.below(5) {
            0 => None,
            1 if stop != 0 => Some(stop),
            // A few stops that several cars serve.
            2 | 3 if !sheet.stops.is_empty() => {
                Some(sheet.stops[self.rng.below(sheet.stops.len().min(4))].id)
            }
            _ => Some(self.stop_id(sheet)),
        };
        let position = if !sheet.stops.is_empty() && self.rng.one_in(3) {
            sheet.stops[self.rng.below(sheet.stops.len())].position
        } else {
            self.position(&positions(&sheet.stops))
        };
        let speed = match (self.profile, self.rng.below(8)) {
            (_, 0) if self.rng.one_in(3) => self.rng.pick(&[0.0, -0.0]),
            (Profile::Extreme, 0..=2) => 1.0 / 1024.0,
            (Profile::Extreme, 3) => 1000.0,
            (Profile::Extreme, 4) => ulps(1.0 / 1024.0, 1),
            (Profile::Ties, _) => self.rng.pick(&[1.0, 2.0]),
            (Profile::Fine, 1..=3) => self.rng.between(1.0 / 1024.0, 1.0),
            (_, 1..=3) => self.rng.pick(&[2.0, 2.5, 4.0]),
            _ => self.rng.between(0.5, 10.0),
        };
        let capacity = self.capacity();
        let load = self.load(capacity);
        let (transition, open) = self.ticks();
        let mut restricted = 0;
        let mut calls = 0;
        let (bars, presses) = (self.rng.one_in(3), self.rng.flag());
        for i in 0..sheet.stops.len() {
            if bars && self.rng.one_in(4) {
                restricted |= mask_bit(i);
            }
            if presses && self.rng.one_in(3) {
                calls |= mask_bit(i);
            }
        }
        Car {
            id,
            line,
            phase,
            stop,
            target,
            idle: !self.rng.one_in(3),
            going_up: !self.rng.one_in(4),
            going_down: !self.rng.one_in(4),
            sweep_down: self.rng.flag(),
            lenient: self.rng.flag(),
            position,
            across: 0.0,
            speed,
            capacity,
            load,
            up_threshold: self.threshold(load, capacity),
            down_threshold: self.threshold(load, capacity),
            transition,
            open,
            restricted,
            calls,
        }
    }

    fn waiting(&mut self, sheet: &Sheet) -> Waiting {
        let n = sheet.stops.len();
        let stop = sheet.stops[if self.rng.flag() {
            self.rng.below(n.min(4))
        } else {
            self.rng.below(n)
        }]
        .id;
        let line = match self.rng.below(8) {
            0 | 1 if !sheet.lines.is_empty() => {
                Some(sheet.lines[self.rng.below(sheet.lines.len())].id)
            }
            2 if self.rng.one_in(3) => Some(self.fresh(Vec::new())),
            _ => None,
        };
        let destination = self.opt_stop(sheet);
        let weight = match self.profile {
            Profile::Ties => self.rng.pick(&[60.0, 40.0, 41.0, 20.0, 100.0]),
            Profile::Near => self.rng.pick(&[0.1, 0.2, 0.3, 0.0, -0.0, 0.6]),
            Profile::Extreme => match self.rng.below(4) {
                0 => self.rng.pick(&[0.0, -0.0, 5e-324, 1e9]),
                1 => any_magnitude(self.rng, 1e9),
                _ => self.rng.between(0.0, 1e9),
            },
            _ => self.rng.between(20.0, 120.0),
        };
        let wait = match (self.profile, self.rng.below(5)) {
            (Profile::Extreme, 0) => 1 << 53,
            (Profile::Extreme, 1) => (1 << 53) - self.rng.next() % 5,
            (Profile::Extreme | Profile::Fine, 2 | 3) => {
                self.rng.next() >> (11 + self.rng.below(53))
            }
            (Profile::Ties, _) => self.rng.pick(&[0, 60]),
            (_, 0) => 0,
            _ => self.rng.next() % 10_000,
        };
        Waiting {
            stop,
            line,
            destination,
            weight,
            wait,
        }
    }
}

fn positions(stops: &[Stop]) -> Vec<f64> {
    stops.iter().map(|s| s.position).collect()
}

/// `value` moved by some units in the last place, kept within a position's range.
fn ulps(value: f64, by: i64) -> f64 {
    // Doubles in rising order are consecutive whole numbers, minus zero left out.
    let size = (value.to_bits() << 1 >> 1) as i64;
    let place = if value.is_sign_negative() {
        -size
    } else {
        size
    } + by;
    let moved = f64::from_bits(place.unsigned_abs());
    (if place < 0 { -moved } else { moved }).clamp(-1e6, 1e6)
}

/// Where the records of well-formed bytes start, with their kinds.
pub fn records(bytes: &[u8]) -> Vec<(usize, usize)> {
    let mut at = HEAD_BITS;
    let mut found = Vec::new();
    if bytes.len() < 3 {
        return found;
    }
    for _ in 0..bits::get(bytes, 8, 16) {
        if at + RECORD_HEAD_BITS > bytes.len() * 8 {
            break;
        }
        let kind = bits::get(bytes, at, 6) as usize;
        let length = bits::get(bytes, at + 6, 16) as usize;
        if at + RECORD_HEAD_BITS + length > bytes.len() * 8 {
            break;
        }
        found.push((at, kind));
        at += RECORD_HEAD_BITS + length;
    }
    found
}

/// Starts and widths of the fields of a body in an edition, optional ones with their present bit apart.
pub fn fields(edition: u64, kind: usize) -> Vec<(usize, usize)> {
    let moved = |(from, width): &(usize, usize)| (field_at(edition, kind, *from), *width);
    let across = across_at(kind).filter(|_| edition == 2);
    let across = across.map(|from| (from, ACROSS_BITS));
    FIELDS[kind].iter().map(moved).chain(across).collect()
}

/// Those of edition 1.
const FIELDS: [&[(usize, usize)]; KINDS + 1] = [
    &[],
    &[
        (0, 2),
        (2, 16),
        (18, 64),
        (82, 2),
        (84, 64),
        (148, 64),
        (212, 64),
        (276, 64),
        (340, 64),
        (404, 64),
    ],
    &[(0, 32), (32, 64)],
    &[(0, 32), (32, 64)],
    &[
        (0, 32),
        (32, 32),
        (64, 3),
        (67, 32),
        (99, 1),
        (100, 32),
        (132, 1),
        (133, 1),
        (134, 1),
        (135, 1),
        (136, 1),
        (137, 64),
        (201, 64),
        (265, 64),
        (329, 64),
        (393, 1),
        (394, 64),
        (458, 1),
        (459, 64),
        (523, 32),
        (555, 32),
        (587, 64),
        (651, 64),
    ],
    &[(0, 32), (32, 1), (33, 32)],
    &[
        (0, 32),
        (32, 1),
        (33, 32),
        (65, 1),
        (66, 32),
        (98, 64),
        (162, 64),
    ],
    &[(0, 32), (32, 16), (48, 1)],
    &[(0, 32)],
];

/// One damage.
fn damage(rng: &mut Rng, bytes: &mut Vec<u8>) {
    let size = bytes.len() * 8;
    let edition = bytes.first().map_or(1, |first| u64::from(*first));
    match rng.below(12) {
        0..=2 => {
            for _ in 0..1 + rng.below(3) {
                if size > 0 {
                    let k = rng.below(size);
                    bytes[k / 8] ^= 1 << (k % 8);
                }
            }
        }
        3 => {
            let keep = rng.below(bytes.len() + 1);
            bytes.truncate(keep);
        }
        4 => {
            for _ in 0..1 + rng.below(4) {
                let byte = if rng.flag() { 0 } else { rng.next() as u8 };
                bytes.push(byte);
            }
        }
        5 if bytes.len() >= 3 => {
            let count = bits::get(bytes, 8, 16);
            let count = rng.pick(&[count + 1, count.wrapping_sub(1), 0, 65_535, count + 2, 1]);
            bits::set(bytes, 8, 16, count & 0xffff);
        }
        6 => {
            // One in four is an edition that there is.
            if let Some(first) = bytes.first_mut() {
                let other = rng.next();
                *first = match other >> 8 & 7 {
                    edition @ 1..=2 => edition as u8,
                    _ => other as u8,
                };
            }
        }
        7 => {
            // A record's kind or length.
            let found = records(bytes);
            if !found.is_empty() {
                let (at, kind) = found[rng.below(found.len())];
                if rng.flag() {
                    bits::set(bytes, at, 6, rng.next() % 11);
                } else {
                    let near = body_bits(edition, kind.min(KINDS)) as u64;
                    let below = near.wrapping_sub(1) & 0xffff;
                    let length = rng.pick(&[near + 1, below, 0, 65_535, 96, 65, 160, 779, 715]);
                    bits::set(bytes, at + 6, 16, length);
                }
            }
        }
        _ => {
            // A field of a record gets a value that some rule may refuse.
            let found: Vec<_> = records(bytes)
                .into_iter()
                .filter(|(_, kind)| (1..=KINDS).contains(kind))
                .collect();
            if !found.is_empty() {
                let (at, kind) = found[rng.below(found.len())];
                let (from, width) = rng.pick(&fields(edition, kind));
                if at + RECORD_HEAD_BITS + from + width <= size {
                    let value = odd_value(rng, width);
                    bits::set(bytes, at + RECORD_HEAD_BITS + from, width, value);
                }
            }
        }
    }
}

fn odd_value(rng: &mut Rng, width: usize) -> u64 {
    let all = if width == 64 {
        u64::MAX
    } else {
        (1 << width) - 1
    };
    let value = match rng.below(6) {
        0 => 0,
        1 => all,
        2 => rng.next(),
        3 if width == 64 => rng.pick(&[
            f64::NAN.to_bits(),
            f64::INFINITY.to_bits(),
            f64::NEG_INFINITY.to_bits(),
            (-0.0f64).to_bits(),
            (-5e-324f64).to_bits(),
            1_000_000_000.0f64.to_bits() + 1,
            1_000_000.0f64.to_bits() + 1,
            1_000.0f64.to_bits() + 1,
            (1.0f64 / 1_024.0).to_bits() - 1,
            (1 << 53) + 1,
            1,
        ]),
        4 => 1 << rng.below(width),
        _ => rng.next() % 4,
    };
    value & all
}

fn garbage(rng: &mut Rng) -> Vec<u8> {
    let size = match rng.below(4) {
        0 => rng.below(12),
        1 => rng.below(100),
        _ => rng.below(500),
    };
    let mut bytes: Vec<u8> = (0..size).map(|_| rng.next() as u8).collect();
    if rng.one_in(4) {
        bytes.iter_mut().for_each(|b| *b = 0);
    }
    if size >= 3 && !rng.one_in(4) {
        let edition = 1 + rng.next() % 2;
        bits::set(&mut bytes, 0, 8, edition);
        bits::set(&mut bytes, 8, 16, rng.next() % 5);
        if size >= 6 && !rng.one_in(4) {
            let kind = rng.below(10);
            bits::set(&mut bytes, 24, 6, kind as u64);
            if !rng.one_in(4) {
                let length = body_bits(edition, kind.min(KINDS));
                bits::set(&mut bytes, 30, 16, length as u64);
            }
        }
    }
    bytes
}

#[cfg(test)]
mod tests {
    use super::*;
    use crate::reader::read;

    #[test]
    fn accepted_profiles_are_accepted_and_written_as_read() {
        for (name, profile) in PROFILES {
            if matches!(
                profile,
                Profile::Damaged | Profile::DamagedSideways | Profile::Provoked | Profile::Garbage
            ) {
                continue;
            }
            for index in 0..if profile == Profile::Full {
                500
            } else {
                20_000
            } {
                let bytes = generate(profile, 3, index);
                assert_eq!(read(&bytes), None, "{name} {index}");
                assert_eq!(Sheet::of_accepted(&bytes).write(), bytes, "{name} {index}");
            }
        }
    }

    #[test]
    fn crowded_sheets_are_accepted_and_of_their_strategy() {
        let but_closed = PROFILES.iter().filter(|p| p.1 != Profile::Closed);
        for (name, profile) in but_closed.take(11) {
            for strategy in [ETD, RSR, SCAN] {
                for index in 0..1000 {
                    let sheet = crowded(*profile, strategy, 3, index);
                    assert_eq!(read(&sheet.write()), None, "{name} {strategy} {index}");
                    assert_eq!(sheet.policy.strategy, strategy);
                }
            }
        }
    }

    /// Every sheet has a closure, and those that matter are there: of stops with demand, and of those that a line serves as
    /// well and an idle car's rider is bound for, or a rider of another car alone.
    #[test]
    fn closed_sheets_have_closures() {
        let (mut demanded, mut wanted, mut other) = (0, 0, 0);
        for index in 0..2_000 {
            let sheet = Sheet::of_accepted(&generate(Profile::Closed, 3, index));
            assert!(!sheet.closed.is_empty(), "{index}");
            let other_bound = |stop: &u32| {
                let mut riders = sheet.aboard.iter();
                riders.any(|a| a.destination == Some(*stop)) && sheet.bound_aboard(*stop) == 0
            };
            let asked = |stop: &u32| sheet.has_demand(*stop) && sheet.is_served(*stop);
            demanded += usize::from(sheet.closed.iter().any(|s| sheet.has_demand(*s)));
            wanted += usize::from(!sheet.closed_first().is_empty());
            let mut closed = sheet.closed.iter();
            other += usize::from(closed.any(|s| asked(s) && other_bound(s)));
        }
        let enough = demanded > 1_500 && wanted > 500 && other > 100;
        assert!(enough, "{demanded} {wanted} {other}");
    }

    /// Every sheet of edition 2 is one, and what tells the two coordinates apart is there: cars and stops that differ in one, in the
    /// other and in both; of a level sheet zeros of both signs and nothing else.
    #[test]
    fn second_coordinates_are_there() {
        let mut seen = [0; 4];
        let mut zeros = [0; 2];
        for index in 0..2_000 {
            let sheet = Sheet::of_accepted(&generate(Profile::Sideways, 3, index));
            assert_eq!(sheet.edition, 2, "{index}");
            for car in &sheet.cars {
                for stop in &sheet.stops {
                    let differs = [car.position != stop.position, car.across != stop.across];
                    seen[usize::from(differs[0]) + 2 * usize::from(differs[1])] += 1;
                }
            }
            let sheet = Sheet::of_accepted(&generate(Profile::Level, 3, index));
            assert!(sheet.edition == 2 && !sheet.runs_sideways(), "{index}");
            let cars = sheet.cars.iter().map(|c| c.across);
            for across in cars.chain(sheet.stops.iter().map(|s| s.across)) {
                zeros[usize::from(across.is_sign_negative())] += 1;
            }
        }
        assert!(seen.iter().all(|often| *often > 1_000), "{seen:?}");
        assert!(zeros.iter().all(|often| *often > 1_000), "{zeros:?}");
    }

    /// Every sheet weighs loads, no idle-listed car is in phase idle, and what the term is made of is there: ratios between 0
    /// and 1, above 1 and infinite, no capacity, subnormal ones, a part that nearly is the call bonus.
    #[test]
    fn loads_are_weighed() {
        let mut seen = [0; 6];
        for index in 0..2_000 {
            let sheet = Sheet::of_accepted(&generate(Profile::Load, 3, index));
            let [_, _, bonus, weight, ..] = sheet.policy.weights;
            assert!(sheet.policy.strategy == RSR && weight > 0.0, "{index}");
            for car in sheet.cars.iter().filter(|c| c.idle) {
                assert!(car.phase != 0, "{index}");
                let ratio = car.load / car.capacity;
                let part = weight * ratio.clamp(0.0, 1.0);
                let shown = [
                    ratio > 0.0 && ratio < 1.0,
                    ratio > 1.0,
                    ratio == f64::INFINITY && car.capacity > 0.0,
                    car.capacity == 0.0,
                    car.capacity > 0.0 && car.capacity < f64::MIN_POSITIVE,
                    car.calls != 0 && part > 1.0 && (bonus / part - 1.0).abs() < 1e-5,
                ];
                seen.iter_mut()
                    .zip(shown)
                    .for_each(|(often, is)| *often += usize::from(is));
            }
        }
        assert!(seen.iter().all(|often| *often > 15), "{seen:?}");
    }

    /// Most sheets have a car whose travel term is at the ceiling: below it, at it and above it, by last places.
    #[test]
    fn travel_terms_are_at_the_ceiling() {
        let mut seen = [0; 3];
        for index in 0..2_000 {
            let sheet = Sheet::of_accepted(&generate(Profile::Ceiling, 3, index));
            assert!(sheet.policy.strategy != SCAN, "{index}");
            let idle = sheet.cars.iter().filter(|c| c.idle && c.speed > 0.0);
            let cells = idle.flat_map(|c| {
                let travel = |s: &Stop| (c.position - s.position).abs() / c.speed;
                let weight = sheet.policy.weights[0];
                let term = move |s: &Stop| weight * travel(s) * 1_000_000.0;
                sheet.stops.iter().map(term)
            });
            let ceiling = (1u64 << 48) as f64 - 1.0;
            for cell in cells.filter(|cell| (cell - ceiling).abs() < 2.0) {
                let place = cell.round() - ceiling;
                seen[(place.clamp(-1.0, 1.0) + 1.0) as usize] += 1;
            }
        }
        assert!(seen.iter().all(|often| *often > 300), "{seen:?}");
    }

    /// Of the other profiles too, with a load weight and without one.
    #[test]
    fn rsr_weighs_loads_in_every_profile() {
        for (name, profile) in PROFILES.iter().take(8) {
            let mut seen = [0; 2];
            for index in 0..if *profile == Profile::Full { 60 } else { 600 } {
                let sheet = Sheet::of_accepted(&generate(*profile, 3, index));
                if sheet.policy.strategy == RSR {
                    seen[usize::from(sheet.policy.weights[3] > 0.0)] += 1;
                }
            }
            assert!(seen.iter().all(|often| *often > 2), "{name} {seen:?}");
        }
    }

    /// The most that a sheet can hold: each kind at its most, a demand and a closure for each stop.
    #[test]
    fn the_longest_sheets_have_26_515_and_27_283_bytes() {
        let mut sheet = Sheet::new(SCAN);
        sheet.stops = (1..=64).map(|id| Stop::at(id, 0.0)).collect();
        sheet.lines = (1..=8).map(|id| Line { id, mask: 0 }).collect();
        let car = |id| Car {
            id,
            ..Car::parked(1)
        };
        sheet.cars = (1..=32).map(car).collect();
        let rider = Aboard {
            car: 1,
            destination: None,
        };
        sheet.aboard = vec![rider; 512];
        let rider = Waiting {
            stop: 1,
            line: None,
            destination: None,
            weight: 0.0,
            wait: 0,
        };
        sheet.waiting = vec![rider; 512];
        let demand = |stop| Demand {
            stop,
            riding: 1,
            call: true,
        };
        sheet.demands = (1..=64).map(demand).collect();
        assert_eq!(sheet.write().len(), 26_083);
        sheet.closed = (1..=64).collect();
        let bytes = sheet.write();
        assert_eq!((bytes.len(), read(&bytes)), (26_515, None));
        sheet.edition = 2;
        let bytes = sheet.write();
        assert_eq!((bytes.len(), read(&bytes)), (27_283, None));
    }

    #[test]
    fn the_example_has_326_bytes() {
        assert_eq!(Sheet::example().write().len(), 326);
        assert_eq!(read(&Sheet::example().write()), None);
    }
}
