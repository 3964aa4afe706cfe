//! The time of a run with ramps (document 02, F-11): a function of a library beside the published eta.rs, bit for bit. The domain is written from
//! document 02; `Wrong` has eta.rs once more with a fault in it, which the comparison must find out.

use std::hint::black_box;
use std::time::{Duration, Instant};

use sheetgen::rng::Rng;

use crate::eta;

/// Distance, starting speed, top speed, acceleration, deceleration.
pub type Run = [f64; 5];

/// Answers the number, and writes the time where that is 0.
pub type Function<'f> = &'f dyn Fn(&Run, &mut f64) -> u32;

const OUTSIDE: u32 = 21;
const MOST: f64 = 1_000_000.0;
const LEAST: f64 = 1.0 / 1_024.0;

/// What stands in the time before it is lent: a NaN that no answer is.
const KEPT: u64 = 0x7ff4_dead_beef_dead;

/// "doubles of at most 1,000,000 in size, and the last three at least 1/1,024 or not above zero"
fn is_inside(run: &Run) -> bool {
    let sized = run.iter().all(|x| x.abs() <= MOST);
    sized && run[2..].iter().all(|x| *x >= LEAST || *x <= 0.0)
}

/// The number, and the time's bits, or what stood there.
type Answer = (u32, u64);

fn published(run: &Run) -> Answer {
    let [d, v, m, a, b] = *run;
    match is_inside(run) {
        true => (0, eta::travel_time(d, v, m, a, b).to_bits()),
        false => (OUTSIDE, KEPT),
    }
}

fn answered(function: Function, run: &Run) -> Answer {
    let mut time = f64::from_bits(KEPT);
    let number = function(run, &mut time);
    (number, time.to_bits())
}

/// The paths of eta.rs, and what is outside.
const PATHS: [&str; 5] = ["outside", "no run", "braking", "no cruise", "cruise"];

fn path(run: &Run) -> usize {
    let [d, v, m, a, b] = *run;
    if !is_inside(run) {
        return 0;
    }
    if d <= 0.0 || m <= 0.0 || a <= 0.0 || b <= 0.0 {
        return 1;
    }
    let v = v.clamp(0.0, m);
    if v * v / (2.0 * b) >= d {
        return 2;
    }
    let peak = ((b * (v * v) + 2.0 * d * a * b) / (a + b)).sqrt();
    if peak <= m { 3 } else { 4 }
}

/// `x` by so many places in the row of doubles; of 0 and infinities to either side.
fn step(x: f64, by: i64) -> f64 {
    (0..by.abs()).fold(x, |x, _| match by > 0 {
        true => x.next_up(),
        false => x.next_down(),
    })
}

fn few(rng: &mut Rng) -> i64 {
    rng.below(9) as i64 - 4
}

/// Lift-like values.
fn ordinary(rng: &mut Rng) -> Run {
    let top = rng.between(0.5, 10.0);
    let speed = match rng.below(3) {
        0 => 0.0,
        _ => rng.between(0.0, top),
    };
    let distance = match rng.below(3) {
        0 => rng.between(0.0, 2.0),
        1 => rng.between(0.0, 30.0),
        _ => rng.between(0.0, 500.0),
    };
    [
        distance,
        speed,
        top,
        rng.between(0.3, 3.0),
        rng.between(0.3, 3.0),
    ]
}

/// Any size from `low` to 2^20, of any fraction: below 2^-1022 a subnormal.
fn sized(rng: &mut Rng, low: i64) -> f64 {
    let exponent = low + rng.below((20 - low) as usize) as i64;
    let scale = match exponent < -1_022 {
        true => f64::from_bits(1 << (exponent + 1_074)),
        false => f64::from_bits(((exponent + 1_023) as u64) << 52),
    };
    (scale * (1.0 + rng.unit())).min(MOST)
}

/// Any size inside of the domain.
fn any_size(rng: &mut Rng) -> Run {
    let low = rng.pick(&[-10, -10, -60, -600, -1_074]);
    let rate = |rng: &mut Rng| sized(rng, -10).max(LEAST);
    [
        sized(rng, low),
        sized(rng, rng.clone().pick(&[low, -10])),
        rate(rng),
        rate(rng),
        rate(rng),
    ]
}

/// Few digits: sums and squares that are exact, and ties.
fn short(rng: &mut Rng) -> Run {
    let mut digits = |most: usize| (1 + rng.below(most)) as f64 / 64.0;
    [
        digits(4_000),
        digits(400),
        digits(400),
        digits(200),
        digits(200),
    ]
}

fn base(rng: &mut Rng) -> Run {
    match rng.below(3) {
        0 => any_size(rng),
        1 => short(rng),
        _ => ordinary(rng),
    }
}

/// The distance of braking, or nearly that: braking all the way ends there, and its root is of nearly nothing.
fn braking(rng: &mut Rng) -> Run {
    let mut run = base(rng);
    let speed = run[1].clamp(0.0, run[2]);
    let whole = speed * speed / (2.0 * run[4]);
    run[0] = match rng.below(4) {
        0 => whole,
        1 => step(whole, few(rng)),
        2 => whole * (1.0 - rng.unit() / 1e6),
        _ => whole * rng.unit(),
    };
    run
}

/// The distance whose peak is the top speed, or nearly that.
fn peaking(rng: &mut Rng) -> Run {
    let mut run = base(rng);
    let [_, v, m, a, b] = run;
    let v = v.clamp(0.0, m);
    let whole = (m * m - v * v) / (2.0 * a) + m * m / (2.0 * b);
    run[0] = match rng.below(3) {
        0 => whole,
        1 => step(whole, few(rng)),
        _ => whole * (1.0 + (rng.unit() - 0.5) / 1e6),
    };
    run
}

/// The starting speed outside of 0 to the top speed, or at an end of that.
fn clamped(rng: &mut Rng) -> Run {
    let mut run = base(rng);
    run[1] = match rng.below(6) {
        0 => -run[1],
        1 => 0.0,
        2 => -0.0,
        3 => run[2],
        4 => step(run[2], few(rng)),
        _ => (run[1] + run[2]).min(MOST),
    };
    run
}

/// Ends of the ranges, zeros of both signs, subnormals, and what is one step further.
const ENDS: [f64; 18] = [
    0.0,
    -0.0,
    LEAST,
    LEAST.next_down(),
    LEAST.next_up(),
    MOST,
    MOST.next_up(),
    MOST.next_down(),
    -MOST,
    (-MOST).next_down(),
    f64::MIN_POSITIVE,
    f64::from_bits(1),
    -f64::from_bits(1),
    f64::MIN_POSITIVE.next_down(),
    f64::INFINITY,
    f64::NEG_INFINITY,
    f64::NAN,
    1.0,
];

/// Some inputs are such ends.
fn ends(rng: &mut Rng) -> Run {
    let mut run = base(rng);
    for _ in 0..1 + rng.below(4) {
        run[rng.below(5)] = rng.pick(&ENDS);
    }
    run
}

/// All are inside but for one, which is one step outside.
fn one_step(rng: &mut Rng) -> Run {
    let mut run = base(rng);
    let place = rng.below(5);
    let most = rng.pick(&[MOST.next_up(), (-MOST).next_down()]);
    run[place] = match place >= 2 && rng.flag() {
        true => rng.pick(&[LEAST.next_down(), f64::from_bits(1)]),
        false => most,
    };
    run
}

/// Distance and speed so small that squares and products vanish.
fn vanishing(rng: &mut Rng) -> Run {
    let mut run = base(rng);
    let low = rng.pick(&[-1_074, -1_074, -560]);
    let most = rng.pick(&[low + 30, -480]);
    let small = |rng: &mut Rng| {
        let size = sized(rng, low);
        match size < f64::from_bits(((most + 1_023).max(1) as u64) << 52) {
            true => size,
            false => f64::from_bits(rng.next() >> (12 + rng.below(50))),
        }
    };
    run[0] = small(rng);
    run[1] = small(rng);
    run
}

fn any_bits(rng: &mut Rng) -> Run {
    [0; 5].map(|_: u8| f64::from_bits(rng.next()))
}

type Kind = (&'static str, fn(&mut Rng) -> Run);

const KINDS: [Kind; 10] = [
    ("ordinary", ordinary),
    ("any size", any_size),
    ("few digits", short),
    ("braking", braking),
    ("peaking", peaking),
    ("clamped", clamped),
    ("ends", ends),
    ("one step outside", one_step),
    ("vanishing", vanishing),
    ("any bits", any_bits),
];

fn run_of(kind: usize, seed: u64, index: u64) -> Run {
    KINDS[kind].1(&mut Rng::new(seed, 9_000 + kind as u64, index))
}

/// The first of so many runs of a kind that the function answers otherwise than the published file; counts the paths.
fn first(
    function: Function,
    kind: usize,
    seed: u64,
    count: u64,
    paths: &mut [u64; 5],
) -> Option<(u64, Run)> {
    for index in 0..count {
        let run = run_of(kind, seed, index);
        paths[path(&run)] += 1;
        if answered(function, &run) != published(&run) {
            return Some((index, run));
        }
    }
    None
}

fn describe(run: &Run) -> String {
    let names = ["distance", "speed", "top", "acceleration", "deceleration"];
    let said = |(name, x): (&str, &f64)| format!("{name} {x:?} (0x{:016x})", x.to_bits());
    let said: Vec<_> = names.into_iter().zip(run).map(said).collect();
    said.join(", ")
}

/// Both sides on so many runs, an equal part of each kind.
pub fn compare(function: Function, seed: u64, count: u64) -> bool {
    let part = count.div_ceil(KINDS.len() as u64);
    let (mut same, mut paths) = (true, [0; 5]);
    for (kind, (name, _)) in KINDS.iter().enumerate() {
        let mut of_kind = [0; 5];
        let found = first(function, kind, seed, part, &mut of_kind);
        let said: Vec<_> = PATHS
            .iter()
            .zip(of_kind)
            .map(|(p, n)| format!("{p} {n}"))
            .collect();
        println!(
            "{name}: {} runs: {}",
            of_kind.iter().sum::<u64>(),
            said.join(", ")
        );
        for (sum, n) in paths.iter_mut().zip(of_kind) {
            *sum += n;
        }
        if let Some((index, run)) = found {
            let (ours, theirs) = (answered(function, &run), published(&run));
            println!("DIFFERENT at {index}: {}", describe(&run));
            println!("  the library answers {}, 0x{:016x}", ours.0, ours.1);
            println!("  eta.rs answers      {}, 0x{:016x}", theirs.0, theirs.1);
            same = false;
        }
    }
    let said: Vec<_> = PATHS
        .iter()
        .zip(paths)
        .map(|(p, n)| format!("{p} {n}"))
        .collect();
    println!(
        "seed {seed}, {} runs: {}",
        paths.iter().sum::<u64>(),
        said.join(", ")
    );
    same
}

/// What a wrong travel time does otherwise.
#[derive(Clone, Copy, Debug, PartialEq)]
pub enum Fault {
    None,
    /// The direct `mul_add` rounds twice.
    MulAddTwice,
    /// The `fma` of the peak, of the ramp's distance, rounds once.
    PeakOnce,
    RampOnce,
    /// Roots are cut off, or rounded up.
    RootDown,
    RootUp,
    /// The clamp of the starting speed is left out, or one side of it.
    NoClamp,
    NoClampBelow,
    NoClampAbove,
    /// What is left of the square is not held at 0.
    NoMaxZero,
    /// `>` in the place of `>=`, `<` in that of `<=`.
    BrakeStrict,
    PeakStrict,
    /// Products and sums in another order.
    PeakOrder,
    CruiseOrder,
    TimeOrder,
    /// A time below zero is 0.
    NotBelowZero,
    /// The domain: 1/1,024, 1,000,000 or zero outside, a small rate, a NaN or a small top speed inside, a small speed outside.
    LeastOutside,
    MostOutside,
    ZeroOutside,
    BelowZeroOutside,
    SmallInside,
    NanInside,
    SmallTopInside,
    SmallSpeedOutside,
    /// No run is refused.
    NoRunRefused,
    /// A refusal writes 0.
    RefusalWrites,
    /// Minus zero where there is no run.
    MinusZero,
}

pub const FAULTS: [Fault; 27] = [
    Fault::None,
    Fault::MulAddTwice,
    Fault::PeakOnce,
    Fault::RampOnce,
    Fault::RootDown,
    Fault::RootUp,
    Fault::NoClamp,
    Fault::NoClampBelow,
    Fault::NoClampAbove,
    Fault::NoMaxZero,
    Fault::BrakeStrict,
    Fault::PeakStrict,
    Fault::PeakOrder,
    Fault::CruiseOrder,
    Fault::TimeOrder,
    Fault::NotBelowZero,
    Fault::LeastOutside,
    Fault::MostOutside,
    Fault::ZeroOutside,
    Fault::BelowZeroOutside,
    Fault::SmallInside,
    Fault::NanInside,
    Fault::SmallTopInside,
    Fault::SmallSpeedOutside,
    Fault::NoRunRefused,
    Fault::RefusalWrites,
    Fault::MinusZero,
];

struct Wrong(Fault);

impl Wrong {
    fn is(&self, fault: Fault) -> bool {
        self.0 == fault
    }

    fn is_inside(&self, run: &Run) -> bool {
        let sized = |x: f64| match self.0 {
            Fault::MostOutside => x.abs() < MOST,
            Fault::NanInside => !(x.abs() > MOST),
            _ => x.abs() <= MOST,
        };
        let rate = |(place, x): (usize, &f64)| match self.0 {
            Fault::LeastOutside => *x > LEAST || *x <= 0.0,
            Fault::ZeroOutside => *x >= LEAST || *x < 0.0,
            Fault::BelowZeroOutside => *x >= LEAST || *x == 0.0,
            Fault::SmallInside => true,
            Fault::NanInside => x.is_nan() || *x >= LEAST || *x <= 0.0,
            Fault::SmallTopInside if place == 0 => true,
            _ => *x >= LEAST || *x <= 0.0,
        };
        let speed = !self.is(Fault::SmallSpeedOutside) || run[1] >= LEAST || run[1] <= 0.0;
        run.iter().all(|x| sized(*x)) && run[2..].iter().enumerate().all(rate) && speed
    }

    fn answer(&self, run: &Run, time: &mut f64) -> u32 {
        let [d, v, m, a, b] = *run;
        if !self.is_inside(run) {
            if self.is(Fault::RefusalWrites) {
                *time = 0.0;
            }
            return OUTSIDE;
        }
        if d <= 0.0 || m <= 0.0 || a <= 0.0 || b <= 0.0 {
            if self.is(Fault::NoRunRefused) {
                return OUTSIDE;
            }
            *time = if self.is(Fault::MinusZero) { -0.0 } else { 0.0 };
            return 0;
        }
        let seconds = self.seconds(d, self.clamped(v, m), m, a, b);
        *time = match self.0 {
            Fault::NotBelowZero => seconds.max(0.0),
            _ => seconds,
        };
        0
    }

    fn clamped(&self, v: f64, m: f64) -> f64 {
        let below = !matches!(self.0, Fault::NoClamp | Fault::NoClampBelow);
        let above = !matches!(self.0, Fault::NoClamp | Fault::NoClampAbove);
        match v {
            _ if below && v < 0.0 => 0.0,
            _ if above && v > m => m,
            _ => v,
        }
    }

    /// The root, or the nearest double on the wrong side where it is not exact.
    fn root(&self, x: f64) -> f64 {
        let root = x.sqrt();
        let over = root.mul_add(root, -x);
        match self.0 {
            Fault::RootDown if over > 0.0 => root.next_down(),
            Fault::RootUp if over < 0.0 => root.next_up(),
            _ => root,
        }
    }

    fn fma(&self, once: Fault, x: f64, y: f64, z: f64) -> f64 {
        match self.is(once) {
            true => x.mul_add(y, z),
            false => x * y + z,
        }
    }

    fn seconds(&self, d: f64, v: f64, m: f64, a: f64, b: f64) -> f64 {
        let brake = v * v / (2.0 * b);
        if brake > d || brake == d && !self.is(Fault::BrakeStrict) {
            let left = match self.is(Fault::MulAddTwice) {
                true => 2.0 * d * -b + v * v,
                false => (2.0 * d).mul_add(-b, v * v),
            };
            let left = if self.is(Fault::NoMaxZero) {
                left
            } else {
                left.max(0.0)
            };
            return (v - self.root(left)) / b;
        }
        let twice = match self.is(Fault::PeakOrder) {
            true => 2.0 * d * (a * b),
            false => 2.0 * d * a * b,
        };
        let peak = self.root(self.fma(Fault::PeakOnce, b, v * v, twice) / (a + b));
        if peak < m || peak == m && !self.is(Fault::PeakStrict) {
            return (peak - v) / a + peak / b;
        }
        let up = self.fma(Fault::RampOnce, m, m, -(v * v)) / (2.0 * a);
        let down = m * m / (2.0 * b);
        let cruise = match self.is(Fault::CruiseOrder) {
            true => d - (up + down),
            false => d - up - down,
        };
        match self.is(Fault::TimeOrder) {
            true => (m - v) / a + (cruise / m + m / b),
            false => (m - v) / a + cruise / m + m / b,
        }
    }
}

/// Each wrong function must be found out, and the one without a fault must not.
pub fn selftest(count: u64) -> bool {
    let part = count.div_ceil(KINDS.len() as u64);
    let mut good = true;
    for fault in FAULTS {
        let wrong = Wrong(fault);
        let function = |run: &Run, time: &mut f64| wrong.answer(run, time);
        let kinds = KINDS.iter().enumerate();
        let found = kinds.map(|(kind, (name, _))| {
            let found = first(&function, kind, 1, part, &mut [0; 5]);
            found.map(|(index, run)| (*name, index, run))
        });
        let found = found.into_iter().flatten().next();
        let right = found.is_some() == (fault != Fault::None);
        good &= right;
        let end = if right { "" } else { ", WRONG" };
        match found {
            Some((name, index, run)) => {
                println!("{fault:?}: {name} {index}: {}{end}", describe(&run))
            }
            None => println!("{fault:?}: no difference{end}"),
        }
    }
    good
}

/// The worked runs, and the input of docs/DIFFERENCES.md whose time is below zero.
const WORKED: [Run; 12] = [
    [12.0, 0.0, 2.5, 1.0, 1.2],
    [3.0, 0.0, 2.5, 1.0, 1.2],
    [0.5, 2.0, 2.5, 1.0, 1.2],
    [0.140625, 1.54, 2.5, 1.0, 2.6],
    [12.0, -1.0, 2.5, 1.0, 1.2],
    [12.0, 9.0, 2.5, 1.0, 1.2],
    [0.0, 1.0, 2.5, 1.0, 1.2],
    [12.0, 0.0, -0.0, 1.0, 1.2],
    [MOST, MOST, LEAST, LEAST, LEAST],
    [5e-324, 1e-200, 1.0, LEAST, 1.0],
    [12.0, 0.0, 2.5, LEAST.next_down(), 1.2],
    [12.0, f64::NAN, 2.5, 1.0, 1.2],
];

/// Each end at each place of a lift-like run.
fn at_the_ends() -> impl Iterator<Item = Run> {
    let places = (0..5).flat_map(|place| ENDS.map(|end| (place, end)));
    places.map(|(place, end)| {
        let mut run = WORKED[0];
        run[place] = end;
        run
    })
}

/// For each fault and kind, the first runs that tell the wrong function from the published file.
fn telling(seed: u64) -> Vec<Run> {
    let mut runs = Vec::new();
    for fault in FAULTS {
        let wrong = Wrong(fault);
        let function = |run: &Run, time: &mut f64| wrong.answer(run, time);
        for kind in 0..KINDS.len() {
            let tried = (0..20_000).map(|index| run_of(kind, seed, index));
            let tells = |run: &Run| answered(&function, run) != published(run);
            runs.extend(tried.filter(tells).take(6));
        }
    }
    runs
}

/// The list, and how many cases it has: five inputs of 64 bits, the number in 8 and the time in 64, 0 where there is none.
pub fn list(seed: u64) -> (Vec<u8>, usize) {
    let some =
        (0..KINDS.len()).flat_map(|kind| (0..40).map(move |index| run_of(kind, seed, index)));
    let all = WORKED
        .into_iter()
        .chain(at_the_ends())
        .chain(telling(seed))
        .chain(some);
    let mut cases: Vec<[u64; 5]> = Vec::new();
    for run in all {
        let bits = run.map(f64::to_bits);
        if !cases.contains(&bits) {
            cases.push(bits);
        }
    }
    let (mut list, mut paths) = (Vec::new(), [0; 5]);
    for case in &cases {
        let run = case.map(f64::from_bits);
        let (number, time) = published(&run);
        paths[path(&run)] += 1;
        list.extend(case.iter().flat_map(|bits| bits.to_be_bytes()));
        list.push(number as u8);
        list.extend((if number == 0 { time } else { 0 }).to_be_bytes());
    }
    let said: Vec<_> = PATHS
        .iter()
        .zip(paths)
        .map(|(p, n)| format!("{p} {n}"))
        .collect();
    println!("{}", said.join(", "));
    (list, cases.len())
}

/// The least time of a call, of so many rounds over runs of each path, beside that of the published file, in turns.
pub fn time(function: Function, rounds: usize) {
    println!("runs        library ns   Rust ns   ratio");
    for (wanted, name) in PATHS.iter().enumerate().skip(1) {
        let tried = (0..).flat_map(|index| [0, 3, 5].map(|kind| run_of(kind, 7, index)));
        let runs: Vec<Run> = match wanted {
            1 => vec![[0.0, 0.0, 2.5, 1.0, 1.2]; 4_000],
            _ => tried
                .filter(|run| path(run) == wanted)
                .take(4_000)
                .collect(),
        };
        let theirs = |run: &Run, time: &mut f64| {
            let [d, v, m, a, b] = *run;
            *time = eta::travel_time(d, v, m, a, b);
            0
        };
        let timed = |function: Function| {
            let (began, mut time) = (Instant::now(), 0.0);
            for run in &runs {
                black_box(function(black_box(run), &mut time));
                black_box(time);
            }
            began.elapsed()
        };
        let (mut ours, mut rust) = (Duration::MAX, Duration::MAX);
        for _ in 0..rounds {
            ours = ours.min(timed(function));
            rust = rust.min(timed(&theirs));
        }
        let nanos = |time: Duration| time.as_secs_f64() * 1e9 / runs.len() as f64;
        println!(
            "{name:<12}{:10.1}{:10.1}{:8.1}",
            nanos(ours),
            nanos(rust),
            nanos(ours) / nanos(rust)
        );
    }
}
