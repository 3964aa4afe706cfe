//! A multiply-add of one rounding, `double x_mul_add(double a, double b, double c)` of some library, beside Rust's `f64::mul_add`: on
//! random bits, near ties, under cancellation, among subnormals, at the overflow, on special values and on what RSR's load term is made
//! of. `tools/mul_add/run` builds and runs it. The standard library alone.
//!
//!     mul_add compare LIBRARY.so SYMBOL COUNT SEED   the function of a shared object
//!     mul_add time LIBRARY.so SYMBOL                 its time beside that of `f64::mul_add`
//!     mul_add exact COUNT SEED                       `f64::mul_add` itself, held to sums of whole numbers
//!     mul_add selftest COUNT                         functions that are wrong on purpose must be noticed
//!
//! Ends with 0 where nothing differs, 1 at a difference, 2 where nothing could be compared. A NaN is any NaN.

use std::ffi::{CStr, CString, c_char, c_int, c_void};
use std::hint::black_box;
use std::process::ExitCode;
use std::time::Instant;

const USAGE: &str = "usage: mul_add compare LIBRARY.so SYMBOL COUNT SEED | time LIBRARY.so SYMBOL | exact COUNT SEED | selftest COUNT";

/// The 52 bits behind the leading one.
const FRACTION: u64 = (1 << 52) - 1;
const SIGN: u64 = 1 << 63;
/// The field of infinities and NaNs.
const TOP: u64 = 2047;

/// Splitmix64.
struct Random(u64);

impl Random {
    fn next(&mut self) -> u64 {
        self.0 = self.0.wrapping_add(0x9e37_79b9_7f4a_7c15);
        let z = (self.0 ^ self.0 >> 30).wrapping_mul(0xbf58_476d_1ce4_e5b9);
        let z = (z ^ z >> 27).wrapping_mul(0x94d0_49bb_1331_11eb);
        z ^ z >> 31
    }

    fn below(&mut self, n: u64) -> u64 {
        self.next() % n
    }

    /// From 0 to 1, 1 excluded.
    fn unit(&mut self) -> f64 {
        (self.next() >> 11) as f64 / (1u64 << 53) as f64
    }

    /// A fraction of any bits, or of few ones, few zeros, a low end of zeros.
    fn fraction(&mut self) -> u64 {
        let any = self.next() & FRACTION;
        match self.below(8) {
            0 => 0,
            1 => 1,
            2 => FRACTION,
            3 => 1 << self.below(52),
            4 => any >> self.below(52) << self.below(52) & FRACTION,
            5 => FRACTION ^ 1 << self.below(52),
            _ => any,
        }
    }

    /// A double with this exponent field, of either sign.
    fn of_field(&mut self, field: i64) -> f64 {
        let field = field.clamp(0, TOP as i64 - 1) as u64;
        f64::from_bits(self.next() & SIGN | field << 52 | self.fraction())
    }

    /// One of either sign times a power of two.
    fn power(&mut self, exponent: i64) -> f64 {
        let size = f64::from_bits(((exponent + 1023).clamp(1, 2046) as u64) << 52);
        if self.below(2) == 0 { size } else { -size }
    }
}

type Case = (f64, f64, f64);
type Function<'a> = &'a dyn Fn(f64, f64, f64) -> f64;

/// `x` by so many places in the row of doubles.
fn step(x: f64, by: i64) -> f64 {
    f64::from_bits(x.to_bits().wrapping_add(by as u64))
}

/// The kinds of cases.
const CLASSES: [(&str, fn(&mut Random) -> Case); 11] = [
    ("any bits", |r| {
        let [a, b, c] = [0; 3].map(|_: u8| f64::from_bits(r.next()));
        (a, b, c)
    }),
    ("exponents near each other", |r| {
        let (x, y) = (r.below(TOP) as i64, r.below(TOP) as i64);
        let z = x + y - 1023 + r.below(240) as i64 - 120;
        (r.of_field(x), r.of_field(y), r.of_field(z))
    }),
    ("near a tie of the sum", |r| {
        // The product is half a last place of c, or a little less or more.
        let e = r.below(1800) as i64 - 900;
        let c = r.of_field(e + 1023);
        let near = r.below(1 << 20) as f64 / (1u64 << 47) as f64;
        let lower = r.below(2) as i64;
        let half = r.power(e - 53 - lower);
        match r.below(4) {
            0 => (half, 1.0, c),
            1 => (half, 1.0 + near, c),
            2 => (half * (1.0 + near), 1.0 - near, c),
            _ => (
                step(half, r.below(5) as i64 - 2),
                step(1.0, r.below(5) as i64 - 2),
                c,
            ),
        }
    }),
    ("near a tie of the product", |r| {
        // 54 digits, the last one a one; c is nothing, or far below the last.
        let odd = |r: &mut Random| (r.below(1 << 26) << 1 | 1 | 1 << 26) as f64;
        let (x, y) = (r.below(800) as i64 - 400, r.below(400) as i64 - 200);
        let lower = r.below(200) as i64;
        let c = match r.below(4) {
            0 => 0.0,
            1 => -0.0,
            2 => f64::from_bits(r.next() & SIGN | 1),
            _ => r.power(x + y - 60 - lower),
        };
        (odd(r) * r.power(x), odd(r) * r.power(y), c)
    }),
    ("cancellation", |r| {
        let (x, y) = (r.below(TOP) as i64, r.below(TOP) as i64);
        let (a, b) = (r.of_field(x), r.of_field(y));
        (a, b, step(-(a * b), r.below(9) as i64 - 4))
    }),
    ("subnormal results", |r| {
        let x = r.below(1100) as i64;
        let y = 1023 - x - r.below(60) as i64 + r.below(60) as i64;
        let z = match r.below(3) {
            0 => 0,
            _ => r.below(60) as i64,
        };
        let c = match r.below(6) {
            0 => 0.0,
            _ => r.of_field(z),
        };
        (r.of_field(x), r.of_field(y), c)
    }),
    ("subnormal operands", |r| {
        let small = |r: &mut Random| f64::from_bits(r.next() & SIGN | r.fraction() >> r.below(52));
        let (y, z) = (r.below(TOP) as i64, r.below(120) as i64);
        match r.below(3) {
            0 => (small(r), r.of_field(y), r.of_field(z)),
            1 => (r.of_field(y), small(r), small(r)),
            _ => (r.of_field(y), small(r), r.of_field(y - 1074 + z)),
        }
    }),
    ("overflow", |r| {
        let x = 1000 + r.below(1046) as i64;
        let y = 1023 + 2046 - x + r.below(8) as i64 - 6;
        let z = 2000 + r.below(47) as i64;
        let c = match r.below(4) {
            0 => step(f64::MAX, -(r.below(4) as i64)).copysign(r.unit() - 0.5),
            _ => r.of_field(z),
        };
        (r.of_field(x), r.of_field(y), c)
    }),
    ("special values", |r| {
        const VALUES: [f64; 20] = [
            0.0,
            -0.0,
            1.0,
            -1.0,
            0.5,
            1.5,
            3.0,
            f64::EPSILON,
            f64::MIN_POSITIVE,
            -f64::MIN_POSITIVE,
            2.225_073_858_507_201e-308,
            5e-324,
            -5e-324,
            f64::MAX,
            f64::MIN,
            f64::INFINITY,
            f64::NEG_INFINITY,
            f64::NAN,
            9_007_199_254_740_993.0,
            1e9,
        ];
        let one = |r: &mut Random| match r.below(5) {
            0 => {
                let field = r.below(TOP) as i64;
                r.of_field(field)
            }
            _ => VALUES[r.below(20) as usize],
        };
        (one(r), one(r), one(r))
    }),
    ("loads", |r| {
        // A weight, a ratio and a running cost, in which the bonus may have taken nearly as much away.
        let ratio = match r.below(4) {
            0 => 1.0,
            1 => r.below(1200) as f64 / 1200.0,
            _ => r.unit(),
        };
        let weight = r.unit() * 10f64.powi(r.below(10) as i32);
        let cost = match r.below(3) {
            0 => -(weight * ratio) + r.unit(),
            1 => step(-(weight * ratio), r.below(9) as i64 - 4),
            _ => (r.unit() - 0.3) * 10f64.powi(r.below(14) as i32),
        };
        (weight, ratio, cost)
    }),
    ("far apart", |r| {
        // About the distances at which the one is a part of a last place of the other.
        let (x, y) = (500 + r.below(1000) as i64, 500 + r.below(1000) as i64);
        let away = 50 + r.below(64) as i64;
        let away = if r.below(2) == 0 { away } else { -away };
        (
            r.of_field(x),
            r.of_field(y),
            r.of_field(x + y - 1023 + away),
        )
    }),
];

fn same(x: f64, y: f64) -> bool {
    x.is_nan() && y.is_nan() || x.to_bits() == y.to_bits()
}

/// Whole numbers of 4,352 bits, the lowest first.
struct Whole([u64; 68]);

impl Whole {
    /// A number, `at` bits up.
    fn new(value: u128, at: usize) -> Self {
        let mut limbs = [0; 68];
        let (limb, bit) = (at / 64, at % 64);
        limbs[limb] = (value << bit) as u64;
        limbs[limb + 1] = (value << bit >> 64) as u64;
        limbs[limb + 2] = if bit == 0 {
            0
        } else {
            (value >> (128 - bit)) as u64
        };
        Self(limbs)
    }

    /// The sum, or the first less the second, which must not be larger.
    fn with(&self, other: &Self, less: bool) -> Self {
        let mut limbs = [0; 68];
        let mut carry = false;
        for (k, limb) in limbs.iter_mut().enumerate() {
            let (x, y) = (self.0[k], other.0[k]);
            let (once, first) = if less {
                x.overflowing_sub(y)
            } else {
                x.overflowing_add(y)
            };
            let (twice, second) = match less {
                true => once.overflowing_sub(carry.into()),
                false => once.overflowing_add(carry.into()),
            };
            (*limb, carry) = (twice, first || second);
        }
        assert!(!carry);
        Self(limbs)
    }

    fn is_below(&self, other: &Self) -> bool {
        self.0.iter().rev().lt(other.0.iter().rev())
    }

    /// How many digits it has.
    fn size(&self) -> usize {
        let top = (0..68).rev().find(|k| self.0[*k] != 0);
        top.map_or(0, |k| 64 * k + 64 - self.0[k].leading_zeros() as usize)
    }

    fn bit(&self, at: usize) -> bool {
        self.0[at / 64] >> (at % 64) & 1 == 1
    }

    /// The 53 digits from `at` on, of which there are no more.
    fn digits(&self, at: usize) -> u64 {
        (0..53).fold(0, |sum, k| sum | u64::from(self.bit(at + k)) << k)
    }

    fn any_below(&self, at: usize) -> bool {
        self.0[..at / 64].iter().any(|limb| *limb != 0)
            || at % 64 > 0 && self.0[at / 64] << (64 - at % 64) != 0
    }
}

/// Digits and scale of a finite double: digits times 2^(scale - 1074).
fn parts(x: f64) -> (u64, usize) {
    let bits = x.to_bits() & !SIGN;
    match bits >> 52 {
        0 => (bits, 0),
        field => (bits & FRACTION | 1 << 52, field as usize - 1),
    }
}

/// What is wrong on purpose with the rounding below.
#[derive(Clone, Copy, PartialEq)]
enum Slip {
    None,
    /// Halves away from zero.
    TiesAway,
    /// Halves towards zero.
    TiesDown,
    /// What is lost is cut off.
    CutOff,
    /// Of what is lost the first digit alone is looked at.
    NoSticky,
    /// A subnormal result is rounded to 53 digits first.
    SubnormalTwice,
    /// A number that is too large is the largest.
    Largest,
}

/// The multiply-add by whole numbers: product and c are whole numbers of 2^-2148; their sum is rounded once.
fn exact(a: f64, b: f64, c: f64, slip: Slip) -> f64 {
    if !a.is_finite() || !b.is_finite() {
        return a * b + c;
    }
    if !c.is_finite() {
        return c;
    }
    let ((m, i), (n, j), (o, k)) = (parts(a), parts(b), parts(c));
    let product = Whole::new(u128::from(m) * u128::from(n), i + j);
    let addend = Whole::new(o.into(), k + 1074);
    let minus = a.is_sign_negative() != b.is_sign_negative();
    let unlike = minus != c.is_sign_negative();
    let (sum, minus) = match product.is_below(&addend) {
        true => (addend.with(&product, unlike), c.is_sign_negative()),
        false => (product.with(&addend, unlike), minus),
    };
    if sum.size() == 0 {
        // A zero of both signs is zero.
        return if minus && !unlike { -0.0 } else { 0.0 };
    }
    let size = rounded(&sum, slip);
    if minus { -size } else { size }
}

/// A whole number of 2^-2148, to nearest, ties to even.
fn rounded(sum: &Whole, slip: Slip) -> f64 {
    // 2^-1074 is the least last place.
    let last = sum.size().saturating_sub(53).max(1074);
    let finer = sum.size().saturating_sub(53);
    if slip == Slip::SubnormalTwice && 0 < finer && finer < last {
        let digits = sum.digits(finer) + u64::from(goes_up(sum, finer, Slip::None));
        return rounded(&Whole::new(digits.into(), finer), Slip::None);
    }
    let up = u64::from(goes_up(sum, last, slip));
    // A carry runs into the field by itself.
    let bits = ((last as u64 - 1074) << 52) + sum.digits(last) + up;
    match (bits >> 52 >= TOP, slip) {
        (true, Slip::Largest) => f64::MAX,
        (true, _) => f64::INFINITY,
        (false, _) => f64::from_bits(bits),
    }
}

/// What lies below the last place makes one more of it.
fn goes_up(sum: &Whole, last: usize, slip: Slip) -> bool {
    let odd = sum.bit(last);
    let (half, rest) = (sum.bit(last - 1), sum.any_below(last - 1));
    match slip {
        Slip::TiesAway => half,
        Slip::TiesDown => half && rest,
        Slip::CutOff => false,
        Slip::NoSticky => half && odd,
        _ => half && (rest || odd),
    }
}

/// Functions that are wrong on purpose.
const FAULTS: [(&str, fn(f64, f64, f64) -> f64); 21] = [
    ("the product is rounded too", |a, b, c| a * b + c),
    ("halves away from zero", |a, b, c| {
        exact(a, b, c, Slip::TiesAway)
    }),
    ("halves towards zero", |a, b, c| {
        exact(a, b, c, Slip::TiesDown)
    }),
    ("cut off", |a, b, c| exact(a, b, c, Slip::CutOff)),
    ("one lost digit decides", |a, b, c| {
        exact(a, b, c, Slip::NoSticky)
    }),
    ("a subnormal is rounded twice", |a, b, c| {
        exact(a, b, c, Slip::SubnormalTwice)
    }),
    ("too large is the largest", |a, b, c| {
        exact(a, b, c, Slip::Largest)
    }),
    ("subnormal results are zero", |a, b, c| {
        let sum = a.mul_add(b, c);
        if sum.is_subnormal() {
            0.0f64.copysign(sum)
        } else {
            sum
        }
    }),
    ("a subnormal factor is zero", |a, b, c| {
        let factor = if b.is_subnormal() {
            0.0f64.copysign(b)
        } else {
            b
        };
        a.mul_add(factor, c)
    }),
    ("a subnormal addend is zero", |a, b, c| {
        let addend = if c.is_subnormal() {
            0.0f64.copysign(c)
        } else {
            c
        };
        a.mul_add(b, addend)
    }),
    ("a product that is too large stays so", |a, b, c| {
        if (a * b).is_infinite() {
            a * b + c
        } else {
            a.mul_add(b, c)
        }
    }),
    ("nothing is left with a minus", |a, b, c| {
        let sum = a.mul_add(b, c);
        if sum == 0.0 && c != 0.0 { -0.0 } else { sum }
    }),
    ("two minus zeros are zero", |a, b, c| {
        let sum = a.mul_add(b, c);
        if sum == 0.0 { 0.0 } else { sum }
    }),
    ("infinity times zero is zero", |a, b, c| {
        if (a * b).is_nan() && !a.is_nan() && !b.is_nan() {
            c
        } else {
            a.mul_add(b, c)
        }
    }),
    (
        "two infinities of unlike sign leave the second",
        |a, b, c| {
            if c.is_infinite() { c } else { a.mul_add(b, c) }
        },
    ),
    ("a NaN is dropped from the sum", |a, b, c| {
        if c.is_nan() { a * b } else { a.mul_add(b, c) }
    }),
    ("an addend far below is dropped", |a, b, c| {
        if c.abs() < (a * b).abs() * 2f64.powi(-56) {
            a * b
        } else {
            a.mul_add(b, c)
        }
    }),
    ("a product far below is dropped", |a, b, c| {
        if (a * b).abs() < c.abs() * 2f64.powi(-53) {
            c
        } else {
            a.mul_add(b, c)
        }
    }),
    ("the sign of the second factor is lost", |a, b, c| {
        a.mul_add(b.abs(), c)
    }),
    ("another last place now and then", |a, b, c| {
        let sum = a.mul_add(b, c);
        let rare = (a.to_bits() ^ b.to_bits().rotate_left(7) ^ c.to_bits().rotate_left(21))
            .wrapping_mul(0x9e37_79b9_7f4a_7c15)
            >> 50
            == 0;
        if rare && sum.is_normal() {
            step(sum, 1)
        } else {
            sum
        }
    }),
    ("factor and addend change places", |a, b, c| a.mul_add(c, b)),
];

/// What was compared.
#[derive(Default)]
struct Tally {
    subnormal: u64,
    infinite: u64,
    nothing: u64,
    nan: u64,
    /// Where two roundings give another double.
    fused: u64,
    differences: [u64; CLASSES.len()],
    first: Option<(usize, Case, f64, f64)>,
}

impl Tally {
    fn all(&self) -> u64 {
        self.differences.iter().sum()
    }
}

/// Cases in turn of each class; the right answers are those of the second function.
fn compare(found: Function, right: Function, count: u64, seed: u64) -> Tally {
    let mut r = Random(seed);
    let mut tally = Tally::default();
    for index in 0..count {
        let class = (index % CLASSES.len() as u64) as usize;
        let (a, b, c) = CLASSES[class].1(&mut r);
        let (wanted, got) = (right(a, b, c), found(a, b, c));
        let finite = a.is_finite() && b.is_finite() && c.is_finite();
        tally.subnormal += u64::from(wanted.is_subnormal());
        tally.infinite += u64::from(finite && wanted.is_infinite());
        tally.nothing += u64::from(wanted == 0.0 && c != 0.0);
        tally.nan += u64::from(wanted.is_nan());
        tally.fused += u64::from(!same(a * b + c, wanted));
        if !same(got, wanted) {
            tally.differences[class] += 1;
            tally.first.get_or_insert((class, (a, b, c), wanted, got));
        }
    }
    tally
}

fn print(tally: &Tally, count: u64) -> bool {
    let Tally {
        subnormal,
        infinite,
        nothing,
        nan,
        fused,
        ..
    } = tally;
    println!(
        "{count} cases of {} kinds: {subnormal} subnormal results, {infinite} too large, {nothing} where nothing is left, \
         {nan} NaNs; in {fused} two roundings give another",
        CLASSES.len()
    );
    if let Some((class, (a, b, c), wanted, got)) = tally.first {
        for ((name, _), often) in CLASSES
            .iter()
            .zip(tally.differences)
            .filter(|(_, often)| *often > 0)
        {
            println!("{name}: {often} differ");
        }
        let [a, b, c, wanted, got] =
            [a, b, c, wanted, got].map(|x| format!("{:016x} ({x:e})", x.to_bits()));
        println!(
            "the first, {}: {a} times {b} plus {c} is {wanted}, and not {got}",
            CLASSES[class].0
        );
    }
    println!("{} differ", tally.all());
    tally.first.is_none()
}

/// The faulty functions, each noticed; the right one, held to whole numbers, is not.
fn selftest(count: u64) -> bool {
    let by_whole_numbers = |a: f64, b: f64, c: f64| exact(a, b, c, Slip::None);
    let mut good = print(&compare(&f64::mul_add, &by_whole_numbers, count, 1), count);
    for (name, fault) in FAULTS {
        let tally = compare(&fault, &f64::mul_add, count, 1);
        match tally.first {
            Some((class, ..)) => println!(
                "{name}: {} differ, the first of {}",
                tally.all(),
                CLASSES[class].0
            ),
            None => println!("{name}: NOT NOTICED"),
        }
        good &= tally.first.is_some();
    }
    println!(
        "{} functions that are wrong on purpose: {}",
        FAULTS.len(),
        if good { "each was noticed" } else { "NOT GOOD" }
    );
    good
}

unsafe extern "C" {
    fn dlopen(path: *const c_char, flags: c_int) -> *mut c_void;
    fn dlsym(library: *mut c_void, name: *const c_char) -> *mut c_void;
    fn dlerror() -> *const c_char;
}

const RTLD_NOW: c_int = 2;

type Linked = unsafe extern "C" fn(f64, f64, f64) -> f64;

/// The function of a shared object.
fn linked(path: &str, symbol: &str) -> Result<Linked, String> {
    let text = |word: &str| CString::new(word).map_err(|e| e.to_string());
    let (path, symbol) = (text(path)?, text(symbol)?);
    // SAFETY: both are ended by a zero; what dlerror points to is read at once. The function is what the caller says that it is.
    unsafe {
        let library = dlopen(path.as_ptr(), RTLD_NOW);
        let found = if library.is_null() {
            library
        } else {
            dlsym(library, symbol.as_ptr())
        };
        match found.is_null() {
            true => Err(CStr::from_ptr(dlerror()).to_string_lossy().into_owned()),
            false => Ok(std::mem::transmute::<*mut c_void, Linked>(found)),
        }
    }
}

/// Nanoseconds a call, the least of nine rounds over the same cases.
fn nanoseconds(cases: &[Case], function: Function) -> f64 {
    let round = || {
        let began = Instant::now();
        for &(a, b, c) in cases {
            black_box(function(black_box(a), black_box(b), black_box(c)));
        }
        began.elapsed().as_secs_f64() * 1e9 / cases.len() as f64
    };
    (0..9).map(|_| round()).fold(f64::INFINITY, f64::min)
}

/// A line for each kind of case.
fn time(found: Function) {
    println!("nanoseconds a call      library   f64::mul_add");
    for (name, class) in CLASSES {
        let mut r = Random(1);
        let cases: Vec<Case> = (0..100_000).map(|_| class(&mut r)).collect();
        let (ours, theirs) = (
            nanoseconds(&cases, found),
            nanoseconds(&cases, &f64::mul_add),
        );
        println!("{name:<24}{ours:7.1}{theirs:15.1}");
    }
}

fn run(args: &[&str]) -> Result<bool, String> {
    let number = |word: &str| word.parse::<u64>().map_err(|e| format!("{word}: {e}"));
    match args {
        ["compare", path, symbol, count, seed] => {
            let function = linked(path, symbol)?;
            // SAFETY: a function of three doubles, which keeps nothing.
            let found = move |a, b, c| unsafe { function(a, b, c) };
            let count = number(count)?;
            Ok(print(
                &compare(&found, &f64::mul_add, count, number(seed)?),
                count,
            ))
        }
        ["time", path, symbol] => {
            let function = linked(path, symbol)?;
            // SAFETY: a function of three doubles, which keeps nothing.
            time(&move |a, b, c| unsafe { function(a, b, c) });
            Ok(true)
        }
        ["exact", count, seed] => {
            let by_whole_numbers = |a: f64, b: f64, c: f64| exact(a, b, c, Slip::None);
            let count = number(count)?;
            Ok(print(
                &compare(&f64::mul_add, &by_whole_numbers, count, number(seed)?),
                count,
            ))
        }
        ["selftest", count] => Ok(selftest(number(count)?)),
        _ => Err(USAGE.into()),
    }
}

fn main() -> ExitCode {
    let args: Vec<String> = std::env::args().skip(1).collect();
    let words: Vec<&str> = args.iter().map(String::as_str).collect();
    match run(&words) {
        Ok(true) => ExitCode::SUCCESS,
        Ok(false) => ExitCode::FAILURE,
        Err(message) => {
            eprintln!("{message}");
            ExitCode::from(2)
        }
    }
}
