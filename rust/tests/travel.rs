//! The times of runs with ramps, and the domain's ends.

use dispatch_bench::{LEAST_RATE, MOST_INPUT, OutsideDomain, Run, travel_time};

/// 12 from rest, by 2.5, 1 and 1.2.
const RUN: Run = Run {
    distance: 12.0,
    speed: 0.0,
    top_speed: 2.5,
    acceleration: 1.0,
    deceleration: 1.2,
};

fn of(inputs: [f64; 5]) -> Run {
    let [distance, speed, top_speed, acceleration, deceleration] = inputs;
    Run {
        distance,
        speed,
        top_speed,
        acceleration,
        deceleration,
    }
}

fn inputs(run: &Run) -> [f64; 5] {
    [
        run.distance,
        run.speed,
        run.top_speed,
        run.acceleration,
        run.deceleration,
    ]
}

fn bits(run: &Run) -> Result<u64, OutsideDomain> {
    travel_time(run).map(f64::to_bits)
}

/// The runs that crates/travel/specs/Vectors.antt works out: with a cruise, without one, braking all the way, the multiply-add of one rounding,
/// speeds outside of 0 to the top speed, the domain's ends.
#[test]
fn worked_runs() {
    for (inputs, time) in [
        ([12.0, 0.0, 2.5, 1.0, 1.2], 0x401c_5ddd_dddd_ddde),
        ([3.0, 0.0, 2.5, 1.0, 1.2], 0x400a_8872_93fd_6f34),
        ([0.5, 2.0, 2.5, 1.0, 1.2], 0x3fd1_6c45_2c67_00c6),
        ([0.140625, 1.54, 2.5, 1.0, 2.6], 0x3fb9_8667_dc93_ce0c),
        ([12.0, -1.0, 2.5, 1.0, 1.2], 0x401c_5ddd_dddd_ddde),
        ([12.0, 9.0, 2.5, 1.0, 1.2], 0x4017_5ddd_dddd_ddde),
        (
            [MOST_INPUT, MOST_INPUT, LEAST_RATE, LEAST_RATE, LEAST_RATE],
            0x41ce_8480_0040_0000,
        ),
    ] {
        assert_eq!(bits(&of(inputs)), Ok(time), "{inputs:?}");
    }
}

/// Nowhere to go, or nothing to go by: no time, whatever the sign of the zero.
#[test]
fn no_run() {
    for zero in [0.0, -0.0, -1.0, -MOST_INPUT] {
        for place in [0, 2, 3, 4] {
            let mut without = inputs(&RUN);
            without[place] = zero;
            assert_eq!(bits(&of(without)), Ok(0), "{without:?}");
        }
    }
}

/// The finding of docs/DIFFERENCES.md: the square of the speed is too small for a double, and the time comes out below zero.
#[test]
fn below_zero() {
    let time = travel_time(&of([5e-324, 1e-200, 1.0, LEAST_RATE, 1.0])).unwrap();
    assert!(time < 0.0);
    assert_eq!(time.to_bits(), 0x9708_7e92_154e_f7ac);
}

/// One step outside, at each end of each input, and what is no number.
#[test]
fn the_domain() {
    for place in 0..5 {
        let with = |value: f64| {
            let mut inputs = inputs(&RUN);
            inputs[place] = value;
            travel_time(&of(inputs))
        };
        for end in [MOST_INPUT, -MOST_INPUT] {
            assert!(with(end).is_ok(), "{place} {end}");
            let outside = f64::from_bits(end.to_bits() + 1);
            assert_eq!(with(outside), Err(OutsideDomain), "{place} {outside}");
        }
        for outside in [f64::INFINITY, f64::NEG_INFINITY, f64::NAN, -f64::NAN] {
            assert_eq!(with(outside), Err(OutsideDomain), "{place} {outside}");
        }
        assert!(with(LEAST_RATE).is_ok(), "{place}");
        let is_rate = place >= 2;
        for small in [f64::from_bits(1), LEAST_RATE.next_down()] {
            assert_eq!(with(small).is_err(), is_rate, "{place} {small}");
            assert!(with(-small).is_ok(), "{place} {small}");
        }
    }
}

/// The header's numbers are the crate's, and the sentence of the refusal is that of docs/manual/desk.md.
#[test]
fn numbers_and_sentences() {
    let header = include_str!("../../include/dispatch_bench.h");
    for said in [
        format!("DISPATCH_BENCH_OUTSIDE = {},", OutsideDomain::NUMBER),
        format!("#define DISPATCH_BENCH_MOST_INPUT {MOST_INPUT:?}\n"),
        format!("#define DISPATCH_BENCH_LEAST_RATE {LEAST_RATE:?}\n"),
    ] {
        assert_eq!(header.matches(&said).count(), 1, "{said}");
    }
    let (rule, remedy) = (OutsideDomain.rule(), OutsideDomain.remedy());
    assert_eq!(OutsideDomain.to_string(), format!("refused 21: {rule}"));
    let manual = include_str!("../../docs/manual/desk.md");
    let row = format!("| 21 | {rule} | {remedy} |");
    assert_eq!(manual.matches(&row).count(), 1, "{row}");
}
