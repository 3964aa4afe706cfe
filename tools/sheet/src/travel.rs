//! The seconds of the runs that a pass decides.

use dispatch_bench::{OutsideDomain, Run, travel_time};
use sheetgen::{Car, Sheet, Stop};

use crate::numbers::grouped_text;
use crate::ramps::{ACCELERATION, DECELERATION, Ramps, SPEED};
use crate::value::show_double;

/// The seconds from a car to a stop, over the distance of both coordinates and by the car's max speed.
pub fn seconds(car: &Car, stop: &Stop, ramps: &Ramps) -> Result<f64, OutsideDomain> {
    travel_time(&Run {
        distance: car.distance(stop),
        speed: ramps.speed,
        top_speed: car.speed,
        acceleration: ramps.acceleration,
        deceleration: ramps.deceleration,
    })
}

/// The lines of a sheet's pass with the seconds beside each decision that sends a car, or the line of its refusal.
pub fn lines(bytes: &[u8], ramps: &Ramps) -> String {
    let lines = dispatch_bench::lines(bytes);
    if dispatch_bench::read(bytes).is_err() {
        return lines;
    }
    let sheet = Sheet::of_accepted(bytes);
    let with_seconds = |line: &str| match sent(&sheet, line) {
        Some((car, stop)) => format!("{line} {}\n", words(seconds(car, stop, ramps))),
        None => format!("{line}\n"),
    };
    lines.lines().map(with_seconds).collect()
}

/// The car and the stop of a line that sends one.
fn sent<'s>(sheet: &'s Sheet, line: &str) -> Option<(&'s Car, &'s Stop)> {
    let (car, stop) = line.strip_prefix("car ")?.split_once(" stop ")?;
    let (car, stop) = (car.parse().ok()?, stop.parse().ok()?);
    let car = sheet.cars.iter().find(|record| record.id == car)?;
    let stop = sheet.stops.iter().find(|record| record.id == stop)?;
    Some((car, stop))
}

fn words(seconds: Result<f64, OutsideDomain>) -> String {
    match seconds {
        Ok(seconds) => format!("seconds {}", show_double(seconds.to_bits())),
        Err(_) => format!("refused {}", OutsideDomain::NUMBER),
    }
}

/// Why the rates and the speed give no run a time, by the first of them that is outside of the domain.
pub fn explain(ramps: &Ramps) -> Option<String> {
    let inside = Ramps {
        acceleration: 1.0,
        deceleration: 1.0,
        speed: 0.0,
    };
    let rates = "-1,000,000 to 0 and 1/1,024 to 1,000,000";
    let alone = [
        (
            ACCELERATION,
            ramps.acceleration,
            rates,
            Ramps {
                acceleration: ramps.acceleration,
                ..inside
            },
        ),
        (
            DECELERATION,
            ramps.deceleration,
            rates,
            Ramps {
                deceleration: ramps.deceleration,
                ..inside
            },
        ),
        (
            SPEED,
            ramps.speed,
            "-1,000,000 to 1,000,000",
            Ramps {
                speed: ramps.speed,
                ..inside
            },
        ),
    ];
    alone.iter().find_map(|(name, value, range, ramps)| {
        let refusal = refused(ramps)?;
        let value = grouped_text(&show_double(value.to_bits()));
        Some(format!(
            "refused {number}: {name} is {value}, but its range is {range}.\nrule {number}: {}\nto do: {}",
            refusal.rule(),
            refusal.remedy(),
            number = OutsideDomain::NUMBER,
        ))
    })
}

/// Whether a run of a distance and a top speed inside of the domain is refused.
fn refused(ramps: &Ramps) -> Option<OutsideDomain> {
    let run = Run {
        distance: 1.0,
        speed: ramps.speed,
        top_speed: 1.0,
        acceleration: ramps.acceleration,
        deceleration: ramps.deceleration,
    };
    travel_time(&run).err()
}
