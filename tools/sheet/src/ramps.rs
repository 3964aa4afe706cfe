//! The rates of a run, and its starting speed, as a command line says them; a sheet holds none.

use crate::value;

/// The options' names.
pub const ACCELERATION: &str = "--acceleration";
pub const DECELERATION: &str = "--deceleration";
pub const SPEED: &str = "--speed";

/// What a run has beside its distance and top speed.
#[derive(Clone, Copy, Debug, PartialEq)]
pub struct Ramps {
    pub acceleration: f64,
    pub deceleration: f64,
    /// At the start.
    pub speed: f64,
}

/// Why a command line says no rates.
#[derive(Debug, PartialEq, Eq)]
pub enum Fault {
    /// An option, or what must follow it, is missing, or is there twice.
    Usage(String),
    /// A value is no number.
    Value(String),
}

/// The rates among a command's words, where there are any, and the places of its other words.
pub fn split(words: &[&str]) -> Result<(Option<Ramps>, Vec<usize>), Fault> {
    let (mut found, mut others) = ([None; 3], Vec::new());
    let mut k = 0;
    while k < words.len() {
        let Some(option) = OPTIONS.iter().position(|name| *name == words[k]) else {
            others.push(k);
            k += 1;
            continue;
        };
        let name = OPTIONS[option];
        let Some(word) = words.get(k + 1) else {
            return Err(Fault::Usage(format!("no number is named after {name}")));
        };
        if found[option].is_some() {
            return Err(Fault::Usage(format!("{name} is named twice")));
        }
        found[option] = Some(number(name, word)?);
        k += 2;
    }
    Ok((ramps(found)?, others))
}

const OPTIONS: [&str; 3] = [ACCELERATION, DECELERATION, SPEED];

fn number(name: &str, word: &str) -> Result<f64, Fault> {
    let bits = value::double(word).map_err(|why| {
        let expected = value::DOUBLE;
        Fault::Value(format!(
            "{name}: expected {expected}, found \"{word}\"{why}"
        ))
    });
    bits.map(f64::from_bits)
}

/// Both rates or none; a speed only beside them.
fn ramps(found: [Option<f64>; 3]) -> Result<Option<Ramps>, Fault> {
    match found {
        [None, None, None] => Ok(None),
        [Some(acceleration), Some(deceleration), speed] => Ok(Some(Ramps {
            acceleration,
            deceleration,
            speed: speed.unwrap_or(0.0),
        })),
        _ => {
            let first = |is_given: bool| {
                let place = found.iter().position(|value| value.is_some() == is_given);
                place.map_or("", |place| OPTIONS[place])
            };
            let (given, lacking) = (first(true), first(false));
            Err(Fault::Usage(format!(
                "{given} is there, but {lacking} is missing: the seconds of a run need both rates"
            )))
        }
    }
}

#[cfg(test)]
mod tests {
    use super::*;

    #[test]
    fn options_stand_anywhere() {
        let ramps = Ramps {
            acceleration: 1.0,
            deceleration: 1.25,
            speed: -0.5,
        };
        for (words, others) in [
            (
                "a --acceleration 1 --deceleration 1.25 --speed -0.5 b",
                vec![0, 7],
            ),
            (
                "--speed -0.5 --deceleration 1.25 a --acceleration 1",
                vec![4],
            ),
        ] {
            let words: Vec<&str> = words.split(' ').collect();
            assert_eq!(split(&words), Ok((Some(ramps), others)));
        }
        assert_eq!(split(&["a", "--b", "-"]), Ok((None, vec![0, 1, 2])));
    }
}
