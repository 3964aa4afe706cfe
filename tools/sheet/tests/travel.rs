//! The seconds of runs beside decisions and at arrows.

mod common;

use common::here;
use common::{run, text};

const RATES: [&str; 4] = ["--acceleration", "1", "--deceleration", "1.2"];

fn with<'w>(command: &[&'w str], rates: &[&'w str]) -> Vec<&'w str> {
    [command, rates].concat()
}

/// What is wrong with the command line stands above the usage.
#[test]
fn options_that_have_no_meaning() {
    let usage = text(&run(&["help"], b"").stdout);
    for command in ["pass", "draw"] {
        for (rates, why) in [
            (
                &["--acceleration", "1"][..],
                "--acceleration is there, but --deceleration is missing: the seconds of a run need both rates",
            ),
            (
                &["--deceleration", "1"],
                "--deceleration is there, but --acceleration is missing: the seconds of a run need both rates",
            ),
            (
                &["--speed", "1"],
                "--speed is there, but --acceleration is missing: the seconds of a run need both rates",
            ),
            (
                &["--acceleration"],
                "no number is named after --acceleration",
            ),
            (&["--speed", "1", "--speed", "1"], "--speed is named twice"),
        ] {
            let output = run(&with(&[command, "-"], rates), b"");
            assert_eq!(output.status.code(), Some(2), "{rates:?}");
            assert_eq!(text(&output.stderr), format!("sheet: {why}\n{usage}"));
            assert_eq!(text(&output.stdout), "");
        }
    }
}

#[test]
fn values_that_are_no_numbers() {
    for (word, why) in [
        ("fast", ""),
        ("1,5", ""),
        ("", ""),
        ("1e999", ": no double is so large"),
        ("0x1", ""),
    ] {
        for command in ["pass", "draw"] {
            let rates = ["--acceleration", "1", "--deceleration", word];
            let output = run(&with(&[command, "-"], &rates), b"");
            assert_eq!(output.status.code(), Some(1), "{word}");
            let said = format!(
                "--deceleration: expected a decimal number, inf, -inf, or 0x and 16 hexadecimal digits, found \"{word}\"{why}\n"
            );
            assert_eq!(text(&output.stderr), said);
            assert_eq!(text(&output.stdout), "");
        }
    }
}

mod timed {
    use sheet::ramps::Ramps;
    use sheet::travel::{lines, seconds};
    use sheetgen::Sheet;
    use sheetgen::generate::{PROFILES, Profile, generate};

    use super::*;

    fn written(path: &str) -> Vec<u8> {
        run(&["write", here(path).to_str().unwrap()], b"").stdout
    }

    fn output(args: &[&str], input: &[u8]) -> String {
        let output = run(args, input);
        assert_eq!(output.status.code(), Some(0), "{args:?}");
        assert_eq!(text(&output.stderr), "");
        text(&output.stdout)
    }

    /// The lines and the drawings that stand beside the examples.
    #[test]
    fn as_stored() {
        let (lobby, far) = (
            written("examples/lobby.txt"),
            written("examples/travel/far.txt"),
        );
        let sideways = written("examples/sideways.txt");
        let fast = with(&RATES, &["--speed", "1.5"]);
        let stored = |name: &str| text(&std::fs::read(here("examples/travel").join(name)).unwrap());
        for (sheet, rates, name) in [
            (&lobby, &RATES[..], "lobby"),
            (&lobby, &fast, "lobby_moving"),
            (&far, &RATES, "far"),
            (&sideways, &RATES, "sideways"),
        ] {
            let lines = output(&with(&["pass", "-"], rates), sheet);
            assert_eq!(lines, stored(&format!("{name}.pass")), "{name}");
            let drawn = output(&with(&["draw", "-"], rates), sheet);
            assert_eq!(drawn, stored(&format!("{name}.svg")), "{name}");
        }
    }

    /// Options may stand before the sheet, and a drawing goes into its file.
    #[test]
    fn where_options_stand() {
        let lobby = written("examples/lobby.txt");
        let after = output(&with(&["pass", "-"], &RATES), &lobby);
        assert_eq!(
            output(&[&["pass"], &RATES[..], &["-"]].concat(), &lobby),
            after
        );
        let out = std::env::temp_dir().join(format!("sheet-travel-{}.svg", std::process::id()));
        let out = out.to_str().unwrap();
        assert_eq!(
            output(&[&["draw", "-"], &RATES[..], &[out]].concat(), &lobby),
            ""
        );
        let drawn = output(&with(&["draw", "-", "-"], &RATES), &lobby);
        assert_eq!(std::fs::read_to_string(out).unwrap(), drawn);
        std::fs::remove_file(out).unwrap();
    }

    /// A rate or a speed outside of the domain is explained by 21, and nothing is printed or written.
    #[test]
    fn outside_of_the_domain() {
        let rule = text(&run(&["rule", "21"], b"").stdout);
        let rates = "-1,000,000 to 0 and 1/1,024 to 1,000,000";
        for (option, word, said, range) in [
            ("--acceleration", "0.0001", "0.0001", rates),
            ("--deceleration", "1000000.001", "1,000,000.001", rates),
            ("--deceleration", "-inf", "-inf", rates),
            (
                "--acceleration",
                "0x7ff8000000000000",
                "0x7ff8000000000000",
                rates,
            ),
            ("--speed", "2000000", "2,000,000", "-1,000,000 to 1,000,000"),
        ] {
            let mut words: Vec<&str> = with(&RATES, &["--speed", "0"]);
            let at = words.iter().position(|name| *name == option).unwrap();
            words[at + 1] = word;
            for command in ["pass", "draw"] {
                let output = run(&with(&[command, "-"], &words), &Sheet::example().write());
                assert_eq!(output.status.code(), Some(1), "{option} {word}");
                let why = format!("refused 21: {option} is {said}, but its range is {range}.\n");
                assert_eq!(text(&output.stderr), format!("{why}{rule}"));
                assert_eq!(text(&output.stdout), "");
            }
        }
        for word in ["0", "-0", "-1000000", "1000000", "0.0009765625"] {
            let rates = [
                "--acceleration",
                word,
                "--deceleration",
                word,
                "--speed",
                word,
            ];
            output(&with(&["pass", "-"], &rates), &Sheet::example().write());
        }
    }

    /// A refused sheet is refused as without rates, in lines and drawings.
    #[test]
    fn refused_sheets() {
        let sheet = written("examples/refusal_08_phase.txt");
        for command in ["pass", "draw"] {
            let plain = output(&[command, "-"], &sheet);
            assert_eq!(output(&with(&[command, "-"], &RATES), &sheet), plain);
        }
    }

    /// Of every sheet the lines are those of the pass, and a line that sends a car ends with the run's seconds; the drawing has as many.
    #[test]
    fn beside_each_decision() {
        let ramps = Ramps {
            acceleration: 1.0,
            deceleration: 1.2,
            speed: 0.5,
        };
        let (mut timed, mut refused) = (0, 0);
        for (_, profile) in PROFILES {
            let many = if matches!(profile, Profile::Valid | Profile::Extreme) {
                200
            } else {
                40
            };
            for index in 0..many {
                let bytes = generate(profile, 21, index);
                let plain = dispatch_bench::lines(&bytes);
                let with_seconds = lines(&bytes, &ramps);
                assert_eq!(plain.lines().count(), with_seconds.lines().count());
                let mut sent = 0;
                for (plain, line) in plain.lines().zip(with_seconds.lines()) {
                    let words: Vec<&str> = plain.split(' ').collect();
                    let ["car", car, "stop", stop] = words[..] else {
                        assert_eq!(plain, line);
                        continue;
                    };
                    let sheet = Sheet::of_accepted(&bytes);
                    let car = sheet.cars.iter().find(|c| c.id.to_string() == car).unwrap();
                    let stop = sheet
                        .stops
                        .iter()
                        .find(|s| s.id.to_string() == stop)
                        .unwrap();
                    let added = line.strip_prefix(plain).unwrap();
                    match seconds(car, stop, &ramps) {
                        Ok(time) => {
                            let said: f64 =
                                added.strip_prefix(" seconds ").unwrap().parse().unwrap();
                            assert_eq!(said.to_bits(), time.to_bits());
                            timed += 1;
                        }
                        Err(_) => {
                            assert!(car.distance(stop) > 1e6);
                            assert_eq!(added, " refused 21");
                            refused += 1;
                        }
                    }
                    sent += 1;
                }
                let about = sheet::draw::About {
                    ramps: Some(&ramps),
                    ..Default::default()
                };
                let svg = sheet::draw::draw(&bytes, &about);
                let at_arrows =
                    svg.matches(" s</text>").count() + svg.matches(">refused 21</text>").count();
                assert_eq!(at_arrows, sent, "{profile:?} {index}");
            }
        }
        assert!(timed > 500 && refused > 10, "{timed} {refused}");
    }
}
