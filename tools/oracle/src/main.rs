//! The comparison harness of the dispatch bench (README.md).

include!(concat!(env!("OUT_DIR"), "/published.rs"));

mod answer;
mod bars;
mod bench;
mod choice;
mod compare;
mod grades;
mod growth;
mod lists;
mod paper;
mod rust_pass;
mod timing;
mod travel;

use std::io::{Read, Write};
use std::process::ExitCode;

const USAGE: &str = "\
oracle passprint [FILE]        the lines of passprint, from the Rust's side
oracle pass [--ranks] [FILE]   pending stops, sweeps, matrix, least total; single ranks as 64-bit patterns
oracle compare LIBRARY SEED COUNT [PROFILE]
                               both sides on COUNT sheets of each profile; LIBRARY is a shared object
oracle program PROGRAM SEED COUNT
                               the program passprint, built, against `oracle passprint`
oracle papers SEED COUNT [PROFILE]
                               the definitions against the Rust, with no library
oracle selftest [COUNT [FAULT]]
                               benches that are wrong on purpose must be found out
oracle time LIBRARY [ROUNDS]   from bytes to decisions, the bench beside the Rust, in microseconds a sheet
oracle beside OLDER NEWER [ROUNDS]   reading and passing, two libraries in turns, and the ratio of their times
oracle limits SEED COUNT       a higher limit never raises the total, by the Rust, and with closed landings or second coordinates by the definitions
oracle bars SEED COUNT         a bar added never lowers the total where there is no limit; how often it does under one
oracle first LIBRARY SEED COUNT
                               the first release refuses closed landings by 4, load weights by 15 and edition 2 by 3; LIBRARY is its shared
                               object
oracle survey SEED COUNT       what the sheets of each profile are like
oracle travel LIBRARY SEED COUNT
                               travel times beside eta.rs, on COUNT runs; LIBRARY is a shared object
oracle travel selftest COUNT   travel times that are wrong on purpose must be found out
oracle travel time LIBRARY [ROUNDS]
                               a call beside eta.rs, in nanoseconds
oracle list refusals|passes|pairs|ranks|grades|travel SEED FILE
                               writes a fixed list
Sheets are read from FILE or standard input.";

fn input(file: Option<&str>) -> std::io::Result<Vec<u8>> {
    match file {
        Some(path) => std::fs::read(path),
        None => {
            let mut bytes = Vec::new();
            std::io::stdin().read_to_end(&mut bytes)?;
            Ok(bytes)
        }
    }
}

fn number(word: &str) -> Result<u64, String> {
    word.parse().map_err(|e| format!("{word}: {e}"))
}

fn clean(same: bool) -> Result<(), String> {
    if !same {
        println!("NOT EQUAL");
        std::process::exit(1);
    }
    println!("no difference");
    Ok(())
}

fn found_out(all: bool) -> Result<(), String> {
    if !all {
        println!("a fault was not found out, or a difference was seen where there is none");
        std::process::exit(1);
    }
    println!("every fault was found out");
    Ok(())
}

fn run(args: &[&str]) -> Result<(), String> {
    let fault = |e: std::io::Error| e.to_string();
    match args {
        ["compare" | "papers", .., name]
            if args.len() == 3 + usize::from(args[0] == "compare") + 1
                && *name != "matrices"
                && sheetgen::generate::profile(name).is_none() =>
        {
            let names: Vec<_> = sheetgen::generate::PROFILES.iter().map(|p| p.0).collect();
            return Err(format!("profiles: {} matrices", names.join(" ")));
        }
        ["compare", library, seed, count, rest @ ..] if rest.len() < 2 => {
            let mut bench = bench::Linked::load(library)?;
            return clean(compare::library(
                &mut bench,
                number(seed)?,
                number(count)?,
                rest.first().copied(),
            ));
        }
        ["papers", seed, count, rest @ ..] if rest.len() < 2 => {
            let only = rest.first().copied();
            return clean(compare::papers(number(seed)?, number(count)?, only));
        }
        ["program", path, seed, count] => {
            return clean(compare::program(path, number(seed)?, number(count)?));
        }
        ["time", library, rest @ ..] if rest.len() < 2 => {
            let rounds = rest.first().map_or(Ok(9), |word| number(word))?;
            let mut bench = bench::Linked::load(library)?;
            if !bench::Bench::has(&bench).pass {
                return Err("nothing timed: there is no pass of this interface".into());
            }
            timing::table(&mut bench, rounds.max(1) as usize);
            return Ok(());
        }
        ["growth", library, picture, rest @ ..] if rest.len() < 2 => {
            let rounds = rest.first().map_or(Ok(9), |word| number(word))?;
            let mut bench = bench::Linked::load(library)?;
            let svg = growth::growth(&mut bench, rounds.max(1) as usize);
            return std::fs::write(picture, svg).map_err(|e| format!("{picture}: {e}"));
        }
        ["beside", older, newer, rest @ ..] if rest.len() < 2 => {
            let rounds = rest.first().map_or(Ok(9), |word| number(word))?;
            let (older, newer) = (bench::Linked::load(older)?, bench::Linked::load(newer)?);
            timing::beside([Box::new(older), Box::new(newer)], rounds.max(1) as usize);
            return Ok(());
        }
        ["first", library, seed, count] => {
            let mut bench = bench::Linked::load(library)?;
            let held = compare::first_release(&mut bench, number(seed)?, number(count)?);
            return clean(held);
        }
        ["limits", seed, count] => return clean(compare::limits(number(seed)?, number(count)?)),
        ["bars", seed, count] => return clean(compare::bars(number(seed)?, number(count)?)),
        ["survey", seed, count] => {
            compare::survey(number(seed)?, number(count)?);
            return Ok(());
        }
        ["list", kind, seed, file] => {
            let (list, cases) = match *kind {
                "refusals" => lists::refusals(number(seed)?),
                "passes" => lists::passes(number(seed)?),
                "pairs" => lists::pairs(number(seed)?),
                "ranks" => lists::ranks(number(seed)?),
                "grades" => grades::list(number(seed)?),
                "travel" => travel::list(number(seed)?),
                _ => return Err(USAGE.into()),
            };
            println!("{cases} cases, {} bytes", list.len());
            return std::fs::write(file, list).map_err(fault);
        }
        ["travel", "selftest", count] => {
            return found_out(travel::selftest(number(count)?));
        }
        ["travel", "time", library, rest @ ..] if rest.len() < 2 => {
            let rounds = rest.first().map_or(Ok(99), |word| number(word))?;
            travel::time(&bench::travel_time(library)?, rounds.max(1) as usize);
            return Ok(());
        }
        ["travel", library, seed, count] => {
            let function = bench::travel_time(library)?;
            return clean(travel::compare(&function, number(seed)?, number(count)?));
        }
        ["selftest", rest @ ..] if rest.len() < 3 => {
            let count = rest.first().map_or(Ok(3000), |word| number(word))?;
            return found_out(compare::selftest(count, rest.get(1).copied()));
        }
        _ => {}
    }
    let mut rust = rust_pass::Rust::new();
    let text = match args {
        ["passprint", rest @ ..] if rest.len() < 2 => {
            answer::passprint(&mut rust, &input(rest.first().copied()).map_err(fault)?)
        }
        ["pass", "--ranks", rest @ ..] if rest.len() < 2 => answer::details(
            &mut rust,
            &input(rest.first().copied()).map_err(fault)?,
            true,
        ),
        ["pass", rest @ ..] if rest.len() < 2 => answer::details(
            &mut rust,
            &input(rest.first().copied()).map_err(fault)?,
            false,
        ),
        _ => return Err(USAGE.into()),
    };
    std::io::stdout().write_all(text.as_bytes()).map_err(fault)
}

fn main() -> ExitCode {
    let args: Vec<String> = std::env::args().skip(1).collect();
    let words: Vec<&str> = args.iter().map(String::as_str).collect();
    match run(&words) {
        Ok(()) => ExitCode::SUCCESS,
        Err(message) => {
            eprintln!("{message}");
            ExitCode::from(2)
        }
    }
}
