//! Writes and reads sheets from the command line.

use std::io::{Read, Write};
use std::process::ExitCode;

use sheetgen::generate::{PROFILES, generate, profile};
use sheetgen::{Sheet, describe, read};

const USAGE: &str = "\
sheetgen example                        writes document 01's example sheet
sheetgen generate PROFILE SEED INDEX    writes one sheet
sheetgen refusal [FILE]                 prints `accepted` or `refused N at OFFSET`
sheetgen describe [FILE]                prints an accepted sheet in words
Sheets are written to standard output and read from FILE or standard input.";

fn input(file: Option<&String>) -> std::io::Result<Vec<u8>> {
    match file {
        Some(path) => std::fs::read(path),
        None => {
            let mut bytes = Vec::new();
            std::io::stdin().read_to_end(&mut bytes)?;
            Ok(bytes)
        }
    }
}

fn run(args: &[String]) -> Result<(), String> {
    let words: Vec<&str> = args.iter().map(String::as_str).collect();
    let fault = |e: std::io::Error| e.to_string();
    match words.as_slice() {
        ["example"] => std::io::stdout()
            .write_all(&Sheet::example().write())
            .map_err(fault),
        ["generate", name, seed, index] => {
            let names: Vec<_> = PROFILES.iter().map(|p| p.0).collect();
            let profile = profile(name).ok_or(format!("profiles: {}", names.join(" ")))?;
            let number = |s: &str| s.parse::<u64>().map_err(|e| format!("{s}: {e}"));
            let bytes = generate(profile, number(seed)?, number(index)?);
            std::io::stdout().write_all(&bytes).map_err(fault)
        }
        ["refusal", ..] => {
            match read(&input(args.get(1)).map_err(fault)?) {
                None => println!("accepted"),
                Some(r) => println!("refused {} at {}", r.number, r.offset),
            }
            Ok(())
        }
        ["describe", ..] => {
            let bytes = input(args.get(1)).map_err(fault)?;
            match read(&bytes) {
                None => print!("{}", describe::describe(&Sheet::of_accepted(&bytes))),
                Some(r) => println!("refused {} at {}", r.number, r.offset),
            }
            Ok(())
        }
        _ => Err(USAGE.into()),
    }
}

fn main() -> ExitCode {
    let args: Vec<String> = std::env::args().skip(1).collect();
    match run(&args) {
        Ok(()) => ExitCode::SUCCESS,
        Err(message) => {
            eprintln!("{message}");
            ExitCode::from(2)
        }
    }
}
