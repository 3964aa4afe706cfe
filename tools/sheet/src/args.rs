//! A command line, read by the table of the commands.

use std::ffi::{OsStr, OsString};
use std::path::Path;

use crate::near::did_you_mean;
use crate::usage::{self, Choice, Command, Takes};

/// What a command line asks for.
pub enum Asked {
    /// The usage, or what one command does.
    Help(Vec<&'static Command>),
    Version,
    Command(Args),
}

/// A command with its words and options.
pub struct Args {
    pub command: &'static Command,
    pub words: Vec<OsString>,
    options: Vec<(&'static Choice, Option<OsString>)>,
}

impl Args {
    /// A word as a file's name.
    pub fn path(&self, k: usize) -> &Path {
        Path::new(&self.words[k])
    }

    pub fn word(&self, k: usize) -> Option<String> {
        let word = self.words.get(k);
        word.map(|word| word.to_string_lossy().into_owned())
    }

    /// The file to write to; `None` stands for standard output.
    pub fn out(&self, k: usize) -> Option<&Path> {
        let out = self.words.get(k).filter(|word| *word != "-");
        out.map(Path::new)
    }

    /// What follows an option.
    pub fn value(&self, name: &str) -> Option<&OsStr> {
        let found = self.options.iter().find(|(option, _)| option.name == name);
        found.and_then(|(_, value)| value.as_deref())
    }

    pub fn has(&self, name: &str) -> bool {
        self.options.iter().any(|(option, _)| option.name == name)
    }

    /// The options of a group with their values, as words.
    pub fn group(&self, group: &str) -> Vec<String> {
        let of_group = |option: &Choice| option.group == Some(group);
        let options = self.options.iter().filter(|(option, _)| of_group(option));
        let words = options.flat_map(|(option, value)| {
            let value = value.as_ref().map(|v| v.to_string_lossy().into_owned());
            [Some(option.name.to_string()), value]
        });
        words.flatten().collect()
    }
}

/// What is asked for, or why a command line has no meaning.
pub fn parse(args: &[OsString]) -> Result<Asked, String> {
    let words: Vec<_> = args.iter().map(|arg| arg.to_string_lossy()).collect();
    let words: Vec<&str> = words.iter().map(|word| &**word).collect();
    let (name, taken) = match words.as_slice() {
        [] => return Err("no command is named".into()),
        ["--help" | "-h"] => return Ok(Asked::Help(Vec::new())),
        ["--version" | "-V" | "version"] => return Ok(Asked::Version),
        ["--help" | "-h" | "--version" | "-V", ..] => {
            let name = words[0];
            return Err(few_or_many("many", name, name));
        }
        ["help", "--help" | "-h"] => return help(&["help"]),
        ["help", named @ ..] => return help(named),
        ["store"] => {
            return Err(few_or_many(
                "few",
                "store",
                "store example|write|show|weights ..",
            ));
        }
        ["store", "--help" | "-h"] => return help(&["store"]),
        ["store", second, ..] => (format!("store {second}"), 2),
        [first, ..] => (first.to_string(), 1),
    };
    let command = usage::command(&name).ok_or_else(|| unknown(&name))?;
    if words[taken..]
        .iter()
        .any(|word| ["--help", "-h"].contains(word))
    {
        return Ok(Asked::Help(vec![command]));
    }
    read(command, &args[taken..]).map(Asked::Command)
}

/// The help of a command, or of those that begin with a word.
fn help(named: &[&str]) -> Result<Asked, String> {
    let name = named.join(" ");
    let group = format!("{name} ");
    let commands: Vec<_> = usage::COMMANDS
        .iter()
        .filter(|command| command.name == name || command.name.starts_with(&group))
        .collect();
    match commands.is_empty() && !name.is_empty() {
        true => Err(unknown(&name)),
        false => Ok(Asked::Help(commands)),
    }
}

fn unknown(name: &str) -> String {
    let in_store = name.split_once(' ').map(|(_, second)| second);
    let names = usage::COMMANDS.iter().map(|command| command.name);
    let names = names.chain(["--help", "--version"]);
    let meant = match in_store {
        None => did_you_mean(name, &names.collect::<Vec<_>>()),
        Some(second) => {
            let seconds = names.filter_map(|name| name.strip_prefix("store "));
            did_you_mean(second, &seconds.collect::<Vec<_>>())
        }
    };
    format!("\"{name}\" is no command{meant}")
}

/// The words and options that follow a command.
fn read(command: &'static Command, args: &[OsString]) -> Result<Args, String> {
    let (mut words, mut options) = (Vec::new(), Vec::new());
    let mut args = args.iter().peekable();
    while let Some(arg) = args.next() {
        match option(command, arg)? {
            Some(choice) => {
                let value = value(choice, args.next_if(|_| choice.value.is_some()))?;
                if options
                    .iter()
                    .any(|(other, _): &(&Choice, _)| other.name == choice.name)
                {
                    return Err(format!("{} is named twice", choice.name));
                }
                options.push((choice, value));
            }
            None if arg == "--" => words.extend(args.by_ref().cloned()),
            None => words.push(arg.clone()),
        }
    }
    let (least, most) = command.counts();
    let (name, line) = (command.name, command.line());
    match words.len() {
        n if n < least || !is_whole(command, n - least) => Err(few_or_many("few", name, &line)),
        n if n > most => Err(few_or_many("many", name, &line)),
        _ => Ok(Args {
            command,
            words,
            options,
        }),
    }
}

/// So many further words are all of those that may follow again.
fn is_whole(command: &Command, further: usize) -> bool {
    command.repeats == 0 || further.is_multiple_of(command.repeats)
}

/// What follows an option, where something must.
fn value(choice: &Choice, next: Option<&OsString>) -> Result<Option<OsString>, String> {
    let Some(word) = &choice.value else {
        return Ok(None);
    };
    let noun = match word.takes {
        Takes::File => "file",
        Takes::Number => "number",
        Takes::One(_) | Takes::Command | Takes::Id => "word",
    };
    let missing = || format!("no {noun} is named after {}", choice.name);
    next.cloned().map(Some).ok_or_else(missing)
}

/// The option that a word is; a word that looks like one must be one.
fn option(command: &'static Command, arg: &OsStr) -> Result<Option<&'static Choice>, String> {
    let word = arg.to_string_lossy();
    let is_number = |after: &str| after.starts_with(|c: char| c.is_ascii_digit());
    if word.strip_prefix('-').is_none_or(is_number) || ["-", "--"].contains(&&*word) {
        return Ok(None);
    }
    let names: Vec<&str> = command.options.iter().map(|option| option.name).collect();
    let unknown = || {
        let meant = did_you_mean(&word, &names);
        let name = command.name;
        format!("{name} has no option {word}{meant}")
    };
    command.option(&word).map(Some).ok_or_else(unknown)
}

fn few_or_many(which: &str, name: &str, line: &str) -> String {
    format!("too {which} words after {name}: expected `sheet {line}`")
}
