//! The commands: what each makes of its files, and where it prints that.

use std::ffi::{OsStr, OsString};
use std::io::{ErrorKind, IsTerminal, Write};
use std::path::Path;

use sheet::args::{self, Args, Asked};
use sheet::files::{self, Format};
use sheet::line::Fault;
use sheet::ramps::{self, Ramps};
use sheet::source::{self, Source};
use sheet::{completions, man, rule, show, store, text, usage};

use crate::study::{by_lines, compare, form, is_by_lines, matrix, raise};
use crate::{Stop, complain};

/// Does what a command line asks for.
pub fn run(args: &[OsString]) -> Result<(), Stop> {
    let args = match args::parse(args).map_err(Stop::Usage)? {
        Asked::Help(commands) if commands.is_empty() => return print(&usage::usage()),
        Asked::Help(commands) => {
            let helps: Vec<String> = commands.iter().map(|command| command.help()).collect();
            return print(&helps.join("\n"));
        }
        Asked::Version => return print(&version()),
        Asked::Command(args) => args,
    };
    match args.command.name {
        "example" => example(args.word(0)),
        "write" => write(&args, sheet_bytes, Format::Sheet),
        "show" => show_sheet(args.path(0)),
        "explain" | "pass" | "grade" if is_by_lines(&args)? => by_lines(&args),
        "explain" => strict(&args, &explain(&Source::read(args.path(0))?)?),
        "draw" => draw(&args),
        "pass" => pass(&args),
        "matrix" => matrix(&args),
        "compare" => compare(&args),
        "raise" => raise(&args),
        "grade" => grade(&args),
        "why" => why(&args),
        "rule" => rules(args.word(0)),
        "store example" => print(STORE_EXAMPLE),
        "store write" => write(&args, store_bytes, Format::Store),
        "store show" => store_show(&args),
        "store weights" => weights(&args),
        "man" => print(&man::page()),
        "completions" => completions(args.word(0)),
        name => Err(Stop::Usage(format!("\"{name}\" is no command"))),
    }
}

/// Prints what is said of a sheet; with --strict a refusal has an exit status of its own.
fn strict(args: &Args, said: &str) -> Result<(), Stop> {
    print(said)?;
    match args.has("--strict") && said.starts_with("refused ") {
        true => Err(Stop::Ended(3)),
        false => Ok(()),
    }
}

pub fn print(text: &str) -> Result<(), Stop> {
    print_bytes(text.as_bytes())
}

fn print_bytes(bytes: &[u8]) -> Result<(), Stop> {
    let mut out = std::io::stdout().lock();
    match out.write_all(bytes).and_then(|()| out.flush()) {
        Err(error) if error.kind() != ErrorKind::BrokenPipe => Err(Stop::Failed(format!(
            "standard output: {}",
            files::why(&error)
        ))),
        _ => Ok(()),
    }
}

/// The bytes of a text, or its faults; the path is that of the text.
type Bytes = fn(&[u8], &Path) -> Result<Vec<u8>, Vec<Fault>>;

fn sheet_bytes(text: &[u8], from: &Path) -> Result<Vec<u8>, Vec<Fault>> {
    text::write(text, from.parent().unwrap_or(Path::new("")))
}

fn store_bytes(text: &[u8], _: &Path) -> Result<Vec<u8>, Vec<Fault>> {
    store::write(text)
}

fn write(args: &Args, bytes: Bytes, format: Format) -> Result<(), Stop> {
    let (from, to) = (args.path(0), args.out(1));
    let text = files::read(from)?;
    if let Some(to) = to {
        files::may_write(from, to, format)?;
    }
    source::not_foreign(from, &text)?;
    let bytes = bytes(&text, from).map_err(|faults| source::faulty(from, &faults))?;
    match to {
        Some(to) => Ok(files::replace(to, &bytes)?),
        None if std::io::stdout().is_terminal() => Err(Stop::Failed(format!(
            "{} is not text: name a file to write it to",
            format.says()
        ))),
        None => print_bytes(&bytes),
    }
}

/// `show` takes every file for the bytes that it is, so that nothing of it is lost.
fn show_sheet(path: &Path) -> Result<(), Stop> {
    let bytes = files::read(path)?;
    hint(path, &bytes, text::HINT);
    print(&show::show(&bytes))
}

fn hint(path: &Path, bytes: &[u8], hint: &str) {
    if text::is_text(bytes) {
        complain(&format!("{}: hint: {hint}\n", path.display()));
    }
}

/// The rates of a run, where they are named and a run can have them.
pub fn rates(args: &Args) -> Result<Option<Ramps>, Stop> {
    let words = args.group("RATES");
    let words: Vec<&str> = words.iter().map(String::as_str).collect();
    let (ramps, _) = ramps::split(&words).map_err(|fault| match fault {
        ramps::Fault::Usage(why) => Stop::Usage(why),
        ramps::Fault::Value(why) => Stop::Failed(why),
    })?;
    in_the_domain(ramps.as_ref())?;
    Ok(ramps)
}

/// Draws into a file, into a page, or into both; without either on standard output.
fn draw(args: &Args) -> Result<(), Stop> {
    let from = args.path(0);
    let page = args.value("--html").map(Path::new);
    if args.word(1).as_deref() == Some("-") && page == Some(Path::new("-")) {
        let twice = "- stands for the drawing and for the page: standard output is written once";
        return Err(Stop::Failed(twice.into()));
    }
    let ramps = rates(args)?;
    let source = Source::read(from)?;
    let page_file = page.filter(|page| *page != Path::new("-"));
    for (to, format) in [(args.out(1), Format::Drawing), (page_file, Format::Page)] {
        to.map_or(Ok(()), |to| files::may_write(from, to, format))?;
    }
    let put = |to: Option<&Path>, text: String| match to {
        Some(to) => Ok(files::replace(to, text.as_bytes())?),
        None => print(&text),
    };
    let drawing = Drawing {
        file: from.file_name().filter(|name| *name != "-"),
        fold: args.has("--fold"),
        ramps: ramps.as_ref(),
    };
    if page.is_some() {
        put(page_file, drawn(&source, &drawing, true)?)?;
    }
    if page.is_none() || args.word(1).is_some() {
        put(args.out(1), drawn(&source, &drawing, false)?)?;
    }
    name_the_place(&source);
    Ok(())
}

/// How a sheet is drawn.
struct Drawing<'a> {
    /// The name of its file.
    file: Option<&'a OsStr>,
    fold: bool,
    ramps: Option<&'a Ramps>,
}

fn pass(args: &Args) -> Result<(), Stop> {
    let ramps = rates(args)?;
    let source = Source::read(args.path(0))?;
    strict(args, &passed(&source, ramps.as_ref())?)
}

fn store_show(args: &Args) -> Result<(), Stop> {
    let bytes = files::read(args.path(0))?;
    let strategy = strategy(args.word(1))?;
    hint(args.path(0), &bytes, store::HINT);
    print(&store::show(&bytes, strategy))
}

/// The six weights, or the refusal explained.
fn weights(args: &Args) -> Result<(), Stop> {
    let word = args.word(1).unwrap_or_default();
    let day = sheet::value::whole(&word, 32).map(|day| day as u32);
    let most = u32::MAX;
    let day = day.ok_or_else(|| format!("\"{word}\": expected a day, 0 to {most}"))?;
    let strategy = strategy(args.word(2))?;
    let store = files::read(args.path(0))?;
    print(&sheet::weights::weights(&store, day, strategy))
}

/// A strategy's number.
fn strategy(name: Option<String>) -> Result<Option<u64>, Stop> {
    let Some(name) = name else {
        return Ok(None);
    };
    let no_strategy = || format!("\"{name}\": expected a strategy, ETD, RSR or SCAN");
    Ok(Some(store::strategy(&name).ok_or_else(no_strategy)?))
}

const STORE_EXAMPLE: &str = include_str!("../examples/stores/corrections.txt");

fn example(strategy: Option<String>) -> Result<(), Stop> {
    let strategy = strategy.unwrap_or("ETD".into());
    print(match &*strategy {
        "ETD" => include_str!("../examples/lobby.txt"),
        "RSR" => include_str!("../examples/small_rsr.txt"),
        "SCAN" => include_str!("../examples/small_scan.txt"),
        "sideways" => include_str!("../examples/sideways.txt"),
        _ => {
            return Err(Stop::Failed(format!(
                "\"{strategy}\": expected a strategy, ETD, RSR or SCAN, or sideways"
            )));
        }
    })
}

fn rules(number: Option<String>) -> Result<(), Stop> {
    let Some(word) = number else {
        return print(&rule::all());
    };
    let found = word.parse().ok().and_then(rule::one);
    let last = rule::LAST;
    let none = || format!("\"{word}\": expected a refusal's number, 1 to {last}");
    print(&found.ok_or_else(none)?)
}

fn completions(shell: Option<String>) -> Result<(), Stop> {
    let shell = shell.unwrap_or_default();
    let shells = usage::SHELLS.join(", ");
    let none = || format!("\"{shell}\": expected a shell: {shells}");
    print(&completions::of(&shell).ok_or_else(none)?)
}

/// A library of another interface was linked: what it answers is not what this program takes it for.
pub fn of_the_interface() -> Result<(), Stop> {
    let (found, wanted) = (dispatch_bench::version(), dispatch_bench::VERSION);
    match found == wanted {
        true => Ok(()),
        false => Err(Stop::Failed(format!(
            "this program was built with a library of interface {found}, and takes interface {wanted}"
        ))),
    }
}

/// The versions of the program, of the library and of its interface.
fn version() -> String {
    let (program, library) = (env!("CARGO_PKG_VERSION"), dispatch_bench::LIBRARY_SHA256);
    let interface = dispatch_bench::version();
    format!("sheet {program}\nlibrary {library}\ninterface {interface}\n")
}

fn explain(source: &Source) -> Result<String, Stop> {
    of_the_interface()?;
    Ok(sheet::explain::of(source))
}

/// No rates, or such as a run can have.
fn in_the_domain(ramps: Option<&Ramps>) -> Result<(), Stop> {
    match ramps.and_then(sheet::travel::explain) {
        Some(why) => Err(Stop::Failed(why)),
        None => Ok(()),
    }
}

/// Where a text is refused, its line is named on standard error; so is a file of another kind.
pub fn name_the_place(source: &Source) {
    if let Some(words) = sheet::explain::beside(source) {
        complain(&format!("{words}\n"));
    }
}

/// The drawing, or the page with it.
fn drawn(source: &Source, drawing: &Drawing, is_page: bool) -> Result<String, Stop> {
    of_the_interface()?;
    let file = drawing.file.map(|name| name.to_string_lossy());
    let about = sheet::draw::About {
        file: file.as_deref(),
        ramps: drawing.ramps,
        names: source.names.clone(),
        fold: drawing.fold,
        marked: Vec::new(),
        source: Some(source),
    };
    Ok(match is_page {
        true => sheet::draw::html(&source.bytes, &about),
        false => sheet::draw::draw(&source.bytes, &about),
    })
}

fn passed(source: &Source, ramps: Option<&Ramps>) -> Result<String, Stop> {
    of_the_interface()?;
    name_the_place(source);
    Ok(match ramps {
        Some(ramps) => sheet::travel::lines(&source.bytes, ramps),
        None => dispatch_bench::lines(&source.bytes),
    })
}

/// The grade of what a site sent, or the refusal explained.
fn grade(args: &Args) -> Result<(), Stop> {
    let (sheet, text) = (args.path(0), args.path(1));
    if [sheet, text].iter().all(|path| *path == Path::new("-")) {
        let twice = "- stands for the sheet and for the text: standard input is read once";
        return Err(Stop::Failed(twice.into()));
    }
    let source = Source::read(sheet)?;
    let grades = sheet::grades::read(&files::read(text)?);
    let grades = grades.map_err(|faults| source::faulty(text, &faults))?;
    of_the_interface()?;
    // A refused text is explained with its lines.
    match source.places.is_some() && dispatch_bench::read(&source.bytes).is_err() {
        true => strict(args, &sheet::explain::of(&source)),
        false => strict(args, &sheet::grade::grade(&source.bytes, &grades)),
    }
}

/// Why a car costs what it does for a stop, or the refusal explained.
fn why(args: &Args) -> Result<(), Stop> {
    let source = Source::read(args.path(0))?;
    let [car, stop] = [1, 2].map(|k| args.word(k).unwrap_or_default());
    of_the_interface()?;
    let (car, stop) = sheet::why::ids(&source, &car, &stop)?;
    print(&sheet::why::of(&source, car, stop, form(args)?))
}
