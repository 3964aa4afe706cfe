//! Many sheets, and the commands over more than one pass: `matrix`, `compare`, `raise`.

use std::io::{ErrorKind, IsTerminal, Write};
use std::path::{Path, PathBuf};

use dispatch_bench::Refusal;
use sheet::args::Args;
use sheet::compare::Comparison;
use sheet::files::Format;
use sheet::many::{self, Named, Progress};
use sheet::raise::Raised;
use sheet::report::{self, Form, Report, Said, Summary};
use sheet::source::{self, Source};
use sheet::{draw, files, grades, matrix, value};

use crate::commands::{name_the_place, of_the_interface, print, rates};
use crate::{Stop, complain};

/// The form that is asked for.
pub fn form(args: &Args) -> Result<Form, Stop> {
    match (args.has("--json"), args.has("--csv")) {
        (true, true) => Err(Stop::Usage(
            "--json and --csv are two forms: name one".into(),
        )),
        (true, false) => Ok(Form::Json),
        (false, true) => Ok(Form::Csv),
        (false, false) => Ok(Form::Words),
    }
}

/// Whether a line is printed for each file: there are more than one, or a folder, or a form that has lines.
pub fn is_by_lines(args: &Args) -> Result<bool, Stop> {
    jobs(args)?;
    let (least, _) = args.command.counts();
    let has = |name| args.has(name);
    Ok(args.words.len() > least
        || args.words.iter().any(|word| Path::new(word).is_dir())
        || ["--json", "--csv", "--lines"].into_iter().any(has))
}

/// A line for each file.
pub fn by_lines(args: &Args) -> Result<(), Stop> {
    of_the_interface()?;
    read_once(args)?;
    match args.command.name {
        "grade" => grade(args),
        "explain" => {
            let make = |path: &Named| match opened(path) {
                Ok(source) => report::explain(&source),
                Err((file, why)) => report::explain_not_read(&file, &why),
            };
            each(args, &sheets(args), make, "sheet", &["accepted"])
        }
        _ => pass(args),
    }
}

fn pass(args: &Args) -> Result<(), Stop> {
    let ramps = rates(args)?;
    if ramps.is_some() && form(args)? != Form::Json {
        let seconds = "the seconds of the runs of many sheets, or of a sheet in a line, are printed with --json";
        return Err(Stop::Failed(seconds.into()));
    }
    let make = |path: &Named| match opened(path) {
        Ok(source) => report::pass(&source, ramps.as_ref()),
        Err((file, why)) => report::pass_not_read(&file, &why),
    };
    each(args, &sheets(args), make, "sheet", &["accepted"])
}

/// The files that are named.
fn sheets(args: &Args) -> Vec<Named> {
    let words: Vec<PathBuf> = args.words.iter().map(PathBuf::from).collect();
    many::files(&words, &many::ENDINGS)
}

fn opened(path: &Named) -> Result<Source, (String, String)> {
    match path {
        Ok(path) => Source::read(path).map_err(|why| (path.display().to_string(), why)),
        Err((path, why)) => Err((path.display().to_string(), why.clone())),
    }
}

fn read_once(args: &Args) -> Result<(), Stop> {
    match args.words.iter().filter(|word| *word == "-").count() {
        0 | 1 => Ok(()),
        _ => Err(Stop::Failed(
            "- stands for more than one file: standard input is read once".into(),
        )),
    }
}

/// A sheet and what a site sent of it, or a name that stands for none, and why.
type Sent = Result<(PathBuf, PathBuf), (PathBuf, PathBuf, String)>;

fn grade(args: &Args) -> Result<(), Stop> {
    let pairs: Vec<Sent> = args
        .words
        .chunks(2)
        .flat_map(|pair| sent(&pair[0], &pair[1]))
        .collect();
    let make = |pair: &Sent| match pair {
        Ok((sheet, text)) => graded(sheet, text),
        Err((sheet, text, why)) => report::grade_not_read(&sheet.display().to_string(), text, why),
    };
    each(args, &pairs, make, "choice", &["least", "not shown"])
}

/// Two files; a sheet and every text of a folder; or every sheet of a folder and the text of the same name in another.
fn sent(sheet: &std::ffi::OsStr, text: &std::ffi::OsStr) -> Vec<Sent> {
    let (sheet, text) = (PathBuf::from(sheet), PathBuf::from(text));
    match (sheet.is_dir(), text.is_dir()) {
        (false, false) => vec![Ok((sheet, text))],
        (false, true) => {
            let texts = many::files(std::slice::from_ref(&text), &["txt"]);
            let of = |named: Named| match named {
                Ok(text) => Ok((sheet.clone(), text)),
                Err((text, why)) => Err((sheet.clone(), text, why)),
            };
            texts.into_iter().map(of).collect()
        }
        (true, true) => {
            let sheets = many::files(std::slice::from_ref(&sheet), &["sheet"]);
            let of = |named: Named| match named {
                Ok(found) => {
                    let below = found.strip_prefix(&sheet).unwrap_or(&found);
                    Ok((found.clone(), text.join(below).with_extension("txt")))
                }
                Err((sheet, why)) => Err((sheet, text.clone(), why)),
            };
            sheets.into_iter().map(of).collect()
        }
        (true, false) => {
            let why = "a folder of sheets needs a folder of texts".into();
            vec![Err((sheet, text, why))]
        }
    }
}

fn graded(sheet: &Path, text: &Path) -> Said {
    let file = sheet.display().to_string();
    let read = || -> Result<Said, String> {
        let source = Source::read(sheet)?;
        let grades = grades::read(&files::read(text)?);
        let grades = grades.map_err(|faults| source::faulty(text, &faults))?;
        Ok(report::grade(&source, text, &grades))
    };
    read().unwrap_or_else(|why| report::grade_not_read(&file, text, &why))
}

/// How many work at once.
fn jobs(args: &Args) -> Result<usize, Stop> {
    let Some(word) = args.value("--jobs") else {
        return Ok(std::thread::available_parallelism().map_or(1, usize::from));
    };
    let word = word.to_string_lossy();
    let number = value::whole(&word, 16).filter(|number| *number > 0);
    let none = || format!("\"{word}\": expected a number of workers, 1 to 65,535");
    Ok(number.ok_or_else(none)? as usize)
}

/// Prints a line for each item, in their order, and a summary; the exit status tells of what was not read or refused.
fn each<T: Sync>(
    args: &Args,
    items: &[T],
    make: impl Fn(&T) -> Said + Sync,
    noun: &str,
    ends: &[&str],
) -> Result<(), Stop> {
    let (form, workers, is_bare) = (form(args)?, jobs(args)?, args.has("--lines"));
    let mut out = Lines::new(items.len(), form, is_bare);
    let mut summary = Summary::default();
    let report = |item: &T| {
        let said = make(item);
        (said.heading(), said.report(form))
    };
    many::work(items, workers, report, |(heading, report)| {
        summary.add(&report.end);
        out.line(&heading, &report)
    });
    // Who reads no more is told no more.
    if !out.end()? {
        return Ok(());
    }
    if !is_bare && items.len() > 1 {
        complain(&format!("{}\n", summary.words(noun, ends)));
    }
    match (summary.has_not_read(), summary.has_refused()) {
        (true, _) => Err(Stop::Ended(1)),
        (false, true) if args.has("--strict") => Err(Stop::Ended(3)),
        _ => Ok(()),
    }
}

/// Lines on standard output, with a bar on standard error where both are told apart.
struct Lines {
    form: Form,
    is_bare: bool,
    is_first: bool,
    progress: Progress,
    fault: Option<std::io::Error>,
    /// Standard output is a terminal: the bar makes room for each line.
    is_seen: bool,
    out: std::io::BufWriter<std::io::Stdout>,
}

impl Lines {
    fn new(all: usize, form: Form, is_bare: bool) -> Self {
        let is_shown = std::io::stderr().is_terminal() && !is_bare;
        Self {
            form,
            is_bare,
            is_first: true,
            progress: Progress::new(all, is_shown),
            fault: None,
            is_seen: std::io::stdout().is_terminal(),
            out: std::io::BufWriter::new(std::io::stdout()),
        }
    }

    /// Whether more is wanted.
    fn line(&mut self, heading: &str, report: &Report) -> bool {
        let heading = match self.is_first && self.form == Form::Csv && !self.is_bare {
            true => heading,
            false => "",
        };
        self.is_first = false;
        if self.is_seen {
            self.progress.clear();
        }
        let text = format!("{heading}{}", report.line);
        let mut done = self.out.write_all(text.as_bytes());
        if self.is_seen {
            done = done.and_then(|()| self.out.flush());
        }
        self.progress.step();
        self.fault = done.err();
        self.fault.is_none()
    }

    /// Whether all was printed; where the reader went away early that is no fault.
    fn end(mut self) -> Result<bool, Stop> {
        self.progress.clear();
        let flushed = self.out.flush().err();
        match self.fault.take().or(flushed) {
            None => Ok(true),
            Some(error) if error.kind() == ErrorKind::BrokenPipe => Ok(false),
            Some(error) => {
                let why = files::why(&error);
                Err(Stop::Failed(format!("standard output: {why}")))
            }
        }
    }
}

/// The matrix of a sheet as a table, or its refusal.
pub fn matrix(args: &Args) -> Result<(), Stop> {
    of_the_interface()?;
    let form = form(args)?;
    let source = Source::read(args.path(0))?;
    name_the_place(&source);
    print(&matrix::of(&source, form))
}

/// What differs in two sheets and their passes, in words and drawn.
pub fn compare(args: &Args) -> Result<(), Stop> {
    of_the_interface()?;
    let form = form(args)?;
    read_once(args)?;
    let (first, second) = (Source::read(args.path(0))?, Source::read(args.path(1))?);
    let comparison = Comparison::new(&first, &second);
    let abouts = [&first, &second].map(|source| about(source, &comparison));
    let sides = ((&*first.bytes, &abouts[0]), (&*second.bytes, &abouts[1]));
    let drawn = args.words.get(2).map(PathBuf::from);
    let page = args.value("--html").map(PathBuf::from);
    for (to, format) in [(&drawn, Format::Drawing), (&page, Format::Page)] {
        let to = to.as_ref().filter(|to| **to != Path::new("-"));
        for from in [args.path(0), args.path(1)] {
            to.map_or(Ok(()), |to| files::may_write(from, to, format))?;
        }
    }
    let mut is_printed = false;
    if let Some(to) = &drawn {
        is_printed |= put(to, &draw::pair(sides.0, sides.1))?;
    }
    if let Some(to) = &page {
        let words = comparison.text(Form::Words);
        is_printed |= put(to, &draw::pair_page(sides.0, sides.1, &words))?;
    }
    match is_printed {
        true => Ok(()),
        false => print(&comparison.text(form)),
    }
}

/// Writes a file, or prints it: then it stands in the place of what else would be printed.
fn put(to: &Path, text: &str) -> Result<bool, Stop> {
    match to == Path::new("-") {
        true => print(text).map(|()| true),
        false => Ok(files::replace(to, text.as_bytes()).map(|()| false)?),
    }
}

/// The limits of a sheet raised, as a table and as a plot.
pub fn raise(args: &Args) -> Result<(), Stop> {
    of_the_interface()?;
    let form = form(args)?;
    let source = Source::read(args.path(0))?;
    let raised = Raised::new(&source.bytes).map_err(|refusal| {
        let Refusal { number, offset } = refusal;
        let (file, named) = (&source.file, source.shell_name());
        format!("{file}: refused {number} at {offset}, so it has no pass under any limit; `sheet explain {named}` says why")
    })?;
    if let Some(to) = args.words.get(1).map(Path::new) {
        if to != Path::new("-") {
            files::may_write(args.path(0), to, Format::Drawing)?;
        }
        if put(to, &draw::raised(&raised, file_name(&source)))? {
            return Ok(());
        }
    }
    print(&raised.text(&source.file, form))
}

/// The name of a file without its folders; none for standard input.
fn file_name(source: &Source) -> Option<&str> {
    let name = Path::new(&source.file).file_name()?.to_str();
    name.filter(|name| *name != "-")
}

/// How a side of a comparison is drawn.
fn about<'a>(source: &'a Source, comparison: &Comparison) -> draw::About<'a> {
    draw::About {
        file: file_name(source),
        names: source.names.clone(),
        marked: comparison.cars(),
        source: Some(source),
        ..draw::About::default()
    }
}
