//! What `pass`, `explain` and `grade` say of one of many files: a line in words, an object of JSON or a row of comma-separated values.

use std::path::Path;

use dispatch_bench::{Car, Pass, Refusal, SweepDirection, SweepMode};
use sheetgen::Sheet;

use crate::grades::Grades;
use crate::json::{Json, big};
use crate::ramps::Ramps;
use crate::show::number_of;
use crate::source::Source;
use crate::{csv, explain, grade, travel};

#[derive(Clone, Copy, Debug, PartialEq, Eq)]
pub enum Form {
    Words,
    Json,
    Csv,
}

/// How a file ended.
#[derive(Clone, Debug, PartialEq, Eq)]
pub enum End {
    /// In a word of the summary: accepted, least, not shown.
    Done(&'static str),
    Refused(u32),
    NotRead,
}

/// What is printed of a file.
pub struct Report {
    pub end: End,
    /// With its line end.
    pub line: String,
}

/// A value beside its key, and as a field of a row; an array stands in JSON alone, or is told in a field.
pub struct Entry {
    pub key: &'static str,
    pub json: Json,
    /// `None`: the row has no such field.
    pub field: Option<String>,
}

impl Entry {
    /// The same in both.
    pub fn new(key: &'static str, json: impl Into<Json>) -> Self {
        let json = json.into();
        let field = Some(match &json {
            Json::Null => String::new(),
            Json::Text(text) => text.clone(),
            json => json.to_string(),
        });
        Self { key, json, field }
    }

    pub fn list(key: &'static str, json: Json, field: Option<String>) -> Self {
        Self { key, json, field }
    }
}

/// What a command says of a file, by keys.
pub struct Said {
    pub end: End,
    pub words: String,
    pub entries: Vec<Entry>,
}

impl Said {
    pub fn report(self, form: Form) -> Report {
        let line = match form {
            Form::Words => self.words + "\n",
            Form::Json => {
                let entries = self.entries.into_iter().map(|e| (e.key, e.json));
                format!("{}\n", Json::object(entries))
            }
            Form::Csv => {
                // A row is one line.
                let fields = self.entries.into_iter().filter_map(|e| e.field);
                let fields = fields.map(|field| field.replace('\n', "; "));
                csv::row(&fields.collect::<Vec<_>>())
            }
        };
        let end = self.end;
        Report { end, line }
    }

    /// The names of a row's fields.
    pub fn heading(&self) -> String {
        let fields = self.entries.iter().filter(|entry| entry.field.is_some());
        csv::row(&fields.map(|entry| entry.key).collect::<Vec<_>>())
    }
}

/// The entries that every file has: its name, how it ended, the refusal, or why it was not read.
fn verdict(file: &str, status: &str, refusal: Option<Refusal>, why: Option<&str>) -> Vec<Entry> {
    vec![
        Entry::new("file", file),
        Entry::new("status", status),
        Entry::new("refusal", refusal.map(|refusal| refusal.number)),
        Entry::new("offset", refusal.map(|refusal| refusal.offset as usize)),
        Entry::new("why", why),
    ]
}

fn refused(refusal: Refusal) -> String {
    format!("refused {} at {}", refusal.number, refusal.offset)
}

/// What is said of a file that cannot be read; `others` are the entries that it would have.
fn not_read(file: &str, why: &str, others: Vec<Entry>) -> Said {
    // What is said of a file begins with its name.
    let own = why.strip_prefix(&format!("{file}: ")).unwrap_or(why);
    let first = own.lines().next().unwrap_or("");
    let more = match own.lines().count() {
        0 | 1 => String::new(),
        lines => format!(" (and {})", number_of(lines - 1, "more fault")),
    };
    let first = in_words(file, first).unwrap_or(first.into());
    let mut entries = verdict(file, "not read", None, Some(own));
    entries.extend(others);
    Said {
        end: End::NotRead,
        words: format!("{file}: not read: {first}{more}"),
        entries,
    }
}

/// `FILE:LINE:COLUMN: WORDS` as `line LINE, column COLUMN: WORDS`.
fn in_words(file: &str, fault: &str) -> Option<String> {
    let (place, words) = fault
        .strip_prefix(file)?
        .strip_prefix(':')?
        .split_once(": ")?;
    let (line, column) = place.split_once(':')?;
    Some(format!("line {line}, column {column}: {words}"))
}

/// A pass, and what else there is to say of it.
struct Passed<'a> {
    pass: &'a Pass,
    cars: Vec<Car>,
    pending: Vec<u32>,
    /// The seconds of each idle car's run, where there are rates and it is sent.
    seconds: Vec<Option<f64>>,
}

/// What `pass` says of a file that was read.
pub fn pass(source: &Source, ramps: Option<&Ramps>) -> Said {
    let (file, bytes) = (&*source.file, &source.bytes);
    let (pass, pending) = match (dispatch_bench::pass(bytes), dispatch_bench::pending(bytes)) {
        (Ok(pass), Ok(pending)) => (pass, pending),
        (Err(refusal), _) | (_, Err(refusal)) => {
            let mut entries = verdict(file, "refused", Some(refusal), None);
            entries.extend(pass_entries(None));
            return Said {
                end: End::Refused(refusal.number),
                words: format!("{file}: {}", refused(refusal)),
                entries,
            };
        }
    };
    let first = dispatch_bench::lines(bytes);
    let first = first.lines().next().unwrap_or("");
    let passed = Passed {
        seconds: seconds(bytes, &pass, ramps),
        pass: &pass,
        cars: dispatch_bench::cars(bytes).collect(),
        pending,
    };
    let mut entries = verdict(file, "accepted", None, None);
    entries.extend(pass_entries(Some(&passed)));
    Said {
        end: End::Done("accepted"),
        words: format!("{file}: {first}"),
        entries,
    }
}

pub fn pass_not_read(file: &str, why: &str) -> Said {
    not_read(file, why, pass_entries(None))
}

/// The seconds of each idle car's run.
fn seconds(bytes: &[u8], pass: &Pass, ramps: Option<&Ramps>) -> Vec<Option<f64>> {
    let Some(ramps) = ramps else {
        return vec![None; pass.decisions.len()];
    };
    let sheet = Sheet::of_accepted(bytes);
    let idle = sheet.cars.iter().filter(|car| car.idle);
    let run = |(car, decision): (_, &dispatch_bench::Decision)| {
        let id = (*decision)?.get();
        let stop = sheet.stops.iter().find(|stop| stop.id == id)?;
        travel::seconds(car, stop, ramps).ok()
    };
    idle.zip(&pass.decisions).map(run).collect()
}

fn pass_entries(passed: Option<&Passed>) -> Vec<Entry> {
    let pass = passed.map(|passed| passed.pass);
    let sent = |pass: &Pass| pass.decisions.iter().flatten().count();
    let of = |what: fn(&Passed) -> Json| passed.map_or(Json::Null, what);
    vec![
        Entry::new("cars", pass.map(|pass| pass.cars)),
        Entry::new("stops", pass.map(|pass| pass.stops)),
        Entry::new("total", pass.map(|pass| big(pass.total))),
        Entry::new("sent", pass.map(sent)),
        Entry::new("ranked", pass.map(|pass| pass.ranked as usize)),
        Entry::new("held", pass.map(|pass| pass.held as usize)),
        Entry::list("pending", of(|p| Json::array(p.pending.clone())), None),
        Entry::list(
            "decisions",
            of(|p| p.decisions()),
            Some(passed.map_or(String::new(), Passed::told)),
        ),
        Entry::list("sweeps", of(|p| p.sweeps()), None),
    ]
}

impl Passed<'_> {
    fn idle(&self) -> impl Iterator<Item = &Car> {
        self.cars.iter().filter(|car| car.idle_listed)
    }

    /// The cell of an idle car and the stop where it is sent.
    fn cell(&self, row: usize) -> Option<u64> {
        let id = (*self.pass.decisions.get(row)?)?.get();
        let column = self.pending.iter().position(|stop| *stop == id)?;
        self.pass.rows().nth(row)?.get(column).copied()
    }

    fn decisions(&self) -> Json {
        let of = |(row, car): (usize, &Car)| {
            let stop = self.pass.decisions.get(row).copied().flatten();
            Json::object([
                ("car", car.id.into()),
                ("stop", stop.map(|id| id.get()).into()),
                ("cell", self.cell(row).map(big).into()),
                ("seconds", self.seconds.get(row).copied().flatten().into()),
            ])
        };
        Json::array(self.idle().enumerate().map(of))
    }

    /// The decisions in a field: `7:2 8:idle`.
    fn told(&self) -> String {
        let of = |(car, decision): (&Car, &dispatch_bench::Decision)| match decision {
            Some(stop) => format!("{}:{stop}", car.id),
            None => format!("{}:idle", car.id),
        };
        let told: Vec<String> = self.idle().zip(&self.pass.decisions).map(of).collect();
        told.join(" ")
    }

    fn sweeps(&self) -> Json {
        let swept = self.cars.iter().zip(&self.pass.sweeps);
        let of = |(car, sweep): (&Car, &dispatch_bench::Sweep)| {
            let direction = match sweep.direction() {
                SweepDirection::Up => "up",
                SweepDirection::Down => "down",
            };
            let mode = match sweep.mode() {
                SweepMode::Strict => "strict",
                SweepMode::Lenient => "lenient",
            };
            Json::object([
                ("car", car.id.into()),
                ("sweep", direction.into()),
                ("mode", mode.into()),
            ])
        };
        Json::array(swept.filter(|(car, _)| car.idle_listed).map(of))
    }
}

/// What `explain` says of a file that was read.
pub fn explain(source: &Source) -> Said {
    let (file, said) = (&*source.file, explain::of(source));
    let refusal = dispatch_bench::read(&source.bytes).err();
    let status = refusal.map_or("accepted", |_| "refused");
    let lines: Vec<(&str, &str)> = said
        .lines()
        .skip(2)
        .filter_map(|l| l.split_once(": "))
        .collect();
    let sentence = said.lines().nth(1).unwrap_or("");
    let (line, sentence) = placed(file, sentence);
    let warnings = lines.iter().filter(|(name, _)| *name == "warning").count();
    let mut entries = verdict(file, status, refusal, None);
    entries.extend(explain_entries(Some((line, sentence, &lines))));
    let words = match (refusal, line) {
        (Some(refusal), Some(line)) => format!("{}: line {line}: {sentence}", refused(refusal)),
        (Some(refusal), None) => format!("{}: {sentence}", refused(refusal)),
        (None, _) if warnings == 0 => "accepted".into(),
        (None, _) => format!("accepted, {}", number_of(warnings, "warning")),
    };
    Said {
        end: refusal.map_or(End::Done("accepted"), |r| End::Refused(r.number)),
        words: format!("{file}: {words}"),
        entries,
    }
}

pub fn explain_not_read(file: &str, why: &str) -> Said {
    not_read(file, why, explain_entries(None))
}

/// The line of a text that a sentence names, and the sentence without it.
fn placed<'a>(file: &str, sentence: &'a str) -> (Option<usize>, &'a str) {
    let after = sentence
        .strip_prefix(file)
        .and_then(|s| s.strip_prefix(':'));
    let placed = after.and_then(|after| after.split_once(": "));
    match placed.and_then(|(line, words)| Some((line.parse().ok()?, words))) {
        Some((line, words)) => (Some(line), words),
        None => (
            None,
            sentence
                .strip_prefix(&format!("{file}: "))
                .unwrap_or(sentence),
        ),
    }
}

type Explained<'a> = (Option<usize>, &'a str, &'a [(&'a str, &'a str)]);

fn explain_entries(said: Option<Explained>) -> Vec<Entry> {
    let (line, sentence, lines) = said.unwrap_or((None, "", &[]));
    let is_said = |text: &str| (!text.is_empty()).then(|| text.to_string());
    let to_do = lines.iter().find(|(name, _)| *name == "to do");
    let object = |(name, text): &(&str, &str)| {
        Json::object([("name", (*name).into()), ("text", (*text).into())])
    };
    let count =
        |start: &str| said.map(|_| lines.iter().filter(|(n, _)| n.starts_with(start)).count());
    vec![
        Entry::new("line", line),
        Entry::new("sentence", is_said(sentence)),
        Entry::new("to_do", to_do.map(|(_, text)| *text)),
        Entry::new("also", count("also ")),
        Entry::new("warnings", count("warning")),
        Entry::list("said", Json::array(lines.iter().map(object)), None),
    ]
}

/// What `grade` says of what a site sent.
pub fn grade(source: &Source, text: &Path, grades: &Grades) -> Said {
    let (file, said) = (&*source.file, grade::grade(&source.bytes, grades));
    let mut lines = said.lines();
    let (first, second) = (lines.next().unwrap_or(""), lines.next().unwrap_or(""));
    let refusal = refusal_of(first);
    let total = said.lines().find(|line| line.starts_with("total "));
    let (end, status) = match (refusal, first) {
        (Some(refusal), _) => (End::Refused(refusal.number), "refused"),
        (None, "least") => (End::Done("least"), "least"),
        _ => (End::Done("not shown"), "not shown"),
    };
    let is_least = status == "least";
    let sentence = (!is_least).then_some(second);
    let mut entries = verdict(file, status, refusal, None);
    entries.extend(grade_entries(text, total, sentence));
    let words = match total {
        Some(total) => format!("{first}, {total}"),
        None => format!("{first}: {second}"),
    };
    Said {
        end,
        words: format!("{file}, {}: {words}", text.display()),
        entries,
    }
}

pub fn grade_not_read(file: &str, text: &Path, why: &str) -> Said {
    let mut said = not_read(file, why, grade_entries(text, None, None));
    let own = format!("{file}: ");
    let words = said.words.strip_prefix(&own).unwrap_or(&said.words);
    said.words = format!("{file}, {}: {words}", text.display());
    said
}

fn grade_entries(text: &Path, total: Option<&str>, sentence: Option<&str>) -> Vec<Entry> {
    let number = total.and_then(|total| total.strip_prefix("total "));
    let number = number.and_then(|words| words.split(',').next());
    let is_least = total.map(|total| total.contains("the least"));
    vec![
        Entry::new("grades", text.display().to_string()),
        Entry::new("total", number),
        Entry::new("is_least", is_least),
        Entry::new("sentence", sentence),
    ]
}

/// The refusal that a line `refused N at OFFSET` names.
fn refusal_of(line: &str) -> Option<Refusal> {
    let (number, offset) = line.strip_prefix("refused ")?.split_once(" at ")?;
    Some(Refusal {
        number: number.parse().ok()?,
        offset: offset.parse().ok()?,
    })
}

/// What came of many files.
#[derive(Default)]
pub struct Summary {
    files: usize,
    done: Vec<(&'static str, usize)>,
    refused: std::collections::BTreeMap<u32, usize>,
    not_read: usize,
}

impl Summary {
    pub fn add(&mut self, end: &End) {
        self.files += 1;
        match end {
            End::NotRead => self.not_read += 1,
            End::Refused(number) => *self.refused.entry(*number).or_default() += 1,
            End::Done(word) => match self.done.iter_mut().find(|(known, _)| known == word) {
                Some((_, count)) => *count += 1,
                None => self.done.push((word, 1)),
            },
        }
    }

    pub fn has_refused(&self) -> bool {
        !self.refused.is_empty()
    }

    pub fn has_not_read(&self) -> bool {
        self.not_read > 0
    }

    /// `3 sheets: 1 accepted, 1 refused (8: 1), 1 not read`, with these words in front whether or not a file ended so.
    pub fn words(&self, noun: &str, ends: &[&str]) -> String {
        let grouped = |count: usize| crate::numbers::grouped(count as u64);
        let mut parts: Vec<String> = Vec::new();
        for end in ends {
            let found = self.done.iter().find(|(word, _)| word == end);
            parts.push(format!("{} {end}", grouped(found.map_or(0, |f| f.1))));
        }
        let refused: usize = self.refused.values().sum();
        let by_number = self.refused.iter();
        let by_number: Vec<String> = by_number
            .map(|(n, c)| format!("{n}: {}", grouped(*c)))
            .collect();
        parts.push(match refused {
            0 => "0 refused".into(),
            _ => format!("{} refused ({})", grouped(refused), by_number.join(", ")),
        });
        if self.not_read > 0 {
            parts.push(format!("{} not read", grouped(self.not_read)));
        }
        format!("{}: {}", number_of(self.files, noun), parts.join(", "))
    }
}
