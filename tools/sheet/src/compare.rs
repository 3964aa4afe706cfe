//! Two sheets side by side: what differs in their records and in their passes. Passes are the library's.

use std::collections::{BTreeMap, BTreeSet};

use dispatch_bench::{Refusal, SENTINEL};

use crate::cut::{Cut, Record};
use crate::fields::{Absence, KINDS};
use crate::json::{Json, big};
use crate::matrix::{Matrix, aligned};
use crate::numbers::grouped;
use crate::proved::{self, Proved};
use crate::report::Form;
use crate::source::Source;
use crate::{csv, show, value};

/// Something that differs. A side without it is `None`.
#[derive(Clone, Debug, PartialEq, Eq)]
pub struct Difference {
    /// record, order, pending, decision, cell or sweep.
    pub what: &'static str,
    /// `car 3`, `car 3, stop 5`.
    pub of: String,
    /// The field of a record; empty for a whole record and for what is none.
    pub field: &'static str,
    pub sides: [Option<String>; 2],
}

/// Two sheets, their passes and what differs.
pub struct Comparison<'a> {
    sources: [&'a Source; 2],
    passes: [Result<Matrix, Refusal>; 2],
    pub differences: Vec<Difference>,
    pub proved: Proved,
}

impl<'a> Comparison<'a> {
    pub fn new(first: &'a Source, second: &'a Source) -> Self {
        let sources = [first, second];
        let passes = sources.map(|source| Matrix::new(&source.bytes));
        let mut differences = records(&first.bytes, &second.bytes);
        if let [Ok(one), Ok(two)] = &passes {
            differences.extend(pending(one, two));
            differences.extend(decisions(one, two));
            differences.extend(cells(one, two));
            differences.extend(sweeps(first, second, one, two));
        }
        let totals = [0, 1].map(|k| passes[k].as_ref().ok().map(|m: &Matrix| m.pass.total));
        Self {
            proved: proved::of(&first.bytes, &second.bytes, totals),
            sources,
            passes,
            differences,
        }
    }

    pub fn is_same(&self) -> bool {
        self.sources[0].bytes == self.sources[1].bytes
    }

    /// The cars whose decisions differ.
    pub fn cars(&self) -> Vec<u32> {
        let decisions = self.of("decision");
        let cars = decisions.filter_map(|d| d.of.strip_prefix("car ")?.parse().ok());
        cars.collect()
    }

    fn of(&self, what: &str) -> impl Iterator<Item = &Difference> {
        self.differences.iter().filter(move |d| d.what == what)
    }

    /// What `sheet compare` prints.
    pub fn text(&self, form: Form) -> String {
        match form {
            Form::Words => self.words(),
            Form::Json => format!("{}\n", self.json()),
            Form::Csv => self.rows(),
        }
    }
}

// ---- records

/// What a record is called: by its kind and id, or by the stop or car that it is of.
fn key(cut: &Cut, record: &Record) -> String {
    let id = |name: &str| cut.named(record, name).unwrap_or(0);
    match KINDS
        .get(record.kind)
        .copied()
        .filter(|_| record.has_fields())
    {
        Some("policy") => "policy".into(),
        Some(name @ ("stop" | "line" | "car")) => format!("{name} {}", id("id")),
        Some("aboard") => format!("aboard car {}", id("car")),
        Some("waiting") => format!("waiting at stop {}", id("stop")),
        Some("demand") => format!("demand of stop {}", id("stop")),
        Some("closed") => format!("closed stop {}", id("stop")),
        _ => "record without fields".into(),
    }
}

/// The records of a sheet by kind, id and name, each with its place and its line.
type Keyed = BTreeMap<(usize, u64, String), Vec<(usize, String)>>;

fn keyed(cut: &Cut) -> Keyed {
    let stops = cut.stops();
    let mut keyed = Keyed::new();
    for (k, record) in cut.records.iter().enumerate() {
        let line = show::record_line(cut, record, &stops);
        let key = key(cut, record);
        let id = key.rsplit(' ').next().and_then(|id| id.parse().ok());
        let entry = keyed
            .entry((record.kind, id.unwrap_or(0), key))
            .or_default();
        entry.push((k, line));
    }
    keyed
}

/// What differs in the records, by ids, and where these do not tell, that something does.
fn records(first: &[u8], second: &[u8]) -> Vec<Difference> {
    let cuts = [Cut::new(first), Cut::new(second)];
    let [mut one, mut two] = [keyed(&cuts[0]), keyed(&cuts[1])];
    let (mut found, mut pairs) = (head(&cuts), Vec::new());
    let keys: BTreeSet<_> = one.keys().chain(two.keys()).cloned().collect();
    for key in keys {
        let mut ours = one.remove(&key).unwrap_or_default();
        let mut theirs = two.remove(&key).unwrap_or_default();
        pairs.extend(take_equal(&mut ours, &mut theirs));
        let both = ours.len().min(theirs.len());
        for (a, b) in ours.drain(..both).zip(theirs.drain(..both)) {
            found.extend(fields(&cuts, (a.0, b.0), &key.2));
            pairs.push((a.0, b.0));
        }
        let first = ours
            .into_iter()
            .map(|(_, line)| alone(&key.2, Some(line), None));
        found.extend(first);
        let second = theirs
            .into_iter()
            .map(|(_, line)| alone(&key.2, None, Some(line)));
        found.extend(second);
    }
    found.extend(order(&cuts, &pairs));
    if found.is_empty() && first != second {
        let bits = Some("other bits".to_string());
        found.push(alone("what is no record", bits.clone(), bits));
    }
    found
}

/// The edition, where both sheets have a head.
fn head(cuts: &[Cut; 2]) -> Vec<Difference> {
    let edition = |cut: &Cut| cut.head.map(|head| head.edition.to_string());
    let sides = [edition(&cuts[0]), edition(&cuts[1])];
    match sides[0] == sides[1] {
        true => Vec::new(),
        false => vec![Difference {
            what: "record",
            of: "sheet".into(),
            field: "edition",
            sides,
        }],
    }
}

/// Takes the records that are the same out of both, and answers their places.
fn take_equal(
    ours: &mut Vec<(usize, String)>,
    theirs: &mut Vec<(usize, String)>,
) -> Vec<(usize, usize)> {
    let mut pairs = Vec::new();
    ours.retain(
        |(place, line)| match theirs.iter().position(|other| other.1 == *line) {
            Some(k) => {
                pairs.push((*place, theirs.remove(k).0));
                false
            }
            None => true,
        },
    );
    pairs
}

fn alone(key: &str, first: Option<String>, second: Option<String>) -> Difference {
    Difference {
        what: "record",
        of: key.into(),
        field: "",
        sides: [first, second],
    }
}

/// The fields of a record by name, as a text has them.
fn shown(cut: &Cut, record: &Record) -> Vec<(&'static str, String)> {
    let stops = cut.stops();
    let fields = cut.fields(record).iter();
    let held = fields.map(|field| (field, cut.value(record, field)));
    let used = held.filter(|(f, held)| f.absence != Absence::Unused || held.bits != 0);
    used.map(|(field, held)| (field.name, value::show(field, held, &stops)))
        .collect()
}

/// The fields of two records that differ; of records without fields the whole ones.
fn fields(cuts: &[Cut; 2], places: (usize, usize), key: &str) -> Vec<Difference> {
    let records = [cuts[0].records[places.0], cuts[1].records[places.1]];
    let sides = [0, 1].map(|side| shown(&cuts[side], &records[side]));
    if sides.iter().any(Vec::is_empty) {
        let line = |k: usize| show::record_line(&cuts[k], &records[k], &cuts[k].stops());
        return vec![alone(key, Some(line(0)), Some(line(1)))];
    }
    let mut names: Vec<&'static str> = sides[0].iter().map(|field| field.0).collect();
    let more = sides[1].iter().map(|field| field.0);
    names.extend(more.filter(|name| !sides[0].iter().any(|field| field.0 == *name)));
    let of = |side: usize, name: &str| {
        let found = sides[side].iter().find(|field| field.0 == name);
        found.map(|field| field.1.clone())
    };
    let difference = |name: &'static str| Difference {
        what: "record",
        of: key.into(),
        field: name,
        sides: [of(0, name), of(1, name)],
    };
    let differences = names.into_iter().map(difference);
    differences.filter(|d| d.sides[0] != d.sides[1]).collect()
}

/// The kinds whose records stand in another order.
fn order(cuts: &[Cut; 2], pairs: &[(usize, usize)]) -> Vec<Difference> {
    let of_kind = |kind: usize| {
        let mut places: Vec<(usize, usize)> = pairs.to_vec();
        places.retain(|pair| cuts[0].records[pair.0].kind == kind);
        places.sort_unstable();
        let moved = places.windows(2).any(|two| two[0].1 > two[1].1);
        let name = KINDS[kind];
        moved.then(|| Difference {
            what: "order",
            of: format!("{name} records"),
            field: "",
            sides: [Some("as they stand".into()), Some("another order".into())],
        })
    };
    (1..KINDS.len()).filter_map(of_kind).collect()
}

// ---- passes

fn pending(one: &Matrix, two: &Matrix) -> Vec<Difference> {
    let is_in =
        |matrix: &Matrix, id: &u32| matrix.stops.contains(id).then(|| "pending".to_string());
    let difference = |id: u32| Difference {
        what: "pending",
        of: format!("stop {id}"),
        field: "",
        sides: [is_in(one, &id), is_in(two, &id)],
    };
    let mut stops: Vec<u32> = one.stops.iter().chain(&two.stops).copied().collect();
    stops.sort_unstable();
    stops.dedup();
    let all = stops.into_iter().map(difference);
    all.filter(|d| d.sides[0] != d.sides[1]).collect()
}

/// The idle cars of both, in the order of the first.
fn idle(one: &Matrix, two: &Matrix) -> Vec<u32> {
    let more = two.cars.iter().filter(|id| !one.cars.contains(id));
    one.cars.iter().chain(more).copied().collect()
}

fn decisions(one: &Matrix, two: &Matrix) -> Vec<Difference> {
    let decided = |matrix: &Matrix, car: u32| {
        let row = matrix.cars.iter().position(|id| *id == car)?;
        Some(
            matrix
                .sent(row)
                .map_or("idle".into(), |stop| format!("stop {stop}")),
        )
    };
    let difference = |car: u32| Difference {
        what: "decision",
        of: format!("car {car}"),
        field: "",
        sides: [decided(one, car), decided(two, car)],
    };
    let all = idle(one, two).into_iter().map(difference);
    all.filter(|d| d.sides[0] != d.sides[1]).collect()
}

/// The cells of cars that are idle, and stops that are pending, in both.
fn cells(one: &Matrix, two: &Matrix) -> Vec<Difference> {
    let mut found = Vec::new();
    for car in &one.cars {
        for stop in &one.stops {
            let (Some(a), Some(b)) = (one.cell(*car, *stop), two.cell(*car, *stop)) else {
                continue;
            };
            if a != b {
                found.push(Difference {
                    what: "cell",
                    of: format!("car {car}, stop {stop}"),
                    field: "",
                    sides: [Some(a.to_string()), Some(b.to_string())],
                });
            }
        }
    }
    found
}

/// The sweeps and modes of the idle cars after the pass.
fn sweeps(first: &Source, second: &Source, one: &Matrix, two: &Matrix) -> Vec<Difference> {
    let lines = [first, second].map(|source| dispatch_bench::lines(&source.bytes));
    let after = |lines: &str, car: u32| {
        let start = format!("sweep {car} ");
        let mut sweeps = lines.lines().filter_map(|line| line.strip_prefix(&start));
        sweeps.next().map(String::from)
    };
    let difference = |car: &u32| Difference {
        what: "sweep",
        of: format!("car {car}"),
        field: "",
        sides: [0, 1].map(|side| after(&lines[side], *car)),
    };
    let both = one.cars.iter().filter(|car| two.cars.contains(car));
    let all = both.map(difference);
    all.filter(|d| d.sides[0] != d.sides[1]).collect()
}

// ---- what is printed

/// The most cells that are told in words.
const CELLS: usize = 20;

/// The numbers of a pass, by key and in words.
const NUMBERS: [(&str, &str); 6] = [
    ("cars", "idle cars"),
    ("stops", "pending stops"),
    ("total", "total"),
    ("sent", "cars sent"),
    ("ranked", "pairs ranked"),
    ("held", "held cells"),
];

fn numbers(matrix: &Matrix) -> [u64; 6] {
    let (pass, sent) = (&matrix.pass, matrix.pass.decisions.iter().flatten().count());
    let (cars, stops) = (pass.cars as u64, pass.stops as u64);
    [cars, stops, pass.total, sent as u64, pass.ranked, pass.held]
}

impl Comparison<'_> {
    fn words(&self) -> String {
        let [first, second] = self.sources.map(|source| source.file.clone());
        let mut said = format!("first: {first}\nsecond: {second}\n\nThe sheets\n");
        if self.is_same() {
            said += "  the same in every bit\n";
        }
        let of_sheets = ["record", "order"].iter().flat_map(|what| self.of(what));
        said += &of_sheets.map(|d| self.line(d)).collect::<String>();
        said += "\nThe passes\n";
        said += &indented(&aligned(&self.table()));
        for what in ["pending", "decision", "cell", "sweep"] {
            let lines: Vec<String> = self.of(what).map(|d| self.line(d)).collect();
            let most = if what == "cell" { CELLS } else { lines.len() };
            said += &lines.iter().take(most).cloned().collect::<String>();
            if lines.len() > most {
                let more = grouped((lines.len() - most) as u64);
                said += &format!("  cells: {more} more differ, which --csv and --json list\n");
            }
        }
        said + &format!("\n{}\n", self.proved.sentence)
    }

    /// A difference in a line, with the names that a text gives to cars and stops.
    fn line(&self, d: &Difference) -> String {
        let side = |k: usize| match &d.sides[k] {
            Some(cell) if d.what == "cell" && *cell == SENTINEL.to_string() => "no rank".into(),
            Some(stop) if d.what == "decision" => self.named(stop),
            Some(side) => side.clone(),
            None if d.what == "decision" => "not listed".into(),
            None => "none".into(),
        };
        let of = self.named(&d.of);
        format!("  {}\n", told(d, &of, [side(0), side(1)]))
    }

    /// `car 7, stop 2` with the names, of the first sheet where both have one: `car 7 north, stop 2 lobby`.
    fn named(&self, words: &str) -> String {
        let name = |kind: usize, id: &str| {
            let id = id.trim_end_matches(',').parse().ok()?;
            self.sources
                .iter()
                .find_map(|source| source.names.of(kind, id))
        };
        let (mut said, mut before) = (Vec::new(), "");
        for word in words.split(' ') {
            let kind = KINDS.iter().position(|kind| *kind == before);
            said.push(match kind.and_then(|kind| name(kind, word)) {
                Some(name) if word.ends_with(',') => format!("{} {name},", &word[..word.len() - 1]),
                Some(name) => format!("{word} {name}"),
                None => word.into(),
            });
            before = word;
        }
        said.join(" ")
    }

    /// The verdicts and the numbers of both passes, by key and in words.
    fn numbers(&self) -> Vec<(&'static str, &'static str, [String; 2])> {
        let verdict = |k: usize| match &self.passes[k] {
            Ok(_) => "accepted".to_string(),
            Err(Refusal { number, offset }) => format!("refused {number} at {offset}"),
        };
        let sides = [0, 1].map(|k| self.passes[k].as_ref().ok().map(numbers));
        let mut rows = vec![("status", "verdict", [verdict(0), verdict(1)])];
        for k in 0..NUMBERS.len() {
            let number = |side: Option<[u64; 6]>| side.map_or("-".into(), |n| n[k].to_string());
            let (key, words) = NUMBERS[k];
            rows.push((key, words, sides.map(number)));
        }
        rows
    }

    fn table(&self) -> Vec<Vec<String>> {
        let heading = ["", "first", "second"].map(String::from).to_vec();
        let rows = self.numbers().into_iter();
        let rows = rows.map(|(_, words, [first, second])| vec![words.into(), first, second]);
        [heading].into_iter().chain(rows).collect()
    }

    /// A sheet and the numbers of its pass.
    fn side(&self, k: usize) -> Json {
        let (matrix, refusal) = (self.passes[k].as_ref().ok(), self.passes[k].as_ref().err());
        let status = if matrix.is_some() {
            "accepted"
        } else {
            "refused"
        };
        let mut entries = vec![
            ("file", Json::text(&*self.sources[k].file)),
            ("status", status.into()),
            ("refusal", refusal.map(|r| r.number).into()),
            ("offset", refusal.map(|r| r.offset as usize).into()),
        ];
        for (n, (key, _)) in NUMBERS.into_iter().enumerate() {
            let number = matrix.map(|matrix| numbers(matrix)[n]);
            let json = match key {
                "total" => number.map(big).into(),
                _ => number.map(|number| number as usize).into(),
            };
            entries.push((key, json));
        }
        Json::object(entries)
    }

    fn json(&self) -> Json {
        let difference = |d: &Difference| {
            Json::object([
                ("what", d.what.into()),
                ("of", Json::text(&*d.of)),
                ("field", (!d.field.is_empty()).then_some(d.field).into()),
                ("first", d.sides[0].clone().into()),
                ("second", d.sides[1].clone().into()),
            ])
        };
        Json::object([
            ("first", self.side(0)),
            ("second", self.side(1)),
            ("same_bits", self.is_same().into()),
            (
                "differences",
                Json::array(self.differences.iter().map(difference)),
            ),
            ("claim", self.proved.claim.into()),
            ("holds", self.proved.holds.into()),
            ("sentence", Json::text(&*self.proved.sentence)),
        ])
    }

    /// A row for each number of the passes and for each difference.
    fn rows(&self) -> String {
        let mut rows = csv::row(&["what", "of", "field", "first", "second"]);
        let [first, second] = self.sources.map(|source| source.file.clone());
        rows += &csv::row(&["file", "", "", &first, &second]);
        for (key, _, [first, second]) in self.numbers() {
            let [first, second] = [first, second].map(|side| side.replace('-', ""));
            rows += &csv::row(&["pass", key, "", &first, &second]);
        }
        for d in &self.differences {
            let side = |k: usize| d.sides[k].clone().unwrap_or_default();
            rows += &csv::row(&[d.what, &d.of, d.field, &side(0), &side(1)]);
        }
        rows + &csv::row(&[
            "claim",
            self.proved.claim.unwrap_or(""),
            "",
            &self.proved.sentence,
            "",
        ])
    }
}

fn indented(lines: &str) -> String {
    lines.lines().map(|line| format!("  {line}\n")).collect()
}

/// A difference in words, after its name.
fn told(d: &Difference, of: &str, sides: [String; 2]) -> String {
    let [first, second] = sides;
    match (&d.sides, d.what, d.field) {
        (_, "order", _) => format!("{of}: in another order"),
        ([Some(_), None], "record", "") => format!("{of}, in the first alone: {first}"),
        ([None, Some(_)], "record", "") => format!("{of}, in the second alone: {second}"),
        ([Some(_), None], "pending", _) => format!("{of}: pending in the first alone"),
        ([None, Some(_)], "pending", _) => format!("{of}: pending in the second alone"),
        (_, "sweep", _) => format!("sweep of {of}: {first}, then {second}"),
        (_, "cell", _) => format!("cell of {of}: {first}, then {second}"),
        (_, _, "") => format!("{of}: {first}, then {second}"),
        (_, _, field) => format!("{of}: {field} {first}, then {second}"),
    }
}
