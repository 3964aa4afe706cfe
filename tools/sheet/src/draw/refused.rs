//! A refused sheet: its records as a strip, the refused one marked, its fields one by one.

use dispatch_bench::Refusal;
use sheetgen::sheet::HEAD_BITS;

use crate::cut::{Cut, Record};
use crate::explain::{self, Reason};
use crate::fields::KINDS;
use crate::numbers::grouped;
use crate::value;

use super::svg::{self, Anchor, Svg};
use super::{About, EDGE};

/// The width of the strip, and what is left beside it.
const WIDTH: f64 = 1000.0;
const BESIDE: f64 = 120.0;
/// By kind; 0 is for what has no known kind.
const COLOURS: [&str; 9] = [
    "#999999", "#6a3d9a", "#1f78b4", "#33a02c", "#ff7f00", "#b2df8a", "#a6cee3", "#fdbf6f",
    "#7a1f1f",
];

pub fn draw(bytes: &[u8], refusal: Refusal, about: &About) -> String {
    let cut = Cut::new(bytes);
    let Refusal { number, offset } = refusal;
    let reason = explain::reason(&cut, refusal);
    let mut svg = Svg::default();
    about.name_file(&mut svg, WIDTH);
    let title = format!("Refused {number} at {offset}");
    svg.text("title", EDGE, 30.0, Anchor::Start, &title);
    let rule = format!("Rule {number}: {}", refusal.rule());
    let to_do = format!("To do: {}", reason.remedy);
    let says = about.source.and_then(explain::sentence);
    let says = says.unwrap_or_else(|| reason.sentence.clone());
    let mut y = sentence(&mut svg, "fault", 50.0, &says);
    y = sentence(&mut svg, "", y, &rule);
    y = sentence(&mut svg, "", y, &to_do);
    if let Some(foreign) = about.source.and_then(|source| source.foreign) {
        let is = format!("This is {}, and no sheet.", foreign.is);
        y = sentence(&mut svg, "name", y, &is);
    }
    strip(&mut svg, &cut, y + 24.0);
    mark(&mut svg, &cut, &reason, offset, y + 24.0);
    legend(&mut svg, &cut, y + 96.0);
    let bottom = fields(&mut svg, &cut, &reason, y + 128.0);
    svg.finish(WIDTH + 2.0 * EDGE + BESIDE, bottom + EDGE)
}

/// A sentence in as many lines as it needs; answers where the next one stands.
fn sentence(svg: &mut Svg, class: &str, mut y: f64, words: &str) -> f64 {
    for line in svg::wrapped(class, words, WIDTH + BESIDE) {
        svg.text(class, EDGE, y, Anchor::Start, &line);
        y += 16.0;
    }
    y
}

/// Where a bit stands on the strip.
fn x(cut: &Cut, bit: usize) -> f64 {
    EDGE + WIDTH * bit.min(cut.bits()) as f64 / cut.bits().max(1) as f64
}

fn strip(svg: &mut Svg, cut: &Cut, y: f64) {
    svg.rect("field", EDGE, y, WIDTH, 26.0);
    for record in &cut.records {
        let (from, to) = (x(cut, record.at), x(cut, record.body() + record.length));
        let colour = COLOURS.get(record.kind).unwrap_or(&COLOURS[0]);
        let name = KINDS.get(record.kind).unwrap_or(&"");
        let tip = format!("{name} at bit {}", grouped(record.at as u64));
        let class = if to - from > 3.0 { "cell" } else { "" };
        svg.tile((from, y), (to - from, 26.0), colour, class, &tip);
    }
    if cut.is_cut_short() {
        passing(svg, cut, y);
    }
    svg.text("small", EDGE, y - 9.0, Anchor::Start, "bit 0");
    let end = format!("bit {}", grouped(cut.bits() as u64));
    svg.text("small", EDGE + WIDTH, y - 9.0, Anchor::End, &end);
}

/// What is there of the record that passes the end.
fn passing(svg: &mut Svg, cut: &Cut, y: f64) {
    let kind = cut.stated_at(cut.end).map_or(0, |stated| stated.kind);
    let name = KINDS.get(kind).filter(|name| !name.is_empty());
    let (name, at) = (name.unwrap_or(&"record"), grouped(cut.end as u64));
    let from = x(cut, cut.end);
    svg.tipped(&format!("{name} at bit {at}, passes the end"), |svg| {
        svg.rect("hatched", from, y, EDGE + WIDTH - from, 26.0);
    });
}

/// The place of the refusal on the strip.
fn mark(svg: &mut Svg, cut: &Cut, reason: &Reason, offset: u64, y: f64) {
    let at = usize::try_from(offset).unwrap_or(usize::MAX);
    let from = x(cut, at);
    let to = match reason.record {
        Some(record) => x(cut, record.body() + record.length),
        None if at == 0 => x(cut, HEAD_BITS),
        None => x(cut, cut.bits()),
    };
    svg.rect("refused", from, y - 3.0, (to - from).max(4.0), 32.0);
    svg.triangle("here", (from, y + 40.0), (6.0, 6.0), true);
    let (x, anchor) = match from {
        m if m < EDGE + 60.0 => (m - 6.0, Anchor::Start),
        m if m > EDGE + WIDTH - 60.0 => (m + 6.0, Anchor::End),
        m => (m, Anchor::Middle),
    };
    let bit = format!("bit {}", grouped(offset));
    svg.text("fault", x, y + 53.0, anchor, &bit);
}

/// The kinds of record that are there, and what is none.
fn legend(svg: &mut Svg, cut: &Cut, y: f64) {
    let known = |kind: usize| if kind < COLOURS.len() { kind } else { 0 };
    let is_there = |kind: usize| cut.records.iter().any(|record| known(record.kind) == kind);
    let mut x = EDGE;
    let mut entry = |svg: &mut Svg, words: &str, mark: &dyn Fn(&mut Svg, f64)| {
        mark(svg, x);
        svg.text("small", x + 16.0, y, Anchor::Start, words);
        x += 32.0 + svg::width("small", words);
    };
    for (kind, colour) in COLOURS.iter().enumerate().filter(|(k, _)| is_there(*k)) {
        let name = if kind == 0 { "other kind" } else { KINDS[kind] };
        entry(svg, name, &|svg, x| {
            svg.tile((x, y - 9.0), (12.0, 11.0), colour, "cell", "");
        });
    }
    entry(svg, "head, or no record", &|svg, x| {
        svg.rect("field", x, y - 9.0, 12.0, 11.0);
    });
    if cut.is_cut_short() {
        entry(svg, "record that passes the end", &|svg, x| {
            svg.rect("hatched", x, y - 9.0, 12.0, 11.0);
        });
    }
}

/// Each field of the refused record with its value; answers the lower edge.
fn fields(svg: &mut Svg, cut: &Cut, reason: &Reason, top: f64) -> f64 {
    let Some(record) = reason.record else {
        return top;
    };
    let stops = cut.stops();
    let mut rows = front(&record);
    for field in cut.fields(&record) {
        let shown = value::show(field, cut.value(&record, field), &stops);
        rows.push((field.name, record.body() + field.at, shown));
    }
    let mut y = top;
    for (name, bit, shown) in rows {
        let wrong = reason.field == Some(name);
        let class = if wrong { "wrong" } else { "field" };
        svg.rect(class, EDGE, y, 460.0, 18.0);
        svg.text(
            "small",
            EDGE + 6.0,
            y + 12.5,
            Anchor::Start,
            &format!("bit {}", grouped(bit as u64)),
        );
        svg.text("name", EDGE + 70.0, y + 12.5, Anchor::Start, name);
        let class = if wrong { "fault" } else { "" };
        svg.text(
            class,
            EDGE + 200.0,
            y + 12.5,
            Anchor::Start,
            &svg::cropped(class, &shown, 256.0),
        );
        y += 18.0;
    }
    y
}

/// Kind and length, in front of the body.
fn front(record: &Record) -> Vec<(&'static str, usize, String)> {
    let name = KINDS.get(record.kind).filter(|name| !name.is_empty());
    let kind = match name {
        Some(name) => format!("{} ({name})", record.kind),
        None => record.kind.to_string(),
    };
    vec![
        ("kind", record.at, kind),
        ("length", record.at + 6, record.length.to_string()),
    ]
}
