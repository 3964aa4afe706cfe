//! The building's legend: what occurs in it, and nothing else.

use super::aboard;
use super::building::Building;
use super::legend::Legend;
use super::plan::{mark_car, mark_stop};
use super::riders::Way;
use super::shaft::COLOURS;
use super::svg::Svg;
use crate::numbers::grouped_text;
use crate::ramps::Ramps;
use crate::value::show_double;

/// The phases whose fills differ.
const FILLS: [(usize, &str); 6] = [
    (0, "a car, idle"),
    (1, "moving"),
    (2, "repositioning"),
    (3, "door opening or closing"),
    (4, "loading"),
    (6, "stopped"),
];

/// Draws up to a right edge; answers the lower edge.
pub fn draw(svg: &mut Svg, building: &Building, top: f64, right: f64) -> f64 {
    let mut legend = Legend::new(svg, building.left, top, right - building.left);
    let sentences = sentences(svg, building);
    svg.group("key", |svg| {
        stops(svg, &mut legend);
        shafts(svg, &mut legend);
        cars(svg, &mut legend);
        ways(svg, &mut legend);
        if building.plan.is_some() {
            plan(svg, &mut legend);
        }
        legend.sentence(svg, &sentences);
    });
    legend.end()
}

fn stops(svg: &mut Svg, legend: &mut Legend) {
    let ways = [
        (Way::Up, "waits, goes up"),
        (Way::Down, "waits, goes down"),
        (Way::Unknown, "waits, way unknown"),
    ];
    for (way, words) in ways {
        legend.entry_of(svg, &format!("\"{}\"", way.class()), words, |svg, x, y| {
            way.draw(svg, x, y);
        });
    }
    let words = "a call without a rider";
    legend.entry_of(svg, "\"call\"", words, |svg, x, y| {
        svg.circle("call", x, y, 4.0);
    });
}

fn shafts(svg: &mut Svg, legend: &mut Legend) {
    let words = "a stop of the line";
    legend.entry_of(svg, "\"shaft\"", words, |svg, x, y| {
        svg.rect("shaft", x - 8.0, y - 6.0, 16.0, 12.0);
        svg.line("floor", (x - 8.0, y), (x + 8.0, y));
    });
    let words = "a way without a stop of the line";
    legend.entry_of(svg, "\"blind\"", words, |svg, x, y| {
        svg.rect("blind", x - 2.0, y - 6.0, 4.0, 12.0);
    });
    let words = "a folded line";
    legend.entry_of(svg, "\"folded\"", words, |svg, x, y| {
        svg.rect("folded", x - 4.0, y - 6.0, 8.0, 12.0);
    });
    let words = "a closed landing";
    legend.entry_of(svg, "\"closed\"", words, |svg, x, y| {
        svg.rect("closed", x - 8.0, y - 2.0, 16.0, 4.0);
    });
    let words = "a stop barred to the car";
    legend.entry_of(svg, "\"barred\"", words, |svg, x, y| {
        svg.cross("barred", x, y, 3.0);
    });
    legend.entry_of(svg, "\"button\"", "a car call", |svg, x, y| {
        svg.circle("button", x, y, 3.0);
    });
}

/// The fills of a car, its frame, load and lamps.
fn cars(svg: &mut Svg, legend: &mut Legend) {
    let tile = |svg: &mut Svg, (x, y): (f64, f64), colour: &str, class: &str| {
        svg.tile((x - 8.0, y - 6.0), (16.0, 12.0), colour, class, "");
    };
    for (phase, words) in FILLS {
        let colour = COLOURS[phase];
        legend.entry_of(svg, &format!("\"{colour}\""), words, |svg, x, y| {
            tile(svg, (x, y), colour, "car");
        });
    }
    let words = "idle-listed";
    legend.entry_of(svg, "\"car listed\"", words, |svg, x, y| {
        tile(svg, (x, y), "#fff", "car listed");
    });
    legend.entry_of(svg, "\"full\"", "its load", |svg, x, y| {
        svg.rect("gauge", x - 2.0, y - 6.0, 4.0, 12.0);
        svg.rect("full", x - 2.0, y, 4.0, 6.0);
    });
    for (class, words) in [("lit", "a lit lamp"), ("dark", "a dark lamp")] {
        legend.entry_of(svg, &format!("\"{class}\""), words, |svg, x, y| {
            svg.triangle(class, (x, y + 2.0), (3.2, 3.8), true);
        });
    }
}

/// Who is aboard for where, and where cars go.
fn ways(svg: &mut Svg, legend: &mut Legend) {
    let words = "aboard, bound for this stop; the number in a car is of all aboard";
    legend.entry_of(svg, "\"aboard\"", words, aboard::mark);
    let words = "so many aboard, bound for this stop";
    legend.entry_of(svg, "\"bound halo\"", words, |svg, x, y| {
        svg.text("bound", x, y + 3.0, super::Anchor::Middle, "9");
    });
    let words = "where a moving car goes";
    legend.entry_of(svg, "\"going\"", words, |svg, x, y| {
        svg.line("going", (x, y + 6.0), (x, y));
        svg.triangle("ahead", (x, y), (3.5, 5.0), true);
    });
    legend.entry_of(svg, "\"target\"", "the car's target", |svg, x, y| {
        svg.rect("target", x - 3.4, y - 3.4, 6.8, 6.8);
    });
    let words = "sent there";
    legend.entry_of(svg, "\"head\"", words, |svg, x, y| {
        svg.line("arrow", (x, y + 6.0), (x, y));
        svg.triangle("head", (x, y + 1.0), (6.0, 6.0), true);
    });
    let words = "sent aside, to a stop at its height";
    legend.entry_of(svg, "\"head aside\"", words, |svg, x, y| {
        svg.line("arrow", (x - 6.0, y), (x, y));
        svg.pointer("head", (x, y), (6.0, 6.0));
    });
    let words = "sent to the stop where it is";
    legend.entry_of(svg, "<circle class=\"arrow\"", words, |svg, x, y| {
        svg.circle("arrow", x, y, 4.0);
    });
}

/// The marks of the plan.
fn plan(svg: &mut Svg, legend: &mut Legend) {
    legend.entry_of(svg, "\"served\"", "in the plan, a stop", mark_stop);
    for (class, words) in [("car listed", "an idle-listed car"), ("car", "another car")] {
        legend.entry_of(svg, &format!("\"{class}\""), words, |svg, x, y| {
            mark_car(svg, (x, y), class == "car listed", "");
        });
    }
    legend.entry_of(svg, "\"way\"", "moves to this stop", |svg, x, y| {
        svg.line("way", (x - 8.0, y), (x + 8.0, y));
    });
    let words = "sent to this stop; not the way it runs";
    legend.entry_of(svg, "\"sent\"", words, |svg, x, y| {
        svg.line("sent", (x - 8.0, y), (x, y));
        svg.circle("goal", x + 3.0, y, 4.0);
    });
}

/// What words beside a stop mean, by a part of them.
const MEANINGS: [(&str, &str); 4] = [
    (
        "riding",
        "N riding: so many are on their way to the stop in cars.",
    ),
    (
        "not pending",
        "Not pending: the stop has demand, but it is closed, cars on their way cover it, or no line serves it.",
    ),
    ("closed", "Closed: no car is sent to the stop."),
    (
        "aboard for it",
        "N aboard for it: so many in idle-listed cars are bound for a closed stop.",
    ),
];

/// What the words of the building say, of those that are there.
fn sentences(svg: &Svg, building: &Building) -> String {
    let mut sentences: Vec<String> = Vec::new();
    if !building.heights.is_to_scale {
        let words = "Stops in the order of their positions; distances are not to scale.";
        sentences.push(words.into());
    }
    if building.sheet.edition == 2 {
        sentences.push(match &building.plan {
            None => LEVEL.into(),
            Some(plan) => sideways(plan.is_to_scale()),
        });
    }
    let words = building.words();
    let said = |part: &str| words.iter().any(|words| words.contains(part));
    let meanings = MEANINGS.iter().filter(|(part, _)| said(part));
    sentences.extend(meanings.map(|(_, words)| String::from(*words)));
    if svg.has("\"waiting") && !building.in_words {
        sentences.push(RIDERS.into());
    }
    let is_refused = svg.has(">refused 21<");
    let is_timed = svg.has(" s</text>") || is_refused;
    if let Some(ramps) = building.about.ramps.filter(|_| is_timed) {
        sentences.push(of_seconds(ramps, building.sheet.edition, is_refused));
    }
    sentences.join(" ")
}

const LEVEL: &str = "Edition 2: behind a stop's position stands its second coordinate, across; here all of them are 0.";
const RIDERS: &str = "Of each waiting rider the destination, the ticks of waiting and the required line stand under the pointer.";

fn sideways(is_to_scale: bool) -> String {
    let plan = match is_to_scale {
        true => "as the plan has it",
        false => "which in the plan stand in order, their distances not to scale",
    };
    format!(
        "Edition 2: behind a stop's position stands its second coordinate, across, {plan}. A distance is the sum of the differences of both; up, down and on the way are matters of the position alone."
    )
}

/// What the seconds at the arrows are of.
fn of_seconds(ramps: &Ramps, edition: u8, is_refused: bool) -> String {
    let said = |value: f64| grouped_text(&show_double(value.to_bits()));
    let (up, down) = (said(ramps.acceleration), said(ramps.deceleration));
    let speed = said(ramps.speed);
    let over = match edition {
        2 => " over the distance of both coordinates",
        _ => "",
    };
    let refused = match is_refused {
        true => " Refused 21: the run is longer than 1,000,000.",
        false => "",
    };
    format!(
        "N s: the seconds of the run from where the car is to the stop{over}, from speed {speed}, by its max speed, acceleration {up} and deceleration {down}.{refused}"
    )
}
