//! Drawings of the stored passes and of refused sheets.

mod common;

use common::{files, here, name, run, text};
use dispatch_bench::{CEILING, Pass, Reason, SENTINEL, Terms, Why, choose, pass, why};
use sheet::draw::{About, draw, html};
use sheetgen::generate::{self, Profile};
use sheetgen::rng::Rng;
use sheetgen::sheet::{NO_LIMIT, SCAN, mask_bit};
use sheetgen::{Car, Sheet};

/// Numbers of a stored answer, most significant byte first.
struct Answer<'a>(&'a [u8]);

impl Answer<'_> {
    fn number(&mut self, bytes: usize) -> u64 {
        let (number, left) = self.0.split_at(bytes);
        self.0 = left;
        number.iter().fold(0, |n, b| n << 8 | u64::from(*b))
    }

    fn is(&mut self, pass: &Pass) -> bool {
        let numbers = [
            self.number(1),
            self.number(1),
            self.number(8),
            self.number(2),
        ];
        let decisions: Vec<u64> = (0..numbers[0]).map(|_| self.number(4)).collect();
        let cells = numbers[0] * numbers[0].max(numbers[1]);
        let matrix: Vec<u64> = (0..cells).map(|_| self.number(8)).collect();
        let sweeps: Vec<u64> = (0..self.number(1)).map(|_| self.number(1)).collect();
        let _built = self.number(1);
        let stop = |d: &dispatch_bench::Decision| d.map_or(0, |id| u64::from(id.get()));
        let found = [pass.cars as u64, pass.stops as u64, pass.total, pass.held];
        let codes = pass.sweeps.iter().map(|sweep| u64::from(sweep.code()));
        numbers == found
            && decisions == pass.decisions.iter().map(stop).collect::<Vec<_>>()
            && matrix == pass.matrix
            && sweeps == codes.collect::<Vec<_>>()
    }
}

fn count(svg: &str, part: &str) -> usize {
    svg.matches(part).count()
}

/// Tags are closed in the order in which they are opened, and no coordinate is missing.
fn is_well_formed(svg: &str) {
    let mut open: Vec<&str> = Vec::new();
    for tag in svg.split('<').skip(1) {
        let (tag, _) = tag.split_once('>').unwrap();
        if let Some(closed) = tag.strip_prefix('/') {
            assert_eq!(open.pop(), Some(closed));
        } else if !tag.ends_with('/') {
            open.push(tag.split(' ').next().unwrap());
        }
    }
    assert!(open.is_empty());
    assert!(!svg.contains("NaN") && !svg.contains("\"inf"));
    assert!(!svg.contains("<title></title>"));
}

/// A drawing and its legends: what stands in the groups of class key.
fn apart(svg: &str) -> (String, Vec<String>) {
    let mut parts = svg.split("<g class=\"key\">\n");
    let mut kept = parts.next().unwrap().to_string();
    let mut legends = Vec::new();
    for part in parts {
        let mut depth = 1;
        let end = part.lines().take_while(|line| {
            depth += usize::from(line.starts_with("<g"));
            depth -= usize::from(*line == "</g>");
            depth > 0
        });
        let legend: String = end.map(|line| format!("{line}\n")).collect();
        let rest = part.strip_prefix(&legend).unwrap();
        kept += rest.strip_prefix("</g>\n").unwrap();
        legends.push(legend);
    }
    (kept, legends)
}

/// What is drawn beside the legends.
fn without_legends(svg: &str) -> String {
    apart(svg).0
}

/// The texts of a drawing, with blanks between: a sentence may stand in two lines.
fn words(svg: &str) -> String {
    let texts = svg.split("<text ").skip(1);
    let texts = texts.map(|text| text.split_once('>').unwrap().1.split_once('<').unwrap().0);
    texts.collect::<Vec<_>>().join(" ")
}

/// The words of each cell, row by row, its number, and the lines below them.
fn cells(svg: &str) -> Vec<(&str, &str, &str)> {
    let tips = svg.split("<title>").skip(1);
    let tips = tips.filter_map(|tip| tip.split_once("</title></rect>"));
    tips.filter_map(|(tip, _)| tip.split_once(" (cell "))
        .map(|(words, number)| (words, number.split_once(')').unwrap()))
        .map(|(words, (number, below))| (words, number, below))
        .collect()
}

/// Why a cell has no rank, by the records and by the pass without a limit. The rest is the library's to say.
fn reason(sheet: &Sheet, car: &Car, column: &str, lifted: u64) -> usize {
    let Some(id) = column.strip_prefix("stop ") else {
        return 0;
    };
    let is_it = |stop: &sheetgen::Stop| stop.id.to_string() == id;
    let bit = mask_bit(sheet.stops.iter().position(is_it).unwrap());
    let line = sheet.lines.iter().find(|line| line.id == car.line).unwrap();
    match (line.mask & bit, car.restricted & bit) {
        (0, _) => 1,
        (_, 0) if lifted < SENTINEL => 3,
        (_, 0) => 4,
        _ => 2,
    }
}

/// How a cell's words begin, by that reason.
const REASONS: [&str; 5] = [
    "no rank, a spare column, no stop",
    "no rank, the car's line does not serve the stop",
    "no rank, the stop is barred to the car",
    "no rank, cut by the candidate limit, a rank without it: ",
    "no rank, ",
];

/// How the words of a cell of the last kind end, by the library's reason.
fn other(why: Why, strategy: u8) -> &'static str {
    match why {
        Why::Unranked(Reason::Cut) => "cut by the candidate limit, none without it either",
        Why::Unranked(Reason::PassedBy) => "the loaded car passes the stop by",
        Why::Unranked(Reason::Full) => "the car is full",
        Why::Unranked(Reason::Nobody) => "nobody there can board the car",
        Why::Unranked(Reason::OffPath) => "off the path of the riders aboard",
        Why::Unranked(Reason::NoRank) if strategy == SCAN => "behind the sweep",
        Why::Unranked(Reason::NoRank) => "the car's speed is 0",
        _ => panic!("{why:?}"),
    }
}

fn asked(bytes: &[u8], car: &Car, column: &str) -> Why {
    let stop = column.strip_prefix("stop ").unwrap().parse().unwrap();
    why(bytes, car.id, stop).unwrap()
}

/// The first two lines below a cost have its terms, rounded; under SCAN there are none.
fn has_terms(below: &str, why: Why) {
    let line = below.lines().skip(1).take(2).collect::<Vec<_>>().join(" ");
    let Some(terms) = terms(why) else {
        assert!(!line.starts_with("travel "), "{line}");
        return;
    };
    let numbers = line.split([' ', ',', ':']);
    let numbers: Vec<f64> = numbers.filter_map(|word| word.parse().ok()).collect();
    let is_near = |(a, b): (&f64, &f64)| (a - b).abs() <= 0.0006 + 0.006 * b.abs();
    let are_near = numbers.iter().zip(&terms).all(is_near);
    assert!(
        numbers.len() == terms.len() && are_near && line.starts_with("travel "),
        "{line}: {terms:?}"
    );
}

/// The terms that stand under a cell's cost.
fn terms(why: Why) -> Option<Vec<f64>> {
    match why {
        Why::Ranked(Terms::Etd {
            travel,
            delay,
            doors,
            bonus,
            sum,
            squares,
            waited,
            ..
        }) => Some(vec![travel, delay, doors, bonus, sum, squares, waited]),
        Why::Ranked(Terms::Rsr {
            travel,
            eta,
            direction,
            car_call,
            load,
            waited,
            age,
            ..
        }) => Some(vec![travel, eta, direction, car_call, load, waited, age]),
        _ => None,
    }
}

/// Each cell says its number, and why it has no rank where it has none; answers how often each reason does.
fn explained(svg: &str, sheet: &Sheet, answered: &Pass) -> [usize; 5] {
    let mut without = sheet.clone();
    without.policy.limit = NO_LIMIT;
    let lifted = pass(&without.write()).unwrap().matrix;
    let idle: Vec<&Car> = sheet.cars.iter().filter(|car| car.idle).collect();
    let bytes = sheet.write();
    let mut seen = [0; 5];
    for (k, (words, number, below)) in cells(svg).into_iter().enumerate() {
        let value = answered.matrix[k];
        assert_eq!(number, value.to_string());
        let (place, said) = words.split_once(": ").unwrap();
        let (_, column) = place.split_once(", ").unwrap();
        if value < SENTINEL {
            let cost = match said.strip_prefix("&gt; ") {
                Some(above) => above.strip_suffix(", held at the ceiling").unwrap(),
                None => said,
            };
            assert!(cost.parse::<f64>().is_ok(), "{words}");
            assert_eq!(lifted[k], value);
            has_terms(below, asked(&bytes, idle[k / answered.columns()], column));
            continue;
        }
        let car = idle[k / answered.columns()];
        let reason = reason(sheet, car, column, lifted[k]);
        match reason {
            3 => assert!(said.starts_with(REASONS[3]), "{words}"),
            4 => {
                let why = asked(&bytes, car, column);
                let other = other(why, sheet.policy.strategy);
                assert_eq!(said, format!("{}{other}", REASONS[4]));
            }
            _ => assert_eq!(said, REASONS[reason]),
        }
        seen[reason] += 1;
    }
    seen
}

/// The answered total is drawn whole, with what it holds.
fn has_total(svg: &str, pass: &Pass) {
    let sent = pass.decisions.iter().flatten().count();
    let idle = pass.cars - sent;
    let costs = pass.total - SENTINEL * idle as u64;
    let of_costs = format!("{costs} for the cost (1,000,000 for 1)");
    let holds = match (sent, idle) {
        (0, 0) => "there is no idle car".into(),
        (_, 0) => of_costs,
        (0, 1) => format!("{SENTINEL} for the car that stays idle"),
        (0, _) => format!("{idle} × {SENTINEL} for the cars that stay idle"),
        (_, 1) => format!("{of_costs} + {SENTINEL} for the car that stays idle"),
        _ => format!("{of_costs} + {idle} × {SENTINEL} for the cars that stay idle"),
    };
    let total = format!("Answered total {}: {holds}. Held cells: ", pass.total);
    assert!(words(svg).contains(&total), "{total}");
}

/// The title block says how many cells are held; each of them has its bar and its words, and they are cells at the ceiling.
fn has_held(svg: &str, pass: &Pass) {
    let number = match pass.held {
        0 => "none".into(),
        held => held.to_string(),
    };
    let said = format!("Held cells: {number}. Pending");
    assert!(words(svg).contains(&said), "{said}");
    let legends = svg.matches(">held at the ceiling, the cost is larger<");
    assert_eq!(legends.count(), usize::from(pass.held > 0));
    let svg = without_legends(svg);
    assert_eq!(count(&svg, "<rect class=\"held\"") as u64, pass.held);
    let ceiling = CEILING.to_string();
    let held = cells(&svg).into_iter().filter(|cell| {
        let is = cell.0.contains(": &gt; 2.81e8, held at the ceiling");
        assert!(!is || cell.1 == ceiling, "{cell:?}");
        is
    });
    assert_eq!(held.count() as u64, pass.held);
}

/// The pending stops that no car is sent to, in words.
fn left(bytes: &[u8], answered: &Pass) -> String {
    let sent = |stop: &u32| {
        answered
            .decisions
            .iter()
            .flatten()
            .any(|id| id.get() == *stop)
    };
    let mut pending = dispatch_bench::pending(bytes).unwrap();
    pending.retain(|stop| !sent(stop));
    let pending: Vec<String> = pending.iter().map(u32::to_string).collect();
    match pending.len() {
        0 => "none".into(),
        1 => format!("stop {}", pending[0]),
        many => format!("{many}, the stops {}", pending.join(", ")),
    }
}

/// The cars that are sent by the rule of ties: without the cell that was chosen for one the library answers the same total.
fn tied(bytes: &[u8], answered: &Pass) -> Vec<String> {
    let sheet = Sheet::of_accepted(bytes);
    let idle = sheet.cars.iter().filter(|car| car.idle);
    let (cars, columns) = (answered.cars, answered.columns());
    let chosen = choose(cars, columns, &answered.matrix).unwrap().columns;
    let tied = idle.zip(&chosen).enumerate().filter(|(row, (_, column))| {
        let mut without = answered.matrix.clone();
        let cell = &mut without[row * columns + **column as usize];
        let is_sent = std::mem::replace(cell, SENTINEL) < SENTINEL;
        is_sent && choose(cars, columns, &without).unwrap().total == answered.total
    });
    tied.map(|(_, (car, _))| format!("car {}", car.id))
        .collect()
}

/// The title block names the pending stops that no car is sent to, and the cars that are sent by the rule of ties, whose cells have a sign.
/// Answers how many there are.
fn has_notes(svg: &str, bytes: &[u8], answered: &Pass) -> usize {
    let (left, tied) = (left(bytes, answered), tied(bytes, answered));
    let sent = answered.decisions.iter().flatten().count();
    let ties = match tied.len() {
        0 => "none".into(),
        many => format!("{many} of {sent}, {}", tied.join(", ")),
    };
    let said = format!(
        "Pending stops that no car is sent to: {left}. Decided by the rule of ties: {ties}."
    );
    assert!(words(svg).contains(&said), "{said}");
    let svg = without_legends(svg);
    assert_eq!(count(&svg, "<circle class=\"tie\""), tied.len());
    let details = count(&svg, "by the rule of ties: another choice");
    assert_eq!(details, tied.len());
    tied.len()
}

/// Who is aboard each car and for where.
fn has_riders(svg: &str, sheet: &Sheet) {
    for car in &sheet.cars {
        let riders: Vec<_> = sheet.aboard.iter().filter(|a| a.car == car.id).collect();
        let tip = match riders.len() {
            0 => "\nnobody aboard<".into(),
            many => format!("\n{many} aboard: "),
        };
        let at = format!("<title>car {} at {}", car.id, car.position);
        let (_, said) = svg.split_once(&at).unwrap();
        let (said, _) = said.split_once("/title>").unwrap();
        assert!(said.contains(&tip), "{at}{said}");
        for to in &sheet.stops {
            let bound = riders.iter().filter(|r| r.destination == Some(to.id));
            let who = match bound.count() {
                0 => continue,
                1 => "1 rider".into(),
                many => format!("{many} riders"),
            };
            let tip = format!("<title>{who} aboard car {} to {}<", car.id, to.id);
            assert_eq!(count(svg, &tip), 1, "{tip}");
        }
    }
    let pairs: std::collections::HashSet<(u32, u32)> = sheet
        .aboard
        .iter()
        .filter_map(|a| Some((a.car, a.destination?)))
        .filter(|(_, to)| sheet.stops.iter().any(|stop| stop.id == *to))
        .collect();
    assert_eq!(count(svg, " aboard car "), pairs.len());
}

/// A car's target, where it is going, and the ring where it is sent to the stop where it is.
fn has_ways(svg: &str, sheet: &Sheet, answered: &Pass) {
    let stop = |id: Option<u32>| sheet.stops.iter().find(|stop| Some(stop.id) == id);
    let targets = sheet.cars.iter().filter(|car| stop(car.target).is_some());
    assert_eq!(count(svg, "<rect class=\"target\""), targets.count());
    let moves = |car: &&Car| {
        let to = stop(Some(car.stop).filter(|id| *id != 0));
        to.is_some_and(|to| to.position != car.position)
    };
    let going = sheet.cars.iter().filter(moves).count();
    assert_eq!(count(svg, "<line class=\"going\""), going);
    let idle = sheet.cars.iter().filter(|car| car.idle);
    let rings = idle.zip(&answered.decisions).filter(|(car, id)| {
        let to = stop(id.map(|id| id.get()));
        to.is_some_and(|to| (car.position, car.across) == (to.position, to.across))
    });
    assert_eq!(count(svg, "<circle class=\"arrow\""), rings.count());
}

/// Each shaft has a stroke at each stop of its line and at no other; each line has one over its shafts, and each stop one in the plan.
fn has_stops(svg: &str, sheet: &Sheet) {
    let shafts = sheet.lines.iter().map(|line| {
        let cars = sheet.cars.iter().filter(|car| car.line == line.id);
        let stops = (0..sheet.stops.len()).filter(|k| line.mask & mask_bit(*k) != 0);
        cars.count().max(1) * stops.count()
    });
    let planned = usize::from(sheet.runs_sideways()) * sheet.stops.len();
    let strokes = shafts.sum::<usize>() + sheet.lines.len() + planned;
    assert_eq!(count(svg, "<line class=\"floor\""), strokes);
}

/// Legends are shorter than what they explain, and have no mark and no word that the drawing has not.
fn has_short_legends(svg: &str) {
    let (drawing, legends) = apart(svg);
    let heights = |part: &str| {
        let texts = part.split("<text ").skip(1);
        let ys = texts.map(|text| {
            text.split_once(" y=\"")
                .unwrap()
                .1
                .split_once('"')
                .unwrap()
                .0
        });
        let ys: Vec<f64> = ys.map(|y| y.parse().unwrap()).collect();
        let most = ys.iter().copied().fold(f64::MIN, f64::max);
        most - ys.iter().copied().fold(f64::MAX, f64::min)
    };
    let all: f64 = legends.iter().map(|legend| heights(legend)).sum();
    assert!(
        all < heights(&drawing) / 2.0,
        "{all} of {}",
        heights(&drawing)
    );
    for legend in &legends {
        for mark in legend.split("<g class=\"legend\">").skip(1) {
            let (mark, _) = mark.split_once("</g>").unwrap();
            for class in mark.split("class=\"").skip(1) {
                let (class, _) = class.split_once('"').unwrap();
                assert!(drawing.contains(&format!("class=\"{class}")), "{class}");
            }
        }
    }
}

/// The drawing of a pass: the chosen columns' total is the answered one, each sent car has its arrow, each idle
/// car its row, each rider a mark. Answers how often each reason for no rank is given.
fn drawn(bytes: &[u8], pass: &Pass, file: &str) -> [usize; 5] {
    let choice = choose(pass.cars, pass.columns(), &pass.matrix).unwrap();
    assert_eq!(choice.total, pass.total, "{file}");
    let svg = draw(bytes, &About::default());
    let folder = std::path::Path::new(env!("CARGO_TARGET_TMPDIR"));
    std::fs::write(folder.join(format!("{file}.svg")), &svg).unwrap();
    is_well_formed(&svg);
    has_total(&svg, pass);
    has_held(&svg, pass);
    has_notes(&svg, bytes, pass);
    has_short_legends(&svg);
    let svg = without_legends(&svg);
    let sheet = Sheet::of_accepted(bytes);
    has_riders(&svg, &sheet);
    has_ways(&svg, &sheet, pass);
    has_stops(&svg, &sheet);
    let sent = pass.decisions.iter().flatten().count();
    let arrows = count(&svg, "<line class=\"arrow\"") + count(&svg, "<circle class=\"arrow\"");
    assert_eq!(arrows, sent, "{file}");
    assert_eq!(count(&svg, "<rect class=\"chosen\""), sent, "{file}");
    assert_eq!(count(&svg, "<rect class=\"unsent\""), pass.cars - sent);
    let stay = svg
        .lines()
        .filter(|line| line.starts_with("<text class=\"name\""));
    let stay = stay.filter(|line| line.contains(">stays idle<"));
    assert_eq!(stay.count(), pass.cars - sent);
    assert_eq!(cells(&svg).len(), pass.cars * pass.columns(), "{file}");
    assert_eq!(count(&svg, "a waiting rider, "), sheet.waiting.len());
    explained(&svg, &sheet, pass)
}

fn add(seen: &mut [usize; 5], more: [usize; 5]) {
    seen.iter_mut().zip(more).for_each(|(all, one)| *all += one);
}

/// The linked pass answers what is stored, and is drawn so.
#[test]
fn stored_passes() {
    let list = std::fs::read(here("../../crates/replay_passes/stdin")).unwrap();
    let mut left = &list[..];
    let (mut passes, mut seen) = (0, [0; 5]);
    while !left.is_empty() {
        let case = common::stored(left);
        let mut answer = Answer(case.after);
        let pass = pass(case.sheet).unwrap();
        assert!(answer.is(&pass), "pass {passes}");
        add(
            &mut seen,
            drawn(case.sheet, &pass, &format!("pass_{passes:03}")),
        );
        left = answer.0;
        passes += 1;
    }
    assert!(passes > 100, "{passes}");
    assert!(seen.iter().all(|often| *often > 10), "{seen:?}");
}

/// Sheets with a limit, and of every other profile that is accepted.
#[test]
fn generated_passes() {
    let profiles = [Profile::Limits, Profile::Valid, Profile::Extreme];
    let mut seen = [0; 5];
    for profile in profiles {
        for index in 0..40 {
            let bytes = generate::generate(profile, 17, index);
            let pass = pass(&bytes).unwrap();
            add(
                &mut seen,
                drawn(&bytes, &pass, &format!("{profile:?}_{index}")),
            );
        }
    }
    assert!(seen.iter().all(|often| *often > 20), "{seen:?}");
}

/// Sheets with cells at the ceiling, held and not: where a pass has both, which are held is asked of each by itself.
#[test]
fn passes_at_the_ceiling() {
    let (mut held, mut both) = (0, 0);
    for index in 0..120 {
        let bytes = generate::generate(Profile::Ceiling, 17, index);
        let pass = pass(&bytes).unwrap();
        drawn(&bytes, &pass, &format!("Ceiling_{index}"));
        let ceiling = pass.matrix.iter().filter(|cell| **cell == CEILING).count();
        held += usize::from(pass.held > 0);
        both += usize::from(pass.held > 0 && pass.held < ceiling as u64);
    }
    assert!(held > 30 && both > 5, "{held} {both}");
}

/// Sheets with second coordinates have a plan with every stop and car, and a mark for each decision; level ones have none.
#[test]
fn passes_of_edition_2() {
    let mut plans = 0;
    for (profile, most) in [(Profile::Sideways, 80), (Profile::Level, 20)] {
        for index in 0..most {
            let bytes = generate::generate(profile, 17, index);
            let pass = pass(&bytes).unwrap();
            drawn(&bytes, &pass, &format!("{profile:?}_{index}"));
            let sheet = Sheet::of_accepted(&bytes);
            let svg = without_legends(&draw(&bytes, &About::default()));
            let sent = pass.decisions.iter().flatten().count();
            let planned = usize::from(sheet.runs_sideways());
            for stop in &sheet.stops {
                let (id, position, across) = (stop.id, stop.position, stop.across);
                let tip = format!("<title>stop {id} at {position}, across {across}");
                assert_eq!(count(&svg, &format!("{tip}<")), planned, "{index}");
                assert_eq!(count(&svg, &format!("{tip}\n")), 1, "{index}");
            }
            assert_eq!(
                count(&svg, "<line class=\"sent\""),
                planned * sent,
                "{index}"
            );
            for car in &sheet.cars {
                let (id, position, across) = (car.id, car.position, car.across);
                let tip = format!("<title>car {id} at {position}, across {across}");
                assert_eq!(count(&svg, &format!("{tip}<")), planned, "{index}");
                assert_eq!(count(&svg, &format!("{tip}\n")), 1, "{index}");
            }
            let others = sheet.cars.iter().any(|car| !car.idle);
            let words = draw(&bytes, &About::default());
            let said = usize::from(planned > 0 && others);
            assert_eq!(count(&words, ">another car<"), said, "{index}");
            plans += planned;
        }
    }
    assert!(plans > 60, "{plans}");
}

/// The stored drawing of shuttles: the plan, the second coordinates in words, and SCAN's words of a distance.
#[test]
fn sideways_as_stored() {
    let path = here("examples/sideways.txt");
    let written = run(&["write", path.to_str().unwrap()], b"");
    let drawn = text(&run(&["draw", "-"], &written.stdout).stdout);
    let stored = text(&std::fs::read(path.with_extension("svg")).unwrap());
    assert_eq!(drawn, stored);
    for part in [
        ">plan<",
        ">2 at 20, 0<",
        ">across -2.5<",
        "<title>stop 3 at 20, across 40<",
        "sent aside, to a stop at its height",
        "<path class=\"head aside\"",
        "<line class=\"way\"",
    ] {
        assert!(drawn.contains(part), "{part}");
    }
    let mut sheet = Sheet::example();
    sheet.edition = 2;
    let drawn = draw(&sheet.write(), &About::default());
    assert!(drawn.contains("here all of them are 0") && !drawn.contains(">plan<"));
    assert!(drawn.contains("the sum of the differences of both"));
}

/// Every table full: the size and form of the largest drawing.
#[test]
fn full_tables() {
    let mut rng = Rng::new(3, 0, 0);
    let mut sheet = generate::accepted(Profile::Full, &mut rng);
    let floors = sheet.stops.iter_mut().enumerate();
    floors.for_each(|(k, stop)| stop.position = 3.5 * k as f64);
    for car in &mut sheet.cars {
        (car.idle, car.position) = (true, rng.between(0.0, 200.0));
    }
    let bytes = sheet.write();
    let pass = pass(&bytes).unwrap();
    assert_eq!(pass.cars, 32);
    drawn(&bytes, &pass, "full");
}

/// The stored drawing that has every mark.
#[test]
fn small_rsr_as_stored() {
    let path = here("examples/small_rsr.txt");
    let written = run(&["write", path.to_str().unwrap()], b"");
    let drawn = text(&run(&["draw", "-"], &written.stdout).stdout);
    let stored = text(&std::fs::read(here("examples/small_rsr.svg")).unwrap());
    assert_eq!(drawn, stored);
    let svg = without_legends(&drawn);
    for part in [
        "fill=\"url(#hatch)\"",
        "<line class=\"barred\"",
        "<circle class=\"button\"",
        "<rect class=\"target\"",
        "<line class=\"going\"",
        "<path class=\"aboard\"",
        ">2 aboard<",
        "<path class=\"lit\"",
        "<path class=\"dark\"",
        "<circle class=\"call\"",
        "<circle class=\"arrow\"",
        "<line class=\"arrow\"",
        "<rect class=\"chosen\"",
        "<rect class=\"unsent\"",
        "a waiting rider, up: to 6, 120 ticks, line 2, weight 75<",
        "a waiting rider, down: to 1, 180 ticks, weight 70<",
        "a waiting rider, unknown: 240 ticks, weight 72<",
        ">2 riding, not pending<",
        "3 sent at a cost of 2.16; 1 stays idle<",
    ] {
        assert!(svg.contains(part), "{part}");
    }
    let pass = pass(&written.stdout).unwrap();
    let sheet = Sheet::of_accepted(&written.stdout);
    assert!(
        explained(&svg, &sheet, &pass)
            .iter()
            .all(|often| *often > 0)
    );
}

/// The load term: what each of three cars costs with it, and that the legend has it.
#[test]
fn load_weight_as_stored() {
    let path = here("examples/load_weight.txt");
    let written = run(&["write", path.to_str().unwrap()], b"");
    let drawn = text(&run(&["draw", "-"], &written.stdout).stdout);
    let stored = text(&std::fs::read(path.with_extension("svg")).unwrap());
    assert_eq!(drawn, stored);
    let costs: Vec<&str> = cells(&drawn).into_iter().map(|cell| cell.0).collect();
    let ranked = [
        "car 1, stop 3: 4.01",
        "car 2, stop 3: 2.51",
        "car 3, stop 3: 3.76",
    ];
    assert!(ranked.iter().all(|cost| costs.contains(cost)), "{costs:?}");
    assert!(drawn.contains("the load of a car"));
}

/// Three stops at the ceiling: two are held and one rounds to it, and the car goes to the lowest, which is the farthest. With a lower weight
/// none is held, and it goes to the nearest.
#[test]
fn ceiling_as_stored() {
    let path = here("examples/ceiling.txt");
    let sheet = text(&std::fs::read(&path).unwrap());
    let drawn = |sheet: &str| {
        let written = run(&["write", "-"], sheet.as_bytes());
        text(&run(&["draw", "-"], &written.stdout).stdout)
    };
    let svg = drawn(&sheet);
    let stored = text(&std::fs::read(path.with_extension("svg")).unwrap());
    assert_eq!(svg, stored);
    let costs: Vec<&str> = cells(&svg).into_iter().map(|cell| cell.0).collect();
    let wanted = [
        "car 1, stop 1: &gt; 2.81e8, held at the ceiling",
        "car 1, stop 2: &gt; 2.81e8, held at the ceiling",
        "car 1, stop 3: 2.81e8",
    ];
    assert_eq!(costs, wanted);
    let title = "1 sent at a cost above 281474976.710655";
    let said = "Held cells: 2. Pending stops that no car is sent to: 2, the stops 2, 3. Decided by the rule of ties: 1 of 1, car 1.";
    let all = words(&svg);
    assert!(all.contains(title) && all.contains(said) && svg.contains(">to 1<"));
    let lower = drawn(&sheet.replace("wait=140737488.3553275", "wait=1"));
    assert!(lower.contains("3 pending stops; 1 sent at a cost of 2<") && lower.contains(">to 3<"));
}

#[test]
fn document_01_as_stored() {
    let bytes = Sheet::example().write();
    let stored = std::fs::read(here("examples/document_01.svg")).unwrap();
    for args in [&["draw", "-"][..], &["draw", "-", "-"]] {
        assert_eq!(text(&run(args, &bytes).stdout), text(&stored));
    }
    let out = std::path::Path::new(env!("CARGO_TARGET_TMPDIR")).join("document_01.svg");
    let drawn = run(&["draw", "-", out.to_str().unwrap()], &bytes);
    assert_eq!(
        (drawn.status.code(), text(&drawn.stdout)),
        (Some(0), String::new())
    );
    assert_eq!(text(&std::fs::read(&out).unwrap()), text(&stored));
}

/// A record that passes the end is drawn as one; sentences that are too long for a line are drawn in two.
#[test]
fn refused_as_stored() {
    for (example, hatched, lines) in [
        ("refusal_02_cut_body", 2, 3),
        ("refusal_03_edition", 0, 4),
        ("refusal_08_phase", 0, 3),
    ] {
        let path = here(&format!("examples/{example}.txt"));
        let written = run(&["write", path.to_str().unwrap()], b"");
        let svg = text(&run(&["draw", "-"], &written.stdout).stdout);
        let stored = std::fs::read(path.with_extension("svg")).unwrap();
        assert_eq!(svg, text(&stored), "{example}");
        assert_eq!(count(&svg, "<rect class=\"hatched\""), hatched);
        let sentences = count(&svg, "<text class=\"\" x=\"24\"") + 1;
        assert_eq!(sentences, lines, "{example}");
    }
}

#[test]
fn refused_examples() {
    let mut refused = 0;
    for path in files("examples", "txt") {
        let written = run(&["write", path.to_str().unwrap()], b"");
        let drawn = run(&["draw", "-"], &written.stdout);
        assert_eq!(drawn.status.code(), Some(0), "{}", name(&path));
        let svg = text(&drawn.stdout);
        is_well_formed(&svg);
        if let Err(refusal) = dispatch_bench::read(&written.stdout) {
            let title = format!(">Refused {} at {}<", refusal.number, refusal.offset);
            assert!(svg.contains(&title), "{}", name(&path));
            refused += 1;
        }
    }
    assert!(refused > 25, "{refused}");
}

/// Each closed landing has its word, whatever else is to be said of the stop, and its mark in each shaft of a line that serves it;
/// no other landing has.
#[test]
fn closed_landings_are_marked() {
    let mut said = [0; 3];
    for index in 0..300 {
        let bytes = generate::generate(Profile::Closed, 13, index);
        let sheet = Sheet::of_accepted(&bytes);
        let svg = without_legends(&draw(&bytes, &About::default()));
        is_well_formed(&svg);
        let words: Vec<&str> = svg
            .split("<text class=\"shut halo\"")
            .skip(1)
            .map(|part| part.split_once('>').unwrap().1.split_once('<').unwrap().0)
            .collect();
        assert_eq!(words.len(), sheet.closed.len(), "{index}");
        assert!(words.iter().all(|words| words.starts_with("closed")));
        for (often, end) in said
            .iter_mut()
            .zip(["closed", "not pending", "aboard for it"])
        {
            *often += words.iter().filter(|words| words.ends_with(end)).count();
        }
        let shafts = sheet.lines.iter().map(|line| {
            let cars = sheet.cars.iter().filter(|car| car.line == line.id);
            let stops = sheet.stops.iter().enumerate();
            let closed = stops.filter(|(k, stop)| {
                line.mask & mask_bit(*k) != 0 && sheet.closed.contains(&stop.id)
            });
            cars.count().max(1) * closed.count()
        });
        let marks = count(&svg, "<rect class=\"closed\"");
        assert_eq!(marks, shafts.sum::<usize>(), "{index}");
    }
    assert!(said.iter().all(|often| *often > 20), "{said:?}");
    let open = draw(&Sheet::example().write(), &About::default());
    assert_eq!(count(&open, "shut halo"), 0);
    assert_eq!(count(&open, "<rect class=\"closed\""), 0);
}

/// A closed landing where somebody waits, one that a rider of an idle-listed car is bound for, and one where nobody is.
#[test]
fn closed_examples() {
    for (example, words) in [
        ("closed_landing", &[">closed, not pending<"][..]),
        (
            "closed_bound",
            &[
                ">closed, not pending<",
                ">closed, 1 riding, not pending, 1 aboard for it<",
            ],
        ),
    ] {
        let path = here(&format!("examples/{example}.txt"));
        let written = run(&["write", path.to_str().unwrap()], b"");
        let svg = text(&run(&["draw", "-"], &written.stdout).stdout);
        for words in words {
            assert!(svg.contains(words), "{example}: {words}");
        }
        let stored = std::fs::read(path.with_extension("svg")).unwrap();
        assert_eq!(svg, text(&stored), "{example}");
    }
    let mut sheet = Sheet::example();
    sheet.closed = vec![1];
    assert!(draw(&sheet.write(), &About::default()).contains(">closed<"));
}

/// The example with a car at 97 and stops at 100 and 0, sent to 100; then at 100.
#[test]
fn a_ring_is_for_equal_positions() {
    let drawn = |position: f64| {
        let mut sheet = Sheet::example();
        sheet.cars.truncate(1);
        sheet.stops[2].position = 1000.0;
        sheet.stops[1].position = 100.0;
        (sheet.cars[0].position, sheet.demands) = (position, sheet.demands[..1].to_vec());
        let bytes = sheet.write();
        let sent = pass(&bytes).unwrap().decisions;
        assert_eq!(sent[0].map(|id| id.get()), Some(2));
        without_legends(&draw(&bytes, &About::default()))
    };
    let marks = |svg: &str| {
        ["<circle class=\"arrow\"", "<line class=\"arrow\""].map(|mark| count(svg, mark))
    };
    assert_eq!(marks(&drawn(100.0)), [1, 0]);
    let near = drawn(97.0);
    assert_eq!(marks(&near), [0, 1]);
    // The arrow is short, and points up.
    let (_, arrow) = near.split_once("<line class=\"arrow\"").unwrap();
    let value = |name: &str| -> f64 {
        let (_, value) = arrow.split_once(&format!(" {name}=\"")).unwrap();
        value.split_once('"').unwrap().0.parse().unwrap()
    };
    let length = value("y1") - value("y2");
    assert!(length > 5.0 && length < 20.0, "{length}");
}

/// Two stops at the same distance: the decision is by the rule of ties, and named so; with one of them nearer it is not.
#[test]
fn ties_are_named() {
    let notes = |position: f64| {
        let mut sheet = Sheet::example();
        sheet.cars.truncate(1);
        sheet.cars[0].position = 15.0;
        sheet.cars[0].lenient = true;
        sheet.stops[1].position = position;
        let bytes = sheet.write();
        let pass = pass(&bytes).unwrap();
        has_notes(&draw(&bytes, &About::default()), &bytes, &pass)
    };
    assert_eq!((notes(20.0), notes(19.0)), (1, 0));
}

/// The names of a text may have any characters; the file's name too.
#[test]
fn names_and_file() {
    let mut names = sheet::names::Names::default();
    let lobby = "Lobby <&\"> ]]>\u{1}\n of the old tower";
    names.stops.insert(2, lobby.into());
    names.stops.insert(3, "roof".into());
    names.cars.insert(7, "goods".into());
    let about = About {
        file: Some("a <b> & \"c\".sheet"),
        names,
        ..Default::default()
    };
    let bytes = Sheet::example().write();
    let svg = draw(&bytes, &about);
    is_well_formed(&svg);
    let shown = "Lobby &lt;&amp;&quot;&gt; ]]&gt;\u{fffd}";
    let short = "Lobby &lt;&amp;&quot;&gt; ]..";
    for part in [
        ">a &lt;b&gt; &amp; &quot;c&quot;.sheet<",
        &format!("<title>stop 2 {shown}\n of the old tower at 10\npending, a car is sent to it<"),
        &format!(">2 {short} at 10<"),
        &format!(">stop 2 {short}<"),
        ">goods<",
        ">to 3 roof<",
        "<title>car 7 goods at 0\nline 1, idle, idle-listed\nload 0 of 100, max speed 2, both lamps lit\nnobody aboard<",
        &format!(
            "<title>car 7 goods, stop 2 {shown}\n of the old tower: 10 (cell 10000000)\nchosen, the car is sent<"
        ),
    ] {
        assert!(svg.contains(part), "{part}\n{svg}");
    }
    assert_eq!(count(&draw(&bytes, &About::default()), "class=\"file\""), 0);
    let page = html(&bytes, &about);
    assert!(
        page.contains("<title>a &lt;b&gt; &amp; &quot;c&quot;.sheet: SCAN, limit none</title>")
    );
    assert!(page.contains(&format!("<th>stop 2 {short}</th>")));
    let refused = draw(&bytes[..40], &about);
    assert!(refused.contains(">a &lt;b&gt; &amp; &quot;c&quot;.sheet<"));
}

/// The office with no idle-listed car on line 2.
fn office() -> String {
    let office = text(&std::fs::read(here("examples/office.txt")).unwrap());
    office.replace(
        "car id=4 line=2 phase=idle idle_listed=yes",
        "car id=4 line=2 phase=idle idle_listed=no",
    )
}

/// A line without an idle-listed car is one strip, and the line with one is drawn as before.
#[test]
fn lines_are_folded() {
    let sheet = office();
    let bytes = run(&["write", "-"], sheet.as_bytes()).stdout;
    let plain = text(&run(&["draw", "-"], &bytes).stdout);
    let folded = text(&run(&["draw", "-", "--fold"], &bytes).stdout);
    is_well_formed(&folded);
    let (plain, folded) = (without_legends(&plain), without_legends(&folded));
    for (part, before, after) in [
        ("<rect class=\"shaft\"", 6, 2),
        ("<rect class=\"blind\"", 3, 0),
        ("<rect class=\"folded\"", 0, 1),
        (">line 2: 2 cars, none idle-listed<", 0, 1),
        (">line 2<", 1, 0),
        (">line 1<", 1, 1),
        ("<title>car 3 at 14\n", 1, 0),
        (
            "\ncar 3 at 14\nline 2, moving for 9, target 9\nload 950 of 1250, max speed 4, up lamp lit\n10 aboard: 5 to 9, 2 to 11, 2 to 12, 1 unknown\n",
            0,
            1,
        ),
        (">car 1<", 2, 2),
        ("<rect class=\"target\"", 2, 1),
    ] {
        assert_eq!(
            (count(&plain, part), count(&folded, part)),
            (before, after),
            "{part}"
        );
    }
    let none = text(&run(&["draw", "-", "--fold"], &Sheet::example().write()).stdout);
    assert_eq!(
        none,
        text(&run(&["draw", "-"], &Sheet::example().write()).stdout)
    );
}

/// The words above shafts that are not drawn take no room.
#[test]
fn folded_lines_have_no_words_above() {
    let height = |svg: &str| -> f64 {
        let (_, view) = svg.split_once("<view id=\"building\" viewBox=\"").unwrap();
        let (view, _) = view.split_once('"').unwrap();
        view.split(' ').next_back().unwrap().parse().unwrap()
    };
    let nobody = office().replace("idle_listed=yes", "idle_listed=no");
    let nobody = run(&["write", "-"], nobody.as_bytes()).stdout;
    let [all, strips] = [&["draw", "-"][..], &["draw", "-", "--fold"]]
        .map(|args| height(&text(&run(args, &nobody).stdout)));
    assert!(strips < all - 90.0, "{strips} of {all}");
}

/// The largest ids keep the words before them, in few shafts and in many.
#[test]
fn the_largest_ids_keep_their_words() {
    let mut sheet = Sheet::example();
    let most = u32::MAX;
    sheet.stops[2].id = most;
    sheet.demands = vec![sheetgen::Demand {
        stop: most,
        riding: 0,
        call: true,
    }];
    sheet.cars[0].id = most;
    sheet.cars[0].target = Some(most);
    sheet.cars[1].idle = false;
    let words = |sheet: &Sheet, part: &str| {
        let svg = draw(&sheet.write(), &About::default());
        assert!(svg.contains(part), "{part}\n{svg}");
    };
    for part in ["car", "to", "target"] {
        words(&sheet, &format!(">{part} {most}<"));
    }
    let car = sheet.cars[1].clone();
    sheet
        .cars
        .extend((100..115).map(|id| Car { id, ..car.clone() }));
    for part in [
        "car 4294967295, up ",
        ">idle, target 4294967295<",
        ">to 4294967295 at 20<",
    ] {
        words(&sheet, part);
    }
}

/// A dark lamp on a full car has its mark, and the phase's colour is not covered.
#[test]
fn a_full_car_keeps_its_colour_and_lamps() {
    let mut sheet = Sheet::example();
    let car = &mut sheet.cars[1];
    (car.phase, car.load, car.going_up, car.going_down) = (4, car.capacity, true, false);
    let svg = without_legends(&draw(&sheet.write(), &About::default()));
    let (_, car) = svg.split_once("fill=\"#f6cf57\"").unwrap();
    let (_, after) = car.split_once("</title></rect>\n").unwrap();
    let shapes: Vec<&str> = after.lines().collect();
    let width = |shape: &str| -> f64 {
        let (_, width) = shape.split_once(" width=\"").unwrap();
        width.split_once('"').unwrap().0.parse().unwrap()
    };
    assert!(shapes[0].starts_with("<rect class=\"gauge\"") && width(shapes[0]) < 6.0);
    assert!(shapes[1].starts_with("<rect class=\"full\"") && width(shapes[1]) < 6.0);
    assert!(shapes[2].starts_with("<path class=\"lit\""));
    assert!(shapes[3].starts_with("<path class=\"dark\""));
}

/// The page: the drawing, the lines, the table; nothing from outside. A whole one is stored.
#[test]
fn page_as_stored() {
    let bytes = Sheet::example().write();
    let page = text(&run(&["draw", "-", "--html", "-"], &bytes).stdout);
    let stored = std::fs::read(here("examples/document_01.html")).unwrap();
    assert_eq!(page, text(&stored));
    for index in 0..20 {
        let bytes = generate::generate(Profile::Valid, 23, index);
        let pass = pass(&bytes).unwrap();
        let page = html(&bytes, &About::default());
        let lines = dispatch_bench::lines(&bytes);
        assert!(page.contains(&format!("<pre>{lines}</pre>")));
        let svg = draw(&bytes, &About::default());
        assert!(page.contains(&format!("<div id=\"stage\" tabindex=\"0\">{svg}</div>")));
        let rows = usize::from(pass.cars > 0);
        assert_eq!(count(&page, "<tr>"), pass.cars + rows);
        assert_eq!(count(&page, "<td"), pass.cars * pass.columns());
        let sent = pass.decisions.iter().flatten().count();
        assert_eq!(count(&page, "<td class=\"taken\""), sent);
        assert_eq!(count(&page, "<td class=\"left\""), pass.cars - sent);
        for part in ["src=", "href=\"h", "@import", "url(h"] {
            assert_eq!(count(&page, part), 0, "{part}");
        }
        let links = count(&page, "http") - count(&page, "xmlns=\"http://www.w3.org/2000/svg\"");
        assert_eq!(links, 1, "http-equiv");
    }
}

/// The page of a refused sheet says what `explain` does.
#[test]
fn page_of_a_refused_sheet() {
    let path = here("examples/refusal_08_phase.txt");
    let bytes = run(&["write", path.to_str().unwrap()], b"").stdout;
    let page = html(&bytes, &About::default());
    let said = text(&std::fs::read(path.with_extension("explain")).unwrap());
    let said = said
        .replace('&', "&amp;")
        .replace('<', "&lt;")
        .replace('>', "&gt;");
    assert!(page.contains(&format!("<pre>{said}</pre>")));
    assert!(page.contains(&draw(&bytes, &About::default())));
    assert_eq!(count(&page, "<table"), 0);
}

/// The code, standard output and standard error of a command without input.
fn said(args: &[&str]) -> (Option<i32>, String, String) {
    let output = run(args, b"");
    let (out, err) = (text(&output.stdout), text(&output.stderr));
    (output.status.code(), out, err)
}

/// Where a drawing and a page go.
#[test]
fn drawing_and_page_as_files() {
    let folder = std::path::Path::new(env!("CARGO_TARGET_TMPDIR")).join("both");
    // what an earlier run left
    let _ = std::fs::remove_dir_all(&folder);
    std::fs::create_dir_all(&folder).unwrap();
    let at = |name: &str| folder.join(name).to_str().unwrap().to_string();
    let (sheet, svg, page) = (at("a.sheet"), at("a.svg"), at("a.html"));
    std::fs::write(&sheet, Sheet::example().write()).unwrap();
    let nothing = (Some(0), String::new(), String::new());
    assert_eq!(said(&["draw", &sheet, "--html", &page]), nothing);
    assert!(!std::path::Path::new(&svg).exists());
    let both = said(&["draw", &sheet, &svg, "--fold", "--html", &page]);
    assert_eq!(both, nothing);
    let read = |path: &str| text(&std::fs::read(path).unwrap());
    assert!(read(&svg).contains(">a.sheet</text>"));
    assert!(read(&page).contains(&read(&svg)));
    let both = said(&["draw", &sheet, "-", "--html", "-"]);
    let why = "- stands for the drawing and for the page: standard output is written once\n";
    assert_eq!(both, (Some(1), String::new(), why.into()));
    std::fs::remove_dir_all(&folder).unwrap();
}

#[test]
fn pages_that_have_no_meaning() {
    let few = "too few words after draw: expected `sheet draw SHEET [OUT] [--html OUT.html] [--fold] [RATES]`";
    for (args, why) in [
        (
            &["draw", "a", "--html"][..],
            "no file is named after --html",
        ),
        (&["draw", "--html", "a"], few),
    ] {
        let (code, out, err) = said(args);
        assert_eq!((code, out), (Some(2), String::new()));
        assert!(err.starts_with(&format!("sheet: {why}\n")), "{err}");
    }
}
