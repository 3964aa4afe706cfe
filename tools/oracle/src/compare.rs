//! Both sides on the same sheets; the first difference of each profile, shrunk.

use std::time::Instant;

use sheetgen::generate::{PROFILES, Profile, generate};
use sheetgen::rng::Rng;
use sheetgen::sheet::NO_LIMIT;
use sheetgen::shrink::shrink;
use sheetgen::{Refusal, Sheet, describe, read};

use crate::answer::{Answer, Pass, Source, answer, by_covering, for_rust, passed};
use crate::bars;
use crate::bench::{Bench, Has, KEPT, Lent, Places};
use crate::choice;
use crate::paper::{self, weighs_loads};
use crate::rust_pass::Rust;

#[derive(Clone, Debug)]
pub struct Difference {
    /// Which promise is broken.
    pub what: &'static str,
    pub detail: String,
    /// The refusal that document 01 gives, 0 for none. Shrinking keeps to it and to `what`.
    pub refusal: u32,
}

impl Difference {
    fn like(&self, other: &Self) -> bool {
        self.what == other.what && self.refusal == other.refusal
    }
}

fn plain(what: &'static str, detail: &str) -> Option<Difference> {
    Some(Difference {
        what,
        detail: detail.into(),
        refusal: 0,
    })
}

fn differ<T: std::fmt::Debug>(what: &'static str, expected: T, found: T) -> Option<Difference> {
    plain(
        what,
        &format!("expected {expected:?}, the bench has {found:?}"),
    )
}

/// What was looked at.
#[derive(Clone, Default)]
pub struct Tally {
    pub sheets: u64,
    pub refused: u64,
    /// Passes whose cells and decisions the Rust gave, those where document 01 alone does, and those of sheets with
    /// closed landings, by src/paper.rs.
    pub rust_passes: u64,
    /// Of the first, those of RSR with a load weight.
    pub load_passes: u64,
    pub document_passes: u64,
    pub closed_passes: u64,
    /// Of the first, those of edition 2, by the Rust's pass of their edition 1 twins.
    pub twin_passes: u64,
    /// Passes of sheets with second coordinates that are no zeros, by src/paper.rs.
    pub sideways_passes: u64,
    /// Passes of sheets where riders of idle cars are bound for a closed stop with demand (document 02, F-6).
    pub bound_passes: u64,
    pub cells: u64,
    /// Passes with held cells, these cells, and the cells that are the ceiling and not held.
    pub held_passes: u64,
    pub held: u64,
    pub exact: u64,
    /// Pending stops whose ids the Rust gave.
    pub pending: u64,
    /// Ranks whose bits the Rust gave.
    pub ranks: u64,
    /// Refusals by number.
    pub numbers: [u64; 17],
}

pub struct Comparison<'a> {
    pub rust: Rust,
    pub bench: &'a mut dyn Bench,
    pub has: Has,
    pub tally: Tally,
    /// Sheets with closed landings are held to the Rust, where cars cover them, and not to src/paper.rs.
    pub covering: bool,
}

impl<'a> Comparison<'a> {
    pub fn new(bench: &'a mut dyn Bench) -> Self {
        let has = bench.has();
        Self {
            rust: Rust::new(),
            bench,
            has,
            tally: Tally::default(),
            covering: false,
        }
    }

    /// The first difference on one sheet.
    pub fn sheet(&mut self, bytes: &[u8]) -> Option<Difference> {
        let refusal = read(bytes);
        let found = self.against(bytes, refusal);
        found.map(|d| Difference {
            refusal: refusal.map_or(0, |r| r.number),
            ..d
        })
    }

    fn against(&mut self, bytes: &[u8], refusal: Option<Refusal>) -> Option<Difference> {
        let expected = refusal.map_or((0, 0), |r| (r.number, r.offset));
        if self.has.read {
            let found = self.bench.read(bytes);
            if found.0 != expected.0 {
                return differ("read: number", expected, found);
            }
            if expected.0 != 0 && found.1 != expected.1 {
                return differ("read: offset", expected, found);
            }
            if expected.0 == 0 && found.1 != KEPT {
                return differ("read: an accepted sheet writes the offset", KEPT, found.1);
            }
        }
        let right = match refusal {
            Some(r) => {
                self.tally.numbers[r.number as usize] += 1;
                Answer::Refused(r)
            }
            None if self.has.pass || self.has.pending => self.right(bytes),
            None => return None,
        };
        let mut found = None;
        if self.has.pass {
            found = self.pass(bytes, &right);
        }
        if self.has.pending && found.is_none() {
            found = self.pending(bytes, &right);
        }
        if self.covering && found.is_none() && refusal.is_none() {
            found = self.ranks(bytes);
        }
        found
    }

    /// The ranks of the definitions by their 64 bits, but for the sign of a zero, which the Rust leaves open; of sheets that the Rust
    /// is given.
    fn ranks(&mut self, bytes: &[u8]) -> Option<Difference> {
        let bits = |rank: Option<f64>| rank.map(|cost| (cost + 0.0).to_bits());
        let ranks = self.rust.pass(&for_rust(bytes)?, true).ranks;
        let right: Vec<_> = ranks.iter().map(|rank| bits(rank.2)).collect();
        let found = paper::ranks(&Sheet::of_accepted(bytes));
        let found: Vec<_> = found.into_iter().map(bits).collect();
        self.tally.ranks += right.iter().flatten().count() as u64;
        (right != found).then(|| differ("pass: ranks", right, found))?
    }

    /// The answer to an accepted sheet.
    fn right(&mut self, bytes: &[u8]) -> Answer {
        let sheet = Sheet::of_accepted(bytes);
        match self.covering && !sheet.closed.is_empty() && !sheet.runs_sideways() {
            true => Answer::Passed(by_covering(&mut self.rust, &sheet)),
            false => answer(&mut self.rust, bytes),
        }
    }

    /// The pending stops, which the Rust gives for every accepted sheet without closed landings. Every sheet is tried with 63 places as well.
    fn pending(&mut self, bytes: &[u8], right: &Answer) -> Option<Difference> {
        let (few, fresh) = (Places::new(63), Places::new(64 + bytes.len() % 3));
        let mut short = few.clone();
        let number = self.bench.pending(bytes, &mut short);
        if (number, short.offset) != (1, 0) {
            return differ("pending: refusal 1", (1, 0), (number, short.offset));
        }
        if short != (Places { offset: 0, ..few }) {
            return plain("pending: refusal 1 writes", "a refusal changed a place");
        }
        let mut lent = fresh.clone();
        let number = self.bench.pending(bytes, &mut lent);
        match right {
            Answer::Refused(r) => {
                if (number, lent.offset) != (r.number, r.offset) {
                    let found = (number, lent.offset);
                    return differ("pending: refusal", (r.number, r.offset), found);
                }
                let offset = r.offset;
                if lent != (Places { offset, ..fresh }) {
                    return plain("pending: refusal writes", "a refusal changed a place");
                }
                None
            }
            Answer::Passed(pass) => {
                let m = pass.pending.len();
                if (number, lent.count) != (0, m as u64) {
                    return differ("pending: count", (0, m as u64), (number, lent.count));
                }
                if lent.stops[..m] != pass.pending[..] {
                    return differ("pending: stops", &pass.pending[..], &lent.stops[..m]);
                }
                if lent.stops[m..] != fresh.stops[m..] || lent.offset != fresh.offset {
                    return plain(
                        "pending: further places",
                        "a place beyond the stops, or the offset, was changed",
                    );
                }
                self.tally.pending += m as u64;
                None
            }
        }
    }

    fn pass(&mut self, bytes: &[u8], right: &Answer) -> Option<Difference> {
        // Lengths at and above the least, by the bytes.
        let mix = bytes.iter().fold(7usize, |h, b| {
            h.wrapping_mul(31).wrapping_add(usize::from(*b))
        });
        let fresh = Lent::new(32 + mix % 3, 2048 + mix / 3 % 3, 32 + mix / 9 % 3);
        if mix % 16 == 0 {
            let short = match mix / 16 % 4 {
                0 => Lent::new(31, 2048, 32),
                1 => Lent::new(32, 2047, 32),
                2 => Lent::new(32, 2048, 31),
                _ => Lent::new(0, 0, 0),
            };
            let mut lent = short.clone();
            let number = self.bench.pass(bytes, &mut lent);
            if (number, lent.offset) != (1, 0) {
                return differ("pass: refusal 1", (1, 0), (number, lent.offset));
            }
            if lent != (Lent { offset: 0, ..short }) {
                return plain("pass: refusal 1 writes", "a refusal changed a lent buffer");
            }
        }
        let mut lent = fresh.clone();
        let number = self.bench.pass(bytes, &mut lent);
        match right {
            Answer::Refused(r) => {
                if number != r.number {
                    return differ("pass: number", r.number, number);
                }
                if lent.offset != r.offset {
                    return differ("pass: offset", r.offset, lent.offset);
                }
                if lent
                    != (Lent {
                        offset: r.offset,
                        ..fresh
                    })
                {
                    return plain("pass: refusal writes", "a refusal changed a lent buffer");
                }
                self.tally.refused += 1;
                None
            }
            Answer::Passed(pass) => {
                if number != 0 {
                    return differ("pass: number", (0, 0), (number, lent.offset));
                }
                let found = self.passed(pass, &fresh, &lent);
                let sideways = Sheet::of_accepted(bytes).runs_sideways();
                match pass.source {
                    Source::Rust => {
                        self.tally.rust_passes += 1;
                        self.tally.load_passes += u64::from(weighs_loads(bytes));
                        self.tally.twin_passes += u64::from(bytes[0] == 2);
                    }
                    Source::Document => self.tally.document_passes += 1,
                    Source::Model if sideways => self.tally.sideways_passes += 1,
                    Source::Model => self.tally.closed_passes += 1,
                }
                let closed_first = Sheet::of_accepted(bytes).closed_first();
                self.tally.bound_passes += u64::from(!closed_first.is_empty());
                if pass.source != Source::Document {
                    self.tally.cells += pass.cells.len() as u64;
                }
                self.tally.held_passes += u64::from(pass.held > 0);
                self.tally.held += pass.held;
                self.tally.exact += pass.at_ceiling() - pass.held;
                found
            }
        }
    }

    fn passed(&self, pass: &Pass, fresh: &Lent, lent: &Lent) -> Option<Difference> {
        if lent.cars != pass.cars {
            return differ("pass: cars", pass.cars, lent.cars);
        }
        if lent.stops != pass.stops {
            return differ("pass: stops", pass.stops, lent.stops);
        }
        let n = pass.cells.len();
        if let Some(k) = (0..n).find(|k| lent.matrix[*k] != pass.cells[*k]) {
            let columns = pass.cars.max(pass.stops) as usize;
            let at = format!("row {} column {}: ", k / columns, k % columns);
            let detail = format!(
                "{at}expected {}, the bench has {}",
                pass.cells[k], lent.matrix[k]
            );
            return plain("pass: cell", &detail);
        }
        if lent.total != pass.total {
            return differ("pass: total", pass.total, lent.total);
        }
        if lent.held != pass.held {
            return differ("pass: held", pass.held, lent.held);
        }
        let d = pass.decisions.len();
        if lent.decisions[..d] != pass.decisions[..] {
            return differ("pass: decisions", &pass.decisions[..], &lent.decisions[..d]);
        }
        let s = pass.sweeps.len();
        if lent.sweeps[..s] != pass.sweeps[..] {
            return differ("pass: sweeps", &pass.sweeps[..], &lent.sweeps[..s]);
        }
        if lent.matrix[n..] != fresh.matrix[n..]
            || lent.decisions[d..] != fresh.decisions[d..]
            || lent.sweeps[s..] != fresh.sweeps[s..]
            || lent.offset != fresh.offset
        {
            return plain(
                "pass: further entries",
                "an entry beyond what a pass writes was changed",
            );
        }
        if lent.ranked != pass.ranked {
            return differ("pass: ranked pairs", pass.ranked, lent.ranked);
        }
        None
    }

    fn matrix(&mut self, m: &choice::Matrix) -> Option<Difference> {
        let right = choice::expected(m.cars, m.columns, &m.cells, m.places);
        let fresh = (vec![0xdead_beefu32; m.places], 0xa3a3_a3a3_a3a3u64);
        let (mut chosen, mut total) = fresh.clone();
        let answer = self
            .bench
            .choose(m.cars, m.columns, &m.cells, &mut chosen, &mut total);
        match right {
            None if answer != 0 => differ("choose: none", 0, answer),
            None if (&chosen, total) != (&fresh.0, fresh.1) => plain(
                "choose: none writes",
                "an answer of none changed a lent buffer",
            ),
            None => None,
            Some(_) if answer != 1 => differ("choose: choice", 1, answer),
            Some((columns, sum)) => {
                let n = columns.len();
                if chosen[..n] != columns[..] {
                    differ("choose: columns", &columns[..], &chosen[..n])
                } else if total != sum {
                    differ("choose: total", sum, total)
                } else if chosen[n..] != fresh.0[n..] {
                    plain(
                        "choose: further places",
                        "a place beyond the cars was changed",
                    )
                } else {
                    None
                }
            }
        }
    }
}

/// A difference with what shows it.
pub struct Found {
    pub index: u64,
    pub first: Difference,
    pub small: Difference,
    pub bytes: Vec<u8>,
    pub matrix: Option<choice::Matrix>,
}

/// Sheets `0..count` of a profile; stops at the first difference and shrinks it.
pub fn sheets(c: &mut Comparison, profile: Profile, seed: u64, count: u64) -> Option<Found> {
    for index in 0..count {
        let bytes = generate(profile, seed, index);
        c.tally.sheets += 1;
        if let Some(first) = c.sheet(&bytes) {
            let tally = c.tally.clone();
            let small = shrink(&bytes, &mut |b| c.sheet(b).is_some_and(|d| d.like(&first)));
            let difference = c.sheet(&small).unwrap();
            c.tally = tally;
            return Some(Found {
                index,
                first,
                small: difference,
                bytes: small,
                matrix: None,
            });
        }
    }
    None
}

/// Matrices `0..count` for the matcher.
pub fn matrices(c: &mut Comparison, seed: u64, count: u64) -> Option<Found> {
    for index in 0..count {
        let matrix = choice::generate(seed, index);
        if let Some(first) = c.matrix(&matrix) {
            let small = choice::shrink(&matrix, &mut |m| {
                c.matrix(m).is_some_and(|d| d.like(&first))
            });
            let difference = c.matrix(&small).unwrap();
            return Some(Found {
                index,
                first,
                small: difference,
                bytes: Vec::new(),
                matrix: Some(small),
            });
        }
    }
    None
}

/// Prints a difference with everything needed to see it again.
pub fn report(rust: &mut Rust, profile: &str, seed: u64, found: &Found) {
    println!(
        "DIFFERENCE in {profile}, seed {seed}, number {}",
        found.index
    );
    println!("  first seen: {}: {}", found.first.what, found.first.detail);
    println!("  smallest:   {}: {}", found.small.what, found.small.detail);
    if let Some(m) = &found.matrix {
        println!(
            "  cars {} columns {} places {} cells {:?}",
            m.cars, m.columns, m.places, m.cells
        );
        return;
    }
    println!("  {} bytes:", found.bytes.len());
    for line in describe::hex(&found.bytes).lines() {
        println!("    {line}");
    }
    if read(&found.bytes).is_none() {
        for line in describe::describe(&Sheet::of_accepted(&found.bytes)).lines() {
            println!("    {line}");
        }
    }
    println!("  the Rust's side:");
    for line in crate::answer::details(rust, &found.bytes, true).lines() {
        println!("    {line}");
    }
}

/// The library's functions, each said to be compared or not; then the whole comparison.
pub fn library(bench: &mut dyn Bench, seed: u64, count: u64, only: Option<&str>) -> bool {
    let has = bench.has();
    let said = |name: &str, there: bool, wanted: bool| {
        let what = match (there, wanted) {
            (true, true) => "compared",
            (true, false) => "not compared, another profile was asked for",
            (false, _) => "NOT COMPARED, the library has no such function of this interface",
        };
        println!("{name}: {what}");
    };
    let (on_sheets, on_matrices) = (
        only != Some("matrices"),
        only.is_none_or(|o| o == "matrices"),
    );
    said("dispatch_bench_read", has.read, on_sheets);
    said("dispatch_bench_pass", has.pass, on_sheets);
    said("dispatch_bench_choose", has.choose, on_matrices);
    said("dispatch_bench_pending", has.pending, on_sheets);
    let any = has.read || has.pass || has.choose || has.pending;
    any && run(bench, (seed, count), only, false)
}

/// The definitions against the Rust: pending stops, ranks, cells and sweeps of accepted sheets. Refusals and choices come
/// from one source here, so they aren't compared. A closed landing is one that further cars cover in the Rust.
pub fn papers(seed: u64, count: u64, only: Option<&str>) -> bool {
    use crate::paper::{Fault, Paper};
    println!("accepted sheets only: refusals and the choice have one source on both sides here");
    let mut paper = Paper {
        fault: Fault::None,
        whole: false,
    };
    run(&mut paper, (seed, count), only, true)
}

/// Both sides on each profile; true where nothing differs.
fn run(
    bench: &mut dyn Bench,
    (seed, count): (u64, u64),
    only: Option<&str>,
    covering: bool,
) -> bool {
    let has = bench.has();
    let mut clean = true;
    let (on_sheets, on_matrices) = (
        only != Some("matrices"),
        only.is_none_or(|o| o == "matrices"),
    );
    if (has.read || has.pass || has.pending) && on_sheets {
        for (name, profile) in PROFILES {
            if only.is_some_and(|o| o != name) {
                continue;
            }
            let start = Instant::now();
            let mut c = Comparison::new(bench);
            c.covering = covering;
            // A full sheet is some thirty times the size of an ordinary one.
            let count = if profile == Profile::Full {
                count.div_ceil(20)
            } else {
                count
            };
            let found = sheets(&mut c, profile, seed, count);
            let t = &c.tally;
            let ranks = match covering {
                true => format!("{} ranks, ", t.ranks),
                false => String::new(),
            };
            let seconds = start.elapsed().as_secs_f64();
            let numbers: Vec<String> = (2..17)
                .filter(|k| t.numbers[*k] > 0)
                .map(|k| format!("{k}:{}", t.numbers[k]))
                .collect();
            println!(
                "{name}: {} sheets, {} with cells of the Rust ({} of RSR with a load weight, {} of edition 2 for their twins), {} with \
                 second coordinates by the definitions, {} with closed landings by the definitions ({} with riders bound for one), {} cells, {} of document 01 alone, {} with held cells ({}, and {} at the \
                 ceiling that are not), {ranks}{} pending stops, refused {} in {seconds:.1} s",
                t.sheets,
                t.rust_passes,
                t.load_passes,
                t.twin_passes,
                t.sideways_passes,
                t.closed_passes,
                t.bound_passes,
                t.cells,
                t.document_passes,
                t.held_passes,
                t.held,
                t.exact,
                t.pending,
                if numbers.is_empty() {
                    "none".into()
                } else {
                    numbers.join(" ")
                },
            );
            if let Some(found) = found {
                clean = false;
                report(&mut Rust::new(), name, seed, &found);
            }
        }
    }
    if has.choose && on_matrices {
        let start = Instant::now();
        let mut c = Comparison::new(bench);
        let found = matrices(&mut c, seed, count);
        println!(
            "matrices: {count} in {:.1} s",
            start.elapsed().as_secs_f64()
        );
        if let Some(found) = found {
            clean = false;
            report(&mut Rust::new(), "matrices", seed, &found);
        }
    }
    clean
}

/// Each broken bench must be found out, and the one without a fault must not.
pub fn selftest(count: u64, only: Option<&str>) -> bool {
    use crate::paper::{FAULTS, Fault, Paper};
    let mut good = true;
    for &fault in FAULTS {
        if only.is_some_and(|name| name != format!("{fault:?}")) {
            continue;
        }
        let mut bench = Paper { fault, whole: true };
        let mut c = Comparison::new(&mut bench);
        let mut caught = None;
        for (name, profile) in PROFILES {
            let count = if profile == Profile::Full {
                count.div_ceil(100)
            } else {
                count
            };
            if let Some(found) = sheets(&mut c, profile, 1, count) {
                caught = Some((name, found));
                break;
            }
        }
        if caught.is_none() {
            caught = matrices(&mut c, 1, count).map(|found| ("matrices", found));
        }
        let right = caught.is_some() == (fault != Fault::None);
        good &= right;
        match caught {
            None => println!(
                "{fault:?}: no difference{}",
                if right { "" } else { ", WRONG" }
            ),
            Some((name, found)) => {
                let size = match &found.matrix {
                    Some(m) => format!("{} x {} matrix {:?}", m.cars, m.columns, m.cells),
                    None if read(&found.bytes).is_none() => {
                        let s = Sheet::of_accepted(&found.bytes);
                        format!(
                            "{} bytes: {} stops {} lines {} cars {} aboard {} waiting {} demands {} closed",
                            found.bytes.len(),
                            s.stops.len(),
                            s.lines.len(),
                            s.cars.len(),
                            s.aboard.len(),
                            s.waiting.len(),
                            s.demands.len(),
                            s.closed.len()
                        )
                    }
                    None => format!("{} bytes", found.bytes.len()),
                };
                println!(
                    "{fault:?}: {name} {}: {} ({}){}; {size}",
                    found.index,
                    found.small.what,
                    found.small.detail,
                    if right { "" } else { ", WRONG" }
                );
                if only.is_some() {
                    report(&mut Rust::new(), name, 1, &found);
                }
            }
        }
    }
    good
}

/// What the sheets of each profile are like, by the Rust.
pub fn survey(seed: u64, count: u64) {
    for (name, profile) in PROFILES {
        let mut rust = Rust::new();
        let count = if profile == Profile::Full {
            count.div_ceil(20)
        } else {
            count
        };
        let (mut passes, mut cells, mut sent, mut idle, mut zero, mut held, mut ceiling) =
            (0, 0u64, 0u64, 0u64, 0u64, 0u64, 0u64);
        let (mut ranks, mut ranked, mut minus_zero, mut covered, mut cut) =
            (0u64, 0u64, 0u64, 0u64, 0u64);
        let mut others = 0u64;
        for index in 0..count {
            let bytes = generate(profile, seed, index);
            if read(&bytes).is_some() {
                continue;
            }
            let Some(sheet) = for_rust(&bytes) else {
                others += 1;
                continue;
            };
            let pass = rust.pass(&sheet, true);
            let demand = sheet.stops.iter().enumerate().filter(|(j, s)| {
                let bit = sheetgen::sheet::mask_bit(*j);
                sheet.lines.iter().any(|l| l.mask & bit != 0)
                    && (sheet.waiting.iter().any(|w| w.stop == s.id)
                        || sheet
                            .demands
                            .iter()
                            .any(|d| d.stop == s.id && (d.call || d.riding > 0)))
            });
            covered += u64::from(demand.count() > pass.pending.len());
            let Some(found) = &pass.cells else { continue };
            passes += 1;
            cells += found.len() as u64;
            sent += pass.decisions.iter().filter(|d| **d != 0).count() as u64;
            idle += pass.decisions.iter().filter(|d| **d == 0).count() as u64;
            zero += found.iter().filter(|c| **c == 0).count() as u64;
            let answered = crate::answer::of_rust(&pass);
            held += answered.held;
            ceiling += answered.at_ceiling();
            ranks += pass.ranks.len() as u64;
            ranked += pass.ranks.iter().filter(|r| r.2.is_some()).count() as u64;
            minus_zero += pass
                .ranks
                .iter()
                .filter(|r| r.2.is_some_and(|c| c.to_bits() == 1 << 63))
                .count() as u64;
            cut += u64::from((pass.ranked as usize) < pass.idle.len() * pass.pending.len());
        }
        println!(
            "{name}: {passes} matrices of {count} sheets, {cells} cells ({zero} zero, {ceiling} at the ceiling, {held} of them held), \
             {ranked} of {ranks} pairs have a rank ({minus_zero} minus zero), {sent} cars sent, {idle} idle, \
             {covered} sheets with covered stops, {cut} with unranked pairs; {others} with closed landings or second coordinates are not looked at"
        );
    }
}

/// The profiles in which limits are raised and bars added.
const CHANGED: [(&str, Profile); 4] = [
    ("limits", Profile::Limits),
    ("load", Profile::Load),
    ("closed", Profile::Closed),
    ("sideways", Profile::Sideways),
];

/// Demand 3 by running: of two sheets that differ in the limit alone, the one with the higher limit has no
/// higher total. True where that held.
pub fn limits(seed: u64, count: u64) -> bool {
    let mut profiles = CHANGED.into_iter();
    profiles.all(|(name, profile)| limits_of(name, profile, seed, count))
}

fn total(rust: &mut Rust, sheet: &Sheet) -> u64 {
    passed(rust, sheet).total
}

fn limits_of(name: &str, profile: Profile, seed: u64, count: u64) -> bool {
    let mut rust = Rust::new();
    let mut fell = 0u64;
    for index in 0..count {
        let bytes = generate(profile, seed, index);
        let mut sheet = Sheet::of_accepted(&bytes);
        if sheet.policy.limit > 64 {
            sheet.policy.limit = 1 + (index % 4) as u16;
        }
        let low = total(&mut rust, &sheet);
        sheet.policy.limit = match index % 3 {
            0 => NO_LIMIT,
            k => sheet.policy.limit + k as u16,
        };
        let high = total(&mut rust, &sheet);
        if high > low {
            println!("{name}, seed {seed}, number {index}: total {low} rose to {high}");
            return false;
        }
        fell += u64::from(high < low);
    }
    println!("{name}: {count} pairs of sheets, the total fell in {fell} and never rose");
    true
}

/// Bars added, by running: of two sheets without a limit that differ in bars alone, the one with more of them has no lower total; under a limit it
/// may have. True where that held.
pub fn bars(seed: u64, count: u64) -> bool {
    let mut profiles = CHANGED.into_iter();
    profiles.all(|(name, profile)| bars_of(name, profile, seed, count))
}

/// In how many pairs the total rose, and in how many it fell.
#[derive(Default)]
struct Moves {
    rose: u64,
    fell: u64,
}

impl Moves {
    fn add(&mut self, first: u64, second: u64) {
        self.rose += u64::from(second > first);
        self.fell += u64::from(second < first);
    }
}

fn bars_of(name: &str, profile: Profile, seed: u64, count: u64) -> bool {
    let mut rust = Rust::new();
    let (mut free, mut limited) = (Moves::default(), Moves::default());
    let mut pairs = 0u64;
    for index in 0..count {
        let mut sheet = Sheet::of_accepted(&generate(profile, seed, index));
        sheet.policy.limit = NO_LIMIT;
        let pass = passed(&mut rust, &sheet);
        let rng = &mut Rng::new(seed, 300, index);
        let added = bars::count(rng);
        let Some(mut barred) = bars::added(rng, &sheet, &pass.pending, added) else {
            continue;
        };
        pairs += 1;
        let second = total(&mut rust, &barred);
        if second < pass.total {
            let first = pass.total;
            println!("{name}, seed {seed}, number {index}: total {first} fell to {second}");
            return false;
        }
        free.add(pass.total, second);
        sheet.policy.limit = 1 + (index % 4) as u16;
        barred.policy.limit = sheet.policy.limit;
        limited.add(total(&mut rust, &sheet), total(&mut rust, &barred));
    }
    let share = |part: u64| {
        format!(
            "{part} ({:.2} %)",
            part as f64 * 100.0 / pairs.max(1) as f64
        )
    };
    println!(
        "{name}: {pairs} pairs of sheets; without a limit the total rose in {} and never fell; with a limit it rose in {} and fell in {}",
        share(free.rose),
        share(limited.rose),
        share(limited.fell)
    );
    true
}

/// "A bench of the first release refuses such a sheet, by 4 where nothing earlier is wrong": the reader of that release's
/// library on sheets with kind 8, on RSR's with a load weight, which it refuses by 15, on edition 2, which it refuses by 3, and on
/// the others as now. True where that held.
pub fn first_release(bench: &mut dyn Bench, seed: u64, count: u64) -> bool {
    let (mut closed, mut loads, mut editions, mut others) = (0u64, 0u64, 0u64, 0u64);
    for (name, profile) in PROFILES {
        let count = match profile {
            Profile::Full => count.div_ceil(20),
            _ => count,
        };
        for index in 0..count {
            let bytes = generate(profile, seed, index);
            let expected = crate::paper::of_first_release(&bytes).unwrap_or((0, KEPT));
            let found = bench.read(&bytes);
            if expected != found {
                println!(
                    "{name}, seed {seed}, number {index}: expected {expected:?}, found {found:?}"
                );
                return false;
            }
            match expected.0 {
                4 if read(&bytes).is_none_or(|now| now.number != 4) => closed += 1,
                15 => loads += 1,
                3 if bytes[0] == 2 => editions += 1,
                _ => others += 1,
            }
        }
    }
    println!(
        "{closed} sheets refused by 4 at their first record of kind 8, {loads} of RSR by 15 for their load weight, {editions} of edition 2 by \
         3; {others} others answered as now"
    );
    true
}

/// What a program prints for a sheet on its standard input; its failure is part of the text.
fn printed(path: &str, bytes: &[u8]) -> String {
    use std::io::Write;
    use std::process::{Command, Stdio};
    let child = Command::new(path)
        .stdin(Stdio::piped())
        .stdout(Stdio::piped())
        .spawn();
    let mut child = match child {
        Ok(child) => child,
        Err(e) => return format!("{path} doesn't run: {e}\n"),
    };
    // A program that refuses early may close its input.
    let _ = child.stdin.take().unwrap().write_all(bytes);
    match child.wait_with_output() {
        Ok(out) if out.status.success() => String::from_utf8_lossy(&out.stdout).into_owned(),
        Ok(out) => format!("{}{}\n", String::from_utf8_lossy(&out.stdout), out.status),
        Err(e) => format!("{e}\n"),
    }
}

/// The program passprint on `count` sheets of each profile; true where it prints the expected lines.
pub fn program(path: &str, seed: u64, count: u64) -> bool {
    let mut rust = Rust::new();
    let mut checked = 0;
    for (name, profile) in PROFILES {
        for index in 0..count {
            let bytes = generate(profile, seed, index);
            let mut differs = |b: &[u8]| crate::answer::passprint(&mut rust, b) != printed(path, b);
            checked += 1;
            if differs(&bytes) {
                let small = shrink(&bytes, &mut differs);
                println!(
                    "DIFFERENCE of {path} in {name}, seed {seed}, number {index}; smallest sheet, {} bytes:",
                    small.len()
                );
                print!("{}", describe::hex(&small));
                if read(&small).is_none() {
                    print!("{}", describe::describe(&Sheet::of_accepted(&small)));
                }
                println!(
                    "expected:\n{}printed:\n{}",
                    crate::answer::passprint(&mut rust, &small),
                    printed(path, &small)
                );
                return false;
            }
        }
    }
    println!("{path}: {checked} sheets");
    true
}
