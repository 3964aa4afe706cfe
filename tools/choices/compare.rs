// The proved matchers, the plain one and the fast one, beside the solver: every matrix of a shape with cells of a few values. Prints how many were
// compared; ends with 1 at the first that differs. `selftest` puts wrong choices in the solver's stead, which must each be told from the matchers'.
//   rustc -O -L FOLDER -l static=dispatch_bench -o compare compare.rs && ./compare few|all|selftest
use solver::{SENTINEL, choice, every_choice};

mod solver;

// Cars, columns, the cells and how many, the places and how many, the total.
unsafe extern "C" {
    fn dispatch_bench_choose(_: usize, _: usize, _: *const u64, _: usize, _: *mut u32, _: usize, _: *mut u64) -> u32;
    fn dispatch_bench_choose_plain(_: usize, _: usize, _: *const u64, _: usize, _: *mut u32, _: usize, _: *mut u64) -> u32;
}

type Matcher = unsafe extern "C" fn(usize, usize, *const u64, usize, *mut u32, usize, *mut u64) -> u32;

const PLACES: usize = 6;
const KEPT: u32 = 99;

// What a matcher answers, and leaves in the places and in the total.
fn ask(matcher: Matcher, n: usize, m: usize, cells: &[u64]) -> (u32, [u32; PLACES], u64) {
    let (mut places, mut total) = ([KEPT; PLACES], u64::MAX);
    // SAFETY: both slices are lent as their addresses and lengths, and the total as the address of one `u64`.
    let answer = unsafe { matcher(n, m, cells.as_ptr(), cells.len(), places.as_mut_ptr(), PLACES, &mut total) };
    (answer, places, total)
}

// What stands beside the matchers: the solver with a search of every choice, or a wrong choice.
#[derive(Clone, Copy, Debug)]
enum Beside {
    Solver,
    LastOfEquals,
    MostCarsUnasked,
    TotalOfTheFirst,
    TakenAgain,
    FewestSent,
}

const WRONG: [Beside; 5] = [Beside::LastOfEquals, Beside::MostCarsUnasked, Beside::TotalOfTheFirst, Beside::TakenAgain, Beside::FewestSent];

// The first of every choice by an order of its own: the total, how many are left standing, the columns.
fn first_by<K: Ord>(n: usize, m: usize, cells: &[u64], key: impl Fn(u64, usize, &[usize]) -> K) -> (u64, Vec<usize>) {
    let mut choices = vec![Vec::new()];
    for _ in 0..n {
        let longer = |c: &Vec<usize>| (0..m).filter(|j| !c.contains(j)).map(|j| [&c[..], &[j]].concat()).collect::<Vec<_>>();
        choices = choices.iter().flat_map(longer).collect();
    }
    let of = |c: &[usize]| {
        let chosen = c.iter().enumerate().map(|(i, j)| cells[i * m + j]);
        (chosen.clone().sum::<u64>(), chosen.filter(|&x| x == SENTINEL).count())
    };
    let best = choices.into_iter().min_by_key(|c| key(of(c).0, of(c).1, c)).expect("a choice");
    (of(&best).0, best)
}

fn choice_of(beside: Beside, n: usize, m: usize, cells: &[u64], code: u64) -> (u64, Vec<usize>) {
    let right = || choice(n, m, cells, PLACES).expect("a choice");
    match beside {
        Beside::Solver if code % 7 == 0 => every_choice(n, m, cells),
        Beside::Solver => right(),
        Beside::LastOfEquals => first_by(n, m, cells, |total, standing, c| (total, standing, c.iter().map(|j| m - j).collect::<Vec<_>>())),
        Beside::MostCarsUnasked => first_by(n, m, cells, |total, _, c| (total, c.to_vec())),
        Beside::FewestSent => first_by(n, m, cells, |total, standing, c| (total, n - standing, c.to_vec())),
        Beside::TotalOfTheFirst => {
            let (_, columns) = right();
            (columns.first().map_or(0, |&j| cells[j]), columns)
        }
        Beside::TakenAgain => {
            let nearest = |i: usize| (0..m).min_by_key(|j| cells[i * m + j]).expect("a column");
            let columns: Vec<usize> = (0..n).map(nearest).collect();
            (columns.iter().enumerate().map(|(i, j)| cells[i * m + j]).sum(), columns)
        }
    }
}

// Where a matcher differs from what stands beside it.
fn difference(n: usize, m: usize, cells: &[u64], (total, columns): (u64, Vec<usize>)) -> Option<String> {
    let mut places = [KEPT; PLACES];
    for (place, column) in places.iter_mut().zip(columns) {
        *place = column as u32;
    }
    for (name, matcher, found) in [("plain", dispatch_bench_choose_plain as Matcher, 0), ("fast", dispatch_bench_choose, 1)] {
        let answer = ask(matcher, n, m, cells);
        if answer != (found, places, total) {
            return Some(format!("{n} cars, {m} columns, {cells:?}: the {name} matcher answers {answer:?}, and not {:?}", (found, places, total)));
        }
    }
    None
}

// Every matrix of n cars and m columns whose cells are of these values: their number, or the first difference.
fn every(n: usize, m: usize, values: &[u64], beside: Beside) -> Result<u64, String> {
    let count = (values.len() as u64).pow((n * m) as u32);
    let mut cells = vec![0; n * m];
    for code in 0..count {
        let mut rest = code;
        for cell in &mut cells {
            *cell = values[(rest % values.len() as u64) as usize];
            rest /= values.len() as u64;
        }
        if let Some(found) = difference(n, m, &cells, choice_of(beside, n, m, &cells, code)) {
            return Err(found);
        }
    }
    Ok(count)
}

const SETS: [&[u64]; 4] = [&[0, 1], &[0, 1, 2], &[0, SENTINEL - 1, SENTINEL], &[1, 2, SENTINEL - 1, SENTINEL]];

// The shapes and values that have at most so many matrices.
fn compare(most: u64, beside: Beside) -> Result<u64, String> {
    let mut compared = 0;
    for n in 0..5 {
        for m in n..6 {
            for values in SETS {
                if (values.len() as u64).pow((n * m) as u32) <= most {
                    compared += every(n, m, values, beside)?;
                }
            }
        }
    }
    Ok(compared)
}

fn run(most: u64) -> Result<String, String> {
    compare(most, Beside::Solver).map(|compared| format!("{compared} matrices, no difference"))
}

fn selftest() -> Result<String, String> {
    for wrong in WRONG {
        if compare(20_000, wrong).is_ok() {
            return Err(format!("{wrong:?} is not told from the matchers"));
        }
    }
    Ok(format!("{} wrong choices are each told from the matchers'", WRONG.len()))
}

fn main() {
    let said = match std::env::args().nth(1).as_deref() {
        Some("few") => run(20_000),
        Some("all") => run(1 << 21),
        Some("selftest") => selftest(),
        _ => Err("usage: compare few | all | selftest".to_string()),
    };
    match said {
        Ok(line) => println!("{line}"),
        Err(line) => {
            eprintln!("{line}");
            std::process::exit(1);
        }
    }
}
