// Writes the list that the program replay_choices reads, matrices with their choices by the solver, which on the small matrices is held to a search
// of every choice; and the lines of the program every_matrix by the same solver.
//   rustc -O -o choices main.rs
//   ./choices list > crates/replay_choices/stdin
//   ./choices every > crates/every_matrix/stdout
use std::io::Write;

use solver::{SENTINEL, choice, every_choice};

mod solver;

fn random(s: u64) -> u64 {
    let a = s ^ (s << 13);
    let b = a ^ (a >> 7);
    b ^ (b << 17)
}

// any number, few values, all equal, all sentinel, mostly sentinel, a chain of prices, distances
fn cell(kind: u64, r: u64, i: u64, j: u64) -> u64 {
    match kind {
        0 => r % SENTINEL,
        1 => r % 3,
        2 => 5,
        3 => SENTINEL,
        4 => if r % 10 == 0 { r / 16 % 1000 } else { SENTINEL },
        5 => (i + 1) * (j + 1),
        _ => (2 * i).abs_diff(j),
    }
}

// few values, so that there are ties, or the sentinel, or one less
fn some_cell(r: u64, values: u64) -> u64 {
    match r % 8 {
        0 => SENTINEL,
        1 => SENTINEL - 1,
        _ => r / 8 % values,
    }
}

// mostly the sentinel and one less, by turns
fn near_sentinel(code: usize) -> u64 {
    match code {
        0 => 0,
        1 => 1,
        _ => SENTINEL - code as u64 % 2,
    }
}

// cars by twos with cells as in document 02's F-9, in any order of cars and columns, else the sentinel
fn pairs_of_cars(n: usize, m: usize, seed: u64) -> Vec<u64> {
    let mut s = seed + 88172645463325252;
    let mut order = |k: usize| {
        let mut places: Vec<usize> = (0..k).collect();
        for i in (1..k).rev() {
            s = random(s);
            places.swap(i, (s >> 20) as usize % (i + 1));
        }
        places
    };
    let (rows, columns) = (order(n), order(m));
    let mut cells = vec![SENTINEL; n * m];
    for k in 0..n {
        let pair = k / 2 * 2;
        cells[rows[k] * m + columns[pair]] = k as u64 % 2;
        cells[rows[k] * m + columns[pair + 1]] = SENTINEL - 1 + k as u64 % 2;
    }
    cells
}

// One case: crates/replay_choices/src/main.rt says how it is stored.
fn store(n: usize, m: usize, cells: &[u64], places: usize) {
    let answer = choice(n, m, cells, places);
    if let Some(found) = &answer {
        if n <= 4 && m <= 5 {
            assert_eq!(*found, every_choice(n, m, cells));
        }
    }
    let most = cells.iter().copied().max().unwrap_or(0);
    let width = (1..8).find(|w| most < 1 << (8 * w)).expect("a cell of up to 7 bytes");
    let mut out = vec![n as u8, m as u8, places as u8, width as u8];
    out.extend((cells.len() as u16).to_be_bytes());
    for x in cells {
        out.extend(&x.to_be_bytes()[8 - width..]);
    }
    let (total, columns) = answer.clone().unwrap_or((0, Vec::new()));
    out.push(answer.is_some() as u8);
    out.extend(total.to_be_bytes());
    out.extend((0..places).map(|k| columns.get(k).map_or(99, |&j| j as u8)));
    std::io::stdout().write_all(&out).expect("standard output");
}

fn of_kind(n: usize, m: usize, kind: u64, seed: u64) -> Vec<u64> {
    let mut s = seed;
    (0..n * m)
        .map(|k| {
            s = random(s);
            cell(kind, s, (k / m) as u64, (k % m) as u64)
        })
        .collect()
}

// A line for each matrix of 2 cars and 3 columns with cells 0 to 2: its cells, the columns, the total.
fn every_matrix() {
    for code in 0..729 {
        let cells: Vec<u64> = (0..6).rev().map(|k| code / 3u64.pow(k) % 3).collect();
        let found = choice(2, 3, &cells, 2).expect("a choice");
        assert_eq!(found, every_choice(2, 3, &cells));
        let digits: String = cells.iter().map(u64::to_string).collect();
        println!("{digits} {} {} {}", found.1[0], found.1[1], found.0);
    }
}

fn main() {
    match std::env::args().nth(1).as_deref() {
        Some("list") => list(),
        Some("every") => every_matrix(),
        _ => {
            eprintln!("usage: choices list | every");
            std::process::exit(2);
        }
    }
}

// Every matrix of 2 cars and 3 columns with cells 0 to 2 is a line of every_matrix, and not stored here once more.
fn list() {
    for (n, m, values) in [(1, 1, 2), (1, 5, 2), (2, 2, 3), (2, 5, 3), (3, 3, 3), (3, 4, 2), (3, 5, 4), (4, 4, 3), (4, 5, 2), (4, 5, 9)] {
        for seed in 1..101 {
            let mut s = seed + 88172645463325252;
            let cells: Vec<u64> = (0..n * m)
                .map(|_| {
                    s = random(s);
                    some_cell(s, values)
                })
                .collect();
            store(n, m, &cells, n + seed as usize % 2);
        }
    }
    // equal totals that leave unlike numbers of cars standing: the ceiling and one more, or the sentinel and one less
    for code in 0..256usize {
        let cells: Vec<u64> = (0..4).map(|k| near_sentinel(code >> (2 * k) & 3)).collect();
        store(2, 2, &cells, 2);
    }
    for n in [3, 4] {
        for seed in 1..61 {
            let mut s = seed + 88172645463325252;
            let cells: Vec<u64> = (0..n * n)
                .map(|_| {
                    s = random(s);
                    near_sentinel((s >> 20) as usize % (2 * n))
                })
                .collect();
            store(n, n, &cells, n);
        }
    }
    for (n, m) in [(4, 4), (4, 5), (8, 8), (8, 9), (32, 32)] {
        for seed in 1..if n == 32 { 2 } else { 11 } {
            store(n, m, &pairs_of_cars(n, m, seed), n);
        }
    }
    // document 01's P1 to P3, document 02's F-9
    store(2, 2, &[1, 2, 1, 9], 2);
    store(2, 2, &[5, 5, 5, 5], 2);
    store(2, 2, &[SENTINEL - 1, 1, SENTINEL, SENTINEL - 1], 2);
    store(2, 2, &[1, SENTINEL - 1, 2, SENTINEL], 2);
    for (n, m) in [(1, 64), (7, 10), (32, 32), (32, 64)] {
        for kind in 0..7 {
            let seeds: &[u64] = if [0, 1, 4].contains(&kind) { &[1, 20201, 88172645463325252] } else { &[1] };
            for &seed in seeds {
                store(n, m, &of_kind(n, m, kind, seed), n);
            }
        }
    }
    // no cars, with and without columns and places; then what is refused, and what is just not
    store(0, 0, &[], 0);
    store(0, 64, &[], 3);
    store(1, 0, &[], 1);
    store(2, 1, &[1, 2], 2);
    store(33, 33, &of_kind(33, 33, 1, 1), 33);
    store(33, 64, &[], 33);
    store(32, 65, &[], 32);
    store(1, 65, &of_kind(1, 65, 1, 1), 1);
    store(64, 32, &of_kind(64, 32, 1, 1), 64);
    store(2, 3, &[1, 2, 3, 4, 5], 2);
    store(2, 3, &[1, 2, 3, 4, 5, 6, 7], 2);
    store(3, 3, &[0; 9], 2);
    store(3, 3, &[0; 9], 0);
    store(1, 2, &[SENTINEL, SENTINEL + 1], 1);
    store(1, 2, &[SENTINEL + 1, 0], 1);
    store(1, 2, &[SENTINEL, SENTINEL], 64);
}
