// Times the matcher, the whole choice with most cars and lowest columns, beside an exact solver in Rust that finds the least total alone. Both see
// the same matrices of 32 cars and 64 columns in one run, in turn; the least time of many short rounds is taken of each, so that other load on the
// machine does not count. See run.sh.
use std::hint::black_box;
use std::time::Instant;

const CARS: usize = 32;
const COLUMNS: usize = 64;
const SENTINEL: u64 = 1 << 48;
const ROUNDS: usize = 300;

extern "C" {
    // A slice is its pointer and its length.
    fn dispatch_bench_choose(
        cars: usize,
        columns: usize,
        cells: *const u64,
        cell_count: usize,
        chosen: *mut u32,
        places: usize,
        total: *mut u64,
    ) -> u32;
}

fn choose(cells: &[u64], chosen: &mut [u32; CARS]) -> u64 {
    let mut total = 0;
    let answer = unsafe { dispatch_bench_choose(CARS, COLUMNS, cells.as_ptr(), cells.len(), chosen.as_mut_ptr(), CARS, &mut total) };
    assert_eq!(answer, 1);
    total
}

// The Hungarian method by row insertion, O(n² m), as it is usually written: rows and columns from 1, potentials u and v, column 0 for the new row.
fn least_total(cells: &[u64]) -> u64 {
    let mut u = [0i64; CARS + 1];
    let mut v = [0i64; COLUMNS + 1];
    let mut row_of = [0usize; COLUMNS + 1];
    let mut way = [0usize; COLUMNS + 1];
    for i in 1..=CARS {
        row_of[0] = i;
        let mut slack = [i64::MAX; COLUMNS + 1];
        let mut used = [false; COLUMNS + 1];
        let mut j0 = 0;
        loop {
            used[j0] = true;
            let i0 = row_of[j0];
            let row = &cells[(i0 - 1) * COLUMNS..i0 * COLUMNS];
            let mut delta = i64::MAX;
            let mut j1 = 0;
            for j in 1..=COLUMNS {
                if !used[j] {
                    let reduced = row[j - 1] as i64 - u[i0] - v[j];
                    if reduced < slack[j] {
                        slack[j] = reduced;
                        way[j] = j0;
                    }
                    if slack[j] < delta {
                        delta = slack[j];
                        j1 = j;
                    }
                }
            }
            for j in 0..=COLUMNS {
                if used[j] {
                    u[row_of[j]] += delta;
                    v[j] -= delta;
                } else {
                    slack[j] -= delta;
                }
            }
            j0 = j1;
            if row_of[j0] == 0 {
                break;
            }
        }
        while j0 != 0 {
            let j1 = way[j0];
            row_of[j0] = row_of[j1];
            j0 = j1;
        }
    }
    (1..=COLUMNS).filter(|&j| row_of[j] != 0).map(|j| cells[(row_of[j] - 1) * COLUMNS + j - 1]).sum()
}

struct Random(u64);

impl Random {
    fn next(&mut self) -> u64 {
        self.0 ^= self.0 << 13;
        self.0 ^= self.0 >> 7;
        self.0 ^= self.0 << 17;
        self.0
    }
}

type Profile = (&'static str, fn(u64, u64, &mut Random) -> u64);

const PROFILES: [Profile; 20] = [
    ("random below the sentinel", |_, _, r| r.next() % SENTINEL),
    ("random below 1,000,000", |_, _, r| r.next() % 1_000_000),
    ("all equal", |_, _, _| 5),
    ("all sentinel", |_, _, _| SENTINEL),
    ("ties: 2 values", |_, _, r| r.next() % 2),
    ("ties: 4 values", |_, _, r| r.next() % 4),
    ("ties: 16 values", |_, _, r| r.next() % 16),
    ("ties: 32 values", |_, _, r| r.next() % 32),
    ("ties: 64 values", |_, _, r| r.next() % 64),
    ("ties: 128 values", |_, _, r| r.next() % 128),
    ("one cell in 10, else sentinel", |_, _, r| if r.next() % 10 == 0 { r.next() % 1_000_000 } else { SENTINEL }),
    ("one cell in 10, 3 values", |_, _, r| if r.next() % 10 == 0 { r.next() % 3 } else { SENTINEL }),
    ("20 stops, else sentinel", |_, j, r| if j < 20 { r.next() % 1_000_000 } else { SENTINEL }),
    ("chain: (i + 1) (j + 1)", |i, j, _| (i + 1) * (j + 1)),
    ("chain: (32 - i) (64 - j)", |i, j, _| (32 - i) * (64 - j)),
    ("chain, then sentinel", |i, j, _| if j < 32 { (i + 1) * (j + 1) } else { SENTINEL }),
    ("chain: min (i, j)", |i, j, _| i.min(j)),
    ("row + column", |i, j, _| i * 37 % 101 + j * 53 % 97),
    ("row + column + noise", |i, j, r| i * 37 % 101 + j * 53 % 97 + r.next() % 10),
    ("distance on a line", |i, j, _| (i * 37 % 64).abs_diff(j * 53 % 64)),
];

fn main() {
    let mut random = Random(88172645463325252);
    let mut worst: (f64, f64) = (0.0, 0.0);
    println!("{:32}{:>12}{:>12}{:>8}", "profile, 32 x 64", "Rust, us", "bench, us", "ratio");
    for (name, cell) in PROFILES {
        let matrices: Vec<Vec<u64>> = (0..20)
            .map(|_| (0..CARS * COLUMNS).map(|k| cell((k / COLUMNS) as u64, (k % COLUMNS) as u64, &mut random)).collect())
            .collect();
        let mut chosen = [0u32; CARS];
        for cells in &matrices {
            assert_eq!(choose(cells, &mut chosen), least_total(cells), "{name}");
        }
        let (mut rust, mut bench, mut one) = (f64::MAX, f64::MAX, 0.0f64);
        let mut each = vec![f64::MAX; matrices.len()];
        for _ in 0..ROUNDS {
            let start = Instant::now();
            for cells in &matrices {
                black_box(least_total(black_box(cells)));
            }
            rust = rust.min(start.elapsed().as_secs_f64());
            let start = Instant::now();
            for cells in &matrices {
                black_box(choose(black_box(cells), &mut chosen));
            }
            bench = bench.min(start.elapsed().as_secs_f64());
            for (cells, least) in matrices.iter().zip(&mut each) {
                let start = Instant::now();
                black_box(choose(black_box(cells), &mut chosen));
                *least = least.min(start.elapsed().as_secs_f64());
            }
        }
        for least in each {
            one = one.max(least);
        }
        let scale = 1e6 / matrices.len() as f64;
        println!("{:32}{:12.1}{:12.1}{:8.2}", name, rust * scale, bench * scale, bench / rust);
        worst = (worst.0.max(bench / rust), worst.1.max(one));
    }
    println!("largest ratio {:.2}; slowest matrix {:.0} us", worst.0, worst.1 * 1e6);
}
