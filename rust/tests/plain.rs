//! The plain matcher: every small matrix beside the fast one, and what is refused.

use dispatch_bench::{
    CEILING, Choice, NotSmall, PLAIN_CARS, PLAIN_COLUMNS, SENTINEL, choose, choose_plain,
};

/// Matrix `k` of so many cells, each one of these values: the digits of `k`, the first one most significant.
fn matrix(k: usize, cells: usize, values: &[u64]) -> Vec<u64> {
    let digit = |place: usize| k / values.len().pow((cells - 1 - place) as u32) % values.len();
    (0..cells).map(|place| values[digit(place)]).collect()
}

/// The lines of the program every_matrix, whose text is proved and held to a solver of another kind: matrix, columns, total.
#[test]
fn every_matrix() {
    let lines = include_str!("../../crates/every_matrix/stdout");
    assert_eq!(lines.lines().count(), 729);
    for (k, line) in lines.lines().enumerate() {
        let cells = matrix(k, 6, &[0, 1, 2]);
        let choice = choose_plain(2, 3, &cells).unwrap();
        assert_eq!(choose(2, 3, &cells).as_ref(), Some(&choice));
        let digits: String = cells.iter().map(u64::to_string).collect();
        let [first, second] = choice.columns[..] else {
            panic!("{choice:?}");
        };
        assert_eq!(line, format!("{digits} {first} {second} {}", choice.total));
    }
}

/// Every shape that is taken, with cells where equal totals leave unlike numbers of cars standing: both matchers choose the same.
#[test]
fn as_the_fast_one() {
    let mut choices = 0;
    for cars in 0..=PLAIN_CARS {
        for columns in cars..=PLAIN_COLUMNS {
            let cells = cars * columns;
            let values: &[u64] = match cells {
                0..=6 => &[1, 2, CEILING, SENTINEL],
                7..=9 => &[0, CEILING, SENTINEL],
                _ => &[CEILING, SENTINEL],
            };
            let all = values.len().pow(cells as u32);
            for k in (0..all).step_by(1 + all / 5_000) {
                let cells = matrix(k, cells, values);
                let choice = choose_plain(cars, columns, &cells).ok();
                assert!(choice.is_some(), "{cars} {columns} {cells:?}");
                let fast = choose(cars, columns, &cells);
                assert_eq!(choice, fast, "{cars} {columns} {cells:?}");
                choices += 1;
            }
        }
    }
    assert!(choices > 30_000);
}

/// F-9's cells: the choice that sends both cars comes first; and the worked matrix of docs/manual/teachers.md.
#[test]
fn worked_matrices() {
    for (cars, columns, cells, chosen, total) in [
        (
            2,
            2,
            &[1, CEILING, 2, SENTINEL][..],
            &[1, 0][..],
            CEILING + 2,
        ),
        (2, 3, &[2, 0, 1, 1, 0, 2], &[1, 0], 1),
        (3, 3, &[4, 1, 3, 2, 0, 5, 3, 2, 2], &[1, 0, 2], 5),
        (0, 5, &[], &[], 0),
    ] {
        let choice = Choice {
            columns: chosen.to_vec(),
            total,
        };
        assert_eq!(choose_plain(cars, columns, cells), Ok(choice), "{cells:?}");
    }
}

#[test]
fn refused() {
    for (cars, columns, cells) in [
        (5, 5, 25),
        (4, 6, 24),
        (0, 6, 0),
        (2, 1, 2),
        (1, 0, 0),
        (2, 3, 5),
        (2, 3, 7),
        (0, 0, 1),
        (usize::MAX, 2, 0),
        (2, usize::MAX, 0),
        (usize::MAX, usize::MAX, 0),
    ] {
        let answer = choose_plain(cars, columns, &vec![0; cells]);
        assert_eq!(answer, Err(NotSmall), "{cars} {columns} {cells}");
    }
    for place in 0..6 {
        let mut cells = [SENTINEL; 6];
        assert!(choose_plain(2, 3, &cells).is_ok());
        for above in [SENTINEL + 1, u64::MAX] {
            cells[place] = above;
            assert_eq!(choose_plain(2, 3, &cells), Err(NotSmall), "{cells:?}");
        }
    }
}

/// The header's numbers are the crate's, and the sentence of the refusal is that of docs/manual/desk.md.
#[test]
fn numbers_and_sentences() {
    let header = include_str!("../../include/dispatch_bench.h");
    for said in [
        format!("DISPATCH_BENCH_NOT_SMALL = {} ", NotSmall::NUMBER),
        format!("#define DISPATCH_BENCH_PLAIN_CARS {PLAIN_CARS}\n"),
        format!("#define DISPATCH_BENCH_PLAIN_COLUMNS {PLAIN_COLUMNS}\n"),
    ] {
        assert_eq!(header.matches(&said).count(), 1, "{said}");
    }
    let (rule, remedy) = (NotSmall.rule(), NotSmall.remedy());
    assert_eq!(NotSmall.to_string(), format!("refused 22: {rule}"));
    let manual = include_str!("../../docs/manual/desk.md");
    let row = format!("| 22 | {rule} | {remedy} |");
    assert_eq!(manual.matches(&row).count(), 1, "{row}");
}
