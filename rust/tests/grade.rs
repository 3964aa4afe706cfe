//! Choices that a site sends, with its prices, over the sheets of ../fuzz/corpus_pass.

use std::path::Path;

use dispatch_bench::{
    Grade, MOST_PRICE, Pass, Refusal, Sent, choose, grade, grade_into, pass, read,
};

const EXAMPLE: &[u8] = include_bytes!("../../crates/passprint/stdin");

/// The example's cells: 10,000,000 and 20,000,000 for the first car, 10,000,000 and 0 for the second.
const LEAST: Sent<'static> = Sent {
    columns: &[0, 1],
    car_prices: &[10_000_000, 5_000_000],
    column_prices: &[0, -5_000_000],
};

fn corpus() -> Vec<(String, Vec<u8>)> {
    let folder = Path::new(env!("CARGO_MANIFEST_DIR")).join("../fuzz/corpus_pass");
    let entries = std::fs::read_dir(folder).unwrap();
    let sheets = entries.map(|entry| {
        let path = entry.unwrap().path();
        let name = path.file_name().unwrap().to_string_lossy().into_owned();
        (name, std::fs::read(path).unwrap())
    });
    sheets.collect()
}

/// Prices that show a least choice. A column's is the least of 0 and, for each car that might take it instead of its own column, that column's
/// price and what the car would cost more there.
fn prices(pass: &Pass, columns: &[u32]) -> (Vec<i64>, Vec<i64>) {
    let width = pass.columns();
    let cell = |car: usize, column: usize| pass.matrix[car * width + column] as i64;
    let mut of_columns = vec![0; width];
    for _ in 0..=width {
        for (car, own) in columns.iter().enumerate() {
            let own = *own as usize;
            for column in 0..width {
                let most = of_columns[own] + cell(car, column) - cell(car, own);
                of_columns[column] = of_columns[column].min(most);
            }
        }
    }
    let of_car = |(car, own): (usize, &u32)| cell(car, *own as usize) - of_columns[*own as usize];
    (columns.iter().enumerate().map(of_car).collect(), of_columns)
}

fn refused(number: u32) -> Result<Grade, Refusal> {
    Err(Refusal { number, offset: 0 })
}

#[test]
fn the_example() {
    assert_eq!(grade(EXAMPLE, &LEAST), Ok(Grade::Least));
    let spoilt = [
        Sent {
            columns: &[1, 0],
            ..LEAST
        },
        Sent {
            car_prices: &[10_000_001, 5_000_000],
            ..LEAST
        },
        Sent {
            car_prices: &[9_999_999, 5_000_000],
            ..LEAST
        },
        Sent {
            car_prices: &[9_999_999, 5_000_000],
            column_prices: &[1, -5_000_000],
            ..LEAST
        },
        Sent {
            car_prices: &[10_000_000, 11_000_000],
            column_prices: &[0, -11_000_000],
            ..LEAST
        },
    ];
    for sent in spoilt {
        assert_eq!(grade(EXAMPLE, &sent), Ok(Grade::NotShown), "{sent:?}");
    }
}

/// Prices at the ends of their range sum without wrapping.
#[test]
fn the_ends_of_the_range() {
    for car in [-MOST_PRICE, MOST_PRICE] {
        for column in [-MOST_PRICE, MOST_PRICE] {
            let (cars, columns) = ([car; 2], [column; 2]);
            let sent = Sent {
                car_prices: &cars,
                column_prices: &columns,
                ..LEAST
            };
            assert_eq!(grade(EXAMPLE, &sent), Ok(Grade::NotShown), "{sent:?}");
        }
    }
    for beyond in [-MOST_PRICE - 1, MOST_PRICE + 1, i64::MIN, i64::MAX] {
        for k in 0..2 {
            let (mut cars, mut columns) = ([0; 2], [0; 2]);
            cars[k] = beyond;
            assert_eq!(
                grade(
                    EXAMPLE,
                    &Sent {
                        car_prices: &cars,
                        ..LEAST
                    }
                ),
                refused(20)
            );
            columns[k] = beyond;
            assert_eq!(
                grade(
                    EXAMPLE,
                    &Sent {
                        column_prices: &columns,
                        ..LEAST
                    }
                ),
                refused(20)
            );
        }
    }
}

#[test]
fn refusals_in_their_order() {
    let columns: [&[u32]; 6] = [&[], &[0], &[0, 1, 0], &[0, 2], &[1, 1], &[u32::MAX, 0]];
    for columns in columns {
        assert_eq!(
            grade(EXAMPLE, &Sent { columns, ..LEAST }),
            refused(19),
            "{columns:?}"
        );
        let no_prices = Sent {
            columns,
            car_prices: &[],
            column_prices: &[],
        };
        assert_eq!(grade(EXAMPLE, &no_prices), refused(19), "{columns:?}");
        assert_eq!(grade(b"", &no_prices).unwrap_err(), read(b"").unwrap_err());
    }
    let prices: [&[i64]; 3] = [&[], &[0], &[0; 3]];
    for prices in prices {
        assert_eq!(
            grade(
                EXAMPLE,
                &Sent {
                    car_prices: prices,
                    ..LEAST
                }
            ),
            refused(20)
        );
        assert_eq!(
            grade(
                EXAMPLE,
                &Sent {
                    column_prices: prices,
                    ..LEAST
                }
            ),
            refused(20)
        );
    }
}

/// A refusal keeps the matrix, an answer the cells past its own; a short one is refused before anything else.
#[test]
fn a_matrix_is_lent_again() {
    let mut matrix = [99; 2_050];
    let twice = Sent {
        columns: &[0, 0],
        ..LEAST
    };
    let beyond = Sent {
        car_prices: &[0, i64::MAX],
        ..LEAST
    };
    for sent in [twice, beyond] {
        assert!(grade_into(EXAMPLE, &sent, &mut matrix).is_err());
        assert!(grade_into(EXAMPLE, &sent, &mut matrix[..2_047]).is_err_and(|r| r.number == 1));
    }
    for sheet in [EXAMPLE, b""] {
        let refusal = grade_into(sheet, &LEAST, &mut matrix[..2_047]).unwrap_err();
        assert_eq!((refusal.number, refusal.offset), (1, 0));
    }
    assert!(matrix.iter().all(|cell| *cell == 99));
    let graded = grade_into(EXAMPLE, &LEAST, &mut matrix).unwrap();
    assert_eq!(
        (graded.grade, graded.matrix),
        (Grade::Least, &pass(EXAMPLE).unwrap().matrix[..])
    );
    assert!(matrix[4..].iter().all(|cell| *cell == 99));
}

/// Of each stored sheet the choice of its matrix is least, with prices that show it, and one with two columns exchanged, or with a free one in
/// the place of its own, is where its total is the same and not shown where it is larger; the matrix is that of the pass.
#[test]
fn choices_of_stored_sheets() {
    let (mut least, mut larger) = (0, 0);
    for (name, sheet) in corpus() {
        let none = Sent {
            columns: &[],
            car_prices: &[],
            column_prices: &[],
        };
        let Ok(pass) = pass(&sheet) else {
            assert_eq!(grade(&sheet, &none).err(), read(&sheet).err(), "{name}");
            continue;
        };
        let width = pass.columns();
        let chosen = choose(pass.cars, width, &pass.matrix).unwrap();
        let mut others = vec![chosen.columns.clone()];
        for k in 0..pass.cars {
            let mut exchanged = chosen.columns.clone();
            exchanged.swap(0, k);
            others.push(exchanged);
            if let Some(free) = (0..width as u32).find(|j| !chosen.columns.contains(j)) {
                let mut moved = chosen.columns.clone();
                moved[k] = free;
                others.push(moved);
            }
        }
        for columns in others {
            let cells = columns
                .iter()
                .enumerate()
                .map(|(i, j)| pass.matrix[i * width + *j as usize]);
            let is_least = cells.sum::<u64>() == chosen.total;
            // A choice that is not least has no prices of its own.
            let shown = if is_least { &columns } else { &chosen.columns };
            let (cars, prices) = prices(&pass, shown);
            let sent = Sent {
                columns: &columns,
                car_prices: &cars,
                column_prices: &prices,
            };
            let mut matrix = vec![99; 2_048];
            let graded = grade_into(&sheet, &sent, &mut matrix).unwrap();
            assert_eq!(graded.grade == Grade::Least, is_least, "{name} {sent:?}");
            assert_eq!(graded.matrix, pass.matrix, "{name}");
            least += usize::from(is_least);
            larger += usize::from(!is_least);
        }
    }
    assert!(least > 50 && larger > 50, "{least} {larger}");
}

/// The header's range is the crate's, and the sentences of the refusals are those of docs/manual/desk.md.
#[test]
fn numbers_and_sentences() {
    let header = include_str!("../../include/dispatch_bench.h");
    let define = format!("#define DISPATCH_BENCH_MOST_PRICE INT64_C({MOST_PRICE})\n");
    assert_eq!(header.matches(&define).count(), 1);
    let manual = include_str!("../../docs/manual/desk.md");
    for (number, name) in [(19, "COLUMNS"), (20, "PRICES")] {
        assert_eq!(
            header
                .matches(&format!("DISPATCH_BENCH_{name} = {number}"))
                .count(),
            1
        );
        let refusal = Refusal { number, offset: 0 };
        let row = format!("| {number} | {} | {} |", refusal.rule(), refusal.remedy());
        assert_eq!(manual.matches(&row).count(), 1, "{row}");
    }
}
