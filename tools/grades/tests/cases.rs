//! Choices by name: what the proved grader and the second one answer. The sheets are of SCAN, whose cells are distances in millionths: car i + 1
//! stands at 10 i, and somebody calls at each of the stops.

use dispatch_bench::{Grade, Refusal, Sent, grade};
use sheetgen::grade::{Answer, Grader, LEAST_CELLS, MOST_PRICE, Matrix, Sent as Owned};
use sheetgen::sheet::SCAN;
use sheetgen::{Car, Demand, Line, Sheet, Stop};

const M: i64 = 1_000_000;
const SENTINEL: i64 = 1 << 48;

/// So many idle cars at 0, 10, 20, .., all sweeping up, and calls at these positions.
fn sheet(cars: u32, positions: &[f64]) -> Vec<u8> {
    let mut sheet = Sheet::new(SCAN);
    for (k, position) in positions.iter().enumerate() {
        let (id, position) = (k as u32 + 1, *position);
        sheet.stops.push(Stop::at(id, position));
        let stop = id;
        sheet.demands.push(Demand {
            stop,
            riding: 0,
            call: true,
        });
    }
    sheet.lines.push(Line {
        id: 1,
        mask: u64::MAX << (64 - positions.len().max(1)),
    });
    for car in 0..cars {
        let position = f64::from(10 * car);
        sheet.cars.push(Car {
            id: car + 1,
            position,
            idle: true,
            capacity: 800.0,
            ..Car::parked(1)
        });
    }
    if positions.is_empty() {
        sheet.lines[0].mask = 0;
    }
    sheet.write()
}

fn matrix(sheet: &[u8]) -> Matrix {
    let pass = dispatch_bench::pass(sheet).unwrap();
    Matrix {
        cars: pass.cars,
        stops: pass.stops,
        cells: pass.matrix,
    }
}

/// `Ok(true)` for least, or the number.
type Wanted = Result<bool, u32>;

fn asked(name: &str, sheet: &[u8], columns: &[u32], cars: &[i64], prices: &[i64], wanted: Wanted) {
    let sent = Sent {
        columns,
        car_prices: cars,
        column_prices: prices,
    };
    let proved = match grade(sheet, &sent) {
        Ok(grade) => Ok(grade == Grade::Least),
        Err(Refusal { number, offset }) => {
            assert_eq!(offset, 0, "{name}");
            Err(number)
        }
    };
    assert_eq!(proved, wanted, "{name}");
    let sent = Owned {
        columns: columns.to_vec(),
        car_prices: cars.to_vec(),
        column_prices: prices.to_vec(),
        lent: LEAST_CELLS,
    };
    let second = match (Grader { fault: None }).answer(Ok(&matrix(sheet)), &sent) {
        Answer::Least => Ok(true),
        Answer::NotShown => Ok(false),
        Answer::Refused(refusal) => Err(refusal.number),
    };
    assert_eq!(second, wanted, "{name}, second");
}

/// Cars at 0 and 10, calls at 20 and 30: the cells are 20 and 30, 10 and 20, and both choices have the total 40.
#[test]
fn two_cars_two_stops() {
    let sheet = sheet(2, &[20.0, 30.0]);
    assert_eq!(matrix(&sheet).cells, [20, 30, 10, 20].map(|c| c * M as u64));
    let ask = |name, columns: &[u32], cars: [i64; 2], prices: [i64; 2], wanted| {
        asked(
            name,
            &sheet,
            columns,
            &cars.map(|p| p * M),
            &prices.map(|p| p * M),
            wanted,
        );
    };
    ask("the pass's", &[0, 1], [30, 20], [-10, 0], Ok(true));
    ask(
        "the other with the same total",
        &[1, 0],
        [30, 20],
        [-10, 0],
        Ok(true),
    );
    ask(
        "both columns below zero",
        &[1, 0],
        [35, 25],
        [-15, -5],
        Ok(true),
    );
    ask(
        "column prices above zero",
        &[0, 1],
        [10, 0],
        [10, 20],
        Ok(false),
    );
    ask(
        "a sum above its cell",
        &[0, 1],
        [40, 30],
        [-10, 0],
        Ok(false),
    );
    ask(
        "a sum below the chosen cell",
        &[0, 1],
        [29, 20],
        [-10, 0],
        Ok(false),
    );
    ask(
        "the second car's is below",
        &[0, 1],
        [30, 19],
        [-10, 0],
        Ok(false),
    );
    ask("all zero", &[0, 1], [0, 0], [0, 0], Ok(false));
    ask(
        "equal where chosen, above elsewhere",
        &[0, 1],
        [20, 20],
        [0, 0],
        Ok(false),
    );
}

/// One car, three calls: two columns are free.
#[test]
fn free_columns() {
    let sheet = sheet(1, &[20.0, 30.0, 30.0]);
    assert_eq!(matrix(&sheet).cells, [20, 30, 30].map(|c| c * M as u64));
    let ask = |name, columns: &[u32], car: i64, prices: [i64; 3], wanted| {
        asked(
            name,
            &sheet,
            columns,
            &[car * M],
            &prices.map(|p| p * M),
            wanted,
        );
    };
    ask("least", &[0], 20, [0, 0, 0], Ok(true));
    ask("a taken column below zero", &[0], 25, [-5, 0, 0], Ok(true));
    ask("up to the others' cells", &[0], 30, [-10, 0, 0], Ok(true));
    ask("beyond them", &[0], 31, [-11, 0, 0], Ok(false));
    ask("a free column below zero", &[0], 20, [0, -1, 0], Ok(false));
    ask(
        "the last free column below zero",
        &[0],
        20,
        [0, 0, -1],
        Ok(false),
    );
    ask("a free column above zero", &[0], 20, [0, 1, 0], Ok(false));
    ask(
        "not least, priced as if it were",
        &[1],
        30,
        [-10, 0, 0],
        Ok(false),
    );
    ask(
        "not least, all sums right but one",
        &[1],
        30,
        [0, 0, 0],
        Ok(false),
    );
}

/// Two cars and one call: the second column is spare, and its cells are the sentinel.
#[test]
fn spare_columns() {
    let sheet = sheet(2, &[20.0]);
    let cells = [20 * M, SENTINEL, 10 * M, SENTINEL].map(|c| c as u64);
    assert_eq!(matrix(&sheet).cells, cells);
    let prices = [10 * M - SENTINEL, 0];
    asked(
        "the nearer car goes",
        &sheet,
        &[1, 0],
        &[SENTINEL, SENTINEL],
        &prices,
        Ok(true),
    );
    asked(
        "the other goes",
        &sheet,
        &[0, 1],
        &[SENTINEL, SENTINEL],
        &prices,
        Ok(false),
    );
    let without = &prices[..1];
    asked(
        "no price for the spare one",
        &sheet,
        &[1, 0],
        &[SENTINEL, SENTINEL],
        without,
        Err(20),
    );
    asked(
        "a column beyond the spare one",
        &sheet,
        &[2, 0],
        &[SENTINEL, SENTINEL],
        &prices,
        Err(19),
    );
}

/// No idle car: no column and no car price, but a price for each pending stop. No stop: spare columns alone. Neither: nothing.
#[test]
fn nothing_to_choose() {
    let calls = sheet(0, &[20.0, 30.0]);
    asked("no car", &calls, &[], &[], &[0, 0], Ok(true));
    asked(
        "no car, a price below zero",
        &calls,
        &[],
        &[],
        &[0, -1],
        Ok(false),
    );
    asked(
        "no car, a price above zero",
        &calls,
        &[],
        &[],
        &[1, 0],
        Ok(false),
    );
    asked("no car, no price", &calls, &[], &[], &[], Err(20));
    asked("no car, a car's price", &calls, &[], &[0], &[0, 0], Err(20));
    asked("no car, a column", &calls, &[0], &[], &[0, 0], Err(19));
    let cars = sheet(2, &[]);
    asked("no stop", &cars, &[1, 0], &[SENTINEL; 2], &[0, 0], Ok(true));
    asked(
        "no stop, no price",
        &cars,
        &[1, 0],
        &[SENTINEL; 2],
        &[],
        Err(20),
    );
    asked(
        "no stop, one column for two",
        &cars,
        &[1, 1],
        &[SENTINEL; 2],
        &[0, 0],
        Err(19),
    );
    let none = sheet(0, &[]);
    asked("neither", &none, &[], &[], &[], Ok(true));
    asked("neither, a price", &none, &[], &[], &[0], Err(20));
}

/// The ends of the range, and one beyond; 19 comes before 20.
#[test]
fn the_range() {
    let sheet = sheet(1, &[20.0]);
    let cell = 20 * M;
    let ask = |name, columns: &[u32], car: i64, column: i64, wanted| {
        asked(name, &sheet, columns, &[car], &[column], wanted);
    };
    ask("the largest", &[0], MOST_PRICE, cell - MOST_PRICE, Ok(true));
    ask(
        "one less than the sum",
        &[0],
        MOST_PRICE,
        cell - MOST_PRICE - 1,
        Ok(false),
    );
    ask("the least", &[0], cell + MOST_PRICE, -MOST_PRICE, Err(20));
    ask("the least column", &[0], MOST_PRICE, -MOST_PRICE, Ok(false));
    ask(
        "both at the least",
        &[0],
        -MOST_PRICE,
        -MOST_PRICE,
        Ok(false),
    );
    ask(
        "both at the largest",
        &[0],
        MOST_PRICE,
        MOST_PRICE,
        Ok(false),
    );
    for beyond in [MOST_PRICE + 1, -MOST_PRICE - 1, i64::MAX, i64::MIN] {
        ask("a car's price beyond", &[0], beyond, 0, Err(20));
        ask("a column's price beyond", &[0], 0, beyond, Err(20));
        ask("both beyond", &[0], beyond, beyond, Err(20));
        ask(
            "beyond, and a column outside",
            &[1],
            beyond,
            beyond,
            Err(19),
        );
    }
}
