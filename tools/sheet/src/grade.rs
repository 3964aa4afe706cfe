//! What a site's prices show of its choice, in words. The grade and a refusal are the proved library's; what stands here looks for the rule that the
//! prices break, or for the line that a refusal is about.

use std::ops::Range;

use dispatch_bench::{Grade, MOST_PRICE, Pass, Refusal, Sent};

use crate::explain;
use crate::grades::{CarLine, ColumnLine, Grades};
use crate::numbers::{grouped, grouped_text};
use crate::show::number_of;

/// The lists that the library is lent, of the lines of a text.
struct Lists {
    columns: Vec<u32>,
    car_prices: Vec<i64>,
    column_prices: Vec<i64>,
}

/// For each place the first thing that is said of it, where some place has none; else all that is said, in the places' order. Where each place has
/// one thing and nothing else is said, that is the list of these; otherwise its length is not the number of places.
fn listed<T: Copy>(places: usize, said: &[(Option<usize>, T)]) -> Vec<T> {
    let of = |place: usize| said.iter().filter(move |s| s.0 == Some(place)).map(|s| s.1);
    if (0..places).any(|place| of(place).next().is_none()) {
        return (0..places).filter_map(|place| of(place).next()).collect();
    }
    let beside = said.iter().filter(|s| s.0.is_none()).map(|s| s.1);
    (0..places).flat_map(of).chain(beside).collect()
}

/// A sheet that is accepted, what a site sent of it, and its pass.
struct Graded<'a> {
    grades: &'a Grades,
    /// The ids of the idle cars, in record order.
    cars: Vec<u32>,
    /// The ids of the pending stops, which are the first columns.
    stops: Vec<u32>,
    pass: Pass,
}

/// The lines of `sheet grade`.
pub fn grade(sheet: &[u8], grades: &Grades) -> String {
    let (Ok(pass), Ok(stops)) = (dispatch_bench::pass(sheet), dispatch_bench::pending(sheet))
    else {
        return explain::explain(sheet);
    };
    let idle = dispatch_bench::cars(sheet).filter(|car| car.idle_listed);
    let graded = Graded {
        grades,
        cars: idle.map(|car| car.id).collect(),
        stops,
        pass,
    };
    let lists = graded.lists();
    let sent = Sent {
        columns: &lists.columns,
        car_prices: &lists.car_prices,
        column_prices: &lists.column_prices,
    };
    match dispatch_bench::grade(sheet, &sent) {
        Ok(Grade::Least) => format!("least\n{}\n", graded.total(&sent, "")),
        Ok(Grade::NotShown) => {
            let breach = graded.breach(&sent);
            let total = graded.total(&sent, "; other prices show it");
            format!("not shown\n{breach}\n{total}\n")
        }
        Err(refusal) => graded.refused(refusal),
    }
}

impl Graded<'_> {
    fn place(&self, car: u32) -> Option<usize> {
        self.cars.iter().position(|id| *id == car)
    }

    fn lists(&self) -> Lists {
        let cars = self.grades.cars.iter();
        let of_car = |line: &CarLine| self.place(line.id);
        let columns: Vec<_> = cars
            .clone()
            .filter_map(|line| Some((of_car(line), line.column?)))
            .collect();
        let prices: Vec<_> = cars
            .filter_map(|line| Some((of_car(line), line.price?)))
            .collect();
        let width = self.pass.columns();
        let of_column = |line: &ColumnLine| {
            let place = Some(line.column as usize).filter(|place| *place < width);
            (place, line.price)
        };
        let of_columns: Vec<_> = self.grades.columns.iter().map(of_column).collect();
        Lists {
            columns: listed(self.cars.len(), &columns),
            car_prices: listed(self.cars.len(), &prices),
            column_prices: listed(width, &of_columns),
        }
    }

    fn cell(&self, car: usize, column: usize) -> u64 {
        self.pass.matrix[car * self.pass.columns() + column]
    }

    /// A column, and the stop that it stands for.
    fn column(&self, column: usize) -> String {
        match self.stops.get(column) {
            Some(stop) => format!("column {column} (stop {stop})"),
            None => format!("column {column} (spare)"),
        }
    }

    /// The first pair, row by row, or else the first column, that keeps the prices from showing the choice.
    fn breach(&self, sent: &Sent) -> String {
        let width = 0..self.pass.columns();
        let pairs = (0..self.cars.len()).flat_map(|car| width.clone().map(move |j| (car, j)));
        let of_pair = |(car, column)| self.breach_of_pair(sent, car, column);
        let of_column = |column| self.breach_of_column(sent, column);
        let found = pairs.into_iter().find_map(of_pair);
        found
            .or_else(|| width.clone().find_map(of_column))
            .unwrap_or_default()
    }

    fn breach_of_pair(&self, sent: &Sent, car: usize, column: usize) -> Option<String> {
        let (one, other) = (sent.car_prices[car], sent.column_prices[column]);
        let (sum, cell) = (one + other, self.cell(car, column) as i64);
        let is_chosen = sent.columns[car] as usize == column;
        let rule = match sum > cell {
            true => "\"never exceeds their cell\"",
            false if is_chosen && sum < cell => "\"equals it where chosen\"",
            false => return None,
        };
        let more = match sum > cell {
            true => "more than",
            false => "less than",
        };
        let [one, other, sum, cell] = [one, other, sum, cell].map(signed);
        let (id, column) = (self.cars[car], self.column(column));
        let chosen = if is_chosen { ", which is its own" } else { "" };
        Some(format!(
            "Car {id} and {column}{chosen}: the prices {one} and {other} sum to {sum}, {more} the cell {cell}. The price of a car plus the price of a column {rule}."
        ))
    }

    fn breach_of_column(&self, sent: &Sent, column: usize) -> Option<String> {
        let price = sent.column_prices[column];
        let is_taken = sent.columns.contains(&(column as u32));
        let rule = match price {
            0 => return None,
            1.. => "Column prices are \"zero or less\"",
            _ if !is_taken => "Column prices are \"zero on columns nobody took\"",
            _ => return None,
        };
        let column = self.column(column);
        let taken = if is_taken { "" } else { ", which nobody took" };
        let price = signed(price);
        let column = column.replacen('c', "C", 1);
        Some(format!("{column}{taken}: the price is {price}. {rule}."))
    }

    /// The total of the choice beside the least one, and what else to say where it is that.
    fn total(&self, sent: &Sent, else_say: &str) -> String {
        let of_car = |(car, column): (usize, &u32)| self.cell(car, *column as usize);
        let total: u64 = sent.columns.iter().enumerate().map(of_car).sum();
        let least = self.pass.total;
        match total == least {
            true => format!("total {total}, the least: that of the pass{else_say}"),
            false => format!(
                "total {total}, {} more than that of the pass: the choice is not least, and no prices show it",
                grouped(total.saturating_sub(least))
            ),
        }
    }

    fn refused(&self, refusal: Refusal) -> String {
        let Refusal { number, offset } = refusal;
        let reason = match number {
            19 => self.wrong_columns(),
            _ => self.wrong_prices(),
        };
        format!(
            "refused {number} at {offset}\n{}\nrule {number}: {}\nto do: {}\n",
            reason.unwrap_or_default(),
            refusal.rule(),
            refusal.remedy()
        )
    }

    /// The matrix in words.
    fn matrix(&self) -> String {
        let (cars, stops) = (
            number_of(self.cars.len(), "idle car"),
            number_of(self.stops.len(), "pending stop"),
        );
        let columns = number_of(self.pass.columns(), "column");
        format!("the sheet has {cars} and {stops}, so {columns}, counted from 0")
    }

    /// 19: the first line of a car without a place, the first car with two columns or with none, the first column outside, the first that repeats.
    fn wrong_columns(&self) -> Option<String> {
        let of_columns = || self.grades.cars.iter().filter(|line| line.column.is_some());
        if let Some(line) = of_columns().find(|line| self.place(line.id).is_none()) {
            let CarLine { line, id, .. } = line;
            return Some(format!(
                "Line {line}: car {id} is none of the idle cars, {}.",
                self.idle_cars()
            ));
        }
        for id in &self.cars {
            let mut lines = of_columns().filter(|line| line.id == *id);
            match (lines.next(), lines.next()) {
                (Some(_), None) => {}
                (None, _) => {
                    return Some(format!("Car {id}: it is idle, but has no column."));
                }
                (Some(_), Some(again)) => {
                    let line = again.line;
                    return Some(format!("Line {line}: car {id} has a column already."));
                }
            }
        }
        let width = self.pass.columns();
        let column = |line: &CarLine| line.column.unwrap_or(0);
        if let Some(line) = of_columns().find(|line| column(line) as usize >= width) {
            let (CarLine { line, id, .. }, column) = (line, column(line));
            return Some(format!(
                "Line {line}: car {id} has column {column}, which lies outside of the matrix: {}.",
                self.matrix()
            ));
        }
        let lines: Vec<&CarLine> = of_columns().collect();
        (0..lines.len()).find_map(|k| {
            let (this, column) = (lines[k], column(lines[k]));
            let earlier = lines[..k].iter().find(|line| line.column == this.column)?;
            Some(format!(
                "Line {}: car {} has column {column}, which car {} has by line {}.",
                this.line, this.id, earlier.id, earlier.line
            ))
        })
    }

    fn idle_cars(&self) -> String {
        let ids: Vec<String> = self.cars.iter().map(u32::to_string).collect();
        match ids.len() {
            0 => "of which the sheet has none".into(),
            _ => format!("which are {}", ids.join(", ")),
        }
    }

    /// 20: the first car with no price, or with two; the first column with no price, with two, or outside; the first price beyond the range.
    fn wrong_prices(&self) -> Option<String> {
        let cars = || self.grades.cars.iter().filter(|line| line.price.is_some());
        if let Some(line) = cars().find(|line| self.place(line.id).is_none()) {
            let CarLine { line, id, .. } = line;
            let idle = self.idle_cars();
            return Some(format!(
                "Line {line}: car {id} has a price and is none of the idle cars, {idle}."
            ));
        }
        for id in &self.cars {
            let lines: Vec<usize> = cars().filter(|c| c.id == *id).map(|c| c.line).collect();
            match lines[..] {
                [] => return Some(format!("Car {id}: it is idle, but has no price.")),
                [_] => {}
                [_, again, ..] => {
                    return Some(format!("Line {again}: car {id} has a price already."));
                }
            }
        }
        self.wrong_column_prices().or_else(|| self.beyond())
    }

    fn wrong_column_prices(&self) -> Option<String> {
        let columns = &self.grades.columns;
        let width: Range<usize> = 0..self.pass.columns();
        if let Some(line) = columns
            .iter()
            .find(|line| !width.contains(&(line.column as usize)))
        {
            let ColumnLine { line, column, .. } = line;
            return Some(format!(
                "Line {line}: column {column} has a price and lies outside of the matrix: {}.",
                self.matrix()
            ));
        }
        width.into_iter().find_map(|column| {
            let of = columns.iter().filter(|line| line.column as usize == column);
            let lines: Vec<usize> = of.map(|line| line.line).collect();
            match lines[..] {
                [] => {
                    let column = self.column(column).replacen('c', "C", 1);
                    Some(format!("{column}: it has no price: {}.", self.matrix()))
                }
                [_] => None,
                [_, again, ..] => Some(format!(
                    "Line {again}: column {column} has a price already."
                )),
            }
        })
    }

    fn beyond(&self) -> Option<String> {
        let cars = self.grades.cars.iter();
        let cars = cars.filter_map(|c| Some((c.line, format!("car {}", c.id), c.price?)));
        let columns = self.grades.columns.iter();
        let columns = columns.map(|c| (c.line, self.column(c.column as usize), c.price));
        let is_beyond = |price: &i64| !(-MOST_PRICE..=MOST_PRICE).contains(price);
        let (line, whose, price) = cars.chain(columns).find(|said| is_beyond(&said.2))?;
        let (price, most) = (signed(price), signed(MOST_PRICE));
        Some(format!(
            "Line {line}: the price of {whose} is {price}, but it must be from -{most} to {most}."
        ))
    }
}

fn signed(number: i64) -> String {
    grouped_text(&number.to_string())
}
