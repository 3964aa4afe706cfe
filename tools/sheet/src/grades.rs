//! The text of what a site sent to be graded: `car ID column COLUMN price PRICE` for each idle car, `column COLUMN price PRICE` for each column.

use crate::line::{self, Fault, Word};
use crate::near::did_you_mean;

/// A line of a car; a site may have sent no column for it, or no price.
#[derive(Clone, Copy, Debug, PartialEq, Eq)]
pub struct CarLine {
    pub line: usize,
    pub id: u32,
    pub column: Option<u32>,
    pub price: Option<i64>,
}

/// A line of a column.
#[derive(Clone, Copy, Debug, PartialEq, Eq)]
pub struct ColumnLine {
    pub line: usize,
    pub column: u32,
    pub price: i64,
}

/// What a site sent, line by line.
#[derive(Clone, Debug, Default, PartialEq, Eq)]
pub struct Grades {
    pub cars: Vec<CarLine>,
    pub columns: Vec<ColumnLine>,
}

/// What a text says, or every line that says nothing.
pub fn read(text: &[u8]) -> Result<Grades, Vec<Fault>> {
    let text = line::utf8(text, "`sheet grade SHEET GRADES.txt` takes the sheet first");
    let (mut grades, mut faults) = (Grades::default(), Vec::new());
    for (line, words) in line::words(text.map_err(|fault| vec![fault])?) {
        let read = match words[0].text {
            "car" => car(line, &words).map(|car| grades.cars.push(car)),
            "column" => column(line, &words).map(|column| grades.columns.push(column)),
            word => {
                let meant = did_you_mean(word, &["car", "column"]);
                let what = format!("\"{word}\": expected car or column{meant}");
                Err(fault(line, &words[0], what))
            }
        };
        faults.extend(read.err());
    }
    match faults.is_empty() {
        true => Ok(grades),
        false => Err(faults),
    }
}

fn fault(line: usize, word: &Word, what: String) -> Fault {
    Fault {
        line,
        column: word.column,
        what,
    }
}

/// A whole number of a word that stands after a name.
fn number<T: std::str::FromStr>(
    line: usize,
    words: &[Word],
    name: usize,
    range: &str,
) -> Result<T, Fault> {
    let name_word = &words[name];
    let expected = format!("expected a whole number from {range}");
    let Some(word) = words.get(name + 1) else {
        let what = format!("{}: is missing; {expected}", name_word.text);
        return Err(fault(line, name_word, what));
    };
    let what = || format!("{}: {expected}, found \"{}\"", name_word.text, word.text);
    // As in a sheet's text: digits alone, and a minus in front.
    let is_plain = word
        .text
        .bytes()
        .all(|byte| byte.is_ascii_digit() || byte == b'-');
    let parsed = word.text.parse().ok().filter(|_| is_plain);
    parsed.ok_or_else(|| fault(line, word, what()))
}

const OF_COLUMNS: &str = "0 to 4294967295";
const OF_PRICES: &str = "-9223372036854775808 to 9223372036854775807";

fn car(line: usize, words: &[Word]) -> Result<CarLine, Fault> {
    let id = number(line, words, 0, "0 to 4294967295")?;
    let mut car = CarLine {
        line,
        id,
        column: None,
        price: None,
    };
    let mut at = 2;
    while at < words.len() {
        match words[at].text {
            "column" if car.column.is_none() => {
                car.column = Some(number(line, words, at, OF_COLUMNS)?);
            }
            "price" if car.price.is_none() => {
                car.price = Some(number(line, words, at, OF_PRICES)?);
            }
            name @ ("column" | "price") => {
                let what = format!("{name}: expected once, found twice");
                return Err(fault(line, &words[at], what));
            }
            name => return Err(unknown(line, &words[at], name, &["column", "price"])),
        }
        at += 2;
    }
    Ok(car)
}

fn column(line: usize, words: &[Word]) -> Result<ColumnLine, Fault> {
    let column = number(line, words, 0, OF_COLUMNS)?;
    let Some(name) = words.get(2) else {
        let what = format!("price: is missing; expected a whole number from {OF_PRICES}");
        return Err(fault(line, &words[0], what));
    };
    if name.text != "price" {
        return Err(unknown(line, name, name.text, &["price"]));
    }
    let price = number(line, words, 2, OF_PRICES)?;
    match words.get(4) {
        None => Ok(ColumnLine {
            line,
            column,
            price,
        }),
        Some(more) => Err(fault(
            line,
            more,
            format!("\"{}\": expected the end of the line", more.text),
        )),
    }
}

fn unknown(line: usize, word: &Word, name: &str, names: &[&str]) -> Fault {
    let (list, meant) = (names.join(" or "), did_you_mean(name, names));
    fault(line, word, format!("\"{name}\": expected {list}{meant}"))
}
