//! The lines of a text: a word, then FIELD=VALUE with blanks between; `#` begins a comment.

use crate::fields::Field;
use crate::near::nearest;
use crate::value;

/// What is wrong with a text, and where: line and column, from 1, in characters.
#[derive(Debug, PartialEq, Eq)]
pub struct Fault {
    pub line: usize,
    pub column: usize,
    pub what: String,
}

/// FIELD=VALUE.
struct Pair<'t> {
    name: &'t str,
    value: &'t str,
    column: usize,
}

/// A line's word and its fields.
pub struct Line<'t> {
    pub number: usize,
    pub word: &'t str,
    /// `default` follows the word: what it says holds for later lines.
    pub is_default: bool,
    column: usize,
    pairs: Vec<Pair<'t>>,
    /// Some part of it is no field, so that a field may seem to be missing that is not.
    is_broken: bool,
}

impl<'t> Line<'t> {
    /// The line without its comment, and what is wrong with its parts; `None` where nothing is left.
    fn new(number: usize, text: &'t str) -> Option<(Self, Vec<Fault>)> {
        let mut parts = parts(text).into_iter().peekable();
        let word = parts.next()?;
        let mut line = Self {
            number,
            word,
            is_default: parts.next_if_eq(&"default").is_some(),
            column: column(text, word),
            pairs: Vec::new(),
            is_broken: false,
        };
        let mut faults = Vec::new();
        while let Some(part) = parts.next() {
            let column = column(text, part);
            // Blanks around `=` are one fault.
            let has_sign = !part.contains('=') && parts.peek().is_some_and(|p| p.starts_with('='));
            if has_sign && parts.next() == Some("=") {
                parts.next();
            }
            match line.field(part, column) {
                Ok(pair) => line.pairs.push(pair),
                Err(what) => {
                    line.is_broken = true;
                    faults.push(Fault {
                        line: number,
                        column,
                        what,
                    });
                }
            }
        }
        Some((line, faults))
    }

    /// FIELD=VALUE or FIELD="VALUE", of a field that the line does not have yet.
    fn field(&self, part: &'t str, column: usize) -> Result<Pair<'t>, String> {
        let Some((name, value)) = part.split_once('=') else {
            return Err(format!("\"{part}\": expected FIELD=VALUE, without blanks"));
        };
        if self.get(name).is_some() {
            return Err(format!("{name}: expected once, found twice"));
        }
        let value = match value.strip_prefix('"') {
            None => value,
            Some(quoted) => {
                let inside = quoted.strip_suffix('"').filter(|v| !v.contains('"'));
                inside.ok_or_else(|| {
                    format!("{name}: expected a value between two \", then a blank, found {value}")
                })?
            }
        };
        Ok(Pair {
            name,
            value,
            column,
        })
    }

    fn pair(&self, name: &str) -> Option<&Pair<'t>> {
        self.pairs.iter().find(|pair| pair.name == name)
    }

    pub fn get(&self, name: &str) -> Option<&'t str> {
        self.pair(name).map(|pair| pair.value)
    }

    /// Of the line as a whole.
    pub fn fault(&self, what: String) -> Fault {
        Fault {
            line: self.number,
            column: self.column,
            what,
        }
    }

    /// Of a field, at its column where the line has it.
    pub fn fault_in(&self, name: &str, what: &str) -> Fault {
        Fault {
            line: self.number,
            column: self.pair(name).map_or(self.column, |pair| pair.column),
            what: format!("{name}: {what}"),
        }
    }

    pub fn lacks(&self, field: &Field) -> Fault {
        let expected = value::expected(field);
        self.fault_in(field.name, &format!("is missing; expected {expected}"))
    }

    /// The fields that are none of these.
    fn others(&self, names: &[&str]) -> Vec<&'t str> {
        let fields = self.pairs.iter().map(|pair| pair.name);
        fields.filter(|name| !names.contains(name)).collect()
    }

    /// Every field but these is a fault, which may be named elsewhere.
    pub fn beside(&self, names: &[&str], elsewhere: &[&str]) -> Vec<Fault> {
        let fault = |name: &str| {
            let (word, list) = (self.word, names.join(", "));
            let expected = match nearest(name, names) {
                Some(near) => format!("did you mean {near}? Its fields are {list}"),
                None => format!("expected {list}"),
            };
            self.fault_in(name, &format!("{word} has no such field; {expected}"))
        };
        let others = self.others(names).into_iter();
        let others = others.filter(|name| !elsewhere.contains(name));
        others.map(fault).collect()
    }

    /// No field but these.
    pub fn only(&self, names: &[&str]) -> Result<(), Fault> {
        match self.beside(names, &[]).into_iter().next() {
            None => Ok(()),
            Some(fault) => Err(fault),
        }
    }

    /// A field may be meant by a part of the line that cannot be read, or by a misspelt name.
    pub fn may_mean(&self, field: &str, names: &[&str]) -> bool {
        let others = self.others(names);
        let mut meant = others.iter().filter_map(|name| nearest(name, names));
        self.is_broken || meant.any(|name| name == field)
    }

    /// A whole number of so many bits; `None` where the field is left out.
    pub fn number(&self, name: &str, width: usize) -> Result<Option<u64>, Fault> {
        let Some(text) = self.get(name) else {
            return Ok(None);
        };
        let expected = number_below(width);
        let wrong = || self.fault_in(name, &format!("expected {expected}, found \"{text}\""));
        value::whole(text, width).map(Some).ok_or_else(wrong)
    }

    pub fn needed(&self, name: &str, width: usize) -> Result<u64, Fault> {
        let expected = number_below(width);
        let missing = || self.fault_in(name, &format!("is missing; expected {expected}"));
        self.number(name, width)?.ok_or_else(missing)
    }
}

/// Where a word of a line begins, from 1.
fn column(line: &str, word: &str) -> usize {
    let before = word.as_ptr() as usize - line.as_ptr() as usize;
    1 + line[..before].chars().count()
}

fn number_below(width: usize) -> String {
    format!("a whole number from 0 to {}", (1u64 << width) - 1)
}

/// A word of a line, and its column.
pub struct Word<'t> {
    pub text: &'t str,
    pub column: usize,
}

/// The parts of a line with blanks between them, without its comment. Blanks and `#` between two `"` belong to the part.
fn parts(text: &str) -> Vec<&str> {
    let (mut parts, mut from) = (Vec::new(), None);
    let (mut is_quoted, mut before) = (false, ' ');
    for (at, c) in text.char_indices() {
        match (c, is_quoted) {
            ('"', true) => is_quoted = false,
            ('"', false) => is_quoted = before == '=',
            (_, true) => {}
            (c, false) if c == '#' || c.is_whitespace() => {
                parts.extend(from.take().map(|from| &text[from..at]));
                if c == '#' {
                    return parts;
                }
                before = c;
                continue;
            }
            _ => {}
        }
        from = from.or(Some(at));
        before = c;
    }
    parts.extend(from.map(|from| &text[from..]));
    parts
}

/// The lines of a text, which end with LF, CR and LF, or CR.
fn each(text: &str) -> impl Iterator<Item = (usize, &str)> {
    let lines = text.lines().flat_map(|line| line.split('\r'));
    lines.enumerate().map(|(index, line)| (index + 1, line))
}

/// The words of the lines that say something, without their comments, each with the line's number.
pub fn words(text: &str) -> Vec<(usize, Vec<Word<'_>>)> {
    let of_line = |(number, text)| {
        let said = str::split(text, '#').next().unwrap_or("");
        let words = said.split_whitespace();
        let word = |word| Word {
            text: word,
            column: column(text, word),
        };
        (number, words.map(word).collect())
    };
    let all = each(text).map(of_line);
    all.filter(|line: &(usize, Vec<_>)| !line.1.is_empty())
        .collect()
}

/// The lines that say something, and what is wrong with their parts.
pub fn lines(text: &str) -> (Vec<Line<'_>>, Vec<Fault>) {
    let (mut lines, mut faults) = (Vec::new(), Vec::new());
    for (number, text) in each(text) {
        if let Some((line, wrong)) = Line::new(number, text) {
            lines.push(line);
            faults.extend(wrong);
        }
    }
    (lines, faults)
}

/// A text without the mark that some editors put in front; `shown` says what makes a text of what is none.
pub fn utf8<'t>(text: &'t [u8], shown: &str) -> Result<&'t str, Fault> {
    let text = text.strip_prefix(b"\xef\xbb\xbf").unwrap_or(text);
    std::str::from_utf8(text).map_err(|error| {
        let good = String::from_utf8_lossy(&text[..error.valid_up_to()]);
        let before = good.rsplit('\n').next().unwrap_or("");
        Fault {
            line: 1 + good.matches('\n').count(),
            column: 1 + before.chars().count(),
            what: format!("expected text in UTF-8; {shown}"),
        }
    })
}

#[cfg(test)]
mod tests {
    use super::*;

    /// Columns count characters, blanks and tabs as one each.
    #[test]
    fn columns() {
        let (lines, faults) =
            lines("stop id=1\n\t caf\u{e9}  id=1\tposition=2 # c=d\n a b=1 b=2\n");
        assert_eq!(lines.len(), 3);
        let at = |name: &str| lines[1].fault_in(name, "").column;
        assert_eq!(
            (lines[1].number, at("none"), at("id"), at("position")),
            (2, 3, 9, 14)
        );
        let twice = Fault {
            line: 3,
            column: 8,
            what: "b: expected once, found twice".into(),
        };
        assert_eq!(faults, [twice]);
        let fault = utf8(b"ab\nc\xc3\xa9\xff", "x").unwrap_err();
        assert_eq!((fault.line, fault.column), (2, 3));
    }
}
