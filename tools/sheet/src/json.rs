//! JSON, by hand: values with their keys in a fixed order, each printed as one line.
//!
//! Whole numbers that can pass 2^53, totals and cells, are strings always ([`big`]), so that the type of a key never changes; so are doubles that JSON
//! has no number for.

use std::fmt::{self, Display, Formatter, Write};

#[derive(Clone, Debug, PartialEq)]
pub enum Json {
    Null,
    Bool(bool),
    /// A number as it is printed.
    Number(String),
    Text(String),
    Array(Vec<Json>),
    Object(Vec<(&'static str, Json)>),
}

impl Json {
    pub fn text(text: impl Into<String>) -> Self {
        Json::Text(text.into())
    }

    /// An array of what can be a value.
    pub fn array<T: Into<Json>>(items: impl IntoIterator<Item = T>) -> Self {
        Json::Array(items.into_iter().map(Into::into).collect())
    }

    /// An object; its keys stand in this order.
    pub fn object(entries: impl IntoIterator<Item = (&'static str, Json)>) -> Self {
        Json::Object(entries.into_iter().collect())
    }
}

/// A whole number that can pass 2^53, as a string.
pub fn big(number: u64) -> Json {
    Json::Text(number.to_string())
}

impl From<bool> for Json {
    fn from(value: bool) -> Self {
        Json::Bool(value)
    }
}

impl From<u32> for Json {
    fn from(value: u32) -> Self {
        Json::Number(value.to_string())
    }
}

/// A count, which is small.
impl From<usize> for Json {
    fn from(value: usize) -> Self {
        Json::Number(value.to_string())
    }
}

/// What is no number in JSON is a string: `NaN`, `inf`, `-inf`.
impl From<f64> for Json {
    fn from(value: f64) -> Self {
        match value.is_finite() {
            true => Json::Number(value.to_string()),
            false => Json::Text(value.to_string()),
        }
    }
}

impl From<&str> for Json {
    fn from(value: &str) -> Self {
        Json::Text(value.into())
    }
}

impl From<String> for Json {
    fn from(value: String) -> Self {
        Json::Text(value)
    }
}

/// `None` is null.
impl<T: Into<Json>> From<Option<T>> for Json {
    fn from(value: Option<T>) -> Self {
        value.map_or(Json::Null, Into::into)
    }
}

/// In one line, without blanks.
impl Display for Json {
    fn fmt(&self, f: &mut Formatter<'_>) -> fmt::Result {
        match self {
            Json::Null => f.write_str("null"),
            Json::Bool(value) => write!(f, "{value}"),
            Json::Number(number) => f.write_str(number),
            Json::Text(text) => quoted(f, text),
            Json::Array(items) => {
                f.write_char('[')?;
                for (k, item) in items.iter().enumerate() {
                    write!(f, "{}{item}", comma(k))?;
                }
                f.write_char(']')
            }
            Json::Object(entries) => {
                f.write_char('{')?;
                for (k, (key, value)) in entries.iter().enumerate() {
                    f.write_str(comma(k))?;
                    quoted(f, key)?;
                    write!(f, ":{value}")?;
                }
                f.write_char('}')
            }
        }
    }
}

fn comma(k: usize) -> &'static str {
    if k > 0 { "," } else { "" }
}

fn quoted(f: &mut Formatter<'_>, text: &str) -> fmt::Result {
    f.write_char('"')?;
    for c in text.chars() {
        match c {
            '"' => f.write_str("\\\"")?,
            '\\' => f.write_str("\\\\")?,
            '\n' => f.write_str("\\n")?,
            '\r' => f.write_str("\\r")?,
            '\t' => f.write_str("\\t")?,
            // Some readers end a line at these.
            '\u{2028}' | '\u{2029}' => write!(f, "\\u{:04x}", c as u32)?,
            c if c.is_control() => write!(f, "\\u{:04x}", c as u32)?,
            c => f.write_char(c)?,
        }
    }
    f.write_char('"')
}

#[cfg(test)]
mod tests {
    use super::*;

    #[test]
    fn values() {
        let object = Json::object([
            ("none", Json::Null),
            ("yes", true.into()),
            ("count", 3usize.into()),
            ("total", big(u64::MAX)),
            ("small", 0.000_000_1.into()),
            ("none_of_them", f64::NAN.into()),
            ("endless", f64::NEG_INFINITY.into()),
            ("stops", Json::array([1u32, 4_294_967_295])),
            ("stop", None::<u32>.into()),
            ("nothing", Json::Array(Vec::new())),
        ]);
        let said = r#"{"none":null,"yes":true,"count":3,"total":"18446744073709551615","small":0.0000001,"none_of_them":"NaN","endless":"-inf","stops":[1,4294967295],"stop":null,"nothing":[]}"#;
        assert_eq!(object.to_string(), said);
    }

    #[test]
    fn strings_are_escaped() {
        let text = "a\"b\\c\nd\re\tf\u{1}g\u{7f}h\u{2028}é";
        let said = r#""a\"b\\c\nd\re\tf\u0001g\u007fh\u2028é""#;
        assert_eq!(Json::text(text).to_string(), said);
    }
}
