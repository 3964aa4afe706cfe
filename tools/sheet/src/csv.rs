//! A row of comma-separated values, as RFC 4180 has them but for the line end, which is a line feed.

/// A row, with its line end.
pub fn row<S: AsRef<str>>(fields: &[S]) -> String {
    let fields: Vec<String> = fields.iter().map(|field| quoted(field.as_ref())).collect();
    fields.join(",") + "\n"
}

/// A field, in quotes where it must be.
fn quoted(field: &str) -> String {
    match field.contains([',', '"', '\n', '\r']) {
        true => format!("\"{}\"", field.replace('"', "\"\"")),
        false => field.into(),
    }
}

#[cfg(test)]
mod tests {
    use super::*;

    #[test]
    fn fields_are_quoted_where_they_must_be() {
        let row = row(&["a b", "", "1,5", "say \"x\"", "two\nlines"]);
        assert_eq!(row, "a b,,\"1,5\",\"say \"\"x\"\"\",\"two\nlines\"\n");
    }
}
