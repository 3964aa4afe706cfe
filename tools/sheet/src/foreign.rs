//! Files that are no sheet and no text of one, known by how they begin. Whether a sheet is accepted is for the library alone to say.

use crate::source::shell_name;

/// What a file is, and what to do with it; FILE stands for its name.
#[derive(Clone, Copy, Debug, PartialEq, Eq)]
pub struct Foreign {
    pub is: &'static str,
    pub to_do: &'static str,
}

impl Foreign {
    /// What is said of such a file in a line.
    pub fn named(&self, file: &str) -> String {
        let to_do = self.to_do.replace("FILE", &shell_name(file));
        format!("{file}: is {}: {to_do}", self.is)
    }
}

const fn foreign(is: &'static str, to_do: &'static str) -> Foreign {
    Foreign { is, to_do }
}

/// Formats by their first bytes. None of these is 1 or 2, with which an accepted sheet begins.
const STARTS: [(&[u8], Foreign); 8] = [
    (
        b"\x1f\x8b",
        foreign(
            "a gzip file",
            "unpack it: `gunzip <FILE >a.sheet`, then explain a.sheet",
        ),
    ),
    (
        b"PK\x03\x04",
        foreign(
            "a zip file, or a document that is one (xlsx, docx)",
            "unpack it: `unzip FILE`, then explain the sheet that was in it",
        ),
    ),
    (
        b"PK\x05\x06",
        foreign(
            "a zip file with nothing in it",
            "fetch the sheet again, in binary",
        ),
    ),
    (
        b"%PDF-",
        foreign("a PDF file", "fetch the sheet in its place"),
    ),
    (
        b"\x89PNG\r\n",
        foreign("a PNG picture", "fetch the sheet in its place"),
    ),
    (
        b"<",
        foreign(
            "a page or a drawing (HTML, SVG or XML)",
            "fetch the sheet in its place; what a server answers in the place of a file begins so too",
        ),
    ),
    (b"\xff\xfe", UTF_16),
    (b"\xfe\xff", UTF_16),
];

const UTF_16: Foreign = foreign(
    "a text in UTF-16",
    "save it in UTF-8: `iconv -f UTF-16 -t UTF-8 FILE >a.txt`, then explain a.txt",
);

const BASE64: Foreign = foreign(
    "in base64, as files in a mail are",
    "decode it: `base64 -d FILE >a.sheet`, then explain a.sheet",
);

/// What a file is, where it is one of these.
pub fn find(bytes: &[u8]) -> Option<Foreign> {
    let known = STARTS.iter().find(|(start, _)| bytes.starts_with(start));
    match known {
        Some((_, foreign)) => Some(*foreign),
        None if is_utf_16(bytes) => Some(UTF_16),
        None => is_base64(bytes).then_some(BASE64),
    }
}

/// Pairs of a printed character and a zero, as UTF-16 without a mark has them, in either order.
fn is_utf_16(bytes: &[u8]) -> bool {
    let start = &bytes[..bytes.len().min(64)];
    let is_printed = |b: u8| matches!(b, b'\t' | b'\r' | b'\n' | b' '..=b'~');
    let all = |zero: usize| {
        let mut pairs = start.chunks_exact(2);
        start.len() >= 8 && pairs.all(|pair| pair[zero] == 0 && is_printed(pair[1 - zero]))
    };
    all(0) || all(1)
}

/// The least letters in the first line of what is taken for base64.
const LEAST: usize = 24;

/// Lines of one length, the last excepted, of base64's letters alone, in fours, and `=` at the end alone.
fn is_base64(bytes: &[u8]) -> bool {
    let text = std::str::from_utf8(bytes).unwrap_or("");
    let lines: Vec<&str> = text.lines().map(str::trim_end).collect();
    let Some((last, before)) = lines.split_last() else {
        return false;
    };
    let long = lines[0].len() >= LEAST;
    let even = before.windows(2).all(|pair| pair[0].len() == pair[1].len());
    let longest = before.first().is_none_or(|line| last.len() <= line.len());
    let all = lines.concat();
    let letters = all.trim_end_matches('=');
    let is_letter = |b: u8| b.is_ascii_alphanumeric() || b == b'+' || b == b'/';
    let padded = all.len() - letters.len() <= 2 && all.len().is_multiple_of(4);
    long && even && longest && padded && letters.bytes().all(is_letter)
}

#[cfg(test)]
mod tests {
    use super::*;

    #[test]
    fn known_by_their_start() {
        let is = |bytes: &[u8]| find(bytes).map_or("", |foreign| foreign.is);
        assert_eq!(is(b"\x1f\x8b\x08"), "a gzip file");
        assert_eq!(is(b"%PDF-1.7"), "a PDF file");
        assert_eq!(is(b"\xff\xfep\0"), UTF_16.is);
        assert_eq!(is(b"p\0o\0l\0i\0c\0y\0"), UTF_16.is);
        assert_eq!(is(b"\0p\0o\0l\0i\0c\0y"), UTF_16.is);
        assert_eq!(is(b"AQAJBAdS//9ATgAAAAAAAAAA\n"), BASE64.is);
        assert_eq!(is(b"AQAJBAdS//9ATgAAAAAAAAAA\r\nAAAAAAA=\r\n"), BASE64.is);
    }

    #[test]
    fn sheets_and_texts_are_none_of_them() {
        for bytes in [
            &b""[..],
            b"foo",
            b"policy strategy=SCAN tick_rate=60 traffic=idle",
            b"stop\nstop\nstop\nstop\nstop\nstop\n",
            b"AQAJBAdS//9ATgAAAAAAAAAAA",
            b"AQAJBAdS//9ATgAAAAAAAAA=\nAAAA",
            &[1, 0, 1, 0, 1, 0, 1, 0],
        ] {
            assert_eq!(find(bytes), None, "{bytes:?}");
        }
        assert_eq!(find(&sheetgen::Sheet::example().write()), None);
    }
}
