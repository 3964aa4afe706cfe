//! The few shapes of a drawing.

use std::fmt::Write;

#[derive(Default)]
pub struct Svg {
    body: String,
    /// The parts that can be looked at by themselves, by name, with their left upper corner and their size.
    views: Vec<(&'static str, [f64; 4])>,
}

/// Where a text's point stands in it.
#[derive(Clone, Copy)]
pub enum Anchor {
    Start,
    Middle,
    End,
}

impl Anchor {
    fn name(self) -> &'static str {
        match self {
            Anchor::Start => "start",
            Anchor::Middle => "middle",
            Anchor::End => "end",
        }
    }
}

/// A text as XML and HTML take it, in an element or in quotes. Characters that neither has are replaced.
pub fn escape(text: &str) -> String {
    let mut escaped = String::with_capacity(text.len());
    for c in text.chars() {
        match c {
            '&' => escaped += "&amp;",
            '<' => escaped += "&lt;",
            '>' => escaped += "&gt;",
            '"' => escaped += "&quot;",
            '\n' => escaped.push(c),
            '\u{fffe}' | '\u{ffff}' => escaped.push(char::REPLACEMENT_CHARACTER),
            _ if c.is_control() => escaped.push(char::REPLACEMENT_CHARACTER),
            _ => escaped.push(c),
        }
    }
    escaped
}

/// A coordinate with one decimal.
fn c(value: f64) -> String {
    let value = if value.is_finite() { value } else { 0.0 };
    let text = format!("{value:.1}");
    text.strip_suffix(".0").unwrap_or(&text).into()
}

// What stands on a cell or a car takes no pointer: the details are those of the cell or the car.
const STYLE: &str = "\
text{font-family:DejaVu Sans,Verdana,sans-serif;font-size:10px;fill:#222}\
.title{font-size:15px;font-weight:bold}\
.name{font-weight:bold}\
.tag{font-size:8.5px;font-weight:bold}\
.small,.file{font-size:9px;fill:#444}\
.tiny{font-size:7px}\
.cost{font-size:10px;font-weight:bold;fill:#a33c00}\
.halo{paint-order:stroke;stroke:#fff;stroke-width:3px}\
.number{font-size:9px}\
.many{font-size:9px;fill:#00734f}\
.pale{fill:#fff}\
.fault{fill:#b00020;font-weight:bold}\
.shaft{fill:#f3f3f3;stroke:#ccc}\
.blind{fill:#e2e2e2;stroke:none}\
.folded{fill:#ececec;stroke:#aaa;stroke-dasharray:3 2}\
.floor{stroke:#999;stroke-width:1}\
.guide{stroke:#dcdcdc;stroke-width:0.8}\
.served{fill:#777}\
.button{fill:#555}\
.closed{fill:#7a1f1f;stroke:none}\
.held{fill:#e3173e;stroke:none}\
.shut{font-size:9px;font-weight:bold;fill:#7a1f1f}\
.barred{stroke:#b00020;stroke-width:1.6}\
.cut{stroke:#222;stroke-width:1.8}\
.dash{stroke:#777;stroke-width:1.6}\
.hatched{fill:url(#hatch);stroke:#aaa;stroke-width:0.6}\
.spare{stroke:#bbb;stroke-width:0.8;stroke-dasharray:2 2}\
.call{fill:none;stroke:#0072b2;stroke-width:1.6}\
.car{stroke:#444;stroke-width:1}\
.listed{stroke:#000;stroke-width:2.4}\
.gauge{fill:#fff;stroke:#444;stroke-width:0.6}\
.full{fill:#333}\
.lit{fill:#e69f00;stroke:#4d3500;stroke-width:0.6}\
.dark{fill:#fff;stroke:#444;stroke-width:0.8}\
.aboard{fill:#8e3a8e}\
.inside{font-size:8px;font-weight:bold}\
.bound{font-size:8px;font-weight:bold;fill:#8e3a8e}\
.going{stroke:#0072b2;stroke-width:1.6;fill:none}\
.ahead{fill:#0072b2}\
.target{fill:#fff;stroke:#0072b2;stroke-width:1.6}\
.waiting{fill:#009e73}\
.arrow{stroke:#d55e00;stroke-width:2.2;fill:none}\
.head{fill:#d55e00}\
.cell{stroke:#fff;stroke-width:1}\
.shade{stroke:#bbb;stroke-width:0.6}\
.refused{fill:none;stroke:#b00020;stroke-width:2.6}\
.here{fill:#b00020}\
.chosen{fill:none;stroke:#d55e00;stroke-width:2.2}\
.tie{fill:#fff;stroke:#d55e00}\
.equal{stroke:#222;stroke-width:0.9}\
.unsent{fill:none;stroke:#222;stroke-width:1.6;stroke-dasharray:3 2}\
.number,.tiny,.inside,.chosen,.unsent,.tie,.equal,.held,.barred,.cut,.dash,.gauge,.full,.lit,.dark{pointer-events:none}\
.field{fill:#fff;stroke:#999}\
.wrong{fill:#ffd9dd;stroke:#b00020;stroke-width:2}";

/// Strokes side by side, for what a line does not serve.
const HATCH: &str = "\
<pattern id=\"hatch\" width=\"4\" height=\"4\" patternUnits=\"userSpaceOnUse\" patternTransform=\"rotate(45)\">\
<rect width=\"4\" height=\"4\" fill=\"#fafafa\"/><rect width=\"0.8\" height=\"4\" fill=\"#c4c4c4\"/></pattern>";

impl Svg {
    pub fn rect(&mut self, class: &str, x: f64, y: f64, width: f64, height: f64) {
        let (x, y, w, h) = (c(x), c(y), c(width.max(0.0)), c(height.max(0.0)));
        let _ = writeln!(
            self.body,
            "<rect class=\"{class}\" x=\"{x}\" y=\"{y}\" width=\"{w}\" height=\"{h}\"/>"
        );
    }

    /// A rectangle of a colour, with a text that shows under the pointer unless it is empty.
    pub fn tile(&mut self, at: (f64, f64), size: (f64, f64), fill: &str, class: &str, tip: &str) {
        let (x, y, w, h) = (c(at.0), c(at.1), c(size.0.max(0.0)), c(size.1.max(0.0)));
        let end = match tip {
            "" => "/>".into(),
            _ => format!("><title>{}</title></rect>", escape(tip)),
        };
        let _ = writeln!(
            self.body,
            "<rect class=\"{class}\" x=\"{x}\" y=\"{y}\" width=\"{w}\" height=\"{h}\" fill=\"{fill}\"{end}"
        );
    }

    /// A part that can be looked at by itself: FILE.svg#NAME.
    pub fn view(&mut self, name: &'static str, place: [f64; 4]) {
        self.views.push((name, place));
    }

    /// How long what is drawn is.
    pub fn length(&self) -> usize {
        self.body.len()
    }

    /// Something that is drawn has this part.
    pub fn has(&self, part: &str) -> bool {
        self.body.contains(part)
    }

    /// Something of the drawing as it was at a length has this part.
    pub fn has_before(&self, length: usize, part: &str) -> bool {
        self.body[..length].contains(part)
    }

    /// Classes that few drawings have.
    pub fn style(&mut self, classes: &str) {
        let _ = writeln!(self.body, "<style>{classes}</style>");
    }

    /// Shapes of a class.
    pub fn group(&mut self, class: &str, shapes: impl FnOnce(&mut Self)) {
        let _ = writeln!(self.body, "<g class=\"{class}\">");
        shapes(self);
        self.body += "</g>\n";
    }

    /// Shapes with one text that shows under the pointer.
    pub fn tipped(&mut self, tip: &str, shapes: impl FnOnce(&mut Self)) {
        let _ = writeln!(self.body, "<g><title>{}</title>", escape(tip));
        shapes(self);
        self.body += "</g>\n";
    }

    /// Two strokes that cross in a middle.
    pub fn cross(&mut self, class: &str, x: f64, y: f64, half: f64) {
        self.line(class, (x - half, y - half), (x + half, y + half));
        self.line(class, (x - half, y + half), (x + half, y - half));
    }

    pub fn line(&mut self, class: &str, from: (f64, f64), to: (f64, f64)) {
        let (x1, y1, x2, y2) = (c(from.0), c(from.1), c(to.0), c(to.1));
        let _ = writeln!(
            self.body,
            "<line class=\"{class}\" x1=\"{x1}\" y1=\"{y1}\" x2=\"{x2}\" y2=\"{y2}\"/>"
        );
    }

    pub fn circle(&mut self, class: &str, x: f64, y: f64, radius: f64) {
        let (x, y, r) = (c(x), c(y), c(radius));
        let _ = writeln!(
            self.body,
            "<circle class=\"{class}\" cx=\"{x}\" cy=\"{y}\" r=\"{r}\"/>"
        );
    }

    /// A triangle by the middle of its base, half the base and the height; `up` points to smaller y.
    pub fn triangle(&mut self, class: &str, base: (f64, f64), size: (f64, f64), up: bool) {
        let ((x, y), (half, height)) = (base, size);
        let tip = if up { y - height } else { y + height };
        let (left, right, y, x, tip) = (c(x - half), c(x + half), c(y), c(x), c(tip));
        let _ = writeln!(
            self.body,
            "<path class=\"{class}\" d=\"M{left} {y}L{right} {y}L{x} {tip}Z\"/>"
        );
    }

    /// A triangle that points sideways, by the middle of its base, half the base and how far it points to the right.
    pub fn pointer(&mut self, class: &str, (x, y): (f64, f64), (half, by): (f64, f64)) {
        let (top, bottom, tip) = (c(y - half), c(y + half), c(x + by));
        let (x, y) = (c(x), c(y));
        let _ = writeln!(
            self.body,
            "<path class=\"{class}\" d=\"M{x} {top}L{x} {bottom}L{tip} {y}Z\"/>"
        );
    }

    /// A square that stands on a corner, around a middle.
    pub fn diamond(&mut self, class: &str, (x, y): (f64, f64), half: f64) {
        let (left, right, up, down) = (c(x - half), c(x + half), c(y - half), c(y + half));
        let (x, y) = (c(x), c(y));
        let _ = writeln!(
            self.body,
            "<path class=\"{class}\" d=\"M{left} {y}L{x} {up}L{right} {y}L{x} {down}Z\"/>"
        );
    }

    pub fn text(&mut self, class: &str, x: f64, y: f64, anchor: Anchor, text: &str) {
        let (x, y, anchor, text) = (c(x), c(y), anchor.name(), escape(text));
        let _ = writeln!(
            self.body,
            "<text class=\"{class}\" x=\"{x}\" y=\"{y}\" text-anchor=\"{anchor}\">{text}</text>"
        );
    }

    /// A text that rises to the right.
    pub fn slanted(&mut self, class: &str, x: f64, y: f64, text: &str) {
        let (x, y, text) = (c(x), c(y), escape(text));
        let _ = writeln!(
            self.body,
            "<text class=\"{class}\" x=\"{x}\" y=\"{y}\" transform=\"rotate(-55 {x} {y})\">{text}</text>"
        );
    }

    /// A text from below to above.
    pub fn upright(&mut self, class: &str, x: f64, y: f64, anchor: Anchor, text: &str) {
        let (x, y, anchor, text) = (c(x), c(y), anchor.name(), escape(text));
        let _ = writeln!(
            self.body,
            "<text class=\"{class}\" x=\"{x}\" y=\"{y}\" text-anchor=\"{anchor}\" transform=\"rotate(-90 {x} {y})\">{text}</text>"
        );
    }

    /// The whole drawing, on white; it has no size in pixels, so that it fits the window that it is shown in.
    pub fn finish(self, width: f64, height: f64) -> String {
        let (w, h) = (c(width), c(height));
        let views = self.views.iter().map(|(name, place)| {
            let place = place.map(c).join(" ");
            format!("<view id=\"{name}\" viewBox=\"{place}\"/>\n")
        });
        format!(
            "<svg xmlns=\"http://www.w3.org/2000/svg\" viewBox=\"0 0 {w} {h}\">\n\
             <style>{STYLE}</style>\n{HATCH}\n{}<rect width=\"{w}\" height=\"{h}\" fill=\"#fff\"/>\n{}</svg>\n",
            views.collect::<String>(),
            self.body
        )
    }

    /// A whole drawing as a part of this one, with its left upper corner at a place; what all drawings share stands once. Answers its size.
    pub fn part(&mut self, drawing: &str, x: f64, y: f64) -> (f64, f64) {
        let Some((w, h, body)) = taken_apart(drawing) else {
            return (0.0, 0.0);
        };
        let (left, top) = (c(x), c(y));
        let _ = write!(
            self.body,
            "<svg x=\"{left}\" y=\"{top}\" width=\"{w}\" height=\"{h}\" viewBox=\"0 0 {w} {h}\">\n{body}</svg>\n"
        );
        (w.parse().unwrap_or(0.0), h.parse().unwrap_or(0.0))
    }
}

/// The width, the height and the shapes of a whole drawing.
fn taken_apart(drawing: &str) -> Option<(&str, &str, &str)> {
    let (_, after) = drawing.split_once("viewBox=\"0 0 ")?;
    let (size, _) = after.split_once('"')?;
    let (w, h) = size.split_once(' ')?;
    let ground = format!("<rect width=\"{w}\" height=\"{h}\" fill=\"#fff\"/>\n");
    let (_, body) = drawing.split_once(&ground)?;
    Some((w, h, body.strip_suffix("</svg>\n")?))
}

/// How wide a text is, at the most.
pub fn width(class: &str, text: &str) -> f64 {
    let digit = match class {
        "title" => 10.5,
        "name" | "cost" | "fault" => 7.0,
        "" | "shut" => 6.4,
        "tag" => 6.0,
        "tiny" => 4.5,
        _ => 5.8,
    };
    digit * text.chars().map(in_digits).sum::<f64>()
}

/// The width of a character in widths of a digit.
fn in_digits(c: char) -> f64 {
    match c {
        ' ' | '.' | ',' | ':' | ';' | '(' | ')' | '-' | 'f' | 'i' | 'j' | 'l' | 'r' | 't' => 0.66,
        'm' | 'w' | 'M' | 'W' => 1.55,
        '0'..='9' | 'a'..='z' => 1.0,
        '\u{1100}'.. => 1.8,
        _ => 1.35,
    }
}

/// The width of the widest.
pub fn widest(class: &str, texts: &[String]) -> f64 {
    let widths = texts.iter().map(|text| width(class, text));
    widths.fold(0.0, f64::max)
}

/// As much of a text as is at most so wide, with two dots where it is cut.
pub fn cropped(class: &str, text: &str, most: f64) -> String {
    if width(class, text) <= most {
        return text.into();
    }
    let ends = text.char_indices().map(|(end, _)| &text[..end]);
    let fits = |start: &&str| width(class, start) + width(class, "..") <= most;
    let start = ends.take_while(fits).last().unwrap_or("");
    format!("{start}..")
}

/// A text in lines of words that are at most so wide.
pub fn wrapped(class: &str, text: &str, most: f64) -> Vec<String> {
    let mut lines: Vec<String> = Vec::new();
    for word in text.split(' ') {
        match lines.last_mut() {
            Some(line) if width(class, line) + width(class, word) < most => {
                *line += " ";
                *line += word;
            }
            _ => lines.push(word.into()),
        }
    }
    lines
}

/// A number for a label, in at most four digits.
pub fn short(value: f64) -> String {
    let size = value.abs();
    if value == 0.0 {
        return "0".into();
    }
    if !(0.001..1e6).contains(&size) {
        let text = format!("{value:.2e}");
        return text.replace(".00e", "e");
    }
    let decimals = match size {
        _ if size >= 1_000.0 => 0,
        _ if size >= 100.0 => 1,
        _ if size >= 10.0 => 2,
        _ => 3,
    };
    let text = format!("{value:.decimals$}");
    match text.contains('.') {
        true => text.trim_end_matches('0').trim_end_matches('.').into(),
        false => text,
    }
}
