//! Marks with their words, in rows.

use super::svg::{self, Anchor, Svg};

/// The width of a mark, and from there to its words.
const MARK: f64 = 16.0;
const GAP: f64 = 5.0;
const ROW: f64 = 15.0;

pub struct Legend {
    /// How much was drawn before it: what it explains.
    drawn: usize,
    left: f64,
    width: f64,
    x: f64,
    y: f64,
}

impl Legend {
    pub fn new(svg: &Svg, left: f64, top: f64, width: f64) -> Self {
        Self {
            drawn: svg.length(),
            left,
            width,
            x: left,
            y: top,
        }
    }

    /// A mark, drawn around a middle and at most 16 by 12 large, and its words; in the next row where this one is full.
    pub fn entry(&mut self, svg: &mut Svg, words: &str, mark: impl FnOnce(&mut Svg, f64, f64)) {
        let width = MARK + GAP + svg::width("small", words);
        if self.x + width > self.left + self.width {
            self.next_row();
        }
        let (x, y) = (self.x + MARK / 2.0, self.y - 3.0);
        svg.group("legend", |svg| mark(svg, x, y));
        self.words(svg, words);
    }

    /// The same, where what is drawn before the legend has a part.
    pub fn entry_of(
        &mut self,
        svg: &mut Svg,
        part: &str,
        words: &str,
        mark: impl FnOnce(&mut Svg, f64, f64),
    ) {
        if svg.has_before(self.drawn, part) {
            self.entry(svg, words, mark);
        }
    }

    /// Colours side by side, and their words.
    pub fn colours(&mut self, svg: &mut Svg, colours: &[&str], words: &str) {
        self.next_row();
        for (k, colour) in colours.iter().enumerate() {
            self.x += if k > 0 { MARK } else { 0.0 };
            let at = (self.x, self.y - 9.0);
            svg.tile(at, (MARK, 12.0), colour, "shade", "");
        }
        self.words(svg, words);
    }

    /// The words of the mark that stands at `x`.
    fn words(&mut self, svg: &mut Svg, words: &str) {
        self.x += MARK + GAP;
        svg.text("small", self.x, self.y, Anchor::Start, words);
        self.x += svg::width("small", words) + 12.0;
    }

    /// What follows stands in a row that is still empty.
    pub fn next_row(&mut self) {
        if self.x > self.left {
            (self.x, self.y) = (self.left, self.y + ROW);
        }
    }

    /// Words alone, in rows of their own, where there are any.
    pub fn sentence(&mut self, svg: &mut Svg, words: &str) {
        self.next_row();
        if words.is_empty() {
            return;
        }
        for line in svg::wrapped("small", words, self.width) {
            svg.text("small", self.left, self.y, Anchor::Start, &line);
            self.y += ROW;
        }
    }

    /// The lower edge, with all that was drawn above.
    pub fn end(mut self) -> f64 {
        self.next_row();
        self.y - ROW + 4.0
    }
}
