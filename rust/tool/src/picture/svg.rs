//! A writer of SVG elements.

use super::lines::{Row, sentence, wrapped};
use std::fmt::Display;

/// The colour of what a picture is about; all else is grey.
pub const ACCENT: &str = "#1a5fb4";
/// The colour of words.
pub const INK: &str = "#222222";
/// The colour of words that are less.
pub const PALE: &str = "#767676";
/// The colour of labels of what no diagonal has.
pub const FAINT: &str = "#a8a8a8";
/// The colour of lines that only guide.
pub const LINE: &str = "#d4d4d4";
/// The colour of a ground that has nothing to show.
pub const GROUND: &str = "#f1f1f1";

/// The margin of a picture.
pub const MARGIN: usize = 16;
/// From one line of words to the next.
pub const LEADING: usize = 17;

/// About how many lines a panel has; where there are few rows, each has more of them.
const PANEL_LINES: usize = 36;

/// How wide so many characters of size 12 are, monospaced.
pub fn mono(characters: usize) -> usize {
    (characters * 73).div_ceil(10)
}

/// An SVG document that is being written.
#[derive(Default)]
pub struct Svg {
    body: String,
}

/// Text as it stands between tags and in attributes.
fn escaped(text: &str) -> String {
    let mut out = String::new();
    for c in text.chars() {
        match c {
            '&' => out += "&amp;",
            '<' => out += "&lt;",
            '>' => out += "&gt;",
            '"' => out += "&quot;",
            _ => out.push(c),
        }
    }
    out
}

/// Attributes, each after a blank.
fn attributes(list: &[(&str, &dyn Display)]) -> String {
    list.iter().map(|(name, value)| format!(" {name}=\"{}\"", escaped(&value.to_string()))).collect()
}

impl Svg {
    /// An element without content.
    fn empty(&mut self, name: &str, list: &[(&str, &dyn Display)]) {
        self.body += &format!("<{name}{}/>\n", attributes(list));
    }

    /// Elements that share attributes; nothing, where there is none of them.
    pub fn group(&mut self, list: &[(&str, &dyn Display)], draw: impl FnOnce(&mut Svg)) {
        let mut inner = Svg::default();
        draw(&mut inner);
        if !inner.body.is_empty() {
            self.body += &format!("<g{}>\n{}</g>\n", attributes(list), inner.body);
        }
    }

    /// Words that share a size, a colour and an anchor, all numbers and lists of them.
    pub fn numbers(&mut self, size: usize, colour: &str, anchor: &str, draw: impl FnOnce(&mut Svg)) {
        let family = "monospace";
        let list: [(&str, &dyn Display); 4] =
            [("font-family", &family), ("font-size", &size), ("fill", &colour), ("text-anchor", &anchor)];
        self.group(&list, draw);
    }

    /// Words that share a size and a colour.
    pub fn words(&mut self, size: usize, colour: &str, weight: &str, draw: impl FnOnce(&mut Svg)) {
        let family = "sans-serif";
        let list: [(&str, &dyn Display); 4] =
            [("font-family", &family), ("font-size", &size), ("font-weight", &weight), ("fill", &colour)];
        self.group(&list, draw);
    }

    /// A rectangle.
    pub fn rect(&mut self, x: usize, y: usize, width: usize, height: usize) {
        self.empty("rect", &[("x", &x), ("y", &y), ("width", &width), ("height", &height)]);
    }

    /// A line.
    pub fn line(&mut self, x1: usize, y1: usize, x2: usize, y2: usize) {
        self.empty("line", &[("x1", &x1), ("y1", &y1), ("x2", &x2), ("y2", &y2)]);
    }

    /// A disc.
    pub fn disc(&mut self, x: usize, y: usize, radius: usize) {
        self.empty("circle", &[("cx", &x), ("cy", &y), ("r", &radius)]);
    }

    /// A path.
    pub fn path(&mut self, steps: &str) {
        self.empty("path", &[("d", &steps)]);
    }

    /// A line of words.
    pub fn text(&mut self, x: usize, y: usize, text: &str) {
        self.body += &format!("<text x=\"{x}\" y=\"{y}\">{}</text>\n", escaped(&text.replace("->", "\u{2192}")));
    }

    /// The title over a picture of a width; answers where it ends.
    pub fn headline(&mut self, title: &str, width: usize) -> usize {
        let lines = sentence(title, (width - 2 * MARGIN) / 9);
        self.words(15, INK, "bold", |svg| svg.column(MARGIN, MARGIN + 15, 20, &lines));
        MARGIN + 20 * lines.len()
    }

    /// Lines of words, one below the other, the first on y.
    fn column(&mut self, x: usize, y: usize, leading: usize, lines: &[String]) {
        for (n, line) in lines.iter().enumerate() {
            self.text(x, y + n * leading, line);
        }
    }

    /// Rows below y, each name on a line of its own, in so many characters; answers where they end.
    pub fn panel(&mut self, rows: &[Row], x: usize, mut y: usize, characters: usize) -> usize {
        let most = (PANEL_LINES / rows.len().max(1)).clamp(2, 6);
        for row in rows {
            if !row.name.is_empty() {
                y += LEADING + 5;
                self.words(12, INK, "bold", |svg| svg.text(x, y, row.name));
            }
            y = self.row(row, x, y, characters, most);
        }
        y
    }

    /// Rows below y, each beside its name, over a width; answers where they end.
    pub fn table(&mut self, rows: &[Row], mut y: usize, width: usize) -> usize {
        let left = MARGIN + 80;
        for row in rows {
            self.words(12, INK, "bold", |svg| svg.text(MARGIN, y + LEADING, row.name));
            y = self.row(row, left, y, (width - left - MARGIN) * 10 / 73, 2);
        }
        y
    }

    /// One row below y, in so many characters and at most so many lines; answers where it ends.
    fn row(&mut self, row: &Row, x: usize, y: usize, characters: usize, most: usize) -> usize {
        let head = row.head.len();
        let lines = wrapped(&row.items, characters - head, most);
        if head > 0 {
            self.numbers(12, PALE, "end", |svg| svg.text(x + mono(head - 1), y + LEADING, row.head.trim()));
        }
        self.numbers(12, INK, "start", |svg| svg.column(x + mono(head), y + LEADING, LEADING, &lines));
        y + LEADING * lines.len()
    }

    /// Sentences below y, over a width; answers where they end.
    pub fn notes(&mut self, notes: &[String], y: usize, width: usize) -> usize {
        let lines: Vec<String> = notes.iter().flat_map(|note| sentence(note, (width - 2 * MARGIN) / 7)).collect();
        self.words(12, PALE, "normal", |svg| svg.column(MARGIN, y + LEADING, LEADING, &lines));
        y + LEADING * lines.len()
    }

    /// The document, on white.
    pub fn finish(self, width: usize, height: usize, title: &str, description: &str) -> String {
        let title = escaped(&sentence(title, usize::MAX).concat());
        let description = escaped(description);
        let mut ground = Svg::default();
        ground.group(&[("fill", &"#ffffff")], |svg| svg.rect(0, 0, width, height));
        format!(
            "<svg xmlns=\"http://www.w3.org/2000/svg\" width=\"{width}\" height=\"{height}\" viewBox=\"0 0 {width} \
             {height}\" role=\"img\">\n<title>{title}</title>\n<desc>{description}</desc>\n{}{}</svg>\n",
            ground.body, self.body
        )
    }
}
