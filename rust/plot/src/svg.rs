//! The text of a picture: shapes with classes, and the style sheet that gives the classes their colours.

use std::fmt::Write;

/// A colour by its purpose; the style sheet has two shades of each, for light and for dark pages.
#[derive(Clone, Copy, PartialEq, Eq, Debug)]
pub enum Colour {
    /// The main series.
    Orange,
    /// The series to compare with the main one.
    Blue,
    /// A series in the background.
    Grey,
    /// A fourth series; also the verdict that something holds.
    Green,
    /// A fifth series.
    Purple,
    /// The verdict that something only just holds; a picture must request it (`Svg::with`).
    Amber,
    /// The verdict that something does not hold; a picture must request it (`Svg::with`).
    Red,
}

impl Colour {
    /// The colours that every picture has.
    pub const ALL: [Colour; 5] = [
        Colour::Orange,
        Colour::Blue,
        Colour::Grey,
        Colour::Green,
        Colour::Purple,
    ];

    fn class(self) -> &'static str {
        match self {
            Colour::Orange => "orange",
            Colour::Blue => "blue",
            Colour::Grey => "grey",
            Colour::Green => "green",
            Colour::Purple => "purple",
            Colour::Amber => "amber",
            Colour::Red => "red",
        }
    }

    /// The shade on light pages, and the one on dark pages.
    fn shades(self) -> [&'static str; 2] {
        match self {
            Colour::Orange => ["#c8501c", "#f07f4c"],
            Colour::Blue => ["#2f7fb8", "#63b0e6"],
            Colour::Grey => ["#a3a29c", "#767d86"],
            Colour::Green => ["#2f8f68", "#4fc497"],
            Colour::Purple => ["#7d3c98", "#bb87d3"],
            Colour::Amber => ["#d9a521", "#e8bd4f"],
            Colour::Red => ["#b3261e", "#e0665f"],
        }
    }
}

const FIXED: &str = "text { font-family: Helvetica, Arial, sans-serif; font-size: 12px; }
.title { font-size: 15px; font-weight: bold; }
.small { font-size: 11px; }
.bold { font-weight: bold; }
.end { text-anchor: end; }
.middle { text-anchor: middle; }
.grid, .tick, .mark, .curve { fill: none; }
.mark { stroke-width: 1.5; }
.curve { stroke-width: 2; }
";

/// The colours of the paper, the ink, the softer ink and the grid, for light and for dark pages.
const PAGES: [[&str; 4]; 2] = [
    ["#fcfcfa", "#222222", "#5f5f5a", "#e2e2de"],
    ["#14171a", "#e8e6e3", "#a4a9ae", "#30363c"],
];

fn sheet(page: usize, more: &[Colour]) -> String {
    let [paper, ink, soft, grid] = PAGES[page];
    let mut sheet = format!(
        ".paper {{ fill: {paper}; }}\n.ink {{ fill: {ink}; }}\n.soft {{ fill: {soft}; }}\n.grid {{ stroke: {grid}; }}\n.tick {{ stroke: {soft}; }}\n.mark {{ stroke: {ink}; }}\n.dot {{ fill: {ink}; stroke: {paper}; }}\n"
    );
    for colour in Colour::ALL.iter().chain(more) {
        let (class, shade) = (colour.class(), colour.shades()[page]);
        let _ = writeln!(
            sheet,
            ".{class} {{ fill: {shade}; }}\n.curve.{class} {{ fill: none; stroke: {shade}; }}"
        );
    }
    sheet
}

/// A picture under construction.
#[derive(Debug)]
pub struct Svg {
    text: String,
}

fn escaped(words: &str) -> String {
    words
        .replace('&', "&amp;")
        .replace('<', "&lt;")
        .replace('>', "&gt;")
}

impl Svg {
    /// An empty picture; `title` is for screen readers.
    pub fn new(width: f64, height: f64, title: &str) -> Svg {
        Svg::with(width, height, title, &[])
    }

    /// An empty picture with further colours.
    pub fn with(width: f64, height: f64, title: &str, more: &[Colour]) -> Svg {
        let (light, dark, title) = (sheet(0, more), sheet(1, more), escaped(title));
        Svg {
            text: format!(
                "<svg xmlns=\"http://www.w3.org/2000/svg\" role=\"img\" viewBox=\"0 0 {width} {height}\" width=\"{width}\" height=\"{height}\">\n<title>{title}</title>\n<style>\n{FIXED}{light}@media (prefers-color-scheme: dark) {{\n{dark}}}\n</style>\n<rect class=\"paper\" width=\"{width}\" height=\"{height}\"/>\n"
            ),
        }
    }

    /// Draws text; the classes give its size, its ink and its alignment.
    pub fn text(&mut self, classes: &str, x: f64, y: f64, words: &str) {
        let words = escaped(words);
        let _ = writeln!(
            self.text,
            r#"<text class="{classes}" x="{x:.1}" y="{y:.1}">{words}</text>"#
        );
    }

    /// Draws text in a colour.
    pub fn name(&mut self, colour: Colour, x: f64, y: f64, words: &str) {
        self.text(&format!("bold {}", colour.class()), x, y, words);
    }

    /// Draws a filled rectangle with a tooltip.
    pub fn bar(&mut self, colour: Colour, [x, y, width, height]: [f64; 4], words: &str) {
        if width <= 0.0 || height <= 0.0 {
            return;
        }
        let (class, words) = (colour.class(), escaped(words));
        let _ = writeln!(
            self.text,
            r#"<rect class="{class}" x="{x:.2}" y="{y:.2}" width="{width:.2}" height="{height:.2}"><title>{words}</title></rect>"#
        );
    }

    /// Draws a line of a class: `grid`, `tick` or `mark`.
    pub fn line(&mut self, class: &str, [x, y]: [f64; 2], [to_x, to_y]: [f64; 2]) {
        let _ = writeln!(
            self.text,
            r#"<path class="{class}" d="M{x:.2} {y:.2}L{to_x:.2} {to_y:.2}"/>"#
        );
    }

    /// Draws a curve through points, with a dot at each.
    pub fn curve(&mut self, colour: Colour, places: &[(f64, f64)]) {
        let class = colour.class();
        let line: Vec<String> = places
            .iter()
            .map(|(x, y)| format!("{x:.1} {y:.1}"))
            .collect();
        let _ = writeln!(
            self.text,
            r#"<path class="curve {class}" d="M{}"/>"#,
            line.join("L")
        );
        for (x, y) in places {
            let _ = writeln!(
                self.text,
                r#"<circle class="{class}" cx="{x:.1}" cy="{y:.1}" r="3.5"/>"#
            );
        }
    }

    /// Draws a dot in the ink of the page, with a tooltip.
    pub fn dot(&mut self, x: f64, y: f64, words: &str) {
        let words = escaped(words);
        let _ = writeln!(
            self.text,
            r#"<circle class="dot" cx="{x:.1}" cy="{y:.1}" r="4"><title>{words}</title></circle>"#
        );
    }

    /// The text of the whole picture.
    pub fn whole(self) -> String {
        self.text + "</svg>\n"
    }
}

#[cfg(test)]
mod tests {
    use super::*;

    #[test]
    fn a_picture_has_both_sets_of_colours_and_no_other() {
        let mut svg = Svg::new(100.0, 50.0, "a < b & c");
        svg.text("ink small", 1.0, 2.0, "x > y");
        svg.bar(Colour::Blue, [0.0, 0.0, 10.0, 5.0], "5 h");
        svg.bar(Colour::Blue, [0.0, 0.0, 10.0, 0.0], "nothing");
        svg.curve(Colour::Orange, &[(0.0, 1.0), (2.0, 3.0)]);
        let text = svg.whole();
        assert!(text.contains("<title>a &lt; b &amp; c</title>"));
        assert!(text.contains("x &gt; y") && !text.contains("nothing"));
        let (style, shapes) = text.split_once("</style>").unwrap();
        for colour in Colour::ALL {
            assert!(colour.shades().iter().all(|shade| style.contains(shade)));
        }
        assert!(style.contains("prefers-color-scheme: dark") && !shapes.contains('#'));
        assert!(!style.contains(".red"));
        let text = Svg::with(1.0, 1.0, "", &[Colour::Red]).whole();
        assert!(Colour::Red
            .shades()
            .iter()
            .all(|shade| text.contains(shade)));
    }
}
