//! The outlook as a picture: what is to be finished by shifts. Each field says its verdict in words, and has a mark of its own beside its colour.

use super::outlook::{Finish, Outlook};
use plot::{Colour, Svg};

const LEFT: f64 = 20.0;
const TOP: f64 = 92.0;
const ROW: f64 = 44.0;
const GAP: f64 = 4.0;
/// So wide is a letter, about.
const LETTER: f64 = 6.6;

/// A field: its colour, its mark and its words.
pub fn field(outlook: &Outlook) -> (Colour, &'static str, String) {
    match &outlook.finish {
        Finish::Yes(able) if able.away.any > 0 => (
            Colour::Green,
            "+",
            format!("any {} may be away", able.away.any),
        ),
        Finish::Yes(able) if able.away.settled => {
            (Colour::Amber, "!", "nobody may be away".to_string())
        }
        Finish::Yes(_) => (
            Colour::Amber,
            "!",
            "yes; who may be away: not settled".to_string(),
        ),
        Finish::No(_) => (Colour::Red, "x", "cannot be finished".to_string()),
        Finish::Open(_) => (Colour::Grey, "?", "not settled".to_string()),
    }
}

/// The picture of a table: its title, its columns, and each row's name with its fields.
pub fn picture(title: &str, columns: &[String], rows: &[(String, Vec<&Outlook>)]) -> String {
    let widest = |words: &mut dyn Iterator<Item = usize>| words.max().unwrap_or(0) as f64 * LETTER;
    let names = widest(&mut rows.iter().map(|(name, _)| name.chars().count())).clamp(60.0, 320.0);
    let column =
        widest(&mut columns.iter().map(|name| name.chars().count())).clamp(190.0, 320.0) + 20.0;
    let width = (LEFT + names + 20.0 + (column + GAP) * columns.len() as f64 + 16.0).max(560.0);
    let height = TOP + (ROW + GAP) * rows.len() as f64 + 44.0;
    let mut svg = Svg::with(width, height, title, &[Colour::Amber, Colour::Red]);
    svg.text("title ink", LEFT, 28.0, title);
    svg.text("small soft", LEFT, 46.0, "whether an order can be finished by the clerks of a shift, and how many of them may be away, whoever they are");
    let start = LEFT + names + 20.0;
    for (at, name) in columns.iter().enumerate() {
        svg.text(
            "bold ink",
            start + at as f64 * (column + GAP) + 4.0,
            TOP - 12.0,
            name,
        );
    }
    for (row, (name, fields)) in rows.iter().enumerate() {
        let top = TOP + row as f64 * (ROW + GAP);
        svg.text("ink", LEFT, top + 27.0, name);
        for (at, outlook) in fields.iter().enumerate() {
            let left = start + at as f64 * (column + GAP);
            let (colour, mark, words) = field(outlook);
            svg.line("grid", [left, top + ROW], [left + column, top + ROW]);
            svg.bar(
                colour,
                [left, top, 34.0, ROW],
                &format!("{name}, {}: {words}", columns[at]),
            );
            svg.text("title paper middle", left + 17.0, top + 28.0, mark);
            svg.text("ink", left + 42.0, top + 27.0, &words);
        }
    }
    svg.text(
        "small soft",
        LEFT,
        height - 16.0,
        "+ some may be away; ! nobody may be away; x it cannot be finished; ? not settled",
    );
    svg.whole()
}
