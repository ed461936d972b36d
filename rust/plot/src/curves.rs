//! Curves in panels side by side, with logarithmic axes and a name at the end of every curve.

use crate::scale::{rounded, Scale};
use crate::svg::{Colour, Svg};

/// A curve and its name.
#[derive(Clone, Debug)]
pub struct Curve {
    /// The text at its end.
    pub name: &'static str,
    /// The colour of the line and the name.
    pub colour: Colour,
    /// Pairs of a count and a measured value, both above 0.
    pub points: Vec<(f64, f64)>,
}

/// Curves over the same counts.
#[derive(Clone, Debug)]
pub struct Panel {
    /// The title of the panel.
    pub title: &'static str,
    /// The unit of the measured values.
    pub unit: &'static str,
    /// What the counts are of.
    pub along: &'static str,
    /// The curves; at least one.
    pub curves: Vec<Curve>,
}

const HEIGHT: f64 = 340.0;
const LEFT: f64 = 76.0;
const PLACE: f64 = 280.0;
const TOP: f64 = 56.0;
const BOTTOM: f64 = 52.0;
/// The smallest distance between two names.
const LINE: f64 = 15.0;

impl Panel {
    fn values(&self) -> impl Iterator<Item = (f64, f64)> + '_ {
        self.curves
            .iter()
            .flat_map(|curve| curve.points.iter().copied())
    }

    fn names(&self) -> Vec<(f64, Colour, String)> {
        let name = |curve: &Curve| {
            let last = curve.points.last().map_or(0.0, |&(_, value)| value);
            (
                last,
                curve.colour,
                format!("{} {}", curve.name, grouped(last)),
            )
        };
        let mut all: Vec<(f64, Colour, String)> = self.curves.iter().map(name).collect();
        all.sort_by(|one, other| other.0.total_cmp(&one.0));
        all
    }

    /// The width, including the names.
    fn width(&self) -> f64 {
        let longest = self
            .names()
            .iter()
            .map(|(.., name)| name.chars().count())
            .max();
        LEFT + PLACE + 24.0 + 7.0 * longest.unwrap_or(0) as f64
    }
}

/// The number with commas between thousands, as in 65,536.
fn grouped(number: f64) -> String {
    fn whole(number: u64) -> String {
        match number {
            0..=999 => number.to_string(),
            _ => format!("{},{:03}", whole(number / 1000), number % 1000),
        }
    }
    match number {
        _ if number > 0.0 && number < 9.95 && number.fract() != 0.0 => format!("{number:.1}"),
        _ => whole(number.round() as u64),
    }
}

fn range(values: impl Iterator<Item = f64>) -> [f64; 2] {
    values.fold([f64::MAX, f64::MIN_POSITIVE], |[low, high], value| {
        [low.min(value), high.max(value)]
    })
}

/// The tick marks for a unit, the same in all panels with this unit: round numbers, or only powers of ten if they suffice.
fn marks(panels: &[Panel], unit: &str) -> Vec<f64> {
    let alike = panels.iter().filter(|panel| panel.unit == unit);
    let [low, high] = range(alike.flat_map(Panel::values).map(|(_, value)| value));
    let all = rounded(low, high);
    if all.len() <= 9 {
        return all;
    }
    let (first, last) = (low.log10().floor() as i32, high.log10().ceil() as i32);
    (first..=last).map(|power| 10f64.powi(power)).collect()
}

fn panel(svg: &mut Svg, panel: &Panel, marks: &[f64], left: f64) {
    let counts = || panel.values().map(|(count, _)| count);
    let x = Scale::logarithm(range(counts()), left + LEFT, left + LEFT + PLACE);
    let ends = [marks[0], marks[marks.len() - 1]];
    let y = Scale::logarithm(ends, HEIGHT - BOTTOM, TOP);
    let ([from, to], foot) = (x.ends(), HEIGHT - BOTTOM);
    svg.text("title ink", left + 20.0, 26.0, panel.title);
    svg.text("small soft", left + 20.0, 43.0, panel.unit);
    for &mark in marks {
        let height = y.at(mark);
        svg.line("grid", [from, height], [to, height]);
        svg.text("small soft end", from - 8.0, height + 4.0, &grouped(mark));
    }
    for &(count, _) in &panel.curves[0].points {
        let place = x.at(count);
        svg.line("tick", [place, foot], [place, foot + 5.0]);
        svg.text("small soft middle", place, foot + 19.0, &grouped(count));
    }
    svg.text(
        "small soft middle",
        (from + to) / 2.0,
        foot + 39.0,
        panel.along,
    );
    for curve in &panel.curves {
        let places = curve
            .points
            .iter()
            .map(|&(count, value)| (x.at(count), y.at(value)));
        svg.curve(curve.colour, &places.collect::<Vec<(f64, f64)>>());
    }
    let mut lowest_free = 0.0;
    for (last, colour, name) in panel.names() {
        let height = f64::max(y.at(last) + 4.0, lowest_free);
        lowest_free = height + LINE;
        svg.name(colour, to + 10.0, height, &name);
    }
}

/// The panels side by side as an SVG picture.
pub fn picture(panels: &[Panel], title: &str) -> String {
    let width = panels.iter().map(Panel::width).sum();
    let mut svg = Svg::new(width, HEIGHT, title);
    let mut left = 0.0;
    for one in panels {
        panel(&mut svg, one, &marks(panels, one.unit), left);
        left += one.width();
    }
    svg.whole()
}

#[cfg(test)]
mod tests {
    use super::*;

    #[test]
    fn curves_are_named_at_their_ends_and_apart() {
        let curve = |name, colour, last| Curve {
            name,
            colour,
            points: vec![(1.0, 10.0), (100.0, last)],
        };
        let curves = vec![
            curve("one", Colour::Orange, 1200.0),
            curve("two", Colour::Blue, 1190.0),
        ];
        let panel = Panel {
            title: "work",
            unit: "nanoseconds",
            along: "orders",
            curves,
        };
        let text = picture(&[panel], "work by orders");
        assert!(text.contains("one 1,200") && text.contains("two 1,190"));
        let height = |name: &str| {
            let line = text.lines().find(|line| line.contains(name)).unwrap();
            let (_, y) = line.split_once("y=\"").unwrap();
            y.split('"').next().unwrap().parse::<f64>().unwrap()
        };
        assert!(height("two 1,190") - height("one 1,200") >= LINE);
    }

    #[test]
    fn numbers_are_for_readers() {
        assert_eq!(
            [0.5, 5.0, 9.96, 1_000_007.0].map(grouped),
            ["0.5", "5", "10", "1,000,007"]
        );
    }
}
