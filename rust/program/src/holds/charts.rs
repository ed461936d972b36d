//! The report as a picture: holds by period with their parts, orders that lie by hour of the day, and the longest holds.

use super::calendar::{length, short_length, HOUR, SECOND};
use super::figures::{By, Figures};
use super::hold::{Ended, Hold, Part, PARTS};
use super::report::Report;
use plot::{labels, Colour, Scale, Svg, Time};

const WIDTH: f64 = 760.0;
const LEFT: f64 = 64.0;
const RIGHT: f64 = 24.0;
/// Where names of orders stand.
const NAMES: f64 = 190.0;
const BAR: f64 = 22.0;
/// So wide is the length of a median.
const ROOM: f64 = 48.0;
/// What an axis shows at least, in seconds and in orders at a time: below that there is nothing to tell apart.
const SECONDS: f64 = 1.0;
const ORDERS: f64 = 0.001;

/// What a picture shows.
#[derive(Clone, Copy, PartialEq, Eq, Debug)]
pub enum Panel {
    Periods,
    Hours,
    Worst,
}

impl Panel {
    pub const ALL: [Panel; 3] = [Panel::Periods, Panel::Hours, Panel::Worst];
    pub const NAMES: [&'static str; 3] = ["periods", "hours", "worst"];

    pub fn of_name(name: &str) -> Option<Panel> {
        let at = Panel::NAMES.iter().position(|of| *of == name)?;
        Some(Panel::ALL[at])
    }

    fn height(self, report: &Report) -> f64 {
        match self {
            Panel::Periods => 360.0,
            Panel::Hours => 300.0,
            Panel::Worst => 110.0 + BAR * report.worst.len() as f64,
        }
    }
}

/// What the picture is to be like.
pub struct Picture<'a> {
    pub panels: Vec<Panel>,
    pub title: Option<&'a str>,
    /// Up to where the axis of time goes in `Periods`, so that two pictures compare.
    pub top: Option<f64>,
}

fn colour(part: Part) -> Colour {
    match part {
        Part::Nobody => Colour::Orange,
        Part::Somebody => Colour::Blue,
        Part::Absent => Colour::Grey,
        Part::Held => Colour::Green,
        Part::Before => Colour::Purple,
    }
}

fn seconds(time: i64) -> f64 {
    time as f64 / SECOND as f64
}

/// The parts that there are at all; a picture names no others.
fn parts(report: &Report) -> Vec<Part> {
    let some = |part: &Part| {
        report
            .holds
            .iter()
            .any(|hold| hold.parts[*part as usize] > 0)
    };
    Part::ALL.into_iter().filter(some).collect()
}

pub fn picture(report: &Report, wanted: &Picture) -> String {
    let height: f64 = wanted.panels.iter().map(|panel| panel.height(report)).sum();
    let title = format!("Holds, {}", report.between());
    let mut svg = Svg::new(WIDTH, height, wanted.title.unwrap_or(&title));
    let mut top = 0.0;
    for (place, panel) in wanted.panels.iter().enumerate() {
        let given = wanted.title.filter(|_| place == 0);
        let bottom = top + panel.height(report);
        match panel {
            Panel::Periods => periods(&mut svg, report, [top, bottom], given, wanted.top),
            Panel::Hours => hours(&mut svg, report, [top, bottom], given),
            Panel::Worst => worst(&mut svg, report, [top, bottom], given),
        }
        top = bottom;
    }
    svg.whole()
}

/// A title, what the bars are, and which colour is which.
fn head(svg: &mut Svg, report: &Report, top: f64, title: &str, unit: &str, with_median: bool) {
    svg.text("title ink", 20.0, top + 28.0, title);
    svg.text("small soft", 20.0, top + 46.0, unit);
    let mut x = 20.0;
    for part in parts(report) {
        svg.bar(colour(part), [x, top + 57.0, 11.0, 11.0], part.words());
        svg.text("small ink", x + 16.0, top + 67.0, part.words());
        x += 30.0 + 6.2 * part.words().len() as f64;
    }
    if with_median {
        svg.line("mark", [x + 5.0, top + 55.0], [x + 5.0, top + 70.0]);
        svg.dot(x + 5.0, top + 62.5, "median");
        svg.text("small ink", x + 16.0, top + 67.0, "median and quartiles");
    }
}

/// The means of some holds' parts, in seconds: stacked they are the mean hold.
fn means(figures: &Figures) -> [f64; PARTS] {
    let count = figures.count().max(1) as f64;
    figures.parts.map(|part| seconds(part) / count)
}

fn highest(report: &Report) -> f64 {
    let of = |figures: &Figures| {
        let quarter = figures.hundredths(75).map_or(0.0, seconds);
        quarter.max(means(figures).iter().sum())
    };
    let all = report.groups.iter().map(|(_, figures)| of(figures));
    all.fold(SECONDS, f64::max)
}

/// Marks to the left, with lines across; a mark's unit is so much on the scale.
fn axis(svg: &mut Svg, unit: f64, marks: &[f64], y: &Scale) {
    for (mark, label) in marks.iter().zip(labels(marks)) {
        let height = y.at(mark * unit);
        svg.line("grid", [LEFT, height], [WIDTH - RIGHT, height]);
        svg.text("small soft end", LEFT - 8.0, height + 4.0, &label);
    }
}

fn periods(
    svg: &mut Svg,
    report: &Report,
    [top, bottom]: [f64; 2],
    title: Option<&str>,
    up_to: Option<f64>,
) {
    let name = match report.by {
        By::Clerk => "by clerk".to_string(),
        By::Shift(_) => "by shift in which it began".to_string(),
        By::Opening => "one by one".to_string(),
        _ => format!("by {} in which it began", unit_of(&report.by)),
    };
    let usual = format!("Holds, {}, {name}", report.between());
    let high = up_to.map_or_else(|| highest(report), |hours| hours * 3_600.0);
    let time = Time::up_to(high);
    let marks = time.marks(high);
    let all = &report.all;
    let median = all
        .median()
        .map_or(String::new(), |median| match all.count() {
            1 => format!("; the only hold took {}", length(median)),
            count => format!("; median of all {count} holds {}", length(median)),
        });
    let unit = format!(
        "{}; a bar is the mean hold with its parts{median}",
        time.unit
    );
    head(svg, report, top, title.unwrap_or(&usual), &unit, true);
    let last = marks.last().copied().unwrap_or(1.0) * time.seconds;
    let y = Scale::even(last, bottom - 44.0, top + 100.0);
    axis(svg, time.seconds, &marks, &y);
    let wide = (WIDTH - RIGHT - LEFT) / report.groups.len().max(1) as f64;
    let every = report.groups.len().div_ceil(13).max(1);
    for (place, (name, figures)) in report.groups.iter().enumerate() {
        let x = LEFT + wide * place as f64;
        stack(svg, figures, [x + 0.16 * wide, 0.68 * wide], &y, last, name);
        whisker(svg, figures, [x + wide / 2.0, wide], &y, last);
        if place % every == 0 {
            svg.text("small soft middle", x + wide / 2.0, bottom - 26.0, name);
        }
    }
    svg.text(
        "small soft middle",
        (LEFT + WIDTH - RIGHT) / 2.0,
        bottom - 8.0,
        unit_of(&report.by),
    );
}

fn unit_of(by: &By) -> &'static str {
    match by {
        By::Month => "month",
        By::Week => "week",
        By::Day => "day",
        By::Hour => "hour of the day",
        By::Weekday => "weekday",
        By::Clerk => "clerk",
        By::Shift(_) => "shift",
        By::Opening => "order",
    }
}

/// The mean hold, from the foot up by its parts.
fn stack(svg: &mut Svg, figures: &Figures, [x, width]: [f64; 2], y: &Scale, last: f64, name: &str) {
    let mut foot = 0.0;
    for part in Part::ALL {
        let mean = means(figures)[part as usize];
        let (from, to) = (y.at(foot), y.at((foot + mean).min(last)));
        let words = format!(
            "{name}, {}: {} in the mean of {} holds",
            part.words(),
            length((mean * SECOND as f64) as i64),
            figures.count()
        );
        svg.bar(colour(part), [x, to, width, from - to], &words);
        foot = (foot + mean).min(last);
    }
}

/// The quartiles and the median, with its length above them where there is room.
fn whisker(svg: &mut Svg, figures: &Figures, [x, wide]: [f64; 2], y: &Scale, last: f64) {
    let at = |part| {
        let time = figures.hundredths(part);
        time.map(|time| y.at(seconds(time).min(last)))
    };
    let Some((low, median, high, time)) = at(25)
        .zip(at(50))
        .zip(at(75))
        .zip(figures.median())
        .map(|(((low, median), high), time)| (low, median, high, time))
    else {
        return;
    };
    svg.line("mark", [x, low], [x, high]);
    svg.line("mark", [x - 4.0, low], [x + 4.0, low]);
    svg.line("mark", [x - 4.0, high], [x + 4.0, high]);
    svg.dot(x, median, &format!("median {}", length(time)));
    if wide >= ROOM {
        let top = y.at(means(figures).iter().sum::<f64>().min(last)).min(high);
        svg.text("small ink middle", x, top - 8.0, &short_length(time));
    }
}

fn days_of(days: f64) -> String {
    match days.round() as u64 {
        1 => "one day".to_string(),
        days => format!("{days} days"),
    }
}

/// How many orders lie at each hour of the day, in the mean of all days from the first hold to the last.
fn hours(svg: &mut Svg, report: &Report, [top, bottom]: [f64; 2], title: Option<&str>) {
    let first = report
        .holds
        .iter()
        .map(|hold| hold.start)
        .min()
        .unwrap_or(0);
    let last = report.holds.iter().map(|hold| hold.end).max().unwrap_or(0);
    let days = ((last - first) as f64 / (24 * HOUR) as f64).max(1.0);
    let mean = |part: Part, hour: usize| {
        report.totals.hours[part as usize][hour] as f64 / HOUR as f64 / days
    };
    let highest = (0..24)
        .map(|hour| Part::ALL.iter().map(|&part| mean(part, hour)).sum())
        .fold(ORDERS, f64::max);
    head(
        svg,
        report,
        top,
        title.unwrap_or("Orders that lie, by hour of the day"),
        &format!("orders at a time, in the mean of {}", days_of(days)),
        false,
    );
    let step = plot::round_up(highest / 5.0);
    let marks: Vec<f64> = (0..=(highest / step).ceil() as usize)
        .map(|mark| mark as f64 * step)
        .collect();
    let y = Scale::even(marks[marks.len() - 1], bottom - 44.0, top + 84.0);
    axis(svg, 1.0, &marks, &y);
    let wide = (WIDTH - RIGHT - LEFT) / 24.0;
    for hour in 0..24 {
        let x = LEFT + wide * hour as f64;
        let mut foot = 0.0;
        for part in Part::ALL {
            let orders = mean(part, hour);
            let (from, to) = (y.at(foot), y.at(foot + orders));
            let words = format!("{hour:02}:00, {}: {orders:.2} orders", part.words());
            svg.bar(
                colour(part),
                [x + 0.1 * wide, to, 0.8 * wide, from - to],
                &words,
            );
            foot += orders;
        }
        if hour % 2 == 0 {
            svg.text(
                "small soft middle",
                x + wide / 2.0,
                bottom - 26.0,
                &format!("{hour:02}:00"),
            );
        }
    }
    svg.text(
        "small soft middle",
        (LEFT + WIDTH - RIGHT) / 2.0,
        bottom - 8.0,
        &format!("hour of the day, {}", report.zone.words()),
    );
}

fn shortened(name: &str) -> String {
    match name.chars().count() {
        ..=26 => name.to_string(),
        _ => format!("{}..", name.chars().take(24).collect::<String>()),
    }
}

fn worst(svg: &mut Svg, report: &Report, [top, bottom]: [f64; 2], title: Option<&str>) {
    let high = report
        .worst
        .first()
        .map_or(SECONDS, |(hold, _)| seconds(hold.length()).max(SECONDS));
    let time = Time::up_to(high);
    let marks = time.marks(high);
    let ends = [NAMES, WIDTH - 110.0];
    let x = Scale::even(marks[marks.len() - 1] * time.seconds, ends[0], ends[1]);
    head(
        svg,
        report,
        top,
        title.unwrap_or("The longest holds"),
        time.unit,
        false,
    );
    let (first, foot) = (top + 80.0, bottom - 28.0);
    for (mark, label) in marks.iter().zip(labels(&marks)) {
        let place = x.at(mark * time.seconds);
        svg.line("grid", [place, first], [place, foot]);
        svg.text("small soft middle", place, foot + 15.0, &label);
    }
    for (place, (hold, _)) in report.worst.iter().enumerate() {
        bar(svg, report, hold, first + BAR * place as f64, &x);
    }
}

fn bar(svg: &mut Svg, report: &Report, hold: &Hold, y: f64, x: &Scale) {
    let begun = report.zone.day(hold.start);
    let name = shortened(&format!("{}, {begun}", report.order(hold)));
    svg.text("small ink end", NAMES - 8.0, y + 14.0, &name);
    let mut from = 0.0;
    for part in Part::ALL {
        let time = hold.parts[part as usize];
        let to = from + seconds(time);
        let words = format!("{}: {}", part.words(), length(time));
        svg.bar(
            colour(part),
            [x.at(from), y + 3.0, x.at(to) - x.at(from), BAR - 6.0],
            &words,
        );
        from = to;
    }
    let how = match hold.ended {
        Ended::Lying => ", lying",
        Ended::Unclaimed => ", unclaimed",
        Ended::Reached => "",
    };
    svg.text(
        "small ink",
        x.at(from) + 6.0,
        y + 14.0,
        &format!("{}{how}", length(hold.length())),
    );
}
