//! What a run found, as the text of docs/BENCH.md and the picture docs/bench.svg.

use crate::figures::{Effort, Figures, Growth, Line};
use crate::numbers::grouped;
use crate::reading::reading_table;
use plot::{picture, Colour, Curve, Panel};
use std::fmt::Write;
use std::process::Command;

/// What became faster or slower in earlier work: kept by hand.
const HISTORY: &str = include_str!("../history.md");
/// The served desk's figures, which tools/load writes.
const LOAD: &str = include_str!("../../../docs/load.md");

/// The processor's model, as far as the system says it.
fn processor() -> String {
    let kind = std::env::consts::ARCH;
    let told = Command::new("lscpu").env("LC_ALL", "C").output();
    let told = told.map_or(String::new(), |output| {
        String::from_utf8_lossy(&output.stdout).into_owned()
    });
    let model = told
        .lines()
        .find_map(|line| line.strip_prefix("Model name:"));
    match model.map(str::trim) {
        Some(model) if !model.is_empty() && model != "-" => format!("{model} ({kind})"),
        _ => format!("{kind} processor"),
    }
}

fn time(nanoseconds: Option<f64>) -> String {
    match nanoseconds {
        None => String::from("-"),
        Some(ns) if ns < 100.0 => format!("{ns:.1}"),
        Some(ns) => grouped(ns.round() as usize),
    }
}

/// How many times as long the proved engine takes.
fn ratio(line: &Line, other: Option<f64>) -> String {
    match (line.proved, other) {
        (Some(proved), Some(other)) => format!("{:.2}", proved / other),
        _ => String::from("-"),
    }
}

/// A table of the lines; the flat ledger's columns are there where it took part.
pub fn table(lines: &[Line]) -> String {
    let mut out = String::from(
        "| ns a record | granted | proved | index | proved / index | plain | proved / plain |",
    );
    let mut rule = String::from("|---|---:|---:|---:|---:|---:|---:|");
    let any_flat = lines.iter().any(|line| line.flat.is_some());
    if any_flat {
        out.push_str(" plain, flat ledger | proved / flat |");
        rule.push_str("---:|---:|");
    }
    writeln!(out, "\n{rule}").unwrap();
    for line in lines {
        let (name, granted) = (&line.name, 100 * line.granted / line.records);
        let [proved, index, lists] = [line.proved, Some(line.index), Some(line.lists)].map(time);
        let [to_index, to_lists] = [line.index, line.lists].map(|other| ratio(line, Some(other)));
        write!(
            out,
            "| {name} | {granted} % | {proved} | {index} | {to_index} | {lists} | {to_lists} |"
        )
        .unwrap();
        if any_flat {
            let (flat, to_flat) = (time(line.flat), ratio(line, line.flat));
            write!(out, " {flat} | {to_flat} |").unwrap();
        }
        out.push('\n');
    }
    out
}

fn curve(
    growth: &Growth,
    name: &'static str,
    colour: Colour,
    of: fn(&Line) -> Option<f64>,
) -> Option<Curve> {
    let points = growth.counts.iter().zip(&growth.lines);
    let points = points.map(|(&count, line)| Some((count as f64, of(line)?)));
    Some(Curve {
        name,
        colour,
        points: points.collect::<Option<_>>()?,
    })
}

fn curves(growth: &Growth) -> Vec<Curve> {
    let of = [
        curve(growth, "proved", Colour::Orange, |line| line.proved),
        curve(growth, "index", Colour::Green, |line| Some(line.index)),
        curve(growth, "plain", Colour::Blue, |line| Some(line.lists)),
        curve(growth, "plain, flat", Colour::Grey, |line| line.flat),
    ];
    of.into_iter().flatten().collect()
}

/// docs/bench.svg
pub fn plot(figures: &Figures) -> String {
    let panel = |title, along, growth| Panel {
        title,
        unit: "nanoseconds a record",
        along,
        curves: curves(growth),
    };
    let panels = [
        panel(
            "Work on orders",
            "entries of other orders in the ledger",
            &figures.entries,
        ),
        panel(
            "Access checks",
            "permissions in the policy",
            &figures.permissions,
        ),
    ];
    picture(
        &panels,
        "Nanoseconds a record by entries in use, and by permissions",
    )
}

fn space(figures: &Figures) -> String {
    let (Some(stack), Some([policy, sessions, orders])) = (&figures.stack, figures.state) else {
        return String::from("Not measured: the proved library was not there.\n");
    };
    let all = grouped(policy + sessions + orders);
    let [policy, sessions, orders] = [policy, sessions, orders].map(grouped);
    let [load, requests] = [stack.load, stack.requests].map(grouped);
    let reading = figures.reading_stack.map_or(String::from("-"), grouped);
    format!(
        "| bytes | measured | aim |
|---|---:|---:|
| stack, the deepest of all loads | {load} | 2,048 |
| stack, the deepest of all requests | {requests} | 2,048 |
| stack, the deepest of all readings of OPL/XML | {reading} | 2,048 |
| state, in the caller's buffers: policy {policy}, sessions {sessions}, orders {orders} | {all} | |

The stack below the calls is filled with a pattern, and the deepest byte that they overwrote is looked for. So the frames
of the wrapper `mishantral::Engine` and of the calling loop are counted too. Reading OPL/XML also takes a scratch buffer
of 7,374,272 bytes from the caller.
"
    )
}

/// What is measured on what, and how.
fn head(effort: Effort) -> String {
    let (processor, repeats) = (processor(), effort.repeats());
    format!(
        "<!-- Written whole by tools/bench. Its words stand in rust/bench/src/report.rs, \"What changed\" in rust/bench/history.md. -->

# How fast it is

This page compares the proved library, called through `mishantral::Engine`, with two engines in plain Rust:

- \"index\", in rust/bench/src/index, is as fast as we can write it: it finds a pair of operation and object by one probe
  of a perfect hash, and keeps everything that a request needs at hand. It shows how far the proved engine is from the
  limit.
- \"plain\", in `rust/plain`, is the reference engine of the tests, and fast as well. It keeps a list of entries for each
  order, as the proved engine does; \"plain, flat ledger\" keeps one list of all entries.

All ran in one process, natively, on one core of a {processor}. The library is compiled at -O3, the Rust side in
release mode with all crates optimized as one.

Times are nanoseconds per record: the best of {repeats} passes over a stream of some thousand records, the engines in
turn in every pass, everything in the cache. Every reply of every pass is compared, and a difference ends the run.
Machines differ, so compare times within one run only; the ratio says more.
"
    )
}

const MAIN_NOTES: &str = "\
- Checks: 1,024 users, 64 roles, 128 subjects with one to three active roles; a tenth of the pairs of operation and
  object are not declared.
- Orders: opened, claimed, released, done and ended by teams of eight, on a template of five tasks with a task set, a
  binding, two prerequisites and a limit. Some clerks are careless, so each of these rules refuses someone.
- Load: users, roles, permissions, assignments, tasks and rules of every kind, as many records as the desk program takes.
";

const AGAIN: &str = "\
```sh not run: it measures for half a minute, on a quiet machine
tools/bench            # builds what is missing, measures for half a minute, writes this page and bench.svg
tools/bench --quick    # a few passes, printed only
```
";

/// Requests in piles, beside the same ones alone.
fn piles(figures: &Figures) -> String {
    if figures.piles.is_empty() {
        return String::new();
    }
    let table = table(&figures.piles);
    format!(
        "
## In piles

The same requests by `mishantral_pile`, 4,096 in a call, and by the plain engines' calls for piles.

{table}"
    )
}

const READING_NOTES: &str = "\
Nanoseconds per byte of both texts: the best of many readings, the readers in turn. \"plain\" is the reader of `rust/opl`,
written for speed and separately from the proved one; all records are compared. libxml2 is asked for no events: it only
checks that the text is well-formed. In the last text 65,536 permissions declare as many operations and objects, under
256 names.
";

/// Requests by the call that takes any content.
fn checked(figures: &Figures) -> String {
    if figures.checked.is_empty() {
        return String::new();
    }
    let table = table(&figures.checked);
    format!(
        "
## Any content

`mishantral::Engine` settles its state once and then calls `mishantral_settled_request`. These are the same requests by
`mishantral_request`, which takes any content of the state and checks the links of the orders buffer at each call:

{table}"
    )
}

const LOAD_NOTES: &str = "\
`tools/load` measures the program `mishantral serve` (docs/SERVE.md) with its clients on one machine. Each client sends a
request, as a record, waits for its reply and sends the next; in the last rows it sends 64 at once. \"one request a
transaction\" is without groups (`--group 1`), \"saved normal\" does not wait for the disk, \"no journal\" keeps nothing.
This table was measured on two cores of an otherwise idle Arm machine: look at the ratios. docs/SCALE.md has the memory
over ten million requests, and many desks.
";

/// docs/BENCH.md
pub fn page(figures: &Figures, effort: Effort) -> String {
    let head = head(effort);
    let (main, kinds, space) = (table(&figures.main), table(&figures.kinds), space(figures));
    let piles = piles(figures) + &checked(figures);
    let entries = table(&figures.entries.lines);
    let permissions = table(&figures.permissions.lines);
    let readings = reading_table(&figures.readings);
    let (history, load) = (HISTORY.trim(), LOAD.trim());
    format!(
        "{head}
## Checks, orders, loads

{main}
{MAIN_NOTES}
## How it grows

![Nanoseconds a record by entries in use, and by permissions](bench.svg)

{entries}
{permissions}
## Kind by kind

96 subjects, 100 entries in use; pairs undo each other, and a time is for one record of the pair.

{kinds}{piles}
## Reading OPL/XML

{READING_NOTES}
{readings}
## The served desk

![Requests a second and waits, by clients](load.svg)

{LOAD_NOTES}
{load}

## Stack and state

{space}
## What changed

{history}

## Again

{AGAIN}"
    )
}
