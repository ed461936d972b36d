//! docs/RULES.md is true: its examples on all engines, and its tables of kinds, fields, replies and order of checks.

use differential::{possible, Mend, Panel, Question};
use records::{Record, Reply};

const PAGE: &str = include_str!("../../../docs/RULES.md");

/// The common start of the examples of the claim rules.
const TWO_CLERKS: &str = "\
user 300
user 301
role 0
user 300 has role 0
user 301 has role 0
task 0 of template 0
task 1 of template 0
task 2 of template 0
task 3 of template 0
task 0 open to role 0
task 1 open to role 0
task 2 open to role 0
task 3 open to role 0
create subject 5 for user 300 with roles 0  # 0 GRANTED
create subject 6 for user 301 with roles 0  # 0 GRANTED
open order 0 of template 0                  # 0 GRANTED
";

/// The page's code blocks whose fence has this heading.
fn blocks(heading: &str) -> Vec<String> {
    let mut blocks = PAGE.split("```").skip(1).step_by(2);
    let block = |b: &str| Some(b.strip_prefix(heading)?.strip_prefix('\n')?.to_string());
    blocks.by_ref().filter_map(block).collect()
}

/// The rows of the tables that have this first column, each a list of its cells.
fn rows(first: &str) -> Vec<Vec<String>> {
    let mut rows = Vec::new();
    let mut inside = false;
    for line in PAGE.lines() {
        let Some(inner) = line.strip_prefix("| ").and_then(|l| l.strip_suffix('|')) else {
            inside = inside && line.starts_with("|---");
            continue;
        };
        let cells: Vec<String> = inner.split('|').map(|c| c.trim().to_string()).collect();
        if inside {
            rows.push(cells);
        }
        inside = inside || line.starts_with(&format!("| {first} |"));
    }
    rows
}

/// A request, the answer that its line gives, and the line's further comment.
type Told = (Vec<u8>, String, String);

/// The policy's records, and the requests, each with the comment after its `#`.
fn example(text: &str) -> (Vec<u8>, Vec<Told>) {
    let (mut policy, mut requests) = (Vec::new(), Vec::new());
    for line in text.lines() {
        let record = notation::read(line.as_bytes()).expect(line);
        if record[0] < 32 {
            policy.extend(record);
        } else {
            let (_, told) = line.split_once("# ").expect(line);
            let (told, said) = told.split_once(':').unwrap_or((told, ""));
            let (told, said) = (told.trim().to_string(), said.trim().to_string());
            requests.push((record, told, said));
        }
    }
    (policy, requests)
}

/// A granted question's figures in words, on all engines.
fn figures(panel: &Panel, record: &[u8]) -> Option<String> {
    let question = Question::of(Record(record.try_into().unwrap()));
    let (reply, answer) = panel.question(&question).unwrap();
    let answer: [u64; 66] = answer.try_into().unwrap();
    let figures = notation::figures(record, &answer, |task| task.to_string());
    figures.filter(|_| reply == 0)
}

/// Runs an example and checks its answers; returns the engines after it.
fn comes_out(text: &str) -> Panel {
    let (policy, requests) = example(text);
    let mut panel = Panel::all();
    assert_eq!(panel.load(&policy).unwrap(), (0, 0), "{text}");
    for (record, told, said) in requests {
        let (reply, place) = panel.request(&record).unwrap();
        if let Some(figures) = figures(&panel, &record) {
            assert_eq!(figures, said, "{text}");
        }
        let reply = Reply::from_number(reply.into()).unwrap();
        let answer = match place {
            0 => reply.to_string(),
            _ => format!("{reply}, rule {place}"),
        };
        let words = notation::line(&record);
        assert_eq!(answer, told, "{words} in\n{text}");
    }
    panel
}

#[test]
fn every_example_comes_out() {
    let whole = blocks("desk");
    let rules = blocks("desk two clerks");
    assert_eq!((whole.len(), rules.len()), (4, 10));
    for text in whole {
        comes_out(&text);
    }
    for text in rules {
        comes_out(&[TWO_CLERKS, &text].concat());
    }
}

/// A load, requests, and the written policy after them.
#[test]
fn the_policy_is_written_as_the_page_says() {
    let examples = blocks("written");
    assert_eq!(examples.len(), 1);
    for text in examples {
        let (day, policy) = text.split_once("is written as\n").expect("what is written");
        let written = notation::read(policy.as_bytes()).unwrap();
        let panel = comes_out(day);
        let (reply, records, output) = panel.write(&vec![0; written.len()]).unwrap();
        assert_eq!((reply, records), (0, written.len() / 16));
        assert_eq!(notation::write(&output), notation::write(&written));
    }
}

/// A file given as lines; each dropped line has its refusal.
#[test]
fn a_file_is_mended_as_the_page_says() {
    let examples = blocks("mend");
    assert_eq!(examples.len(), 1);
    for text in examples {
        let mend = Mend {
            file: notation::read(text.as_bytes()).unwrap(),
            damage: "",
            spare: 0,
            entries: 0,
        };
        let (reply, kept, output, report) = Panel::all().mend(&mend).unwrap();
        let lines = text.lines().zip(1..);
        let dropped = lines.clone().filter_map(|(line, place)| {
            let (_, told) = line.split_once("# ")?;
            Some((place, told.to_string()))
        });
        let told: Vec<(u64, String)> = dropped.collect();
        let shown = |(place, reply): &(u64, u64)| {
            let reply = Reply::from_number(*reply).unwrap();
            (*place, reply.to_string())
        };
        let report: Vec<(u64, String)> = report[..told.len()].iter().map(shown).collect();
        assert_eq!((reply, report), (0, told));
        let left = lines.filter(|(line, _)| !line.contains("# "));
        let left: Vec<&str> = left.map(|(line, _)| line).collect();
        let written = notation::write(&output[..kept * 16]);
        assert_eq!(written.lines().collect::<Vec<_>>(), left);
    }
}

#[test]
fn replies_have_the_names_that_the_page_gives_them() {
    let table: Vec<String> = rows("No | Name")
        .iter()
        .map(|r| format!("{} {}", r[0], r[1]))
        .collect();
    let all: Vec<String> = Reply::ALL.iter().map(Reply::to_string).collect();
    assert_eq!(table, all);
    for row in rows("No | Rule") {
        assert!(all.contains(&format!("{} {}", row[0], row[1])), "{row:?}");
    }
}

#[test]
fn the_order_of_checks_is_the_one_of_the_page() {
    let mut kinds = 0;
    for row in rows("Kinds | Checks, in their order") {
        for kind in row[0].split(", ") {
            let told: Vec<&str> = row[1].split(", ").collect();
            let replies = possible(kind.parse().unwrap()).expect(kind);
            let names: Vec<&str> = replies.iter().skip(1).map(|r| r.name()).collect();
            assert_eq!(told, names, "kind {kind}");
            kinds += 1;
        }
    }
    let all = (0..=255).filter(|&kind| possible(kind).is_some());
    assert_eq!(kinds, all.count());
}

/// The reply of a new engine, by the call that takes the kind.
fn reply(record: Record) -> u8 {
    let mut panel = Panel::all();
    match record.kind() {
        0..=31 => panel.load(&record.0).unwrap().0,
        _ => panel.request(&record.0).unwrap().0,
    }
}

/// The largest value of a field, as a cell of the table gives it; `None` if the field must be zero.
fn largest(cell: &str, width: u64) -> Option<u64> {
    match cell {
        "" => None,
        "roles" | "tasks" => Some(width),
        "pair" => Some(u64::from(u32::MAX)),
        number => Some(number.parse().unwrap()),
    }
}

/// A record of a kind with one field set.
type Put = fn(u8, u64) -> Record;

const SHAPE: u8 = 2;
const RANGE: u8 = 3;

#[test]
fn kinds_have_the_fields_and_limits_that_the_page_gives_them() {
    let table = rows("Kind | Line");
    assert_eq!(table.len(), notation::forms().lines().count() - 2);
    for row in table {
        let kind: u8 = row[0].parse().unwrap();
        let put: [(u64, Put); 5] = [
            (0xff, |k, x| Record::new(k, x as u8, 0, 0, 0, 0)),
            (0xffff, |k, x| Record::new(k, 0, x as u16, 0, 0, 0)),
            (0xffff, |k, x| Record::new(k, 0, 0, x as u16, 0, 0)),
            (0xffff, |k, x| Record::new(k, 0, 0, 0, x as u16, 0)),
            (u64::MAX, |k, x| Record::new(k, 0, 0, 0, 0, x)),
        ];
        for (cell, (width, record)) in row[2..].iter().zip(put) {
            let above = if cell == "pair" { SHAPE } else { RANGE };
            let Some(last) = largest(cell, width) else {
                assert_eq!(reply(record(kind, 1)), SHAPE, "{row:?}");
                assert_eq!(reply(record(kind, width)), SHAPE, "{row:?}");
                continue;
            };
            assert!(
                ![SHAPE, RANGE].contains(&reply(record(kind, last))),
                "{row:?}"
            );
            if last < width {
                assert_eq!(reply(record(kind, last + 1)), above, "{row:?}");
            }
        }
    }
}

#[test]
fn every_line_of_the_page_is_the_kind_that_it_says() {
    for row in rows("Kind | Line") {
        let small = |word: &str| match word {
            "A" | "B" | "C" | "N" | "M" | "LOW" | "HIGH" => "1".to_string(),
            "A:" => "1:".to_string(),
            word => word.to_string(),
        };
        let line: Vec<String> = row[1].split(' ').map(small).collect();
        let record = notation::read(line.join(" ").as_bytes()).expect(&row[1]);
        assert_eq!(record[0].to_string(), row[0], "{row:?}");
    }
}
