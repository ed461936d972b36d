//! `run`: the desk. A policy is loaded, and each request is answered on a line of its own as soon as it is there.

use crate::check::{clashes, refusal};
use crate::desk::{whole, Desk};
use crate::names::Sort;
use crate::prompt;
use crate::reader::{self, Line};
use crate::source::{self, Policy, Requests};
use crate::stop::{Done, Stop, REFUSED, WELL, WRONG};
use crate::why::{why, Why};
use crate::writer;
use mishantral::{Answer, Refused, Reply};
use records::{Set, LENGTH};
use serde_json::{json, Value};
use std::io::{self, BufRead, IsTerminal, Read, Write};

/// How answers are shown.
#[derive(Clone, Copy, PartialEq, Eq, Debug)]
pub enum Style {
    /// Names and words; refusals are explained unless they are to be brief.
    Words { brief: bool },
    /// One object a line.
    Json,
    /// The desk program's listing.
    Plain,
}

/// The longest policy that the desk program takes (docs/RULES.md, "The desk program and its listing").
const DESK_LONGEST: usize = 65_536;

pub fn run(policy: Policy, requests: Option<&str>, style: Style, out: &mut dyn Write) -> Done {
    // Requests that are all there are read before anything is done: where a line is wrong, nothing is.
    let whole = match requests {
        Some("-") | None => None,
        Some(file) => Some(source::requests(file, &policy.names)?),
    };
    let too_long = style == Style::Plain && policy.bytes.len() > DESK_LONGEST;
    let opened = if too_long {
        let (reply, place) = (Reply::Room, 0);
        Err(Refused { reply, place })
    } else {
        Desk::open(&policy)
    };
    let mut desk = match opened {
        Ok(desk) => desk,
        Err(refused) => {
            show_refusal(&policy, refused, style, out)?;
            return Ok(REFUSED);
        }
    };
    match style {
        Style::Words { .. } => writeln!(out, "load {}", Reply::Granted)?,
        Style::Json => writeln!(out, "{}", json!({"load": 0, "name": "GRANTED", "place": 0}))?,
        Style::Plain => writeln!(out, "load 0 0")?,
    }
    out.flush()?;
    let mut listing = Listing {
        style,
        place: 0,
        out,
    };
    match whole {
        Some(all) => answered(&mut desk, all, &mut listing),
        None if requests.is_none() && at_terminal(style) => prompt::talk(&mut desk, &mut listing),
        None => streamed(&mut desk, &mut listing),
    }
}

fn at_terminal(style: Style) -> bool {
    let words = matches!(style, Style::Words { .. });
    words && io::stdin().is_terminal() && io::stdout().is_terminal()
}

fn show_refusal(
    policy: &Policy,
    refused: Refused,
    style: Style,
    out: &mut dyn Write,
) -> Result<(), Stop> {
    let Refused { reply, place } = refused;
    match style {
        Style::Plain => writeln!(out, "load {} {place}", reply.number())?,
        Style::Json => {
            let before = place.saturating_sub(1);
            let because = if place == 0 {
                Vec::new()
            } else {
                clashes(policy, before, reply)
            };
            let (line, column) = (policy.line_of(before), policy.column_of(before));
            let file = if place == 0 {
                &policy.file
            } else {
                policy.file_of(before)
            };
            let record = policy.line(before);
            let refused = json!({
                "load": reply.number(), "name": reply.name(), "place": place, "file": file,
                "line": line, "column": column, "record": record, "because": because,
            });
            writeln!(out, "{refused}")?;
        }
        Style::Words { .. } => {
            let at = match place.checked_sub(1) {
                None => String::new(),
                Some(before) if policy.dealt.is_some() => {
                    format!(" at {}", policy.place_within(before))
                }
                Some(_) => format!(" at record {place}"),
            };
            writeln!(out, "load {reply}{at}")?;
            for line in refusal(policy, refused) {
                writeln!(out, "{line}")?;
            }
        }
    }
    Ok(out.flush()?)
}

/// Where the answers go, and how many there were.
pub struct Listing<'a> {
    pub style: Style,
    pub place: u64,
    pub out: &'a mut dyn Write,
}

impl Listing<'_> {
    /// Has the desk take a line, and shows its answer if it has one.
    pub fn answer(&mut self, desk: &mut Desk, line: &Line) -> Result<(), Stop> {
        let (Some(record), Some(answer)) = (&line.record, desk.take(line)) else {
            return Ok(());
        };
        self.place += 1;
        let text = match self.style {
            Style::Plain => format!(
                "{} {} {}\n",
                self.place,
                answer.reply.number(),
                answer.place
            ),
            Style::Json => object(desk, self.place, record, answer).to_string() + "\n",
            Style::Words { brief } => in_words(desk, self.place, record, answer, brief),
        };
        Ok(self.out.write_all(text.as_bytes())?)
    }
}

/// What stands before the lines of an explanation or of figures, after the reply's column.
const INDENT: &str = "                          ";

fn in_words(desk: &Desk, place: u64, record: &[u8], answer: Answer, brief: bool) -> String {
    let (number, name) = (answer.reply.number(), answer.reply.name());
    let words = writer::line(record, &desk.names);
    let mut text = format!("{place:>5}  {number:>2} {name:<12}  {words}\n");
    let below = match (answer.is_granted(), brief) {
        (true, _) => desk.say_figures(record).into_iter().collect(),
        (false, true) => Vec::new(),
        (false, false) => why(desk, record, answer).lines(desk),
    };
    for line in below {
        text += &format!("{INDENT}{line}\n");
    }
    text
}

/// The answer as an object; a refusal has its explanation, and a granted question its figures.
fn object(desk: &Desk, place: u64, record: &[u8], answer: Answer) -> Value {
    let request = writer::line(record, &desk.names);
    let mut object = json!({
        "place": place, "request": request, "reply": answer.reply.number(), "name": answer.reply.name(), "rule": answer.place,
    });
    if !answer.is_granted() {
        object["why"] = explained(desk, &why(desk, record, answer));
    }
    if let Some(figures) = answer.is_granted().then(|| figures(desk, record)).flatten() {
        object["figures"] = figures;
    }
    if let Some(record) = whole(record) {
        object["kind"] = json!(record.kind());
    }
    object
}

fn figures(desk: &Desk, record: &[u8]) -> Option<Value> {
    let answer = desk.figures(record)?;
    let tasks = |set: u64| Set(set).members().collect::<Vec<u8>>();
    Some(match record.first()? {
        58 => json!({"entries": answer[0], "done": tasks(answer[1])}),
        _ => json!({"stuck": tasks(answer[0]), "free": answer[2..][..answer[1] as usize]}),
    })
}

fn explained(desk: &Desk, why: &Why) -> Value {
    let name = |sort: Sort, number: u16| {
        let name = desk.names.name(sort, number);
        name.map(|name| String::from_utf8_lossy(name).into_owned())
    };
    let mut value = json!({ "because": why.because });
    if let Some((place, _)) = why.rule {
        value["rule"] = json!({
            "text": desk.policy.line(place), "file": desk.policy.file_of(place),
            "record": place + 1, "line": desk.policy.line_of(place), "column": desk.policy.column_of(place),
        });
    }
    if let Some((task, could)) = &why.could {
        let one = |c: &crate::desk::Candidate| json!({"user": c.user, "name": name(Sort::User, c.user), "subject": c.subject, "role": c.role});
        let who: Vec<Value> = could.who.iter().map(one).collect();
        let other = |(reply, count): (&Reply, &usize)| json!({"reply": reply.number(), "name": reply.name(), "users": count});
        let others: Vec<Value> = could.refused.iter().map(other).collect();
        value["could_claim"] =
            json!({"task": task, "name": name(Sort::Task, *task), "who": who, "others": others});
    }
    value
}

/// Requests that are all there.
fn answered(desk: &mut Desk, requests: Requests, listing: &mut Listing) -> Done {
    for line in &requests {
        listing.answer(desk, line)?;
    }
    listing.out.flush()?;
    Ok(WELL)
}

/// Requests from standard input, each answered as soon as it is there. A line that is not in the notation is told and left out.
fn streamed(desk: &mut Desk, listing: &mut Listing) -> Done {
    let failed =
        |why: io::Error| Stop::Wrong(vec![format!("standard input cannot be read: {why}")]);
    let mut first = Vec::new();
    io::stdin()
        .lock()
        .take(2)
        .read_to_end(&mut first)
        .map_err(failed)?;
    // The second byte of a request record is 0, which no text has.
    let text = notation::is_text(&first);
    let mut input = io::Cursor::new(first).chain(io::stdin().lock());
    let mut status = WELL;
    for number in 1.. {
        let mut bytes = Vec::new();
        let read = match text {
            true => input.read_until(b'\n', &mut bytes),
            false => input.by_ref().take(LENGTH as u64).read_to_end(&mut bytes),
        };
        if read.map_err(failed)? == 0 {
            break;
        }
        if !text {
            listing.answer(desk, &Line::of(&bytes))?;
        } else if !line(desk, number, &bytes, listing)? {
            status = WRONG;
        }
        listing.out.flush()?;
    }
    Ok(status)
}

/// Answers one line; whether it was in the notation.
fn line(desk: &mut Desk, number: usize, bytes: &[u8], listing: &mut Listing) -> Result<bool, Stop> {
    let bytes = if number == 1 {
        bytes.strip_prefix(b"\xef\xbb\xbf").unwrap_or(bytes)
    } else {
        bytes
    };
    let read = reader::decode(bytes).and_then(|line| reader::read_line(line, &desk.names));
    match read {
        Ok(None) => {}
        Ok(Some(said)) => listing.answer(desk, &said)?,
        Err(wrong) => {
            let column = wrong.column;
            eprintln!("mishantral: standard input: line {number}, column {column}: {wrong}");
            return Ok(false);
        }
    }
    Ok(true)
}
