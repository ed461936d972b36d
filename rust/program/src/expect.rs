//! `test`: files of requests with the replies that are expected of them.
//!
//! A file has a policy, as lines of its own or by `policy FILE`, and then requests, each with `=> REPLY` after it; a request
//! without one is expected to be granted. After the reply to a question may stand its figures. A policy after requests begins again. `load => REPLY` says what the load is expected to answer.
//! What is about many records at once is a block of lines: requests in one call (`pile`), the policy written out (`written`), a file to mend (`mend`).

use crate::check::clashes;
use crate::desk::Desk;
use crate::files;
use crate::names::{name_of, Names};
use crate::reader::{self, decode, lines, read_tokens, tokens, Error, Line, Token, Wrong};
use crate::source::{self, bytes_of, Policy, Reading, Sections};
use crate::stop::{wrong, Done, Stop, REFUSED, WELL};
use crate::why::why;
use crate::writer;
use records::{Reply, LENGTH};
use serde_json::{json, Value};
use std::io::Write;
use std::path::Path;

/// What is answered: a reply, the place that goes with it, of the refused record or of the rule, and a question's figures in words.
#[derive(Clone, PartialEq, Eq, Debug)]
struct Got {
    reply: Reply,
    place: usize,
    figures: Option<String>,
}

impl Got {
    /// The answer to what is no question.
    fn of(reply: Reply, place: usize) -> Got {
        let figures = None;
        Got {
            reply,
            place,
            figures,
        }
    }
}

/// What is expected; the place and the figures are judged where they are reported.
#[derive(Clone, PartialEq, Eq, Debug)]
struct Expected {
    reply: Reply,
    place: Option<usize>,
    figures: Option<String>,
}

/// The words of figures, however they are spaced.
fn words(figures: &str) -> Vec<&str> {
    tokens(figures).0.iter().map(|token| token.text).collect()
}

impl Expected {
    fn is(&self, got: &Got) -> bool {
        let place = self.place.is_none_or(|expected| expected == got.place);
        let told = got.figures.as_deref().unwrap_or("");
        let figures = self.figures.as_ref();
        let figures = figures.is_none_or(|expected| words(expected) == words(told));
        self.reply == got.reply && place && figures
    }

    /// As it would have been answered.
    fn got(&self) -> Got {
        Got {
            reply: self.reply,
            place: self.place.unwrap_or(0),
            figures: self.figures.clone(),
        }
    }
}

const GRANTED: Expected = Expected {
    reply: Reply::Granted,
    place: None,
    figures: None,
};

/// What a line of a test file says.
enum Says {
    /// A policy file and its task lines.
    Policy(String, Option<String>, Sections),
    Load(Expected),
    /// A line of a policy, or one that names.
    Declared(Line),
    Request(Line, Expected),
    /// The first line of a block, a line within one, and the last.
    Begin(Block),
    Within(Line, Option<Expected>),
    End(Expected),
}

/// A block of lines.
#[derive(Clone, Debug)]
struct Block {
    of: Of,
    lines: Vec<Stated>,
    /// The names that the lines may use: those of the desk, or in a file to mend those that it gives.
    names: Names,
}

/// What a block's lines are.
#[derive(Clone, Copy, PartialEq, Eq, Debug)]
enum Of {
    /// Requests in one call, whose replies go to an answer buffer from a place on; where that is not said, to one that has just their length.
    Pile(Option<(usize, usize)>),
    /// The policy that is expected to be written out.
    Written,
    /// A file to mend.
    Mend,
}

impl Of {
    fn word(self) -> &'static str {
        match self {
            Of::Pile(_) => "pile",
            Of::Written => "written",
            Of::Mend => "mend",
        }
    }
}

/// A line of a block, with its number and what is expected of it.
#[derive(Clone, Debug)]
struct Stated {
    number: usize,
    line: Line,
    expected: Option<Expected>,
}

impl Stated {
    fn record(&self) -> &[u8] {
        self.line.record.as_deref().unwrap_or_default()
    }
}

/// What was found to be otherwise than expected.
struct Failure {
    line: usize,
    expected: Expected,
    got: Got,
    what: String,
    because: Vec<String>,
    /// Whether the line is the one that says what was expected, and so can be updated.
    told: bool,
    /// What stands where the line was expected, if it is about that and no reply.
    instead: Option<String>,
}

/// How an answer is written after `=>`; the place of a load is that of a record.
fn answer_text(got: &Got, load: bool) -> String {
    let reply = got.reply;
    let figures = got.figures.iter().map(|told| format!(", {told}"));
    let text = match (got.place, load) {
        (0, _) => reply.to_string(),
        (place, true) => format!("{reply}, record {place}"),
        (place, false) => format!("{reply}, rule {place}"),
    };
    text + &figures.collect::<String>()
}

/// The words after `=>`, of which some have been read.
struct Behind<'a> {
    tokens: &'a [Token<'a>],
    at: usize,
    /// The column after the last.
    end: usize,
}

impl Behind<'_> {
    fn wrong(&self, expected: &str) -> Wrong {
        let token = self.tokens.get(self.at);
        Wrong {
            column: token.map_or(self.end, |t| t.column),
            expected: expected.to_string(),
            found: token.map_or("the end of the line".to_string(), |t| {
                format!("\"{}\"", t.text)
            }),
        }
    }

    fn is(&self, words: &[&str]) -> bool {
        self.tokens
            .get(self.at)
            .is_some_and(|t| words.contains(&t.text))
    }

    fn number(&mut self) -> Option<u64> {
        let number = self.tokens.get(self.at)?.number()?;
        self.at += 1;
        Some(number)
    }

    /// Whether the figures of a question follow: `2 entries, done test`, or `stuck none, free test sign`.
    fn begins_figures(&self) -> bool {
        let rest: Vec<&str> = self.tokens[self.at..].iter().map(|t| t.text).collect();
        matches!(rest[..], [_, "entry" | "entries", ..] | ["stuck", ..])
    }

    /// A reply by its name, in letters of either case.
    fn name(&mut self) -> Option<Reply> {
        let there = &self.tokens[self.at..];
        let named = |reply: &&Reply| {
            let mut words = reply.name().split(' ').zip(1..);
            words.all(|(word, at)| {
                there
                    .get(at - 1)
                    .is_some_and(|t| t.text.eq_ignore_ascii_case(word))
            })
        };
        let reply = Reply::ALL.iter().find(named)?;
        self.at += reply.name().split(' ').count();
        Some(*reply)
    }

    fn reply(&mut self) -> Result<Reply, Wrong> {
        let start = self.at;
        let number = self.number().map(Reply::from_number);
        let by_number = match number {
            Some(None) => {
                self.at = start;
                return Err(self.wrong("the number of a reply"));
            }
            number => number.flatten(),
        };
        let before = self.at;
        match (by_number, self.name()) {
            (Some(number), Some(name)) if number != name => {
                self.at = before;
                Err(self.wrong(&format!("\"{}\"", number.name())))
            }
            (number, name) => name
                .or(number)
                .ok_or_else(|| self.wrong("a reply, by number or name")),
        }
    }
}

/// `14 BEFORE, rule 1`: the number, the name or both, and the place where it matters; or `GRANTED, 2 entries, done test`, a question's
/// figures.
fn expected(tokens: &[Token], end: usize) -> Result<Expected, Wrong> {
    let mut behind = Behind { tokens, at: 0, end };
    let reply = behind.reply()?;
    let (mut place, mut figures) = (None, None);
    behind.at += usize::from(behind.is(&[","]));
    if behind.is(&["rule", "record"]) {
        behind.at += 1;
        place = Some(behind.number().ok_or_else(|| behind.wrong("a place"))? as usize);
    } else if behind.begins_figures() {
        let rest: Vec<&str> = tokens[behind.at..].iter().map(|t| t.text).collect();
        figures = Some(rest.join(" ").replace(" ,", ","));
        behind.at = tokens.len();
    }
    match behind.at < tokens.len() {
        true => {
            Err(behind.wrong("\"rule\", \"record\", a question's figures or the end of the line"))
        }
        false => Ok(Expected {
            reply,
            place,
            figures,
        }),
    }
}

/// What may follow the name of a policy file: whether task lines do, and which sections are read.
fn with_policy(words: &[&str]) -> Option<(bool, Sections)> {
    match words {
        [] => Some((false, Sections::Asked)),
        ["all-sections"] => Some((false, Sections::All)),
        ["tasks", _] => Some((true, Sections::Asked)),
        ["tasks", _, "all-sections"] => Some((true, Sections::All)),
        _ => None,
    }
}

/// A file's name in a line: a word, or between quotes.
fn file_name(token: Token) -> String {
    match name_of(token.text) {
        Some(name) if token.text.starts_with('"') => String::from_utf8_lossy(&name).into_owned(),
        _ => token.text.to_string(),
    }
}

/// The run of one test file.
struct Run<'a> {
    file: &'a str,
    /// The policy that is being told, and whether it is one of lines here.
    policy: Policy,
    inline: bool,
    desk: Option<Desk>,
    /// Whether the load was tried; where that failed, requests are left out.
    loaded: bool,
    /// The block that was begun.
    block: Option<Block>,
    passed: usize,
    failures: Vec<Failure>,
}

fn empty(file: &str) -> Policy {
    Policy {
        file: file.to_string(),
        bytes: Vec::new(),
        lines: Vec::new(),
        names: Names::default(),
        ..Policy::default()
    }
}

impl<'a> Run<'a> {
    fn new(file: &'a str) -> Run<'a> {
        Run {
            file,
            policy: empty(file),
            inline: true,
            desk: None,
            loaded: false,
            block: None,
            passed: 0,
            failures: Vec::new(),
        }
    }

    /// Begins again with this policy.
    fn begin(&mut self, policy: Policy, inline: bool) {
        self.policy = policy;
        self.inline = inline;
        self.desk = None;
        self.loaded = false;
    }

    fn names(&self) -> &Names {
        self.desk
            .as_ref()
            .map_or(&self.policy.names, |desk| &desk.names)
    }

    fn says(&self, line: &str) -> Result<Option<Says>, Wrong> {
        let (all, end) = tokens(line);
        let end = line[..end].chars().count() + 1;
        let arrow = all.iter().position(|t| t.text == "=>");
        let (before, behind) =
            arrow.map_or((&all[..], None), |at| (&all[..at], Some(&all[at + 1..])));
        let judged = behind.map(|tokens| expected(tokens, end)).transpose()?;
        let words: Vec<&str> = before.iter().map(|t| t.text).collect();
        if let Some(block) = &self.block {
            return within(block, before, judged);
        }
        if let (Some(of), true) = (begins(&words), judged.is_none()) {
            let names = match of {
                Of::Mend => Names::default(),
                _ => self.names().clone(),
            };
            let lines = Vec::new();
            return Ok(Some(Says::Begin(Block { of, lines, names })));
        }
        match words[..] {
            ["policy", _, ..] if judged.is_none() => {
                if let Some((tasks, sections)) = with_policy(&words[2..]) {
                    let tasks = tasks.then(|| file_name(before[3]));
                    return Ok(Some(Says::Policy(file_name(before[1]), tasks, sections)));
                }
            }
            ["load"] => return Ok(Some(Says::Load(judged.unwrap_or(GRANTED)))),
            _ => {}
        }
        // A policy line after requests begins a policy with names of its own.
        let unjudged = judged.is_none();
        let of_policy = |line: &Line| match &line.record {
            Some(record) => unjudged && record[0] < 32,
            None => !self.loaded,
        };
        let alone = read_tokens(before, &Names::default()).ok().flatten();
        let begins = alone.filter(|line| self.loaded && of_policy(line));
        let line = match begins {
            Some(line) => Some(line),
            None => read_tokens(before, self.names())?,
        };
        Ok(line.map(|line| match of_policy(&line) {
            true => Says::Declared(line),
            false => Says::Request(line, judged.unwrap_or(GRANTED)),
        }))
    }

    fn step(&mut self, number: usize, says: Says) -> Result<Option<Wrong>, Stop> {
        match says {
            Says::Policy(file, tasks, sections) => {
                let folder = Path::new(self.file).parent().unwrap_or(Path::new(""));
                let beside = |file: &str| folder.join(file).to_string_lossy().into_owned();
                let tasks = tasks.map(|file| beside(&file));
                let how = Reading {
                    tasks: tasks.as_deref(),
                    format: None,
                    sections,
                };
                let policy = source::policy(&beside(&file), &how)?;
                self.begin(policy, false);
            }
            Says::Load(expected) => self.load(number, expected, true),
            Says::Declared(line) => return Ok(self.declared(number, &line)),
            Says::Request(line, expected) => self.asked(number, &line, expected),
            Says::Begin(block) => {
                // A block that is about the desk is after a load; a file to mend is its own.
                if !self.loaded && block.of != Of::Mend {
                    self.load(number, GRANTED, false);
                }
                self.block = Some(block);
            }
            Says::Within(line, expected) => {
                if let Some(block) = &mut self.block {
                    let wrong = reader::give(&mut block.names, &line.namings, false);
                    if line.record.is_some() {
                        block.lines.push(Stated {
                            number,
                            line,
                            expected,
                        });
                    }
                    return Ok(wrong);
                }
            }
            Says::End(expected) => {
                if let Some(block) = self.block.take() {
                    match block.of {
                        Of::Pile(place) => self.piled(number, block, place, expected),
                        Of::Written => self.written(number, &block)?,
                        Of::Mend => self.mended(block)?,
                    }
                }
            }
        }
        Ok(None)
    }

    /// A pile, and what is expected of it and, where it is taken, of each of its requests.
    fn piled(
        &mut self,
        number: usize,
        block: Block,
        place: Option<(usize, usize)>,
        expected: Expected,
    ) {
        let Some(desk) = &mut self.desk else { return };
        let records: Vec<u8> = block
            .lines
            .iter()
            .flat_map(Stated::record)
            .copied()
            .collect();
        let (at, length) = place.unwrap_or((0, records.len() / LENGTH));
        let mut answers = vec![0xff; length];
        let reply = desk.pile(&records, &mut answers, at);
        let got = Got::of(reply, 0);
        let what = "end pile".to_string();
        let taken = reply.is_granted();
        self.judge(number, expected, got, what, Vec::new());
        let answers = answers.get(at..).unwrap_or_default();
        let answered = block.lines.into_iter().zip(answers).filter(|_| taken);
        for (stated, reply) in answered {
            let expected = stated.expected.clone().unwrap_or(GRANTED);
            let Some(reply) = Reply::from_number((*reply).into()) else {
                continue;
            };
            if let Some(desk) = self.desk.as_mut().filter(|_| reply.is_granted()) {
                reader::give(&mut desk.names, &stated.line.namings, false);
            }
            let what = writer::line(stated.record(), self.names());
            self.judge(stated.number, expected, Got::of(reply, 0), what, Vec::new());
        }
    }

    /// The policy that is expected to be written out, record by record.
    fn written(&mut self, number: usize, block: &Block) -> Result<(), Stop> {
        let Some(desk) = &self.desk else {
            return Ok(());
        };
        let policy = files::written(desk.engine())?;
        let mut records = policy.chunks(LENGTH);
        let shown = |record: &[u8]| writer::line(record, &desk.names);
        let missing = |number: usize, what: String, instead: String| Failure {
            line: number,
            expected: GRANTED,
            got: Got::of(Reply::Granted, 0),
            what,
            because: Vec::new(),
            told: false,
            instead: Some(instead),
        };
        let (mut passed, mut failures) = (0, Vec::new());
        for stated in &block.lines {
            let record = records.next();
            if record == Some(stated.record()) {
                passed += 1;
                continue;
            }
            let instead = record.map_or("the end of the policy".to_string(), shown);
            failures.push(missing(stated.number, shown(stated.record()), instead));
        }
        if let Some(record) = records.next() {
            let what = "the end of the policy".to_string();
            failures.push(missing(number, what, shown(record)));
        }
        self.passed += passed;
        self.failures.extend(failures);
        Ok(())
    }

    /// A file to mend: each of its records is expected to be kept, or dropped with a refusal. The desk goes on with what was kept.
    fn mended(&mut self, block: Block) -> Result<(), Stop> {
        let records = block.lines.iter().map(Stated::record);
        let mended = files::mended(&records.collect::<Vec<_>>().concat())?;
        let (mut lines, mut dropped) = (Vec::new(), mended.dropped.into_iter().peekable());
        for (stated, place) in block.lines.into_iter().zip(1..) {
            let reply = dropped
                .next_if(|(at, _)| *at == place)
                .map(|(_, reply)| reply);
            let reply = reply.unwrap_or(Reply::Granted);
            if reply.is_granted() {
                lines.push(stated.number);
            }
            let what = writer::line(stated.record(), &block.names);
            let expected = stated.expected.unwrap_or(GRANTED);
            self.judge(stated.number, expected, Got::of(reply, 0), what, Vec::new());
        }
        let policy = Policy {
            file: self.file.to_string(),
            bytes: mended.records,
            lines,
            names: block.names,
            ..Policy::default()
        };
        self.begin(policy.clone(), true);
        self.loaded = true;
        self.desk = Some(Desk::mended(policy, mended.engine));
        Ok(())
    }

    /// Counts an answer that is as expected, or keeps what is otherwise.
    fn judge(
        &mut self,
        line: usize,
        expected: Expected,
        got: Got,
        what: String,
        because: Vec<String>,
    ) {
        if expected.is(&got) {
            self.passed += 1;
            return;
        }
        self.failures.push(Failure {
            line,
            expected,
            got,
            what,
            because,
            told: true,
            instead: None,
        });
    }

    /// A line of a policy; or what is wrong with its names.
    fn declared(&mut self, number: usize, line: &Line) -> Option<Wrong> {
        if self.loaded || (!self.inline && line.record.is_some()) {
            self.begin(empty(self.file), true);
        }
        if let Some(record) = &line.record {
            self.policy.bytes.extend(record);
            self.policy.lines.push(number);
        }
        reader::give(&mut self.policy.names, &line.namings, true)
    }

    /// A request, and what is expected of it.
    fn asked(&mut self, number: usize, line: &Line, expected: Expected) {
        if !self.loaded {
            self.load(number, GRANTED, false);
        }
        let Some(desk) = &mut self.desk else { return };
        let (Some(answer), Some(record)) = (desk.take(line), &line.record) else {
            return;
        };
        let got = Got {
            reply: answer.reply,
            place: answer.place,
            figures: desk.say_figures(record),
        };
        let because = match answer.is_granted() || expected.is(&got) {
            true => Vec::new(),
            false => why(desk, record, answer).lines(desk),
        };
        let what = writer::line(record, &desk.names);
        self.judge(number, expected, got, what, because);
    }

    /// Loads the policy; that it is accepted counts where the line says what is expected.
    fn load(&mut self, number: usize, expected: Expected, told: bool) {
        self.loaded = true;
        let (reply, place) = match Desk::open(&self.policy) {
            Ok(desk) => {
                self.desk = Some(desk);
                (Reply::Granted, 0)
            }
            Err(refused) => (refused.reply, refused.place),
        };
        let got = Got::of(reply, place);
        if expected.is(&got) {
            self.passed += usize::from(told);
            return;
        }
        let mut because = Vec::new();
        if let Some(before) = place.checked_sub(1) {
            because.push(format!(
                "{}: {}",
                self.policy.place(before),
                self.policy.line(before)
            ));
            because.extend(clashes(&self.policy, before, reply));
        }
        let what = "load".to_string();
        self.failures.push(Failure {
            line: number,
            expected,
            got,
            what,
            because,
            told,
            instead: None,
        });
    }
}

/// The block that a line begins: `pile`, `pile at 2 of 5`, `written` or `mend`.
fn begins(words: &[&str]) -> Option<Of> {
    match words {
        ["pile"] => Some(Of::Pile(None)),
        ["pile", "at", at, "of", length] => {
            Some(Of::Pile(Some((at.parse().ok()?, length.parse().ok()?))))
        }
        ["written"] => Some(Of::Written),
        ["mend"] => Some(Of::Mend),
        _ => None,
    }
}

/// A line within a block, or its last.
fn within(
    block: &Block,
    before: &[Token],
    judged: Option<Expected>,
) -> Result<Option<Says>, Wrong> {
    let words: Vec<&str> = before.iter().map(|t| t.text).collect();
    if words[..] == ["end", block.of.word()] {
        return Ok(Some(Says::End(judged.unwrap_or(GRANTED))));
    }
    let line = read_tokens(before, &block.names)?;
    Ok(line.map(|line| Says::Within(line, judged)))
}

/// How many characters a text has.
fn width(text: &str) -> usize {
    text.chars().count()
}

/// The line without its expectation and its comment; those two.
fn pieces(line: &str) -> (&str, Option<&str>, &str) {
    let (all, end) = tokens(line);
    let (code, comment) = line.split_at(end);
    match all.iter().find(|t| t.text == "=>") {
        Some(arrow) => (
            code[..arrow.at].trim_end(),
            Some(&code[arrow.at..]),
            comment,
        ),
        None => (code.trim_end(), None, comment),
    }
}

/// The line without its comment, with what was answered in the place of what was expected: the arrow where it was, or in this column.
fn updated(line: &str, failure: &Failure, column: usize) -> String {
    let (request, arrow, comment) = pieces(line);
    let before = |arrow: &str| width(&line[..line.len() - arrow.len() - comment.len()]);
    let column = arrow.map_or(column, before);
    let reply = answer_text(&failure.got, failure.what == "load");
    format!("{request:<0$} => {reply}", column.saturating_sub(1))
}

/// Runs one file; how many passed, and what failed. Text errors are all told.
fn run<'a>(file: &'a str, text: &[u8]) -> Result<Run<'a>, Stop> {
    let mut run = Run::new(file);
    let mut errors = Vec::new();
    for (number, bytes) in lines(text) {
        let said = decode(bytes).and_then(|line| run.says(line));
        match said {
            Ok(None) => {}
            Ok(Some(says)) => errors.extend(
                run.step(number, says)?
                    .map(|wrong| Error::new(number, wrong)),
            ),
            Err(wrong) => errors.push(Error::new(number, wrong)),
        }
    }
    if let Some(block) = &run.block {
        let last = lines(text).last().map_or(1, |(number, _)| number);
        let expected = format!("\"end {}\"", block.of.word());
        let found = "the end of the file".to_string();
        let wrong = Wrong {
            column: 1,
            expected,
            found,
        };
        errors.push(Error::new(last, wrong));
    }
    if !errors.is_empty() {
        return Err(source::told(file, errors));
    }
    // A policy that no request follows is tried too.
    if !run.loaded && !run.policy.bytes.is_empty() {
        run.load(run.policy.lines.last().copied().unwrap_or(1), GRANTED, true);
    }
    Ok(run)
}

/// A failure as an object.
fn object(file: &str, failure: &Failure) -> Value {
    let load = failure.what == "load";
    let (expected, got) = match &failure.instead {
        Some(instead) => (failure.what.clone(), instead.clone()),
        None => (
            answer_text(&failure.expected.got(), load),
            answer_text(&failure.got, load),
        ),
    };
    json!({
        "file": file, "line": failure.line, "what": failure.what, "expected": expected, "got": got,
        "because": failure.because,
    })
}

fn told(file: &str, failure: &Failure, out: &mut dyn Write) -> std::io::Result<()> {
    if let Some(instead) = &failure.instead {
        let (line, what) = (failure.line, &failure.what);
        return writeln!(out, "{file}: line {line}: expected {what}, got {instead}");
    }
    let load = failure.what == "load";
    let wanted = answer_text(&failure.expected.got(), load);
    let got = answer_text(&failure.got, load);
    writeln!(
        out,
        "{file}: line {}: expected {wanted}, got {got}: {}",
        failure.line, failure.what
    )?;
    failure
        .because
        .iter()
        .try_for_each(|line| writeln!(out, "    {line}"))
}

/// How many of each there were.
#[derive(Default)]
struct Count {
    passed: usize,
    failed: usize,
    updated: usize,
}

/// Runs a file, says what failed, or writes it into the file.
fn test_file(file: &str, how: How, count: &mut Count, out: &mut dyn Write) -> Result<(), Stop> {
    let How { update, json } = how;
    let text = bytes_of(file)?;
    let run = run(file, &text)?;
    let (can, cannot): (Vec<Failure>, Vec<Failure>) =
        run.failures.into_iter().partition(|f| update && f.told);
    if !can.is_empty() {
        rewrite(file, &text, &can)?;
        if !json {
            writeln!(out, "{file}: {} updated", can.len())?;
        }
    }
    for failure in &cannot {
        match json {
            true => writeln!(out, "{}", object(file, failure))?,
            false => told(file, failure, out)?,
        }
    }
    count.passed += run.passed;
    count.failed += cannot.len();
    count.updated += can.len();
    Ok(())
}

/// How files are run.
#[derive(Clone, Copy)]
pub struct How {
    /// Expectations become what was answered.
    pub update: bool,
    /// One object a line.
    pub json: bool,
}

/// Runs the files and says what failed.
pub fn test(files: &[String], how: How, out: &mut dyn Write) -> Done {
    let mut count = Count::default();
    let mut wrongs = Vec::new();
    for file in files {
        match test_file(file, how, &mut count, out) {
            Ok(()) => {}
            Err(Stop::Wrong(lines)) => wrongs.extend(lines),
            Err(quiet) => return Err(quiet),
        }
    }
    let Count {
        passed,
        failed,
        updated,
    } = count;
    if !wrongs.is_empty() {
        return Err(Stop::Wrong(wrongs));
    }
    if passed + failed + updated == 0 {
        return wrong("there is nothing to test in these files");
    }
    if how.json {
        let object = json!({"passed": passed, "failed": failed, "updated": updated});
        writeln!(out, "{object}")?;
        return Ok(if failed == 0 { WELL } else { REFUSED });
    }
    let updated = if how.update {
        format!(", {updated} updated")
    } else {
        String::new()
    };
    writeln!(out, "{passed} passed, {failed} failed{updated}")?;
    Ok(if failed == 0 { WELL } else { REFUSED })
}

fn rewrite(file: &str, text: &[u8], failures: &[Failure]) -> Result<(), Stop> {
    let mark = if text.starts_with(b"\xef\xbb\xbf") {
        "\u{feff}"
    } else {
        ""
    };
    let all: Vec<(usize, String)> = lines(text)
        .map(|(n, line)| (n, String::from_utf8_lossy(line).into_owned()))
        .collect();
    let failure = |number: usize| failures.iter().find(|f| f.line == number);
    let failed = all.iter().filter(|(number, _)| failure(*number).is_some());
    let column = failed
        .clone()
        .map(|(_, line)| width(pieces(line).0) + 2)
        .max()
        .unwrap_or(0);
    let text = |(number, line): &(usize, String)| Some(updated(line, failure(*number)?, column));
    // The comments of the lines that change stand in one column.
    let widest = failed
        .filter_map(text)
        .map(|text| width(&text))
        .max()
        .unwrap_or(0);
    let line = |numbered: &(usize, String)| match (text(numbered), pieces(&numbered.1).2) {
        (None, _) => numbered.1.clone(),
        (Some(text), "") => text,
        (Some(text), comment) => format!("{text:<widest$}  {comment}"),
    };
    let all: Vec<String> = all.iter().map(line).collect();
    match std::fs::write(file, format!("{mark}{}", all.join("\n"))) {
        Ok(()) => Ok(()),
        Err(why) => wrong(format!("{file}: it cannot be written: {why}")),
    }
}
