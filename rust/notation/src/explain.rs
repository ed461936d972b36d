//! Adds words to a desk program's listing: each request, each reply's name, the rule that refused a claim, and the figures of a
//! granted question.

use crate::figures::{figures, Again};
use crate::names::{Names, Sort};
use crate::reader::{give, Error, Line, Wrong};
use crate::tokens::{tokens, Token, END};
use crate::writer;
use records::{Reply, LENGTH};

/// A line of the listing, whose words are taken one by one.
pub(crate) struct Listed<'a> {
    number: usize,
    tokens: Vec<Token<'a>>,
    at: usize,
    end: usize,
}

impl<'a> Listed<'a> {
    pub fn new(before: usize, line: &'a str) -> Listed<'a> {
        Listed {
            number: before + 1,
            tokens: tokens(line).0,
            at: 0,
            end: line.trim_end().chars().count() + 1,
        }
    }

    fn next<T>(&mut self, expected: &str, read: impl Fn(Token) -> Option<T>) -> Result<T, Error> {
        let token = self.tokens.get(self.at).copied();
        self.at += 1;
        token.and_then(read).ok_or_else(|| Error {
            line: self.number,
            wrong: Wrong {
                column: token.map_or(self.end, |t| t.column),
                expected: expected.to_string(),
                found: token.map_or(END.to_string(), Token::found),
            },
        })
    }

    fn word(&mut self, word: &str) -> Result<(), Error> {
        self.next(&format!("\"{word}\""), |t| (t.text == word).then_some(()))
    }

    fn reply(&mut self) -> Result<Reply, Error> {
        let expected = format!("a reply, 0 to {}", Reply::ALL.len() - 1);
        self.next(&expected, |t| Reply::from_number(t.number()?))
    }

    fn place(&mut self, expected: &str, fits: impl Fn(usize) -> bool) -> Result<usize, Error> {
        let read = |t: Token| usize::try_from(t.number()?).ok().filter(|n| fits(*n));
        self.next(expected, read)
    }

    fn end(self) -> Result<(), Error> {
        self.tokens.get(self.at).map_or(Ok(()), |token| {
            Err(Error {
                line: self.number,
                wrong: Wrong {
                    column: token.column,
                    expected: END.to_string(),
                    found: token.found(),
                },
            })
        })
    }
}

/// The reply and the place in a listing's first line.
pub fn load(listing: &str) -> Result<(Reply, usize), Error> {
    let mut listed = Listed::new(0, listing.lines().next().unwrap_or(""));
    listed.word("load")?;
    let reply = listed.reply()?;
    let place = listed.place("the place of a record", |_| true)?;
    listed.end()?;
    Ok((reply, place))
}

fn load_words(reply: Reply, place: usize, policy: Option<&[u8]>, names: &Names) -> String {
    let at = match place {
        0 => String::new(),
        _ => format!(" at record {place}"),
    };
    let refused = place
        .checked_sub(1)
        .and_then(|before| policy?.chunks(LENGTH).nth(before))
        .map_or(String::new(), |record| {
            format!(": {}", writer::line(record, names))
        });
    format!("load {reply}{at}{refused}\n")
}

/// The rule that refused a claim, in words, if the reply has its place: `task set 1 of 0 1 (rule 1 of its kind)`.
fn rule_words(
    listed: &mut Listed,
    reply: Reply,
    policy: Option<&[u8]>,
    names: &Names,
) -> Result<Option<String>, Error> {
    let Some(kind) = reply.rule_kind() else {
        listed.place("place 0", |place| place == 0)?;
        return Ok(None);
    };
    let Some(policy) = policy else {
        let place = listed.place("the place of a rule, from 1", |place| place > 0)?;
        return Ok(Some(format!("(rule {place} of its kind)")));
    };
    let records = policy.chunks(LENGTH);
    let rules: Vec<&[u8]> = records.filter(|record| record[0] == kind).collect();
    let expected = format!("the place of a rule of kind {kind}, 1 to {}", rules.len());
    let place = listed.place(&expected, |place| (1..=rules.len()).contains(&place))?;
    let words = writer::line(rules[place - 1], names);
    Ok(Some(format!("{words} (rule {place} of its kind)")))
}

/// The request's reply, its line, and a further line for the rule.
pub(crate) fn request_line(
    mut listed: Listed,
    place: usize,
    record: &[u8],
    policy: Option<&[u8]>,
    names: &Names,
) -> Result<(Reply, String), Error> {
    listed.word(&place.to_string())?;
    let reply = listed.reply()?;
    let rule = rule_words(&mut listed, reply, policy, names)?;
    listed.end()?;
    let (number, name) = (reply.number(), reply.name());
    let words = writer::line(record, names);
    let rule = rule.map_or(String::new(), |rule| format!("{:7}{reply}  {rule}\n", ""));
    let text = format!("{place:>5}  {number:>2} {name:<12}  {words}\n{rule}");
    Ok((reply, text))
}

/// The line of a granted question's figures. If the engine's reply once differs from the listing's, no further figures are given.
fn figures_line(again: &mut Option<Again>, record: &[u8], reply: Reply, names: &Names) -> String {
    if again
        .as_mut()
        .is_some_and(|engine| !engine.request(record, reply))
    {
        *again = None;
    }
    let answer = again.as_ref().and_then(|engine| engine.question(record));
    let task = |task: u16| names.shown(Sort::Task, task);
    let told = answer.and_then(|answer| figures(record, &answer, task));
    told.map_or(String::new(), |told| format!("{:7}{told}\n", ""))
}

/// Joins request records with the listing that a desk program wrote for them. With the policy's records, also gives a refused
/// policy record, the rules that refused claims, and the figures of granted questions.
pub fn explain(
    policy: Option<&[u8]>,
    requests: &[Line],
    listing: &str,
    names: &Names,
) -> Result<String, Error> {
    let (reply, place) = load(listing)?;
    let mut names = names.clone();
    let mut text = load_words(reply, place, policy, &names);
    let judged = if reply.is_granted() { requests } else { &[] };
    let mut again = Again::with(policy, judged);
    let mut lines = listing.lines().enumerate().skip(1);
    let mut made = 0;
    for line in judged {
        let Some(record) = &line.record else {
            give(&mut names, &line.namings, false);
            continue;
        };
        made += 1;
        let (at, listed) = lines.next().unwrap_or((made, ""));
        let listed = Listed::new(at, listed);
        let (reply, line_of_it) = request_line(listed, made, record, policy, &names)?;
        if reply.is_granted() {
            give(&mut names, &line.namings, false);
        }
        text += &line_of_it;
        text += &figures_line(&mut again, record, reply, &names);
    }
    match lines.next() {
        None => Ok(text),
        Some((before, further)) => Err(Error {
            line: before + 1,
            wrong: Wrong {
                column: 1,
                expected: "the end of the listing".to_string(),
                found: format!("\"{further}\""),
            },
        }),
    }
}
