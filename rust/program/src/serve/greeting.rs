//! What a client may say before its requests, a line each: `as ACCOUNT`, `desk NAME`, `lines`, `records`, `keyed`. Each is answered with the same
//! line. Without them there is one desk, and the first byte shows the form: a letter, `{` or a byte order mark begins text; every other
//! byte is the kind of a record, since no kind is a letter. Text that begins with a comment or a blank says `lines` first.

use super::accept::House;
use super::access::account_of;
use super::account::{Told, Who};
use super::client::Stream;
use super::door::Door;
use super::input::{Cut, Input};
use crate::journal::Barred;
use std::io::{self, Write};
use std::sync::Arc;

/// How requests come.
#[derive(Clone, Copy, PartialEq, Eq, Debug)]
pub enum Form {
    Lines,
    Records,
    /// Records, each with its key after it.
    Keyed,
}

/// A client that may go on to its requests.
pub struct Greeted {
    pub who: Who,
    pub door: Arc<Door>,
    pub input: Input<Stream>,
    pub form: Form,
    /// The lines so far.
    pub lines: u64,
}

/// The words that begin such a line; a line of one word ends after it.
const WORDS: [&[u8]; 5] = [b"as ", b"desk ", b"lines", b"records", b"keyed"];

/// Whether the line that comes is one of them. What is there may be too little to tell; then more is waited for.
fn comes(input: &mut Input<Stream>) -> io::Result<bool> {
    loop {
        let rest = input.rest();
        let mut undecided = rest.is_empty();
        for word in WORDS {
            let ends = rest.get(word.len()).copied();
            match (rest.starts_with(word), word.ends_with(b" "), ends) {
                (true, true, _) => return Ok(true),
                (true, false, Some(b'\n' | b'\r')) => return Ok(true),
                (true, false, None) => undecided = true,
                _ => undecided |= word.starts_with(rest),
            }
        }
        if !undecided || !input.fill()? {
            return Ok(false);
        }
    }
}

/// A whole line, without its end.
fn line(input: &mut Input<Stream>) -> io::Result<Option<String>> {
    let line = loop {
        if let Some(line) = input.line() {
            break line;
        }
        if !input.fill()? {
            break input.line().unwrap_or(Cut::TooLong);
        }
    };
    let Cut::Line(line) = line else {
        return Ok(None);
    };
    let line = line.strip_suffix(b"\r").unwrap_or(&line);
    Ok(String::from_utf8(line.to_vec()).ok())
}

/// Takes what a client says first. Nothing where it was told why it cannot go on.
pub fn greeted(
    mut input: Input<Stream>,
    out: &mut Stream,
    house: &House,
    mut who: Who,
    number: i64,
) -> io::Result<Option<Greeted>> {
    let only = house
        .desks
        .values()
        .next()
        .filter(|_| house.desks.len() == 1);
    let (mut door, mut form, mut lines) = (only.cloned(), None, 0);
    // A stranger is told at once, where it is clear which desk's journal has it.
    if let (true, Some(door)) = (who.rights.is_none(), &door) {
        stranger(door, &who, number, out)?;
        return Ok(None);
    }
    while form.is_none() && comes(&mut input)? {
        lines += 1;
        let Some(said) = line(&mut input)? else {
            writeln!(out, "wrong: line {lines} is too long, or no text in UTF-8")?;
            return Ok(None);
        };
        let (word, rest) = said.split_once(' ').unwrap_or((&said, ""));
        let done = match (word, rest.trim()) {
            ("as", name) => named(name, &who, house).map(|named| who = named),
            ("desk", name) => match house.desks.get(name) {
                Some(named) => {
                    door = Some(named.clone());
                    Ok(())
                }
                None => Err(Told::Wrong(format!("there is no desk {name:?} here"))),
            },
            ("lines", _) => {
                form = Some(Form::Lines);
                Ok(())
            }
            ("keyed", _) => {
                form = Some(Form::Keyed);
                Ok(())
            }
            _ => {
                form = Some(Form::Records);
                Ok(())
            }
        };
        // Whoever says the form goes on to its requests: not where another server has the desk.
        let elsewhere = form.and(door.as_ref()).and_then(|door| door.elsewhere());
        let done = match elsewhere {
            Some(why) => Err(Told::Wrong(why)),
            None => done,
        };
        match done {
            Ok(()) => writeln!(out, "{said}")?,
            Err(told) => {
                refused(told, &said, door.as_ref(), &who, number, out)?;
                return Ok(None);
            }
        }
    }
    let Some(door) = door else {
        let names: Vec<&str> = house.desks.keys().map(String::as_str).collect();
        writeln!(
            out,
            "wrong: the first line names a desk, as: desk {}",
            names.join(", desk ")
        )?;
        return Ok(None);
    };
    if who.rights.is_none() {
        stranger(&door, &who, number, out)?;
        return Ok(None);
    }
    let form = match form {
        Some(form) => form,
        None => told_apart(&mut input)?,
    };
    Ok(Some(Greeted {
        who,
        door,
        input,
        form,
        lines,
    }))
}

/// The form, by the first byte.
fn told_apart(input: &mut Input<Stream>) -> io::Result<Form> {
    while input.rest().is_empty() && input.fill()? {}
    Ok(match input.rest().first() {
        Some(b'a'..=b'z' | b'A'..=b'Z' | b'{' | 0xef) | None => Form::Lines,
        Some(_) => Form::Records,
    })
}

fn named(name: &str, who: &Who, house: &House) -> Result<Who, Told> {
    if who.via.is_some() {
        return Err(Told::Wrong(format!(
            "it was said already: {} is here",
            who.account
        )));
    }
    let Some(name) = account_of(name) else {
        let why = "as ACCOUNT: a name of at most 64 bytes, between quotes where it has a blank";
        return Err(Told::Wrong(why.to_string()));
    };
    house.gate.speaking_for(who, &name)
}

/// Tells why a client cannot go on; what it may not do is kept.
fn refused(
    told: Told,
    said: &str,
    door: Option<&Arc<Door>>,
    who: &Who,
    number: i64,
    out: &mut Stream,
) -> io::Result<()> {
    let (word, why) = match told {
        Told::Wrong(why) => ("wrong", why),
        Told::Barred(why) => {
            if let Some(door) = door {
                door.keep(barred(who, number, said, &why));
            }
            ("barred", why)
        }
    };
    writeln!(out, "{word}: {why}")
}

fn barred(who: &Who, client: i64, asked: &str, why: &str) -> Barred {
    Barred {
        at: 0,
        client,
        account: who.account.clone(),
        via: who.via.clone(),
        record: None,
        asked: asked.to_string(),
        why: why.to_string(),
    }
}

/// An account that may ask nothing.
fn stranger(door: &Arc<Door>, who: &Who, number: i64, out: &mut Stream) -> io::Result<()> {
    let why = format!("{} has no authority here", who.account);
    if door.is_news(&who.account) {
        door.keep(barred(who, number, "to connect", &why));
    }
    writeln!(out, "barred: {why}")
}
