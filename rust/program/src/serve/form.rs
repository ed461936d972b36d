//! The forms that requests and replies have: lines of the notation, objects a line, and records.

use super::group::{Asked, More};
use super::keys;
use crate::journal::{said, Live, LONGEST_NAME};
use crate::names::Sort;
use crate::reader::{self, Token};
use records::Reply;
use serde_json::{json, Value};
use std::sync::Arc;

/// One thing that a client said, in its place among the others.
pub enum Item {
    /// The request of the batch with this index, and how its reply is shown.
    Request(usize, Shown),
    /// What is no request, and why.
    Wrong(String, Shown),
    /// An answer to a question, as it is shown.
    Told(Vec<u8>),
}

/// How a reply is shown.
pub enum Shown {
    Line,
    /// An object, with the `id` that the request had.
    Object(Option<Value>),
    Record,
}

/// A request of a text line; or what is wrong with it. Nothing for a line without words.
pub fn of_line(line: &[u8], live: &Live) -> Result<Option<Asked>, String> {
    let told = |wrong: reader::Wrong| format!("column {}: {wrong}", wrong.column);
    let text = reader::decode(line).map_err(told)?;
    let mut tokens = reader::tokens(text).0;
    let choose = chosen(&mut tokens);
    let read = reader::read_tokens(&tokens, &live.names).map_err(told)?;
    let Some(read) = read else {
        return Ok(None);
    };
    let Some(record) = read.record else {
        return Err("it gives a name and makes no request".to_string());
    };
    if let Some(long) = read.namings.iter().find(|n| n.name.len() > LONGEST_NAME) {
        let (column, length) = (long.column, long.name.len());
        return Err(format!(
            "column {column}: expected a name of at most {LONGEST_NAME} bytes, found one of {length}"
        ));
    }
    let mut asked = Asked::of(&record, read.namings);
    asked.choose = choose;
    asked.line = Some((line.into(), live.changes));
    Ok(Some(asked))
}

/// The sort of number that the server chooses for a line, whether or not its names can be read.
pub fn choice_of(line: &[u8]) -> Option<Sort> {
    let text = reader::decode(line).ok()?;
    chosen(&mut reader::tokens(text).0)
}

/// Where a line opens an order or creates a subject without a number, a number is put there, which the server chooses again:
/// `open order mill of template repair`, `create subject for user anna with roles clerk`.
fn chosen(tokens: &mut Vec<Token>) -> Option<Sort> {
    let words: Vec<&str> = tokens.iter().take(3).map(|token| token.text).collect();
    let sort = match words[..] {
        ["open", "order", _] => Sort::Order,
        ["create", "subject", _] => Sort::Subject,
        _ => return None,
    };
    let third = tokens[2];
    if third.number().is_some() {
        return None;
    }
    tokens.insert(2, Token { text: "0", ..third });
    Some(sort)
}

/// What an object says.
pub enum Said {
    Line(String),
    Record(Vec<u8>),
}

/// The key of a request, by which it may be sent again.
pub type Key = Option<Arc<str>>;

/// What an object says, `{"request": "claim 5 0 1"}`, or `{"record": "3200..."}` in hexadecimal digits, with its `key`; and its `id`.
pub fn of_object(line: &[u8]) -> (Result<(Said, Key), String>, Option<Value>) {
    let mut object: Value = match serde_json::from_slice(line) {
        Ok(object) => object,
        Err(why) => return (Err(format!("no object: {why}")), None),
    };
    let id = object.get_mut("id").map(Value::take);
    let key = match object.get("key") {
        None => Ok(None),
        Some(Value::String(key)) => keys::key_of(key.as_bytes()).map(Some),
        Some(_) => Err("a key is text".to_string()),
    };
    let said = match (object["request"].as_str(), object["record"].as_str()) {
        (Some(line), None) if line.contains('\n') => Err("a request is one line".to_string()),
        (Some(line), None) => Ok(Said::Line(line.to_string())),
        (None, Some(digits)) => bytes_of(digits).map(Said::Record),
        _ => Err("an object has a \"request\", a line, or a \"record\", its digits".to_string()),
    };
    (said.and_then(|said| Ok((said, key?))), id)
}

/// Hexadecimal digits, two a byte, at most sixteen bytes.
pub fn bytes_of(digits: &str) -> Result<Vec<u8>, String> {
    let expected = || "a record is 32 hexadecimal digits, or fewer where it is cut".to_string();
    let even =
        digits.is_ascii() && digits.len().is_multiple_of(2) && (2..=32).contains(&digits.len());
    if !even {
        return Err(expected());
    }
    let byte = |at: usize| u8::from_str_radix(&digits[at..at + 2], 16);
    let bytes: Result<Vec<u8>, _> = (0..digits.len()).step_by(2).map(byte).collect();
    bytes.map_err(|_| expected())
}

/// Why a request was not put to the engine, or not done.
pub enum Denied {
    /// The account may not ask it.
    Barred(String),
    Wrong(String),
    NotDone(String),
}

/// What is reported in the place of a reply.
pub fn told(denied: &Denied, shown: &Shown) -> Vec<u8> {
    let (key, word, why) = match denied {
        Denied::Barred(why) => ("barred", "barred", why),
        Denied::Wrong(why) => ("wrong", "wrong", why),
        Denied::NotDone(why) => ("not_done", "not done", why),
    };
    match shown {
        Shown::Object(id) => object(json!({ key: why }), id),
        _ => format!("{word}: {why}\n").into(),
    }
}

fn object(mut object: Value, id: &Option<Value>) -> Vec<u8> {
    if let Some(id) = id {
        object["id"] = id.clone();
    }
    (object.to_string() + "\n").into()
}

/// What is reported of something that is no request.
pub fn wrong(why: &str, shown: &Shown) -> Vec<u8> {
    told(&Denied::Wrong(why.to_string()), shown)
}

/// The answer to a question.
pub fn answer(text: &str, shown: &Shown) -> Vec<u8> {
    match shown {
        Shown::Object(id) => {
            let value = serde_json::from_str(text).unwrap_or_else(|_| json!(text));
            object(json!({ "answer": value }), id)
        }
        _ => format!("{text}\n").into(),
    }
}

/// A reply as its client takes it; `failed` says why it was not done, where it has no number.
pub fn reply(asked: &Asked, shown: &Shown, failed: Option<&str>, live: &Live) -> Vec<u8> {
    let denied = match &asked.more {
        More::Wrong(why) => Some(Denied::Wrong(why.clone())),
        More::Barred(why) if failed.is_none() => Some(Denied::Barred(why.clone())),
        _ if asked.number == 0 => {
            let why = failed.unwrap_or("the journal could not be written");
            Some(Denied::NotDone(why.to_string()))
        }
        _ => None,
    };
    if let Some(denied) = denied {
        return match (shown, &denied) {
            (Shown::Record, Denied::Barred(_)) => record(asked, BARRED).to_vec(),
            (Shown::Record, _) => record(asked, NOT_DONE).to_vec(),
            _ => told(&denied, shown),
        };
    }
    match shown {
        Shown::Record => record(asked, 0).to_vec(),
        Shown::Line => {
            let said = said((asked.reply, asked.place));
            format!("{} {said}{}\n", asked.number, more(asked, live)).into()
        }
        Shown::Object(id) => object(granted(asked, live), id),
    }
}

fn granted(asked: &Asked, live: &Live) -> Value {
    let name = Reply::from_number(asked.reply.into()).map_or("", |reply| reply.name());
    let mut object = json!({
        "number": asked.number, "reply": asked.reply, "name": name, "rule": asked.place,
    });
    match &asked.more {
        More::Chosen(sort, number) if asked.reply == 0 => object[sort.word()] = json!(number),
        More::Figures(_) => {
            object["figures"] = json!(more(asked, live).trim_start_matches(", "));
        }
        _ => {}
    }
    object
}

/// What stands after a granted reply: the number that was chosen, or a question's figures.
fn more(asked: &Asked, live: &Live) -> String {
    let task = |task: u16| live.names.shown(Sort::Task, task);
    match &asked.more {
        More::Chosen(sort, number) if asked.reply == 0 => format!(", {} {number}", sort.word()),
        More::Figures(figures) => notation::figures(asked.bytes.as_ref(), figures, task)
            .map_or(String::new(), |said| format!(", {said}")),
        _ => String::new(),
    }
}

/// What byte 1 of a reply says: it was not done, or the account may not ask it.
const NOT_DONE: u8 = 1;
const BARRED: u8 = 2;

/// Byte 0 the reply, byte 1 whether it was not done or barred, bytes 2 and 3 the rule's place, bytes 8 to 15 the request's number.
fn record(asked: &Asked, not_done: u8) -> [u8; 16] {
    let mut bytes = [0; 16];
    bytes[0] = if not_done == 0 { asked.reply } else { 0xff };
    bytes[1] = not_done;
    bytes[2..4].copy_from_slice(&asked.place.to_le_bytes());
    bytes[8..].copy_from_slice(&asked.number.to_le_bytes());
    bytes
}
