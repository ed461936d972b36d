//! What a request brings: its body, within limits; its path and its query, decoded.

use super::problem::Problem;
use super::route::Asked;
use super::BODY;
use hyper::body::HttpBody;
use hyper::header::{HeaderMap, CONTENT_LENGTH, CONTENT_TYPE};
use hyper::Body;
use serde_json::Value;

/// What a body is, by its type.
#[derive(Clone, Copy, PartialEq, Eq, Debug)]
pub enum Kind {
    Json,
    Lines,
}

/// The type of a body: JSON, or where lines are taken too, text.
pub fn kind(headers: &HeaderMap, lines: bool) -> Result<Kind, Problem> {
    let given = headers
        .get(CONTENT_TYPE)
        .and_then(|value| value.to_str().ok());
    let given = given.unwrap_or("").split(';').next().unwrap_or("").trim();
    match given.to_ascii_lowercase().as_str() {
        "application/json" => Ok(Kind::Json),
        "text/plain" if lines => Ok(Kind::Lines),
        _ if lines => Err(Problem::media("application/json, or text/plain for lines")),
        _ => Err(Problem::media("application/json")),
    }
}

/// A whole body of at most a megabyte, which arrives in time.
pub async fn whole(call: &Asked, body: Body) -> Result<Vec<u8>, Problem> {
    let told = call
        .headers
        .get(CONTENT_LENGTH)
        .and_then(|value| value.to_str().ok());
    let told = told
        .and_then(|digits| digits.parse::<u64>().ok())
        .unwrap_or(0);
    if told > BODY as u64 {
        return Err(Problem::too_large(BODY));
    }
    let patience = call.hall.house.patience;
    match tokio::time::timeout(patience, read(body)).await {
        Ok(read) => read,
        Err(_) => Err(Problem::slow(patience.as_secs())),
    }
}

async fn read(mut body: Body) -> Result<Vec<u8>, Problem> {
    let mut all = Vec::new();
    while let Some(some) = body.data().await {
        let some = some.map_err(|why| Problem::wrong(format!("the body broke off: {why}")))?;
        if all.len() + some.len() > BODY {
            return Err(Problem::too_large(BODY));
        }
        all.extend_from_slice(&some);
    }
    Ok(all)
}

/// A body of JSON.
pub async fn json(call: &Asked, body: Body) -> Result<Value, Problem> {
    kind(&call.headers, false)?;
    let bytes = whole(call, body).await?;
    serde_json::from_slice(&bytes).map_err(|why| Problem::no_json(&why))
}

/// Text in which `%20` stands for a blank, and in a query `+` too; none where it is not UTF-8 then.
pub fn decoded(text: &str, plus: bool) -> Option<String> {
    let mut bytes = Vec::with_capacity(text.len());
    let mut rest = text.as_bytes().iter();
    while let Some(&byte) = rest.next() {
        bytes.push(match byte {
            b'%' => {
                let digit = |byte: Option<&u8>| char::from(*byte?).to_digit(16);
                (digit(rest.next())? * 16 + digit(rest.next())?) as u8
            }
            b'+' if plus => b' ',
            byte => byte,
        });
    }
    String::from_utf8(bytes).ok()
}

/// The values of a query, in their order.
pub struct Query(Vec<(String, String)>);

impl Query {
    /// Reads a query that has these names, each at most once.
    pub fn read(text: Option<&str>, names: &[&str]) -> Result<Query, Problem> {
        let mut all: Vec<(String, String)> = Vec::new();
        for pair in text
            .unwrap_or("")
            .split('&')
            .filter(|pair| !pair.is_empty())
        {
            let (name, value) = pair.split_once('=').unwrap_or((pair, ""));
            let (Some(name), Some(value)) = (decoded(name, true), decoded(value, true)) else {
                return Err(Problem::wrong(format!("the query's {pair:?} is no text")));
            };
            if !names.contains(&name.as_str()) {
                let names = match names {
                    [] => "none".to_string(),
                    names => names.join(", "),
                };
                return Err(Problem::wrong(format!(
                    "there is no {name:?} in this query; there is: {names}"
                )));
            }
            if all.iter().any(|(before, _)| *before == name) {
                return Err(Problem::wrong(format!("{name:?} is in the query twice")));
            }
            all.push((name, value));
        }
        Ok(Query(all))
    }

    pub fn text(&self, name: &str) -> Option<&str> {
        let named = self.0.iter().find(|(of, _)| of == name);
        named.map(|(_, value)| value.as_str())
    }

    /// `1`, `true`, or nothing behind the name: yes.
    pub fn flag(&self, name: &str) -> Result<bool, Problem> {
        match self.text(name) {
            None | Some("0" | "false") => Ok(false),
            Some("" | "1" | "true") => Ok(true),
            Some(other) => Err(Problem::wrong(format!(
                "{name}={other}: 1 or 0 is expected"
            ))),
        }
    }

    pub fn number(&self, name: &str) -> Result<Option<u64>, Problem> {
        let Some(word) = self.text(name) else {
            return Ok(None);
        };
        let number = word
            .parse()
            .map_err(|_| Problem::wrong(format!("{name}={word}: a number is expected")));
        number.map(Some)
    }
}

#[cfg(test)]
mod tests {
    use super::*;

    #[test]
    fn what_is_encoded_is_decoded() {
        assert_eq!(decoded("mill%207", false), Some("mill 7".to_string()));
        assert_eq!(decoded("a+b", true), Some("a b".to_string()));
        assert_eq!(decoded("a+b", false), Some("a+b".to_string()));
        assert_eq!(decoded("m%C3%BChle", false), Some("mühle".to_string()));
        for broken in ["%", "%2", "%zz", "%ff", "%2\u{e9}"] {
            assert_eq!(decoded(broken, false), None, "{broken}");
        }
    }

    #[test]
    fn a_query_has_its_names_once() {
        let read = |text: &str| Query::read(Some(text), &["why", "last"]);
        let query = read("why=1&last=20&").unwrap();
        assert!(query.flag("why").unwrap());
        assert_eq!(query.number("last").unwrap(), Some(20));
        assert!(read("who=1").is_err() && read("why=1&why=0").is_err() && read("why=%").is_err());
        assert!(read("why=maybe").unwrap().flag("why").is_err());
        assert!(read("last=x").unwrap().number("last").is_err());
        assert!(Query::read(None, &[]).unwrap().text("why").is_none());
    }
}
