//! Errors as RFC 9457 has them: `application/problem+json`, with line and column where there is text.

use hyper::header::{HeaderName, HeaderValue, CONTENT_TYPE};
use hyper::{Body, Response, StatusCode};
use serde_json::{json, Value};

#[derive(Debug)]
pub struct Problem {
    pub status: StatusCode,
    /// The last word of its type.
    pub kind: &'static str,
    pub title: &'static str,
    pub detail: String,
    /// Where it is, in a text: line and column, from 1.
    pub place: Option<(u32, u32)>,
    /// Where it is, in an object.
    pub pointer: Option<Box<str>>,
    pub header: Option<(&'static str, Box<str>)>,
}

/// What every type begins with.
pub const TYPES: &str = "urn:mishantral:problem:";

impl Problem {
    fn of(
        status: StatusCode,
        kind: &'static str,
        title: &'static str,
        detail: impl Into<String>,
    ) -> Problem {
        Problem {
            status,
            kind,
            title,
            detail: detail.into(),
            place: None,
            pointer: None,
            header: None,
        }
    }

    fn with(mut self, name: &'static str, value: &str) -> Problem {
        self.header = Some((name, value.into()));
        self
    }

    /// What was sent is not what is expected.
    pub fn wrong(detail: impl Into<String>) -> Problem {
        Problem::of(
            StatusCode::BAD_REQUEST,
            "wrong",
            "This cannot be read",
            detail,
        )
    }

    /// The same at a place of an object.
    pub fn wrong_at(pointer: &str, detail: impl Into<String>) -> Problem {
        Problem {
            pointer: Some(pointer.into()),
            ..Problem::wrong(detail)
        }
    }

    pub fn no_json(why: &serde_json::Error) -> Problem {
        Problem {
            place: Some((why.line() as u32, why.column() as u32)),
            ..Problem::wrong(format!("the body is no JSON: {why}"))
        }
    }

    /// The account may not ask it.
    pub fn barred(detail: impl Into<String>) -> Problem {
        let title = "This account may not ask this";
        Problem::of(StatusCode::FORBIDDEN, "barred", title, detail)
    }

    /// Another site's page asks.
    pub fn elsewhere(detail: impl Into<String>) -> Problem {
        let title = "Requests of other sites are refused";
        Problem::of(StatusCode::FORBIDDEN, "elsewhere", title, detail)
    }

    pub fn no_account(header: &str) -> Problem {
        let title = "Nobody says who asks";
        let detail = format!("the header {header} names the account, and there is none or several");
        Problem::of(StatusCode::UNAUTHORIZED, "no-account", title, detail)
            .with("www-authenticate", &format!("Account header=\"{header}\""))
    }

    pub fn no_certificate() -> Problem {
        let title = "Nobody says who asks";
        let detail = "a client certificate with one common name, which is an account, says who asks, and there is none";
        Problem::of(StatusCode::UNAUTHORIZED, "no-account", title, detail)
            .with("www-authenticate", "Certificate")
    }

    pub fn not_found(detail: impl Into<String>) -> Problem {
        Problem::of(
            StatusCode::NOT_FOUND,
            "not-found",
            "There is no such thing",
            detail,
        )
    }

    pub fn method(allowed: &str) -> Problem {
        let title = "This is asked by another method";
        let detail = format!("allowed here: {allowed}");
        Problem::of(StatusCode::METHOD_NOT_ALLOWED, "method", title, detail).with("allow", allowed)
    }

    pub fn not_acceptable(offered: &str) -> Problem {
        let detail = format!("there is: {offered}");
        let title = "None of the accepted types is there";
        Problem::of(StatusCode::NOT_ACCEPTABLE, "not-acceptable", title, detail)
    }

    pub fn media(expected: &str) -> Problem {
        let title = "Another type of body is expected";
        let detail = format!("Content-Type is to be {expected}");
        Problem::of(
            StatusCode::UNSUPPORTED_MEDIA_TYPE,
            "media-type",
            title,
            detail,
        )
    }

    pub fn too_large(most: usize) -> Problem {
        let detail = format!("a body has at most {most} bytes");
        Problem::of(
            StatusCode::PAYLOAD_TOO_LARGE,
            "too-large",
            "The body is too large",
            detail,
        )
    }

    pub fn header_too_large(most: usize) -> Problem {
        let (status, title) = (
            StatusCode::REQUEST_HEADER_FIELDS_TOO_LARGE,
            "The header is too large",
        );
        let detail = format!("a header has at most {most} bytes");
        Problem::of(status, "header-too-large", title, detail)
    }

    pub fn slow(seconds: u64) -> Problem {
        let detail = format!("a body has {seconds} s to arrive");
        Problem::of(
            StatusCode::REQUEST_TIMEOUT,
            "slow",
            "The body did not arrive",
            detail,
        )
    }

    /// The account has asked too much.
    pub fn too_many(detail: impl Into<String>) -> Problem {
        let title = "This account asks too much";
        Problem::of(StatusCode::TOO_MANY_REQUESTS, "too-many", title, detail)
            .with("retry-after", "5")
    }

    pub fn misdirected(host: &str) -> Problem {
        let detail = format!("{host} is no name of this machine: ask by localhost, or behind a proxy that says who asks");
        let title = "Another host was meant";
        Problem::of(StatusCode::MISDIRECTED_REQUEST, "host", title, detail)
    }

    /// The request was not done, and may be sent again.
    pub fn not_done(detail: impl Into<String>) -> Problem {
        let title = "It was not done";
        Problem::of(StatusCode::SERVICE_UNAVAILABLE, "not-done", title, detail)
            .with("retry-after", "1")
    }

    /// The desk has ended.
    pub fn ended(detail: impl Into<String>) -> Problem {
        let title = "The desk has ended";
        Problem::of(StatusCode::SERVICE_UNAVAILABLE, "ended", title, detail)
    }

    pub fn failed(detail: impl Into<String>) -> Problem {
        let title = "The server failed here";
        Problem::of(StatusCode::INTERNAL_SERVER_ERROR, "failed", title, detail)
    }

    pub fn object(&self) -> Value {
        let mut object = json!({
            "type": format!("{TYPES}{}", self.kind), "title": self.title, "status": self.status.as_u16(),
            "detail": self.detail,
        });
        if let Some((line, column)) = self.place {
            (object["line"], object["column"]) = (json!(line), json!(column));
        }
        if let Some(pointer) = &self.pointer {
            object["pointer"] = json!(pointer);
        }
        object
    }

    pub fn response(self) -> Response<Body> {
        let mut response = Response::new(Body::from(self.object().to_string()));
        *response.status_mut() = self.status;
        let headers = response.headers_mut();
        headers.insert(
            CONTENT_TYPE,
            HeaderValue::from_static("application/problem+json"),
        );
        if let Some((name, value)) = self.header {
            let value = HeaderValue::from_str(&value);
            headers.extend(value.map(|value| (HeaderName::from_static(name), value)));
        }
        response
    }
}

/// What is wrong with a line of the notation, `column 7: expected ..`, with its place.
pub fn of_line(line: u32, why: &str) -> Problem {
    let column = why.strip_prefix("column ").and_then(|rest| {
        let digits = rest.split(':').next()?;
        digits.parse().ok()
    });
    Problem {
        place: column.map(|column| (line, column)),
        ..Problem::wrong(why)
    }
}
