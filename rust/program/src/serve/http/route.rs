//! Paths and methods, and what every response has.

use super::account::{is_meant, who, Peer, Sayer};
use super::problem::Problem;
use super::{authzen, body, events, health, listed, look, page, requests, Hall, HEADER};
use crate::report::{is_written, log, Level};
use crate::serve::account::Who;
use crate::serve::door::Door;
use crate::serve::places::{Place, Whose};
use hyper::header::{HeaderMap, HeaderName, HeaderValue, CACHE_CONTROL};
use hyper::{Body, Method, Request, Response, StatusCode};
use serde_json::{json, Value};
use std::sync::Arc;
use std::time::Instant;

/// A call that may be answered.
pub struct Asked {
    pub hall: Arc<Hall>,
    pub who: Arc<Who>,
    pub door: Arc<Door>,
    pub client: i64,
    pub headers: HeaderMap,
    pub query: Option<String>,
    /// The words of the path that stand for something.
    pub words: Vec<String>,
    /// Its place among the calls of its account, where a proxy brings those of many; it is taken until the answer is whole.
    pub place: Option<Place>,
}

/// An answer with its type.
pub struct Reply {
    pub status: StatusCode,
    pub kind: &'static str,
    pub headers: Vec<(&'static str, &'static str)>,
    pub body: Body,
}

impl Reply {
    pub fn json(value: Value) -> Reply {
        Reply::of("application/json", value.to_string())
    }

    pub fn of(kind: &'static str, body: impl Into<Body>) -> Reply {
        Reply {
            status: StatusCode::OK,
            kind,
            headers: Vec::new(),
            body: body.into(),
        }
    }
}

/// Everything that has a path.
#[derive(Clone, Copy, PartialEq, Eq, Debug)]
pub enum Route {
    Page,
    Health,
    Ready,
    Metrics,
    Contract,
    Discovery,
    DiscoveryOfDesk,
    Desks,
    Requests,
    Board,
    Events,
    FinishAll,
    Finish,
    Who,
    Holds,
    Journal,
    Evaluation,
    Evaluations,
    SearchSubject,
    SearchResource,
    SearchAction,
}

use Route::*;

/// Paths; a word in braces stands for something. The first word is the desk's, where there is one.
const PATHS: [(Route, &str); 26] = [
    (Page, "/"),
    (Health, "/healthz"),
    (Ready, "/readyz"),
    (Metrics, "/metrics"),
    (Contract, "/openapi.json"),
    (Discovery, "/.well-known/authzen-configuration"),
    (
        DiscoveryOfDesk,
        "/.well-known/authzen-configuration/v1/desks/{desk}",
    ),
    (Desks, "/v1/desks"),
    (Requests, "/v1/desks/{desk}/requests"),
    (Board, "/v1/desks/{desk}/board"),
    (Events, "/v1/desks/{desk}/events"),
    (FinishAll, "/v1/desks/{desk}/finish"),
    (Finish, "/v1/desks/{desk}/orders/{order}/finish"),
    (Who, "/v1/desks/{desk}/orders/{order}/tasks/{task}/who"),
    (Holds, "/v1/desks/{desk}/holds"),
    (Journal, "/v1/desks/{desk}/journal"),
    (Evaluation, "/access/v1/evaluation"),
    (Evaluations, "/access/v1/evaluations"),
    (SearchSubject, "/access/v1/search/subject"),
    (SearchResource, "/access/v1/search/resource"),
    (SearchAction, "/access/v1/search/action"),
    (Evaluation, "/v1/desks/{desk}/access/v1/evaluation"),
    (Evaluations, "/v1/desks/{desk}/access/v1/evaluations"),
    (SearchSubject, "/v1/desks/{desk}/access/v1/search/subject"),
    (SearchResource, "/v1/desks/{desk}/access/v1/search/resource"),
    (SearchAction, "/v1/desks/{desk}/access/v1/search/action"),
];

impl Route {
    fn method(self) -> Method {
        match self {
            Requests | Evaluation | Evaluations => Method::POST,
            SearchSubject | SearchResource | SearchAction => Method::POST,
            _ => Method::GET,
        }
    }

    /// The methods, as `Allow` has them.
    fn allowed(self) -> &'static str {
        match self.method() {
            Method::POST => "POST, OPTIONS",
            _ => "GET, HEAD, OPTIONS",
        }
    }
}

/// The route of a path with its pattern, and the words that stand for something.
fn route(path: &str) -> Option<(Route, &'static str, Vec<String>)> {
    let parts: Vec<&str> = path.split('/').collect();
    PATHS.iter().find_map(|&(route, pattern)| {
        let words: Vec<&str> = pattern.split('/').collect();
        if words.len() != parts.len() {
            return None;
        }
        let mut found = Vec::new();
        for (word, part) in words.iter().zip(&parts) {
            match word.starts_with('{') {
                true => found.push(body::decoded(part, false).filter(|word| !word.is_empty())?),
                false if word == part => {}
                false => return None,
            }
        }
        Some((route, pattern, found))
    })
}

/// The answer to any request.
pub async fn answered(
    request: Request<Body>,
    peer: Peer,
    client: i64,
    hall: Arc<Hall>,
) -> Response<Body> {
    let began = Instant::now();
    let id = request.headers().get("x-request-id").cloned();
    let method = request.method().clone();
    let path = request.uri().path().to_string();
    let found = route(request.uri().path());
    let name = found.as_ref().map_or("none", |(_, pattern, _)| pattern);
    let meter = hall.house.meter.clone();
    let reply = match found {
        // hyper reads somewhat more at once, and takes that for a header if it ends there.
        _ if length(&request) > HEADER => Err(Problem::header_too_large(HEADER)),
        None => Err(Problem::not_found(format!(
            "there is no {}",
            request.uri().path()
        ))),
        Some((route, ..)) if method == Method::OPTIONS => Ok(options(route)),
        Some((route, ..)) if !is_allowed(route, &method) => Err(Problem::method(route.allowed())),
        Some((route, _, words)) => called(request, route, words, peer, client, hall).await,
    };
    let mut response = reply.map_or_else(Problem::response, response);
    let headers = response.headers_mut();
    headers.insert(
        HeaderName::from_static("x-content-type-options"),
        HeaderValue::from_static("nosniff"),
    );
    headers
        .entry(CACHE_CONTROL)
        .or_insert(HeaderValue::from_static("no-store"));
    if let Some(id) = id {
        headers.insert(HeaderName::from_static("x-request-id"), id);
    }
    let (status, took) = (response.status().as_u16(), began.elapsed());
    meter.responded(name, known(&method), status, took.as_secs_f64());
    if is_written(Level::Debug) {
        let id = response.headers().get("x-request-id");
        let fields = [
            ("client", json!(client)),
            ("method", json!(method.as_str())),
            ("path", json!(path)),
            ("status", json!(status)),
            ("microseconds", json!(took.as_micros() as u64)),
            ("id", json!(id.and_then(|id| id.to_str().ok()))),
        ];
        log(Level::Debug, "http", &fields);
    }
    response
}

/// How long a header is, as it was sent, but for its blanks.
fn length(request: &Request<Body>) -> usize {
    let target = request.uri().path().len() + request.uri().query().map_or(0, str::len);
    let headers = request.headers().iter();
    let headers = headers.map(|(name, value)| name.as_str().len() + value.len() + 4);
    target + headers.sum::<usize>()
}

/// The method for the figures: nobody makes figures without end.
fn known(method: &Method) -> &'static str {
    match *method {
        Method::GET => "GET",
        Method::HEAD => "HEAD",
        Method::POST => "POST",
        Method::OPTIONS => "OPTIONS",
        _ => "other",
    }
}

fn is_allowed(route: Route, method: &Method) -> bool {
    let expected = route.method();
    *method == expected || (expected == Method::GET && *method == Method::HEAD)
}

fn options(route: Route) -> Reply {
    let mut reply = Reply::of("", Body::empty());
    reply.status = StatusCode::NO_CONTENT;
    reply.headers = vec![("allow", route.allowed())];
    reply
}

fn response(reply: Reply) -> Response<Body> {
    let mut response = Response::new(reply.body);
    *response.status_mut() = reply.status;
    let kind = Some(("content-type", reply.kind)).filter(|(_, kind)| !kind.is_empty());
    for (name, value) in reply.headers.into_iter().chain(kind) {
        let value = HeaderValue::from_static(value);
        response
            .headers_mut()
            .insert(HeaderName::from_static(name), value);
    }
    response
}

async fn called(
    request: Request<Body>,
    route: Route,
    words: Vec<String>,
    peer: Peer,
    client: i64,
    hall: Arc<Hall>,
) -> Result<Reply, Problem> {
    let (head, body) = request.into_parts();
    // What tells nothing about anybody is answered without an account.
    match route {
        Page => return Ok(page::page()),
        Health => return health::health(&hall).await,
        Ready => return health::ready(&hall).await,
        Metrics => return Ok(health::metrics(&hall)),
        Contract => return Ok(Reply::of("application/json", CONTRACT)),
        Discovery => return Ok(authzen::discovery(&base(&head.headers, &hall), None)),
        DiscoveryOfDesk => {
            let door = desk(&hall, words.first().map_or("", String::as_str))?;
            let base = base(&head.headers, &hall);
            return Ok(authzen::discovery(&base, Some(&door.name)));
        }
        _ => {}
    }
    is_meant(&head.method, &head.headers, &hall.sayer)?;
    let who = who(&head.headers, &peer, &hall)?;
    let place = match hall.sayer {
        Sayer::Header(_) => {
            let whose = Whose::Account(who.account.clone());
            Some(hall.accounts.take(whose).map_err(Problem::too_many)?)
        }
        _ => None,
    };
    if route == Desks {
        who.may_question().map_err(Problem::barred)?;
        let names: Vec<&str> = hall.house.desks.keys().map(|name| shown(name)).collect();
        return Ok(Reply::json(
            json!({ "desks": names, "account": &*who.account }),
        ));
    }
    let of_desk = head.uri.path().starts_with("/v1/desks/");
    let mut words = words.into_iter();
    let door = match of_desk {
        true => desk(&hall, &words.next().unwrap_or_default())?,
        false => only_desk(&hall)?,
    };
    let call = Asked {
        who: Arc::new(who),
        door,
        client,
        headers: head.headers,
        query: head.uri.query().map(String::from),
        words: words.collect(),
        hall,
        place,
    };
    look::known(&call).await?;
    match route {
        Requests => requests::answered(&call, body).await,
        Board => look::board(&call).await,
        Events => events::events(call).await,
        FinishAll => look::finish_all(&call).await,
        Finish => look::finish(&call).await,
        Who => look::who(&call).await,
        Holds => listed::holds(call).await,
        Evaluation => authzen::evaluation(&call, body).await,
        Evaluations => authzen::evaluations(&call, body).await,
        SearchSubject => authzen::search_subject(&call, body).await,
        SearchResource => authzen::search_resource(&call, body).await,
        SearchAction => authzen::search_action(&call, body).await,
        _ => listed::journal(call).await,
    }
}

/// The contract of all calls.
const CONTRACT: &str = include_str!("openapi.json");

/// How whoever asks calls this server: behind a proxy, by the proxy's word.
fn base(headers: &HeaderMap, hall: &Hall) -> String {
    let text = |name: &str| headers.get(name).and_then(|value| value.to_str().ok());
    let proxied = |name: &str| text(name).filter(|_| matches!(hall.sayer, Sayer::Header(_)));
    let own = if hall.encrypts { "https" } else { "http" };
    let scheme = proxied("x-forwarded-proto").unwrap_or(own);
    let host = proxied("x-forwarded-host")
        .or(text("host"))
        .unwrap_or("localhost");
    format!("{scheme}://{host}")
}

/// The desk of a call that names none.
fn only_desk(hall: &Hall) -> Result<Arc<Door>, Problem> {
    let mut desks = hall.house.desks.values();
    match (desks.next(), desks.next()) {
        (Some(only), None) => Ok(only.clone()),
        _ => Err(Problem::not_found(
            "there are several desks here: ask one of them, at /v1/desks/NAME/access/v1/..",
        )),
    }
}

/// The name of the only desk, where it was given none.
pub const ONLY: &str = "desk";

pub fn shown(name: &str) -> &str {
    match name {
        "" => ONLY,
        name => name,
    }
}

/// The desk of this name.
pub fn desk(hall: &Hall, name: &str) -> Result<Arc<Door>, Problem> {
    let desks = &hall.house.desks;
    let found = desks.iter().find(|(own, _)| shown(own) == name);
    let door = found.map(|(_, door)| door.clone());
    door.ok_or_else(|| {
        let names: Vec<&str> = desks.keys().map(|name| shown(name)).collect();
        Problem::not_found(format!(
            "there is no desk {name:?}; there is: {}",
            names.join(", ")
        ))
    })
}

#[cfg(test)]
mod tests {
    use super::*;

    /// The contract has every path, with its method, and no other.
    #[test]
    fn the_contract_has_these_paths() {
        let contract: Value = serde_json::from_str(CONTRACT).unwrap();
        let told: std::collections::BTreeSet<(String, String)> = contract["paths"]
            .as_object()
            .unwrap()
            .iter()
            .flat_map(|(path, methods)| {
                let methods = methods.as_object().unwrap().keys();
                methods.map(|method| (path.clone(), method.to_uppercase()))
            })
            .collect();
        let there = PATHS.map(|(route, path)| (path.to_string(), route.method().to_string()));
        assert_eq!(told, there.into_iter().collect());
        assert_eq!(contract["info"]["version"], env!("CARGO_PKG_VERSION"));
    }

    #[test]
    fn paths_have_their_routes() {
        let words = |path: &str| route(path).map(|(route, _, words)| (route, words));
        assert_eq!(words("/healthz"), Some((Health, vec![])));
        let who = (
            Route::Who,
            vec!["desk".to_string(), "mill 7".to_string(), "sign".to_string()],
        );
        assert_eq!(
            words("/v1/desks/desk/orders/mill%207/tasks/sign/who"),
            Some(who)
        );
        for none in [
            "",
            "/v1/desks/",
            "/v1/desks//board",
            "/v1/desks/desk/board/",
            "/v1/desks/%ff/board",
            "//healthz",
        ] {
            assert_eq!(words(none), None, "{none}");
        }
        for (to, path) in PATHS {
            let found =
                route(&path.replace(['{', '}'], "")).map(|(route, pattern, _)| (route, pattern));
            assert_eq!(found, Some((to, path)));
        }
    }
}
