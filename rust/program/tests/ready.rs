//! `/readyz` and `/healthz` of two servers with one desk in a database: one has it, and the other one waits for it. Where there is no
//! PostgreSQL server (tools/postgresql), nothing of this is tried, and that is said.

mod common;

use common::web::{at, At};
use common::{database, room, waited, Place, POLICY};
use serde_json::{json, Value};

#[test]
fn a_standby_is_told_from_the_server_that_has_the_desk() {
    let Some(journal) = database() else {
        eprintln!("not tried, since there is no PostgreSQL");
        return;
    };
    let desk = format!("ready-{}", std::process::id());
    let place = Place {
        journal,
        desk: Some(desk.clone()),
        room: room("ready"),
    };
    let http = |name: &str| format!("unix:{}", place.room.join(name).display());
    let (one, other) = (http("a.http"), http("b.http"));
    let mut first = place.start_at("a.sock", &[POLICY, "--takeover", "1", "--http", &one]);
    let second = place.start_at(
        "b.sock",
        &["--standby", "--takeover", "1", "--http", &other],
    );
    let (a, b) = (at(&first), at(&second));
    let state = |at: &At, path: &str| -> (u16, Value, Value) {
        let answer = at.get("", path);
        let told = answer.json();
        let of_desk = told["desks"][&desk]["state"].clone();
        (answer.status, told["status"].clone(), of_desk)
    };
    let is = |status: u16, all: &str, desk: &str| (status, json!(all), json!(desk));
    assert_eq!(state(&a, "/readyz"), is(200, "ready", "serving"));
    assert_eq!(state(&a, "/healthz"), is(200, "ok", "serving"));
    // The standby is well, and takes no requests: whoever asks it is told where the desk is.
    assert_eq!(state(&b, "/readyz"), is(503, "standby", "standby"));
    assert_eq!(state(&b, "/healthz"), is(200, "ok", "standby"));
    let told = b.get("", "/readyz").json();
    let elsewhere = told["desks"][&desk]["elsewhere"].as_str().unwrap();
    assert!(elsewhere.contains("a.sock"), "{elsewhere}");
    let path = format!("/v1/desks/{desk}/requests");
    let open = json!({"request": "open order mill of template breakdown"});
    let refused = b.post("", &path, &open);
    assert_eq!(refused.status, 503, "{}", refused.text());
    assert_eq!(a.post("", &path, &open).json()["name"], "GRANTED");
    first.child.kill().unwrap();
    waited("the standby has the desk", || {
        state(&b, "/readyz") == is(200, "ready", "serving")
    });
    let end = json!({"request": "end order mill"});
    assert_eq!(b.post("", &path, &end).json()["number"], 2);
}
