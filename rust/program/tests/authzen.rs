//! OpenID AuthZEN over a served desk: a decision is true exactly when the request, sent, is granted; asking changes nothing.

mod common;

use common::web::{at, At};
use common::{mishantral, room, Server, POLICY};
use rusqlite::Connection;
use serde_json::{json, Value};
use std::fs;
use std::path::Path;

const ACCESS: &str =
    "account router speaks for everyone\naccount anna is user anna\naccount revision reads\naccount mueller administers\n";

fn served(room: &Path, policy: &str) -> (Server, At) {
    let (access, journal) = (room.join("access"), room.join("desk.db"));
    fs::write(&access, ACCESS).unwrap();
    let mut all = vec!["serve", policy, "--journal", journal.to_str().unwrap()];
    all.extend(["--access", access.to_str().unwrap(), "--saved", "normal"]);
    all.extend(["--http", "127.0.0.1:0", "--account-header", "X-Account"]);
    let server = Server::started(&mut mishantral(&all), journal);
    let at = at(&server);
    (server, at)
}

fn asked(subject: (&str, &str), action: &str, resource: (&str, &str)) -> Value {
    json!({
        "subject": {"type": subject.0, "id": subject.1}, "action": {"name": action},
        "resource": {"type": resource.0, "id": resource.1},
    })
}

const EVALUATION: &str = "/access/v1/evaluation";
const EVALUATIONS: &str = "/access/v1/evaluations";

#[test]
fn decisions_say_what_the_engine_would() {
    let room = room("authzen");
    let (server, at) = served(&room, POLICY);
    at.lines("router", "create subject 1 am for user anna with roles fitter\ncreate subject 2 for user bert with roles tester\ncreate subject 3 for user bert with roles fitter\nopen order 7 mill of template breakdown\nclaim am mill repair\ndone am mill repair\n");
    let decide = |body: &Value| {
        let answer = at.post("router", EVALUATION, body);
        assert_eq!(answer.status, 200, "{}", answer.text());
        answer.json()
    };
    let claim = |who: &str, id: &str| decide(&asked(("user", who), "claim", ("task", id)));
    // Of bert's two sessions one may test.
    let bert = claim("bert", "mill/test");
    assert_eq!(
        (&bert["decision"], &bert["context"]["subject"]),
        (&json!(true), &json!(2))
    );
    assert_eq!(claim("301", "7/1")["decision"], true);
    let anna = claim("anna", "mill/test");
    assert_eq!(
        (&anna["decision"], &anna["context"]["name"]),
        (&json!(false), &json!("NO ROLE"))
    );
    assert!(anna["context"]["reason_user"]["en"]
        .as_str()
        .unwrap()
        .contains("test is open to: tester"));
    let session = decide(&asked(("subject", "3"), "claim", ("task", "mill/test")));
    assert_eq!(session["context"]["name"], "NO ROLE");
    let rule = decide(&asked(("user", "bert"), "claim", ("task", "mill/sign")));
    assert_eq!(rule["decision"], false);
    // Objects: an operation by its name, by `check`, and within a task.
    let read = decide(&asked(("user", "bert"), "read", ("object", "log")));
    assert_eq!(read["decision"], true);
    let mut check = asked(("user", "anna"), "check", ("object", "log"));
    check["action"]["properties"] = json!({"operation": "read"});
    assert_eq!(decide(&check)["context"]["name"], "DENIED");
    let mut within = asked(("user", "bert"), "close", ("object", "order_book"));
    within["resource"]["properties"] = json!({"task": "mill/test"});
    assert_eq!(decide(&within)["decision"], false);
    // What is not known is denied.
    for body in [
        asked(("user", "nobody"), "claim", ("task", "mill/test")),
        asked(("user", "clara"), "claim", ("task", "mill/test")),
        asked(("user", "anna"), "claim", ("task", "mill")),
        asked(("user", "anna"), "claim", ("task", "nix/test")),
        asked(("user", "anna"), "paint", ("task", "mill/test")),
        asked(("user", "anna"), "paint", ("object", "log")),
        asked(("user", "anna"), "read", ("car", "log")),
        asked(("robot", "anna"), "claim", ("task", "mill/test")),
        asked(("subject", "99"), "claim", ("task", "mill/test")),
    ] {
        let answer = decide(&body);
        assert_eq!(
            (&answer["decision"], &answer["context"]["reply"]),
            (&json!(false), &json!(4)),
            "{body}: {answer}"
        );
    }
    // What cannot be asked.
    for (body, pointer) in [
        (json!({}), json!("")),
        (
            json!({"subject": {}, "action": {"name": "x"}, "resource": {}}),
            json!("/subject"),
        ),
        (
            json!({"subject": "anna", "action": {"name": "x"}, "resource": {"type": "a", "id": "b"}}),
            json!("/subject"),
        ),
        (
            json!({"subject": {"type": "user", "id": 300}, "action": {"name": "x"}, "resource": {"type": "a", "id": "b"}}),
            json!("/subject/id"),
        ),
        (json!([]), json!("")),
    ] {
        let answer = at.post("router", EVALUATION, &body);
        assert_eq!(
            (answer.status, &answer.json()["pointer"]),
            (400, &pointer),
            "{body}: {}",
            answer.text()
        );
    }
    // A clerk asks about itself; who reads asks about all; who administers about nobody.
    let of = |account: &str, who: &str| {
        at.post(
            account,
            EVALUATION,
            &asked(("user", who), "claim", ("task", "mill/test")),
        )
        .status
    };
    assert_eq!(
        [
            of("anna", "anna"),
            of("anna", "bert"),
            of("revision", "bert"),
            of("mueller", "anna")
        ],
        [200, 403, 200, 403]
    );
    let before = at
        .get("revision", "/v1/desks/desk/journal")
        .text()
        .lines()
        .count();
    assert_eq!(before, 6, "asking leaves nothing in the journal");
    drop(server);
    let sql = Connection::open(room.join("desk.db")).unwrap();
    let barred: i64 = sql
        .query_row("SELECT count(*) FROM barred", [], |r| r.get(0))
        .unwrap();
    assert_eq!(barred, 2, "but what an account may not ask");
}

#[test]
fn many_at_once_and_searches() {
    let room = room("searches");
    let (_server, at) = served(&room, POLICY);
    at.lines("router", "create subject 1 for user anna with roles fitter\ncreate subject 2 for user bert with roles tester\nopen order 7 mill of template breakdown\nopen order 8 \"the 2nd/yard\" of template breakdown\nclaim 1 mill repair\n");
    let task = |id: &str| json!({"resource": {"type": "task", "id": id}});
    let all = |semantic: Value| {
        let body = json!({
            "subject": {"type": "user", "id": "anna"}, "action": {"name": "claim"},
            "evaluations": [task("8/repair"), task("mill/repair"), {"action": {"name": "done"}, "resource": {"type": "task", "id": "mill/repair"}},
                {"subject": {"type": "user", "id": "bert"}, "resource": 5}, task("8/repair")],
            "options": semantic,
        });
        let answer = at.post("router", EVALUATIONS, &body);
        assert_eq!(answer.status, 200, "{}", answer.text());
        let all = answer.json()["evaluations"].as_array().unwrap().clone();
        all.iter()
            .map(|one| one["decision"].as_bool().unwrap())
            .collect::<Vec<bool>>()
    };
    assert_eq!(all(json!({})), [true, false, true, false, true]);
    assert_eq!(all(json!({"evaluations_semantic": "execute_all"})).len(), 5);
    assert_eq!(
        all(json!({"evaluations_semantic": "deny_on_first_deny"})),
        [true, false]
    );
    assert_eq!(
        all(json!({"evaluations_semantic": "permit_on_first_permit"})),
        [true]
    );
    let wrong = at.post(
        "router",
        EVALUATIONS,
        &json!({"evaluations": [task("a/b")], "options": {"evaluations_semantic": "maybe"}}),
    );
    assert_eq!(
        (wrong.status, &wrong.json()["pointer"]),
        (400, &json!("/options/evaluations_semantic"))
    );
    // Without a list it is one evaluation; one that cannot be asked says so in its context.
    let one = at
        .post(
            "router",
            EVALUATIONS,
            &asked(("user", "anna"), "claim", ("task", "8/repair")),
        )
        .json();
    assert_eq!(one["decision"], true);
    let errors = at.post("anna", EVALUATIONS, &json!({
        "subject": {"type": "user", "id": "bert"}, "action": {"name": "claim"}, "evaluations": [task("8/repair"), {}],
    })).json();
    assert_eq!(errors["evaluations"][0]["context"]["error"]["status"], 403);
    assert_eq!(errors["evaluations"][1]["context"]["error"]["status"], 400);
    let search = |what: &str, body: &Value| {
        let answer = at.post("router", &format!("/access/v1/search/{what}"), body);
        assert_eq!(answer.status, 200, "{}", answer.text());
        assert_eq!(answer.json()["page"]["next_token"], "");
        answer.json()["results"].clone()
    };
    let mut body = asked(("user", "x"), "claim", ("task", "the 2nd/yard/repair"));
    assert_eq!(
        search("subject", &body),
        json!([{"type": "user", "id": "anna"}])
    );
    body["subject"] = json!({"type": "subject"});
    assert_eq!(
        search("subject", &body),
        json!([{"type": "subject", "id": "1"}])
    );
    let anna = asked(("user", "anna"), "claim", ("task", ""));
    assert_eq!(
        search("resource", &anna),
        json!([{"type": "task", "id": "the 2nd/yard/repair"}])
    );
    let bert = asked(("user", "bert"), "read", ("object", ""));
    assert_eq!(
        search("resource", &bert),
        json!([{"type": "object", "id": "log"}])
    );
    let with = asked(("user", "anna"), "", ("task", "mill/repair"));
    assert_eq!(
        search("action", &with),
        json!([{"name": "release"}, {"name": "done"}])
    );
    let with = asked(("user", "bert"), "", ("object", "log"));
    assert_eq!(search("action", &with), json!([{"name": "read"}]));
    assert_eq!(
        at.post(
            "anna",
            "/access/v1/search/resource",
            &asked(("user", "bert"), "claim", ("task", ""))
        )
        .status,
        403
    );
    assert_eq!(
        at.post(
            "router",
            "/access/v1/search/resource",
            &asked(("user", "bert"), "claim", ("car", ""))
        )
        .status,
        400
    );
    // Where the calls are.
    let found = at.get("", "/.well-known/authzen-configuration").json();
    let base = found["policy_decision_point"].as_str().unwrap();
    assert_eq!(
        found["access_evaluation_endpoint"],
        json!(format!("{base}/access/v1/evaluation"))
    );
    let found = at
        .get("", "/.well-known/authzen-configuration/v1/desks/desk")
        .json();
    assert_eq!(
        found["search_action_endpoint"],
        json!(format!("{base}/v1/desks/desk/access/v1/search/action"))
    );
    let under = at.post(
        "router",
        "/v1/desks/desk/access/v1/evaluation",
        &asked(("user", "anna"), "claim", ("task", "8/repair")),
    );
    assert_eq!(under.json()["decision"], true);
}

/// Numbers that look random, the same each time.
struct Chance(u64);

impl Chance {
    fn below(&mut self, end: u64) -> u64 {
        self.0 = self
            .0
            .wrapping_mul(6364136223846793005)
            .wrapping_add(1442695040888963407);
        (self.0 >> 33) % end
    }
}

/// A policy of a few clerks, roles and tasks, with rules of every kind that refuses claims.
fn policy(chance: &mut Chance) -> String {
    let (users, roles, tasks) = (
        3 + chance.below(4),
        2 + chance.below(3),
        3 + chance.below(3),
    );
    let mut text = String::new();
    (0..roles).for_each(|role| text += &format!("role {role}\n"));
    for user in 0..users {
        text += &format!("user {}\n", 300 + user);
        for role in 0..roles {
            if chance.below(2) == 0 {
                text += &format!("user {} has role {role}\n", 300 + user);
            }
        }
    }
    text += "permission 0 is operation 1 on object 2\n";
    text += &format!("role {} has permission 0\n", chance.below(roles));
    for task in 0..tasks {
        text += &format!("task {task} of template 0\n");
        for role in 0..roles {
            if chance.below(2) == 0 {
                text += &format!("task {task} open to role {role}\n");
            }
        }
    }
    text += &format!("task {} carries permission 0\n", chance.below(tasks));
    text += "task set 1 of 0 1\ntask 0 before task 2\ntask 1 bound to task 2\n";
    text += "block of partitioning 0 : 0\nblock of partitioning 0 : 1\n";
    text += &format!("task {} at most 2 times\n", chance.below(tasks));
    text += "dynamic set 1 of 0 1\n";
    text
}

/// Requests that lead somewhere: sessions, orders, work.
fn step(chance: &mut Chance) -> String {
    let (user, subject) = (300 + chance.below(6), chance.below(8));
    let (order, task) = (chance.below(4), chance.below(5));
    match chance.below(12) {
        0 | 1 => format!(
            "create subject {subject} for user {user} with roles {}",
            chance.below(4)
        ),
        2 => format!("destroy subject {subject}"),
        3 => format!("activate role {} in subject {subject}", chance.below(4)),
        4 | 5 => format!("open order {order} of template 0"),
        6 => format!("end order {order}"),
        7..=9 => format!("claim {subject} {order} {task}"),
        10 => format!("done {subject} {order} {task}"),
        _ => format!("release {subject} {order} {task}"),
    }
}

/// What is decided for a session is what the same request, sent at once, is answered; and for a user, what one of its sessions is.
#[test]
fn a_decision_is_true_exactly_when_the_request_is_granted() {
    let rounds: u64 =
        std::env::var("MISHANTRAL_ROUNDS").map_or(4, |rounds| rounds.parse().unwrap());
    let (mut granted, mut refused) = (0, 0);
    for round in 0..rounds {
        let mut chance = Chance(round + 1);
        let room = room(&format!("az{round}"));
        let file = room.join("policy.txt");
        let mut made = policy(&mut chance);
        // A policy that is refused says nothing of decisions: another one is made.
        loop {
            fs::write(&file, &made).unwrap();
            if common::run(&["check", file.to_str().unwrap()]).2 == 0 {
                break;
            }
            made = policy(&mut chance);
        }
        let (_server, at) = served(&room, file.to_str().unwrap());
        for _ in 0..60 {
            let steps: String = (0..5).map(|_| step(&mut chance) + "\n").collect();
            at.lines("router", &steps);
            let board = at.get("router", "/v1/desks/desk/board").json();
            let sessions = board["subjects"].as_array().unwrap().clone();
            let (order, task) = (chance.below(4), chance.below(5));
            let user = 300 + chance.below(6);
            let (action, resource, line) = match chance.below(5) {
                0 | 1 => (
                    "claim",
                    ("task", format!("{order}/{task}")),
                    format!("{order} {task}"),
                ),
                2 => (
                    "release",
                    ("task", format!("{order}/{task}")),
                    format!("{order} {task}"),
                ),
                3 => (
                    "done",
                    ("task", format!("{order}/{task}")),
                    format!("{order} {task}"),
                ),
                _ => (
                    "1",
                    ("object", "2".to_string()),
                    "operation 1 object 2".to_string(),
                ),
            };
            let verb = if action == "1" { "check" } else { action };
            let body = asked(
                ("user", &user.to_string()),
                action,
                (resource.0, &resource.1),
            );
            let decided = at.post("router", EVALUATION, &body).json();
            let own: Vec<u64> = sessions
                .iter()
                .filter(|s| s["user"] == user)
                .map(|s| s["number"].as_u64().unwrap())
                .collect();
            // Each session's own decision, against the request itself.
            let mut any = false;
            for session in &own {
                let body = asked(
                    ("subject", &session.to_string()),
                    action,
                    (resource.0, &resource.1),
                );
                let one = at.post("router", EVALUATION, &body).json();
                any |= one["decision"] == true;
            }
            assert_eq!(decided["decision"], json!(any), "{made}\n{body}: {decided}");
            let tried = if any {
                vec![decided["context"]["subject"].as_u64().unwrap()]
            } else {
                own
            };
            for session in tried {
                let reply = &at.lines("router", &format!("{verb} {session} {line}"))[0];
                assert_eq!(
                    reply["reply"] == 0,
                    any,
                    "{made}\n{body}: {decided}, and {reply}"
                );
                match any {
                    true => granted += 1,
                    false => refused += 1,
                }
                if !any {
                    let body = asked(
                        ("subject", &session.to_string()),
                        action,
                        (resource.0, &resource.1),
                    );
                    let one = at.post("router", EVALUATION, &body).json();
                    assert_eq!(
                        (&one["context"]["reply"], &one["context"]["rule"]),
                        (&reply["reply"], &reply["rule"]),
                        "{body}"
                    );
                }
            }
        }
    }
    assert!(
        granted > 10 && refused > 10,
        "{granted} granted, {refused} refused"
    );
}
