//! What is read of a journal is the same wherever it is kept: every command that reads one, and the views for those who prefer SQL, over the same
//! requests in a file and in PostgreSQL.

mod common;

use common::{root, run, stores, Place, POLICY};
use serde_json::Value;
use std::fs;
use std::path::Path;
use std::process::Command;

/// The orders of some days, the roster and both policies, as `examples/year` has them.
fn year(room: &Path) {
    let made = Command::new("sh")
        .arg(root().join("examples/year/make"))
        .args(["--days", "6", "--seed", "5"])
        .arg(room)
        .env("MISHANTRAL", env!("CARGO_BIN_EXE_mishantral"))
        .output()
        .unwrap();
    let told = String::from_utf8_lossy(&made.stderr);
    assert!(made.status.success(), "{told}");
}

/// The same days played into each store; without PostgreSQL, into a file alone.
fn played(name: &str) -> Vec<Place> {
    let places = stores(name);
    let days = places[0].room.clone();
    year(&days);
    let file = |name: &str| days.join(name).to_str().unwrap().to_string();
    for place in &places {
        let (policy, orders, roster) = (
            file("then-policy.txt"),
            file("orders.csv"),
            file("then-roster.txt"),
        );
        let play = ["staff", &policy, "--simulate", &orders, "--roster", &roster];
        let how = ["--minutes", "test=14,sign=18", "--seed", "5"];
        let (said, why, status) = run(&[&play[..], &how, &place.options()].concat());
        assert_eq!(status, 0, "{said}{why}");
        assert!(said.contains(" still open; "), "{said}");
    }
    places
}

/// What a command prints, with the journal's name taken out.
fn told(place: &Place, command: &[&str]) -> String {
    let (name, more) = command.split_first().unwrap();
    let (said, why, status) = match *name {
        "journal" => place.journal(more),
        name => place.run(name, more),
    };
    assert!(
        why.is_empty() && matches!(status, 0 | 1),
        "{command:?}: {why}"
    );
    assert!(!said.is_empty(), "{command:?}");
    format!("exit {status}\n{}", said.replace(&place.word(), "JOURNAL"))
}

/// Every command prints the same of each store.
fn same(places: &[Place], commands: &[&[&str]]) {
    for command in commands {
        let all: Vec<String> = places.iter().map(|place| told(place, command)).collect();
        let first = &all[0];
        assert!(all.iter().all(|one| one == first), "{command:?}: {all:?}");
    }
}

#[test]
fn every_command_reads_the_same_of_both_stores() {
    let places = played("same");
    // A new rule and another clerk: the days under them, and the desk moved there.
    let policy = places[0].room.join("other.txt");
    let text = fs::read_to_string(places[0].room.join("then-policy.txt")).unwrap();
    fs::write(&policy, text + "user 77 new\n").unwrap();
    let (policy, holds) = (policy.to_str().unwrap(), ["--from", "test", "--to", "sign"]);
    let with = |more: &[&'static str]| [&["holds"], &holds[..], more].concat();
    same(
        &places,
        &[
            &["journal", "--json"],
            &["journal", "--reply", "refused"],
            &["journal", "--check"],
            &with(&["--json", "--by", "week"]),
            &with(&["--csv", "--by", "opening"]),
            &with(&["--by", "clerk"]),
            &["whatif", "--policy", policy, "--json"],
            &["whatif", "--policy", policy, "--present"],
            &["move", "--policy", policy, "--dry-run"],
            &["write"],
        ],
    );
}

/// The columns of a view, each row of it.
fn rows(place: &Place, view: &str, columns: &str, order: &str) -> Vec<Vec<Value>> {
    let all: Vec<Vec<Value>> = columns
        .split(' ')
        .map(|column| {
            // PostgreSQL keeps this word to itself.
            let column = if column == "user" { "\"user\"" } else { column };
            place.rows(&format!("SELECT {column} FROM {view} ORDER BY {order}"))
        })
        .collect();
    let row = |at: usize| all.iter().map(|column| column[at].clone()).collect();
    (0..all[0].len()).map(row).collect()
}

#[test]
fn views_say_the_same_in_both_stores() {
    let places = played("views");
    let views = [
        (
            "hold",
            "opening order_name from_task to_task from_name to_name begun claimed begun_at claimed_at hold_us user user_name",
            "opening, from_task, to_task",
        ),
        (
            "opening",
            "opening ordr name template template_name opened ended opened_at ended_at",
            "opening",
        ),
        (
            "answered",
            "number time client account kind user user_name subject ordr order_name task task_name opening reply rule rule_words",
            "number",
        ),
    ];
    for (view, columns, order) in views {
        let all: Vec<_> = places
            .iter()
            .map(|place| rows(place, view, columns, order))
            .collect();
        assert!(all[0].len() > 100, "{view}: {} rows", all[0].len());
        for one in &all[1..] {
            let first = all[0].iter().zip(one).find(|(a, b)| a != b);
            assert_eq!((one.len(), first), (all[0].len(), None), "{view}");
        }
    }
    // And the view counts as the command does.
    for place in &places {
        let between = "FROM hold WHERE from_name = 'test' AND to_name = 'sign'";
        let by = ["--from", "test", "--to", "sign", "--json"];
        let (said, why, _) = place.run("holds", &by);
        let report: Value = serde_json::from_str(&said).unwrap_or_else(|_| panic!("{said}{why}"));
        assert_eq!(
            place.number(&format!("SELECT count(*) {between}")),
            report["all"]["holds"]
        );
        let worst = place.number(&format!("SELECT max(hold_us) {between}"));
        assert_eq!(worst, report["all"]["worst_us"]);
    }
}

#[test]
fn questions_about_open_orders_are_answered_from_both_stores() {
    let places = stores("open");
    for place in &places {
        let server = place.start(&[POLICY]);
        let said = server.lines(
            "create subject 1 am for user anna with roles fitter\ncreate subject 2 cm for user clara with roles tester\n\
             open order 7 Mühle of template breakdown\nclaim am 7 repair\ndone am 7 repair\n",
        );
        assert!(
            said.iter().all(|line| line.ends_with("GRANTED")),
            "{said:?}"
        );
        drop(server);
    }
    same(
        &places,
        &[
            &["who", "7", "test"],
            &["who", "Mühle", "test", "--json"],
            &["finish", "--all"],
            &["finish", "7", "--with", "anna,clara,dirk"],
            &["staff"],
            &["write"],
        ],
    );
    // A name outside ASCII is the same text in SQL.
    for place in &places {
        assert_eq!(place.rows("SELECT name FROM opening"), ["Mühle"]);
    }
}
