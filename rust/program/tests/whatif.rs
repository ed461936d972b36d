//! `whatif`: a desk is served, asked and killed; then its journal is asked anew under other policies.

use serde_json::Value;
use std::fs;
use std::io::{BufRead, BufReader};
use std::path::{Path, PathBuf};
use std::process::{Command, Stdio};

fn run(arguments: &[&str]) -> (String, String, i32) {
    let output = Command::new(env!("CARGO_BIN_EXE_mishantral"))
        .args(arguments)
        .stdin(Stdio::null())
        .output()
        .unwrap();
    let text = |bytes| String::from_utf8(bytes).unwrap();
    let status = output.status.code().unwrap_or(-1);
    (text(output.stdout), text(output.stderr), status)
}

/// A folder of its own, with a short name: that of a socket has 107 bytes at most.
fn room(name: &str) -> PathBuf {
    let room = std::env::temp_dir().join(format!("mishantral-{name}-{}", std::process::id()));
    let _ = fs::remove_dir_all(&room);
    fs::create_dir_all(&room).unwrap();
    room
}

fn file(room: &Path, name: &str, text: &str) -> String {
    let path = room.join(name);
    fs::write(&path, text).unwrap();
    path.to_str().unwrap().to_string()
}

/// The journal of a desk that was served and asked these lines.
fn journal(room: &Path, policy: &str, lines: &[&str]) -> String {
    journal_of(room, policy, &[lines])
}

/// The same in parts, with more than two seconds between them.
fn journal_of(room: &Path, policy: &str, parts: &[&[&str]]) -> String {
    let policy = file(room, "old.txt", policy);
    let path = |name: &str| room.join(name).to_str().unwrap().to_string();
    let (journal, socket) = (path("desk.db"), path("desk.sock"));
    let mut server = Command::new(env!("CARGO_BIN_EXE_mishantral"))
        .args(["serve", &policy, "--journal", &journal, "--socket", &socket])
        .stdout(Stdio::piped())
        .spawn()
        .unwrap();
    let mut told = BufReader::new(server.stdout.take().unwrap()).lines();
    assert!(told.any(|line| line.unwrap().starts_with("serving on ")));
    for (before, lines) in parts.iter().enumerate() {
        if before > 0 {
            std::thread::sleep(std::time::Duration::from_millis(2_100));
        }
        let (_, wrong, status) = run(&[&["ask", "--socket", &socket], *lines].concat());
        assert_eq!((&wrong[..], status), ("", 0));
    }
    server.kill().unwrap();
    server.wait().unwrap();
    journal
}

const POLICY: &str = "user 1 anna\nuser 2 bert\nrole 0 clerk\nuser anna has role clerk\nuser bert has role clerk
task 0 test of template 0 repair\ntask 1 sign of template repair\ntask test open to role clerk\ntask sign open to role clerk\n";

const LINES: [&str; 9] = [
    "create subject 1 for user anna with roles clerk",
    "create subject 2 for user bert with roles clerk",
    "open order 7 mill of template repair",
    "claim 1 mill test",
    "done 1 mill test",
    "claim 1 mill sign",
    "done 1 mill sign",
    "end order mill",
    "entries of order 7",
];

#[test]
fn a_rule_that_comes_is_told_with_what_follows_from_it() {
    let room = room("whatif");
    let journal = journal(&room, POLICY, &LINES);
    let kept = fs::read(&journal).unwrap();
    let new = file(
        &room,
        "new.txt",
        &format!("{POLICY}task set 1 of test sign\n"),
    );
    let (told, wrong, status) = run(&["whatif", "--journal", &journal, "--policy", &new]);
    assert_eq!((&wrong[..], status), ("", 0));
    let lines: Vec<&str> = told.lines().collect();
    assert_eq!(
        lines[0],
        format!("9 requests under {new}: 2 would be answered otherwise, 1 by itself and 1 that follows from it")
    );
    assert!(
        told.contains("\nclaim: 0 GRANTED, would be 15 SEPARATION, rule 1: once\n"),
        "{told}"
    );
    let rule = format!("  would be refused by task set 1 of test sign ({new}, line 10)\n");
    assert!(told.contains(&rule), "{told}");
    assert!(told.contains(", anna: claim 1 mill sign\n"), "{told}");
    assert!(told.contains("\n  clerks: anna\n"), "{told}");
    assert!(
        told.contains("done: 0 GRANTED, would be 12 NOT YOURS: once, all following from others\n"),
        "{told}"
    );
    assert!(!told.contains("would not have been opened"), "{told}");
    assert_eq!(fs::read(&journal).unwrap(), kept);
    fs::remove_dir_all(room).unwrap();
}

#[test]
fn a_desk_as_it_is_now_fits_or_what_stands_in_the_way_is_told() {
    let room = room("whatif-now");
    let journal = journal(&room, POLICY, &LINES[..6]);
    let old = room.join("old.txt").to_str().unwrap().to_string();
    let present = ["whatif", "--present", "--journal", &journal, "--policy"];
    let (told, _, status) = run(&[&present[..], &[&old]].concat());
    let whole =
        format!("{journal} as it is now, under {old}: 8 requests would bring all of it over\n");
    assert_eq!((told, status), (whole, 0));
    let new = file(
        &room,
        "new.txt",
        &format!("{POLICY}task set 1 of test sign\n"),
    );
    let (told, _, status) = run(&[&present[..], &[&new]].concat());
    let hinder = format!("  not brought over: mill: the entry of anna for sign would break task set 1 of test sign ({new}, line 10)\n");
    assert!(told.ends_with(&hinder), "{told}");
    assert_eq!(status, 1);
    fs::remove_dir_all(room).unwrap();
}

#[test]
fn requests_are_compared_from_a_time_on() {
    let room = room("whatif-since");
    let journal = journal_of(&room, POLICY, &[&LINES[..5], &LINES[5..]]);
    let new = file(
        &room,
        "new.txt",
        &format!("{POLICY}task set 1 of test sign\n"),
    );
    // From the second of the sixth request on: the desk is brought over with the first task done.
    let (listed, _, _) = run(&["journal", "--json", &journal]);
    let sixth: Value = serde_json::from_str(listed.lines().nth(5).unwrap()).unwrap();
    let time = &sixth["time"].as_str().unwrap()[.."2026-11-16 10:18:48".len()];
    let since = [
        "whatif",
        "--journal",
        &journal,
        "--policy",
        &new,
        "--since",
        time,
    ];
    let (told, wrong, status) = run(&since);
    assert_eq!((&wrong[..], status), ("", 0));
    assert!(told.starts_with("4 of 9 requests under "), "{told}");
    assert!(told.contains("was brought under it by "), "{told}");
    assert!(
        told.contains("would be 15 SEPARATION, rule 1: once\n"),
        "{told}"
    );
    fs::remove_dir_all(room).unwrap();
}

#[test]
fn orders_that_would_not_have_been_opened_are_told() {
    let room = room("whatif-open");
    let journal = journal(&room, POLICY, &LINES);
    let other = POLICY
        .replace("template 0 repair", "template 3 other")
        .replace("template repair", "template other");
    let new = file(&room, "new.txt", &other);
    let (told, _, status) = run(&["whatif", "--journal", &journal, "--policy", &new]);
    assert_eq!(status, 0);
    assert!(
        told.contains("open order: 0 GRANTED, would be 4 UNKNOWN: once\n"),
        "{told}"
    );
    let behind = told
        .split("orders that would not have been opened:\n")
        .nth(1)
        .unwrap();
    assert!(
        behind.ends_with(": open order mill of template repair\n"),
        "{told}"
    );
    let (objects, _, _) = run(&["whatif", "--json", "--journal", &journal, "--policy", &new]);
    let objects: Vec<Value> = objects
        .lines()
        .map(|line| serde_json::from_str(line).unwrap())
        .collect();
    let whole = objects.last().unwrap();
    assert_eq!(
        (&whole["requests"], &whole["first"]),
        (&9.into(), &1.into())
    );
    assert_eq!(whole["not_opened"].as_array().unwrap().len(), 1);
    // The order is ended on both, in its own way: what comes behind is alike again.
    let asked = objects.iter().any(|object| object["kind"] == 58);
    assert!(!asked, "{objects:?}");
    fs::remove_dir_all(room).unwrap();
}

#[test]
fn the_same_policy_changes_nothing_and_wrong_use_is_told() {
    let room = room("whatif-same");
    let journal = journal(&room, POLICY, &LINES);
    let old = room.join("old.txt").to_str().unwrap().to_string();
    let (told, _, _) = run(&["whatif", "--journal", &journal, "--policy", &old]);
    assert_eq!(
        told,
        format!("9 requests under {old}: all would be answered as they were\n")
    );
    let late = [
        "whatif",
        "--journal",
        &journal,
        "--policy",
        &old,
        "--since",
        "2999-01-01",
    ];
    assert!(run(&late).0.starts_with("0 of 9 requests under "));
    let refused = file(&room, "refused.txt", "user 1\nuser 1\n");
    let (_, told, status) = run(&["whatif", "--journal", &journal, "--policy", &refused]);
    assert!(told.contains("line 2: 5 TAKEN: user 1"), "{told}");
    assert_eq!(status, 1);
    let never = [
        "whatif",
        "--journal",
        &journal,
        "--policy",
        &old,
        "--since",
        "never",
    ];
    assert_eq!(run(&never).2, 2);
    fs::remove_dir_all(room).unwrap();
}
