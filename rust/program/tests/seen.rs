//! What a user of the served desk sees: exit statuses, explanations, objects, hints, and an end that was asked for.

mod common;

use common::{mishantral, room, run, waited, Server, POLICY};
use rusqlite::Connection;
use serde_json::Value;
use std::fs;
use std::io::{BufRead, BufReader, Read, Write};
use std::os::unix::net::UnixStream;
use std::process::{Command, Stdio};

fn signalled(server: &Server, signal: &str) {
    let kill = Command::new("kill")
        .arg(format!("-{signal}"))
        .arg(server.child.id().to_string())
        .status();
    assert!(kill.unwrap().success());
}

#[test]
fn an_end_that_is_asked_for_answers_takes_a_snapshot_and_is_well() {
    let room = room("term");
    let mut server = Server::start(&room, &[POLICY]);
    let mut busy = UnixStream::connect(&server.socket).unwrap();
    let idle = UnixStream::connect(&server.socket).unwrap();
    let many = "check 1 operation 0 object 0\n".repeat(3000);
    busy.write_all(many.as_bytes()).unwrap();
    let mut replies = BufReader::new(busy.try_clone().unwrap());
    let mut first = String::new();
    replies.read_line(&mut first).unwrap();
    signalled(&server, "TERM");
    // What was sent after the last group is not read any more, so that the connection is reset after the last reply.
    let mut rest = Vec::new();
    let _ = replies.read_to_end(&mut rest);
    let rest = String::from_utf8(rest).unwrap();
    let mut told = String::new();
    let _ = (&idle).read_to_string(&mut told);
    waited("an end", || server.child.try_wait().unwrap().is_some());
    assert_eq!(server.child.wait().unwrap().code(), Some(0));
    assert!(!server.socket.exists());
    let granted = 1 + rest
        .lines()
        .filter(|line| line.contains(" 4 UNKNOWN"))
        .count() as i64;
    let last = rest.lines().last().unwrap_or_default();
    assert!(
        last.contains("the desk has ended")
            || last.contains("the desk is ending")
            || granted == 3000,
        "{last}"
    );
    // Everything that was answered is there, nothing else, and a snapshot is after the last of it.
    let sql = Connection::open(room.join("desk.db")).unwrap();
    let one = |select: &str| sql.query_row(select, [], |r| r.get::<_, i64>(0)).unwrap();
    assert_eq!(one("SELECT max(number) FROM request"), granted);
    assert_eq!(one("SELECT max(after) FROM snapshot"), granted);
    drop(sql);
    let server = Server::start(&room, &[]);
    let expected = format!("{granted} requests, 0 of them asked anew");
    assert!(server.told[0].contains(&expected), "{:?}", server.told);
}

#[test]
fn ask_tells_by_its_exit_status_what_came() {
    let room = room("ask");
    let server = Server::start(&room, &[POLICY]);
    let socket = server.socket.to_str().unwrap().to_string();
    let ask = |more: &[&str]| run(&[&["ask", "--socket", &socket], more].concat());
    let start = [
        "# a comment",
        "create subject 1 for user anna with roles fitter",
        "open order mill of template breakdown",
        "entries of order mill",
    ];
    let (said, _, status) = ask(&start);
    assert_eq!(
        (said.as_str(), status),
        (
            "1 0 GRANTED\n2 0 GRANTED, order 0\n3 0 GRANTED, 0 entries, done none\n",
            0
        )
    );
    assert_eq!(ask(&["claim 1 mill test"]).2, 0);
    assert_eq!(ask(&["--strict", "claim 1 mill test"]).2, 1);
    assert_eq!(ask(&["--strict", "entries of order mill"]).2, 0);
    assert_eq!(ask(&["clam 1 mill test"]).2, 2);
    assert_eq!(ask(&["who mill"]).2, 2);
    assert!(ask(&["who mill"]).0.contains("who ORDER TASK"));
    let (said, _, status) = ask(&["--why", "claim 1 mill test", "claim 1 mill repair"]);
    assert_eq!(status, 0);
    let lines: Vec<&str> = said.lines().collect();
    assert!(lines[0].ends_with("11 NO ROLE"), "{said}");
    assert!(lines[1].starts_with("    ") && lines.len() >= 3, "{said}");
    assert!(lines.last().unwrap().ends_with("0 GRANTED"), "{said}");
    let (said, _, status) = ask(&["--json", "--why", "--strict", "claim 1 mill sign"]);
    let object: Value = serde_json::from_str(&said).unwrap();
    assert_eq!((&object["name"], status), (&"NO ROLE".into(), 1));
    assert!(!object["why"].as_array().unwrap().is_empty());
    let (said, _, _) = ask(&["--json", "who mill repair", "finish all"]);
    let answers: Vec<Value> = said
        .lines()
        .map(|line| serde_json::from_str(line).unwrap())
        .collect();
    assert_eq!(answers[0]["answer"][0]["task"], 0);
    assert_eq!(answers[1]["answer"][0]["finish"], "no");
    let (said, _, status) = ask(&["why claim 1 mill sign"]);
    assert_eq!(
        (said.starts_with("11 NO ROLE: "), status),
        (true, 0),
        "{said}"
    );
    let (rows, _, status) = run(&["journal", "--socket", &socket, "--last", "2"]);
    assert_eq!((rows.lines().count(), status), (2, 0), "{rows}");
    let none = room.join("none.sock");
    let (_, _, status) = run(&["ask", "--socket", none.to_str().unwrap(), "claim 1 7 0"]);
    assert_eq!(status, 2);
}

#[test]
fn an_address_in_the_place_of_a_socket_is_explained() {
    let room = room("address");
    let journal = room.join("desk.db");
    let (journal, address) = (journal.to_str().unwrap(), "127.0.0.1:9000");
    let (_, why, status) = run(&["serve", POLICY, "--journal", journal, "--socket", address]);
    assert_eq!(
        (why.contains("a Unix socket is a path"), status),
        (true, 2),
        "{why}"
    );
}

#[test]
fn a_policy_begins_the_desks_that_are_missing_alone() {
    let room = room("missing-desk");
    let (old, new) = (room.join("old.db"), room.join("new.db"));
    let other = room.join("other.txt");
    fs::write(&other, "user 1 zoe\n").unwrap();
    let socket = room.join("desk.sock");
    let serve = |policy: &str, desks: &[String]| {
        let mut command = mishantral(&["serve", policy, "--socket", socket.to_str().unwrap()]);
        for desk in desks {
            command.args(["--desk", desk]);
        }
        Server::started(&mut command, socket.clone())
    };
    let (old, new) = (
        format!("old={}", old.display()),
        format!("new={}", new.display()),
    );
    drop(serve(POLICY, std::slice::from_ref(&old)));
    let server = serve(other.to_str().unwrap(), &[old, new]);
    assert!(
        server.told[0].starts_with("old: 0 requests"),
        "{:?}",
        server.told
    );
    assert!(
        server.told[1].starts_with("new: begun"),
        "{:?}",
        server.told
    );
    assert_eq!(
        server.lines("desk new\ndelete user zoe\n"),
        ["desk new", "1 0 GRANTED"]
    );
    assert_eq!(
        server.lines("desk old\ndelete user anna\n"),
        ["desk old", "1 0 GRANTED"]
    );
}

#[test]
fn the_form_of_a_connection_is_never_in_doubt() {
    let room = room("form");
    let server = Server::start(&room, &[POLICY]);
    // Kind 50 with n 48 looks like the digits "20".
    let mut record = [0u8; 16];
    (record[0], record[1]) = (50, 48);
    let reply = server.ask(&record);
    assert_eq!((reply.len(), reply[0], reply[1]), (16, 2, 0));
    // A comment first: announced as lines, it is text.
    assert_eq!(
        server.lines("lines\n# a comment\n\nopen order 7 of template breakdown\n"),
        ["lines", "2 0 GRANTED"]
    );
    let announced = [&b"records\n"[..], &record].concat();
    let reply = server.ask(&announced);
    assert_eq!(&reply[..8], b"records\n");
    assert_eq!((reply.len(), reply[8]), (24, 2));
    assert_eq!(server.lines("record 56 0 1 0 0 0\n"), ["4 4 UNKNOWN"]);
}

#[test]
fn nobody_reads_what_is_reported_and_nothing_ends() {
    let room = room("silent");
    let (journal, socket) = (room.join("desk.db"), room.join("desk.sock"));
    let mut command = Command::new("sh");
    command
        .args(["-c", "exec \"$@\" >&- 2>&-", "sh"])
        .arg(mishantral(&[]).get_program())
        .args(["serve", POLICY, "--journal"])
        .arg(&journal)
        .arg("--socket")
        .arg(&socket)
        .current_dir(common::root())
        .stdin(Stdio::null());
    let mut child = command.spawn().unwrap();
    waited("a server", || UnixStream::connect(&socket).is_ok());
    let (said, _, status) = run(&[
        "ask",
        "--socket",
        socket.to_str().unwrap(),
        "open order 7 of template breakdown",
    ]);
    assert_eq!((said.as_str(), status), ("1 0 GRANTED\n", 0));
    // A desk that has something to report: its journal is gone.
    fs::remove_file(&journal).unwrap();
    waited("its end", || child.try_wait().unwrap().is_some());
    assert_eq!(child.wait().unwrap().code(), Some(1));
}

#[test]
fn check_and_test_give_objects_and_convert_keeps_its_input() {
    let room = room("objects");
    let (told, _, status) = run(&["check", "--json", POLICY]);
    let object: Value = serde_json::from_str(&told).unwrap();
    assert_eq!((&object["accepted"], status), (&true.into(), 0));
    assert!(object["warnings"].is_array());
    let bad = room.join("bad.txt");
    fs::write(&bad, "user 1 anna\nuser anna\n").unwrap();
    let (told, _, status) = run(&["check", "--json", bad.to_str().unwrap()]);
    let object: Value = serde_json::from_str(&told).unwrap();
    assert_eq!(
        (&object["name"], &object["line"]),
        (&"TAKEN".into(), &2.into())
    );
    assert_eq!((object["accepted"].as_bool(), status), (Some(false), 1));
    let test = room.join("one.test");
    fs::write(&test, "user 1\nuser 2\ndelete user 1\ndelete user 1\n").unwrap();
    let (told, _, status) = run(&["test", "--json", test.to_str().unwrap()]);
    let lines: Vec<Value> = told
        .lines()
        .map(|line| serde_json::from_str(line).unwrap())
        .collect();
    assert_eq!((&lines[0]["line"], status), (&4.into(), 1));
    assert_eq!(lines[0]["got"], "4 UNKNOWN");
    assert_eq!(lines[1]["failed"], 1);
    let before = fs::read(&bad).unwrap();
    let name = bad.to_str().unwrap();
    let (_, why, status) = run(&["convert", name, "--to", "records", "-o", name]);
    assert_eq!(
        (why.contains("is not written over"), status),
        (true, 2),
        "{why}"
    );
    assert_eq!(fs::read(&bad).unwrap(), before);
}

#[test]
fn bindings_to_walls_are_said_to_be_left_out() {
    let room = room("walls");
    let policy = room.join("walls.txt");
    fs::write(&policy, "user 1\nwall 0 block 1 object 7\n").unwrap();
    let (_, told, status) = run(&["write", policy.to_str().unwrap()]);
    assert_eq!(
        (told.contains("bindings to walls are left out"), status),
        (true, 0),
        "{told}"
    );
    assert_eq!(run(&["write", POLICY]).1, "");
}
