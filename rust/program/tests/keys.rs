//! Requests that are sent again: a key is answered from the journal, whoever serves it, and nothing is done twice.

mod common;

use common::{mishantral, room, run, stores, waited, Place, POLICY};
use serde_json::{json, Value};
use std::fs;
use std::io::{BufRead, BufReader, Write};
use std::process::Stdio;

const BEGIN: &str = "create subject 1 am for user anna with roles fitter\n";

fn requests(place: &Place) -> usize {
    place.listed(&["--json"]).len()
}

#[test]
fn a_request_that_is_sent_again_is_answered_as_it_was() {
    for place in stores("again") {
        let server = place.start(&[POLICY]);
        server.lines(BEGIN);
        let open = "key=o1 open order mill of template breakdown\n";
        assert_eq!(server.lines(open), ["2 0 GRANTED, order 0"]);
        assert_eq!(server.lines(open), ["2 0 GRANTED, order 0"]);
        let claim = "key=c1 claim am mill repair\n";
        assert_eq!(server.lines(claim), ["3 0 GRANTED"]);
        assert_eq!(server.lines("claim am mill repair\n"), ["4 5 TAKEN"]);
        assert_eq!(server.lines(claim), ["3 0 GRANTED"]);
        // A refusal is answered as it was, also when it would be granted by now.
        let refused = "key=r1 end order mill\n";
        assert_eq!(server.lines(refused), ["5 6 IN USE"]);
        server.lines("done am mill repair\nkey=e1 end order mill\n");
        assert_eq!(server.lines(refused), ["5 6 IN USE"]);
        // The order's name has ended with it, and the line is known all the same.
        assert_eq!(server.lines("key=e1 end order mill\n"), ["7 0 GRANTED"]);
        let unknown = server.lines("key=e2 end order mill\n");
        assert!(
            unknown[0].starts_with("wrong: line 1, column 11: expected"),
            "{unknown:?}"
        );
        // Twice in one go, and the second in another form.
        let both = server.lines(
            "key=t1 open order 9 of template breakdown\nkey=t1 open order 9 of template breakdown\n{\"request\": \"open order 9 of template breakdown\", \"key\": \"t1\", \"id\": 4}\n",
        );
        assert_eq!(both[..2], ["8 0 GRANTED", "8 0 GRANTED"]);
        let object: Value = serde_json::from_str(&both[2]).unwrap();
        assert_eq!(
            object,
            json!({"number": 8, "reply": 0, "name": "GRANTED", "rule": 0, "id": 4})
        );
        assert_eq!(requests(&place), 8);
        drop(server);
        // A server that was killed, and is started again, knows them.
        let server = place.start(&[]);
        assert_eq!(server.lines(open), ["2 0 GRANTED, order 0"]);
        assert_eq!(server.lines(claim), ["3 0 GRANTED"]);
        assert_eq!(server.lines("key=e1 end order mill\n"), ["7 0 GRANTED"]);
        assert_eq!(server.lines("key=e3 end order 9\n"), ["9 0 GRANTED"]);
        drop(server);
        assert_eq!(requests(&place), 9);
        place.checked("9 requests");
    }
}

#[test]
fn a_key_is_of_one_request_and_has_64_bytes() {
    for place in stores("misused") {
        let server = place.start(&[POLICY]);
        server.lines("key=k open order 7 of template breakdown\n");
        let said = server.lines("key=k end order 7\n");
        let told = "wrong: its key is that of request 1, open order 7 of template breakdown: another request needs another key";
        assert_eq!(said, [told]);
        let long = "k".repeat(64);
        let said = server.lines(&format!(
            "key={long} end order 7\nkey={long}k end order 7\nkey= end order 7\nkey=only\n"
        ));
        assert_eq!(said[0], "2 0 GRANTED");
        assert_eq!(
            said[1],
            "wrong: line 2, column 1: expected a key of at most 64 bytes, found one of 65"
        );
        assert!(said[2].starts_with("wrong: line 3, column 1: expected a key of 1 to 64 bytes"));
        assert_eq!(said[3], "wrong: line 4, the request is empty");
        let said = server.lines("{\"request\": \"end order 7\", \"key\": 5}\n");
        assert!(said[0].contains("a key is text"), "{said:?}");
        assert_eq!(requests(&place), 2);
    }
}

#[test]
fn records_have_their_keys_behind_them() {
    for place in stores("keyed") {
        let server = place.start(&[POLICY]);
        // open order 7 of template 0, by key ab, twice; end order 7 without a key, by one that is none, and cut.
        let open = [48, 0, 7, 0, 0, 0, 0, 0, 0, 0, 0, 0, 0, 0, 0, 0];
        let end = [49, 0, 7, 0, 0, 0, 0, 0, 0, 0, 0, 0, 0, 0, 0, 0];
        let mut bytes = b"keyed\n".to_vec();
        for _ in 0..2 {
            bytes.extend([&open[..], &[2], b"ab"].concat());
        }
        bytes.extend([&end[..], &[0]].concat());
        bytes.extend([&end[..], &[1, 0xff]].concat());
        bytes.extend([49, 0]);
        let replies = server.ask(&bytes);
        let replies = replies.strip_prefix(b"keyed\n").unwrap();
        let of = |at: usize| {
            let reply = &replies[16 * at..16 * at + 16];
            (reply[0], reply[1], reply[8])
        };
        assert_eq!(replies.len(), 80);
        assert_eq!((of(0), of(1), of(2)), ((0, 0, 1), (0, 0, 1), (0, 0, 2)));
        // Not done; and a cut record, whose reply is SHAPE.
        assert_eq!((of(3), of(4)), ((255, 1, 0), (2, 0, 3)));
        assert_eq!(requests(&place), 3);
    }
}

#[test]
fn a_key_is_its_accounts_own() {
    for place in stores("whose") {
        let access = place.room.join("access");
        let whoami = common::whoami();
        fs::write(
            &access,
            format!("account {whoami} speaks for everyone\naccount anna is user anna\naccount bert is user bert\n"),
        )
        .unwrap();
        let server = place.start(&[POLICY, "--access", access.to_str().unwrap()]);
        let said = |account: &str, line: &str| {
            let said = server.lines(&format!("as {account}\nlines\n{line}\n"));
            said[2].clone()
        };
        let open = "key=1 open order of template breakdown";
        assert_eq!(said("anna", open), "1 0 GRANTED, order 0");
        assert_eq!(said("bert", open), "2 0 GRANTED, order 1");
        assert_eq!(said("anna", open), "1 0 GRANTED, order 0");
        // What was barred was not answered: it is judged again.
        let create = "key=2 create subject 3 for user anna with roles none";
        assert!(said("bert", create).starts_with("barred: "));
        assert_eq!(said("anna", create), "3 0 GRANTED");
    }
}

#[test]
fn keys_hold_without_a_journal_as_long_as_the_server_lives() {
    let room = room("unkept");
    let socket = room.join("desk.sock");
    let mut command = mishantral(&["serve", POLICY, "--socket"]);
    let server = common::Server::started(command.arg(&socket), socket.clone());
    let open = "key=1 open order of template breakdown\n";
    assert_eq!(server.lines(open), ["1 0 GRANTED, order 0"]);
    assert_eq!(server.lines(open), ["1 0 GRANTED, order 0"]);
}

#[test]
fn ask_sends_again_what_was_not_answered() {
    for place in stores("retry") {
        let server = place.start(&[POLICY]);
        let socket = server.socket.to_str().unwrap().to_string();
        let mut command = mishantral(&["ask", "--socket", &socket, "--retry", "120"]);
        command.stdin(Stdio::piped()).stdout(Stdio::piped());
        let mut ask = command.spawn().unwrap();
        let mut to = ask.stdin.take().unwrap();
        let mut replies = BufReader::new(ask.stdout.take().unwrap()).lines();
        let mut said = |line: &str| {
            writeln!(to, "{line}").unwrap();
            replies.next().unwrap().unwrap()
        };
        assert_eq!(
            said("open order mill of template breakdown"),
            "1 0 GRANTED, order 0"
        );
        drop(server);
        // It is gone while the next one is sent.
        writeln!(to, "end order mill").unwrap();
        std::thread::sleep(std::time::Duration::from_millis(300));
        let server = place.start(&[]);
        assert_eq!(replies.next().unwrap().unwrap(), "2 0 GRANTED");
        // A stop that was asked for, and a start.
        let id = server.child.id().to_string();
        run_kill(&id);
        let mut server = server;
        waited("its end", || server.child.try_wait().unwrap().is_some());
        drop(server);
        let server = place.start(&[]);
        writeln!(to, "open order yard of template breakdown").unwrap();
        assert_eq!(replies.next().unwrap().unwrap(), "3 0 GRANTED, order 0");
        drop(to);
        assert!(replies.next().is_none());
        assert!(ask.wait().unwrap().success());
        drop(server);
        let keys: Vec<Value> = place.rows("SELECT count(DISTINCT key) FROM request");
        assert_eq!(keys, [json!(3)]);
        assert_eq!(requests(&place), 3);
    }
}

fn run_kill(id: &str) {
    let killed = std::process::Command::new("kill")
        .args(["-TERM", id])
        .status();
    assert!(killed.unwrap().success());
}

#[test]
fn ask_tells_what_was_not_answered_with_its_key() {
    let room = room("gone");
    let server = common::Server::start(&room, &[POLICY]);
    let socket = server.socket.to_str().unwrap().to_string();
    let mut command = mishantral(&["ask", "--socket", &socket, "--retry", "0"]);
    command
        .stdin(Stdio::piped())
        .stdout(Stdio::piped())
        .stderr(Stdio::piped());
    let mut ask = command.spawn().unwrap();
    let mut to = ask.stdin.take().unwrap();
    let mut replies = BufReader::new(ask.stdout.take().unwrap()).lines();
    writeln!(to, "open order mill of template breakdown").unwrap();
    replies.next().unwrap().unwrap();
    drop(server);
    let _ = writeln!(to, "end order mill");
    drop(to);
    let came = ask.wait_with_output().unwrap();
    assert_eq!(came.status.code(), Some(2));
    let told = String::from_utf8(came.stderr).unwrap();
    assert!(!told.is_empty(), "nothing was told");
    let (_, why, status) = run(&["ask", "--socket", &socket, "end order mill"]);
    assert_eq!(
        (why.contains("Connection refused"), status),
        (true, 2),
        "{why}"
    );
}
