//! The served desk as its clients have it: forms, order, names, restarts, and what a journal that is not fit is answered.

mod common;

use common::{forge, mishantral, room, run, stores, Server, POLICY};
use rusqlite::Connection;
use serde_json::Value;
use std::fs;
use std::io::{BufRead, BufReader, Read, Write};
use std::net::Shutdown;
use std::os::unix::net::UnixStream;
use std::path::{Path, PathBuf};
use std::process::Stdio;

#[test]
fn lines_objects_and_records_are_answered_and_kept() {
    for place in stores("forms") {
        let server = place.start(&[POLICY]);
        let said = server.lines(
        "create subject 1 am for user anna with roles fitter\n# a comment\n\nopen order 7 mill of template breakdown\nclaim am mill repair\nclam 1 7 test\nclaim 1 7 sign\n",
    );
        assert_eq!(said[..3], ["1 0 GRANTED", "2 0 GRANTED", "3 0 GRANTED"]);
        assert_eq!(
            said[3],
            "wrong: line 6, column 1: expected \"claim\", found \"clam\""
        );
        assert_eq!(said[4..], ["4 11 NO ROLE"]);
        let said = server.lines("{\"request\": \"claim am mill test\", \"id\": 9}\n{\"record\": \"3400010007000000\"}\n{\"request\": 5, \"id\": [1]}\n");
        let said: Vec<Value> = said
            .iter()
            .map(|line| serde_json::from_str(line).unwrap())
            .collect();
        assert_eq!(
            said[0],
            serde_json::json!({"number": 5, "reply": 11, "name": "NO ROLE", "rule": 0, "id": 9})
        );
        assert_eq!(
            (&said[1]["number"], &said[1]["name"]),
            (&6.into(), &"SHAPE".into())
        );
        assert_eq!(said[2]["id"], serde_json::json!([1]));
        assert!(said[2]["wrong"].is_string());
        // Records: a whole one, done 1 7 0, and a cut one.
        let mut records = vec![52, 0, 1, 0, 7, 0, 0, 0, 0, 0, 0, 0, 0, 0, 0, 0];
        records.extend([52, 0, 1]);
        let replies = server.ask(&records);
        assert_eq!(replies.len(), 32);
        assert_eq!((replies[0], replies[8]), (0, 7));
        assert_eq!((replies[16], replies[24]), (2, 8));
        drop(server);

        let (listed, _, status) = place.journal(&[]);
        assert_eq!((listed.lines().count(), status), (8, 0));
        assert!(
        listed.lines().next().unwrap().contains(
            "  0 GRANTED       anna          create subject am for user anna with roles fitter  (subject 1, by "
        ),
        "{listed}"
    );
        assert!(
        listed.contains("11 NO ROLE       anna          claim am mill sign  (subject 1, order 7, opening 2, by "),
        "{listed}"
    );
        let picked = |more: &[&str]| place.listed(more).len();
        assert_eq!(picked(&["--order", "mill"]), 5);
        assert_eq!(picked(&["--order", "mill", "--reply", "no role"]), 2);
        assert_eq!(picked(&["--user", "anna", "--reply", "refused"]), 2);
        assert_eq!(picked(&["--task", "repair", "--json"]), 2);
        assert_eq!(
            (
                picked(&["--since", "2100-01-01"]),
                picked(&["--until", "2100-01-01", "--last", "3"])
            ),
            (0, 3)
        );
        assert_eq!(place.journal(&["--user", "nobody"]).2, 2);
        let (checked, _, status) = place.journal(&["--check"]);
        assert!(checked.contains("sound: 8 requests"), "{checked}");
        assert_eq!(status, 0);
        let column = |name: &str| {
            place.rows(&format!("SELECT {name} FROM answered WHERE number = 3"))[0].clone()
        };
        let seen = [column("subject"), column("ordr"), column("reply")];
        assert_eq!(seen, [1.into(), 7.into(), Value::from("GRANTED")]);
    }
}

#[test]
fn a_desk_goes_on_where_it_was() {
    for place in stores("again") {
        let server = place.start(&[POLICY, "--snapshot", "5"]);
        let start = "create subject 1 am for user anna with roles fitter\nopen order 7 mill of template breakdown\n";
        server.lines(start);
        for _ in 0..4 {
            server.lines("claim am mill repair\nrelease am mill repair\n");
        }
        drop(server);
        let server = place.start(&["--snapshot", "5"]);
        assert!(
            server.told[0].ends_with(": 10 requests, 4 of them asked anew, all answered as before"),
            "{:?}",
            server.told
        );
        assert_eq!(server.lines("claim am mill repair\n"), ["11 0 GRANTED"]);
        assert_eq!(server.lines("who mill repair\n").len(), 1);
        // Another server may not have the journal, nor the socket.
        let socket = place.room.join("other.sock");
        let serve = ["serve", "--socket", socket.to_str().unwrap()];
        let (_, why, status) = run(&[&serve[..], &place.options()].concat());
        assert_eq!(
            (why.contains("another server has it"), status),
            (true, 1),
            "{why}"
        );
        drop(server);
        let (checked, _, status) = place.journal(&["--check"]);
        assert_eq!(
            (
                checked.contains("11 requests") && checked.contains("2 snapshots"),
                status
            ),
            (true, 0),
            "{checked}"
        );
        assert_eq!(place.listed(&["--last", "1"]).len(), 1);
    }
}

/// All bytes of a journal and of what SQLite has beside it.
fn bytes_of(journal: &Path) -> Vec<Vec<u8>> {
    let beside = |behind: &str| PathBuf::from(format!("{}{behind}", journal.display()));
    let read = |behind: &str| fs::read(beside(behind)).unwrap_or_default();
    vec![read(""), read("-wal")]
}

#[test]
fn what_is_not_fit_is_refused_and_stays_as_it_is() {
    let room = room("unfit");
    drop({
        let server = Server::start(&room, &[POLICY, "--snapshot", "4"]);
        for _ in 0..5 {
            server.lines("open order 7 of template breakdown\nend order 7\n");
        }
        server
    });
    let journal = room.join("desk.db");
    let whole = room.join("whole.db");
    // Everything into one file, so that it can be changed.
    Connection::open(&journal)
        .unwrap()
        .pragma_update(None, "wal_checkpoint", "TRUNCATE")
        .unwrap();
    fs::copy(&journal, &whole).unwrap();
    let socket = room.join("unfit.sock");
    let refused = |more: &[&str], expected: &str, what: &str| {
        let before = bytes_of(&journal);
        let all = [
            "serve",
            "--journal",
            journal.to_str().unwrap(),
            "--socket",
            socket.to_str().unwrap(),
        ];
        let (_, why, status) = run(&[&all, more].concat());
        assert_eq!((why.contains(expected), status), (true, 1), "{what}: {why}");
        assert!(bytes_of(&journal) == before, "{what}: it was changed");
    };
    refused(
        &["examples/listing/policy.txt"],
        "it is of another policy",
        "another policy",
    );
    let damaged = |sql: &str, expected: &str| {
        fs::copy(&whole, &journal).unwrap();
        Connection::open(&journal)
            .unwrap()
            .execute_batch(sql)
            .unwrap();
        refused(&[], expected, sql);
    };
    damaged("PRAGMA user_version = 1", "it is of version 1");
    damaged("PRAGMA application_id = 7", "no journal");
    damaged(
        "UPDATE journal SET orders_words = 2000",
        "does not have its checksum",
    );
    damaged(
        "UPDATE policy SET words = 'user 300 may everything' WHERE place = 1",
        "does not have its checksum",
    );
    damaged(
        "UPDATE policy SET a = 305 WHERE place = 1",
        "does not have its checksum",
    );
    damaged(
        "UPDATE request SET a = 6 WHERE number = 10",
        "request 10 does not have its checksum",
    );
    damaged(
        "UPDATE request SET reply = 5 WHERE number = 9",
        "request 9 does not have its checksum",
    );
    damaged(
        "DELETE FROM request WHERE number = 9",
        "request 9 is missing",
    );
    damaged(
        "UPDATE snapshot SET policy = zeroblob(length(policy)) WHERE after = 8",
        "the snapshot after request 8",
    );
    damaged(
        "UPDATE snapshot SET version = version + 1",
        "the snapshot after request 8",
    );
    damaged("PRAGMA user_version = 4", "reads versions 2 to 3");
    // What is before the snapshot is not read at a start; a check finds it.
    fs::copy(&whole, &journal).unwrap();
    Connection::open(&journal)
        .unwrap()
        .execute_batch("UPDATE request SET a = 6 WHERE number = 2")
        .unwrap();
    let (_, why, status) = run(&["journal", journal.to_str().unwrap(), "--check"]);
    assert_eq!(
        (why.contains("request 2 does not have its checksum"), status),
        (true, 1),
        "{why}"
    );
    for (what, bytes) in [
        ("noise", vec![7; 9000]),
        ("half", fs::read(&whole).unwrap()[..9000].to_vec()),
    ] {
        fs::write(&journal, bytes).unwrap();
        refused(&[], "", what);
    }
    fs::copy(&whole, &journal).unwrap();
    drop(Server::start(&room, &[]));
}

#[test]
fn a_reply_that_would_be_another_stops_the_server() {
    let room = room("differs");
    drop({
        let server = Server::start(&room, &[POLICY]);
        server.lines("open order 7 of template breakdown\nopen order 7 of template breakdown\n");
        server
    });
    // A journal whose sums are right, and whose second reply is not the engine's: written by a library that answers otherwise.
    let journal = room.join("desk.db");
    let sql = Connection::open(&journal).unwrap();
    sql.execute("UPDATE request SET reply = 0 WHERE number = 2", [])
        .unwrap();
    forge::chained(&sql);
    drop(sql);
    let socket = room.join("other.sock");
    let (_, why, status) = run(&[
        "serve",
        "--journal",
        journal.to_str().unwrap(),
        "--socket",
        socket.to_str().unwrap(),
    ]);
    assert_eq!(status, 1);
    assert!(why.contains("request 2"), "{why}");
    assert!(
        why.contains("the engine answers 5 TAKEN, and had answered 0 GRANTED"),
        "{why}"
    );
}

#[test]
fn one_client_does_not_hold_up_another() {
    let room = room("odd");
    let server = Server::start(&room, &[POLICY, "--clients", "8"]);
    let silent = UnixStream::connect(&server.socket).unwrap();
    let mut half = UnixStream::connect(&server.socket).unwrap();
    half.write_all(&[50, 0, 1]).unwrap();
    let mut endless = UnixStream::connect(&server.socket).unwrap();
    endless.write_all(&vec![b'x'; 300_000]).unwrap();
    let noise: Vec<u8> = (0..20_000u32).map(|n| ((n * n) >> 5) as u8).collect();
    server.ask(&noise);
    assert_eq!(
        server.lines("open order 7 of template breakdown\n").len(),
        1
    );
    let many = "check 1 operation 0 object 0\n".repeat(20_000);
    let mut stream = UnixStream::connect(&server.socket).unwrap();
    let mut to = stream.try_clone().unwrap();
    let sender = std::thread::spawn(move || {
        to.write_all(many.as_bytes()).unwrap();
        to.shutdown(Shutdown::Write).unwrap();
    });
    let mut replies = String::new();
    stream.read_to_string(&mut replies).unwrap();
    sender.join().unwrap();
    let numbers: Vec<i64> = replies
        .lines()
        .map(|l| l.split(' ').next().unwrap().parse().unwrap())
        .collect();
    assert_eq!(numbers.len(), 20_000);
    assert!(numbers.windows(2).all(|pair| pair[0] < pair[1]));
    drop((silent, half, endless));
}

#[test]
fn who_and_finish_are_asked_of_a_journal_and_of_a_server() {
    for place in stores("finish") {
        let server = place.start(&[POLICY]);
        server.lines("create subject 1 for user anna with roles fitter\ncreate subject 2 for user bert with roles tester\nopen order 7 mill of template breakdown\nclaim 1 mill repair\n");
        let asked = |arguments: &[&str]| run(&[arguments, &place.options()].concat());
        assert_eq!(asked(&["who", "mill", "order_part"]).2, 1);
        // Nobody signed in signs or buys.
        let (told, _, status) = asked(&["finish", "mill"]);
        assert_eq!(status, 1);
        assert!(
            told.starts_with("mill cannot be finished by those signed in:\n"),
            "{told}"
        );
        assert!(
            told.contains("11 NO ROLE") && told.contains("no one clerk more is enough"),
            "{told}"
        );
        server.lines("create subject 3 for user dirk with roles none\ncreate subject 4 for user fritz with roles buyer\n");
        assert_eq!(
            asked(&["who", "mill", "order_part"]).0,
            "subject 4 of fritz\n"
        );
        let (told, _, status) = asked(&["finish", "mill"]);
        assert_eq!(status, 1);
        assert!(
            told.contains("with one of gerda and hans it can be finished"),
            "{told}"
        );
        let (told, _, status) = asked(&["finish", "--all", "--with", "anna,bert,dirk,fritz,hans"]);
        assert_eq!(
            (told.contains("1 open orders can be finished"), status),
            (true, 0),
            "{told}"
        );
        let (told, _, _) = asked(&[
            "finish",
            "mill",
            "--json",
            "--with",
            "anna,bert,dirk,fritz,hans",
        ]);
        let object: Value = serde_json::from_str(&told).unwrap();
        assert_eq!(object["finish"], "yes");
        // The plan is granted by the server, step by step.
        let plan: Vec<String> = object["plan"]
            .as_array()
            .unwrap()
            .iter()
            .map(|step| step.as_str().unwrap().to_string())
            .collect();
        assert!(
            plan.contains(&"activate role signer in subject 3".to_string()),
            "{plan:?}"
        );
        assert_eq!(plan.last().unwrap(), "end order mill");
        let said = server.lines(&(plan.join("\n") + "\nfinish mill\n"));
        let (last, granted) = said.split_last().unwrap();
        assert!(
            granted.iter().all(|line| line.ends_with(" 0 GRANTED")),
            "{said:?}"
        );
        // A name ends with its order.
        assert!(last.contains("there is no order \"mill\""), "{last}");
        let (told, _, status) = asked(&["finish", "--all", "--tries", "1"]);
        assert_eq!(
            (told.contains("0 open orders"), status),
            (true, 0),
            "{told}"
        );
    }
}

#[test]
fn many_desks_are_apart() {
    let room = room("desks");
    let desk = |name: &str| format!("{name}={}", room.join(name).with_extension("db").display());
    let socket = room.join("desks.sock");
    let start = |policy: &[&str]| {
        let (mill, yard) = (desk("mill"), desk("yard"));
        let mut all = vec![
            "serve",
            "--socket",
            socket.to_str().unwrap(),
            "--desk",
            &mill,
            "--desk",
            &yard,
        ];
        all.extend(policy);
        let mut child = mishantral(&all).stdout(Stdio::piped()).spawn().unwrap();
        let lines = BufReader::new(child.stdout.take().unwrap()).lines();
        let told: Vec<String> = lines
            .map(Result::unwrap)
            .take_while(|line| !line.starts_with("serving on"))
            .collect();
        Server {
            child,
            socket: socket.clone(),
            told,
        }
    };
    let server = start(&[POLICY]);
    assert_eq!(
        server.lines("desk mill\nopen order 7 of template breakdown\n"),
        ["desk mill", "1 0 GRANTED"]
    );
    assert_eq!(
        server.lines("desk yard\nopen order 7 of template breakdown\n"),
        ["desk yard", "1 0 GRANTED"]
    );
    assert_eq!(
        server.lines("desk mill\nopen order 7 of template breakdown\n"),
        ["desk mill", "2 5 TAKEN"]
    );
    assert!(server.lines("open order 7 of template breakdown\n")[0]
        .starts_with("wrong: the first line names a desk"));
    assert!(server.lines("desk dock\n")[0].starts_with("wrong: there is no desk"));
    let (told, _, _) = run(&[
        "ask",
        "--socket",
        socket.to_str().unwrap(),
        "--desk",
        "yard",
        "end order 7",
        "end order 7",
    ]);
    assert_eq!(told, "2 0 GRANTED\n3 4 UNKNOWN\n");
    drop(server);
    let server = start(&[]);
    assert_eq!(server.told.len(), 2);
    assert!(
        server.told[0].starts_with("mill: 2 requests")
            && server.told[1].starts_with("yard: 3 requests"),
        "{:?}",
        server.told
    );
}

/// The policy of a desk that is being served, as it is now: with those who joined, by their names, and without sessions and orders.
#[test]
fn the_policy_of_a_served_desk_is_written_out() {
    let room = room("written");
    let journal = room.join("desk.db").to_str().unwrap().to_string();
    let server = Server::start(&room, &[POLICY]);
    let (before, _, status) = run(&["write", "--journal", &journal]);
    assert_eq!((run(&["write", POLICY]).0, status), (before.clone(), 0));
    let said = server.lines("add user 900 zoe with roles fitter\ncreate subject 1 for user zoe with roles fitter\ndelete user bert\n");
    assert_eq!(said, ["1 0 GRANTED", "2 0 GRANTED", "3 0 GRANTED"]);
    let (after, _, _) = run(&["write", "--journal", &journal]);
    let mut expected: Vec<&str> = before
        .lines()
        .filter(|line| !line.contains("bert"))
        .collect();
    let roles = expected
        .iter()
        .position(|line| line.starts_with("role "))
        .unwrap();
    expected.insert(roles, "user 900 zoe");
    let has = expected
        .iter()
        .rposition(|line| line.starts_with("user ") && line.contains(" has role "));
    expected.insert(has.unwrap() + 1, "user zoe has role fitter");
    assert_eq!(after.lines().collect::<Vec<_>>(), expected);
    assert_eq!(run(&["write", POLICY, "--journal", &journal]).2, 2);
}
