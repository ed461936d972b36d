//! The journal's files and rows: who can read them, what happens when they are taken away, names and openings, times.

mod common;

use common::{mishantral, room, run, stores, waited, Server, POLICY};
use rusqlite::Connection;
use serde_json::Value;
use std::fs;
use std::io::{Read, Write};
use std::os::unix::fs::{symlink, PermissionsExt};
use std::os::unix::net::UnixStream;
use std::path::Path;
use std::process::{Command, Stdio};

fn mode(file: &Path) -> u32 {
    fs::metadata(file).unwrap().permissions().mode() & 0o777
}

/// The program under a shell that sets something first.
fn under(shell: &str, arguments: &[&str]) -> Command {
    let mut command = Command::new("sh");
    let program = mishantral(&[]).get_program().to_owned();
    command.args(["-c", &format!("{shell}; exec \"$@\""), "sh"]);
    command.arg(program).args(arguments);
    command.current_dir(common::root());
    command
}

#[test]
fn files_are_for_their_owner_alone_whatever_the_umask() {
    for umask in ["000", "022", "277"] {
        let room = room(&format!("mode{umask}"));
        let (journal, socket) = (room.join("desk.db"), room.join("desk.sock"));
        let arguments = [
            "serve",
            POLICY,
            "--journal",
            journal.to_str().unwrap(),
            "--socket",
            socket.to_str().unwrap(),
        ];
        let mut command = under(&format!("umask {umask}"), &arguments);
        let server = Server::started(&mut command, socket);
        server.lines("open order 7 of template breakdown\n");
        for part in ["", "-wal", "-shm", ".lock", "-reserve"] {
            let name = room.join(format!("desk.db{part}"));
            assert_eq!(mode(&name), 0o600, "umask {umask}: {}", name.display());
        }
    }
}

#[test]
fn a_mode_that_lets_others_in_is_mended_and_told() {
    let room = room("wide");
    drop(Server::start(&room, &[POLICY]));
    let journal = room.join("desk.db");
    fs::set_permissions(&journal, fs::Permissions::from_mode(0o644)).unwrap();
    drop(Server::start(&room, &[]));
    assert_eq!(mode(&journal), 0o600);
    // A folder from which everyone can remove the files.
    fs::set_permissions(&room, fs::Permissions::from_mode(0o777)).unwrap();
    let (journal, socket) = (journal.to_str().unwrap(), room.join("other.sock"));
    let arguments = ["serve", "--journal", journal, "--socket"];
    let (_, why, status) = run(&[&arguments[..], &[socket.to_str().unwrap()]].concat());
    let told = why.contains("everyone can remove files from its folder");
    assert_eq!((told, status), (true, 1), "{why}");
}

/// A server whose files are changed by `change` while it serves: what it says at its end.
fn ended_by(name: &str, change: impl Fn(&Path)) -> (String, Option<i32>) {
    let room = room(name);
    let (journal, socket) = (room.join("desk.db"), room.join("desk.sock"));
    let mut command = mishantral(&["serve", POLICY, "--journal"]);
    command.arg(&journal).arg("--socket").arg(&socket);
    let mut server = Server::started(command.stderr(Stdio::piped()), socket);
    server.lines("open order 7 of template breakdown\n");
    let mut client = UnixStream::connect(&server.socket).unwrap();
    change(&journal);
    // A request may be too late to be sent; it must not be answered.
    let _ = client.write_all(b"lines\nopen order 8 of template breakdown\n");
    let mut replies = String::new();
    let _ = client.read_to_string(&mut replies);
    assert!(!replies.contains("GRANTED"), "{name}: {replies}");
    waited(name, || server.child.try_wait().unwrap().is_some());
    let mut told = String::new();
    let mut from = server.child.stderr.take().unwrap();
    from.read_to_string(&mut told).unwrap();
    (told, server.child.wait().unwrap().code())
}

#[test]
fn files_that_are_taken_away_end_the_desk_without_a_reply() {
    for part in ["", "-wal", "-shm"] {
        let name = format!("gone{}", part.len());
        let file = |journal: &Path| format!("{}{part}", journal.display());
        let (told, status) = ended_by(&name, |journal| fs::remove_file(file(journal)).unwrap());
        let expected = told.contains(&format!("desk.db{part} was removed"));
        assert_eq!((expected, status), (true, Some(1)), "{told}");
        let (told, status) = ended_by(&name, |journal| {
            let name = file(journal);
            let copy = format!("{name}.copy");
            fs::copy(&name, &copy).unwrap();
            fs::rename(&copy, &name).unwrap();
        });
        let expected = told.contains(&format!("desk.db{part} was replaced"));
        assert_eq!((expected, status), (true, Some(1)), "{told}");
    }
    let (told, _) = ended_by("linked", |journal| {
        fs::hard_link(journal, journal.with_extension("link")).unwrap()
    });
    assert!(told.contains("2 hard links"), "{told}");
}

#[test]
fn a_second_path_to_a_journal_is_refused() {
    let room = room("paths");
    let server = Server::start(&room, &[POLICY]);
    let journal = room.join("desk.db");
    let serve = |journal: &Path| {
        let socket = room.join("other.sock");
        let (journal, socket) = (journal.to_str().unwrap(), socket.to_str().unwrap());
        let (_, why, status) = run(&["serve", "--journal", journal, "--socket", socket]);
        assert_eq!(status, 1);
        why
    };
    let link = room.join("link.db");
    symlink(&journal, &link).unwrap();
    assert!(serve(&link).contains("another server has it"));
    drop(server);
    let hard = room.join("hard.db");
    fs::hard_link(&journal, &hard).unwrap();
    assert!(serve(&hard).contains("2 hard links"));
    assert!(serve(&journal).contains("2 hard links"));
}

#[test]
fn a_name_belongs_to_one_opening() {
    for place in stores("names") {
        let server = place.start(&[POLICY, "--snapshot", "3"]);
        let said = server.lines(
        "open order 7 zed of template breakdown\nopen order 61 zed of template breakdown\nend order zed\n",
    );
        assert_eq!(said[0], "1 0 GRANTED");
        assert!(said[1].starts_with("wrong: zed is order 7"), "{said:?}");
        assert_eq!(said[2], "2 0 GRANTED");
        let said = server.lines("claim 1 zed repair\nopen order 61 zed of template breakdown\n");
        assert!(
            said[0].starts_with("wrong: line 1, column 9: expected"),
            "{said:?}"
        );
        assert_eq!(said[1], "3 0 GRANTED");
        // The number comes again, without the name.
        server.lines("open order 7 of template breakdown\nclaim 1 zed repair\nclaim 1 7 repair\n");
        // A user's name is not taken over, and ends with the user.
        let said =
            server.lines("add user 400 anna\ndelete user anna\nadd user 400 anna\nadd user 300\n");
        assert!(said[0].starts_with("wrong: anna is user 300"), "{said:?}");
        assert_eq!(said[1..], ["7 0 GRANTED", "8 0 GRANTED", "9 0 GRANTED"]);
        let long = "z".repeat(65);
        let said = server.lines(&format!("open order 9 {long} of template breakdown\n"));
        assert!(
            said[0].contains("column 14: expected a name of at most 64 bytes, found one of 65"),
            "{said:?}"
        );
        drop(server);
        // After a start from a snapshot they hold as before.
        let server = place.start(&["--snapshot", "3"]);
        assert!(
            server.told[0].contains("9 requests, 0 of them"),
            "{:?}",
            server.told
        );
        let said = server.lines("end order zed\nopen order 8 zed of template breakdown\n");
        assert_eq!(said, ["10 0 GRANTED", "11 0 GRANTED"]);
        let said = server.lines("create subject 3 for user anna with roles none\n");
        assert_eq!(said, ["12 0 GRANTED"]);
        drop(server);
        let numbers = |more: &[&str]| -> Vec<i64> {
            let (listed, _, _) = place.journal(&[&["--json"], more].concat());
            let number =
                |line: &str| serde_json::from_str::<Value>(line).unwrap()["number"].as_i64();
            listed.lines().map(|line| number(line).unwrap()).collect()
        };
        assert_eq!(numbers(&["--order", "zed"]), [1, 2, 3, 5, 10, 11]);
        assert_eq!(numbers(&["--opening", "3"]), [3, 5, 10]);
        assert_eq!(numbers(&["--order", "7"]), [1, 2, 4, 6]);
        assert_eq!(numbers(&["--user", "anna"]), [7, 8, 12]);
        assert_eq!(numbers(&["--user", "300"]), [7, 9]);
        assert_eq!(numbers(&["--last", "2"]), [11, 12]);
        let (listed, _, _) = place.journal(&["--order", "zed", "--last", "1"]);
        assert!(
            listed.contains("open order zed of template breakdown  (order 8, opening 11, by "),
            "{listed}"
        );
        let (listed, _, _) = place.journal(&["--order", "zed", "--json"]);
        let second: Value = serde_json::from_str(listed.lines().nth(3).unwrap()).unwrap();
        assert_eq!(
            (&second["order"], &second["order_name"]),
            (&61.into(), &"zed".into())
        );
        assert_eq!(
            (&second["task"], &second["task_name"]),
            (&0.into(), &"repair".into())
        );
        assert_eq!(
            (&second["subject"], &second["opening"]),
            (&1.into(), &3.into())
        );
        let (checked, why, status) = place.journal(&["--check"]);
        assert_eq!(status, 0, "{checked}{why}");
    }
}

#[test]
fn the_server_chooses_numbers() {
    let room = room("chosen");
    let server = Server::start(&room, &[POLICY]);
    let said = server.lines(
        "open order mill of template breakdown\nopen order of template breakdown\nopen order 1 of template breakdown\nend order mill\nopen order of template breakdown\ncreate subject for user anna with roles fitter\ncreate subject am for user anna with roles none\nclaim am 1 repair\nopen order x of templat breakdown\n",
    );
    let (last, said) = said.split_last().unwrap();
    assert_eq!(
        said,
        [
            "1 0 GRANTED, order 0",
            "2 0 GRANTED, order 1",
            "3 5 TAKEN",
            "4 0 GRANTED",
            "5 0 GRANTED, order 0",
            "6 0 GRANTED, subject 0",
            "7 0 GRANTED, subject 1",
            "8 11 NO ROLE",
        ]
    );
    assert_eq!(
        last,
        "wrong: line 9, column 17: expected \"template\", found \"templat\""
    );
    let said = server.lines("{\"request\": \"open order yard of template breakdown\"}\n");
    let said: Value = serde_json::from_str(&said[0]).unwrap();
    assert_eq!(said["order"], 2);
    for _ in 3..64 {
        server.lines("open order of template breakdown\n");
    }
    let said = server.lines("open order of template breakdown\n");
    assert_eq!(said, ["wrong: there is no order left: all 64 are in use"]);
}

#[test]
fn figures_are_answered_and_rows_have_their_account() {
    let room = room("figures");
    let server = Server::start(&room, &[POLICY]);
    let said = server.lines(
        "create subject 1 for user anna with roles fitter\nopen order 7 of template breakdown\nclaim 1 7 repair\ndone 1 7 repair\nentries of order 7\nstuck tasks of template breakdown\n{\"request\": \"entries of order 7\"}\n",
    );
    assert_eq!(said[4], "5 0 GRANTED, 1 entry, done repair");
    assert!(
        said[5].starts_with("6 0 GRANTED, stuck none, free "),
        "{said:?}"
    );
    let object: Value = serde_json::from_str(&said[6]).unwrap();
    assert_eq!(object["figures"], "1 entry, done repair");
    let whoami = Command::new("id").arg("-un").output().unwrap().stdout;
    let whoami = String::from_utf8(whoami).unwrap();
    let sql = Connection::open(room.join("desk.db")).unwrap();
    let select = "SELECT count(*) FROM request WHERE account = ?1 AND via IS NULL";
    let count: i64 = sql
        .query_row(select, [whoami.trim()], |r| r.get(0))
        .unwrap();
    assert_eq!(count, 7);
    let openings = "SELECT group_concat(coalesce(opening, '-')) FROM request";
    let openings: String = sql.query_row(openings, [], |r| r.get(0)).unwrap();
    assert_eq!(openings, "-,2,2,2,2,-,2");
}

#[test]
fn a_missing_journal_is_wrong_use() {
    let room = room("missing");
    let journal = room.join("nowhere.db");
    let journal = journal.to_str().unwrap();
    for arguments in [
        &["journal", journal][..],
        &["journal", journal, "--check"],
        &["who", "7", "0", "--journal", journal],
        &["finish", "--all", "--journal", journal],
        &["write", "--journal", journal],
    ] {
        let (_, why, status) = run(arguments);
        assert_eq!(
            (why.contains("No such file"), status),
            (true, 2),
            "{arguments:?}: {why}"
        );
    }
}
