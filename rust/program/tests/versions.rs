//! Journals that outlive the program: one of each version is read and served, and one whose snapshots have another layout goes on.

mod common;

use common::{forge, room, run, Server};
use rusqlite::Connection;
use std::fs;
use std::path::{Path, PathBuf};

const VERSIONS: [i64; 2] = [2, 3];
/// How many requests each of them has.
const REQUESTS: i64 = 13;

/// A copy of the journal of a version.
fn copy(room: &Path, version: i64) -> PathBuf {
    let kept = format!("rust/program/tests/journals/version{version}.db");
    let file = room.join("desk.db");
    fs::copy(common::root().join(kept), &file).unwrap();
    file
}

fn number(file: &Path, select: &str) -> i64 {
    let sql = Connection::open(file).unwrap();
    sql.query_row(select, [], |r| r.get(0)).unwrap()
}

#[test]
fn every_version_is_read() {
    for version in VERSIONS {
        let room = room(&format!("read{version}"));
        let file = copy(&room, version);
        let (before, name) = (fs::read(&file).unwrap(), file.to_str().unwrap());
        let (listed, why, status) = run(&["journal", name]);
        assert_eq!((listed.lines().count(), status), (13, 0), "{why}");
        let (listed, _, _) = run(&["journal", name, "--order", "mill", "--reply", "refused"]);
        assert!(
            listed.contains("claim am mill sign  (subject 1, order 7, opening 4, by"),
            "{listed}"
        );
        let (barred, _, _) = run(&["journal", name, "--barred"]);
        assert!(barred.contains("claim dm mill sign"), "{barred}");
        let (said, why, status) = run(&["journal", name, "--check"]);
        let sound = said.contains("sound: 13 requests") && said.contains("2 snapshots");
        assert_eq!((sound, status), (true, 0), "{said}{why}");
        let (said, why, status) =
            run(&["holds", "--journal", name, "--from", "test", "--to", "sign"]);
        assert_eq!((said.contains("1 hold"), status), (true, 0), "{said}{why}");
        let (said, why, status) = run(&["who", "pump", "test", "--journal", name]);
        assert_eq!(status, 1, "{said}{why}");
        let policy = ["--policy", "examples/named.txt"];
        let (said, why, status) = run(&[&["whatif", "--journal", name], &policy[..]].concat());
        assert_eq!(status, 0, "{said}{why}");
        assert!(
            fs::read(&file).unwrap() == before,
            "version {version}: it was changed"
        );
    }
}

#[test]
fn every_version_is_served_and_goes_on() {
    for version in VERSIONS {
        let room = room(&format!("served{version}"));
        let file = copy(&room, version);
        let server = Server::start(&room, &[]);
        assert_eq!(server.lines("done am pump repair\n"), ["14 0 GRANTED"]);
        assert_eq!(server.lines("done dm mill sign\n"), ["15 0 GRANTED"]);
        drop(server);
        let name = file.to_str().unwrap();
        assert_eq!(
            number(&file, "SELECT user_version FROM pragma_user_version"),
            3
        );
        assert_eq!(number(&file, "SELECT version FROM journal"), 3);
        let (said, why, status) = run(&["journal", name, "--check"]);
        assert_eq!(
            (said.contains("sound: 15 requests"), status),
            (true, 0),
            "{said}{why}"
        );
        // What an earlier version told is reported as it was: requests, names, times, what was barred.
        let kept = copy(&self::room(&format!("kept{version}")), version);
        for more in [&[][..], &["--json"], &["--barred"]] {
            let listing =
                |file: &Path| run(&[&["journal", file.to_str().unwrap()], more].concat()).0;
            assert!(listing(&file).starts_with(&listing(&kept)), "{more:?}");
        }
        // The sums are what docs/SERVE.md says they are: computed again from the tables they are the same.
        let (seal, _, status) = run(&["journal", name, "--seal"]);
        assert_eq!((seal.starts_with("15:"), status), (true, 0));
        forge::chained(&Connection::open(&file).unwrap());
        assert_eq!(run(&["journal", name, "--seal"]).0, seal);
        // A second start finds nothing more to do.
        let server = Server::start(&room, &[]);
        assert!(
            server.told[0].contains(": 15 requests, "),
            "{:?}",
            server.told
        );
    }
}

/// A journal of version 2 that is damaged, or whose replies are not the engine's, stays as it is.
#[test]
fn what_is_refused_is_not_brought_to_this_version() {
    let room = room("refused2");
    let file = copy(&room, 2);
    let sql = Connection::open(&file).unwrap();
    sql.execute("UPDATE request SET client = 9 WHERE number = 2", [])
        .unwrap();
    drop(sql);
    let before = fs::read(&file).unwrap();
    let socket = room.join("desk.sock");
    let serve = ["serve", "--journal", file.to_str().unwrap(), "--socket"];
    let (_, why, status) = run(&[&serve[..], &[socket.to_str().unwrap()]].concat());
    let expected = "request 2 does not have its checksum";
    assert_eq!((why.contains(expected), status), (true, 1), "{why}");
    assert!(fs::read(&file).unwrap() == before);
}

#[test]
fn snapshots_of_another_layout_are_left_aside() {
    let room = room("layout");
    let file = copy(&room, 3);
    let sql = Connection::open(&file).unwrap();
    // The layout of a library whose buffers were shorter.
    let other = "UPDATE snapshot SET version = 1, orders = zeroblob(800), sessions = zeroblob(80)";
    assert_eq!(sql.execute(other, []).unwrap(), 2);
    forge::snapshots(&sql);
    drop(sql);
    let name = file.to_str().unwrap();
    let (said, why, status) = run(&["journal", name, "--check"]);
    let told = said.contains("2 snapshots have another layout, and were not compared");
    assert_eq!((told, status), (true, 0), "{said}{why}");
    // Questions are answered from the requests alone.
    let (said, why, _) = run(&["who", "mill", "order_part", "--journal", name]);
    assert!(!why.contains("layout"), "{said}{why}");
    assert_eq!(run(&["journal", name, "--last", "2"]).0.lines().count(), 2);
    let server = Server::start(&room, &[]);
    assert!(
        server.told[0].contains("13 requests, 13 of them asked anew"),
        "{:?}",
        server.told
    );
    drop(server);
    let of_this_layout = "SELECT count(*) FROM snapshot WHERE version = 3 AND after = 13";
    assert_eq!(number(&file, of_this_layout), 1);
    // The next start goes on from the new one.
    let server = Server::start(&room, &[]);
    assert!(
        server.told[0].contains("13 requests, 0 of them asked anew"),
        "{:?}",
        server.told
    );
    assert_eq!(server.lines("done am pump repair\n"), ["14 0 GRANTED"]);
}

#[test]
fn another_layout_with_another_reply_is_refused_with_the_first_difference() {
    let room = room("differs3");
    let file = copy(&room, 3);
    let sql = Connection::open(&file).unwrap();
    let change = "UPDATE snapshot SET version = 1; UPDATE request SET reply = 15, place = 1 WHERE number = 9";
    sql.execute_batch(change).unwrap();
    forge::chained(&sql);
    drop(sql);
    assert_eq!(number(&file, "SELECT max(number) FROM request"), REQUESTS);
    let before = fs::read(&file).unwrap();
    let socket = room.join("desk.sock");
    let serve = ["serve", "--journal", file.to_str().unwrap(), "--socket"];
    let (_, why, status) = run(&[&serve[..], &[socket.to_str().unwrap()]].concat());
    let expected = "request 9, claim 1 7 2: the engine answers 11 NO ROLE, and had answered 15 SEPARATION, rule 1";
    assert_eq!((why.contains(expected), status), (true, 1), "{why}");
    assert!(fs::read(&file).unwrap() == before);
}
