//! The table "Tampering" of docs/SERVE.md: each of its rows forged, and what finds it.

mod common;

use common::{forge, room, run, Server, POLICY};
use rusqlite::Connection;
use std::fs;
use std::path::{Path, PathBuf};

/// A journal of ten requests by two clients, with snapshots after the fourth and the eighth, and its seal.
struct Desk {
    room: PathBuf,
    seal: String,
}

const FIRST: &str = "create subject 1 am for user anna with roles fitter
create subject 2 bm for user bert with roles fitter tester
create subject 5 em for user eva with roles fitter
open order 7 mill of template breakdown
";
const SECOND: &str = "claim am mill repair
done am mill repair
claim bm mill test
done bm mill test
";
const THIRD: &str = "open order 8 pump of template breakdown
claim em pump repair
";

fn asked(server: &Server, lines: &str) {
    let said = server.lines(lines);
    let granted = said.iter().filter(|line| line.ends_with(" 0 GRANTED"));
    assert_eq!(granted.count(), lines.lines().count(), "{said:?}");
}

fn desk(name: &str) -> Desk {
    let room = room(name);
    let server = Server::start(&room, &[POLICY, "--snapshot", "4"]);
    for lines in [FIRST, SECOND, THIRD] {
        asked(&server, lines);
    }
    drop(server);
    // A second start, so that the table `start` knows of the last request.
    drop(Server::start(&room, &["--snapshot", "4"]));
    let (seal, why, status) = run(&["journal", file(&room).to_str().unwrap(), "--seal"]);
    assert_eq!((status, seal.starts_with("10:")), (0, true), "{seal}{why}");
    let seal = seal.trim().to_string();
    Desk { room, seal }
}

fn file(room: &Path) -> PathBuf {
    room.join("desk.db")
}

/// Moves the log of a server that was killed into its journal.
fn whole_in_one_file(file: &Path) {
    let sql = Connection::open(file).unwrap();
    sql.query_row("PRAGMA wal_checkpoint(TRUNCATE)", [], |_| Ok(()))
        .unwrap();
}

impl Desk {
    fn file(&self) -> PathBuf {
        file(&self.room)
    }

    fn sql(&self, sql: &str) {
        let connection = Connection::open(self.file()).unwrap();
        connection.execute_batch(sql).unwrap();
    }

    /// The same, and every sum computed again.
    fn forged(&self, sql: &str) {
        self.sql(sql);
        forge::chained(&Connection::open(self.file()).unwrap());
    }

    fn check(&self) -> (String, i32) {
        let (out, why, status) = run(&["journal", self.file().to_str().unwrap(), "--check"]);
        (out + &why, status)
    }

    fn sealed(&self) -> (String, i32) {
        let file = self.file();
        let check = ["journal", file.to_str().unwrap(), "--check", "--seal"];
        let (out, why, status) = run(&[&check[..], &[&self.seal]].concat());
        (out + &why, status)
    }

    /// What a start that is refused says.
    fn start(&self) -> (String, i32) {
        let (file, socket) = (self.file(), self.room.join("other.sock"));
        let (file, socket) = (file.to_str().unwrap(), socket.to_str().unwrap());
        let (_, why, status) = run(&["serve", "--journal", file, "--socket", socket]);
        (why, status)
    }

    #[track_caller]
    fn found_by_check(&self, expected: &str) {
        let (said, status) = self.check();
        assert_eq!((said.contains(expected), status), (true, 1), "{said}");
    }

    #[track_caller]
    fn called_sound(&self) {
        let (said, status) = self.check();
        assert_eq!((said.contains("sound"), status), (true, 0), "{said}");
    }

    #[track_caller]
    fn found_by_seal(&self, expected: &str) {
        let (said, status) = self.sealed();
        assert_eq!((said.contains(expected), status), (true, 1), "{said}");
    }
}

#[test]
fn an_untouched_journal_has_its_seal() {
    let desk = desk("seal");
    let (said, status) = desk.sealed();
    let expected = "nothing up to request 10 was changed or cut since";
    assert_eq!((said.contains(expected), status), (true, 0), "{said}");
    // What comes later does not break it; a later seal is another one.
    asked(&Server::start(&desk.room, &[]), "done em pump repair\n");
    assert_eq!(desk.sealed().1, 0);
    let file = desk.file();
    let (seal, _, _) = run(&["journal", file.to_str().unwrap(), "--check", "--seal"]);
    assert!(seal.lines().last().unwrap().starts_with("11:"), "{seal}");
    let wrong = [
        "journal",
        file.to_str().unwrap(),
        "--check",
        "--seal",
        "11:12",
    ];
    assert_eq!(run(&wrong).2, 2);
    assert_eq!(
        run(&["journal", file.to_str().unwrap(), "--seal", &desk.seal]).2,
        2
    );
}

/// Every column that means something.
#[test]
fn a_changed_column_is_found() {
    let whole = desk("column");
    let kept = whole.room.join("kept.db");
    whole_in_one_file(&whole.file());
    fs::copy(whole.file(), &kept).unwrap();
    for (change, expected) in [
        ("UPDATE request SET at = at + 1 WHERE number = 9", "request 9"),
        ("UPDATE request SET client = 7 WHERE number = 9", "request 9"),
        ("UPDATE request SET account = 'bert' WHERE number = 9", "request 9"),
        ("UPDATE request SET via = 'router' WHERE number = 9", "request 9"),
        ("UPDATE request SET user = 304 WHERE number = 5", "request 5"),
        ("UPDATE request SET a = 5 WHERE number = 5", "request 5"),
        ("UPDATE request SET reply = 5 WHERE number = 10", "request 10"),
        ("UPDATE request SET place = 1 WHERE number = 10", "request 10"),
        ("UPDATE request SET opening = 3 WHERE number = 10", "request 10"),
        ("UPDATE request SET key = 'k' WHERE number = 10", "request 10"),
        ("INSERT INTO moved_from VALUES (10, 3, 4, 'anna', NULL)", "request 10"),
        ("UPDATE name SET name = CAST('pomp' AS BLOB) WHERE request = 9", "request 9"),
        ("INSERT INTO name VALUES (10, 'order', 8, CAST('pomp' AS BLOB))", "request 10"),
        ("UPDATE start SET at = at - 1 WHERE after = 0", "request 1 "),
        ("UPDATE start SET program = '9' WHERE after = 0", "request 1 "),
        ("INSERT INTO barred VALUES (1, 5, 6, 1, 'anna', NULL, NULL, 'who', 'no')", "request 7"),
        ("INSERT INTO clock VALUES (1, 6, 1, 2)", "request 7"),
        ("UPDATE policy SET words = 'user 300 may everything' WHERE place = 1", "the policy"),
        ("UPDATE policy SET line = 40 WHERE place = 1", "the policy"),
        ("UPDATE name SET name = CAST('otto' AS BLOB) WHERE request = 0 AND sort = 'user' AND number = 300", "the policy"),
        ("UPDATE journal SET at = at + 1", "the policy"),
        ("UPDATE journal SET moved_from = 'other.db'", "the policy"),
        ("UPDATE reply SET name = 'GRANTED' WHERE number = 15", "the policy"),
        ("UPDATE kind SET words = 'release' WHERE number = 50", "the policy"),
        ("DROP VIEW answered; CREATE VIEW answered AS SELECT * FROM request WHERE number <> 6", "the policy"),
        ("CREATE TRIGGER t AFTER INSERT ON request BEGIN UPDATE request SET client = 1; END", "the policy"),
        ("INSERT INTO moved_key VALUES ('anna', 'k', 1, 2, x'00', 0, 0)", "the policy"),
        ("UPDATE snapshot SET names = names || 'order 9 new' || char(10) WHERE after = 4", "the snapshot after request 4"),
        ("UPDATE snapshot SET openings = zeroblob(512) WHERE after = 4", "the snapshot after request 4"),
        ("UPDATE snapshot SET version = version + 1 WHERE after = 4", "the snapshot after request 4"),
    ] {
        for part in ["-wal", "-shm"] {
            let _ = fs::remove_file(whole.room.join(format!("desk.db{part}")));
        }
        fs::copy(&kept, whole.file()).unwrap();
        whole.called_sound();
        whole.sql(change);
        let (said, status) = whole.check();
        assert_eq!((said.contains(expected), status), (true, 1), "{change}: {said}");
    }
}

#[test]
fn rows_removed_from_the_middle_are_found() {
    let desk = desk("middle");
    desk.sql("DELETE FROM request WHERE number = 6");
    desk.found_by_check("request 6 is missing");
    desk.found_by_seal("request 6 is missing");
}

#[test]
fn a_cut_tail_is_found_by_what_the_other_tables_know() {
    let desk = desk("tail");
    desk.sql("DELETE FROM request WHERE number > 9; DELETE FROM name WHERE request > 9");
    let expected = "it was cut: it ends with request 9, and its other tables know of request 10";
    desk.found_by_check(expected);
    let (why, status) = desk.start();
    assert_eq!((why.contains(expected), status), (true, 1), "{why}");
    // Down to before the last snapshot.
    desk.sql("DELETE FROM request WHERE number > 7; DELETE FROM name WHERE request > 7");
    let (why, status) = desk.start();
    let expected = "it was cut: there is a snapshot after request 8, and no such request";
    assert_eq!((why.contains(expected), status), (true, 1), "{why}");
    desk.found_by_check("it was cut");
}

#[test]
fn a_tail_that_is_cut_everywhere_is_found_by_the_seal_alone() {
    let desk = desk("cut");
    desk.sql(
        "DELETE FROM request WHERE number > 8; DELETE FROM name WHERE request > 8; DELETE FROM start WHERE after > 8; \
         DELETE FROM snapshot WHERE after > 8",
    );
    desk.called_sound();
    desk.found_by_seal("it was cut: the seal is of request 10, and it ends with request 8");
    // The desk goes on from there, and nobody notices without the seal.
    asked(
        &Server::start(&desk.room, &[]),
        "open order 8 of template breakdown\nopen order 9 of template breakdown\n",
    );
    desk.called_sound();
    desk.found_by_seal("it was changed: request 10 does not have the sum of the seal");
}

#[test]
fn swapped_clients_accounts_and_times_are_found_by_the_seal_alone() {
    for (name, change) in [
        ("clients", "UPDATE request SET client = 4 - client"),
        (
            "accounts",
            "UPDATE request SET account = 'bert' WHERE number IN (5, 6)",
        ),
        ("times", "UPDATE request SET at = at - 3600000000"),
        ("starts", "DELETE FROM start WHERE after = 0"),
    ] {
        let desk = desk(name);
        desk.forged(change);
        desk.called_sound();
        desk.found_by_seal("it was changed: request 10");
    }
}

#[test]
fn another_clerk_in_a_request_is_found_where_a_reply_changes_and_by_the_seal() {
    // Eva in the place of anna: every reply is the same, and the snapshots go.
    let eva = desk("eva");
    eva.forged("UPDATE request SET a = 5, user = 304 WHERE number IN (5, 6); DELETE FROM snapshot");
    eva.called_sound();
    eva.found_by_seal("it was changed: request 10");
    // With the snapshots left, they tell.
    let left = desk("left");
    left.forged("UPDATE request SET a = 5, user = 304 WHERE number IN (5, 6)");
    left.found_by_check("the snapshot after request 8 is not the state");
    // Bert in her place: then he could not have tested.
    let bert = desk("bert");
    bert.forged(
        "UPDATE request SET a = 2, user = 301 WHERE number IN (5, 6); DELETE FROM snapshot",
    );
    bert.found_by_check("request 7, claim 2 7 1: the engine answers 15 SEPARATION, rule 1, and had answered 0 GRANTED");
    bert.found_by_seal("request 7, claim 2 7 1");
}

#[test]
fn a_changed_reply_is_found_by_asking_again() {
    let desk = desk("reply");
    desk.forged("UPDATE request SET reply = 5 WHERE number = 10");
    let expected = "the engine answers 0 GRANTED, and had answered 5 TAKEN";
    desk.found_by_check(expected);
    let (why, status) = desk.start();
    assert_eq!((why.contains(expected), status), (true, 1), "{why}");
    desk.found_by_seal("");
}

#[test]
fn a_forged_snapshot_is_found_by_a_check_and_trusted_by_a_start() {
    let desk = desk("snapshot");
    let sql = Connection::open(desk.file()).unwrap();
    let forge = "UPDATE snapshot SET names = replace(names, 'user 300 anna', 'user 300 hugo')";
    assert_eq!(sql.execute(forge, []).unwrap(), 2);
    desk.found_by_check("does not have its checksum");
    forge::snapshots(&sql);
    drop(sql);
    desk.found_by_check("the snapshot after request 4 is not the state that its requests lead to");
    desk.found_by_seal("the snapshot after request 4");
    // A start reads the last snapshot, and takes its word.
    let server = Server::start(&desk.room, &[]);
    let said = server.lines("create subject 9 for user hugo with roles fitter\n");
    assert_eq!(said, ["11 0 GRANTED"]);
    drop(server);
    // A snapshot of another request is found by a start.
    desk.sql(
        "UPDATE snapshot SET row_sum = (SELECT sum FROM request WHERE number = 7) WHERE after = 8",
    );
    forge::snapshots(&Connection::open(desk.file()).unwrap());
    let (why, status) = desk.start();
    let expected = "the snapshot after request 8 is of another request";
    assert_eq!((why.contains(expected), status), (true, 1), "{why}");
}

#[test]
fn a_rewritten_history_is_found_by_the_seal_alone() {
    let (desk, other) = (desk("whole"), room("rewritten"));
    let server = Server::start(&other, &[POLICY]);
    let lines = [FIRST, SECOND, THIRD].concat();
    asked(
        &server,
        &lines
            .replace("claim am mill", "claim em mill")
            .replace("done am mill", "done em mill"),
    );
    drop(server);
    for part in ["", "-wal", "-shm"] {
        let _ = fs::remove_file(desk.room.join(format!("desk.db{part}")));
    }
    whole_in_one_file(&file(&other));
    fs::copy(file(&other), desk.file()).unwrap();
    desk.called_sound();
    desk.found_by_seal("it was changed: request 10");
}
