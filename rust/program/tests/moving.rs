//! `move`: a desk with open orders is served, asked and ended; then it is brought under another policy, and goes on there.

mod common;

use common::{forge, mishantral, run, stores, waited, Place, Server};
use rusqlite::Connection;
use serde_json::Value;
use std::fs;
use std::path::Path;
use std::process::{Command, Stdio};
use std::time::{Duration, Instant};

const OLD: &str = "examples/named.txt";

/// What is on the desk when the policy changes: mill is tested and waits for its signature, pump is under repair, and ines came since the load.
const LINES: &str = "create subject 1 am for user anna with roles fitter
create subject 2 bm for user bert with roles fitter tester
create subject 3 cm for user clara with roles tester
create subject 4 dm for user dirk with roles signer
open order 7 mill of template breakdown
claim am mill repair
done am mill repair
claim cm mill test
done cm mill test
open order 8 pump of template breakdown
claim bm pump repair
add user 308 ines with roles buyer
open order 9 fan of template breakdown
claim bm fan repair
done bm fan repair
deactivate role fitter in subject bm
";

/// A desk, and where it is moved to.
struct Desk {
    old: Place,
    new: Place,
}

impl Desk {
    /// One in each store, that nobody has begun.
    fn empty(name: &str) -> Vec<Desk> {
        let one = |old: Place| Desk {
            new: old.beside("new"),
            old,
        };
        stores(name).into_iter().map(one).collect()
    }

    /// One in each store, at work until now.
    fn all(name: &str) -> Vec<Desk> {
        let desks = Desk::empty(name);
        for desk in &desks {
            asked(&desk.old.start(&[OLD]), LINES);
        }
        desks
    }

    fn path(&self, name: &str) -> String {
        self.old.room.join(name).to_str().unwrap().to_string()
    }

    /// The old policy with these lines after it.
    fn policy(&self, more: &str) -> String {
        let old = fs::read_to_string(common::root().join(OLD)).unwrap();
        let file = self.path("new.txt");
        fs::write(&file, old + more).unwrap();
        file
    }

    fn moved(&self, policy: &str, more: &[&str]) -> (String, String, i32) {
        let all = ["--policy", policy, "--to", &self.new.word()];
        self.old.run("move", &[&all[..], more].concat())
    }

    /// Takes what was moved away again.
    fn unmoved(&self) {
        let Some(desk) = &self.new.desk else {
            for part in ["", "-wal", "-shm"] {
                let _ = fs::remove_file(format!("{}{part}", self.new.journal));
            }
            return;
        };
        let tables =
            "writer start name clock barred snapshot moved_key moved_from request policy journal";
        for table in tables.split(' ') {
            self.new.psql(&format!(
                "DELETE FROM mishantral.{table} WHERE desk = '{desk}'"
            ));
        }
    }
}

fn asked(server: &Server, lines: &str) {
    let said = server.lines(lines);
    let granted = said.iter().filter(|line| line.ends_with(" 0 GRANTED"));
    assert_eq!(granted.count(), lines.lines().count(), "{said:?}");
}

fn json(text: &str) -> Value {
    serde_json::from_str(text).unwrap()
}

#[test]
fn a_desk_goes_on_under_another_policy() {
    for desk in Desk::all("goeson") {
        let policy = desk.policy("task set 1 of repair order_part\n");
        let old = desk.old.content();
        let (said, why, status) = desk.moved(&policy, &[]);
        assert_eq!(status, 0, "{said}{why}");
        assert!(
            said.contains("3 orders, 4 sessions and 9 users, by "),
            "{said}"
        );
        assert!(said.contains("ines: buyer on the desk, not in "), "{said}");
        assert!(desk.old.content() == old, "the old journal was changed");
        desk.new.checked(" requests");
        // Names, entries and sessions are there, and the new rule holds.
        let server = desk.new.start_at("new.sock", &[]);
        let said = server.lines(
            "claim am mill sign\nclaim dm mill sign\ndone bm pump repair\nclaim bm pump test\n",
        );
        let replies: Vec<&str> = said
            .iter()
            .map(|line| line.split_once(' ').unwrap().1)
            .collect();
        assert_eq!(
            replies,
            [
                "11 NO ROLE",
                "0 GRANTED",
                "0 GRANTED",
                "15 SEPARATION, rule 1"
            ]
        );
        let said = server.lines("create subject 5 im for user ines with roles buyer\nclaim im mill order_part\nactivate role fitter in subject bm\n");
        assert!(
            said.iter().all(|line| line.ends_with("GRANTED")),
            "{said:?}"
        );
        // Bert has had both of fitter and tester active, and signing stays closed to him.
        let said = server.lines("assign role signer to user bert\nend order fan\n");
        assert!(
            said[0].ends_with("9 STATIC") && said[1].ends_with("GRANTED"),
            "{said:?}"
        );
        drop(server);
        // The trail leads back: which request of which journal, when, by whom.
        let listed = desk.new.listed(&["--order", "mill", "--json"]);
        let rows: Vec<Value> = listed.iter().map(|row| json(row)).collect();
        let numbers: Vec<i64> = rows
            .iter()
            .filter_map(|row| row["moved_from"]["number"].as_i64())
            .collect();
        assert_eq!(numbers, [5, 6, 7, 8, 9]);
        assert_eq!(
            desk.new
                .number("SELECT at FROM moved_from WHERE number = 9"),
            desk.old.number("SELECT at FROM request WHERE number = 9")
        );
        let (seal, _, _) = desk.old.journal(&["--seal"]);
        let sum = match desk.new.desk {
            Some(_) => "encode(moved_sum, 'hex')",
            None => "lower(hex(moved_sum))",
        };
        let kept =
            |column: &str| desk.new.rows(&format!("SELECT {column} FROM journal"))[0].clone();
        assert_eq!(kept("moved_from"), desk.old.word());
        assert_eq!(
            format!("{}:{}", kept("moved_number"), kept(sum).as_str().unwrap()),
            seal.trim()
        );
    }
}

#[test]
fn what_stands_in_the_way_is_told_and_nothing_is_written() {
    for desk in Desk::all("hinders") {
        // Tests by those who repaired are no longer what they were: repair and test are bound to one clerk.
        let policy = desk.policy("task repair bound to task test\n");
        for more in [&["--dry-run"][..], &[]] {
            let (said, why, status) = desk.moved(&policy, more);
            assert_eq!(status, 1, "{said}{why}");
            let line = fs::read_to_string(&policy).unwrap().lines().count();
            let expected = format!("mill: the entry of clara for test would break task repair bound to task test ({policy}, line {line})");
            assert!(said.contains(&expected), "{said}");
            assert!(
                said.contains("one thing stands in the way; nothing was written"),
                "{said}"
            );
            assert!(
                said.contains("--leave 7 would leave these orders"),
                "{said}"
            );
            assert!(!desk.new.is_there());
        }
        let (said, why, status) = desk.moved(&policy, &["--leave", "mill,9", "--json"]);
        assert_eq!(status, 0, "{said}{why}");
        let object = json(&said);
        assert_eq!(
            (&object["orders"], &object["left"]),
            (&serde_json::json!([8]), &serde_json::json!([7, 9]))
        );
        // What was left goes on where it was.
        let server = desk.old.start(&[]);
        asked(&server, "claim dm mill sign\ndone dm mill sign\n");
        drop(server);
        let server = desk.new.start_at("new.sock", &[]);
        let said = server.lines(
            "claim dm mill sign\nopen order 7 mill of template breakdown\ndone bm pump repair\n",
        );
        assert!(said[0].starts_with("wrong: "), "{said:?}");
        assert!(
            said[1..].iter().all(|line| line.ends_with("GRANTED")),
            "{said:?}"
        );
    }
}

/// A rule that asks for another order than the one of entry: it is found.
#[test]
fn entries_are_entered_in_an_order_that_the_new_rules_allow() {
    for desk in Desk::empty("order") {
        let text =
        "user 1 anna\nuser 2 bert\nrole 0 clerk\nuser anna has role clerk\nuser bert has role clerk
task 0 test of template 0 repair\ntask 1 sign of template repair\ntask 2 file of template repair
task test open to role clerk\ntask sign open to role clerk\ntask file open to role clerk\n";
        let (old, new) = (desk.path("old.txt"), desk.path("newer.txt"));
        fs::write(&old, text).unwrap();
        fs::write(
            &new,
            format!("{text}task sign before task test\ntask file before task sign\n"),
        )
        .unwrap();
        let server = desk.old.start(&[&old]);
        asked(
        &server,
        "create subject 1 for user anna with roles clerk\ncreate subject 2 for user bert with roles clerk\nopen order 3 mill of template repair
claim 1 mill test\ndone 1 mill test\nclaim 2 mill sign\ndone 2 mill sign\nclaim 1 mill file\ndone 1 mill file\nclaim 2 mill test\n",
    );
        drop(server);
        let (said, why, status) = desk.moved(&new, &[]);
        assert_eq!(status, 0, "{said}{why}");
        let listed = desk.new.listed(&["--order", "mill", "--json"]);
        let from: Vec<i64> = listed
            .iter()
            .filter_map(|row| json(row)["moved_from"]["number"].as_i64())
            .collect();
        // File, then sign, then test; what is held last.
        assert_eq!(from, [3, 8, 9, 6, 7, 4, 5, 10]);
    }
}

#[test]
fn holds_are_measured_across_the_move() {
    for desk in Desk::all("holds") {
        let tested = desk.old.number("SELECT at FROM request WHERE number = 9");
        std::thread::sleep(Duration::from_millis(300));
        let (said, why, status) = desk.moved(&desk.policy(""), &[]);
        assert_eq!(status, 0, "{said}{why}");
        let server = desk.new.start_at("new.sock", &[]);
        std::thread::sleep(Duration::from_millis(300));
        asked(&server, "claim dm mill sign\n");
        drop(server);
        let holds = |more: &[&str]| desk.new.run("holds", more);
        let signed = [
            "--from", "test", "--to", "sign", "--by", "opening", "--json",
        ];
        let (said, why, status) = holds(&signed);
        assert_eq!(status, 0, "{said}{why}");
        let each = &json(&said)["each"];
        assert_eq!(each.as_array().unwrap().len(), 1, "{said}");
        let hold = &each[0];
        let at = |select: &str| desk.new.number(select);
        let (moved, claimed) = (
            at("SELECT at FROM request WHERE number = 1"),
            at("SELECT max(at) FROM request"),
        );
        assert_eq!(
            (&hold["begun_us"], &hold["ended_us"]),
            (&tested.into(), &claimed.into())
        );
        assert_eq!(hold["parts"]["before_move_us"], moved - tested);
        assert_eq!(hold["parts"]["somebody_could_us"], claimed - moved);
        assert_eq!(
            at("SELECT hold_us FROM hold WHERE from_name = 'test' AND to_name = 'sign'"),
            claimed - tested
        );
        let (said, _, _) = holds(&signed[..4]);
        assert!(said.contains("before the move"), "{said}");
        // What was claimed on the old desk, and is still held: its time there counts.
        let (said, _, _) = holds(&[
            "--from", "repair", "--to", "test", "--by", "opening", "--json",
        ]);
        let hold = json(&said)["each"]
            .as_array()
            .unwrap()
            .iter()
            .find(|hold| hold["name"] == "mill")
            .cloned()
            .unwrap();
        assert_eq!(hold["hold_us"], hold["parts"]["before_move_us"]);
    }
}

#[test]
fn users_come_from_the_desk_or_from_the_policy() {
    for desk in Desk::all("users") {
        let old = fs::read_to_string(common::root().join(OLD)).unwrap();
        let policy = desk.path("other.txt");
        // The planner's file has a new clerk, another role for fritz, and no name for hans.
        let text = old
            .replace("user 307 hans\n", "user 307\nuser 309 kurt\n")
            .replace(
                "user hans has role buyer",
                "user 307 has role buyer\nuser fritz has role tester",
            );
        fs::write(&policy, text).unwrap();
        let (said, why, status) = desk.moved(&policy, &[]);
        assert_eq!(status, 0, "{said}{why}");
        for expected in [
            "those of the desk now",
            "fritz: buyer on the desk, tester and buyer in",
            "ines: buyer on the desk, not in",
            "kurt: not on the desk",
        ] {
            assert!(said.contains(expected), "{expected}: {said}");
        }
        let server = desk.new.start_at("new.sock", &[]);
        let said = server.lines("create subject for user hans with roles buyer\ncreate subject for user fritz with roles tester\ncreate subject for user 309 with roles\n");
        assert!(
            said[0].contains("GRANTED") && said[1].contains("8 NOT ASSIGNED"),
            "{said:?}"
        );
        drop(server);
        desk.unmoved();
        let (said, why, status) = desk.moved(&policy, &["--users", "from-policy"]);
        assert_eq!(status, 0, "{said}{why}");
        assert!(
            said.contains("those of ")
                && said.contains("name not kept: user 307, hans until now, has no name"),
            "{said}"
        );
        let server = desk.new.start_at("new.sock", &[]);
        let said = server.lines("create subject for user kurt with roles\ncreate subject for user fritz with roles tester\nadd user 308 ines with roles buyer\n");
        assert!(
            said[1].contains("GRANTED") && said[2].contains("GRANTED"),
            "{said:?}"
        );
    }
}

#[test]
fn keys_come_along_and_a_second_move_keeps_the_first_times() {
    for desk in Desk::empty("twice") {
        let keyed = LINES.replace("claim am mill", "key=k6 claim am mill");
        let keyed = keyed.replace("done cm mill test", "key=k9 done cm mill test");
        asked(&desk.old.start(&[OLD]), &keyed);
        if desk.old.desk.is_none() {
            // A key that was used before, and had been forgotten by its second use: that one comes along.
            let sql = Connection::open(&desk.old.journal).unwrap();
            let again = "UPDATE request SET key = 'k6' WHERE number = 1";
            sql.execute_batch(again).unwrap();
            forge::chained(&sql);
        }
        let policy = desk.policy("");
        assert_eq!(desk.moved(&policy, &[]).2, 0);
        let third = desk.new.beside("third");
        let (said, why, status) = desk
            .new
            .run("move", &["--policy", &policy, "--to", &third.word()]);
        assert_eq!(status, 0, "{said}{why}");
        for place in [&desk.new, &third] {
            let kept =
                |column: &str| place.rows(&format!("SELECT {column} FROM moved_key ORDER BY key"));
            assert_eq!(kept("key"), ["k6", "k9"]);
            assert_eq!(kept("number"), [6, 9]);
            assert_eq!(kept("reply"), [0, 0]);
            // Sent again, they are answered as they were.
            let server = place.start_at("again.sock", &[]);
            let said = server.lines("key=k6 claim am mill repair\nkey=k9 done cm mill test\n");
            assert_eq!(said, ["6 0 GRANTED", "9 0 GRANTED"]);
        }
        let tested = desk.old.number("SELECT at FROM request WHERE number = 9");
        let brought = format!("SELECT count(*) FROM moved_from WHERE at = {tested} AND number > 9");
        assert_eq!(third.number(&brought), 1);
        third.checked(" requests");
    }
}

/// From a file into the database and back: what a clerk is at, the trail and the keys come along.
#[test]
fn a_desk_goes_from_a_file_into_a_database_and_back() {
    let mut desks = Desk::all("across").into_iter();
    let (Some(file), Some(base)) = (desks.next(), desks.next()) else {
        return;
    };
    let policy = file.policy("");
    let into = |from: &Place, to: &Place| {
        let (said, why, status) = from.run("move", &["--policy", &policy, "--to", &to.word()]);
        assert_eq!(status, 0, "{said}{why}");
    };
    into(&file.old, &base.new);
    base.new.checked(" requests");
    let server = base.new.start_at("base.sock", &[]);
    asked(&server, "claim dm mill sign\nkey=s done dm mill sign\n");
    drop(server);
    into(&base.new, &file.new);
    file.new.checked(" requests");
    let server = file.new.start_at("file.sock", &[]);
    let again = server.lines("key=s done dm mill sign\ndone bm pump repair\n");
    assert!(
        again.iter().all(|line| line.ends_with("0 GRANTED")),
        "{again:?}"
    );
    drop(server);
    // The time at which mill was tested is that of the first of the three journals.
    let tested = file.old.number("SELECT at FROM request WHERE number = 9");
    let (said, why, status) = file.new.run(
        "holds",
        &[
            "--from", "test", "--to", "sign", "--by", "opening", "--json",
        ],
    );
    assert_eq!(status, 0, "{why}");
    assert_eq!(json(&said)["each"][0]["begun_us"], tested);
    // An address is reported without its password.
    let secret = base.new.word().replace("postgres@", "postgres:secret@");
    let whatif = [
        "move",
        "--journal",
        &secret,
        "--policy",
        &policy,
        "--dry-run",
    ];
    let (said, why, status) = run(&whatif);
    assert_eq!((said.contains("secret"), status), (false, 0), "{said}{why}");
}

#[test]
fn a_journal_of_version_2_is_moved_too() {
    let desk = Desk::empty("old2").remove(0);
    let kept = common::root().join("rust/program/tests/journals/version2.db");
    fs::copy(kept, desk.path("desk.db")).unwrap();
    let (said, why, status) = desk.moved(OLD, &[]);
    assert_eq!(status, 0, "{said}{why}");
    let server = desk.new.start_at("new.sock", &[]);
    asked(&server, "done am pump repair\ndone dm mill sign\n");
}

#[test]
fn wrong_use_is_told() {
    for desk in Desk::all("wronguse") {
        let policy = desk.policy("");
        let server = desk.old.start(&[]);
        let (_, why, status) = desk.moved(&policy, &[]);
        assert!(why.contains("another server has it"), "{why}");
        assert!(why.contains("end it first, or try with --dry-run"), "{why}");
        assert_eq!(status, 1, "{why}");
        let (said, _, status) = desk.moved(&policy, &["--dry-run"]);
        assert_eq!(
            (said.contains("can be moved under"), status),
            (true, 0),
            "{said}"
        );
        drop(server);
        let (_, why, status) = desk.moved(&policy, &["--leave", "7,nothing"]);
        assert_eq!(
            (why.contains("there is no open order \"nothing\""), status),
            (true, 2),
            "{why}"
        );
        let (_, why, status) = desk.moved(&desk.path("none.txt"), &[]);
        assert_eq!(status, 2, "{why}");
        let bad = desk.path("bad.txt");
        fs::write(&bad, "user 300 has role 1\n").unwrap();
        assert_eq!(desk.moved(&bad, &[]).2, 1);
        assert!(!desk.new.is_there());
        assert_eq!(desk.moved(&policy, &[]).2, 0);
        let (_, why, status) = desk.moved(&policy, &[]);
        assert_eq!(
            (why.contains("it is there already"), status),
            (true, 2),
            "{why}"
        );
    }
}

/// Killed at any moment: the old journal is as it was, and the new one whole or absent. MISHANTRAL_KILLS says how often; 200 is the full number.
#[test]
fn a_move_that_is_killed_leaves_the_new_journal_whole_or_absent() {
    for desk in Desk::all("kills") {
        let policy = desk.policy("");
        let server = desk.old.start(&[]);
        let many = "open order 20 of template breakdown\nend order 20\n".repeat(2_000);
        asked(&server, &many);
        let _ = Command::new("kill")
            .arg(server.child.id().to_string())
            .status();
        waited("a file without a log", || {
            fs::metadata(format!("{}-wal", desk.old.journal)).map_or(true, |log| log.len() == 0)
        });
        drop(server);
        let old = desk.old.content();
        let began = Instant::now();
        assert_eq!(desk.moved(&policy, &[]).2, 0);
        let whole = began.elapsed();
        let rows = |place: &Place| place.number("SELECT count(*) FROM request");
        let expected = rows(&desk.new);
        let kills: u32 = std::env::var("MISHANTRAL_KILLS").map_or(12, |n| n.parse().unwrap());
        let (mut absent, mut there, mut half) = (0, 0, 0);
        for kill in 0..kills {
            let to = desk.new.beside(&format!("k{kill}"));
            let mut command = mishantral(&[&["move"], &desk.old.options()[..]].concat());
            command.args(["--policy", &policy, "--to", &to.word()]);
            let mut child = command
                .stdout(Stdio::null())
                .stderr(Stdio::null())
                .spawn()
                .unwrap();
            // From the beginning to a little after the end, most of them where it writes.
            std::thread::sleep(whole.mul_f64(0.3 + 0.9 * f64::from(kill) / f64::from(kills)));
            let _ = child.kill();
            child.wait().unwrap();
            assert!(
                desk.old.content() == old,
                "kill {kill}: the old journal was changed"
            );
            // What was half written to a file lies beside the place, under another name.
            half += i32::from(Path::new(&format!("{}.new", to.journal)).exists());
            if !to.is_there() {
                absent += 1;
                continue;
            }
            there += 1;
            assert_eq!(rows(&to), expected, "kill {kill}");
            to.checked(" requests");
        }
        let store = desk.new.desk.as_ref().map_or("a file", |_| "PostgreSQL");
        eprintln!(
        "{store}: {kills} kills: {absent} times absent, {half} of them half written, {there} times whole"
    );
        // And the next one succeeds, whatever was left behind.
        desk.unmoved();
        assert_eq!(desk.moved(&policy, &[]).2, 0);
        assert_eq!(rows(&desk.new), expected);
    }
}
