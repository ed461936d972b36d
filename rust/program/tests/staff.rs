//! `mishantral staff` and the clashes that `check` warns of, as people run them: on the examples, on small policies of each kind, on a journal, and with
//! what is wrong.

use serde_json::Value;
use std::fs;
use std::path::{Path, PathBuf};
use std::process::{Command, Stdio};

fn root() -> PathBuf {
    let root = Path::new(env!("CARGO_MANIFEST_DIR")).join("../..");
    root.canonicalize().unwrap()
}

/// What it writes, what it reports on standard error, and its exit status.
fn run(arguments: &[&str]) -> (String, String, i32) {
    let mut command = Command::new(env!("CARGO_BIN_EXE_mishantral"));
    command
        .args(arguments)
        .current_dir(root())
        .stdin(Stdio::null());
    let output = command.output().unwrap();
    let text = |bytes: Vec<u8>| String::from_utf8(bytes).unwrap();
    (
        text(output.stdout),
        text(output.stderr),
        output.status.code().unwrap_or(-1),
    )
}

/// A folder of its own for a test.
fn room(name: &str) -> PathBuf {
    let room = Path::new(env!("CARGO_TARGET_TMPDIR")).join(format!("staff-{name}"));
    let _ = fs::remove_dir_all(&room);
    fs::create_dir_all(&room).unwrap();
    room
}

fn file(room: &Path, name: &str, content: &str) -> String {
    let path = room.join(name);
    fs::write(&path, content).unwrap();
    path.to_str().unwrap().to_string()
}

const NIGHT: &str = "examples/night_shift/policy.txt";

#[test]
fn the_night_shift_is_answered() {
    let (told, errors, status) = run(&[
        "staff",
        NIGHT,
        "--shifts",
        "examples/night_shift/shifts.txt",
        "--plan",
    ]);
    let expected = fs::read_to_string(root().join("examples/night_shift/staff.txt")).unwrap();
    assert_eq!(
        (told.as_str(), errors.as_str(), status),
        (expected.as_str(), "", 1)
    );
}

fn objects(arguments: &[&str]) -> Vec<Value> {
    let (told, errors, _) = run(arguments);
    assert_eq!(errors, "", "{arguments:?}");
    told.lines()
        .map(|line| serde_json::from_str(line).unwrap())
        .collect()
}

#[test]
fn objects_have_verdicts_crews_absences_and_clashes() {
    let found = objects(&[
        "staff",
        NIGHT,
        "--shifts",
        "examples/night_shift/shifts.txt",
        "--json",
    ]);
    assert_eq!(found.len(), 3);
    let [evening, night, morning] = [&found[0], &found[1], &found[2]];
    assert_eq!(
        (&evening["finish"], &evening["hours"]),
        (&"yes".into(), &"16:00-22:00".into())
    );
    assert_eq!(
        (
            &evening["crews"]["size"],
            evening["crews"]["all"].as_array().unwrap().len()
        ),
        (&2.into(), 3)
    );
    assert_eq!(
        (&evening["away"]["any"], &night["away"]["any"]),
        (&1.into(), &0.into())
    );
    assert_eq!(
        night["away"]["stops"],
        serde_json::json!([{"count": 1, "of": [44]}])
    );
    assert_eq!(morning["finish"], "no");
    let clashes = morning["clashes"].as_array().unwrap();
    assert_eq!(clashes.len(), 2);
    assert_eq!(morning["without_all"].as_array().unwrap().len(), 2);
    assert_eq!(
        morning["with"]["clerks"],
        serde_json::json!([[{"count": 1, "of": [44]}], [{"count": 1, "of": [300]}]])
    );
    // Every request of a plan is granted, from the load on.
    let plan: Vec<&str> = evening["plan"]
        .as_array()
        .unwrap()
        .iter()
        .map(|step| step.as_str().unwrap())
        .collect();
    let room = room("plan");
    let requests = file(
        &room,
        "requests.txt",
        &format!("open order 0 of template 0\n{}\n", plan.join("\n")),
    );
    let (told, _, status) = run(&["run", "--json", NIGHT, &requests]);
    assert_eq!(status, 0);
    let replies = told
        .lines()
        .skip(1)
        .map(|line| serde_json::from_str::<Value>(line).unwrap()["reply"].clone());
    assert!(
        replies.clone().count() == plan.len() + 1 && replies.into_iter().all(|reply| reply == 0),
        "{told}"
    );
}

#[test]
fn absences_are_asked_for_and_statuses_say_it() {
    let staff = |more: &[&str]| run(&[&["staff", NIGHT], more].concat());
    assert_eq!(staff(&["--shift", "evening=44,300,556"]).2, 0);
    assert_eq!(
        staff(&["--shift", "evening=44,300,556", "--absent", "1"]).2,
        0
    );
    let (told, _, status) = staff(&["--shift", "evening=44,300,556", "--absent", "2"]);
    assert!(
        status == 1 && told.contains("any 1 may be away, and no more"),
        "{told}"
    );
    let (told, _, status) = staff(&["--shift", "night=role:0"]);
    assert!(
        status == 0 && told.contains("night, 2 clerks") && told.contains("yes, K = 0"),
        "{told}"
    );
    let (told, _, status) = staff(&["--tries", "3"]);
    assert!(status == 1 && told.contains("not settled"), "{told}");
    let (told, _, status) = staff(&[]);
    assert!(
        status == 0 && told.contains("all clerks, 3 clerks"),
        "{told}"
    );
}

#[test]
fn what_is_wrong_is_said() {
    let room = room("wrong");
    let wrong = file(&room, "shifts.txt", "day 08:00-16:00: 44 zoe\nnight\n");
    let picture = room.join("none/staff.svg");
    for (more, words) in [
        (&["--shift", "night"][..], "NAME=CLERKS is expected"),
        (&["--shift", "night="], "nobody comes for night"),
        (&["--shift", "night=44,57"], "there is no user 57"),
        (&["--shift", "night=role:9"], "nobody comes for night"),
        (&["--shift", "night=role:zoe"], "there is no role \"zoe\""),
        (
            &["--shifts", &wrong],
            "line 2: NAME HH:MM-HH:MM: CLERKS is expected",
        ),
        (&["--shifts", "/nowhere"], "it cannot be read"),
        (&["--template", "3"], "there is no template \"3\""),
        (&["--absent", "0"], "0"),
        (
            &["--plot", picture.to_str().unwrap()],
            "it cannot be written",
        ),
        (&["--roster", &wrong], "--simulate"),
    ] {
        let (_, errors, status) = run(&[&["staff", NIGHT], more].concat());
        assert!(
            status == 2 && errors.contains(words),
            "{more:?}: {status} {errors}"
        );
    }
    let refused = file(&room, "refused.txt", "user 1\nuser 1\n");
    let (_, errors, status) = run(&["staff", &refused]);
    assert!(status == 1 && errors.contains("5 TAKEN"), "{errors}");
    let empty = file(&room, "empty.txt", "user 1\n");
    let (_, errors, status) = run(&["staff", &empty]);
    assert!(
        status == 2 && errors.contains("there is no template with a task"),
        "{errors}"
    );
    assert_eq!(run(&["staff"]).2, 2);
}

#[test]
fn a_picture_says_each_verdict_in_words() {
    let room = room("picture");
    let picture = room.join("staff.svg");
    let (_, errors, status) = run(&[
        "staff",
        NIGHT,
        "--shifts",
        "examples/night_shift/shifts.txt",
        "--plot",
        picture.to_str().unwrap(),
    ]);
    assert_eq!((errors.as_str(), status), ("", 1));
    let text = fs::read_to_string(picture).unwrap();
    for words in [
        "any 1 may be away",
        "nobody may be away",
        "cannot be finished",
        "evening 16:00-22:00, 3 clerks",
        "class=\"green\"",
        "class=\"amber\"",
        "class=\"red\"",
    ] {
        assert!(text.contains(words), "{words}");
    }
}

/// Three clerks, two roles, three tasks, with some rules; what `check` warns of.
fn warned(room: &Path, rules: &str) -> Vec<String> {
    let common = "user 1 anna\nuser 2 bert\nrole 0 clerk\nrole 1 signer\nuser anna has role clerk\nuser bert has role signer\n\
                  task 0 a of template 0 work\ntask 1 b of template work\ntask 2 c of template work\n\
                  task a open to role clerk\ntask b open to role signer\ntask c open to role clerk\n\
                  user 3 clara\nuser clara has role clerk\n";
    let policy = file(room, "policy.txt", &format!("{common}{rules}"));
    let (told, errors, status) = run(&["check", &policy]);
    assert_eq!((errors.as_str(), status), ("", 0));
    let lines = told.lines().filter(|line| line.contains(": warning: "));
    let short = |line: &str| {
        line.replace(&policy, "P")
            .replace("; no order of work can be finished", "")
    };
    lines.map(short).collect()
}

/// Rules, and the warning that they get.
const KINDS: [(&str, &str); 11] = [
    (
        "task a bound to task c\ntask set 1 of a c\n",
        "P: line 15: warning: task a bound to task c clashes with task set 1 of a c (line 16): a binding inside a task set of 1: one clerk must \
         do a and c, and may do one of them",
    ),
    (
        "task a bound to task c\nblock of partitioning 0: a b\nblock of partitioning 0: c\n",
        "P: line 15: warning: task a bound to task c clashes with block of partitioning 0: a b (line 16) and block of partitioning 0: c (line 17): \
         a binding across blocks: one clerk must do a and c, and nobody may work in both blocks",
    ),
    (
        "task a bound to task b\n",
        "P: line 15: warning: task a bound to task b: one clerk must do a and b, and nobody there has roles for all of them",
    ),
    (
        "task a bound to task b\nstatic set 1 of clerk signer\n",
        "P: line 15: warning: task a bound to task b: bound tasks whose roles exclude each other: one clerk must do a and b, and \
         static set 1 of clerk signer (P, line 16) lets nobody have the roles for them",
    ),
    (
        "role 2 lead\nrole lead above role clerk\nuser anna has role lead\nuser clara has role lead\ntask a bound to task b\nstatic set 1 of clerk signer\n\
         user 4 dirk\nuser dirk has role lead\n",
        "P: line 19: warning: task a bound to task b: bound tasks whose roles exclude each other by a senior role: one clerk must do a and b, and \
         static set 1 of clerk signer (P, line 20) lets nobody have the roles for them",
    ),
    (
        "user bert has role clerk\ntask a bound to task b\ndynamic set 1 of clerk signer\n",
        "P: line 16: warning: task a bound to task b clashes with dynamic set 1 of clerk signer (line 17): bound tasks whose roles exclude each \
         other: one clerk must do a and b, and the dynamic set lets no session have the roles for them; signing out in between helps",
    ),
    (
        "user bert has role clerk\ntask a bound to task b\ntask b bound to task c\ntask set 2 of a b c\n",
        "P: line 16: warning: task a bound to task b clashes with task b bound to task c (line 17) and task set 2 of a b c (line 18): \
         a limit below what a binding needs: one clerk must do a, b and c, and may do 2 of them",
    ),
    (
        "task 3 d of template 1 swap\ntask 4 e of template swap\ntask d open to role signer\ntask e open to role signer\ntask set 1 of d e\n",
        "P: line 19: warning: task set 1 of d e: a limit below what a set needs: 2 tasks, 1 for one clerk, take 2 clerks or more with roles for \
         them; no order of swap can be finished",
    ),
    (
        "task 3 d of template 1 swap\ntask 4 e of template swap\ntask d open to role signer\ntask e open to role signer\n\
         lone-worker ban on template swap\ntask d before task e\n",
        "P: line 19: warning: lone-worker ban on template swap: a prerequisite inside a lone worker's template: e comes behind d (line 20), and \
         whoever has done all the rest may not do it; one clerk alone has roles for all; no order of swap can be finished",
    ),
    (
        "task a before task c\ntask c before task a\n",
        "P: line 7: warning: work: prerequisites that go in a circle leave a and c waiting for ever",
    ),
    (
        "permission 0 is operation 1 read on object 7 ours\npermission 1 is operation read on object 8 theirs\nrole clerk has permission 0\n\
         role clerk has permission 1\ntask a carries permission 0\ntask a carries permission 1\nwall 0 block 0 object ours\nwall 0 block 1 object theirs\n",
        "P: line 22: warning: a wall parts the operations of a: whoever commits read on ours may not commit read on theirs (wall 0 block 0 object \
         ours (P, line 21))",
    ),
];

#[test]
fn kinds_of_clashes_have_names_and_lines() {
    let room = room("kinds");
    for (rules, words) in KINDS {
        assert_eq!(warned(&room, rules), [words], "{rules}");
    }
    // What is only near a clash is none.
    for rules in [
        "task a bound to task c\ntask set 2 of a b c\n",
        "task a bound to task c\nblock of partitioning 0: a c\nblock of partitioning 0: b\n",
        "task a bound to task c\nlone-worker ban on template work\n",
        "task a before task b\ntask b before task c\nlone-worker ban on template work\n",
        "task a at most 1 times\ntask a bound to task c\n",
    ] {
        assert_eq!(warned(&room, rules), [""; 0], "{rules}");
    }
}

#[test]
fn open_orders_are_asked_about_where_they_stand() {
    let room = room("journal");
    let policy = file(
        &room,
        "policy.txt",
        "user 1 anna\nuser 2 bert\nuser 3 clara\nrole 0 tester\nrole 1 signer\nuser anna has role tester\nuser bert has role tester\nuser bert has role signer\n\
         user clara has role signer\ntask 0 test of template 0 line\ntask 1 sign of template line\ntask test open to role tester\ntask sign open to role signer\n\
         task test before task sign\ntask set 1 of test sign\n",
    );
    let orders = file(
        &room,
        "orders.csv",
        "time,template,name\n2026-01-01 10:00,line,mill\n",
    );
    let roster = file(&room, "roster.txt", "day 08:00-16:00: anna\n");
    let journal = room.join("desk.db");
    let journal = journal.to_str().unwrap();
    let (told, errors, status) = run(&[
        "staff",
        &policy,
        "--simulate",
        &orders,
        "--roster",
        &roster,
        "--journal",
        journal,
    ]);
    assert!(
        status == 0 && told.contains("1 still open"),
        "{told}{errors}"
    );
    // The test is done by anna: a signer alone can finish what nobody alone could from nothing.
    let found = objects(&[
        "staff",
        "--journal",
        journal,
        "--shift",
        "late=clara",
        "--shift",
        "night=anna",
        "--json",
    ]);
    let said: Vec<(&str, &str, &str)> = found
        .iter()
        .map(|o| {
            (
                o["name"].as_str().unwrap(),
                o["shift"].as_str().unwrap(),
                o["finish"].as_str().unwrap(),
            )
        })
        .collect();
    assert_eq!(
        said,
        [
            ("line", "late", "no"),
            ("line", "night", "no"),
            ("mill", "late", "yes"),
            ("mill", "night", "no")
        ]
    );
    let mill = &found[2];
    assert_eq!(
        (&mill["crews"]["size"], &mill["away"]["any"], &mill["order"]),
        (&1.into(), &0.into(), &0.into())
    );
    let (told, _, _) = run(&["staff", "--journal", journal, "--shift", "late=clara,bert"]);
    assert!(
        told.contains("mill, late: it can be finished")
            && told.contains("any 1 may be away, and no more: without bert and clara"),
        "{told}"
    );
}
