//! The command `desk`, with a desk program that prints a listing made by the test.

mod common;

use common::{file, room, run};
use std::path::Path;

/// A desk program that prints this listing, or only the load's line if there are no requests.
fn program(room: &Path, listing: &str) -> String {
    let listing = file(room, "listing", listing);
    format!("if [ -s requests.rec ]; then cat '{listing}'; else head -n 1 '{listing}'; fi")
}

/// Runs the command with a separate folder for the program.
fn desk(room: &Path, listing: &str, arguments: &[&str]) -> (String, String, i32) {
    let program = program(room, listing);
    let inner = room.join("room");
    std::fs::create_dir_all(&inner).unwrap();
    let inner = inner.to_str().unwrap();
    let begin = ["desk", "--program", &program, "--room", inner];
    run(&[&begin, arguments].concat(), b"")
}

const POLICY: &str = "user 300 anna\nrole 0\nrole 1 clerk\n";
const REQUESTS: &str =
    "add user 7 bert with roles clerk\nadd user 300\nassign role 0 to user anna\n";
const LISTING: &str = "load 0 0\n1 0 0\n2 5 0\n3 0 0\n";

#[test]
fn a_listing_is_shown_bare_or_in_words() {
    let room = room("shown");
    let policy = file(&room, "policy.txt", POLICY);
    let requests = file(&room, "requests.txt", REQUESTS);
    let shown = desk(&room, LISTING, &[&policy, &requests]);
    assert_eq!(shown, (LISTING.to_string(), String::new(), 0));
    let (words, said, status) = desk(&room, LISTING, &["--words", &policy, &requests]);
    let expected = "load 0 GRANTED\n    1   0 GRANTED       add user 7 with roles clerk\n    2   5 TAKEN         add user anna\n\
        \u{20}   3   0 GRANTED       assign role 0 to user anna\n";
    assert_eq!((&words[..], &said[..], status), (expected, "", 0));
}

#[test]
fn a_refused_policy_is_told_by_its_line() {
    let room = room("refused");
    let policy = file(&room, "twice.txt", "user 3 anna\n\nuser anna\n");
    let (shown, said, status) = desk(&room, "load 5 2\n", &[&policy]);
    assert_eq!((&shown[..], status), ("load 5 2\n", 1));
    assert_eq!(
        said,
        format!("desk: {policy}: line 3: 5 TAKEN: user anna\n")
    );
    let (shown, _, _) = desk(&room, "load 5 2\n", &["--words", &policy]);
    assert_eq!(shown, "load 5 TAKEN at record 2: user anna\n");
    let swapped = file(&room, "swapped.txt", "add user 3\n");
    let (_, said, _) = desk(&room, "load 2 1\n", &[&swapped]);
    assert!(
        said.ends_with("are policy and requests swapped?\n"),
        "{said}"
    );
    let larger = file(&room, "larger.rec", vec![0; 65_537]);
    let (_, said, status) = desk(&room, "load 1 0\n", &[&larger]);
    assert!(
        said.contains("its records are 65537 bytes; a policy has at most 65536"),
        "{said}"
    );
    assert_eq!(status, 1);
}

#[test]
fn the_policy_after_the_requests_is_written_where_the_listing_is_the_engine_s() {
    let room = room("written");
    let policy = file(&room, "policy.txt", POLICY);
    let requests = file(&room, "requests.txt", REQUESTS);
    let to = |name: &str| room.join(name).to_str().unwrap().to_string();
    let text = to("now.txt");
    assert_eq!(
        desk(&room, LISTING, &["--write", &text, &policy, &requests]).2,
        0
    );
    let written = "user 7 bert\nuser 300 anna\nrole 0\nrole 1 clerk\nuser bert has role clerk\nuser anna has role 0\n";
    assert_eq!(std::fs::read_to_string(&text).unwrap(), written);
    let records = to("now.rec");
    assert_eq!(
        desk(&room, LISTING, &["--write", &records, &policy, &requests]).2,
        0
    );
    let bytes = std::fs::read(&records).unwrap();
    assert_eq!(bytes, notation::read(written.as_bytes()).unwrap());
    for (listing, told) in [
        ("load 0 0\n1 0 0\n2 0 0\n3 0 0\n", "line 3"),
        ("load 0 0\n1 0 0\n", "not complete"),
        ("load 0 0\n1 0 0\n2 5 0\n3 0 0", "not complete"),
    ] {
        let none = to("none.txt");
        let (shown, said, status) = desk(&room, listing, &["--write", &none, &policy, &requests]);
        assert_eq!((&shown[..], status), ("", 2), "{said}");
        assert!(said.contains(told), "{said}");
        assert!(!Path::new(&none).exists());
    }
}

#[test]
fn what_can_be_judged_without_the_program_is_judged_alone() {
    let room = room("look");
    let policy = file(&room, "policy.txt", POLICY);
    let wrong = file(&room, "wrong.txt", "user 300 has rolle 0\n");
    let look = |arguments: &[&str]| run(&[&["desk", "--look"], arguments].concat(), b"");
    assert_eq!(look(&[&policy]), (String::new(), String::new(), 0));
    assert_eq!(look(&["--write", "now.rec", &policy]).0, "library\n");
    for arguments in [
        &[&wrong[..]][..],
        &[&policy, &wrong],
        &[&policy, "no/such/file"],
    ] {
        let (_, said, status) = look(arguments);
        assert_eq!(status, 2);
        assert!(said.starts_with("desk: "), "{said}");
    }
}

#[test]
fn a_program_that_fails_is_told() {
    let room = room("fails");
    let policy = file(&room, "policy.txt", POLICY);
    let inner = room.to_str().unwrap();
    let run = |program: &str| {
        run(
            &[
                "desk",
                "--program",
                program,
                "--room",
                inner,
                &policy,
                &policy,
            ],
            b"",
        )
    };
    assert_eq!(
        run("exit 3"),
        (
            String::new(),
            "desk: the desk program failed\n".to_string(),
            2
        )
    );
    assert!(run("echo lod 0 0").1.contains("expected \"load\""));
}
