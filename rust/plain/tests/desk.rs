//! The desk program's listing form, its limit of 65,536 bytes, and cut records.

mod common;
use common::*;
use std::fs;
use std::io::{BufRead, BufReader, Write};
use std::path::{Path, PathBuf};
use std::process::{Command, Stdio};

/// What the desk program writes in a folder with this policy file, or without one.
fn desk(name: &str, policy: Option<&[u8]>, requests: &[u8]) -> String {
    let folder = PathBuf::from(env!("CARGO_TARGET_TMPDIR")).join(name);
    let _ = fs::remove_dir_all(&folder);
    fs::create_dir_all(&folder).unwrap();
    if let Some(bytes) = policy {
        fs::write(folder.join("policy.rec"), bytes).unwrap();
    }
    run(&folder, requests)
}

fn run(folder: &Path, requests: &[u8]) -> String {
    let mut child = Command::new(env!("CARGO_BIN_EXE_plain-desk"))
        .current_dir(folder)
        .stdin(Stdio::piped())
        .stdout(Stdio::piped())
        .spawn()
        .unwrap();
    // After a refused load the program reads no request, so the pipe may be closed already.
    let _ = child.stdin.take().unwrap().write_all(requests);
    let output = child.wait_with_output().unwrap();
    let listing = String::from_utf8(output.stdout).unwrap();
    let accepted = listing.starts_with("load 0 0\n");
    assert_eq!(output.status.code(), Some(if accepted { 0 } else { 1 }));
    listing
}

#[test]
fn a_caller_that_waits_for_each_reply_gets_it() {
    let folder = PathBuf::from(env!("CARGO_TARGET_TMPDIR")).join("waits");
    fs::create_dir_all(&folder).unwrap();
    fs::write(folder.join("policy.rec"), []).unwrap();
    let mut child = Command::new(env!("CARGO_BIN_EXE_plain-desk"))
        .current_dir(&folder)
        .stdin(Stdio::piped())
        .stdout(Stdio::piped())
        .spawn()
        .unwrap();
    let mut requests = child.stdin.take().unwrap();
    let mut lines = BufReader::new(child.stdout.take().unwrap()).lines();
    let mut next = || lines.next().unwrap().unwrap();
    assert_eq!(next(), "load 0 0");
    requests.write_all(&add_user(300)).unwrap();
    assert_eq!(next(), "1 0 0");
    requests.write_all(&add_user(300)).unwrap();
    assert_eq!(next(), "2 5 0");
    drop(requests);
    assert!(child.wait().unwrap().success());
}

#[test]
fn one_line_a_request_after_the_load() {
    let requests = [add_user(300), add_user(300), add_user(1024)].concat();
    let got = desk("lines", Some(&[]), &requests);
    assert_eq!(got, "load 0 0\n1 0 0\n2 5 0\n3 3 0\n");
}

#[test]
fn a_cut_last_record_gets_shape() {
    let requests = [add_user(300), add_user(301)[..7].to_vec()].concat();
    assert_eq!(
        desk("cut", Some(&[]), &requests),
        "load 0 0\n1 0 0\n2 2 0\n"
    );
}

#[test]
fn a_refused_load_is_the_only_line() {
    let policy = [user(1), user(1)].concat();
    let got = desk("refused", Some(&policy), &add_user(300));
    assert_eq!(got, "load 5 2\n");
}

#[test]
fn a_policy_file_that_is_missing_or_too_long_is_room() {
    assert_eq!(desk("missing", None, &add_user(300)), "load 1 0\n");
    let long = vec![0; 65_537];
    assert_eq!(desk("long", Some(&long), &[]), "load 1 0\n");
    assert_eq!(desk("longest", Some(&long[1..]), &[]), "load 2 1\n");
    let folder = PathBuf::from(env!("CARGO_TARGET_TMPDIR")).join("missing");
    fs::create_dir(folder.join("policy.rec")).unwrap();
    assert_eq!(run(&folder, &add_user(300)), "load 1 0\n");
}
