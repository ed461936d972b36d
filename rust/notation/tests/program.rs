//! `records`, `words` and the lists: their output, their messages and their exit statuses.

mod common;

use common::{file, room, run, run_bytes};

/// The full path of an example's file.
fn example(file: &str) -> String {
    format!("{}/../../examples/{file}", env!("CARGO_MANIFEST_DIR"))
}

#[test]
fn text_to_records_to_text() {
    let (records, said, status) = run_bytes(&["records"], b"user   300 # one\n\nclaim 5 0 1\n");
    assert_eq!((records.len(), &said[..], status), (32, "", 0));
    let (text, said, status) = run(&["words", "-"], &records);
    assert_eq!(text, "user 300\nclaim 5 0 1\n");
    assert_eq!((&said[..], status), ("", 0));
    assert_eq!(run_bytes(&["records"], &records).0, records);
    assert_eq!(run_bytes(&["records"], text.as_bytes()).0, records);
}

#[test]
fn names_are_kept_in_words_and_left_out_of_records() {
    let text = b"user 300 anna\nrole 0 clerk\nuser anna has role clerk\n";
    let (records, _, status) = run_bytes(&["records"], text);
    assert_eq!((records.len(), status), (48, 0));
    assert_eq!(run(&["words"], text).0.as_bytes(), text);
    let numbers = "user 300\nrole 0\nuser 300 has role 0\n";
    assert_eq!(run(&["words", "--numbers"], text).0, numbers);
    let room = room("names");
    let policy = file(&room, "policy.txt", text);
    let request = b"create subject 1 am for user anna with roles clerk\ndestroy subject am\n";
    let (words, said, status) = run(&["words", "--for", &policy], request);
    let shown = "create subject am for user anna with roles clerk\ndestroy subject am\n";
    assert_eq!((&words[..], &said[..], status), (shown, "", 0));
    let (bytes, _, _) = run_bytes(&["records", "--for", &policy], request);
    let plain = "create subject 1 for user 300 with roles 0\ndestroy subject 1\n";
    assert_eq!(notation::write(&bytes), plain);
    assert_eq!(run(&["records"], request).2, 2);
}

#[test]
fn a_wrong_text_writes_nothing_and_says_where() {
    let (written, said, status) = run(&["records"], b"user x\nuser 300\nuser y\n");
    assert_eq!((written.len(), status), (0, 2));
    let message = "mishantral-notation: standard input: line 1, column 6: expected a number up to 1023, found \"x\", and no line above names a user\n\
        mishantral-notation: standard input: line 3, column 6: expected a number up to 1023, found \"y\", and no line above names a user\n";
    assert_eq!(said, message);
}

#[test]
fn a_dealer_s_policy_is_records_and_words() {
    let (policy, tasks) = (
        example("opl_loan/policy.xml"),
        example("opl_loan/tasks.txt"),
    );
    let (records, said, status) = run_bytes(&["records", "--tasks", &tasks, &policy], b"");
    assert_eq!((records.len(), &said[..], status), (98 * 16, "", 0));
    let (words, _, _) = run(&["words", "--tasks", &tasks, &policy], b"");
    assert!(
        words.starts_with("user 0 \"user:klaus_meier\"\n"),
        "{words}"
    );
    assert_eq!(notation::read(words.as_bytes()).unwrap(), records);
    let (numbers, _, _) = run(&["words", "--numbers", "--tasks", &tasks, &policy], b"");
    assert!(
        numbers.ends_with("block of partitioning 1: 9\n"),
        "{numbers}"
    );
}

#[test]
fn a_dealer_s_refusal_names_the_file_the_line_and_what_was_found() {
    let room = room("refusals");
    let (policy, tasks) = (
        example("opl_loan/policy.xml"),
        example("opl_loan/tasks.txt"),
    );
    let text = std::fs::read_to_string(&policy).unwrap();
    let broken = text.replacen("<roles>", "<role_hierarchy/><roles>", 1);
    let broken = file(&room, "broken.xml", broken);
    let (written, said, status) = run(&["records", "--tasks", &tasks, &broken], b"");
    let message = format!(
        "mishantral-notation: {broken}: line 33, column 7: TEXT: expected <roles>, found <role_hierarchy>\n"
    );
    assert_eq!((written.len(), said, status), (0, message, 2));
    let lines = file(&room, "lines.txt", "task:a  wf:b\n");
    let (_, said, _) = run(&["records", "--tasks", &lines, &policy], b"");
    let message = format!(
        "mishantral-notation: {lines}: line 1, column 8: TEXT: expected a template name, found a space\n"
    );
    assert_eq!(said, message);
    let (_, said, _) = run(&["records", &policy], b"");
    let unknown = "line 156, column 46: NAMES: a task that the task lines do not have, \"task:1_input_customer_data\"";
    assert!(said.contains(unknown), "{said}");
    assert!(
        said.contains("--tasks names the file of the task lines"),
        "{said}"
    );
}

#[test]
fn names_of_any_bytes_stand_on_one_line() {
    let text = b"<policy_object><policy_object_attributes/><active_modules/><policy_object_modules>\
        <module_rbac_core_policy><users><user user_id='a\"\\ \n\xff\xc3\xa9'/></users><roles/><permissions/>\
        <user_assignments/><permission_assignments/></module_rbac_core_policy>\
        </policy_object_modules></policy_object>";
    let (words, said, status) = run(&["words"], text);
    let warned = "mishantral-notation: standard input: line 2, column 1: warning: a text without a declared encoding is UTF-8, \
        and the byte 0xff here is not; names are compared byte by byte\n";
    assert_eq!((&said[..], status), (warned, 0));
    assert_eq!(words, "user 0 \"a\\\"\\\\ \\x0a\\xffé\"\n");
}

#[test]
fn lists_and_help() {
    let (forms, _, _) = run(&["forms"], b"");
    assert_eq!(forms.lines().count(), 43);
    let (replies, _, _) = run(&["replies"], b"");
    assert!(replies.ends_with("24 WALL\n"));
    let (help, said, status) = run(&["--help"], b"");
    assert!(help.starts_with("Records as lines"));
    assert_eq!((&said[..], status), ("", 0));
}

#[test]
fn wrong_use_is_status_2() {
    for arguments in [
        &[][..],
        &["other"],
        &["records", "one", "two"],
        &["records", "no/such/file"],
        &["records", "--wrods"],
        &["records", "--tasks"],
        &["words", "--for", "no/such/file"],
        &["desk"],
        &["desk", "policy.rec"],
    ] {
        let (written, said, status) = run(arguments, b"");
        assert_eq!((written.len(), status), (0, 2), "{arguments:?}");
        let called = match arguments.first() {
            Some(&"desk") => "desk: ",
            _ => "mishantral-notation: ",
        };
        assert!(said.starts_with(called), "{said}");
    }
}
