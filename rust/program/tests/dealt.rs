//! A dealer's OPL/XML as people meet it: refused rules and warnings by line and column, and the way back.

mod common;

use common::{root, run};
use serde_json::Value;
use std::fs;
use std::path::{Path, PathBuf};

const LOAN: [&str; 3] = [
    "examples/opl_loan/policy.xml",
    "--tasks",
    "examples/opl_loan/tasks.txt",
];

/// A folder of its own for a test.
fn room(name: &str) -> PathBuf {
    let room = Path::new(env!("CARGO_TARGET_TMPDIR")).join(format!("dealt-{name}"));
    let _ = fs::remove_dir_all(&room);
    fs::create_dir_all(&room).unwrap();
    room
}

fn file(room: &Path, name: &str, content: impl AsRef<[u8]>) -> String {
    let path = room.join(name);
    fs::write(&path, content).unwrap();
    path.to_str().unwrap().to_string()
}

/// A policy of a role, two users and three tasks, with what stands for further modules.
fn policy(active: &str, modules: &str) -> String {
    format!(
        "<?xml version=\"1.0\" encoding=\"UTF-8\"?>\n<policy_object>\n<policy_object_attributes/>\n<active_modules>{active}</active_modules>\n\
         <policy_object_modules>\n<module_rbac_core_policy>\n<users><user user_id='anna'/><user user_id='bert'/></users>\n\
         <roles><role role_id='clerk'/></roles><permissions/>\n<user_assignments>\n  <user_assignment user_id='anna' role_id='clerk'/>\n\
         </user_assignments><permission_assignments/></module_rbac_core_policy>\n{modules}\n</policy_object_modules>\n</policy_object>\n"
    )
}

const TASKS: &str = "fix repair\ntest repair\nsign repair\n";

#[test]
fn a_refused_rule_is_told_by_line_and_column() {
    let room = room("refused");
    let modules = "<module_wf_sep_duty_policy><hdsod>\n   <!-- é --><critical_tasks_set cardinality='2'>\n<critical_task task_id='test'/>\
        <critical_task task_id='sign'/></critical_tasks_set></hdsod></module_wf_sep_duty_policy>";
    let xml = file(&room, "policy.xml", policy("", modules));
    let tasks = file(&room, "tasks.txt", TASKS);
    let (told, _, status) = run(&["check", &xml, "--tasks", &tasks]);
    let first = told.lines().next().unwrap();
    assert_eq!(
        first,
        format!("{xml}: line 13, column 14: 7 RULE: task set 2 of test sign")
    );
    assert!(
        told.contains("must be 1 or more and below the number of its members, 2"),
        "{told}"
    );
    assert_eq!(status, 1);
    let (told, _, _) = run(&["check", "--json", &xml, "--tasks", &tasks]);
    let object: Value = serde_json::from_str(&told).unwrap();
    assert_eq!(
        (&object["line"], &object["column"], &object["file"]),
        (&13.into(), &14.into(), &xml.clone().into())
    );
    let (told, _, status) = run(&["run", &xml, "/dev/null", "--tasks", &tasks]);
    assert!(
        told.starts_with("load 7 RULE at line 13, column 14\n"),
        "{told}"
    );
    assert_eq!(status, 1);
}

#[test]
fn a_refused_task_is_told_in_its_own_file() {
    let room = room("task");
    let xml = file(&room, "policy.xml", policy("", ""));
    let tasks = file(&room, "tasks.txt", format!("{TASKS}test other\n"));
    let (told, _, status) = run(&["check", &xml, "--tasks", &tasks]);
    let expected = format!("{tasks}: line 4: 5 TAKEN: task test of template other\n  {tasks}, line 2 has it already: task test of template repair\n");
    assert_eq!((told, status), (expected, 1));
    let (told, _, _) = run(&["check", "--json", &xml, "--tasks", &tasks]);
    let object: Value = serde_json::from_str(&told).unwrap();
    assert_eq!(
        (&object["line"], &object["column"], &object["file"]),
        (&4.into(), &Value::Null, &tasks.clone().into())
    );
}

#[test]
fn warnings_have_line_and_column() {
    let room = room("warnings");
    let active = "\n <active_module name='module_wf_core_policy'/><active_module name='module_rbac_core_policy'/>";
    let xml = file(&room, "policy.xml", policy(active, ""));
    let tasks = file(&room, "tasks.txt", TASKS);
    let (told, _, status) = run(&["check", &xml, "--tasks", &tasks]);
    let missing = format!("{xml}: line 5, column 2: warning: module_wf_core_policy is said to be active, and the text has no such module: it sets no rule\n");
    assert!(told.starts_with(&missing), "{told}");
    let shut =
        format!("{tasks}: line 1: warning: fix is open to no role, so nobody can claim it\n");
    assert!(told.contains(&shut), "{told}");
    assert!(told.ends_with("; 4 warnings\n"), "{told}");
    assert_eq!(status, 0);
    assert_eq!(run(&["check", "--strict", &xml, "--tasks", &tasks]).2, 1);
    let (_, said, status) = run(&["convert", &xml, "--tasks", &tasks, "--to", "text"]);
    assert_eq!((said, status), (format!("mishantral: {missing}"), 0));
}

#[test]
fn bytes_that_are_not_utf_8_are_warned_of() {
    let room = room("latin");
    let mut bytes = policy("", "").into_bytes();
    let at = bytes.windows(4).position(|w| w == b"bert").unwrap();
    bytes[at + 1] = 0xe9;
    let xml = file(&room, "policy.xml", &bytes);
    let (told, _, status) = run(&["check", &xml]);
    let warning = "the text says that it is UTF-8, and the byte 0xe9 here is not; names are compared byte by byte";
    assert!(
        told.starts_with(&format!("{xml}: line 7, column 46: warning: {warning}\n")),
        "{told}"
    );
    assert_eq!(status, 0);
}

/// A policy to OPL/XML and back to records.
fn there_and_back(name: &str, policy: &[&str], options: &[&str]) -> (Vec<u8>, Vec<u8>) {
    let room = room(name);
    let path = |name: &str| room.join(name).to_str().unwrap().to_string();
    let [xml, tasks, before, after] =
        ["policy.xml", "tasks.txt", "before.rec", "after.rec"].map(path);
    let to_opl = [
        &["convert"],
        policy,
        &["--to", "opl", "-o", &xml, "--tasks-to", &tasks],
        options,
    ]
    .concat();
    let (out, said, status) = run(&to_opl);
    assert_eq!((&out[..], status), ("", 0), "{said}");
    let wide = options.iter().filter(|option| **option == "--all-sections");
    let wide: Vec<&str> = wide.copied().collect();
    let written = [&xml[..], "--tasks", &tasks];
    for (input, output) in [(policy, &before), (&written[..], &after)] {
        let to_records = [
            &["convert"],
            input,
            &wide,
            &["--to", "records", "-o", output],
        ]
        .concat();
        assert_eq!(run(&to_records).2, 0);
    }
    (fs::read(before).unwrap(), fs::read(after).unwrap())
}

#[test]
fn a_policy_goes_to_opl_and_back() {
    let (before, after) = there_and_back("loan", &LOAN, &[]);
    assert_eq!(before, after);
    // Names that the policy gives are the dealer's names then.
    let (_, after) = there_and_back("named", &["examples/named.txt"], &["--renumber"]);
    assert!(!after.is_empty());
    let xml = Path::new(env!("CARGO_TARGET_TMPDIR")).join("dealt-named");
    let text = fs::read_to_string(xml.join("policy.xml")).unwrap();
    assert!(
        text.contains("<user_assignment user_id=\"bert\" role_id=\"tester\"/>"),
        "{text}"
    );
    let lines = fs::read_to_string(xml.join("tasks.txt")).unwrap();
    assert!(lines.contains("repair breakdown\n"), "{lines}");
}

#[test]
fn what_opl_cannot_say_is_told_and_nothing_is_written() {
    let room = room("unsaid");
    let text = file(
        &room,
        "policy.txt",
        "user 300 anna\nrole 0 lead\nrole 1 clerk\nrole lead above role clerk\n",
    );
    let xml = room.join("policy.xml");
    let to_opl = ["convert", &text, "--to", "opl", "-o", xml.to_str().unwrap()];
    let (out, said, status) = run(&to_opl);
    let expected = format!(
        "mishantral: {text}: OPL/XML cannot express this: 1 of 1 users: a reader numbers users from 0 on in the order of their declarations, and these have other numbers\n\
         mishantral: {text}: line 4: OPL/XML cannot express this: role lead above role clerk: senior roles are of section 6.2, which is left out\n\
         mishantral: --all-sections writes senior roles and walls too\n\
         mishantral: --renumber writes it with its names, and lets a reader give the numbers\n"
    );
    assert_eq!((format!("{out}{said}"), status), (expected, 1));
    assert!(!xml.exists());
}

const LEADS: [&str; 4] = [
    "examples/opl_leads/policy.xml",
    "--tasks",
    "examples/opl_leads/tasks.txt",
    "--all-sections",
];

/// Role hierarchies, separation of duty in them and walls: each command that reads a policy takes them, where it is asked to.
#[test]
fn all_sections_are_read_where_they_are_asked_for() {
    let (told, said, status) = run(&[&["check"], &LEADS[..]].concat());
    assert_eq!((&said[..], status), ("", 0), "{told}");
    let accepted = "5 roles, 3 tasks of 1 template";
    assert!(
        told.contains(accepted) && !told.contains("warning"),
        "{told}"
    );

    let requests = "examples/opl_leads/requests.txt";
    let (told, _, status) = run(&[&["run"], &LEADS[..], &[requests, "--brief"]].concat());
    let expected = fs::read_to_string(root().join("examples/opl_leads/expected.txt")).unwrap();
    assert_eq!((told, status), (expected, 0));

    let (_, said, status) = run(&[&["check"], &LEADS[..3]].concat());
    let why = "found <module_role_hierarchy_policy>: role hierarchies (section 6.2) are read with --all-sections\n";
    assert!(
        said.contains("line 69, column 5: TEXT: expected <module_"),
        "{said}"
    );
    assert!(status == 2 && said.ends_with(why), "{said}");
}

/// Who has touched what is not read: the message says where bindings come from.
#[test]
fn bindings_come_by_commits() {
    let room = room("touched");
    let leads = fs::read_to_string(root().join(LEADS[0])).unwrap();
    let touched = "<uocws><uocw user_id=\"user:lena\" object_id=\"TermsEast\"/></uocws>";
    let xml = file(&room, "policy.xml", leads.replacen("<uocws/>", touched, 1));
    let (_, said, status) = run(&["check", &xml, LEADS[1], LEADS[2], LEADS[3]]);
    let why = "expected </uocws>, found <uocw>: a policy does not say who has touched what: commits bind users to walls";
    assert!(status == 2 && said.contains(why), "{said}");
}

#[test]
fn all_sections_go_to_opl_and_back() {
    let (before, after) = there_and_back("leads", &LEADS[..3], &["--all-sections"]);
    let kind = |kind: u8| before.chunks(16).filter(|r| r[0] == kind).count();
    assert_eq!((kind(17), kind(18)), (2, 5));
    assert_eq!(before, after);
    let walls = ["examples/price_books/policy.txt"];
    let (_, after) = there_and_back("walls", &walls, &["--all-sections", "--renumber"]);
    assert_eq!(after.chunks(16).filter(|r| r[0] == 18).count(), 5);
}

#[test]
fn wrong_use_of_the_way_back() {
    let named = "examples/named.txt";
    let (_, said, status) = run(&["convert", LOAN[0], LOAN[1], LOAN[2], "--to", "opl"]);
    assert!(
        status == 2 && said.contains("--tasks-to names its file"),
        "{said}"
    );
    let (_, said, status) = run(&["convert", named, "--to", "text", "--renumber"]);
    assert!(status == 2 && said.contains("go with --to opl"), "{said}");
    let both = [
        "convert",
        LOAN[0],
        LOAN[1],
        LOAN[2],
        "--to",
        "opl",
        "--tasks-to",
        LOAN[2],
    ];
    let before = fs::read(root().join(LOAN[2])).unwrap();
    let (_, said, status) = run(&both);
    assert!(
        status == 2 && said.contains("is not written over"),
        "{said}"
    );
    assert_eq!(fs::read(root().join(LOAN[2])).unwrap(), before);
}

/// As an editor on another system saves them: a byte order mark, an encoding in small letters, lines that end with two bytes.
#[test]
fn texts_as_other_programs_write_them() {
    let room = room("saved");
    let xml = policy("", "").replace(
        "encoding=\"UTF-8\"",
        "encoding=\"utf-8\" standalone=\"yes\"",
    );
    let xml = file(
        &room,
        "policy.xml",
        format!("\u{feff}{}", xml.replace('\n', "\r\n")),
    );
    let tasks = file(&room, "tasks.txt", TASKS.replace('\n', "\r\n").trim_end());
    let (told, said, status) = run(&["convert", &xml, "--tasks", &tasks, "--to", "text"]);
    assert_eq!((&said[..], status), ("", 0));
    assert!(
        told.contains("user 1 bert\n") && told.contains("task 2 sign of template repair\n"),
        "{told}"
    );
    // A mark in front of the lines is no part of their first name.
    let marked = file(&room, "marked.txt", format!("\u{feff}{TASKS}"));
    let modules = "<module_wf_prereq_step_policy><prereq_steps><prereq_step task_id='test' prereq_task_id='fix'/></prereq_steps></module_wf_prereq_step_policy>";
    let uses = file(&room, "uses.xml", policy("", modules));
    let (told, _, status) = run(&["check", &uses, "--tasks", &marked]);
    assert!(status == 0 && told.contains("1 rule; 3 warnings"), "{told}");
}
