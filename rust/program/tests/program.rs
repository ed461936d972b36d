//! The program as its users have it: run on the examples and on small files, its output, its errors and its exit statuses compared.

use serde_json::Value;
use std::io::{BufRead, BufReader, Read, Write};
use std::path::{Path, PathBuf};
use std::process::{Command, Output, Stdio};

fn root() -> PathBuf {
    Path::new(env!("CARGO_MANIFEST_DIR"))
        .join("../..")
        .canonicalize()
        .unwrap()
}

/// The program, in the repository's folder.
fn mishantral(arguments: &[&str]) -> Command {
    let mut command = Command::new(env!("CARGO_BIN_EXE_mishantral"));
    command.args(arguments).current_dir(root());
    command
}

fn with_input(arguments: &[&str], input: &[u8]) -> Output {
    let mut command = mishantral(arguments);
    command
        .stdin(Stdio::piped())
        .stdout(Stdio::piped())
        .stderr(Stdio::piped());
    let mut child = command.spawn().unwrap();
    let mut to = child.stdin.take().unwrap();
    let input = input.to_vec();
    let writer = std::thread::spawn(move || drop(to.write_all(&input)));
    let output = child.wait_with_output().unwrap();
    writer.join().unwrap();
    output
}

/// What it writes, what it says and its exit status.
fn said(output: Output) -> (String, String, i32) {
    let text = |bytes| String::from_utf8(bytes).unwrap();
    (
        text(output.stdout),
        text(output.stderr),
        output.status.code().unwrap(),
    )
}

fn run(arguments: &[&str]) -> (String, String, i32) {
    said(with_input(arguments, b""))
}

/// A folder of its own for a test.
fn room(name: &str) -> PathBuf {
    let room = Path::new(env!("CARGO_TARGET_TMPDIR")).join(name);
    let _ = std::fs::remove_dir_all(&room);
    std::fs::create_dir_all(&room).unwrap();
    room
}

/// A file in a room, by its whole name.
fn file(room: &Path, name: &str, content: impl AsRef<[u8]>) -> String {
    let path = room.join(name);
    std::fs::write(&path, content).unwrap();
    path.to_str().unwrap().to_string()
}

const LISTING: [&str; 2] = [
    "examples/listing/policy.txt",
    "examples/listing/requests.txt",
];

#[test]
fn plain_is_the_desk_listing_from_text_and_from_records() {
    let [policy, requests] = LISTING;
    let listing = std::fs::read_to_string(root().join("examples/listing/listing.txt")).unwrap();
    assert_eq!(
        run(&["run", "--plain", policy, requests]),
        (listing.clone(), String::new(), 0)
    );
    let room = room("plain");
    let records = |name: &str, arguments: &[&str]| {
        let to = room.join(name).to_str().unwrap().to_string();
        assert_eq!(
            run(&[arguments, &["--to", "records", "-o", &to]].concat()).2,
            0
        );
        to
    };
    let policy_rec = records("policy.rec", &["convert", policy]);
    let requests_rec = records("requests.rec", &["convert", policy, "--requests", requests]);
    let bytes = std::fs::read(&requests_rec).unwrap();
    assert_eq!(bytes.len(), 13 * 16);
    let piped = said(with_input(&["run", "--plain", &policy_rec, "-"], &bytes));
    assert_eq!(piped, (listing.clone(), String::new(), 0));
    let cut = said(with_input(&["run", "--plain", &policy_rec], &bytes[..40]));
    assert_eq!(cut.0, "load 0 0\n1 0 0\n2 0 0\n3 2 0\n");
    assert_eq!(
        run(&["run", "--plain", &policy_rec, &requests_rec]).0,
        listing
    );
    // The desk program takes no longer policy than 65,536 bytes.
    let long = file(&room, "long.rec", vec![0; 65_552]);
    assert_eq!(
        run(&["run", "--plain", &long]),
        ("load 1 0\n".to_string(), String::new(), 1)
    );
}

/// The examples: folders with a policy, its task lines where it is OPL/XML, requests and what is expected of them.
fn examples() -> Vec<(PathBuf, Vec<String>)> {
    let folders = std::fs::read_dir(root().join("examples")).unwrap();
    let folders = folders.map(|entry| entry.unwrap().path());
    let with_files = folders.filter(|path| path.join("expected.txt").exists());
    let files = |path: PathBuf| {
        let name = |file: &str| path.join(file).to_str().unwrap().to_string();
        let mut files = match path.join("policy.xml").exists() {
            true => vec![
                name("policy.xml"),
                name("requests.txt"),
                "--tasks".to_string(),
                name("tasks.txt"),
            ],
            false => vec![name("policy.txt"), name("requests.txt")],
        };
        let options = std::fs::read_to_string(path.join("options.txt")).unwrap_or_default();
        files.extend(options.lines().map(str::to_string));
        (path, files)
    };
    with_files.map(files).collect()
}

/// The listing of each example, in the words of `./desk`, is the example's.
#[test]
fn the_examples_are_as_expected() {
    let examples = examples();
    assert!(examples.len() >= 8, "{examples:?}");
    for (folder, files) in examples {
        let files: Vec<&str> = files.iter().map(String::as_str).collect();
        let (listing, _, status) = run(&[&["run", "--plain"], &files[..]].concat());
        assert_eq!(status, 0);
        let how = notation::source::Reading {
            tasks: files.get(3).copied(),
            format: None,
            sections: match files.contains(&"--all-sections") {
                true => notation::dealer::Sections::All,
                false => notation::dealer::Sections::Asked,
            },
        };
        let policy = notation::source::policy(files[0], &how).unwrap();
        let requests = notation::source::requests(files[1], &policy.names).unwrap();
        let words =
            notation::explain(Some(&policy.bytes), &requests, &listing, &policy.names).unwrap();
        let expected = std::fs::read_to_string(folder.join("expected.txt")).unwrap();
        assert_eq!(words, expected);
        // The program's own words have the same line for each request.
        let (brief, _, _) = run(&[&["run", "--brief"], &files[..]].concat());
        let placed = |line: &&str| !line.starts_with("      ");
        let expected: Vec<&str> = expected.lines().filter(placed).collect();
        let brief: Vec<&str> = brief.lines().filter(placed).collect();
        assert_eq!(brief, expected);
    }
}

fn test_files() -> Vec<String> {
    let mut files = Vec::new();
    for folder in ["examples", "examples/asks"] {
        for entry in std::fs::read_dir(root().join(folder)).unwrap() {
            let name = entry.unwrap().file_name().into_string().unwrap();
            if name.ends_with(".test") {
                files.push(format!("{folder}/{name}"));
            }
        }
    }
    files.sort();
    files
}

#[test]
fn the_test_files_pass() {
    let files = test_files();
    assert!(files.len() >= 12, "{files:?}");
    let arguments: Vec<&str> = ["test"]
        .into_iter()
        .chain(files.iter().map(String::as_str))
        .collect();
    let (told, wrong, status) = run(&arguments);
    let passed: usize = told.split(' ').next().unwrap().parse().unwrap();
    assert_eq!(
        (told, wrong, status),
        (format!("{passed} passed, 0 failed\n"), String::new(), 0)
    );
    assert!(passed > 120, "{passed}");
}

#[test]
fn a_failed_test_says_what_came_instead_and_update_writes_it() {
    let room = room("update");
    let text = "# anna alone\nuser 1 anna\nrole 0 clerk\nload\nadd user 1  => GRANTED  # again\nadd user 2\n\
                delete user anna => 4\nuser 1\nuser 1\nload => 0\n";
    let test = file(&room, "a.test", text);
    let (told, wrong, status) = run(&["test", &test]);
    assert_eq!((wrong.as_str(), status), ("", 1));
    let expected = format!(
        "{test}: line 5: expected 0 GRANTED, got 5 TAKEN: add user anna\n    anna is declared already\n\
         {test}: line 7: expected 4 UNKNOWN, got 0 GRANTED: delete user anna\n\
         {test}: line 10: expected 0 GRANTED, got 5 TAKEN, record 2: load\n    {test}, line 9: user 1\n    line 8 has it already: user 1\n\
         2 passed, 3 failed\n"
    );
    assert_eq!(told, expected);
    let (told, _, status) = run(&["test", "--update", &test]);
    assert_eq!(
        (told.as_str(), status),
        (
            format!("{test}: 3 updated\n2 passed, 0 failed, 3 updated\n").as_str(),
            0
        )
    );
    let updated = "# anna alone\nuser 1 anna\nrole 0 clerk\nload\nadd user 1  => 5 TAKEN    # again\nadd user 2\n\
                   delete user anna => 0 GRANTED\nuser 1\nuser 1\nload              => 5 TAKEN, record 2\n";
    let now = std::fs::read_to_string(&test).unwrap();
    assert_eq!(now.replace(' ', ""), updated.replace(' ', ""), "{now}");
    assert_eq!(
        run(&["test", &test]),
        ("5 passed, 0 failed\n".to_string(), String::new(), 0)
    );
    // A refused load that no line expects is not for --update to accept.
    let load = file(&room, "load.test", "user 1\nuser 1\nadd user 2\n");
    for arguments in [&["test", &load][..], &["test", "--update", &load]] {
        let (told, _, status) = run(arguments);
        assert!(
            told.contains("line 3: expected 0 GRANTED, got 5 TAKEN, record 2: load\n"),
            "{told}"
        );
        assert_eq!(status, 1);
    }
    let empty = file(&room, "empty.test", "# nothing\n");
    assert_eq!(run(&["test", &empty]).2, 2);
    let wrong = file(
        &room,
        "wrong.test",
        "user 1\nadd user 2 => MAYBE\nclam 1 2 3\n",
    );
    let (told, errors, status) = run(&["test", &wrong]);
    assert_eq!((told.as_str(), status), ("", 2));
    let errors: Vec<&str> = errors.lines().collect();
    assert!(
        errors[0]
            .ends_with("line 2, column 15: expected a reply, by number or name, found \"MAYBE\""),
        "{errors:?}"
    );
    assert!(
        errors[1].ends_with("line 3, column 1: expected \"claim\", found \"clam\""),
        "{errors:?}"
    );
}

#[test]
fn blocks_of_a_test_file_fail_line_by_line() {
    let room = room("blocks");
    let text = "user 1 anna\nrole 0 clerk\nrole 1 lead\npile\n  add user 2\n  add user anna\nend pile\n\
                pile at 1 of 1\n  add user 3\nend pile\nwritten\n  user anna\n  role clerk\n  role lead\nend written\n\
                mend\n  user 5 eva\n  user eva\n  bytes 01 => TAKEN\nend mend\nadd user eva => 5\n";
    let test = file(&room, "a.test", text);
    let (told, wrong, status) = run(&["test", &test]);
    let expected = [
        "6: expected 0 GRANTED, got 5 TAKEN: add user anna",
        "10: expected 0 GRANTED, got 1 ROOM: end pile",
        "13: expected role clerk, got user 2",
        "14: expected role lead, got role clerk",
        "15: expected the end of the policy, got role lead",
        "18: expected 0 GRANTED, got 5 TAKEN: user eva",
        "19: expected 5 TAKEN, got 2 SHAPE: bytes 01",
    ];
    let expected = expected.map(|line| format!("{test}: line {line}\n"));
    let expected = format!("{}5 passed, 7 failed\n", expected.concat());
    assert_eq!((told, wrong.as_str(), status), (expected, "", 1));
    let (told, _, _) = run(&["test", "--update", &test]);
    assert!(told.contains(": 4 updated\n"), "{told}");
    let now = std::fs::read_to_string(&test).unwrap();
    assert!(
        now.contains("end pile") && now.contains("=> 1 ROOM"),
        "{now}"
    );
    assert!(run(&["test", &test]).0.ends_with("9 passed, 3 failed\n"));
    let open = file(&room, "open.test", "user 1\npile\nadd user 2\n");
    let (_, wrong, status) = run(&["test", &open]);
    assert_eq!(status, 2);
    let end = "expected \"end pile\", found the end of the file\n";
    assert!(wrong.ends_with(end), "{wrong}");
}

const MONTH: [&str; 2] = ["examples/month/policy.txt", "examples/month/requests.txt"];

#[test]
fn a_policy_is_written_out_as_it_is_after_the_requests() {
    let room = room("write");
    let [policy, requests] = MONTH;
    let written = std::fs::read_to_string(root().join("examples/month/written.txt")).unwrap();
    let arguments = ["write", policy, requests];
    assert_eq!(run(&arguments), (written.clone(), String::new(), 0));
    // To a file by its name: text, or records; what is written is written the same again.
    let name = |file: &str| room.join(file).to_str().unwrap().to_string();
    let (text, records) = (name("now.txt"), name("now.rec"));
    for to in [&text, &records] {
        let (told, _, status) = run(&[&arguments[..], &["-o", to]].concat());
        let line = format!("{to}: 26 records, 13 requests granted and 2 refused\n");
        assert_eq!((told, status), (line, 0));
    }
    assert_eq!(std::fs::read_to_string(&text).unwrap(), written);
    assert_eq!(std::fs::read(&records).unwrap().len(), 16 * 26);
    for again in [&text, &records] {
        assert_eq!(run(&["write", again]).0, written);
    }
    // A refused policy writes nothing, and a file that is there stays.
    let wrong = file(&room, "wrong.txt", "user 1\nuser 1\n");
    let (told, why, status) = run(&["write", &wrong, "-o", &text]);
    assert_eq!((told.as_str(), status), ("", 1));
    assert!(why.contains("line 2: 5 TAKEN: user 1"), "{why}");
    assert_eq!(std::fs::read_to_string(&text).unwrap(), written);
    assert_eq!(run(&["write"]).2, 2);
    assert_eq!(run(&["write", policy, "-o", "/nowhere/at/all"]).2, 2);
}

/// Names of the policy and of its requests are written where their numbers are declared.
#[test]
fn a_policy_is_written_with_its_names() {
    let room = room("named");
    let policy =
        "role 1 signer\nrole 0 \"the clerk\"\nuser 300 anna\ntask 0 sign of template 2 loan\n";
    let policy = file(&room, "policy.txt", policy);
    let requests = "add user 44 bert with roles \"the clerk\"\nassign role signer to user anna\n";
    let requests = file(&room, "requests.txt", requests);
    let (named, _, status) = run(&["write", &policy, &requests]);
    let expected = "user 44 bert\nuser 300 anna\nrole 0 \"the clerk\"\nrole 1 signer\nuser bert has role \"the clerk\"\n\
                    user anna has role signer\ntask 0 sign of template 2 loan\n";
    assert_eq!((named.as_str(), status), (expected, 0));
    let (numbers, _, _) = run(&["write", "--numbers", &policy, &requests]);
    assert!(
        numbers.starts_with("user 44\nuser 300\nrole 0\n"),
        "{numbers}"
    );
    let again = file(&room, "again.txt", &named);
    assert_eq!(run(&["write", &again]).0, named);
}

#[test]
fn a_damaged_file_is_mended_and_its_report_is_in_words() {
    let room = room("mend");
    let read =
        |name: &str| std::fs::read_to_string(root().join("examples/mend").join(name)).unwrap();
    let damaged = "examples/mend/damaged.rec";
    let report = read("report.txt");
    let (told, wrong, status) = run(&["mend", damaged]);
    let nothing = "; nothing is written, -o says where to\n";
    assert_eq!(told, format!("{}{nothing}", report.trim_end()));
    assert_eq!((wrong.as_str(), status), ("", 1));
    let mended = room.join("mended.rec").to_str().unwrap().to_string();
    let (told, _, status) = run(&["mend", damaged, "-o", &mended]);
    assert_eq!(
        told,
        format!("{}; written to {mended}\n", report.trim_end())
    );
    assert_eq!(status, 1);
    let (text, _, _) = run(&["convert", &mended, "--to", "text"]);
    assert_eq!(text, read("mended.txt"));
    // On standard output, the report goes beside it.
    let (text, told, status) = run(&["mend", damaged, "-o", "-"]);
    assert_eq!(
        (text, told, status),
        (read("mended.txt"), report.clone(), 1)
    );
    // What is written loads, and comes out the same.
    let (told, _, status) = run(&["mend", &mended]);
    let line = format!("{mended}: 19 records kept, 0 dropped{nothing}");
    assert_eq!((told, status), (line, 0));
    assert_eq!(run(&["check", &mended]).2, 0);
    // The damaged file itself is never written to.
    let before = std::fs::read(&mended).unwrap();
    let (_, wrong, status) = run(&["mend", &mended, "-o", &mended]);
    assert_eq!(status, 2);
    assert!(wrong.contains("the damaged file is kept"), "{wrong}");
    assert_eq!(std::fs::read(&mended).unwrap(), before);
    // One object a line.
    let (objects, _, _) = run(&["mend", "--json", damaged]);
    let objects: Vec<Value> = objects
        .lines()
        .map(|line| serde_json::from_str(line).unwrap())
        .collect();
    assert_eq!(objects[0]["record"], 2);
    assert_eq!(objects[0]["name"], "RANGE");
    assert_eq!(objects.last().unwrap()["kept"], 19);
}

/// A text may be mended too: its lines are reported by their numbers, and its names stay.
#[test]
fn a_text_is_mended_with_its_names() {
    let room = room("mend_text");
    let text = "# two annas\nuser 300 anna\nrole 0 clerk\nuser 300\nuser anna has role clerk\nuser anna has role 7\n";
    let damaged = file(&room, "damaged.txt", text);
    let mended = room.join("mended.txt").to_str().unwrap().to_string();
    let (told, _, status) = run(&["mend", &damaged, "-o", &mended]);
    let expected = format!(
        "line 4: 5 TAKEN  user anna\nline 6: 4 UNKNOWN  user anna has role 7\n{damaged}: 3 records kept, 2 dropped; written to {mended}\n"
    );
    assert_eq!((told, status), (expected, 1));
    let kept = "user 300 anna\nrole 0 clerk\nuser anna has role clerk\n";
    assert_eq!(std::fs::read_to_string(&mended).unwrap(), kept);
    // Records that begin as OPL/XML would are records all the same.
    let odd = file(&room, "odd", [&b"<\0\0\0"[..], &[0; 12]].concat());
    assert!(run(&["mend", &odd])
        .0
        .starts_with("record 1: 2 SHAPE  stuck tasks of template 0\n"));
    assert_eq!(run(&["mend", "/nowhere/at/all"]).2, 2);
}

#[test]
fn check_tells_every_error_or_the_clash_or_the_warnings() {
    let room = room("check");
    let wrong = file(
        &room,
        "wrong.txt",
        "user 300 anna\nuser anna has rolle 0\nrole 0\nusr 3\n",
    );
    let (told, errors, status) = run(&["check", &wrong]);
    assert_eq!((told.as_str(), status, errors.lines().count()), ("", 2, 2));
    assert!(
        errors.contains("line 2, column 15: expected \"role\", found \"rolle\""),
        "{errors}"
    );
    let clash = |name: &str, text: &str, lines: &[&str]| {
        let name = file(&room, name, text);
        let (told, errors, status) = run(&["check", &name]);
        let lines: Vec<String> = lines
            .iter()
            .map(|line| line.replace("FILE", &name) + "\n")
            .collect();
        assert_eq!((told, errors.as_str(), status), (lines.concat(), "", 1));
    };
    clash(
        "taken.txt",
        "user 300 anna\nrole 0\nuser 300\n",
        &[
            "FILE: line 3: 5 TAKEN: user anna",
            "  line 1 has it already: user anna",
        ],
    );
    clash(
        "unknown.txt",
        "user 300 anna\nuser anna has role 2\nrole 2 clerk\n",
        &[
            "FILE: line 2: 4 UNKNOWN: user anna has role clerk",
            "  clerk is not declared",
            "  clerk is declared later, at line 3: a record uses what is declared before it",
        ],
    );
    let roles = "role 0 clerk\nrole 1 lead\nrole 2 signer\nrole lead above role clerk\nstatic set 1 of clerk signer\nuser 1 anna\n";
    clash(
        "senior.txt",
        &format!("{roles}user anna has role lead\nuser anna has role signer\n"),
        &[
            "FILE: line 8: 9 STATIC: user anna has role signer",
            "  static set 1 of clerk signer (FILE, line 5)",
            "  anna would be assigned clerk (below lead) and signer, and may have 1 of these",
        ],
    );
    clash(
        "raised.txt",
        &format!("{roles}user anna has role signer\nrole 3 head\nrole signer above role head\nrole head above role lead\n"),
        &[
            "FILE: line 10: 9 STATIC: role head above role lead",
            "  anna would have clerk and signer; line 5 says: static set 1 of clerk signer",
        ],
    );
    clash(
        "loop.txt",
        &format!("{roles}role 3 head\nrole head above role lead\nrole clerk above role head\n"),
        &[
            "FILE: line 9: 23 LOOP: role clerk above role head",
            "  head stands above clerk already (line 8: role head above role lead, line 4: role lead above role clerk)",
        ],
    );
    clash(
        "static.txt",
        "user 1 anna\nrole 0 a\nrole 1 b\nstatic set 1 of a b\nuser anna has role a\nuser anna has role b\n",
        &["FILE: line 6: 9 STATIC: user anna has role b", "  static set 1 of a b (FILE, line 4)", "  anna would be assigned a and b, and may have 1 of these"],
    );
    clash(
        "rule.txt",
        "task 0 a of template 0\ntask 1 b of template 1\ntask a before task b\n",
        &[
            "FILE: line 3: 7 RULE: task a before task b",
            "  its tasks must be of one template: a is of template 0, b is of template 1",
        ],
    );
    clash("blocks.txt", "task 0 a of template 0\ntask 1 b of template 0\nblock of partitioning 3: a b\nblock of partitioning 3: b\n", &["FILE: line 4: 7 RULE: block of partitioning 3: b", "  line 3 has b too: block of partitioning 3: a b"]);
    clash(
        "range.txt",
        "user 1024\n",
        &[
            "FILE: line 1: 3 RANGE: user 1024",
            "  user 1024: the largest is 1023",
        ],
    );
    clash(
        "swapped.txt",
        "claim 1 2 3\n",
        &[
            "FILE: line 1: 2 SHAPE: claim 1 2 3",
            "  it is a request: are policy and requests swapped?",
        ],
    );
    let cut = file(&room, "cut.rec", [&[1; 1][..], &[0; 20]].concat());
    let (told, _, status) = run(&["check", &cut]);
    assert!(
        told.contains("record 2: 2 SHAPE: bytes 00 00 00 00 00")
            && told.contains("5 are left over"),
        "{told}"
    );
    assert_eq!(status, 1);
}

#[test]
fn check_warns_of_what_planning_would_want_to_know() {
    let stuck = "examples/stuck_order/policy.txt";
    let (told, _, status) = run(&["check", stuck]);
    let expected = format!(
        "{stuck}: line 12: warning: template 0: prerequisites that go in a circle leave task 0 and task 1 waiting for ever\n\
         {stuck}: line 24: warning: task 2 bound to task 3 clashes with task set 1 of 2 3 (line 25): a binding inside a task set of 1: \
         one clerk must do task 2 and task 3, and may do one of them; no order of template 1 can be finished\n\
         {stuck}: line 32: warning: lone-worker ban on template 2: a lone worker's template: one clerk alone has roles for its tasks, and may \
         not do all; no order of template 2 can be finished\n\
         {stuck}: line 36: warning: task 6 is open to no role, so nobody can claim it\n\
         {stuck}: accepted: 2 users, 2 roles, 8 tasks of 4 templates, 5 rules; 4 warnings\n"
    );
    assert_eq!((told, status), (expected, 0));
    assert_eq!(run(&["check", "--strict", stuck]).2, 1);
    let room = room("warnings");
    let text = "user 1 anna\nuser 2 bert\nrole 0 clerk\nrole 1 chief\nrole 2 nobody\nuser anna has role clerk\nuser anna has role chief\n\
                user bert has role clerk\ntask 0 a of template 0\ntask 1 b of template 0\ntask 2 c of template 0\ntask 3 d of template 0\n\
                task a open to role chief\ntask b open to role chief\ntask c open to role clerk\ntask d open to role nobody\n\
                task set 1 of a b\nblock of partitioning 0: a\nblock of partitioning 0: b\nblock of partitioning 1: a\nblock of partitioning 1: c\n";
    let name = file(&room, "policy.txt", text);
    let (told, _, status) = run(&["check", &name]);
    let expected = format!(
        "{name}: line 5: warning: no user has nobody\n\
         {name}: line 12: warning: d is open to nobody alone, which no user has, so nobody can claim it\n\
         {name}: line 17: warning: task set 1 of a b: a limit below what a set needs: 2 tasks, 1 for one clerk, take 2 clerks or more with roles \
         for them; no order of template 0 can be finished\n\
         {name}: line 18: warning: block of partitioning 0: a clashes with block of partitioning 0: b (line 19): the blocks need more clerks with these \
         roles than there are; no order of template 0 can be finished\n\
         {name}: accepted: 2 users, 3 roles, 4 tasks of 1 template, 5 rules; 4 warnings\n"
    );
    assert_eq!((told, status), (expected, 0));
    let fine = [
        "listing/policy.txt",
        "loan/policy.txt",
        "night_shift/policy.txt",
        "named.txt",
    ];
    for fine in fine {
        let (told, _, status) = run(&["check", "--strict", &format!("examples/{fine}")]);
        assert!(status == 0 && told.lines().count() == 1, "{told}");
    }
}

#[test]
fn a_refusal_says_the_rule_the_entries_and_who_could() {
    let requests = "create subject 1 for user anna with roles fitter\ncreate subject 2 for user bert with roles fitter tester\n\
                    open order 0 of template breakdown\nclaim 2 0 repair\ndone 2 0 repair\nclaim 2 0 test\n";
    let (told, wrong, status) = said(with_input(
        &["run", "examples/named.txt"],
        requests.as_bytes(),
    ));
    assert_eq!((wrong.as_str(), status), ("", 0));
    let expected = "    6  15 SEPARATION    claim 2 0 test
                          task set 1 of repair test sign (examples/named.txt, line 49)
                          bert has repair (done)
                          test could be claimed now by clara in a new subject with tester and gerda in a new subject with tester
";
    let at = told.find("    6  ").unwrap_or_else(|| panic!("{told}"));
    let line = std::fs::read_to_string(root().join("examples/named.txt")).unwrap();
    let line = 1 + line
        .lines()
        .position(|l| l.starts_with("task set 1"))
        .unwrap();
    assert_eq!(
        told[at..],
        expected.replace("line 49", &format!("line {line}"))
    );
}

#[test]
fn json_is_one_object_a_line() {
    let [policy, requests] = LISTING;
    let (told, _, status) = run(&["run", "--json", policy, requests]);
    let lines: Vec<Value> = told
        .lines()
        .map(|line| serde_json::from_str(line).unwrap())
        .collect();
    assert_eq!((status, lines.len()), (0, 14));
    assert_eq!(lines[0]["load"], 0);
    let eighth = &lines[8];
    assert_eq!(
        (&eighth["place"], &eighth["reply"], &eighth["name"]),
        (&8.into(), &15.into(), &"SEPARATION".into())
    );
    assert_eq!(eighth["request"], "claim 5 0 1");
    assert_eq!(eighth["why"]["rule"]["text"], "task set 1 of 0 1");
    assert_eq!(eighth["why"]["because"][0], "user 300 has task 0 (done)");
    let who = &eighth["why"]["could_claim"]["who"];
    assert_eq!(
        (
            who.as_array().unwrap().len(),
            &who[0]["user"],
            &who[0]["subject"]
        ),
        (1, &301.into(), &6.into())
    );
    assert!(lines[5].get("why").is_none());
    let room = room("json");
    let refused = file(&room, "policy.txt", "user 1\nuser 1\n");
    let (told, _, status) = run(&["run", "--json", &refused]);
    let object: Value = serde_json::from_str(&told).unwrap();
    assert_eq!(
        (status, &object["load"], &object["place"], &object["line"]),
        (1, &5.into(), &2.into(), &2.into())
    );
}

#[test]
fn a_granted_question_has_its_figures() {
    let room = room("figures");
    let policy = file(
        &room,
        "policy.txt",
        "user 1 anna\nrole 0\nuser anna has role 0\ntask 0 test of template 0\ntask 3 sign of template 0\ntask test open to role 0\n\
         task sign open to role 0\n",
    );
    let requests = file(
        &room,
        "requests.txt",
        "create subject 5 for user anna with roles 0\nopen order 7 of template 0\nclaim 5 7 sign\ndone 5 7 sign\nclaim 5 7 test\n\
         entries of order 7\nentries of order 8\n",
    );
    let (told, _, _) = run(&["run", "--brief", &policy, &requests]);
    let last: Vec<&str> = told.lines().skip(6).collect();
    let expected = [
        "    6   0 GRANTED       entries of order 7",
        "                          2 entries, done sign",
        "    7   4 UNKNOWN       entries of order 8",
    ];
    assert_eq!(last, expected);
    let (told, _, _) = run(&["run", "--json", &policy, &requests]);
    let objects = told.lines().map(serde_json::from_str);
    let objects: Vec<Value> = objects.map(Result::unwrap).collect();
    let (figures, refused) = (&objects[6]["figures"], &objects[7]);
    assert_eq!(
        (&figures["entries"], &figures["done"]),
        (&2.into(), &vec![3].into())
    );
    assert!(refused.get("figures").is_none());
    assert_eq!(refused["why"]["because"][0], "order 8 is not open");
    let (told, _, _) = run(&["run", "--plain", &policy, &requests]);
    assert!(told.ends_with("6 0 0\n7 4 0\n"), "{told}");
    let wrong = "policy policy.txt\nopen order 7 of template 0\nentries of order 7  => GRANTED, 1 entry, done sign   # none\n";
    let test = file(&room, "wrong.test", wrong);
    let (told, _, status) = run(&["test", &test]);
    assert!(told.contains("line 3: expected 0 GRANTED, 1 entry, done sign, got 0 GRANTED, 0 entries, done none: entries of order 7"), "{told}");
    assert_eq!(status, 1);
    assert_eq!(run(&["test", "--update", &test]).2, 0);
    let written = std::fs::read_to_string(&test).unwrap();
    assert!(
        written.contains("entries of order 7  => 0 GRANTED, 0 entries, done none  # none\n"),
        "{written}"
    );
}

#[test]
fn stuck_tasks_are_told_by_name_and_by_number() {
    let asked = b"stuck tasks of template 0\nstuck tasks of template 4\n";
    let policy = "examples/stuck_order/policy.txt";
    let (told, _, status) = said(with_input(&["run", policy], asked));
    let expected = "\
load 0 GRANTED
    1   0 GRANTED       stuck tasks of template 0
                          stuck 0 1, free none
    2   4 UNKNOWN       stuck tasks of template 4
                          template 4 has no task
";
    assert_eq!((told.as_str(), status), (expected, 0));
    let (told, _, _) = said(with_input(&["run", "--json", policy], asked));
    let first: Value = serde_json::from_str(told.lines().nth(1).unwrap()).unwrap();
    assert_eq!(first["figures"]["stuck"], serde_json::json!([0, 1]));
    assert_eq!(first["figures"]["free"], serde_json::json!([]));
}

#[test]
fn answers_through_a_pipe_come_one_by_one() {
    let mut command = mishantral(&["run", "examples/listing/policy.txt"]);
    let mut child = command
        .stdin(Stdio::piped())
        .stdout(Stdio::piped())
        .stderr(Stdio::piped())
        .spawn()
        .unwrap();
    let mut to = child.stdin.take().unwrap();
    let mut from = BufReader::new(child.stdout.take().unwrap()).lines();
    let mut next = || from.next().unwrap().unwrap();
    assert_eq!(next(), "load 0 GRANTED");
    to.write_all(b"add user 4 dora\n").unwrap();
    assert_eq!(next(), "    1   0 GRANTED       add user dora");
    // A refused request names nothing.
    to.write_all(b"add user 4 else\nnonsense\n\ndelete user dora\n")
        .unwrap();
    assert_eq!(next(), "    2   5 TAKEN         add user dora");
    assert_eq!(next(), "                          dora is declared already");
    assert_eq!(next(), "    3   0 GRANTED       delete user dora");
    drop(to);
    let output = child.wait_with_output().unwrap();
    let wrong = String::from_utf8(output.stderr).unwrap();
    assert!(
        wrong.starts_with("mishantral: standard input: line 3, column 1: expected "),
        "{wrong}"
    );
    assert_eq!(output.status.code(), Some(2));
}

#[test]
fn requests_that_are_wrong_anywhere_are_not_begun() {
    let room = room("begun");
    let requests = file(&room, "requests.txt", "add user 1\nadd user\n");
    let (told, wrong, status) = run(&["run", LISTING[0], &requests]);
    assert_eq!((told.as_str(), status), ("", 2));
    assert!(
        wrong.contains("line 2, column 9: expected a number up to 1023, found the end of the line"),
        "{wrong}"
    );
}

#[test]
fn conversions_lead_back() {
    let room = room("convert");
    let opl = [
        "examples/opl_loan/policy.xml",
        "--tasks",
        "examples/opl_loan/tasks.txt",
    ];
    let mut policies: Vec<Vec<&str>> = vec![opl.to_vec(), vec!["examples/named.txt"]];
    for example in [
        "listing",
        "loan",
        "month",
        "night_shift",
        "stuck_order",
        "team_lead",
    ] {
        policies.push(vec![Box::leak(
            format!("examples/{example}/policy.txt").into_boxed_str(),
        )]);
    }
    for policy in policies {
        let convert = |policy: &[&str], further: &[&str]| {
            let output = with_input(&[&["convert"], policy, further].concat(), b"");
            assert!(output.status.success());
            output.stdout
        };
        let records = convert(&policy, &["--to", "records"]);
        let text = convert(&policy, &["--to", "text"]);
        let again = file(&room, "policy.txt", &text);
        assert_eq!(
            convert(&[&again], &["--to", "records"]),
            records,
            "{policy:?}"
        );
        assert_eq!(convert(&[&again], &["--to", "text"]), text, "{policy:?}");
        let numbers = convert(&policy, &["--to", "text", "--numbers"]);
        assert_eq!(notation::read(&numbers).unwrap(), records);
        let bytes = file(&room, "policy.rec", &records);
        assert_eq!(convert(&[&bytes], &["--to", "text"]), numbers);
    }
}

#[test]
fn opl_policies_have_their_names_and_their_errors() {
    let opl = [
        "examples/opl_loan/policy.xml",
        "--tasks",
        "examples/opl_loan/tasks.txt",
    ];
    let (told, _, status) =
        run(&[&["run"], &opl[..], &["examples/opl_loan/requests.txt"]].concat());
    assert_eq!(status, 0);
    assert!(
        told.contains(
            "create subject 0 for user \"user:klaus_meier\" with roles \"role:supervisor\""
        ),
        "{told}"
    );
    let room = room("opl");
    let xml = std::fs::read_to_string(root().join(opl[0])).unwrap();
    let wrong = file(&room, "wrong.xml", xml.replacen("<roles>", "<rolls>", 1));
    let (_, errors, status) = run(&["check", &wrong, "--tasks", opl[2]]);
    assert_eq!(status, 2);
    assert!(errors.contains("TEXT: expected <roles>"), "{errors}");
    let (_, errors, status) = run(&["check", LISTING[0], "--tasks", opl[2]]);
    assert!(
        status == 2 && errors.contains("task lines go with OPL/XML"),
        "{errors}"
    );
}

#[test]
fn every_command_has_help_with_an_example_and_the_pages_have_every_command() {
    let commands = [
        "check", "run", "test", "convert", "write", "mend", "generate",
    ];
    let man = run(&["generate", "man"]).0;
    for command in commands {
        let (help, _, status) = run(&[command, "--help"]);
        assert!(
            status == 0 && help.contains("Example") && help.contains("Exit status: 0"),
            "{help}"
        );
        assert!(man.contains(&format!(".SS {command}\n")), "{man}");
        for shell in ["bash", "zsh", "fish", "elvish", "powershell"] {
            let (text, _, status) = run(&["generate", shell]);
            assert!(status == 0 && text.contains(command), "{shell}");
        }
    }
    let header = std::fs::read_to_string(root().join("include/mishantral.h")).unwrap();
    let (version, _, status) = run(&["--version"]);
    let version = version.trim().strip_prefix("mishantral ").unwrap();
    assert_eq!(status, 0);
    assert!(
        header.contains(&format!("#define MISHANTRAL_VERSION \"{version}\"")),
        "{version}"
    );
}

#[test]
fn wrong_use_has_status_2_and_says_why() {
    for wrong in [
        &["run"][..],
        &["nothing"],
        &["check", "there/is/none"],
        &["convert", LISTING[0]],
        &["run", "--json", "--plain", LISTING[0]],
        &["test", "there/is/none"],
    ] {
        let (told, errors, status) = run(wrong);
        assert_eq!((told.as_str(), status), ("", 2), "{wrong:?}");
        assert!(!errors.is_empty());
    }
}

#[test]
fn a_reader_who_stops_is_no_fault() {
    let mut child = mishantral(&["run", LISTING[0], LISTING[1]])
        .stdout(Stdio::piped())
        .stderr(Stdio::piped())
        .spawn()
        .unwrap();
    drop(child.stdout.take());
    let output = child.wait_with_output().unwrap();
    assert_eq!(String::from_utf8(output.stderr).unwrap(), "");
}

/// Whoever asks where no desk is served is told so, and not only the system's words.
#[test]
fn a_desk_that_is_not_served_is_told() {
    let socket = room("unserved").join("desk.sock");
    let socket = socket.to_str().unwrap();
    let (_, said, status) = run(&["ask", "--socket", socket, "--retry", "0", "finish all"]);
    let expected = format!(
        "mishantral: {socket}: No such file or directory (os error 2): no desk is served there\n"
    );
    assert_eq!((said, status), (expected, 2));
}

/// On a terminal, which `script` gives: words are completed with Tab, refusals explained, lines kept in a history.
#[test]
fn the_prompt_completes_explains_and_remembers() {
    let room = room("prompt");
    let program = env!("CARGO_BIN_EXE_mishantral");
    let mut command = Command::new("script");
    command.args([
        "-qec",
        &format!("'{program}' run examples/named.txt"),
        "/dev/null",
    ]);
    command
        .current_dir(root())
        .env("XDG_STATE_HOME", &room)
        .env("TERM", "xterm");
    let Ok(mut child) = command.stdin(Stdio::piped()).stdout(Stdio::piped()).spawn() else {
        return;
    };
    let mut to = child.stdin.take().unwrap();
    let mut from = child.stdout.take().unwrap();
    let mut said = String::new();
    // Waits for what is to be shown before it types on: a prompt that is not there yet would take keys as they come.
    let mut until = |text: &str| {
        let mut byte = [0];
        let mut bytes = Vec::new();
        while !String::from_utf8_lossy(&bytes).contains(text) {
            assert_eq!(from.read(&mut byte).unwrap(), 1, "{text}: {said}");
            bytes.push(byte[0]);
        }
        said += &String::from_utf8_lossy(&bytes);
    };
    until("Ctrl-D ends.");
    until("> ");
    for (keys, shown) in [
        (
            "cre\tsub\t1 for user an\twith roles f\t\r",
            "GRANTED       create subject 1 for user anna with roles fitter",
        ),
        (
            "open order 0 mill of template b\t\r",
            "GRANTED       open order mill of template breakdown",
        ),
        ("claim 1 m\tte\t\r", "test is open to: tester"),
        ("nonsense\r", "expected "),
        (
            "who mill repair\r",
            "repair could be claimed now by subject 1 of anna",
        ),
        ("show\r", "order mill of breakdown"),
    ] {
        to.write_all(keys.as_bytes()).unwrap();
        until(shown);
        until("> ");
    }
    to.write_all(b"quit\r").unwrap();
    assert!(child.wait().unwrap().success());
    let history = std::fs::read_to_string(room.join("mishantral/history")).unwrap();
    assert!(history.contains("claim 1 mill test"), "{history}");
}

#[test]
fn two_policies_are_compared_in_words_and_as_objects() {
    let room = room("diff");
    let old = file(
        &room,
        "old.txt",
        "user 1 anna\nrole 0 clerk\nuser anna has role clerk\n",
    );
    let new = file(&room, "new.txt", "user 1 anna\nrole 0 clerk\nrole 1\n");
    let same = run(&["diff", &old, &old]);
    assert_eq!(
        same,
        (
            format!("{old}, 3 records; {old}, 3 records: no difference\n"),
            String::new(),
            0
        )
    );
    let (told, said, status) = run(&["diff", &old, &new]);
    let lines = format!(
        "+ role 1 ({new}, line 3)\n- user anna has role clerk ({old}, line 3)\n{old}, 3 records; {new}, 3 records: 2 differences\n"
    );
    assert_eq!((told, &said[..], status), (lines, "", 1));
    let (objects, _, _) = run(&["diff", "--json", &old, &new]);
    let objects: Vec<Value> = objects
        .lines()
        .map(|line| serde_json::from_str(line).unwrap())
        .collect();
    assert_eq!(objects.len(), 2);
    assert_eq!(
        (&objects[0]["change"], &objects[0]["new"]["line"]),
        (&"added".into(), &3.into())
    );
    // A policy that no load accepts is reported.
    let twice = file(&room, "twice.txt", "user 1 anna\nuser 1\n");
    let (told, _, status) = run(&["diff", &old, &twice]);
    assert!(
        told.contains(&format!("\n! {twice}: line 2: 5 TAKEN: user anna\n")),
        "{told}"
    );
    assert_eq!(status, 1);
}

#[test]
fn dealers_policies_are_compared_by_names() {
    let (xml, tasks) = (
        "examples/opl_loan/policy.xml",
        "examples/opl_loan/tasks.txt",
    );
    let text = std::fs::read_to_string(root().join(xml)).unwrap();
    let user = "<user user_id=\"user:klaus_meier\"/>";
    assert!(text.contains(user));
    // Another user before the first: every number of a user is another, and one record is new.
    let more = text.replacen(user, &format!("<user user_id=\"user:anna\"/>{user}"), 1);
    let new = file(&room("dealt"), "new.xml", more);
    let arguments = ["diff", xml, &new, "--tasks", tasks, "--new-tasks", tasks];
    let (told, said, status) = run(&arguments);
    assert_eq!((&said[..], status), ("", 1));
    let added: Vec<&str> = told
        .lines()
        .filter(|line| line.starts_with(['+', '-', '~', '>']))
        .collect();
    assert_eq!(
        added,
        [format!("+ user \"user:anna\" ({new}, line 26, column 9)")]
    );
    assert!(
        told.contains("= user \"user:klaus_meier\": number 1, was 0\n"),
        "{told}"
    );
}
