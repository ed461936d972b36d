//! The contract of HTTP (`/openapi.json`), held to the code: every path and field of it is asked for, and what is answered validates. And the
//! commands of docs/HTTP.md, run as they stand there.

mod common;

use common::web::{at, At};
use common::{mishantral, room, root, Server, POLICY};
use serde_json::Value;
use std::fs;
use std::process::Command;

/// A Python that has jsonschema (Debian's python3-jsonschema, or pip's jsonschema).
fn python() -> &'static str {
    let has = |python: &&str| {
        let tried = Command::new(python)
            .args(["-c", "import jsonschema"])
            .output();
        tried.is_ok_and(|tried| tried.status.success())
    };
    let found = ["python3", "/usr/bin/python3"].into_iter().find(has);
    found.expect("python3 with jsonschema is needed: apt-get install python3-jsonschema")
}

#[test]
fn everything_in_the_contract_is_there_and_validates() {
    let room = room("contract");
    let (access, journal) = (room.join("access"), room.join("desk.db"));
    let accounts =
        "account anna is user anna\naccount revision reads\naccount router speaks for everyone\n";
    fs::write(&access, accounts).unwrap();
    let mut all = vec!["serve", POLICY, "--journal", journal.to_str().unwrap()];
    all.extend(["--access", access.to_str().unwrap()]);
    all.extend(["--http", "127.0.0.1:0", "--account-header", "X-Account"]);
    all.extend(["--question-seconds", "60"]);
    let server = Server::started(&mut mishantral(&all), journal);
    let At::Tcp(address) = at(&server) else {
        panic!("a loopback address is expected");
    };
    let script = root().join("rust/program/tests/contract.py");
    let asked = Command::new(python())
        .arg(script)
        .arg(address)
        .output()
        .unwrap();
    let told = String::from_utf8_lossy(&asked.stdout).into_owned()
        + &String::from_utf8_lossy(&asked.stderr);
    assert!(asked.status.success(), "{told}");
}

/// The code of a page with four spaces before each line, whether it is fenced or indented; an answer follows its command at once.
fn code(page: &str) -> String {
    let joined = page.replace("```\n\n```json\n", "");
    let mut fenced = false;
    let mut text = String::new();
    for line in joined.lines() {
        if line.starts_with("```") {
            fenced = !fenced;
        } else if fenced {
            text += &format!("    {line}\n");
            continue;
        }
        text += &format!("{line}\n");
    }
    text
}

/// The commands of a page: lines that begin with `curl`, with what follows a `\` at a line's end, and the answer that is shown below.
fn commands(page: &str) -> Vec<(String, String)> {
    let page = code(page);
    let mut all: Vec<(String, String)> = Vec::new();
    let mut lines = page.lines().peekable();
    while let Some(line) = lines.next() {
        let Some(code) = line.strip_prefix("    ") else {
            continue;
        };
        if !code.starts_with("curl ") {
            continue;
        }
        let mut command = code.to_string();
        // A command goes on after a backslash, and within quotes.
        while command.ends_with('\\') || command.matches('\'').count() % 2 == 1 {
            command += "\n";
            command += lines.next().unwrap();
        }
        let mut shown = String::new();
        while let Some(more) =
            lines.next_if(|line| line.starts_with("    ") && !line.starts_with("    curl "))
        {
            shown += more.trim();
        }
        all.push((command, shown));
    }
    all
}

#[test]
fn the_commands_of_the_page_do_what_it_says() {
    let room = room("curl");
    let all = [
        "serve",
        POLICY,
        "--journal",
        "desk.db",
        "--http",
        "unix:desk.http",
    ];
    let mut command = mishantral(&all);
    let policy = root().join(POLICY);
    command.current_dir(&room);
    fs::create_dir(room.join("examples")).unwrap();
    fs::copy(policy, room.join(POLICY)).unwrap();
    fs::write(room.join("requests.txt"), "create subject 1 for user anna with roles fitter\nclaim 1 mill repair\nclaim 1 mill sign\n").unwrap();
    let _server = Server::started(&mut command, room.join("desk.http"));
    let page = fs::read_to_string(root().join("docs/HTTP.md")).unwrap();
    let commands = commands(&page);
    assert!(commands.len() >= 8, "{commands:?}");
    for (command, shown) in commands {
        let command = command.replacen("curl ", "curl -sS --fail-with-body --max-time 60 ", 1);
        let ran = Command::new("sh")
            .arg("-c")
            .arg(&command)
            .current_dir(&room)
            .output()
            .unwrap();
        let (out, err) = (
            String::from_utf8_lossy(&ran.stdout),
            String::from_utf8_lossy(&ran.stderr),
        );
        // Events go on until they are ended: `timeout` in the page ends them.
        let ended = ran.status.success() || command.contains("--max-time 1 ");
        assert!(ended, "{command}: {out}{err}");
        if shown.starts_with('{') {
            let read = |text: &str| {
                serde_json::from_str::<Value>(text)
                    .unwrap_or_else(|why| panic!("{command}: {why}: {text}"))
            };
            assert_eq!(read(&out), read(&shown), "{command}");
        }
        assert!(!out.is_empty(), "{command}");
    }
}
