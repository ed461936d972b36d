//! The program's options.

use std::process::{Command, Output};

fn bench(arguments: &[&str]) -> Output {
    let program = env!("CARGO_BIN_EXE_bench");
    Command::new(program).args(arguments).output().unwrap()
}

fn text(bytes: &[u8]) -> &str {
    std::str::from_utf8(bytes).unwrap()
}

#[test]
fn a_quick_run_prints_every_table() {
    let run = bench(&["--quick"]);
    let printed = text(&run.stdout);
    assert!(run.status.success(), "{}", text(&run.stderr));
    for line in [
        "| checks, 256",
        "| load of 4,096",
        "| orders, 8 among 1,000",
        "| 57 task check",
        "| a small policy",
        "| every space of names full",
    ] {
        assert!(printed.contains(line), "{line} is not in\n{printed}");
    }
}

#[test]
fn a_stream_can_be_run_alone() {
    let run = bench(&["--quick", "--only", "57"]);
    assert!(run.status.success(), "{}", text(&run.stderr));
    assert_eq!(text(&run.stdout).lines().count(), 3);
    let none = bench(&["--quick", "--only", "58"]);
    assert_eq!(none.status.code(), Some(1));
    let message = "bench: no stream has \"58\" in its name\n";
    assert_eq!(text(&none.stderr), message);
}

#[test]
fn unknown_options_are_refused() {
    let refused = bench(&["--slow"]);
    assert_eq!(refused.status.code(), Some(2));
    let message = "bench: no such option: \"--slow\"; --help tells the use\n";
    assert_eq!(text(&refused.stderr), message);
    assert_eq!(bench(&["--help", "--slow"]).status.code(), Some(0));
}

/// A debug build contains checks that would distort the times, so the program refuses to time it.
#[cfg(debug_assertions)]
#[test]
fn an_unoptimized_build_writes_no_times() {
    let refused = bench(&[]);
    assert_eq!(refused.status.code(), Some(2));
    assert!(text(&refused.stderr).contains("--release"));
}
