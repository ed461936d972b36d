//! Runs the program as a user would.

use std::fs;
use std::io::Write;
use std::path::PathBuf;
use std::process::{Command, Stdio};

/// Runs the program: its standard output, its standard error and its exit status.
pub fn run(arguments: &[&str], input: &[u8]) -> (String, String, i32) {
    let (bytes, said, status) = run_bytes(arguments, input);
    (String::from_utf8(bytes).unwrap(), said, status)
}

/// As `run`, for output that is not text.
pub fn run_bytes(arguments: &[&str], input: &[u8]) -> (Vec<u8>, String, i32) {
    let mut child = Command::new(env!("CARGO_BIN_EXE_mishantral-notation"))
        .args(arguments)
        .stdin(Stdio::piped())
        .stdout(Stdio::piped())
        .stderr(Stdio::piped())
        .spawn()
        .unwrap();
    // A refused command reads no input, so the pipe may be closed already.
    let _ = child.stdin.take().unwrap().write_all(input);
    let output = child.wait_with_output().unwrap();
    let said = String::from_utf8(output.stderr).unwrap();
    (output.stdout, said, output.status.code().unwrap())
}

/// A new folder for a test.
pub fn room(name: &str) -> PathBuf {
    let room = PathBuf::from(env!("CARGO_TARGET_TMPDIR")).join(name);
    let _ = fs::remove_dir_all(&room);
    fs::create_dir_all(&room).unwrap();
    room
}

/// Writes a file into a folder; returns its full path.
pub fn file(room: &std::path::Path, name: &str, content: impl AsRef<[u8]>) -> String {
    let path = room.join(name);
    fs::write(&path, content).unwrap();
    path.to_str().unwrap().to_string()
}
