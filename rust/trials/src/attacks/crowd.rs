//! Faults 9, 14 and 15: more clients than there is room for.

use super::{is_root, text, wanted, Came};
use crate::server::{room, How, Server};
use crate::talk::{is_answer, Talk};
use std::fs;
use std::os::unix::fs::PermissionsExt;
use std::os::unix::net::UnixStream;
use std::path::Path;
use std::process::Command;

const LINE: &str = "check 1 operation 0 object 0";

/// How many of that many clients are answered and how many told why not; nobody is forgotten. Those who are answered stay.
fn came(server: &Server, count: usize) -> Result<(Vec<Talk>, usize, String), String> {
    let (mut here, mut told, mut why) = (Vec::new(), 0, String::new());
    for at in 0..count {
        let stream = server
            .connect()
            .map_err(|why| format!("client {at} cannot connect: {why}"))?;
        let mut talk = Talk::new(stream);
        let reply = talk
            .ask(LINE)
            .map_err(|why| format!("client {at} is neither answered nor told: {why}"))?;
        match is_answer(&reply) {
            true => here.push(talk),
            false => {
                wanted(
                    reply.starts_with("wrong: "),
                    format!("client {at} is told {reply:?}"),
                )?;
                (told, why) = (told + 1, reply);
            }
        }
    }
    Ok((here, told, why))
}

fn descriptors_of(server: &Server) -> usize {
    fs::read_dir(format!("/proc/{}/fd", server.id())).map_or(0, |all| all.count())
}

pub fn limits(program: &Path) -> Came {
    let room = room("limits");
    fs::set_permissions(&room, fs::Permissions::from_mode(0o755)).map_err(text)?;
    let me = Command::new("id").arg("-un").output().map_err(text)?;
    let me = String::from_utf8_lossy(&me.stdout).trim().to_string();
    let access = room.join("access.txt");
    fs::write(
        &access,
        format!("account {me} speaks for everyone\naccount nobody reads\n"),
    )
    .map_err(text)?;
    let more = [
        "--access",
        access.to_str().unwrap_or_default(),
        "--socket-mode",
        "666",
    ];
    let how = How::new(program, &room).with(&more).under("ulimit -n 256");
    let mut server = how.start()?;
    let errors = server.errors();
    let before = descriptors_of(&server);
    let (here, told, why) = came(&server, 300)?;
    // One to spare, and one of a client that was just told, are not theirs.
    let each = descriptors_of(&server) - before;
    wanted(
        each <= here.len() + 2,
        format!("{} clients have {each} descriptors", here.len()),
    )?;
    wanted(
        why.contains("of this account"),
        format!("who is too many is told {why:?}"),
    )?;
    // Another account comes in all the same.
    let mut other = "another account was not tried, which takes root".to_string();
    if is_root() {
        let copy = room.join("mishantral");
        fs::copy(program, &copy).map_err(text)?;
        let mut ask = Command::new("runuser");
        ask.args(["-u", "nobody", "--"])
            .arg(&copy)
            .args(["ask", "--socket"])
            .arg(&server.socket)
            .arg("stuck tasks of template 0");
        let said = ask.current_dir("/").output().map_err(text)?;
        let said = String::from_utf8_lossy(&said.stdout).into_owned();
        wanted(
            said.contains("0 GRANTED"),
            format!("another account is shut out: {said:?}"),
        )?;
        other = "another account is answered meanwhile".to_string();
    }
    let count = here.len();
    drop((here, server));
    let reported = errors.join().map_err(|_| "no errors")?;
    wanted(
        reported.contains("clients are taken"),
        format!("the limit was not reported: {reported}"),
    )?;
    Ok(format!("300 clients of one account where 256 files may be open: {count} are taken with a descriptor each, {told} are told; {other}; the limit is reported at the start"))
}

pub fn memory(program: &Path) -> Came {
    let (mut taken, mut told, mut tried) = (0, 0, 0);
    for megabytes in [120, 200, 300, 500] {
        let room = room("memory");
        let how = How::new(program, &room).with(&["--account-clients", "1000"]);
        let shell = format!("ulimit -v {}", megabytes * 1024);
        let Ok(mut server) = how.under(&shell).start() else {
            continue;
        };
        let (here, away, _) = came(&server, 300).map_err(|why| format!("{megabytes} MB: {why}"))?;
        wanted(
            server.lives(),
            format!("with {megabytes} MB the server ended"),
        )?;
        (taken, told, tried) = (taken + here.len(), told + away, tried + 1);
    }
    wanted(
        tried > 0 && told > 0,
        format!("the limit was never met: {tried} servers, {taken} clients taken"),
    )?;
    Ok(format!("300 clients each of {tried} servers with 120 to 500 MB of address space: {taken} are answered, {told} are told that there is no room; no server ended"))
}

fn limited(server: &Server, files: usize) -> Result<(), String> {
    let mut limit = Command::new("prlimit");
    limit
        .arg(format!("--pid={}", server.id()))
        .arg(format!("--nofile={files}:{files}"));
    let done = limit.output().map_err(text)?;
    wanted(done.status.success(), "prlimit is refused")
}

pub fn descriptors(program: &Path) -> Came {
    let room = room("descriptors");
    let mut server = How::new(program, &room).start()?;
    limited(&server, descriptors_of(&server) + 8)?;
    let (here, told, why) = came(&server, 40)?;
    wanted(
        told > 0 && why.contains("descriptor"),
        format!("nobody was told: {why}"),
    )?;
    let count = here.len();
    drop(here);
    std::thread::sleep(std::time::Duration::from_millis(200));
    let mut talk = Talk::new(UnixStream::connect(&server.socket).map_err(text)?);
    let reply = talk.ask(LINE).map_err(text)?;
    wanted(
        is_answer(&reply) && server.lives(),
        format!("when others have gone: {reply}"),
    )?;
    Ok(format!("40 clients where 8 files more may be open: {count} are answered, {told} are told and closed; when those have gone a further one is answered"))
}
