//! Faults 6, 11 and 12: a server that nobody listens to, two servers, and two desks.

use super::{text, wanted, Came};
use crate::server::{room, How};
use crate::talk::{is_answer, Talk};
use std::fs;
use std::os::unix::net::UnixStream;
use std::path::Path;
use std::process::{Child, Command, Stdio};
use std::time::{Duration, Instant};

const LINE: &str = "check 1 operation 0 object 0";

/// Waits until a client is answered.
fn answered(socket: &Path, line: &str) -> Result<String, String> {
    let began = Instant::now();
    loop {
        if let Ok(stream) = UnixStream::connect(socket) {
            return Talk::new(stream).ask(line).map_err(text);
        }
        wanted(began.elapsed() < Duration::from_secs(20), "nobody listens")?;
        std::thread::sleep(Duration::from_millis(5));
    }
}

pub fn closed(program: &Path) -> Came {
    let room = room("closed");
    let mut how = How::new(program, &room).under("exec >&- 2>&-");
    how.more.extend(["--clients", "200"].map(String::from));
    let mut server = how.spawn();
    let reply = answered(&server.socket, LINE)?;
    wanted(
        is_answer(&reply),
        format!("a server without outputs: {reply}"),
    )?;
    // Something to report: no descriptor is left for a client.
    let id = server.id();
    let files = fs::read_dir(format!("/proc/{id}/fd")).map_or(0, |all| all.count());
    let limit = Command::new("prlimit")
        .arg(format!("--pid={id}"))
        .arg(format!("--nofile={0}:{0}", files + 1))
        .output();
    wanted(
        limit.is_ok_and(|done| done.status.success()),
        "prlimit is refused",
    )?;
    let mut told = 0;
    let mut here = Vec::new();
    for _ in 0..20 {
        let mut talk = Talk::new(server.connect().map_err(text)?);
        told += usize::from(!is_answer(&talk.ask(LINE).map_err(text)?));
        here.push(talk);
    }
    drop(here);
    std::thread::sleep(Duration::from_millis(200));
    let reply = answered(&server.socket, LINE)?;
    wanted(
        is_answer(&reply) && server.lives(),
        format!("after {told} reports: {reply}"),
    )?;
    Ok(format!("with standard output and error closed the server starts, reports {told} clients that it cannot take to nobody, and goes on"))
}

fn started(program: &Path, room: &Path, journal: &str, socket: &Path) -> Result<Child, String> {
    let mut command = Command::new(program);
    command
        .arg("serve")
        .arg(room.join("policy.txt"))
        .arg("--journal")
        .arg(room.join(journal));
    command
        .arg("--socket")
        .arg(socket)
        .stdout(Stdio::null())
        .stderr(Stdio::null());
    command.spawn().map_err(text)
}

const RACES: usize = 50;

pub fn race(program: &Path) -> Came {
    let room = room("race");
    let socket = room.join("desk.sock");
    // The journals are begun, so that both come to the socket at once.
    for journal in ["one.db", "two.db"] {
        let mut child = started(program, &room, journal, &socket)?;
        let reply = answered(&socket, LINE);
        let _ = child.kill();
        let _ = child.wait();
        wanted(reply.is_ok_and(|r| is_answer(&r)), "a server did not start")?;
    }
    for race in 0..RACES {
        wanted(socket.exists(), "the socket of a killed server is gone")?;
        let mut both = [
            started(program, &room, "one.db", &socket)?,
            started(program, &room, "two.db", &socket)?,
        ];
        let began = Instant::now();
        let lost = loop {
            let ended: Vec<usize> = (0..2)
                .filter(|&at| matches!(both[at].try_wait(), Ok(Some(_))))
                .collect();
            if let [one] = ended[..] {
                break one;
            }
            wanted(ended.len() < 2, format!("race {race}: both ended"))?;
            if began.elapsed() > Duration::from_secs(20) {
                both.iter_mut().for_each(|child| drop(child.kill()));
                return Err(format!("race {race}: both believe that they serve"));
            }
            std::thread::sleep(Duration::from_millis(1));
        };
        let status = both[lost].wait().map_err(text)?.code();
        let reply = answered(&socket, LINE)?;
        let _ = both[1 - lost].kill();
        let _ = both[1 - lost].wait();
        wanted(
            status == Some(1) && is_answer(&reply),
            format!("race {race}: {status:?}, {reply}"),
        )?;
    }
    Ok(format!("{RACES} races of two servers for one stale socket: one serves, the other is refused with exit status 1"))
}

fn desks(
    program: &Path,
    room: &Path,
    together: bool,
) -> Result<(Child, std::path::PathBuf), String> {
    let socket = room.join("desks.sock");
    let mut command = Command::new(program);
    command.arg("serve").arg(room.join("policy.txt"));
    for desk in ["mill", "yard"] {
        command.arg("--desk").arg(format!(
            "{desk}={}",
            room.join(desk).with_extension("db").display()
        ));
    }
    if together {
        command.arg("--together");
    }
    command
        .arg("--socket")
        .arg(&socket)
        .stdout(Stdio::null())
        .stderr(Stdio::null());
    Ok((command.spawn().map_err(text)?, socket))
}

pub fn one_ends(program: &Path) -> Came {
    for together in [false, true] {
        let room = room("ends");
        let (mut child, socket) = desks(program, &room, together)?;
        answered(&socket, "desk mill")?;
        let connect = |desk: &str| -> Result<Talk, String> {
            let mut talk = Talk::new(UnixStream::connect(&socket).map_err(text)?);
            wanted(
                talk.ask(&format!("desk {desk}")).map_err(text)? == format!("desk {desk}"),
                "no greeting",
            )?;
            wanted(is_answer(&talk.ask(LINE).map_err(text)?), "no answer")?;
            Ok(talk)
        };
        let (mut mill, mut yard) = (connect("mill")?, connect("yard")?);
        fs::remove_file(room.join("mill.db")).map_err(text)?;
        // An idle client is told within seconds, and closed.
        let told = mill
            .reply()
            .map_err(|why| format!("the client of the ended desk is not told: {why}"))?;
        wanted(
            told.contains("desk mill has ended"),
            format!("it is told {told:?}"),
        )?;
        wanted(
            mill.reply().is_ok_and(|rest| rest.is_empty()),
            "it is not closed",
        )?;
        if together {
            let began = Instant::now();
            let status = loop {
                if let Some(status) = child.try_wait().map_err(text)? {
                    break status.code();
                }
                wanted(
                    began.elapsed() < Duration::from_secs(10),
                    "the server goes on",
                )?;
                std::thread::sleep(Duration::from_millis(10));
            };
            wanted(
                status == Some(1),
                format!("the server ended with {status:?}"),
            )?;
            continue;
        }
        let mut late = Talk::new(UnixStream::connect(&socket).map_err(text)?);
        let greeted = late.ask("desk mill").map_err(text)?;
        let told = match greeted.starts_with("wrong: ") {
            true => greeted,
            false => late.ask(LINE).map_err(text)?,
        };
        wanted(
            told.contains("desk mill has ended"),
            format!("a new client is told {told:?}"),
        )?;
        wanted(
            is_answer(&yard.ask(LINE).map_err(text)?),
            "the other desk has ended too",
        )?;
        let _ = child.kill();
        let _ = child.wait();
    }
    Ok("the ended desk's client is told and closed within seconds, a new one too, and the other desk goes on; with --together the server ends with exit status 1".to_string())
}
