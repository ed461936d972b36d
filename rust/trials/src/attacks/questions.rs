//! Fault 1: hard questions from many accounts at once. Others keep their throughput, memory stays small, and the work ends with its clients.

use super::{text, wanted, Came};
use crate::client::{Client, Requests};
use crate::load::quartiles;
use crate::server::{room, How, Server};
use crate::talk::{is_answer, Talk};
use std::fmt::Write as _;
use std::fs;
use std::net::Shutdown;
use std::os::unix::net::UnixStream;
use std::path::Path;
use std::sync::atomic::{AtomicBool, AtomicU64, Ordering};
use std::sync::Arc;
use std::time::{Duration, Instant};

const ASKERS: usize = 50;
const WORKERS: usize = 4;
const TASKS: usize = 14;

/// Fourteen tasks of which nobody may do two, and thirteen clerks who differ: no plan, and no short way to see it.
fn policy() -> String {
    let mut policy = String::from("role 0 clerk\n");
    for user in 1..TASKS {
        let _ = write!(
            policy,
            "role {user}\nuser {user}\nuser {user} has role 0\nuser {user} has role {user}\n"
        );
    }
    let mut all = String::new();
    for task in 0..TASKS {
        let _ = write!(
            policy,
            "task {task} of template 0\ntask {task} open to role 0\n"
        );
        let _ = write!(all, " {task}");
    }
    policy
        + "task set 1 of"
        + &all
        + "\npermission 0 is operation 1 on object 1\nrole 0 has permission 0\n"
}

/// Requests a second of those who work, for a while.
fn worked(server: &Server, time: Duration) -> Result<f64, String> {
    let (over, count) = (
        Arc::new(AtomicBool::new(false)),
        Arc::new(AtomicU64::new(0)),
    );
    let mut workers = Vec::new();
    for at in 0..WORKERS {
        let mut client = Client::new(server.connect().map_err(text)?);
        let (over, count) = (over.clone(), count.clone());
        workers.push(std::thread::spawn(move || {
            let mut requests = Requests::new(at as u64, 40 + at as u16);
            while !over.load(Ordering::Relaxed) {
                let sent = client
                    .send(&[requests.next()])
                    .and_then(|()| client.reply());
                sent.expect("a worker is answered");
                count.fetch_add(1, Ordering::Relaxed);
            }
        }));
    }
    let began = Instant::now();
    std::thread::sleep(time);
    over.store(true, Ordering::Relaxed);
    for worker in workers {
        worker.join().map_err(|_| "a worker failed")?;
    }
    Ok(count.load(Ordering::Relaxed) as f64 / began.elapsed().as_secs_f64())
}

/// Clock ticks that a process has computed.
fn ticks(server: &Server) -> u64 {
    let stat = fs::read_to_string(format!("/proc/{}/stat", server.id())).unwrap_or_default();
    let behind = stat.rsplit(')').next().unwrap_or_default();
    let fields: Vec<&str> = behind.split_whitespace().collect();
    let field = |at: usize| fields.get(at).and_then(|f| f.parse::<u64>().ok());
    field(11).unwrap_or(0) + field(12).unwrap_or(0)
}

/// What the fifty accounts do, each on its connection.
#[derive(Clone, Copy, PartialEq, Eq)]
enum Do {
    Nothing,
    /// Ask the hard question again and again.
    Ask,
}

/// Their threads, each with how many answers it had, and the other ends of their connections.
type Fifty = (Vec<std::thread::JoinHandle<u64>>, Vec<UnixStream>);

/// Says who it is, and asks until the connection ends; `begun` counts those who have begun.
fn asks(stream: UnixStream, at: usize, what: Do, begun: &AtomicU64) -> u64 {
    let mut talk = Talk::new(stream);
    let mut told = 0;
    let _ = talk.ask(&format!("as reader{at}"));
    loop {
        let sent = what == Do::Nothing || talk.send("finish all").is_ok();
        begun.fetch_add(u64::from(told == 0), Ordering::Relaxed);
        match talk.reply() {
            Ok(reply) if sent && !reply.is_empty() => told += 1,
            _ => return told,
        }
        // Who is sent away may ask again at once.
        std::thread::sleep(Duration::from_millis(50));
    }
}

/// Fifty accounts come; when this is done, each has begun.
fn come(server: &Server, what: Do) -> Result<Fifty, String> {
    let (mut threads, mut streams) = (Vec::new(), Vec::new());
    let begun = Arc::new(AtomicU64::new(0));
    for at in 0..ASKERS {
        let stream = server.connect().map_err(text)?;
        streams.push(stream.try_clone().map_err(text)?);
        let begun = begun.clone();
        threads.push(std::thread::spawn(move || asks(stream, at, what, &begun)));
    }
    let began = Instant::now();
    while begun.load(Ordering::Relaxed) < ASKERS as u64 {
        let late = began.elapsed() > Duration::from_secs(60);
        wanted(!late, "some who come are not let in")?;
        std::thread::sleep(Duration::from_millis(10));
    }
    Ok((threads, streams))
}

/// How often others are measured beside those who ask, and beside as many who say nothing.
const TURNS: usize = 25;
const TURN: Duration = Duration::from_millis(500);

/// A desk of 64 hard orders, and accounts that may ask about them.
fn served(program: &Path) -> Result<Server, String> {
    let room = room("questions");
    fs::write(room.join("policy.txt"), policy()).map_err(text)?;
    let me = std::process::Command::new("id")
        .arg("-un")
        .output()
        .map_err(text)?;
    let me = String::from_utf8_lossy(&me.stdout).trim().to_string();
    let mut access = format!("account {me} speaks for everyone\n");
    for at in 0..ASKERS {
        let _ = writeln!(access, "account reader{at} reads");
    }
    fs::write(room.join("access.txt"), access).map_err(text)?;
    let file = room.join("access.txt").display().to_string();
    let how = How::new(program, &room).with(&["--access", &file, "--question-seconds", "3"]);
    let server = how.start()?;
    let mut talk = Talk::new(server.connect().map_err(text)?);
    for user in 1..TASKS {
        let reply = talk.ask(&format!(
            "create subject {user} for user {user} with roles 0"
        ));
        wanted(
            reply.is_ok_and(|r| r.ends_with("GRANTED")),
            "a session was refused",
        )?;
    }
    for _ in 0..64 {
        let reply = talk.ask("open order of template 0").map_err(text)?;
        wanted(
            is_answer(&reply),
            format!("an order was not opened: {reply}"),
        )?;
    }
    Ok(server)
}

/// What was found in one turn.
struct Turn {
    rate: f64,
    memory: u64,
    told: u64,
}

/// Others at work beside the fifty, who then go without waiting for an answer.
fn turn(server: &Server, what: Do) -> Result<Turn, String> {
    let (threads, streams) = come(server, what)?;
    let rate = worked(server, TURN)?;
    let memory = server.memory();
    for stream in streams {
        let _ = stream.shutdown(Shutdown::Both);
    }
    let mut told = 0;
    for thread in threads {
        told += thread.join().map_err(|_| "one of the fifty failed")?;
    }
    // The server sees within a fifth of a second that they have gone.
    std::thread::sleep(Duration::from_millis(300));
    Ok(Turn { rate, memory, told })
}

/// What was asked for has ended with the clients that asked.
fn rests(server: &Server) -> Result<(), String> {
    let began = ticks(server);
    std::thread::sleep(Duration::from_secs(1));
    let spent = ticks(server) - began;
    let left = format!("{spent} ticks of work in a second after its clients have gone");
    wanted(spent < 10, left)
}

pub fn questions(program: &Path) -> Came {
    let server = served(program)?;
    let before = server.memory();
    let (mut ratios, mut most, mut told) = (Vec::new(), 0, 0);
    for at in 0..TURNS {
        // Each is first as often as second, so that what else the machine does falls on both alike.
        let (asking, silent) = match at % 2 {
            0 => {
                let silent = turn(&server, Do::Nothing)?;
                (turn(&server, Do::Ask)?, silent)
            }
            _ => (turn(&server, Do::Ask)?, turn(&server, Do::Nothing)?),
        };
        ratios.push(asking.rate / silent.rate);
        (most, told) = (most.max(asking.memory), told + asking.told);
        if at % 5 == 0 {
            rests(&server)?;
        }
    }
    let [low, middle, high] = quartiles(ratios);
    let grown = most.saturating_sub(before);
    let kept = format!("others keep {middle:.2} of their throughput ({low:.2} to {high:.2})");
    wanted(middle >= 0.8, kept)?;
    wanted(grown < 150_000, format!("the server grew by {grown} KB"))?;
    // Whoever asks when nobody else does is answered.
    let mut talk = Talk::new(server.connect().map_err(text)?);
    talk.ask("as reader0").map_err(text)?;
    let answer = talk.ask("finish all").map_err(text)?;
    let is_told = answer.contains("can be finished by those signed in");
    wanted(is_told, format!("a question is answered {answer:?}"))?;
    Ok(format!(
        "others keep {:.0} % of the throughput that they have beside 50 silent clients (median of {TURNS} turns; quartiles {:.0} and {:.0} %); the server grows by {grown} KB; {told} answers; no work a moment after the clients have gone",
        100.0 * middle, 100.0 * low, 100.0 * high
    ))
}
