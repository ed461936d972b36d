//! Clients that are slow, silent or many, by real sockets: each is left or told in time, and nobody else waits for it. Here a connection
//! is kept for a second, where nothing else is said for a minute.

mod common;

use common::web::{at, read, served, At, ACCESS};
use common::{mishantral, room, waited, whoami, Server, POLICY};
use std::fs;
use std::io::{BufReader, ErrorKind, Read, Write};
use std::net::TcpStream;
use std::os::unix::net::UnixStream;
use std::process::Command;
use std::time::{Duration, Instant};

const SHORT: [&str; 2] = ["--idle-seconds", "1"];
const SECOND: Duration = Duration::from_secs(1);

/// What comes until the server leaves, and how long that took. What takes five minutes does not come.
fn until_left(
    mut stream: TcpStream,
    mut meanwhile: impl FnMut(&mut TcpStream),
) -> (Vec<u8>, Duration) {
    stream
        .set_read_timeout(Some(Duration::from_millis(100)))
        .unwrap();
    let (began, mut all, mut room) = (Instant::now(), Vec::new(), [0; 4096]);
    while began.elapsed() < Duration::from_secs(300) {
        match stream.read(&mut room) {
            Ok(0) => return (all, began.elapsed()),
            Ok(count) => all.extend(&room[..count]),
            Err(why) if matches!(why.kind(), ErrorKind::WouldBlock | ErrorKind::TimedOut) => {
                meanwhile(&mut stream)
            }
            // It is left with bytes that nobody read.
            Err(_) => return (all, began.elapsed()),
        }
    }
    panic!("the server keeps the connection");
}

fn connected(at: &At) -> TcpStream {
    let At::Tcp(address) = at else {
        panic!("an address of the network is expected")
    };
    TcpStream::connect(address).unwrap()
}

/// Connections or clients that the server has, by its figures; the one that asks is among those of HTTP.
fn here(at: &At, listener: &str) -> u64 {
    let figures = at.get("", "/metrics").text();
    let name = format!("mishantral_clients{{listener=\"{listener}\"}} ");
    let line = figures.lines().find_map(|line| line.strip_prefix(&name));
    line.unwrap().parse().unwrap()
}

#[test]
fn a_connection_on_which_nothing_moves_is_left() {
    let room = room("idle");
    let (_server, at) = served(&room, &SHORT);
    // Nothing at all; half a header; an answered request, and then nothing.
    for first in [
        "",
        "GET /healthz HT",
        "GET /healthz HTTP/1.1\r\nHost: a\r\n\r\n",
    ] {
        let mut stream = connected(&at);
        stream.write_all(first.as_bytes()).unwrap();
        let (_, took) = until_left(stream, |_| {});
        assert!(took >= SECOND, "{first:?} was left after {took:?}");
    }
    // One that asks now and then stays, and so do events, which show that they are there.
    let mut asks = BufReader::new(at.connect());
    let mut events = connected(&at);
    events
        .write_all(b"GET /v1/desks/desk/events HTTP/1.1\r\nHost: a\r\nX-Account: anna\r\n\r\n")
        .unwrap();
    for _ in 0..6 {
        std::thread::sleep(SECOND / 2);
        let asked = asks
            .get_mut()
            .write_all(b"GET /healthz HTTP/1.1\r\nHost: a\r\n\r\n");
        asked.unwrap();
        assert_eq!(read(&mut asks, false).status, 200);
    }
    events.set_nonblocking(true).unwrap();
    let mut told = Vec::new();
    let still = events.read_to_end(&mut told).unwrap_err();
    assert_eq!(still.kind(), ErrorKind::WouldBlock, "the events have ended");
    let told = String::from_utf8_lossy(&told).into_owned();
    assert!(told.matches(": here").count() >= 3, "{told}");
}

#[test]
fn a_header_or_a_body_that_does_not_end_is_left_however_often_a_byte_comes() {
    let room = room("slow");
    let (_server, at) = served(&room, &SHORT);
    let header = "GET /healthz HTTP/1.1\r\nHost: a\r\nX-Slow: ";
    let mut stream = connected(&at);
    stream.write_all(header.as_bytes()).unwrap();
    let (_, took) = until_left(stream, |stream| drop(stream.write_all(b"x")));
    assert!(took >= SECOND, "the header had {took:?}");
    let line = "open order mill of template breakdown\n";
    let head = format!("POST /v1/desks/desk/requests HTTP/1.1\r\nHost: a\r\nX-Account: router\r\nContent-Type: text/plain\r\nContent-Length: 9999\r\n\r\n{line}");
    let mut stream = connected(&at);
    stream.write_all(head.as_bytes()).unwrap();
    let (answer, took) = until_left(stream, |stream| drop(stream.write_all(b"#")));
    assert!(took >= SECOND, "the body had {took:?}");
    let answer = String::from_utf8_lossy(&answer).into_owned();
    assert!(answer.starts_with("HTTP/1.1 408 "), "{answer}");
    assert!(answer.contains("a body has 1 s to arrive"), "{answer}");
    // A body that stops is left too; nothing of either was asked.
    let mut stream = connected(&at);
    stream.write_all(head.as_bytes()).unwrap();
    until_left(stream, |_| {});
    let health = at.get("", "/healthz").json();
    assert_eq!(health["desks"]["desk"]["last"], 0);
}

#[test]
fn a_client_that_takes_no_answers_is_left() {
    let room = room("takes");
    let socket = room.join("desk.sock");
    let more = ["--socket", socket.to_str().unwrap()];
    let (_server, at) = served(&room, &[&SHORT[..], &more].concat());
    // By HTTP: more contracts than the connection holds.
    let mut stream = connected(&at);
    let ask = "GET /openapi.json HTTP/1.1\r\nHost: a\r\n\r\n".repeat(1000);
    stream.set_nonblocking(true).unwrap();
    let _ = stream.write_all(ask.as_bytes());
    waited("both are here", || here(&at, "http") == 2);
    waited("the one that reads nothing is left", || {
        here(&at, "http") == 1
    });
    // By the socket: requests without end, until no more fit.
    let stream = UnixStream::connect(&socket).unwrap();
    stream.set_nonblocking(true).unwrap();
    let lines = "end order 9\n".repeat(1000);
    let began = Instant::now();
    let mut left = false;
    while !left {
        assert!(began.elapsed() < Duration::from_secs(300), "it is kept");
        match (&stream).write(lines.as_bytes()) {
            Err(why) if why.kind() == ErrorKind::WouldBlock => std::thread::sleep(SECOND / 20),
            Err(_) => left = true,
            Ok(_) => {}
        }
    }
    waited("its place is free", || here(&at, "socket") == 0);
    drop(stream);
}

#[test]
fn one_account_leaves_connections_to_others() {
    let room = room("many");
    let (journal, socket) = (room.join("desk.db"), room.join("desk.http"));
    let address = format!("unix:{}", socket.display());
    let access = room.join("access");
    let me = whoami();
    fs::write(
        &access,
        format!("account {me} speaks for everyone\naccount nobody reads\n"),
    )
    .unwrap();
    use std::os::unix::fs::PermissionsExt;
    fs::set_permissions(&room, fs::Permissions::from_mode(0o755)).unwrap();
    let mut all = vec!["serve", POLICY, "--journal", journal.to_str().unwrap()];
    all.extend(["--access", access.to_str().unwrap(), "--http", &address]);
    all.extend(["--http-mode", "666", "--http-connections", "4"]);
    let server = Server::started(&mut mishantral(&all), socket.clone());
    let at = at(&server);
    // Half of all, where nothing else is said.
    let held: Vec<_> = (0..2).map(|_| at.connect()).collect();
    waited("a third one is told", || {
        let told = &at.raw(b"GET /healthz HTTP/1.1\r\nHost: localhost\r\n\r\n", 1)[0];
        told.status == 503
            && told
                .text()
                .contains("2 connections of this account are here")
    });
    if me == "root" {
        let mut ask = Command::new("runuser");
        ask.args(["-u", "nobody", "--", "curl", "-s", "--unix-socket"]);
        ask.arg(&socket).arg("http://localhost/v1/desks");
        let said = ask.current_dir("/").output().unwrap().stdout;
        let said = String::from_utf8(said).unwrap();
        assert!(said.contains("\"account\":\"nobody\""), "{said}");
    } else {
        eprintln!("another account is not tried, which takes root");
    }
    drop(held);
    waited("their places are free", || {
        at.get("", "/healthz").status == 200
    });
}

#[test]
fn one_account_leaves_a_proxys_connections_to_others() {
    let room = room("calls");
    let (_server, at) = served(&room, &["--http-account-connections", "2"]);
    assert!(ACCESS.contains("account bert"));
    let ask = "GET /v1/desks/desk/events HTTP/1.1\r\nHost: a\r\nX-Account: anna\r\n\r\n";
    let held: Vec<_> = (0..2)
        .map(|_| {
            let mut stream = connected(&at);
            stream.write_all(ask.as_bytes()).unwrap();
            let mut first = [0; 15];
            stream.read_exact(&mut first).unwrap();
            assert_eq!(&first, b"HTTP/1.1 200 OK");
            stream
        })
        .collect();
    let told = at.get("anna", "/v1/desks");
    assert_eq!((told.status, told.header("retry-after")), (429, Some("5")));
    assert!(
        told.text().contains("2 calls of this account are here"),
        "{}",
        told.text()
    );
    assert_eq!(at.get("bert", "/v1/desks").status, 200);
    assert_eq!(at.get("", "/healthz").status, 200);
    drop(held);
    // The events notice with their next sign of life that nobody is there.
    at.lines("bert", "open order mill of template breakdown\n");
    waited("her places are free", || {
        at.get("anna", "/v1/desks").status == 200
    });
}

/// The name and the priority of each thread of a server.
fn priorities(server: &Server) -> Vec<(String, i32)> {
    let tasks = fs::read_dir(format!("/proc/{}/task", server.child.id())).unwrap();
    let one = |path: std::path::PathBuf| {
        let stat = fs::read_to_string(path.join("stat")).ok()?;
        let (before, behind) = stat.rsplit_once(") ")?;
        let name = before.split_once('(')?.1.to_string();
        let nice = behind.split(' ').nth(16)?.parse().ok()?;
        Some((name, nice))
    };
    tasks.filter_map(|task| one(task.unwrap().path())).collect()
}

#[test]
fn questions_have_the_lowest_priority_and_nothing_else_has() {
    let room = room("nice");
    let (server, at) = served(&room, &[]);
    at.lines("router", "open order mill of template breakdown\n");
    assert_eq!(at.get("anna", "/v1/desks/desk/finish").status, 200);
    waited("the threads have their priority", || {
        let all = priorities(&server);
        let (questions, others): (Vec<_>, Vec<_>) =
            all.iter().partition(|(name, _)| name == "questions");
        let lowest = questions.iter().all(|(_, nice)| *nice == 19);
        let usual = others.iter().map(|(_, nice)| nice);
        let usual: std::collections::BTreeSet<_> = usual.collect();
        lowest && !questions.is_empty() && usual.len() == 1
    });
}
