//! The load by HTTP beside the socket's: the same requests, one at a time on a connection that stays, in one run.

use crate::client::{Client, Requests};
use crate::load::{grouped, quartiles, waits_of, Measured, CLIENTS, TURNS};
use crate::server::{room, How, Server};
use std::io::{self, BufRead, BufReader, Read, Write};
use std::os::unix::net::UnixStream;
use std::path::{Path, PathBuf};
use std::sync::atomic::{AtomicBool, Ordering};
use std::sync::Arc;
use std::time::{Duration, Instant};

/// How requests are sent.
#[derive(Clone, Copy, PartialEq, Eq, Debug)]
enum By {
    Socket,
    Http,
    /// So many in one body.
    HttpMany(usize),
}

const WAYS: [(&str, By); 3] = [
    ("socket, records", By::Socket),
    ("HTTP, a request each", By::Http),
    ("HTTP, 64 requests a body", By::HttpMany(64)),
];

/// A connection of HTTP that stays.
struct Http(BufReader<UnixStream>);

impl Http {
    /// Sends records in one body and waits for the whole answer.
    fn ask(&mut self, records: &[records::Record], many: bool) -> io::Result<()> {
        let hex = |record: &records::Record| -> String {
            record.0.iter().map(|byte| format!("{byte:02x}")).collect()
        };
        let one = |record| format!("{{\"record\":\"{}\"}}", hex(record));
        let body = match many {
            false => one(&records[0]),
            true => {
                let all: Vec<String> = records.iter().map(one).collect();
                format!("{{\"requests\":[{}]}}", all.join(","))
            }
        };
        let head = format!(
            "POST /v1/desks/desk/requests HTTP/1.1\r\nHost: localhost\r\nContent-Type: application/json\r\nContent-Length: {}\r\n\r\n",
            body.len()
        );
        self.0.get_mut().write_all((head + &body).as_bytes())?;
        self.answer()
    }

    fn answer(&mut self) -> io::Result<()> {
        let mut length = 0;
        let mut status = String::new();
        self.0.read_line(&mut status)?;
        if !status.starts_with("HTTP/1.1 200") {
            return Err(io::Error::other(status));
        }
        loop {
            let mut line = String::new();
            self.0.read_line(&mut line)?;
            match line.trim_end().split_once(": ") {
                None => break,
                Some(("content-length", digits)) => length = digits.parse().unwrap_or(0),
                Some(_) => {}
            }
        }
        let mut body = vec![0; length];
        self.0.read_exact(&mut body)
    }
}

/// A client's waits in nanoseconds, and how many requests it made.
fn asked(
    server: &Server,
    web: &Path,
    by: By,
    seed: u64,
    over: &AtomicBool,
) -> io::Result<(Vec<u64>, u64)> {
    let mut requests = Requests::new(seed, seed as u16);
    let (mut waits, mut count) = (Vec::new(), 0);
    let mut socket = Client::new(server.connect()?);
    let mut http = Http(BufReader::new(UnixStream::connect(web)?));
    while !over.load(Ordering::Relaxed) {
        let depth = if let By::HttpMany(depth) = by {
            depth
        } else {
            1
        };
        let batch: Vec<_> = (0..depth).map(|_| requests.next()).collect();
        let began = Instant::now();
        match by {
            By::Socket => {
                socket.send(&batch)?;
                socket.reply()?;
            }
            By::Http => http.ask(&batch, false)?,
            By::HttpMany(_) => http.ask(&batch, true)?,
        }
        waits.push(began.elapsed().as_nanos() as u64);
        count += depth as u64;
    }
    Ok((waits, count))
}

fn measured(program: &Path, by: By, clients: usize, time: Duration) -> Result<Measured, String> {
    let room = room("web");
    let web: PathBuf = room.join("desk.http");
    let address = format!("unix:{}", web.display());
    let server = How::new(program, &room)
        .with(&["--http", &address])
        .start()?;
    let server = Arc::new(server);
    let over = Arc::new(AtomicBool::new(false));
    let began = Instant::now();
    let one = |seed: u64| {
        let (server, over, web) = (server.clone(), over.clone(), web.clone());
        std::thread::spawn(move || asked(&server, &web, by, seed, &over))
    };
    let threads: Vec<_> = (0..clients as u64).map(one).collect();
    std::thread::sleep(time);
    over.store(true, Ordering::Relaxed);
    let (mut waits, mut count) = (Vec::new(), 0);
    for thread in threads {
        let joined = thread.join().map_err(|_| "a client failed".to_string())?;
        let (some, of_these) = joined.map_err(|why| why.to_string())?;
        waits.extend(some);
        count += of_these;
    }
    let took = began.elapsed().as_secs_f64();
    drop(server);
    let _ = std::fs::remove_dir_all(&room);
    Ok(waits_of(waits, count, took, clients))
}

/// The middle figures of some turns.
fn middle(all: &[Measured]) -> Measured {
    let of = |pick: fn(&Measured) -> f64| quartiles(all.iter().map(pick).collect())[1];
    Measured {
        clients: all[0].clients,
        a_second: of(|m| m.a_second),
        median: of(|m| m.median),
        most: of(|m| m.most),
        worst: of(|m| m.worst),
    }
}

/// The table: requests a second, the median wait and that of 99 %, by clients; the ways in turn, and the median of the turns.
pub fn load(program: &Path, time: Duration, folder: Option<&Path>) -> Result<(), String> {
    let mut rows: Vec<String> = Vec::new();
    for clients in CLIENTS {
        let mut all: [Vec<Measured>; WAYS.len()] = Default::default();
        for turn in 0..TURNS {
            eprintln!("{clients} clients, turn {} of {TURNS}", turn + 1);
            for ((_, by), some) in WAYS.iter().zip(&mut all) {
                some.push(measured(program, *by, clients, time)?);
            }
        }
        for ((name, _), some) in WAYS.iter().zip(&all) {
            let each = some.iter().zip(&all[0]);
            let ratios = each.map(|(m, socket)| m.a_second / socket.a_second);
            let [low, ratio, high] = quartiles(ratios.collect());
            let m = middle(some);
            let (rate, median, most) = (grouped(m.a_second), grouped(m.median), grouped(m.most));
            rows.push(format!("| {name} | {clients} | {rate} | {median} | {most} | {ratio:.2} ({low:.2} to {high:.2}) |"));
        }
    }
    let mut text = String::from("| | clients | requests a second | median µs | 99 % µs | × socket, with quartiles |\n|---|---:|---:|---:|---:|---:|\n");
    for (name, _) in WAYS {
        let of = |row: &&String| row.starts_with(&format!("| {name} |"));
        rows.iter()
            .filter(of)
            .for_each(|row| text += &format!("{row}\n"));
    }
    print!("{text}");
    match folder {
        None => Ok(()),
        Some(folder) => std::fs::write(folder.join("load-http.md"), written(&text, time))
            .map_err(|why| why.to_string()),
    }
}

/// The page around the table.
fn written(table: &str, time: Duration) -> String {
    let seconds = time.as_secs();
    format!(
        "# Requests by HTTP beside those of the socket

One run of `tools/load --http`, which writes this page: a journal that is saved in full, each client on a connection of
its own that stays, by Unix sockets. The three ways are measured in turn, {TURNS} times {seconds} s each; shown is the median of the
turns, and the ratio to the socket's figure of the same turn. A body of many requests goes into the journal in one
transaction; its wait is that of the whole body. How busy the machine was shows in the socket's rows.

{table}"
    )
}
