//! Many desks in one server: what each takes of memory and disk, how long a start is, and how many requests a second they answer.

use crate::client::{Client, Requests};
use crate::load::grouped;
use crate::server::{room, How, Server};
use std::io::{BufRead, BufReader, Write};
use std::os::unix::net::UnixStream;
use std::path::Path;
use std::sync::atomic::{AtomicBool, Ordering};
use std::sync::Arc;
use std::time::{Duration, Instant};

const CLIENTS: usize = 16;

/// One client of a desk, which asks until it is over.
fn asked(stream: UnixStream, desk: &str, seed: u64, over: &AtomicBool) -> u64 {
    let mut stream = stream;
    writeln!(stream, "desk {desk}").expect("a server that takes clients");
    let mut line = String::new();
    let mut reader = BufReader::with_capacity(1, stream.try_clone().expect("a connection"));
    reader.read_line(&mut line).expect("a desk");
    let mut client = Client::new(stream);
    let mut requests = Requests::new(seed, seed as u16);
    let mut count = 0;
    while !over.load(Ordering::Relaxed) {
        client
            .send(&[requests.next()])
            .expect("a server that takes requests");
        client.reply().expect("a server that answers");
        count += 1;
    }
    count
}

/// Requests a second of one client a desk, of all desks of several servers together.
pub fn rate(servers: &[(Server, Vec<String>)], time: Duration) -> Result<f64, String> {
    let over = Arc::new(AtomicBool::new(false));
    let mut threads = Vec::new();
    for (server, desks) in servers {
        for desk in desks {
            let stream = server.connect().map_err(|why| why.to_string())?;
            let (desk, over, seed) = (desk.clone(), over.clone(), threads.len() as u64);
            threads.push(std::thread::spawn(move || {
                asked(stream, &desk, seed, &over)
            }));
        }
    }
    let began = Instant::now();
    std::thread::sleep(time);
    over.store(true, Ordering::Relaxed);
    let mut sum = 0;
    for thread in threads {
        sum += thread.join().map_err(|_| "a client failed".to_string())?;
    }
    Ok(sum as f64 / began.elapsed().as_secs_f64())
}

pub fn desks(program: &Path, time: Duration) -> Result<(), String> {
    println!("| desks | start ms | memory KB | KB a desk | requests a second, {CLIENTS} clients |\n|---:|---:|---:|---:|---:|");
    let mut alone = 0;
    for count in [1, 4, 16, 64, 256] {
        let room = room("desks");
        let mut how = How::new(program, &room);
        how.journal = None;
        for desk in 0..count {
            let file = room.join(format!("d{desk}.db"));
            how = how.with(&["--desk", &format!("d{desk}={}", file.display())]);
        }
        drop(how.start()?);
        // The journals are there now: this is a start like any other.
        let began = Instant::now();
        let server = how.start()?;
        let start = began.elapsed().as_secs_f64() * 1e3;
        let over = Arc::new(AtomicBool::new(false));
        let threads: Vec<_> = (0..CLIENTS)
            .map(|at| {
                let (stream, over) = (server.connect().expect("a server"), over.clone());
                let desk = format!("d{}", at % count);
                std::thread::spawn(move || asked(stream, &desk, at as u64, &over))
            })
            .collect();
        let began = Instant::now();
        std::thread::sleep(time);
        over.store(true, Ordering::Relaxed);
        let mut sum = 0;
        for thread in threads {
            sum += thread.join().map_err(|_| "a client failed".to_string())?;
        }
        let rate = sum as f64 / began.elapsed().as_secs_f64();
        let memory = server.memory();
        if count == 1 {
            alone = memory;
        }
        let each = (memory - alone.min(memory)) as f64 / (count - 1).max(1) as f64;
        let each = if count == 1 {
            "-".to_string()
        } else {
            grouped(each)
        };
        println!(
            "| {count} | {start:.0} | {} | {each} | {} |",
            grouped(memory as f64),
            grouped(rate)
        );
        drop(server);
        let size = std::fs::metadata(room.join("d0.db")).map_or(0, |file| file.len());
        if count == 1 {
            eprintln!("a journal of a new desk: {size} bytes");
        }
        let _ = std::fs::remove_dir_all(&room);
    }
    Ok(())
}
