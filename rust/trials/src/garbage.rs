//! Clients that send what no client should, beside others who work: those go on, and everything that they were answered is there.

use crate::client::{Client, Life, Requests};
use crate::kills::checked;
use crate::server::{room, How, Server};
use crate::truth::{compared_among, Met};
use random::Random;
use std::io::{Read, Write};
use std::os::unix::net::UnixStream;
use std::path::Path;
use std::sync::atomic::{AtomicBool, Ordering};
use std::sync::Arc;
use std::time::{Duration, Instant};

pub struct Garbage {
    pub met: Met,
    /// Bytes of garbage that were taken, and lines that were told to be wrong.
    pub bytes: u64,
    pub lines: u64,
    /// The worst wait of a client who works, without and with the others.
    pub alone: Duration,
    pub beside: Duration,
}

const WORKERS: u32 = 4;

/// Lines that are no notation, of each of two clients.
const LINES: u64 = 500_000;

/// Clients who work until it is over, and their worst wait.
fn work(
    server: &Server,
    first: u32,
    over: &Arc<AtomicBool>,
) -> Result<(Vec<Life>, Duration), String> {
    let workers: Vec<_> = (0..WORKERS)
        .map(|at| {
            let stream = server.connect().map_err(|why| why.to_string())?;
            let over = over.clone();
            Ok(std::thread::spawn(move || {
                worker(stream, first + at, &over)
            }))
        })
        .collect::<Result<_, String>>()?;
    let done: Vec<(Life, Duration)> = workers
        .into_iter()
        .map(|w| w.join().expect("a worker"))
        .collect();
    let worst = done
        .iter()
        .map(|(_, worst)| *worst)
        .max()
        .unwrap_or_default();
    Ok((done.into_iter().map(|(life, _)| life).collect(), worst))
}

fn worker(stream: UnixStream, id: u32, over: &AtomicBool) -> (Life, Duration) {
    let mut client = Client::new(stream);
    let mut requests = Requests::new(id.into(), id as u16);
    let mut life = Life {
        id,
        ..Life::default()
    };
    let mut worst = Duration::ZERO;
    let mut record = crate::client::named(id);
    while !over.load(Ordering::Relaxed) {
        let asked = Instant::now();
        client.send(&[record]).expect("a worker is served");
        life.sent.push(record);
        life.answered
            .push(client.reply().expect("a worker is answered"));
        worst = worst.max(asked.elapsed());
        record = requests.next();
    }
    (life, worst)
}

/// Text that is no notation.
const LINE: &[u8] = b"clam 5 0 1\n";

/// Noise that is text to nobody; lines by the thousand; a line without an end; half a record; nothing.
fn disturb(stream: UnixStream, what: usize, over: &AtomicBool) -> (u64, u64) {
    let mut to = match stream.try_clone() {
        Ok(to) => to,
        Err(_) => return (0, 0),
    };
    let reader = std::thread::spawn(move || replies(stream));
    let mut random = Random::new(what as u64);
    let mut sent = 0;
    let enough = |sent: u64| what.is_multiple_of(5) && sent >= LINES * LINE.len() as u64;
    while !over.load(Ordering::Relaxed) && !enough(sent) {
        let bytes: Vec<u8> = match what % 5 {
            0 => LINE.repeat(500),
            1 => vec![b'x'; 30_000],
            2 => (0..4096).map(|_| 32 + random.below(96) as u8).collect(),
            3 => vec![50, 0, 1, 0, 7],
            _ => Vec::new(),
        };
        match to.write_all(&bytes) {
            Ok(()) => sent += bytes.len() as u64,
            Err(_) => break,
        }
        if what % 5 >= 3 {
            std::thread::sleep(Duration::from_millis(200));
            break;
        }
    }
    // Then the server ends its side too, and the reader comes to an end.
    let _ = to.shutdown(std::net::Shutdown::Write);
    (sent, reader.join().unwrap_or(0))
}

/// How many lines come back, until nothing does.
fn replies(mut stream: UnixStream) -> u64 {
    let (mut room, mut lines) = (vec![0; 65_536], 0);
    while let Ok(read @ 1..) = stream.read(&mut room) {
        lines += room[..read].iter().filter(|&&byte| byte == b'\n').count() as u64;
    }
    lines
}

/// Sets a flag after a while.
fn after(time: Duration) -> Arc<AtomicBool> {
    let over = Arc::new(AtomicBool::new(false));
    let set = over.clone();
    std::thread::spawn(move || {
        std::thread::sleep(time);
        set.store(true, Ordering::Relaxed);
    });
    over
}

pub fn garbage(program: &Path) -> Result<Garbage, String> {
    let room = room("garbage");
    let mut server = How::new(program, &room).start()?;
    let (mut lives, alone) = work(&server, 0, &after(Duration::from_secs(2)))?;
    // The others go on until the million lines are answered.
    let (over, million) = (
        after(Duration::from_secs(600)),
        after(Duration::from_secs(600)),
    );
    let disturbers: Vec<_> = (0..10)
        .filter_map(|what| Some((what, server.connect().ok()?)))
        .map(|(what, stream)| {
            let over = over.clone();
            std::thread::spawn(move || disturb(stream, what, &over))
        })
        .collect();
    let working = million.clone();
    let ended = std::thread::spawn(move || {
        let (mut bytes, mut lines, mut others) = (0, 0, Vec::new());
        for (what, disturber) in disturbers.into_iter().enumerate() {
            match what % 5 {
                0 => {
                    let (sent, told) = disturber.join().unwrap_or_default();
                    (bytes, lines) = (bytes + sent, lines + told);
                }
                _ => others.push(disturber),
            }
        }
        over.store(true, Ordering::Relaxed);
        working.store(true, Ordering::Relaxed);
        for disturber in others {
            let (sent, told) = disturber.join().unwrap_or_default();
            (bytes, lines) = (bytes + sent, lines + told);
        }
        (bytes, lines)
    });
    let (with, beside) = work(&server, WORKERS, &million)?;
    lives.extend(with);
    let (bytes, lines) = ended.join().map_err(|_| "a client failed".to_string())?;
    if !server.lives() {
        return Err("the server ended".to_string());
    }
    drop(server);
    let journal = room.join("desk.db");
    // Half records are in the journal too, as the engine answered them; they have no life.
    let (met, _) = compared_among(&journal, &lives)?;
    checked(program, &journal)?;
    let _ = std::fs::remove_dir_all(&room);
    Ok(Garbage {
        met,
        bytes,
        lines,
        alone,
        beside,
    })
}
