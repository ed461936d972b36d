//! kill -9, over and over, under load: at a start, between requests, within a group, at a snapshot.

use crate::client::{Client, Life, Requests};
use crate::server::{room, How};
use crate::truth::{compared, Met};
use random::Random;
use std::path::Path;
use std::process::Command;
use std::time::{Duration, Instant};

const CLIENTS: u32 = 8;

/// What came of it.
pub struct Kills {
    pub kills: usize,
    /// Of these, before anyone could connect.
    pub early: usize,
    pub met: Met,
    pub seconds: u64,
    pub starts: Duration,
}

/// One server's time, from its start to its end; the lives of its clients.
fn one(how: &How, random: &mut Random, first: u32) -> (Vec<Life>, Option<Duration>) {
    let began = Instant::now();
    let server = how.spawn();
    if random.chance(1, 8) {
        std::thread::sleep(Duration::from_micros(random.below(12_000) as u64));
        return (Vec::new(), None);
    }
    assert!(server.waited(), "the server did not come up");
    let start = began.elapsed();
    let clients: Vec<_> = (0..CLIENTS)
        .filter_map(|at| Some((first + at, Client::new(server.connect().ok()?))))
        .map(|(id, client)| {
            let mut requests = Requests::new(random.word(), (id % CLIENTS) as u16);
            let depth = 1 + random.below(16);
            std::thread::spawn(move || client.live(id, &mut requests, depth, &|| false))
        })
        .collect();
    std::thread::sleep(Duration::from_micros(random.below(100_000) as u64));
    drop(server);
    let lives = clients
        .into_iter()
        .map(|client| client.join().expect("a client"));
    (lives.collect(), Some(start))
}

pub fn kills(program: &Path, count: usize, seed: u64) -> Result<Kills, String> {
    let room = room("kills");
    let how = How::new(program, &room).with(&["--snapshot", "5000"]);
    let mut random = Random::new(seed);
    let (mut met, mut after, mut lives) = (Met::default(), 0, Vec::new());
    let (mut early, mut starts, mut up) = (0, Duration::ZERO, 0);
    let began = Instant::now();
    for kill in 1..=count {
        let (lived, start) = one(&how, &mut random, kill as u32 * CLIENTS);
        lives.extend(lived);
        match start {
            Some(start) => (starts, up) = (starts + start, up + 1),
            None => early += 1,
        }
        // Now and then somebody looks; most starts find the file as it was left.
        if kill % 10 == 0 || kill == count {
            if how.journal.as_ref().is_some_and(|journal| journal.exists()) {
                let (now, last) = compared(&room.join("desk.db"), after, &lives)?;
                met.add(now);
                after = last;
            }
            lives.clear();
            eprint!("\rkill -9: {kill} of {count}, {} answered", met.answered);
        }
    }
    eprintln!();
    checked(program, &room.join("desk.db"))?;
    let _ = std::fs::remove_dir_all(&room);
    Ok(Kills {
        kills: count,
        early,
        met,
        seconds: began.elapsed().as_secs(),
        starts: starts / up.max(1),
    })
}

/// The whole journal asked again.
pub fn checked(program: &Path, journal: &Path) -> Result<(), String> {
    let output = Command::new(program)
        .arg("journal")
        .arg(journal)
        .arg("--check")
        .output();
    let output = output.map_err(|why| why.to_string())?;
    match output.status.success() {
        true => Ok(()),
        false => Err(String::from_utf8_lossy(&output.stderr).into_owned()),
    }
}
