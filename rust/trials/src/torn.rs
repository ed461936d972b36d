//! What a failure of power leaves, simulated on copies: the last write cut or garbled, a page of the file half written, a byte changed.

use crate::client::{Client, Life, Requests};
use crate::kills::checked;
use crate::server::{room, How};
use crate::truth::compared;
use random::Random;
use std::fs;
use std::path::{Path, PathBuf};

/// What came of it.
#[derive(Default)]
pub struct Torn {
    /// The last write cut or garbled: nothing that was answered before it is lost, and the server goes on.
    pub cut: usize,
    /// A page that a checkpoint left half written.
    pub half: usize,
    /// A byte changed anywhere in the file: found, or of no effect.
    pub found: usize,
    pub harmless: usize,
}

fn wal(journal: &Path) -> PathBuf {
    PathBuf::from(format!("{}-wal", journal.display()))
}

/// A journal with requests in its log: how long the log was before the last write, and the lives before it and with it.
struct Left {
    journal: PathBuf,
    before: usize,
    life: Life,
    last: usize,
}

/// Requests that are answered, then a last batch whose replies nobody counts on.
fn left(program: &Path, room: &Path) -> Result<Left, String> {
    let how = How::new(program, room).with(&["--snapshot", "400"]);
    let server = how.start()?;
    let journal = room.join("desk.db");
    let mut requests = Requests::new(5, 0);
    let mut client = Client::new(server.connect().map_err(|why| why.to_string())?);
    let mut life = Life {
        id: 7,
        ..Life::default()
    };
    let mut batch = vec![crate::client::named(7)];
    let mut before = 0;
    for turn in 0..60 {
        client.send(&batch).map_err(|why| why.to_string())?;
        life.sent.extend(&batch);
        for _ in 0..batch.len() {
            life.answered
                .push(client.reply().map_err(|why| why.to_string())?);
        }
        if turn == 58 {
            before = fs::metadata(wal(&journal)).map_or(0, |log| log.len() as usize);
        }
        batch = (0..20).map(|_| requests.next()).collect();
    }
    drop(server);
    let last = life.answered.len() - 20;
    Ok(Left {
        journal,
        before,
        life,
        last,
    })
}

/// A copy of a journal in a folder of its own, whose log is as given.
fn copied(left: &Left, room: &Path, log: &[u8]) -> PathBuf {
    for name in ["desk.db", "desk.db-wal", "desk.db-shm", "desk.db.lock"] {
        let _ = fs::remove_file(room.join(name));
    }
    let journal = room.join("desk.db");
    fs::copy(&left.journal, &journal).expect("a copy");
    fs::write(wal(&journal), log).expect("a copy");
    journal
}

/// Starts on a copy, asks once more, and compares.
fn goes_on(program: &Path, room: &Path, life: &Life) -> Result<(), String> {
    let server = How::new(program, room).start()?;
    let mut client = Client::new(server.connect().map_err(|why| why.to_string())?);
    let mut requests = Requests::new(9, 1);
    let batch = [crate::client::named(8), requests.next(), requests.next()];
    client.send(&batch).map_err(|why| why.to_string())?;
    let replies: Result<Vec<_>, _> = batch.iter().map(|_| client.reply()).collect();
    let answered = replies.map_err(|why| why.to_string())?;
    drop(server);
    let (sent, answered) = (batch.to_vec(), answered.to_vec());
    let first = Life {
        id: 7,
        sent: life.sent.clone(),
        answered: life.answered.clone(),
    };
    let second = Life {
        id: 8,
        sent,
        answered,
    };
    compared(&room.join("desk.db"), 0, &[first, second])?;
    checked(program, &room.join("desk.db"))
}

/// The pages that a log has.
fn pages(log: &[u8]) -> Vec<usize> {
    let frames = log.get(32..).unwrap_or(&[]).chunks_exact(24 + 4096);
    let number =
        |frame: &[u8]| u32::from_be_bytes([frame[0], frame[1], frame[2], frame[3]]) as usize;
    frames.map(number).collect()
}

pub fn torn(program: &Path, rounds: usize, seed: u64) -> Result<Torn, String> {
    let (first, room) = (room("torn-first"), room("torn"));
    let left = left(program, &first)?;
    let log = fs::read(wal(&left.journal)).map_err(|why| why.to_string())?;
    let mut random = Random::new(seed);
    let mut torn = Torn::default();
    // As far as the last batch nothing was written that is torn: what it had to say is gone, or there.
    let mut before = Life {
        id: 7,
        ..Life::default()
    };
    before.sent = left.life.sent.clone();
    before.answered = left.life.answered[..left.last].to_vec();
    for round in 0..rounds {
        eprint!("\rtorn: {} of {rounds}", round + 1);
        let at = left.before + random.below(log.len() - left.before);
        let mut cut = log[..at].to_vec();
        if random.chance(1, 2) {
            cut.extend((at..log.len()).map(|_| random.word() as u8));
        }
        copied(&left, &room, &cut);
        goes_on(program, &room, &before).map_err(|why| format!("the log cut at {at}: {why}"))?;
        torn.cut += 1;

        let journal = copied(&left, &room, &log);
        let mut file = fs::read(&journal).map_err(|why| why.to_string())?;
        let logged = pages(&log);
        let page = random.pick(&logged);
        let from = (page - 1) * 4096 + random.below(4096);
        file.resize(file.len().max(page * 4096), 0);
        file[from..page * 4096]
            .iter_mut()
            .for_each(|byte| *byte = random.word() as u8);
        fs::write(&journal, &file).map_err(|why| why.to_string())?;
        goes_on(program, &room, &left.life)
            .map_err(|why| format!("page {page} half written: {why}"))?;
        torn.half += 1;
        changed(program, &left, &room, &log, &mut random, &mut torn)?;
    }
    eprintln!();
    let _ = (fs::remove_dir_all(&first), fs::remove_dir_all(&room));
    Ok(torn)
}

/// A byte changed in a file that has everything in it: a check finds it, or every row is as it was.
fn changed(
    program: &Path,
    left: &Left,
    room: &Path,
    log: &[u8],
    random: &mut Random,
    torn: &mut Torn,
) -> Result<(), String> {
    let journal = copied(left, room, log);
    let moved = rusqlite::Connection::open(&journal)
        .and_then(|sql| sql.query_row("PRAGMA wal_checkpoint(TRUNCATE)", [], |_| Ok(())));
    moved.map_err(|why| why.to_string())?;
    let mut file = fs::read(&journal).map_err(|why| why.to_string())?;
    let at = random.below(file.len());
    file[at] ^= 1 << random.below(8);
    fs::write(&journal, &file).map_err(|why| why.to_string())?;
    if checked(program, &journal).is_err() {
        torn.found += 1;
        return Ok(());
    }
    torn.harmless += 1;
    let life = Life {
        id: 7,
        sent: left.life.sent.clone(),
        answered: left.life.answered.clone(),
    };
    compared(&journal, 0, &[life])
        .map_err(|why| format!("byte {at} changed, and a check did not see it: {why}"))?;
    Ok(())
}
