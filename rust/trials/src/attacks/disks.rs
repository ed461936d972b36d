//! Faults 4, 5 and 10: small disks, and a log that grows.

use super::{text, wanted, Came};
use crate::client::{Client, Requests};
use crate::kills::checked;
use crate::server::{policy, room, How};
use std::fs;
use std::path::{Path, PathBuf};
use std::process::Command;
use std::time::{Duration, Instant};

/// A disk of its own; it goes when this goes.
struct Disk(PathBuf);

impl Disk {
    fn mount(room: &Path, size: &str) -> Option<Disk> {
        let at = room.join("disk");
        fs::create_dir_all(&at).ok()?;
        let mount = Command::new("mount")
            .args([
                "-t",
                "tmpfs",
                "-o",
                &format!("size={size},mode=700"),
                "tmpfs",
            ])
            .arg(&at)
            .output();
        mount
            .is_ok_and(|done| done.status.success())
            .then_some(Disk(at))
    }
}

impl Drop for Disk {
    fn drop(&mut self) {
        let _ = Command::new("umount").arg(&self.0).output();
    }
}

const NOT_TRIED: &str = "not tried: no small disk could be mounted here";

/// Fills a disk up to that many bytes.
fn filled(file: &Path, left: u64, folder: &Path) -> Result<(), String> {
    let df = Command::new("df")
        .args(["--output=avail", "-B1"])
        .arg(folder)
        .output()
        .map_err(text)?;
    let df = String::from_utf8_lossy(&df.stdout).into_owned();
    let free: u64 = df
        .lines()
        .nth(1)
        .and_then(|line| line.trim().parse().ok())
        .unwrap_or(0);
    fs::write(file, vec![0; free.saturating_sub(left) as usize]).map_err(text)
}

pub fn begun(program: &Path) -> Came {
    let room = room("begun");
    let Some(disk) = Disk::mount(&room, "1m") else {
        return Ok(NOT_TRIED.to_string());
    };
    let (mut whole, mut none) = (0, 0);
    for kilobytes in (4..=320).step_by(4) {
        for entry in fs::read_dir(&disk.0).map_err(text)? {
            let _ = fs::remove_file(entry.map_err(text)?.path());
        }
        fs::write(disk.0.join("policy.txt"), policy()).map_err(text)?;
        filled(&disk.0.join("ballast"), kilobytes * 1024, &disk.0)?;
        let started = How::new(program, &disk.0).start();
        let journal = disk.0.join("desk.db");
        drop(started);
        let _ = fs::remove_file(disk.0.join("ballast"));
        match journal.exists() {
            false => none += 1,
            true => {
                checked(program, &journal).map_err(|why| format!("{kilobytes} KB free: {why}"))?;
                whole += 1;
            }
        }
        let left = disk.0.join("desk.db.new");
        wanted(
            !left.exists(),
            format!("{kilobytes} KB free: a half-made journal was left"),
        )?;
    }
    wanted(
        whole > 0 && none > 0,
        "the disk was never too small, or always",
    )?;
    Ok(format!("80 disks with 4 to 320 KB free: {whole} times the journal is there and sound, {none} times it is not there"))
}

/// Asks until that many were answered or one was not done: how many were answered.
fn asked(client: &mut Client, requests: &mut Requests, most: usize) -> Result<usize, String> {
    let mut answered = 0;
    while answered < most {
        let batch: Vec<_> = (0..8).map(|_| requests.next()).collect();
        client.send(&batch).map_err(text)?;
        let mut refused = false;
        for _ in &batch {
            let reply = client.reply().map_err(text)?;
            refused |= reply.not_done;
            answered += usize::from(!reply.not_done);
        }
        if refused {
            break;
        }
    }
    Ok(answered)
}

pub fn log(program: &Path) -> Came {
    let room = room("log");
    let Some(disk) = Disk::mount(&room, "1200k") else {
        return Ok(NOT_TRIED.to_string());
    };
    fs::write(disk.0.join("policy.txt"), policy()).map_err(text)?;
    let mut server = How::new(program, &disk.0).start()?;
    let errors = server.errors();
    let mut client = Client::new(server.connect().map_err(text)?);
    let mut requests = Requests::new(3, 0);
    // Each group takes two or three pages of log: without a checkpoint the disk is full after some 100 groups.
    let alone = asked(&mut client, &mut requests, 5000)?;
    wanted(
        alone >= 5000,
        format!("the log filled the disk after {alone} requests"),
    )?;
    // Then the disk is filled by others but for one page: the reserve lets the log be moved.
    filled(&disk.0.join("ballast"), 4096, &disk.0)?;
    let with_reserve = asked(&mut client, &mut requests, 2000)?;
    fs::remove_file(disk.0.join("ballast")).map_err(text)?;
    let after = asked(&mut client, &mut requests, 500)?;
    wanted(
        after >= 500,
        "the desk stays stuck though there is room again",
    )?;
    drop(server);
    checked(program, &disk.0.join("desk.db"))?;
    let told = errors.join().map_err(|_| "no errors")?;
    wanted(
        told.contains("the disk is full"),
        format!("nothing was reported: {told}"),
    )?;
    Ok(format!("{alone} requests in groups of 8 on a disk of 1.2 MB, where the log alone would have filled it after some 100 groups; {with_reserve} more on a disk that others filled, by the reserve, and reported; {after} when there was room again"))
}

pub fn reader(program: &Path) -> Came {
    let room = room("reader");
    let mut server = How::new(program, &room)
        .with(&["--saved", "normal"])
        .start()?;
    let errors = server.errors();
    let journal = room.join("desk.db");
    let size = || fs::metadata(room.join("desk.db-wal")).map_or(0, |log| log.len());
    let mut client = Client::new(server.connect().map_err(text)?);
    let mut requests = Requests::new(3, 0);
    asked(&mut client, &mut requests, 64)?;
    let sql = rusqlite::Connection::open(&journal).map_err(text)?;
    sql.execute_batch("BEGIN; SELECT count(*) FROM request;")
        .map_err(text)?;
    let count = sql.query_row("SELECT count(*) FROM request", [], |r| r.get::<_, i64>(0));
    count.map_err(text)?;
    let began = Instant::now();
    while size() < 24 << 20 && began.elapsed() < Duration::from_secs(120) {
        asked(&mut client, &mut requests, 400)?;
    }
    let grown = size();
    drop(sql);
    asked(&mut client, &mut requests, 64)?;
    let began = Instant::now();
    while size() > 8 << 20 && began.elapsed() < Duration::from_secs(10) {
        std::thread::sleep(Duration::from_millis(100));
    }
    let after = size();
    drop(server);
    let told = errors.join().map_err(|_| "no errors")?;
    wanted(
        grown >= 16 << 20,
        format!("the log grew to {grown} bytes alone"),
    )?;
    wanted(
        after <= 8 << 20,
        format!("the log has {after} bytes though the reader is gone"),
    )?;
    wanted(
        told.contains("keeps it from being shortened"),
        format!("nothing was reported: {told}"),
    )?;
    Ok(format!("the log grew to {:.1} MB while somebody read, which was reported, and shrank to {:.1} MB when the reader was gone", grown as f64 / 1e6, after as f64 / 1e6))
}
