//! Faults 7, 8 and 13: times, names and the first byte.

use super::{text, wanted, Came};
use crate::server::{room, How};
use crate::talk::{is_answer, Talk};
use rusqlite::Connection;
use std::fs;
use std::io::{Read, Write};
use std::path::{Path, PathBuf};
use std::time::{Duration, Instant, SystemTime};

/// A library that makes a process see another time (Debian's package `faketime`).
fn faketime() -> Option<PathBuf> {
    let folders = fs::read_dir("/usr/lib")
        .ok()?
        .flatten()
        .map(|entry| entry.path());
    let mut libraries = folders.map(|folder| folder.join("faketime/libfaketimeMT.so.1"));
    libraries.find(|library| library.is_file())
}

pub fn clock(program: &Path) -> Came {
    let Some(library) = faketime() else {
        return Ok("not tried: the package faketime is not installed here".to_string());
    };
    let room = room("clock");
    let time = room.join("time");
    let set = |offset: &str| fs::write(&time, offset).map_err(text);
    set("+0")?;
    let mut how = How::new(program, &room);
    for (name, value) in [
        ("LD_PRELOAD", library.display().to_string()),
        ("FAKETIME_TIMESTAMP_FILE", time.display().to_string()),
        ("FAKETIME_NO_CACHE", "1".to_string()),
        ("FAKETIME_DONT_FAKE_MONOTONIC", "1".to_string()),
        ("DONT_FAKE_MONOTONIC", "1".to_string()),
    ] {
        how.envs.push((name.to_string(), value));
    }
    let server = how.start()?;
    let mut talk = Talk::new(server.connect().map_err(text)?);
    for offset in ["+0", "+10y", "+0"] {
        set(offset)?;
        let reply = talk.ask("check 1 operation 0 object 0").map_err(text)?;
        wanted(is_answer(&reply), reply)?;
    }
    drop(server);
    let sql = Connection::open(room.join("desk.db")).map_err(text)?;
    let mut select = sql
        .prepare("SELECT at FROM request ORDER BY number")
        .map_err(text)?;
    let at: Result<Vec<i64>, _> = select
        .query_map([], |r| r.get(0))
        .and_then(Iterator::collect);
    let at = at.map_err(text)?;
    let now = SystemTime::now()
        .duration_since(SystemTime::UNIX_EPOCH)
        .map_err(text)?
        .as_micros() as i64;
    let years = |at: i64| (at - now) as f64 / (365.25 * 86_400e6);
    let seen: Vec<f64> = at.iter().map(|&at| years(at)).collect();
    let right = seen.len() == 3 && seen[0].abs() < 0.1 && seen[1] > 9.0 && seen[2].abs() < 0.1;
    wanted(right, format!("rows are at {seen:.1?} years from now"))?;
    let jumps = sql.query_row("SELECT count(*) FROM clock", [], |r| r.get::<_, i64>(0));
    let jumps = jumps.map_err(text)?;
    wanted(jumps == 2, format!("the journal tells {jumps} jumps"))?;
    crate::kills::checked(program, &room.join("desk.db"))?;
    Ok("the row of that request is ten years ahead, the next one is at the time as it is; the journal tells both jumps".to_string())
}

/// How many orders are opened with a name of their own.
const NAMES: usize = 100_000;

pub fn names(program: &Path) -> Came {
    let room = room("names");
    let how = How::new(program, &room).with(&["--saved", "normal", "--snapshot", "20000"]);
    let server = how.start()?;
    let mut talk = Talk::new(server.connect().map_err(text)?);
    let long = talk.ask(&format!("open order 1 {} of template 0", "z".repeat(65)));
    let long = long.map_err(text)?;
    wanted(
        long.contains("at most 64 bytes"),
        format!("a long name: {long}"),
    )?;
    let sender = server.connect().map_err(text)?;
    let mut replies = sender.try_clone().map_err(text)?;
    let reading = std::thread::spawn(move || {
        let mut all = Vec::new();
        let _ = replies.read_to_end(&mut all);
        all.split(|&byte| byte == b'\n')
            .filter(|line| line.ends_with(b"GRANTED"))
            .count()
    });
    {
        let mut to = std::io::BufWriter::new(&sender);
        for at in 0..NAMES {
            let order = at % 64;
            let name = format!("{at:05}{}", "n".repeat(58));
            writeln!(
                to,
                "open order {order} o{name} of template 0\nend order {order}"
            )
            .map_err(text)?;
        }
    }
    sender.shutdown(std::net::Shutdown::Write).map_err(text)?;
    let granted = reading.join().map_err(|_| "a client failed")?;
    wanted(
        granted == 2 * NAMES,
        format!("{granted} of {} were granted", 2 * NAMES),
    )?;
    let last = talk.ask("open order 7 zed of template 0").map_err(text)?;
    wanted(is_answer(&last), last)?;
    drop(server);
    let began = Instant::now();
    let server = how.start()?;
    let took = began.elapsed();
    let memory = server.memory();
    let mut talk = Talk::new(server.connect().map_err(text)?);
    let end = talk.ask("end order zed").map_err(text)?;
    wanted(
        end.ends_with("0 GRANTED"),
        format!("a live name was forgotten: {end}"),
    )?;
    wanted(
        took < Duration::from_secs(2) && memory < 40_000,
        format!("a start takes {took:?} and {memory} KB"),
    )?;
    Ok(format!("{NAMES} orders opened and ended, each with a name of 64 bytes; a start takes {:.0} ms and {memory} KB; the live name holds; a name of 65 bytes is refused", took.as_secs_f64() * 1e3))
}

pub fn first_bytes(program: &Path) -> Came {
    let room = room("first");
    let server = How::new(program, &room).start()?;
    let is_text = |byte: u8| byte.is_ascii_alphabetic() || byte == b'{' || byte == 0xef;
    let (mut records, mut lines) = (0, 0);
    for kind in 0..=255u8 {
        for n in [0, 10, b' ', b'0', b'a'] {
            let mut stream = server.connect().map_err(text)?;
            stream
                .set_read_timeout(Some(Duration::from_secs(5)))
                .map_err(text)?;
            let mut record = [0; 16];
            (record[0], record[1]) = (kind, n);
            stream.write_all(&record).map_err(text)?;
            let mut reply = [0; 16];
            if is_text(kind) {
                // A line, which its end completes.
                stream.write_all(b"\n").map_err(text)?;
                let some = stream
                    .read(&mut reply)
                    .map_err(|why| format!("{kind} {n}: {why}"))?;
                wanted(some > 0, format!("{kind} {n} is not answered"))?;
                lines += 1;
            } else {
                stream
                    .read_exact(&mut reply)
                    .map_err(|why| format!("kind {kind}, n {n} is not answered: {why}"))?;
                records += 1;
            }
        }
    }
    Ok(format!("{records} first records of every kind that is no letter are answered, as are {lines} lines that begin with a letter, a brace or a byte order mark"))
}
