//! The load that a desk holds: requests a second and waits, by clients; what the journal costs, and what writing in groups gives.

use crate::client::{Client, Requests};
use crate::server::{room, How};
use plot::{picture, Colour, Curve, Panel};
use std::fmt::Write as _;
use std::path::Path;
use std::sync::atomic::{AtomicBool, Ordering};
use std::sync::Arc;
use std::time::{Duration, Instant};

/// How a desk keeps what it answers, and how much is asked at once.
pub struct Way {
    pub name: &'static str,
    pub journal: bool,
    pub more: &'static [&'static str],
    /// How many requests a client sends before it reads their replies.
    pub depth: usize,
}

pub const WAYS: [Way; 5] = [
    Way {
        name: "journal",
        journal: true,
        more: &[],
        depth: 1,
    },
    Way {
        name: "one request a transaction",
        journal: true,
        more: &["--group", "1"],
        depth: 1,
    },
    Way {
        name: "journal, saved normal",
        journal: true,
        more: &["--saved", "normal"],
        depth: 1,
    },
    Way {
        name: "no journal",
        journal: false,
        more: &[],
        depth: 1,
    },
    Way {
        name: "journal, 64 requests at once",
        journal: true,
        more: &[],
        depth: 64,
    },
];

pub const CLIENTS: [usize; 3] = [1, 8, 64];

/// Microseconds.
#[derive(Clone, Copy, Debug)]
pub struct Measured {
    pub clients: usize,
    pub a_second: f64,
    pub median: f64,
    pub most: f64,
    pub worst: f64,
}

/// A client's waits in nanoseconds, one for each time it asked; and how many requests there were.
fn asked(mut client: Client, seed: u64, depth: usize, over: &AtomicBool) -> (Vec<u64>, u64) {
    let mut requests = Requests::new(seed, seed as u16);
    let (mut waits, mut count) = (Vec::new(), 0);
    while !over.load(Ordering::Relaxed) {
        let batch: Vec<_> = (0..depth).map(|_| requests.next()).collect();
        let began = Instant::now();
        client.send(&batch).expect("a server that takes requests");
        for _ in &batch {
            client.reply().expect("a server that answers");
        }
        waits.push(began.elapsed().as_nanos() as u64);
        count += depth as u64;
    }
    (waits, count)
}

pub fn measured(
    program: &Path,
    way: &Way,
    clients: usize,
    time: Duration,
) -> Result<Measured, String> {
    let room = room("load");
    let mut how = How::new(program, &room).with(way.more);
    if !way.journal {
        how.journal = None;
    }
    let measured = measured_of(&how, clients, way.depth, time);
    let _ = std::fs::remove_dir_all(&room);
    measured
}

/// The same of a server that is started so.
pub fn measured_of(
    how: &How,
    clients: usize,
    depth: usize,
    time: Duration,
) -> Result<Measured, String> {
    let server = how.start()?;
    let over = Arc::new(AtomicBool::new(false));
    let began = Instant::now();
    let threads: Vec<_> = (0..clients as u64)
        .map(|seed| {
            let client = Client::new(server.connect().expect("a server that takes clients"));
            let over = over.clone();
            std::thread::spawn(move || asked(client, seed, depth, &over))
        })
        .collect();
    std::thread::sleep(time);
    over.store(true, Ordering::Relaxed);
    let (mut waits, mut count) = (Vec::new(), 0);
    for thread in threads {
        let (some, of_these) = thread.join().map_err(|_| "a client failed".to_string())?;
        waits.extend(some);
        count += of_these;
    }
    let took = began.elapsed().as_secs_f64();
    drop(server);
    Ok(waits_of(waits, count, took, clients))
}

/// The figures of so many requests in so many seconds, by their waits in nanoseconds.
pub fn waits_of(mut waits: Vec<u64>, count: u64, took: f64, clients: usize) -> Measured {
    waits.sort_unstable();
    let last = waits.len().saturating_sub(1) as f64;
    let part = |part: f64| {
        waits
            .get((last * part) as usize)
            .map_or(0.0, |&wait| wait as f64 / 1e3)
    };
    Measured {
        clients,
        a_second: count as f64 / took,
        median: part(0.5),
        most: part(0.99),
        worst: part(1.0),
    }
}

/// The desk's memory in kilobytes, after each tenth of so many requests.
pub fn memory(program: &Path, requests: u64) -> Result<(Vec<u64>, f64, u64), String> {
    let room = room("memory");
    let server = How::new(program, &room).start()?;
    let began = Instant::now();
    let mut sizes = Vec::new();
    let each = requests / 10 / 8;
    let mut clients: Vec<Client> = Vec::new();
    for _ in 0..8 {
        clients.push(Client::new(
            server.connect().map_err(|why| why.to_string())?,
        ));
    }
    for tenth in 0..10 {
        let threads: Vec<_> = clients
            .drain(..)
            .enumerate()
            .map(|(seed, client)| {
                std::thread::spawn(move || sent(client, seed as u64 + 10 * tenth, each))
            })
            .collect();
        for thread in threads {
            clients.push(thread.join().map_err(|_| "a client failed".to_string())?);
        }
        sizes.push(server.memory());
        eprint!(
            "\rmemory: {} of {requests} requests, {} KB",
            (tenth + 1) * each * 8,
            server.memory()
        );
    }
    eprintln!();
    let rate = (each * 80) as f64 / began.elapsed().as_secs_f64();
    drop(server);
    let size = std::fs::metadata(room.join("desk.db")).map_or(0, |file| file.len());
    let _ = std::fs::remove_dir_all(&room);
    Ok((sizes, rate, size / (each * 80)))
}

fn sent(mut client: Client, seed: u64, count: u64) -> Client {
    let mut requests = Requests::new(seed, seed as u16);
    let mut left = count;
    while left > 0 {
        let batch: Vec<_> = (0..left.min(512)).map(|_| requests.next()).collect();
        client.send(&batch).expect("a server that takes requests");
        for _ in &batch {
            client.reply().expect("a server that answers");
        }
        left -= batch.len() as u64;
    }
    client
}

/// A number as one reads it.
pub fn grouped(number: f64) -> String {
    let digits = format!("{number:.0}");
    let mut text = String::new();
    for (at, digit) in digits.chars().enumerate() {
        if at > 0 && (digits.len() - at) % 3 == 0 {
            text.push(',');
        }
        text.push(digit);
    }
    text
}

/// The tables and the picture.
pub fn load(program: &Path, time: Duration, folder: Option<&Path>) -> Result<(), String> {
    let mut all: Vec<(&Way, Vec<Measured>)> = Vec::new();
    for way in &WAYS {
        let mut some = Vec::new();
        for clients in CLIENTS {
            eprintln!("{}: {clients} clients", way.name);
            some.push(measured(program, way, clients, time)?);
        }
        all.push((way, some));
    }
    let text = tables(&all);
    print!("{text}");
    if let Some(folder) = folder {
        let failed = |why: std::io::Error| why.to_string();
        std::fs::write(folder.join("load.md"), &text).map_err(failed)?;
        let title = "Requests a second and waits, by clients";
        let picture = picture(&panels(&all), title);
        std::fs::write(folder.join("load.svg"), picture).map_err(failed)?;
    }
    Ok(())
}

/// How often what is compared is measured in turn.
pub const TURNS: usize = 9;

/// What a change may cost at most.
const KEPT: f64 = 0.95;

/// The middle of some numbers, and those a quarter and three quarters up.
pub fn quartiles(mut numbers: Vec<f64>) -> [f64; 3] {
    numbers.sort_by(f64::total_cmp);
    let last = numbers.len().saturating_sub(1);
    [1, 2, 3].map(|quarter| numbers.get(last * quarter / 4).copied().unwrap_or(0.0))
}

/// Requests a second of one program by those of another, the two measured in turn, each first as often as second: the median of the ratios.
/// Fails where that is below 0.95 for a desk with a journal that is saved as usual.
pub fn ratio(program: &Path, before: &Path, time: Duration) -> Result<(), String> {
    println!("| | clients | median ratio of {TURNS} | quartiles |\n|---|---:|---:|---:|");
    let mut slow = Vec::new();
    for way in &WAYS {
        for clients in CLIENTS {
            let mut ratios = Vec::new();
            for turn in 0..TURNS {
                let rate = |program| measured(program, way, clients, time).map(|m| m.a_second);
                let (new, old) = match turn % 2 {
                    0 => {
                        let old = rate(before)?;
                        (rate(program)?, old)
                    }
                    _ => (rate(program)?, rate(before)?),
                };
                ratios.push(new / old);
            }
            let [low, middle, high] = quartiles(ratios);
            let name = way.name;
            println!("| {name} | {clients} | {middle:.2} | {low:.2} to {high:.2} |");
            if middle < KEPT && name == WAYS[0].name {
                slow.push(format!("{middle:.3} with {clients} clients"));
            }
        }
    }
    match slow.is_empty() {
        true => Ok(()),
        false => Err(format!("slower than {KEPT} of before: {}", slow.join(", "))),
    }
}

fn tables(all: &[(&Way, Vec<Measured>)]) -> String {
    let mut text = String::from("| | clients | requests a second | median µs | 99 % µs | worst ms | × no journal |\n|---|---:|---:|---:|---:|---:|---:|\n");
    let without = all
        .iter()
        .find(|(way, _)| !way.journal)
        .map(|(_, some)| some);
    for (way, some) in all {
        for (at, m) in some.iter().enumerate() {
            let ratio = without.map_or(0.0, |without| m.a_second / without[at].a_second);
            let _ = writeln!(
                text,
                "| {} | {} | {} | {} | {} | {:.1} | {ratio:.2} |",
                way.name,
                m.clients,
                grouped(m.a_second),
                grouped(m.median),
                grouped(m.most),
                m.worst / 1e3
            );
        }
    }
    text
}

fn panels(all: &[(&Way, Vec<Measured>)]) -> Vec<Panel> {
    const COLOURS: [Colour; 5] = Colour::ALL;
    let rates = all.iter().zip(COLOURS).map(|((way, some), colour)| Curve {
        name: way.name,
        colour,
        points: some
            .iter()
            .map(|m| (m.clients as f64, m.a_second))
            .collect(),
    });
    let waits = |name, colour, pick: fn(&Measured) -> f64| Curve {
        name,
        colour,
        points: all[0]
            .1
            .iter()
            .map(|m| (m.clients as f64, pick(m)))
            .collect(),
    };
    vec![
        Panel {
            title: "Load",
            unit: "requests a second",
            along: "clients",
            curves: rates.collect(),
        },
        Panel {
            title: "Waits, with the journal",
            unit: "microseconds",
            along: "clients",
            curves: vec![
                waits("median", COLOURS[0], |m| m.median),
                waits("99 %", COLOURS[2], |m| m.most),
                waits("worst", COLOURS[1], |m| m.worst),
            ],
        },
    ]
}
