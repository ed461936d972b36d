//! The load that a desk holds by where its journal is: nowhere, in a file, in PostgreSQL without and with a standby; and many desks in one
//! database, over several servers.

use super::{Base, DESK};
use crate::load::{grouped, measured_of, Measured};
use crate::server::{room, How};
use std::path::{Path, PathBuf};
use std::time::Duration;

const CLIENTS: [usize; 4] = [1, 8, 64, 512];

/// Where a journal is.
#[derive(Clone, Copy, PartialEq, Eq)]
enum Kept {
    Nowhere,
    File,
    Database,
    Replicated,
}

const ALL: [(Kept, &str); 4] = [
    (Kept::Nowhere, "no journal"),
    (Kept::File, "SQLite"),
    (Kept::Database, "PostgreSQL"),
    (Kept::Replicated, "PostgreSQL with a synchronous standby"),
];

/// Every way with every number of clients, in turn, so that what else the machine does meets all alike.
pub fn stores(program: &Path, time: Duration) -> Result<(), String> {
    let folder = room("stores");
    super::open_to_all(&folder);
    let alone = Base::primary(&folder.join("alone"), false)?;
    let primary = Base::primary(&folder.join("a"), true)?;
    let standby = primary.standby(&folder.join("b"))?;
    println!("| journal | clients | requests a second | median \u{b5}s | 99 % \u{b5}s | \u{d7} SQLite |\n|---|---:|---:|---:|---:|---:|");
    let mut rows: Vec<(usize, &str, Measured)> = Vec::new();
    for (turn, clients) in CLIENTS.into_iter().enumerate() {
        for (kept, name) in ALL {
            eprintln!("{name}: {clients} clients");
            let mut how = How::new(program, &folder).with(&[
                "--clients",
                "1200",
                "--account-clients",
                "1200",
            ]);
            let desk = format!("{DESK}{turn}");
            how.journal = match kept {
                Kept::Nowhere => None,
                Kept::File => Some(folder.join(format!("{desk}.db"))),
                Kept::Database => Some(PathBuf::from(alone.address())),
                Kept::Replicated => Some(PathBuf::from(primary.address())),
            };
            if matches!(kept, Kept::Database | Kept::Replicated) {
                how = how.with(&["--desk", &desk]);
            }
            if kept == Kept::Replicated {
                how = how.with(&["--saved", "replicated"]);
            }
            rows.push((turn, name, measured_of(&how, clients, 1, time)?));
        }
    }
    for (_, name) in ALL {
        for (turn, _, m) in rows.iter().filter(|(_, of, _)| *of == name) {
            let file = rows.iter().find(|(t, of, _)| t == turn && *of == "SQLite");
            let ratio = file.map_or(0.0, |(_, _, file)| m.a_second / file.a_second);
            println!(
                "| {name} | {} | {} | {} | {} | {ratio:.2} |",
                m.clients,
                grouped(m.a_second),
                grouped(m.median),
                grouped(m.most)
            );
        }
    }
    let bytes = "SELECT pg_total_relation_size('mishantral.request') / greatest((SELECT count(*) FROM mishantral.request), 1), \
         pg_relation_size('mishantral.request') / greatest((SELECT count(*) FROM mishantral.request), 1), (SELECT count(*) FROM mishantral.request)";
    println!(
        "\nbytes a request with its index, without, and requests: {}",
        alone.psql(bytes)?
    );
    drop(standby);
    desks(program, &folder, &alone, time)?;
    drop((alone, primary));
    let _ = std::fs::remove_dir_all(&folder);
    Ok(())
}

/// Many desks of one database, over several servers: one client a desk.
fn desks(program: &Path, folder: &Path, base: &Base, time: Duration) -> Result<(), String> {
    println!("\n| desks | servers | requests a second, one client a desk |\n|---:|---:|---:|");
    for (desks, servers) in [(1, 1), (16, 1), (16, 2), (64, 2)] {
        let mut running = Vec::new();
        for server in 0..servers {
            let mut how = How::new(program, folder);
            how.socket = format!("d{desks}-{servers}-{server}.sock");
            how.journal = Some(PathBuf::from(base.address()));
            let mine: Vec<String> = (server..desks)
                .step_by(servers)
                .map(|desk| format!("d{desks}-{servers}-{desk}"))
                .collect();
            for desk in &mine {
                how = how.with(&["--desk", desk]);
            }
            running.push((how.start()?, mine));
        }
        let rate = crate::scale::rate(&running, time)?;
        println!("| {desks} | {servers} | {} |", grouped(rate));
    }
    Ok(())
}
