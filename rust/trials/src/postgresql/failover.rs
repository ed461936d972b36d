//! A desk served on a cluster whose primary is moved under load: as asked, and by the loss of its database or its machine.

use super::cluster::{missing, Cluster, TTL};
use super::keyed::{compared, Crowd, Met};
use super::{checked, open_to_all, DESK};
use crate::server::{room, How, Server};
use std::path::{Path, PathBuf};
use std::thread::sleep;
use std::time::{Duration, Instant};

/// What moves the primary.
#[derive(Clone, Copy, PartialEq, Eq)]
enum Event {
    Switchover,
    Database,
    Machine,
    Stopped,
}

const EVENTS: [(Event, &str); 4] = [
    (Event::Switchover, "switchover, as an operator asks for it"),
    (Event::Database, "kill -9 of the primary's PostgreSQL"),
    (
        Event::Machine,
        "the primary's machine lost: kill -9 of PostgreSQL and Patroni",
    ),
    (
        Event::Stopped,
        "the primary's machine stopped past the failover, then continued",
    ),
];

const CLIENTS: usize = 8;

/// How long another primary is waited for.
const PATIENCE: Duration = Duration::from_secs(150);

/// What a trial has.
struct Scene<'a> {
    program: &'a Path,
    cluster: Cluster,
    room: PathBuf,
    crowds: u64,
    after: i64,
}

/// What came of one move of the primary.
struct Moved {
    /// Until the other node took writes.
    took: Duration,
    met: Met,
}

/// Moves the primary that many times in each way; or what was lost.
pub fn failover(program: &Path, turns: usize) -> Result<(), String> {
    if let Some(missing) = missing() {
        println!("not tried: {missing}");
        return Ok(());
    }
    let room = room("cluster");
    open_to_all(&room);
    let cluster = Cluster::start(&room)?;
    let mut scene = Scene {
        program,
        cluster,
        room,
        crowds: 0,
        after: 0,
    };
    let done = scene.all(turns);
    let room = scene.room.clone();
    drop(scene);
    match std::env::var("MISHANTRAL_KEEP") {
        Ok(_) => eprintln!("the logs are in {}", room.display()),
        Err(_) => drop(std::fs::remove_dir_all(&room)),
    }
    done
}

impl Scene<'_> {
    fn all(&mut self, turns: usize) -> Result<(), String> {
        let mut how = How::new(self.program, &self.room).with(&["--desk", DESK]);
        how.journal = Some(PathBuf::from(self.cluster.address()));
        let server = how.with(&["--snapshot", "2000", "--saved", "replicated"]);
        let mut server = server.start()?;
        println!("| the primary is moved by | times | until the other node took writes | longest wait of a client | answered | sent again |");
        println!("|---|---:|---:|---:|---:|---:|");
        for (event, name) in EVENTS {
            let mut took: Vec<Duration> = Vec::new();
            let mut met = Met::default();
            for turn in 1..=turns {
                eprint!("\r{name}: {turn} of {turns}   ");
                let moved = self.moved(event, &mut server);
                let moved = moved.map_err(|why| format!("{name}: {why}"))?;
                took.push(moved.took);
                met.add(moved.met);
            }
            eprintln!();
            took.sort();
            let (median, most) = (took[turns / 2], took[turns - 1]);
            println!(
                "| {name} | {turns} | {:.1} s in the median, {:.1} s at most | {:.1} s | {} | {} |",
                median.as_secs_f64(),
                most.as_secs_f64(),
                met.worst.as_secs_f64(),
                met.answered,
                met.again
            );
        }
        drop(server);
        checked(self.program, &self.cluster.address())?;
        println!("\nEach request that was answered is in the journal once, in its client's order and with the reply that was given, and nothing else is; `journal --check` asked all of them again. ttl: {TTL} s");
        Ok(())
    }

    /// One move under load, with all that must hold after it.
    fn moved(&mut self, event: Event, server: &mut Server) -> Result<Moved, String> {
        let at = self.cluster.whole()?;
        self.crowds += 1;
        let sockets = [self.room.join("desk.sock")];
        let name = format!("c{}", self.crowds);
        let crowd = Crowd::new(&sockets, CLIENTS, 1000 * self.crowds, &name);
        sleep(Duration::from_secs(1));
        let began = Instant::now();
        match event {
            Event::Switchover => self.cluster.switchover(at)?,
            Event::Database => self.cluster.nodes[at].kill_database(),
            Event::Machine => self.cluster.nodes[at].kill(),
            Event::Stopped => self.cluster.nodes[at].signal("-STOP"),
        }
        self.other(at)?;
        let took = began.elapsed();
        let answered = crowd.answered_after(Instant::now());
        answered.ok_or("nobody was answered by the new primary")?;
        match event {
            Event::Machine => self.cluster.start_node(at)?,
            Event::Stopped => self.cluster.nodes[at].signal("-CONT"),
            _ => {}
        }
        // The old primary, or what is left of it, follows the new one: it was fenced.
        let now = self.cluster.whole()?;
        if now == at {
            return Err("the old primary is the primary again".to_string());
        }
        sleep(Duration::from_millis(300));
        let told = crowd.end()?;
        if !server.lives() {
            return Err("the desk's server has ended".to_string());
        }
        let (met, last) = compared(&self.cluster.address(), DESK, self.after, &told)?;
        self.after = last;
        Ok(Moved { took, met })
    }

    /// Waits until the other node takes writes.
    fn other(&self, at: usize) -> Result<(), String> {
        let began = Instant::now();
        let sql = "SELECT pg_is_in_recovery()";
        while began.elapsed() < PATIENCE {
            if self.cluster.nodes[1 - at].psql(sql).as_deref() == Ok("f") {
                return Ok(());
            }
            sleep(Duration::from_millis(50));
        }
        Err("no other node became the primary".to_string())
    }
}
