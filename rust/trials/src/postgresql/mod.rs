//! The served desk with its journal in PostgreSQL, tried out: a real primary and a standby that it waits for, both killed, cut off, filled and
//! replaced under load. Every client sends again what was not answered, with its key: each request must be in the journal once.

mod base;
mod cluster;
mod failover;
mod keyed;
mod load;
mod proxy;
mod trials;

pub use base::{programs, Base};
pub use failover::failover;
pub use load::stores;
pub use trials::{Given, TRIALS};

use crate::server::{How, Server};
use keyed::{compared, Crowd, Met};
use std::path::{Path, PathBuf};
use std::process::Command;

/// The desk of the trials.
pub const DESK: &str = "mill";

/// What a trial has: a folder, databases, and how servers are started.
pub struct Scene {
    pub program: PathBuf,
    pub room: PathBuf,
    pub primary: Base,
    pub standby: Option<Base>,
    /// The last request that was compared.
    after: i64,
    /// How many crowds there were.
    crowds: u64,
    pub met: Met,
}

impl Scene {
    pub fn new(program: &Path, name: &str, replicated: bool) -> Result<Scene, String> {
        let room = crate::server::room(&format!("pg-{name}"));
        open_to_all(&room);
        let primary = Base::primary(&room.join("a"), replicated)?;
        let standby = match replicated {
            true => Some(primary.standby(&room.join("b"))?),
            false => None,
        };
        Ok(Scene {
            program: program.to_path_buf(),
            room,
            primary,
            standby,
            after: 0,
            crowds: 0,
            met: Met::default(),
        })
    }

    /// How a server is started, with its socket's name and its journal's address.
    pub fn how(&self, socket: &str, address: &str) -> How {
        let mut how = How::new(&self.program, &self.room).with(&["--desk", DESK]);
        how.journal = Some(PathBuf::from(address));
        how.socket = socket.to_string();
        how.with(&["--snapshot", "2000"])
    }

    pub fn started(&self, socket: &str, more: &[&str]) -> Result<Server, String> {
        self.how(socket, &self.primary.address()).with(more).start()
    }

    pub fn socket(&self, name: &str) -> PathBuf {
        self.room.join(name)
    }

    /// Clients that find the desk at one of these sockets.
    pub fn crowd(&mut self, sockets: &[&str], clients: usize) -> Crowd {
        self.crowds += 1;
        let sockets: Vec<PathBuf> = sockets.iter().map(|name| self.socket(name)).collect();
        let name = format!("c{}", self.crowds);
        Crowd::new(&sockets, clients, 1000 * self.crowds, &name)
    }

    /// Ends a crowd, and compares what it was told with the journal of a database.
    pub fn compared(&mut self, crowd: Crowd, which: Which) -> Result<(), String> {
        let told = crowd.end()?;
        let base = match which {
            Which::Primary => &self.primary,
            Which::Standby => self.standby.as_ref().ok_or("there is no standby")?,
        };
        let (met, last) = compared(&base.address(), DESK, self.after, &told)?;
        self.after = last;
        self.met.add(met);
        Ok(())
    }

    /// The whole journal asked again, by the program.
    pub fn checked(&self, which: Which) -> Result<(), String> {
        let address = match which {
            Which::Primary => self.primary.address(),
            Which::Standby => self.standby.as_ref().map_or(String::new(), Base::address),
        };
        checked(&self.program, &address)
    }

    /// What was met, in words.
    pub fn said(&self) -> String {
        self.met.said()
    }
}

impl Drop for Scene {
    fn drop(&mut self) {
        self.standby = None;
        let _ = std::fs::remove_dir_all(&self.room);
    }
}

/// The whole journal at an address asked again, by the program.
fn checked(program: &Path, address: &str) -> Result<(), String> {
    let mut command = Command::new(program);
    command.args(["journal", address, "--desk", DESK, "--check"]);
    let output = command.output().map_err(|why| why.to_string())?;
    match output.status.success() {
        true => Ok(()),
        false => Err(String::from_utf8_lossy(&output.stderr).into_owned()),
    }
}

/// Whose journal is compared.
#[derive(Clone, Copy, PartialEq, Eq)]
pub enum Which {
    Primary,
    Standby,
}

/// The database's account passes through the trial's folder.
fn open_to_all(room: &Path) {
    use std::os::unix::fs::PermissionsExt;
    let _ = std::fs::set_permissions(room, std::fs::Permissions::from_mode(0o755));
}
