//! What the tests of the served desk have in common: a server of its own for each, and a client.

#![allow(dead_code)]

pub mod forge;
pub mod web;

use std::fs;
use std::io::{BufRead, BufReader, Read, Write};
use std::net::Shutdown;
use std::os::unix::net::UnixStream;
use std::path::{Path, PathBuf};
use std::process::{Child, Command, Stdio};

pub fn root() -> PathBuf {
    let root = Path::new(env!("CARGO_MANIFEST_DIR")).join("../..");
    root.canonicalize().unwrap()
}

pub fn mishantral(arguments: &[&str]) -> Command {
    let mut command = Command::new(env!("CARGO_BIN_EXE_mishantral"));
    command.args(arguments).current_dir(root());
    command
}

/// What it writes, what it says and its exit status. A server that should have been refused is ended after a while.
pub fn run(arguments: &[&str]) -> (String, String, i32) {
    let mut command = mishantral(arguments);
    command
        .stdin(Stdio::null())
        .stdout(Stdio::piped())
        .stderr(Stdio::piped());
    let mut child = command.spawn().unwrap();
    let read = |from: Option<Box<dyn Read + Send>>| {
        let mut from = from.unwrap();
        std::thread::spawn(move || {
            let mut text = String::new();
            from.read_to_string(&mut text).unwrap();
            text
        })
    };
    let out = read(
        child
            .stdout
            .take()
            .map(|out| Box::new(out) as Box<dyn Read + Send>),
    );
    let err = read(
        child
            .stderr
            .take()
            .map(|err| Box::new(err) as Box<dyn Read + Send>),
    );
    for _ in 0..6000 {
        if child.try_wait().unwrap().is_some() {
            break;
        }
        std::thread::sleep(std::time::Duration::from_millis(50));
    }
    let _ = child.kill();
    let status = child.wait().unwrap().code().unwrap_or(-1);
    (out.join().unwrap(), err.join().unwrap(), status)
}

/// A folder of its own, with a short name: that of a socket has 107 bytes at most.
pub fn room(name: &str) -> PathBuf {
    let room = std::env::temp_dir().join(format!("mishantral-{name}-{}", std::process::id()));
    let _ = fs::remove_dir_all(&room);
    fs::create_dir_all(&room).unwrap();
    room
}

/// A server, which is killed when this goes: that is how one ends.
pub struct Server {
    pub child: Child,
    pub socket: PathBuf,
    pub told: Vec<String>,
}

impl Server {
    pub fn start(room: &Path, more: &[&str]) -> Server {
        let (journal, socket) = (room.join("desk.db"), room.join("desk.sock"));
        let mut all = vec!["serve", "--journal", journal.to_str().unwrap()];
        all.extend(["--socket", socket.to_str().unwrap()]);
        all.extend(more);
        Server::started(&mut mishantral(&all), socket)
    }

    /// Starts a server by a command of its own.
    pub fn started(command: &mut Command, socket: PathBuf) -> Server {
        let mut child = command.stdout(Stdio::piped()).spawn().unwrap();
        let mut told = Vec::new();
        for line in BufReader::new(child.stdout.take().unwrap()).lines() {
            let line = line.unwrap();
            let last = line.starts_with("serving on ");
            told.push(line);
            if last {
                return Server {
                    child,
                    socket,
                    told,
                };
            }
        }
        let ended = child.wait();
        panic!("the server did not start, {ended:?}: {told:?}");
    }

    /// Sends bytes, ends, and reads what comes.
    pub fn ask(&self, bytes: &[u8]) -> Vec<u8> {
        let mut stream = UnixStream::connect(&self.socket).unwrap();
        stream.write_all(bytes).unwrap();
        stream.shutdown(Shutdown::Write).unwrap();
        let mut replies = Vec::new();
        stream.read_to_end(&mut replies).unwrap();
        replies
    }

    pub fn lines(&self, text: &str) -> Vec<String> {
        let replies = String::from_utf8(self.ask(text.as_bytes())).unwrap();
        replies.lines().map(String::from).collect()
    }
}

impl Drop for Server {
    fn drop(&mut self) {
        let _ = self.child.kill();
        let _ = self.child.wait();
    }
}

pub const POLICY: &str = "examples/named.txt";

/// Waits until something holds; what takes five minutes does not come, however slow the machine.
pub fn waited(what: &str, mut holds: impl FnMut() -> bool) {
    for _ in 0..6000 {
        if holds() {
            return;
        }
        std::thread::sleep(std::time::Duration::from_millis(50));
    }
    panic!("{what}: it does not come");
}

pub fn whoami() -> String {
    let whoami = Command::new("id").arg("-un").output().unwrap().stdout;
    String::from_utf8(whoami).unwrap().trim().to_string()
}

/// Where a desk of a test has its journal: a file, or a database.
pub struct Place {
    pub room: PathBuf,
    /// As `--journal` takes it.
    pub journal: String,
    /// In a database, the desk.
    pub desk: Option<String>,
}

/// A place in each store that there is. Without a PostgreSQL server (tools/postgresql) it is said that there is one less.
pub fn stores(name: &str) -> Vec<Place> {
    let file = room(name);
    let mut all = vec![Place {
        journal: file.join("desk.db").to_str().unwrap().to_string(),
        desk: None,
        room: file,
    }];
    match database() {
        Some(journal) => all.push(Place {
            journal,
            desk: Some(format!("{name}-{}", std::process::id())),
            room: room(&format!("{name}-pg")),
        }),
        None => eprintln!("{name}: not tried with PostgreSQL, which is not there"),
    }
    all
}

/// The address of the PostgreSQL server that the tests have.
pub fn database() -> Option<String> {
    std::env::var("MISHANTRAL_POSTGRESQL").ok()
}

impl Place {
    /// `--journal` and `--desk`, as every command takes them.
    pub fn options(&self) -> Vec<&str> {
        let mut all = vec!["--journal", &self.journal];
        if let Some(desk) = &self.desk {
            all.extend(["--desk", desk]);
        }
        all
    }

    /// The same in one word.
    pub fn word(&self) -> String {
        let desk = self.desk.as_ref();
        desk.map_or(self.journal.clone(), |desk| {
            format!("{}#{desk}", self.journal)
        })
    }

    /// Another one in the same store.
    pub fn beside(&self, name: &str) -> Place {
        let file = self.room.join(format!("{name}.db"));
        Place {
            room: self.room.clone(),
            journal: match self.desk {
                Some(_) => self.journal.clone(),
                None => file.to_str().unwrap().to_string(),
            },
            desk: self.desk.as_ref().map(|desk| format!("{desk}-{name}")),
        }
    }

    /// Whether there is a journal.
    pub fn is_there(&self) -> bool {
        match &self.desk {
            None => Path::new(&self.journal).exists(),
            Some(_) => self.rows("SELECT desk FROM journal").len() == 1,
        }
    }

    /// All that a journal is, to be compared.
    pub fn content(&self) -> String {
        let Some(desk) = &self.desk else {
            return format!("{:?}", fs::read(&self.journal).unwrap());
        };
        let one = |table: &str| {
            self.psql(&format!(
                "SELECT json_agg(t ORDER BY t::text) FROM mishantral.{table} AS t WHERE desk = '{desk}'"
            ))
        };
        let tables = "journal policy request name start barred clock snapshot moved_from moved_key";
        tables.split(' ').map(one).collect()
    }

    /// One number, by SQL that both stores understand.
    pub fn number(&self, select: &str) -> i64 {
        let rows = self.rows(select);
        rows[0]
            .as_i64()
            .unwrap_or_else(|| panic!("{select}: {rows:?}"))
    }

    /// A command over it, and what it prints.
    pub fn run(&self, command: &str, more: &[&str]) -> (String, String, i32) {
        run(&[&[command], &self.options()[..], more].concat())
    }

    pub fn start(&self, more: &[&str]) -> Server {
        self.start_at("desk.sock", more)
    }

    pub fn start_at(&self, socket: &str, more: &[&str]) -> Server {
        let socket = self.room.join(socket);
        let mut all = vec!["serve"];
        all.extend(self.options());
        all.extend(["--socket", socket.to_str().unwrap()]);
        all.extend(more);
        Server::started(&mut mishantral(&all), socket)
    }

    /// `journal`, with its file in its place.
    pub fn journal(&self, more: &[&str]) -> (String, String, i32) {
        let mut all = vec!["journal", &self.journal];
        if let Some(desk) = &self.desk {
            all.extend(["--desk", desk]);
        }
        all.extend(more);
        run(&all)
    }

    /// The rows that `journal` prints.
    pub fn listed(&self, more: &[&str]) -> Vec<String> {
        let (listed, why, status) = self.journal(more);
        assert_eq!(status, 0, "{why}");
        listed.lines().map(String::from).collect()
    }

    /// The whole journal asked again; what is told of it.
    pub fn checked(&self, told: &str) {
        let (checked, why, status) = self.journal(&["--check"]);
        assert_eq!(
            (checked.contains(told), status),
            (true, 0),
            "{checked}{why}"
        );
    }

    /// One column of rows, by SQL that both stores understand.
    pub fn rows(&self, select: &str) -> Vec<serde_json::Value> {
        match &self.desk {
            None => {
                let sql = rusqlite::Connection::open(&self.journal).unwrap();
                let mut select = sql.prepare(select).unwrap();
                let one = |row: &rusqlite::Row| {
                    Ok(match row.get::<_, rusqlite::types::Value>(0)? {
                        rusqlite::types::Value::Integer(number) => number.into(),
                        rusqlite::types::Value::Text(text) => text.into(),
                        _ => serde_json::Value::Null,
                    })
                };
                let rows = select.query_map([], one).unwrap();
                rows.map(Result::unwrap).collect()
            }
            Some(desk) => {
                let lines = self.psql(&format!(
                    "SELECT coalesce(to_json(x), 'null') FROM ({}) AS q (x)",
                    of_desk(select, desk)
                ));
                let one = |line: &str| serde_json::from_str(line).unwrap();
                lines.lines().map(one).collect()
            }
        }
    }

    /// What psql prints.
    pub fn psql(&self, sql: &str) -> String {
        let mut command = Command::new("psql");
        command.args([&self.journal, "-X", "-q", "-A", "-t", "-c", sql]);
        let output = command.output().unwrap();
        let told = String::from_utf8(output.stderr).unwrap();
        assert!(output.status.success(), "{sql}: {told}");
        String::from_utf8(output.stdout).unwrap().trim().to_string()
    }
}

/// A select of a file's table, as a database has it.
fn of_desk(select: &str, desk: &str) -> String {
    let (before, behind) = select.split_once(" FROM ").unwrap();
    let (table, behind) = behind.split_once(' ').unwrap_or((behind, ""));
    format!("{before} FROM (SELECT * FROM mishantral.{table} WHERE desk = '{desk}') AS {table} {behind}")
}
