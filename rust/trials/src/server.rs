//! A server of its own for a trial, which is killed when the trial is over.

use std::fs;
use std::io::{BufRead, BufReader, Read};
use std::os::unix::net::UnixStream;
use std::path::{Path, PathBuf};
use std::process::{Child, Command, Stdio};
use std::time::{Duration, Instant};

/// The desk's policy: 128 clerks, and five tasks a repair order with rules of most kinds.
pub fn policy() -> String {
    let mut text = String::from("role 0 clerk\n");
    for user in 0..128 {
        text += &format!("user {user}\nuser {user} has role 0\n");
    }
    for task in 0..5 {
        text += &format!("task {task} of template 0\ntask {task} open to role 0\n");
    }
    text + "task set 1 of 0 1 2\ntask 0 before task 1\ntask 1 before task 2\ntask 3 bound to task 4\ntask 0 at most 2 times\npermission 0 is operation 1 on object 1\nrole 0 has permission 0\n"
}

/// A folder of its own for a trial.
pub fn room(name: &str) -> PathBuf {
    let room = std::env::temp_dir().join(format!("mishantral-{name}-{}", std::process::id()));
    let _ = fs::remove_dir_all(&room);
    fs::create_dir_all(&room).expect("a folder for the trial");
    fs::write(room.join("policy.txt"), policy()).expect("the trial's policy");
    room
}

pub struct Server {
    child: Child,
    pub socket: PathBuf,
}

/// How a server is started.
#[derive(Clone)]
pub struct How {
    pub program: PathBuf,
    /// The journal; none is the desk without one.
    pub journal: Option<PathBuf>,
    pub folder: PathBuf,
    /// The socket's name in the folder.
    pub socket: String,
    pub more: Vec<String>,
    /// What a shell does before it becomes the server, as `ulimit -n 64`; empty without a shell.
    pub shell: String,
    pub envs: Vec<(String, String)>,
}

impl How {
    pub fn new(program: &Path, folder: &Path) -> How {
        How {
            program: program.to_path_buf(),
            journal: Some(folder.join("desk.db")),
            folder: folder.to_path_buf(),
            socket: "desk.sock".to_string(),
            more: Vec::new(),
            shell: String::new(),
            envs: Vec::new(),
        }
    }

    /// The same by a shell that does this first.
    pub fn under(mut self, shell: &str) -> How {
        self.shell = shell.to_string();
        self
    }

    pub fn with(mut self, more: &[&str]) -> How {
        self.more.extend(more.iter().map(|word| word.to_string()));
        self
    }

    /// Begins one, and does not wait for it.
    pub fn spawn(&self) -> Server {
        let socket = self.folder.join(&self.socket);
        let mut command = match self.shell.as_str() {
            "" => Command::new(&self.program),
            shell => {
                let mut command = Command::new("sh");
                command.args(["-c", &format!("{shell}; exec \"$@\""), "sh"]);
                command.arg(&self.program);
                command
            }
        };
        command.envs(self.envs.iter().map(|(name, value)| (name, value)));
        command.arg("serve").arg(self.folder.join("policy.txt"));
        if let Some(journal) = &self.journal {
            command.arg("--journal").arg(journal);
        }
        command.arg("--socket").arg(&socket).args(&self.more);
        command.stdout(Stdio::piped()).stderr(Stdio::piped());
        let child = command.spawn().expect("the program could not be started");
        Server { child, socket }
    }

    /// Begins one, and waits until it serves; or what it said where it does not.
    pub fn start(&self) -> Result<Server, String> {
        let mut server = self.spawn();
        let out = server.child.stdout.take().expect("its output");
        for line in BufReader::new(out).lines() {
            if line.is_ok_and(|line| line.starts_with("serving on ")) {
                return Ok(server);
            }
        }
        let mut why = String::new();
        if let Some(mut told) = server.child.stderr.take() {
            let _ = told.read_to_string(&mut why);
        }
        Err(why.trim().to_string())
    }
}

impl Server {
    pub fn id(&self) -> u32 {
        self.child.id()
    }

    pub fn connect(&self) -> std::io::Result<UnixStream> {
        UnixStream::connect(&self.socket)
    }

    /// Waits until a client can come.
    pub fn waited(&self) -> bool {
        let began = Instant::now();
        while began.elapsed() < Duration::from_secs(20) {
            if self.connect().is_ok() {
                return true;
            }
            std::thread::sleep(Duration::from_micros(500));
        }
        false
    }

    /// What it says on standard error from now to its end, in a thread of its own.
    pub fn errors(&mut self) -> std::thread::JoinHandle<String> {
        let from = self.child.stderr.take();
        std::thread::spawn(move || {
            let mut text = String::new();
            if let Some(mut from) = from {
                let _ = from.read_to_string(&mut text);
            }
            text
        })
    }

    /// Waits for its end, for ten seconds at most: its exit status.
    pub fn ended(&mut self) -> Option<i32> {
        let began = Instant::now();
        while began.elapsed() < Duration::from_secs(10) {
            if let Ok(Some(status)) = self.child.try_wait() {
                return status.code();
            }
            std::thread::sleep(Duration::from_millis(10));
        }
        None
    }

    /// Whether it is still there.
    pub fn lives(&mut self) -> bool {
        matches!(self.child.try_wait(), Ok(None))
    }

    /// Kilobytes of memory that are its own now.
    pub fn memory(&self) -> u64 {
        let status = fs::read_to_string(format!("/proc/{}/status", self.id())).unwrap_or_default();
        let line = status.lines().find(|line| line.starts_with("VmRSS:"));
        let words = line.and_then(|line| line.split_whitespace().nth(1));
        words.and_then(|word| word.parse().ok()).unwrap_or(0)
    }
}

impl Drop for Server {
    /// kill -9.
    fn drop(&mut self) {
        let _ = self.child.kill();
        let _ = self.child.wait();
    }
}
