//! PostgreSQL servers of a trial's own: a primary and a standby that it waits for, in folders that go with them.

use std::fs;
use std::os::unix::fs::PermissionsExt;
use std::path::{Path, PathBuf};
use std::process::{Child, Command, Stdio};
use std::time::{Duration, Instant};

/// The programs of the newest PostgreSQL that is here.
pub fn programs() -> Option<PathBuf> {
    let all = fs::read_dir("/usr/lib/postgresql").ok()?;
    let mut all: Vec<(u32, PathBuf)> = all
        .filter_map(|one| {
            let one = one.ok()?;
            let version = one.file_name().to_str()?.parse().ok()?;
            Some((version, one.path().join("bin")))
        })
        .collect();
    all.sort();
    let newest = all.pop().map(|(_, path)| path);
    newest.filter(|path| path.join("initdb").is_file())
}

/// Whether this is root, as which PostgreSQL does not run.
pub fn is_root() -> bool {
    let id = Command::new("id").arg("-u").output();
    id.is_ok_and(|id| id.stdout == b"0\n")
}

/// The account that it runs as, where this is root.
fn account() -> &'static str {
    let there = Command::new("id").arg("postgres").output();
    match there.is_ok_and(|there| there.status.success()) {
        true => "postgres",
        false => "nobody",
    }
}

/// A program run as an account that PostgreSQL runs as, which is asked to end when the trial is gone, however that ended.
pub fn as_account(program: &Path) -> Command {
    let mut command = Command::new("setpriv");
    command.args(["--pdeathsig", "TERM"]);
    if is_root() {
        let account = account();
        command.arg(format!("--reuid={account}"));
        command.arg(format!("--regid={account}"));
        command.arg("--clear-groups");
    }
    command.arg(program);
    command
}

/// A folder that this account has.
pub fn folder_of_account(folder: &Path) -> Result<(), String> {
    let failed = |why: std::io::Error| why.to_string();
    fs::create_dir_all(folder).map_err(failed)?;
    fs::set_permissions(folder, fs::Permissions::from_mode(0o755)).map_err(failed)?;
    if is_root() {
        let owned = Command::new("chown").arg(account()).arg(folder).status();
        owned.map_err(failed)?;
    }
    Ok(())
}

/// What psql prints, of the database at an address.
pub fn psql(address: &str, sql: &str) -> Result<String, String> {
    let mut command = Command::new("psql");
    command
        .arg(address)
        .args(["-X", "-q", "-A", "-t", "-c", sql]);
    let output = command.output().map_err(|why| why.to_string())?;
    match output.status.success() {
        true => Ok(String::from_utf8_lossy(&output.stdout).trim().to_string()),
        false => Err(String::from_utf8_lossy(&output.stderr).trim().to_string()),
    }
}

/// Processes, and all that they started.
pub fn family(ids: &[String]) -> Vec<String> {
    let mut all: Vec<String> = ids.to_vec();
    let mut next = 0;
    while next < all.len() {
        let children = Command::new("pgrep").args(["-P", &all[next]]).output();
        let children = children.map_or(Vec::new(), |found| found.stdout);
        let children = String::from_utf8_lossy(&children).into_owned();
        all.extend(children.split_whitespace().map(String::from));
        next += 1;
    }
    all
}

/// kill -9 of processes and all that they started, and waits until they are gone. One that the trial itself started is looked after meanwhile:
/// as long as nobody did, the system says that it is there.
pub fn killed(ids: &[String], own: Option<Child>) {
    let all = family(ids);
    let _ = Command::new("kill").arg("-9").args(&all).output();
    if let Some(mut own) = own {
        let _ = own.wait();
    }
    let began = Instant::now();
    let there = |id: &String| Path::new("/proc").join(id).exists();
    while began.elapsed() < Duration::from_secs(10) && all.iter().any(there) {
        std::thread::sleep(Duration::from_millis(5));
    }
}

/// One server.
pub struct Base {
    programs: PathBuf,
    pub folder: PathBuf,
}

impl Base {
    fn command(&self, program: &str) -> Command {
        let mut command = as_account(&self.programs.join(program));
        command.current_dir(&self.folder).stdin(Stdio::null());
        command
    }

    fn done(&self, program: &str, arguments: &[&str]) -> Result<(), String> {
        let output = self.command(program).args(arguments).output();
        let output = output.map_err(|why| format!("{program}: {why}"))?;
        match output.status.success() {
            true => Ok(()),
            false => {
                let told = String::from_utf8_lossy(&output.stderr).into_owned();
                let log = fs::read_to_string(self.folder.join("log")).unwrap_or_default();
                let log: Vec<&str> = log.lines().rev().take(3).collect();
                Err(format!("{program}: {} {log:?}", told.trim()))
            }
        }
    }

    /// A folder that its account has.
    fn of(folder: &Path) -> Result<Base, String> {
        let programs = programs().ok_or("there is no PostgreSQL here")?;
        folder_of_account(folder)?;
        Ok(Base {
            programs,
            folder: folder.to_path_buf(),
        })
    }

    /// A primary, which waits for a standby where there is to be one.
    pub fn primary(folder: &Path, replicated: bool) -> Result<Base, String> {
        let base = Base::of(folder)?;
        let make = ["-D", "data", "-U", "postgres", "-A", "trust", "-E", "UTF8"];
        base.done(
            "initdb",
            &[&make[..], &["--locale=C", "--no-sync"]].concat(),
        )?;
        let names = if replicated { "*" } else { "" };
        let settings = format!(
            "listen_addresses = ''\nunix_socket_directories = '{}'\nmax_connections = 700\nsynchronous_standby_names = '{names}'\n\
             wal_level = replica\nhot_standby = on\nmax_wal_senders = 8\nwal_keep_size = 256MB\nmin_wal_size = 64MB\nwal_sender_timeout = 10s\n",
            base.folder.display()
        );
        base.set(&settings)?;
        base.start()?;
        Ok(base)
    }

    /// Adds settings.
    pub fn set(&self, settings: &str) -> Result<(), String> {
        let file = self.folder.join("data/postgresql.conf");
        let failed = |why: std::io::Error| why.to_string();
        let before = fs::read_to_string(&file).map_err(failed)?;
        fs::write(&file, before + settings).map_err(failed)
    }

    /// A standby of this one, which it is waited for.
    pub fn standby(&self, folder: &Path) -> Result<Base, String> {
        let base = Base::of(folder)?;
        let host = self.folder.to_str().unwrap_or_default();
        let from = [
            "-h", host, "-U", "postgres", "-D", "data", "-R", "-X", "stream",
        ];
        base.done("pg_basebackup", &[&from[..], &["-c", "fast"]].concat())?;
        base.set(&format!(
            "unix_socket_directories = '{}'\n",
            base.folder.display()
        ))?;
        base.start()?;
        self.streaming()?;
        Ok(base)
    }

    /// Waits until a standby follows.
    pub fn streaming(&self) -> Result<(), String> {
        let sql = "SELECT count(*) FROM pg_stat_replication WHERE state = 'streaming' AND sync_state IN ('sync', 'quorum')";
        let began = Instant::now();
        while began.elapsed() < Duration::from_secs(60) {
            if self.psql(sql).is_ok_and(|count| count == "1") {
                return Ok(());
            }
            std::thread::sleep(Duration::from_millis(50));
        }
        Err("no standby follows".to_string())
    }

    pub fn start(&self) -> Result<(), String> {
        self.done(
            "pg_ctl",
            &["-D", "data", "-l", "log", "-t", "120", "-w", "start"],
        )
    }

    pub fn promote(&self) -> Result<(), String> {
        self.done("pg_ctl", &["-D", "data", "-w", "promote"])
    }

    /// kill -9 of it and all that it started, and waits until they are gone.
    pub fn kill(&self) {
        let Some(id) = self.id() else {
            return;
        };
        killed(&[id], None);
        let _ = fs::remove_file(self.folder.join("data/postmaster.pid"));
    }

    /// Its process.
    pub fn id(&self) -> Option<String> {
        let file = fs::read_to_string(self.folder.join("data/postmaster.pid")).ok()?;
        file.lines().next().map(|id| id.trim().to_string())
    }

    /// What psql prints.
    pub fn psql(&self, sql: &str) -> Result<String, String> {
        psql(&self.address(), sql)
    }

    /// As `--journal` takes it.
    pub fn address(&self) -> String {
        format!(
            "postgresql://postgres@/postgres?host={}",
            self.folder.display()
        )
    }
}

impl Drop for Base {
    fn drop(&mut self) {
        let _ = self.done("pg_ctl", &["-D", "data", "-m", "immediate", "-w", "stop"]);
        self.kill();
    }
}
