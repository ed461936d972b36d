//! Two PostgreSQL nodes under Patroni, with etcd: what an operator has where the loss of a machine moves the primary by itself. All of it is on
//! this machine, in a folder of its own, and goes with it.

use super::base::{as_account, family, folder_of_account, killed, programs, psql};
use std::fs::{self, File};
use std::net::TcpListener;
use std::path::{Path, PathBuf};
use std::process::{Child, Command, Stdio};
use std::time::{Duration, Instant};

/// A node: PostgreSQL, and the Patroni that keeps it.
pub struct Node {
    pub name: &'static str,
    pub port: u16,
    /// Where Patroni answers.
    rest: u16,
    folder: PathBuf,
    patroni: Option<Child>,
}

pub struct Cluster {
    folder: PathBuf,
    /// Where etcd answers its clients, and its peers.
    ports: [u16; 2],
    etcd: Option<Child>,
    pub nodes: [Node; 2],
}

/// How long a cluster may take to be whole.
const PATIENCE: Duration = Duration::from_secs(180);

/// The seconds after which a primary that is not heard of has lost its place: Patroni takes no less.
pub const TTL: u64 = 20;

/// What is missing here for a cluster.
pub fn missing() -> Option<String> {
    let lacks = |name: &&str| {
        let mut found = Command::new("sh");
        found.args(["-c", &format!("command -v {name}")]);
        let found = found.stdout(Stdio::null()).status();
        !found.is_ok_and(|found| found.success())
    };
    let lacking: Vec<&str> = ["patroni", "etcd", "psql", "curl"]
        .into_iter()
        .filter(lacks)
        .collect();
    match (lacking.is_empty(), programs()) {
        (true, Some(_)) => None,
        _ => Some("apt-get install postgresql patroni etcd-server curl".to_string()),
    }
}

/// A port that nobody has now.
fn port() -> Result<u16, String> {
    let free = TcpListener::bind("127.0.0.1:0").and_then(|listener| listener.local_addr());
    free.map(|at| at.port()).map_err(|why| why.to_string())
}

/// A program of the cluster, at work in a folder, with its log beside it.
fn spawned(mut command: Command, folder: &Path, log: &str) -> Result<Child, String> {
    let failed = |why: std::io::Error| why.to_string();
    let log = File::options()
        .create(true)
        .append(true)
        .open(folder.join(log));
    let log = log.map_err(failed)?;
    let errors = log.try_clone().map_err(failed)?;
    command.current_dir(folder).stdin(Stdio::null());
    command.stdout(log).stderr(errors).spawn().map_err(failed)
}

impl Cluster {
    /// Starts all of it, and waits until the second node follows the first.
    pub fn start(folder: &Path) -> Result<Cluster, String> {
        let node = |name: &'static str| {
            let node = Node {
                name,
                port: port()?,
                rest: port()?,
                folder: folder.join(name),
                patroni: None,
            };
            folder_of_account(&node.folder).map(|()| node)
        };
        let mut cluster = Cluster {
            folder: folder.to_path_buf(),
            ports: [port()?, port()?],
            etcd: None,
            nodes: [node("a")?, node("b")?],
        };
        cluster.start_etcd()?;
        for at in 0..2 {
            cluster.start_node(at)?;
        }
        cluster.whole()?;
        Ok(cluster)
    }

    fn start_etcd(&mut self) -> Result<(), String> {
        folder_of_account(&self.folder.join("etcd"))?;
        let [client, peer] = self.ports.map(|port| format!("http://127.0.0.1:{port}"));
        let mut command = as_account(Path::new("etcd"));
        command.args([
            "--name",
            "one",
            "--data-dir",
            "data",
            "--log-level",
            "error",
        ]);
        command.args([
            "--listen-client-urls",
            &client,
            "--advertise-client-urls",
            &client,
        ]);
        command.args([
            "--listen-peer-urls",
            &peer,
            "--initial-advertise-peer-urls",
            &peer,
        ]);
        command.args(["--initial-cluster", &format!("one={peer}")]);
        // Patroni 3.0 keeps its lock by compare-and-swap in version 2 of etcd's protocol alone: by version 3 a node that was stopped takes it back.
        command.arg("--enable-v2");
        // What etcd 3.4 asks for on Arm.
        command.env("ETCD_UNSUPPORTED_ARCH", "arm64");
        let etcd = spawned(command, &self.folder.join("etcd"), "log")?;
        self.etcd = Some(etcd);
        Ok(())
    }

    /// Starts a node's Patroni, which starts its PostgreSQL.
    pub fn start_node(&mut self, at: usize) -> Result<(), String> {
        let settings = self.settings(at)?;
        let node = &mut self.nodes[at];
        let file = node.folder.join("patroni.yml");
        fs::write(&file, settings).map_err(|why| why.to_string())?;
        let mut command = as_account(Path::new("patroni"));
        command.arg(&file);
        node.patroni = Some(spawned(command, &node.folder, "log")?);
        Ok(())
    }

    /// What Patroni is given: docs/OPERATE.md has the same for two machines.
    fn settings(&self, at: usize) -> Result<String, String> {
        let Node {
            name,
            port,
            rest,
            folder,
            ..
        } = &self.nodes[at];
        let (folder, etcd) = (folder.display(), self.ports[0]);
        let programs = programs().ok_or("there is no PostgreSQL here")?;
        let programs = programs.display();
        Ok(format!(
            "scope: desks\nname: {name}\n\
             restapi: {{listen: '127.0.0.1:{rest}', connect_address: '127.0.0.1:{rest}'}}\n\
             etcd: {{hosts: '127.0.0.1:{etcd}'}}\n\
             bootstrap:\n  dcs:\n    ttl: {TTL}\n    loop_wait: 2\n    retry_timeout: 5\n    primary_start_timeout: 0\n    synchronous_mode: true\n\
             \x20   postgresql:\n      use_pg_rewind: true\n      parameters: {{max_connections: 100, wal_keep_size: 256MB, wal_log_hints: 'on'}}\n\
             \x20 initdb: [{{encoding: UTF8}}, {{locale: C}}]\n\
             \x20 pg_hba: ['local all all trust', 'host all all 127.0.0.1/32 trust', 'host replication all 127.0.0.1/32 trust']\n\
             postgresql:\n  listen: 127.0.0.1:{port}\n  connect_address: 127.0.0.1:{port}\n  data_dir: {folder}/data\n  bin_dir: {programs}\n\
             \x20 pgpass: {folder}/pgpass\n  use_unix_socket: true\n\
             \x20 authentication:\n    superuser: {{username: postgres}}\n    replication: {{username: replicator}}\n    rewind: {{username: postgres}}\n\
             \x20 parameters: {{unix_socket_directories: '{folder}'}}\n"
        ))
    }

    /// As `--journal` takes it: both hosts, of which the one that takes writes is meant.
    pub fn address(&self) -> String {
        let [a, b] = &self.nodes;
        format!(
            "postgresql://postgres@127.0.0.1:{},127.0.0.1:{}/postgres?target_session_attrs=read-write&connect_timeout=3",
            a.port, b.port
        )
    }

    /// The node that is the primary, if one says so.
    pub fn primary(&self) -> Option<usize> {
        let is = |node: &Node| node.psql("SELECT pg_is_in_recovery()").as_deref() == Ok("f");
        (0..2).find(|&at| is(&self.nodes[at]))
    }

    /// Waits until one node is the primary and the other its synchronous standby; which is the primary.
    pub fn whole(&self) -> Result<usize, String> {
        let began = Instant::now();
        let sql = "SELECT count(*) FROM pg_stat_replication WHERE state = 'streaming' AND sync_state = 'sync'";
        while began.elapsed() < PATIENCE {
            if let Some(at) = self.primary() {
                let node = &self.nodes[at];
                if node.psql(sql).as_deref() == Ok("1") && node.knows_its_standby() {
                    return Ok(at);
                }
            }
            std::thread::sleep(Duration::from_millis(100));
        }
        let logs = self.nodes.iter().map(Node::last).collect::<Vec<_>>();
        Err(format!("the cluster is not whole: {}", logs.join("; ")))
    }

    /// Asks Patroni for another primary. It refuses as long as it has not seen that the standby is the one that is waited for.
    pub fn switchover(&self, from: usize) -> Result<(), String> {
        let (node, other) = (&self.nodes[from], &self.nodes[1 - from]);
        let body = format!(
            "{{\"leader\": \"{}\", \"candidate\": \"{}\"}}",
            node.name, other.name
        );
        let url = format!("http://127.0.0.1:{}/switchover", node.rest);
        let (began, mut said) = (Instant::now(), String::new());
        while began.elapsed() < PATIENCE {
            let asked = Command::new("curl")
                .args([
                    "-s",
                    "-S",
                    "--fail-with-body",
                    "-X",
                    "POST",
                    "-d",
                    &body,
                    &url,
                ])
                .output();
            let asked = asked.map_err(|why| why.to_string())?;
            if asked.status.success() {
                return Ok(());
            }
            said = String::from_utf8_lossy(&asked.stdout).into_owned();
            std::thread::sleep(Duration::from_millis(200));
        }
        Err(format!("Patroni refuses a switchover: {said}"))
    }
}

impl Node {
    pub fn psql(&self, sql: &str) -> Result<String, String> {
        let address = format!(
            "postgresql://postgres@127.0.0.1:{}/postgres?connect_timeout=2",
            self.port
        );
        psql(&address, sql)
    }

    /// Whether Patroni has written down that the other node is the one that is waited for: only that one takes over.
    fn knows_its_standby(&self) -> bool {
        let url = format!("http://127.0.0.1:{}/cluster", self.rest);
        let told = Command::new("curl").args(["-s", "-S", &url]).output();
        told.is_ok_and(|told| String::from_utf8_lossy(&told.stdout).contains("sync_standby"))
    }

    fn postmaster(&self) -> Option<String> {
        let data = self.folder.join("data");
        let file = fs::read_to_string(data.join("postmaster.pid")).ok()?;
        let id = file.lines().next()?.trim().to_string();
        // What a killed one left behind may name another program by now.
        let at = fs::read_link(format!("/proc/{id}/cwd")).ok()?;
        (at == data).then_some(id)
    }

    /// The processes of the node: PostgreSQL's, and Patroni where that is asked for.
    fn processes(&self, patroni: bool) -> Vec<String> {
        let patroni = self.patroni.as_ref().filter(|_| patroni);
        let patroni = patroni.map(|child| child.id().to_string());
        patroni.into_iter().chain(self.postmaster()).collect()
    }

    /// kill -9 of its PostgreSQL, which Patroni sees.
    pub fn kill_database(&self) {
        killed(&self.processes(false), None);
    }

    /// kill -9 of all of it, as the loss of a machine.
    pub fn kill(&mut self) {
        let all = self.processes(true);
        killed(&all, self.patroni.take());
    }

    /// A signal to all of it: a machine that stands still, and goes on.
    pub fn signal(&self, signal: &str) {
        let all = family(&self.processes(true));
        let _ = Command::new("kill").arg(signal).args(&all).output();
    }

    /// The last that its Patroni said.
    fn last(&self) -> String {
        let log = fs::read_to_string(self.folder.join("log")).unwrap_or_default();
        let lines: Vec<&str> = log.lines().rev().take(3).collect();
        format!("{}: {lines:?}", self.name)
    }
}

impl Drop for Cluster {
    fn drop(&mut self) {
        for node in &mut self.nodes {
            node.signal("-CONT");
            node.kill();
        }
        if let Some(mut etcd) = self.etcd.take() {
            let _ = etcd.kill();
            let _ = etcd.wait();
        }
    }
}
