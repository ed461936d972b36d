//! A client of HTTP by hand, so that a test sends exactly the bytes that it means.

use super::{mishantral, Server, POLICY};
use serde_json::Value;
use std::fs;
use std::io::{BufRead, BufReader, Read, Write};
use std::net::TcpStream;
use std::os::unix::net::UnixStream;
use std::path::{Path, PathBuf};

/// Where a server answers.
#[derive(Clone, Debug)]
pub enum At {
    Tcp(String),
    Unix(PathBuf),
}

pub trait Wire: Read + Write {}
impl<T: Read + Write> Wire for T {}

/// One response.
#[derive(Debug)]
pub struct Answer {
    pub status: u16,
    pub headers: Vec<(String, String)>,
    pub body: Vec<u8>,
}

impl Answer {
    pub fn header(&self, name: &str) -> Option<&str> {
        let found = self.headers.iter().find(|(of, _)| of == name);
        found.map(|(_, value)| value.as_str())
    }

    pub fn text(&self) -> String {
        String::from_utf8_lossy(&self.body).into_owned()
    }

    pub fn json(&self) -> Value {
        serde_json::from_slice(&self.body).unwrap_or_else(|why| panic!("{why}: {}", self.text()))
    }
}

/// What the accounts of a test may ask.
pub const ACCESS: &str = "account anna is user anna
account bert is user bert
account clara is user clara
account revision reads
account mueller administers
account router speaks for everyone
";

/// A server by TCP, behind a proxy that names accounts in X-Account.
pub fn served(room: &Path, more: &[&str]) -> (Server, At) {
    let (access, journal) = (room.join("access"), room.join("desk.db"));
    fs::write(&access, ACCESS).unwrap();
    let mut all = vec!["serve", POLICY, "--journal", journal.to_str().unwrap()];
    all.extend(["--access", access.to_str().unwrap()]);
    all.extend(["--http", "127.0.0.1:0", "--account-header", "X-Account"]);
    all.extend(more);
    let server = Server::started(&mut mishantral(&all), journal);
    let at = at(&server);
    (server, at)
}

/// The address that a server says it answers HTTP at.
pub fn at(server: &Server) -> At {
    let line = server.told.last().unwrap();
    let at = line.split(" at ").nth(1).unwrap();
    let at = at.split(" and ").next().unwrap();
    match at.strip_prefix("unix:") {
        Some(path) => At::Unix(path.into()),
        None => At::Tcp(at.to_string()),
    }
}

impl At {
    pub fn connect(&self) -> Box<dyn Wire> {
        match self {
            At::Tcp(address) => Box::new(TcpStream::connect(address).unwrap()),
            At::Unix(path) => Box::new(UnixStream::connect(path).unwrap()),
        }
    }

    /// Sends bytes, and reads so many responses.
    pub fn raw(&self, bytes: &[u8], count: usize) -> Vec<Answer> {
        let mut stream = BufReader::new(self.connect());
        // A server that refuses early may close before it has read all.
        let _ = stream.get_mut().write_all(bytes);
        (0..count).map(|_| read(&mut stream, false)).collect()
    }

    /// A request of an account, with a body where there is one.
    pub fn ask(
        &self,
        account: &str,
        method: &str,
        path: &str,
        body: Option<(&str, &str)>,
    ) -> Answer {
        let mut text = format!("{method} {path} HTTP/1.1\r\nHost: localhost\r\nX-Account: {account}\r\nConnection: close\r\n");
        if let Some((kind, body)) = body {
            text += &format!("Content-Type: {kind}\r\nContent-Length: {}\r\n", body.len());
        }
        text += "\r\n";
        text += body.map_or("", |(_, body)| body);
        let mut stream = BufReader::new(self.connect());
        stream.get_mut().write_all(text.as_bytes()).unwrap();
        read(&mut stream, method == "HEAD")
    }

    pub fn get(&self, account: &str, path: &str) -> Answer {
        self.ask(account, "GET", path, None)
    }

    pub fn post(&self, account: &str, path: &str, body: &Value) -> Answer {
        self.ask(
            account,
            "POST",
            path,
            Some(("application/json", &body.to_string())),
        )
    }

    pub fn lines(&self, account: &str, text: &str) -> Vec<Value> {
        let answer = self.ask(
            account,
            "POST",
            "/v1/desks/desk/requests",
            Some(("text/plain", text)),
        );
        assert_eq!(answer.status, 200, "{}", answer.text());
        answer.json()["replies"].as_array().unwrap().clone()
    }
}

/// Reads one response; that to HEAD has no body.
pub fn read(stream: &mut impl BufRead, head: bool) -> Answer {
    let mut line = String::new();
    stream.read_line(&mut line).unwrap();
    let status = line
        .split(' ')
        .nth(1)
        .unwrap_or_else(|| panic!("no status: {line:?}"));
    let status = status.parse().unwrap();
    let mut headers = Vec::new();
    loop {
        let mut line = String::new();
        stream.read_line(&mut line).unwrap();
        let Some((name, value)) = line.trim_end().split_once(": ") else {
            break;
        };
        headers.push((name.to_ascii_lowercase(), value.to_string()));
    }
    let mut answer = Answer {
        status,
        headers,
        body: Vec::new(),
    };
    if head || status == 204 {
        return answer;
    }
    if answer.header("transfer-encoding") == Some("chunked") {
        answer.body = chunks(stream);
    } else if let Some(length) = answer.header("content-length").map(|n| n.parse().unwrap()) {
        answer.body = vec![0; length];
        stream.read_exact(&mut answer.body).unwrap();
    } else {
        stream.read_to_end(&mut answer.body).unwrap();
    }
    answer
}

fn chunks(stream: &mut impl BufRead) -> Vec<u8> {
    let mut all = Vec::new();
    loop {
        let mut size = String::new();
        stream.read_line(&mut size).unwrap();
        let size = usize::from_str_radix(size.trim(), 16).unwrap();
        let mut some = vec![0; size + 2];
        stream.read_exact(&mut some).unwrap();
        all.extend(&some[..size]);
        if size == 0 {
            return all;
        }
    }
}
