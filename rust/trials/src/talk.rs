//! A client that sends lines and waits for each reply, but not for ever.

use std::io::{self, BufRead, BufReader, Write};
use std::os::unix::net::UnixStream;
use std::time::Duration;

/// How long a reply may take: whoever waits longer was forgotten.
const PATIENCE: Duration = Duration::from_secs(20);

pub struct Talk {
    replies: BufReader<UnixStream>,
}

impl Talk {
    pub fn new(stream: UnixStream) -> Talk {
        let _ = stream.set_read_timeout(Some(PATIENCE));
        let replies = BufReader::new(stream);
        Talk { replies }
    }

    pub fn send(&mut self, line: &str) -> io::Result<()> {
        let mut to = self.replies.get_ref();
        to.write_all(format!("{line}\n").as_bytes())
    }

    /// The next line; empty where the connection has ended.
    pub fn reply(&mut self) -> io::Result<String> {
        let mut line = String::new();
        self.replies.read_line(&mut line)?;
        Ok(line.trim_end().to_string())
    }

    /// One line and its reply. Who is told something before it could send is told that.
    pub fn ask(&mut self, line: &str) -> io::Result<String> {
        let sent = self.send(line);
        match self.reply() {
            Ok(reply) if !reply.is_empty() => Ok(reply),
            reply => sent.and(reply),
        }
    }
}

/// Whether a reply is one of the engine's.
pub fn is_answer(reply: &str) -> bool {
    let number = reply.split(' ').next().unwrap_or_default();
    !number.is_empty() && number.bytes().all(|byte| byte.is_ascii_digit())
}
