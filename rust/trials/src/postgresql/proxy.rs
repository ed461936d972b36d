//! A proxy between the desk's server and its database, which cuts a connection exactly where it hurts.

use std::fs;
use std::io::{Read, Write};
use std::net::Shutdown;
use std::os::unix::net::{UnixListener, UnixStream};
use std::path::{Path, PathBuf};
use std::sync::atomic::{AtomicU64, AtomicU8, Ordering};
use std::sync::Arc;
use std::thread;

/// Where the next message is cut.
#[derive(Clone, Copy, PartialEq, Eq, Debug)]
pub enum Cut {
    /// The database never sees it.
    Before = 1,
    /// The database has it, and may still be at it.
    During = 2,
    /// The database has done it, and its answer is lost.
    After = 3,
}

pub const CUTS: [Cut; 3] = [Cut::Before, Cut::During, Cut::After];

pub struct Proxy {
    pub folder: PathBuf,
    armed: Arc<AtomicU8>,
    /// How many connections were cut.
    pub cuts: Arc<AtomicU64>,
}

impl Proxy {
    /// Listens in a folder of its own, for the database of another one.
    pub fn new(folder: &Path, base: &Path) -> Result<Proxy, String> {
        let failed = |why: std::io::Error| why.to_string();
        fs::create_dir_all(folder).map_err(failed)?;
        let listener = UnixListener::bind(folder.join(".s.PGSQL.5432")).map_err(failed)?;
        let (armed, cuts) = (Arc::new(AtomicU8::new(0)), Arc::new(AtomicU64::new(0)));
        let (to, arm, count) = (base.join(".s.PGSQL.5432"), armed.clone(), cuts.clone());
        thread::spawn(move || {
            for client in listener.incoming().flatten() {
                if let Ok(base) = UnixStream::connect(&to) {
                    passed(client, base, &arm, &count);
                }
            }
        });
        Ok(Proxy {
            folder: folder.to_path_buf(),
            armed,
            cuts,
        })
    }

    /// The next message of any connection is cut so.
    pub fn arm(&self, cut: Cut) {
        self.armed.store(cut as u8, Ordering::SeqCst);
    }
}

/// The statements of a connection that write a group, by the names under which they were prepared.
#[derive(Default)]
struct Writes {
    names: Vec<Vec<u8>>,
}

impl Writes {
    /// Whether one of these is run by a message of this part. What is prepared in it is kept.
    fn has(&mut self, part: &[u8]) -> bool {
        if let Some(name) = prepared(part) {
            self.names.push(name);
        }
        // A portal without a name, and the statement's name, each with a zero after it.
        let run = |name: &Vec<u8>| {
            let bound = [&[0], &name[..], &[0]].concat();
            part.first() == Some(&b'B') && part.windows(bound.len()).any(|bytes| bytes == bound)
        };
        self.names.iter().any(run)
    }
}

/// The name of the statement that a message prepares, where that one writes requests: `P`, a length, the name, the statement.
fn prepared(part: &[u8]) -> Option<Vec<u8>> {
    let is_write = |bytes: &[u8]| {
        let words = b"INSERT INTO request ";
        bytes.windows(words.len()).any(|some| some == words)
    };
    match part {
        [b'P', _, _, _, _, rest @ ..] if is_write(rest) => {
            rest.split(|&byte| byte == 0).next().map(<[u8]>::to_vec)
        }
        _ => None,
    }
}

fn passed(client: UnixStream, base: UnixStream, armed: &Arc<AtomicU8>, cuts: &Arc<AtomicU64>) {
    let (Ok(from), Ok(to)) = (client.try_clone(), base.try_clone()) else {
        return;
    };
    // What the two directions of one connection say to each other: the next answer is lost.
    let lose = Arc::new(AtomicU8::new(0));
    let (losing, armed, cuts) = (lose.clone(), armed.clone(), cuts.clone());
    thread::spawn(move || {
        let mut writes = Writes::default();
        let close = || {
            let _ = from.shutdown(Shutdown::Both);
            let _ = to.shutdown(Shutdown::Both);
        };
        let mut room = vec![0; 1 << 20];
        while let Ok(count @ 1..) = (&from).read(&mut room) {
            // A group is one statement, which commits by itself: the message that runs it is the commit.
            let cut = match writes.has(&room[..count]) {
                true => armed.swap(0, Ordering::SeqCst),
                false => 0,
            };
            if cut != 0 {
                cuts.fetch_add(1, Ordering::SeqCst);
            }
            if cut == Cut::Before as u8 {
                break;
            }
            if cut == Cut::After as u8 {
                losing.store(1, Ordering::SeqCst);
            }
            if (&to).write_all(&room[..count]).is_err() || cut == Cut::During as u8 {
                break;
            }
        }
        close();
    });
    thread::spawn(move || {
        let mut room = vec![0; 1 << 20];
        while let Ok(count @ 1..) = (&base).read(&mut room) {
            let lost = lose.load(Ordering::SeqCst) != 0;
            if lost || (&client).write_all(&room[..count]).is_err() {
                break;
            }
        }
        let _ = client.shutdown(Shutdown::Both);
        let _ = base.shutdown(Shutdown::Both);
    });
}
