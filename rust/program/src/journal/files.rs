//! The files of a journal: readable by their owner alone, the same ones as long as they are served, and with a reserve for a full disk.

use super::begin::beside;
use nix::fcntl::posix_fallocate;
use std::fs::{self, File, Metadata, OpenOptions, Permissions, TryLockError};
use std::io;
use std::os::fd::AsRawFd;
use std::os::unix::fs::{MetadataExt, OpenOptionsExt, PermissionsExt};
use std::path::{Path, PathBuf};

/// For the owner alone.
pub const MODE: u32 = 0o600;

/// Makes a file for its owner alone, whatever the umask, or opens one that is there; its content stays.
pub fn private(file: &Path) -> io::Result<File> {
    let mut options = OpenOptions::new();
    let made = options.create(true).append(true).read(true).mode(MODE);
    let made = made.open(file)?;
    if made.metadata()?.mode() & 0o777 != MODE {
        made.set_permissions(Permissions::from_mode(MODE))?;
    }
    Ok(made)
}

/// Takes a lock, which the system takes back from whoever ends; `whose` says who has it.
pub fn lock(file: File, name: &Path, whose: &str) -> Result<File, String> {
    match file.try_lock() {
        Ok(()) => Ok(file),
        Err(TryLockError::WouldBlock) => Err(whose.to_string()),
        Err(TryLockError::Error(why)) => Err(format!("{}: {why}", name.display())),
    }
}

/// The locks that say who writes a journal: on `FILE.lock`, which is there before the journal is, and on the journal itself, so that a
/// second path to it is refused too.
pub struct Locks {
    _beside: File,
    _file: Option<File>,
}

const OTHER: &str = "another server has it";

impl Locks {
    pub fn take(file: &Path) -> Result<Locks, String> {
        let name = beside(file, ".lock");
        let made = private(&name).map_err(|why| format!("{}: {why}", name.display()))?;
        let beside = lock(made, &name, OTHER)?;
        let itself = match File::open(file) {
            Ok(itself) => Some(lock(itself, file, OTHER)?),
            Err(why) if why.kind() == io::ErrorKind::NotFound => None,
            Err(why) => return Err(format!("it cannot be opened: {why}")),
        };
        Ok(Locks {
            _beside: beside,
            _file: itself,
        })
    }
}

/// What SQLite has beside a journal while it is open.
const PARTS: [&str; 3] = ["", "-wal", "-shm"];

/// Makes the files private that are there; what was changed, in words.
pub fn tightened(file: &Path) -> io::Result<Vec<String>> {
    let mut told = Vec::new();
    for part in PARTS {
        let name = beside(file, part);
        let Ok(there) = fs::metadata(&name) else {
            continue;
        };
        let mode = there.mode() & 0o777;
        if mode & 0o077 != 0 {
            fs::set_permissions(&name, Permissions::from_mode(MODE))?;
            told.push(format!(
                "{}: its mode was {mode:04o} and is {MODE:04o} now: whoever can read it can stop the desk with a lock",
                name.display()
            ));
        }
    }
    Ok(told)
}

/// Whether others can put files into the journal's folder. Where they can also remove ours, it is refused.
pub fn folder(file: &Path) -> Result<Option<String>, String> {
    let folder = folder_of(file);
    let there = fs::metadata(folder).map_err(|why| format!("{}: {why}", folder.display()))?;
    let mode = there.mode();
    let (name, sticky) = (folder.display(), mode & 0o1000 != 0);
    match (mode & 0o002 != 0, mode & 0o020 != 0, sticky) {
        (true, _, false) => Err(format!(
            "everyone can remove files from its folder {name} (mode {:04o}): chmod o-w {name}",
            mode & 0o7777
        )),
        (true, _, true) | (_, true, _) => Ok(Some(format!(
            "others can put files into the folder {name} (mode {:04o}): a folder of its own is better",
            mode & 0o7777
        ))),
        _ => Ok(None),
    }
}

pub fn folder_of(file: &Path) -> &Path {
    let folder = file.parent().filter(|p| !p.as_os_str().is_empty());
    folder.unwrap_or(Path::new("."))
}

/// Which files a journal has open: what is written into others is lost.
pub struct Identity {
    files: Vec<(PathBuf, u64, u64)>,
}

impl Identity {
    pub fn of(file: &Path) -> Result<Identity, String> {
        let mut files = Vec::new();
        for part in PARTS {
            let name = beside(file, part);
            let there = fs::metadata(&name).map_err(|why| format!("{}: {why}", name.display()))?;
            one_link(&name, &there)?;
            files.push((name, there.dev(), there.ino()));
        }
        Ok(Identity { files })
    }

    /// Whether they are still the same; and the bytes of the log.
    pub fn kept(&self) -> Result<u64, String> {
        let mut log = 0;
        for (at, (name, device, inode)) in self.files.iter().enumerate() {
            let there = fs::metadata(name).map_err(|why| {
                let name = name.display();
                format!("{name} was removed or cannot be looked at while it was served: {why}")
            })?;
            if (there.dev(), there.ino()) != (*device, *inode) {
                let name = name.display();
                return Err(format!(
                    "{name} was replaced by another file while it was served"
                ));
            }
            one_link(name, &there)?;
            if at == 1 {
                log = there.len();
            }
        }
        Ok(log)
    }
}

/// Whether a journal has one name.
pub fn linked_once(file: &Path) -> Result<(), String> {
    let there = fs::metadata(file).map_err(|why| why.to_string())?;
    one_link(file, &there)
}

/// A second name of a file is a second way to write it.
fn one_link(name: &Path, there: &Metadata) -> Result<(), String> {
    match there.nlink() {
        1 => Ok(()),
        links => Err(format!(
            "{} has {links} hard links, and may have one: two servers could write it",
            name.display()
        )),
    }
}

/// Room that is given up when the disk is full, so that the log can be moved into the journal.
pub struct Reserve {
    file: PathBuf,
    bytes: u64,
}

/// The log is moved into the journal when it has that many bytes; the reserve has as many, so that there is always room for it.
const LOG: u64 = 4 << 20;

/// A page of the journal.
pub const PAGE: u64 = 4096;

impl Reserve {
    /// As large as the disk bears: an eighth of what is free, at most what the log takes.
    pub fn make(journal: &Path) -> (Reserve, Option<String>) {
        let file = beside(journal, "-reserve");
        let _ = fs::remove_file(&file);
        let free = free(folder_of(journal)).unwrap_or(u64::MAX);
        let bytes = (free / 8 / PAGE * PAGE).clamp(16 * PAGE, LOG);
        let reserve = Reserve { file, bytes };
        let failed = reserve.fill().err().map(|why| {
            format!(
                "{}: there is no room for a reserve of {bytes} bytes: {why}",
                reserve.file.display()
            )
        });
        (reserve, failed)
    }

    /// After how many pages of log it is moved into the journal.
    pub fn pages(&self) -> u64 {
        self.bytes / PAGE
    }

    pub fn bytes(&self) -> u64 {
        self.bytes
    }

    /// Takes the room; where there is not all of it, it is given back.
    pub fn fill(&self) -> io::Result<()> {
        let made = private(&self.file).and_then(|file| {
            posix_fallocate(file.as_raw_fd(), 0, self.bytes as i64).map_err(io::Error::from)
        });
        if made.is_err() {
            self.give_up();
        }
        made
    }

    pub fn give_up(&self) {
        let _ = fs::remove_file(&self.file);
    }
}

impl Drop for Reserve {
    fn drop(&mut self) {
        self.give_up();
    }
}

/// Free bytes of a folder's disk.
fn free(folder: &Path) -> Option<u64> {
    let disk = nix::sys::statvfs::statvfs(folder).ok()?;
    Some(disk.blocks_available() * disk.fragment_size())
}

#[cfg(test)]
mod tests {
    use super::*;

    fn room(name: &str) -> PathBuf {
        let room = std::env::temp_dir().join(format!("mishantral-{name}-{}", std::process::id()));
        let _ = fs::remove_dir_all(&room);
        fs::create_dir_all(&room).unwrap();
        room
    }

    #[test]
    fn files_are_private_and_the_same() {
        let room = room("files");
        let file = room.join("desk.db");
        for part in PARTS {
            drop(private(&beside(&file, part)).unwrap());
        }
        assert_eq!(fs::metadata(&file).unwrap().mode() & 0o777, MODE);
        assert_eq!(tightened(&file).unwrap().len(), 0);
        fs::set_permissions(&file, Permissions::from_mode(0o644)).unwrap();
        assert_eq!(tightened(&file).unwrap().len(), 1);
        let identity = Identity::of(&file).unwrap();
        assert_eq!(identity.kept(), Ok(0));
        let other = room.join("other.db");
        fs::hard_link(&file, &other).unwrap();
        assert!(identity.kept().unwrap_err().contains("2 hard links"));
        fs::remove_file(&other).unwrap();
        fs::rename(beside(&file, "-wal"), room.join("away")).unwrap();
        assert!(identity.kept().unwrap_err().contains("was removed"));
        drop(private(&beside(&file, "-wal")).unwrap());
        assert!(identity.kept().unwrap_err().contains("was replaced"));
        fs::remove_dir_all(&room).unwrap();
    }

    #[test]
    fn a_second_path_is_locked_too() {
        let room = room("locks");
        let (file, link) = (room.join("desk.db"), room.join("link.db"));
        drop(private(&file).unwrap());
        std::os::unix::fs::symlink(&file, &link).unwrap();
        let locks = Locks::take(&file).unwrap();
        assert_eq!(Locks::take(&link).err().as_deref(), Some(OTHER));
        assert_eq!(Locks::take(&file).err().as_deref(), Some(OTHER));
        drop(locks);
        assert!(Locks::take(&link).is_ok());
        fs::remove_dir_all(&room).unwrap();
    }

    #[test]
    fn a_folder_of_everyone_is_refused() {
        let room = room("folder");
        let file = room.join("desk.db");
        let with = |mode: u32| {
            fs::set_permissions(&room, Permissions::from_mode(mode)).unwrap();
            folder(&file)
        };
        assert_eq!(with(0o700), Ok(None));
        assert_eq!(with(0o755), Ok(None));
        assert!(matches!(with(0o775), Ok(Some(_))));
        assert!(matches!(with(0o1777), Ok(Some(_))));
        assert!(with(0o777).is_err());
        fs::remove_dir_all(&room).unwrap();
    }
}
