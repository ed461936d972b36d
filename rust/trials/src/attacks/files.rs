//! Faults 2 and 3: who can open the journal's files, and what happens when they are taken away.

use super::{is_root, text, wanted, Came};
use crate::client::{Client, Life, Requests};
use crate::server::{room, How};
use crate::talk::{is_answer, Talk};
use crate::truth::compared;
use std::fs;
use std::os::unix::fs::PermissionsExt;
use std::path::{Path, PathBuf};
use std::process::Command;

fn part(journal: &Path, behind: &str) -> PathBuf {
    PathBuf::from(format!("{}{behind}", journal.display()))
}

pub fn modes(program: &Path) -> Came {
    let mut tried = 0;
    for umask in ["000", "022", "077"] {
        let room = room("modes");
        fs::set_permissions(&room, fs::Permissions::from_mode(0o755)).map_err(text)?;
        let server = How::new(program, &room)
            .under(&format!("umask {umask}"))
            .start()?;
        let files = [
            "desk.db",
            "desk.db-wal",
            "desk.db-shm",
            "desk.db.lock",
            "desk.db-reserve",
            "desk.sock",
            "desk.sock.lock",
        ];
        for file in files {
            let name = room.join(file);
            let mode = fs::metadata(&name).map_err(|why| format!("{file}: {why}"))?;
            let mode = mode.permissions().mode() & 0o777;
            wanted(
                mode == 0o600,
                format!("{file} has mode {mode:o} under umask {umask}"),
            )?;
            // Whoever can open a file can lock it.
            if is_root() && !file.ends_with(".sock") {
                let lock = Command::new("runuser")
                    .args(["-u", "nobody", "--", "flock", "-n"])
                    .arg(&name)
                    .arg("true")
                    .output();
                let locked = lock.map_err(text)?.status.success();
                wanted(
                    !locked,
                    format!("another account locks {file} under umask {umask}"),
                )?;
                tried += 1;
            }
        }
        let mut talk = Talk::new(server.connect().map_err(text)?);
        wanted(
            talk.ask("check 1 operation 0 object 0")
                .is_ok_and(|r| is_answer(&r)),
            "nobody is answered",
        )?;
    }
    Ok(format!("every file has mode 0600 under umask 000, 022 and 077; another account was refused {tried} locks"))
}

/// One file taken away under load: what was answered must be in the journal when the file is put back.
fn one(program: &Path, behind: &str, replaced: bool) -> Result<(u64, u64), String> {
    let room = room("taken");
    let journal = room.join("desk.db");
    let mut server = How::new(program, &room).start()?;
    let errors = server.errors();
    let client = Client::new(server.connect().map_err(text)?);
    let worker = std::thread::spawn(move || client.live(9, &mut Requests::new(9, 3), 4, &|| false));
    std::thread::sleep(std::time::Duration::from_millis(300));
    let (file, away) = (part(&journal, behind), room.join("away"));
    fs::rename(&file, &away).map_err(text)?;
    if replaced {
        fs::copy(&away, &file).map_err(text)?;
    }
    let life: Life = worker.join().map_err(|_| "a client failed")?;
    let status = server.ended();
    wanted(
        status == Some(1),
        format!("desk.db{behind} is gone, and the server ended with {status:?}"),
    )?;
    let told = errors.join().map_err(|_| "no errors")?;
    let said = if replaced {
        "was replaced"
    } else {
        "was removed"
    };
    wanted(
        told.contains(said),
        format!("desk.db{behind} is gone, and it said: {told}"),
    )?;
    // The index is made again at the next start; the journal and its log are put back.
    let _ = fs::remove_file(&file);
    if behind != "-shm" {
        fs::rename(&away, &file).map_err(text)?;
    }
    let (met, _) = compared(&journal, 0, &[life])?;
    crate::kills::checked(program, &journal)?;
    Ok((met.answered, met.kept + met.gone))
}

pub fn taken(program: &Path) -> Came {
    let (mut answered, mut open) = (0, 0);
    for behind in ["", "-wal", "-shm"] {
        for replaced in [false, true] {
            let (met, rest) = one(program, behind, replaced)?;
            (answered, open) = (answered + met, open + rest);
        }
    }
    Ok(format!("six servers whose journal, log or index was removed or replaced ended with exit status 1 and said which file; {answered} requests answered before, all there; {open} sent and not answered"))
}
