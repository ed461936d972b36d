//! The disk full: what cannot be written is not done and is told so; when there is room again the desk goes on.

use crate::client::{Client, Life, Requests};
use crate::kills::checked;
use crate::server::{policy, How};
use crate::truth::{compared, Met};
use std::fs;
use std::path::Path;
use std::process::Command;

pub struct Full {
    pub met: Met,
    /// Requests that were answered after there was room again.
    pub after: usize,
    /// What a start says while there is none.
    pub start: String,
}

/// A small disk of its own; none where it cannot be made, as without the rights to.
fn disk(at: &Path) -> bool {
    let mount = Command::new("mount")
        .args(["-t", "tmpfs", "-o", "size=1m", "tmpfs"])
        .arg(at)
        .output();
    mount.is_ok_and(|done| done.status.success())
}

/// Asks until that many were not done, or that many were.
fn asked(
    client: &mut Client,
    life: &mut Life,
    requests: &mut Requests,
    not_done: usize,
    done: usize,
) -> Result<(), String> {
    let (mut refused, mut answered) = (0, 0);
    while refused < not_done && answered < done {
        let first = life.sent.is_empty().then(|| crate::client::named(life.id));
        let batch: Vec<_> = first
            .into_iter()
            .chain((0..16).map(|_| requests.next()))
            .collect();
        client
            .send(&batch)
            .map_err(|why| format!("it does not take requests any more: {why}"))?;
        life.sent.extend(&batch);
        for _ in &batch {
            let reply = client
                .reply()
                .map_err(|why| format!("it does not answer any more: {why}"))?;
            refused += usize::from(reply.not_done);
            answered += usize::from(!reply.not_done);
            life.answered.push(reply);
        }
    }
    Ok(())
}

pub fn full(program: &Path) -> Result<Option<Full>, String> {
    let room = crate::server::room("full");
    let folder = room.join("disk");
    fs::create_dir_all(&folder).map_err(|why| why.to_string())?;
    if !disk(&folder) {
        return Ok(None);
    }
    let done = on_disk(program, &folder);
    let _ = Command::new("umount").arg(&folder).output();
    let _ = fs::remove_dir_all(&room);
    done.map(Some)
}

fn on_disk(program: &Path, folder: &Path) -> Result<Full, String> {
    let failed = |why: std::io::Error| why.to_string();
    fs::write(folder.join("policy.txt"), policy()).map_err(failed)?;
    let how = How::new(program, folder);
    let mut server = how.start()?;
    let ballast = folder.join("ballast");
    fs::write(&ballast, vec![0; 300_000]).map_err(failed)?;
    let mut client = Client::new(server.connect().map_err(failed)?);
    let mut life = Life {
        id: 3,
        ..Life::default()
    };
    let mut requests = Requests::new(3, 0);
    asked(&mut client, &mut life, &mut requests, 400, usize::MAX)?;
    // A second client is told the same, and the server is there.
    let mut other = Client::new(server.connect().map_err(failed)?);
    let mut second = Life {
        id: 4,
        ..Life::default()
    };
    asked(
        &mut other,
        &mut second,
        &mut Requests::new(4, 1),
        1,
        usize::MAX,
    )?;
    if !server.lives() {
        return Err("the server ended".to_string());
    }
    fs::remove_file(&ballast).map_err(failed)?;
    let before = life.answered.len();
    asked(&mut client, &mut life, &mut requests, usize::MAX, 500)?;
    let after = life.answered[before..]
        .iter()
        .filter(|reply| !reply.not_done)
        .count();
    drop(server);
    let journal = folder.join("desk.db");
    let (met, _) = compared(&journal, 0, &[life, second])?;
    checked(program, &journal)?;
    // A start on a disk without room.
    let mut size = 500_000;
    while size > 0 && fs::write(&ballast, vec![0; size]).is_err() {
        size -= 4096;
    }
    fs::write(folder.join("more"), vec![0; 8192]).ok();
    let start = match how.start() {
        Ok(_) => "it starts, since its log has room for one row more".to_string(),
        Err(why) => why,
    };
    Ok(Full { met, after, start })
}
