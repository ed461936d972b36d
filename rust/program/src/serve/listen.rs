//! The socket: where it is, who may connect to it by its mode, and that one server listens there.

use crate::journal::{lock, private};
use crate::stop::{wrong, Stop};
use nix::sys::stat::{umask, Mode};
use nix::unistd::{chown, Group};
use std::fs::{self, File, Permissions};
use std::os::unix::fs::{FileTypeExt, PermissionsExt};
use std::os::unix::net::{UnixListener, UnixStream};
use std::path::{Path, PathBuf};

/// Where clients come.
#[derive(Clone, Debug)]
pub struct Socket {
    pub path: String,
    /// Its mode; that of its owner alone where nothing else is said.
    pub mode: u32,
    pub group: Option<String>,
}

/// A socket that is listened at, and the lock beside it.
pub struct Listening {
    pub listener: UnixListener,
    path: PathBuf,
    _lock: File,
}

impl Listening {
    /// Nobody finds the socket any more.
    pub fn remove(&self) {
        let _ = fs::remove_file(&self.path);
    }
}

/// Whether a word looks like an address of the network.
fn is_address(path: &str) -> bool {
    let port = |text: &str| !text.is_empty() && text.bytes().all(|byte| byte.is_ascii_digit());
    !path.contains('/') && path.rsplit_once(':').is_some_and(|(_, after)| port(after))
}

/// Listens at a path. A socket that nobody listens at any more is left by a server that was killed, and goes.
pub fn listen(socket: &Socket) -> Result<Listening, Stop> {
    let path = &socket.path;
    if is_address(path) {
        return wrong(format!(
            "--socket {path}: a Unix socket is a path, as desk.sock or /run/desk.sock; the desk listens at no network address. \
             From other machines: ssh -L, or a gateway beside the desk (docs/OPERATE.md)"
        ));
    }
    let failed = |why: &dyn std::fmt::Display| Stop::Wrong(vec![format!("{path}: {why}")]);
    let group = socket.group.as_deref().map(group_of).transpose()?;
    let place = Path::new(path);
    if fs::symlink_metadata(place).is_ok_and(|there| !there.file_type().is_socket()) {
        return Err(failed(&"it is there, and no socket"));
    }
    let mut name = place.as_os_str().to_owned();
    name.push(".lock");
    let name = PathBuf::from(name);
    let other = "another server listens there";
    let refused = |why: String| Stop::Refused(vec![format!("{path}: {why}")]);
    let held = private(&name).map_err(|why| failed(&why))?;
    let lock = lock(held, &name, other).map_err(refused)?;
    if fs::symlink_metadata(place).is_ok() {
        // A server without the lock, as an older one, may listen there.
        if UnixStream::connect(place).is_ok() {
            return Err(refused(other.to_string()));
        }
        fs::remove_file(place).map_err(|why| failed(&why))?;
    }
    // For its owner alone from its first moment on; then as wide as it is asked for.
    let before = umask(Mode::from_bits_truncate(0o177));
    let bound = UnixListener::bind(place);
    umask(before);
    let listener = bound.map_err(|why| failed(&why))?;
    if let Some(group) = group {
        chown(place, None, Some(group.gid)).map_err(|why| failed(&why))?;
    }
    fs::set_permissions(place, Permissions::from_mode(socket.mode)).map_err(|why| failed(&why))?;
    Ok(Listening {
        listener,
        path: place.to_path_buf(),
        _lock: lock,
    })
}

fn group_of(name: &str) -> Result<Group, Stop> {
    match Group::from_name(name) {
        Ok(Some(group)) => Ok(group),
        _ => wrong(format!("--socket-group {name}: there is no such group")),
    }
}

#[cfg(test)]
mod tests {
    use super::is_address;

    #[test]
    fn an_address_is_no_path() {
        assert!(is_address("127.0.0.1:9000") && is_address(":80") && is_address("[::1]:9"));
        assert!(!is_address("desk.sock") && !is_address("/run/desk:7") && !is_address("a:b"));
    }
}
