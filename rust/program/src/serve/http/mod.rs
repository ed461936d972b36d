//! `--http`: the desks by HTTP/1.1, on a Unix socket or an address of the network (docs/HTTP.md). hyper reads and writes on a small runtime of
//! its own; requests go to the desks' threads the same way as those of sockets, and questions to the same pool.

mod account;
mod authzen;
mod board;
mod body;
mod events;
mod health;
mod listed;
mod look;
mod page;
mod problem;
mod requests;
mod route;
mod rows;
mod stream;
mod take;
mod tls;

use super::accept::House;
use super::listen::{self, Listening, Socket};
use super::places::{Limits, Places};
use crate::stop::{wrong, Stop};
use account::Sayer;
pub use body::decoded;
pub use route::shown;
use std::net::{IpAddr, SocketAddr, TcpListener};
use std::sync::Arc;
pub use tls::Files as Tls;
use tokio::runtime::{Builder, Runtime};
use tokio::sync::watch;
use tokio_rustls::TlsAcceptor;

/// The longest header, and the longest body.
pub const HEADER: usize = 16 << 10;
pub const BODY: usize = 1 << 20;

/// The threads that read and write.
const THREADS: usize = 2;

/// What is asked for on the command line.
#[derive(Clone, Debug)]
pub struct Wanted {
    /// `127.0.0.1:8080`, or `unix:desk.http`.
    pub address: String,
    /// The header that names the account.
    pub header: Option<String>,
    /// The Unix socket's mode and group.
    pub mode: u32,
    pub group: Option<String>,
    /// Certificates, where it encrypts itself.
    pub tls: Option<Tls>,
    /// How many connections there may be at once, and how many of one account.
    pub connections: usize,
    pub each: Option<usize>,
}

impl Wanted {
    fn limits(&self) -> Limits {
        let all = self.connections;
        let each = self.each.unwrap_or(all.div_ceil(2));
        Limits { all, each }
    }
}

enum Listener {
    Tcp(TcpListener, Option<TlsAcceptor>),
    Unix(Listening),
}

/// An address that is listened at, and who says who asks.
pub struct Opened {
    listener: Listener,
    sayer: Sayer,
    limits: Limits,
    /// The address.
    at: String,
}

impl Opened {
    fn encrypts(&self) -> bool {
        matches!(self.listener, Listener::Tcp(_, Some(_)))
    }

    /// The address as it is told.
    pub fn told(&self) -> String {
        let scheme = if self.encrypts() { "HTTPS" } else { "HTTP" };
        format!("{scheme} at {}", self.at)
    }
}

/// What every connection has.
pub struct Hall {
    pub house: Arc<House>,
    pub sayer: Sayer,
    pub caches: look::Caches,
    /// True when the server ends.
    pub closing: watch::Receiver<bool>,
    /// Whether it encrypts itself.
    pub encrypts: bool,
    /// The connections that there are.
    pub places: Arc<Places>,
    /// What an account has that was named behind its connection's first byte: connections by certificate, or a proxy's calls.
    pub accounts: Arc<Places>,
}

/// Opens the address, or tells why it cannot be: none without a word on who asks, and other machines only by certificates.
pub fn open(wanted: &Wanted, has_access: bool) -> Result<Opened, Stop> {
    let (address, limits) = (&wanted.address, wanted.limits());
    let sayer = sayer(wanted, has_access)?;
    if let Some(path) = address.strip_prefix("unix:") {
        if wanted.tls.is_some() {
            return wrong(format!("--http {address}: a Unix socket is not encrypted: --tls-cert takes a network address"));
        }
        let socket = Socket {
            path: path.to_string(),
            mode: wanted.mode,
            group: wanted.group.clone(),
        };
        let listener = Listener::Unix(listen::listen(&socket)?);
        let at = address.clone();
        return Ok(Opened {
            listener,
            sayer,
            limits,
            at,
        });
    }
    let bound = network(address, &sayer)?;
    let failed = |why: std::io::Error| Stop::Wrong(vec![format!("--http {address}: {why}")]);
    let acceptor = wanted.tls.as_ref().map(tls::acceptor).transpose()?;
    let listener = TcpListener::bind(bound).map_err(failed)?;
    let at = listener.local_addr().map_err(failed)?.to_string();
    let listener = Listener::Tcp(listener, acceptor);
    Ok(Opened {
        listener,
        sayer,
        limits,
        at,
    })
}

/// Who says who asks, by the options.
fn sayer(wanted: &Wanted, has_access: bool) -> Result<Sayer, Stop> {
    let by_certificate = wanted.tls.as_ref().is_some_and(|tls| tls.clients.is_some());
    let sayer = match (&wanted.header, by_certificate) {
        (Some(_), true) => {
            return wrong(
                "--account-header and --tls-client-ca both say who asks: take one of them",
            )
        }
        (Some(name), false) => Sayer::named(name).or_else(wrong)?,
        (None, true) => Sayer::Certificate,
        (None, false) => Sayer::System,
    };
    let option = match sayer {
        Sayer::Header(_) => "--account-header",
        Sayer::Certificate => "--tls-client-ca",
        Sayer::System => return Ok(sayer),
    };
    match has_access {
        true => Ok(sayer),
        false => wrong(format!(
            "{option} names accounts, and only an access file says what each may ask: add --access FILE"
        )),
    }
}

/// An address of the network, where it is known who asks there.
fn network(address: &str, sayer: &Sayer) -> Result<SocketAddr, Stop> {
    let bound = address.replacen("localhost:", "127.0.0.1:", 1);
    let Ok(bound) = bound.parse::<SocketAddr>() else {
        return wrong(format!(
            "--http {address}: an address as 127.0.0.1:8080 or unix:desk.http is expected"
        ));
    };
    match sayer {
        Sayer::Certificate => Ok(bound),
        Sayer::Header(_) if bound.ip().is_loopback() => Ok(bound),
        Sayer::System if bound.ip().is_loopback() => wrong(format!(
            "--http {address}: the system does not say who is at the other end of a network address: add --account-header NAME, which a proxy \
             sets, or --tls-client-ca FILE, or listen at a Unix socket, --http unix:PATH"
        )),
        _ => wrong(format!(
            "--http {address}: without certificates only this machine's own addresses are served, as 127.0.0.1:8080 or unix:desk.http. For \
             other machines add --tls-cert, --tls-key and --tls-client-ca, or put a proxy in front, which signs clerks in and encrypts (docs/HTTP.md)"
        )),
    }
}

/// A server of HTTP at work.
pub struct Serving {
    /// Its threads end with this.
    _runtime: Runtime,
    hall: Arc<Hall>,
    closing: watch::Sender<bool>,
    /// The Unix socket's lock and path.
    listening: Option<Arc<Listening>>,
}

impl Serving {
    /// Nobody finds it any more, and every connection ends when what it is at is answered.
    pub fn close(&self) {
        if let Some(listening) = &self.listening {
            listening.remove();
        }
        self.closing.send_replace(true);
    }

    pub fn connections(&self) -> usize {
        self.hall.places.taken()
    }
}

/// Takes connections from now on.
pub fn start(opened: Opened, house: &Arc<House>) -> std::io::Result<Serving> {
    let runtime = Builder::new_multi_thread()
        .worker_threads(THREADS)
        .max_blocking_threads(64)
        .thread_name("http")
        .enable_io()
        .enable_time()
        .build()?;
    let (closing, closed) = watch::channel(false);
    let each = Limits {
        all: usize::MAX,
        each: opened.limits.each,
    };
    let counted = match &opened.sayer {
        Sayer::Header(_) => "calls",
        _ => "connections",
    };
    let hall = Arc::new(Hall {
        house: house.clone(),
        caches: look::Caches::new(house.desks.keys()),
        closing: closed,
        encrypts: opened.encrypts(),
        places: Places::new("connections", opened.limits),
        accounts: Places::new(counted, each),
        sayer: opened.sayer,
    });
    let inside = runtime.enter();
    let listening = match opened.listener {
        Listener::Tcp(listener, acceptor) => {
            listener.set_nonblocking(true)?;
            let listener = tokio::net::TcpListener::from_std(listener)?;
            runtime.spawn(take::by_tcp(listener, acceptor, hall.clone()));
            None
        }
        Listener::Unix(listening) => {
            let listener = listening.listener.try_clone()?;
            listener.set_nonblocking(true)?;
            let listener = tokio::net::UnixListener::from_std(listener)?;
            runtime.spawn(take::by_unix(listener, hall.clone()));
            Some(Arc::new(listening))
        }
    };
    drop(inside);
    Ok(Serving {
        _runtime: runtime,
        hall,
        closing,
        listening,
    })
}

/// Whether this is a name of this machine alone.
pub fn is_local(host: &str) -> bool {
    let name = match host.strip_prefix('[') {
        Some(rest) => rest.split(']').next().unwrap_or(""),
        None => host.rsplit_once(':').map_or(host, |(name, _)| name),
    };
    let name = name.trim_end_matches('.');
    let is_loopback = |ip: IpAddr| ip.is_loopback();
    name.eq_ignore_ascii_case("localhost") || name.parse().is_ok_and(is_loopback)
}

#[cfg(test)]
mod tests {
    use super::*;

    #[test]
    fn names_of_this_machine() {
        for host in [
            "localhost",
            "LOCALHOST:8080",
            "127.0.0.1",
            "127.3.4.5:80",
            "[::1]:9",
            "localhost.",
        ] {
            assert!(is_local(host), "{host}");
        }
        for host in [
            "desk",
            "example.com:80",
            "127.0.0.1.example.com",
            "10.0.0.1",
            "[fe80::1]",
            "",
        ] {
            assert!(!is_local(host), "{host}");
        }
    }
}
