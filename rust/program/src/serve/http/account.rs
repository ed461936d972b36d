//! Who asks by HTTP: the account at the other end of a Unix socket, or the one that a proxy's header or a certificate names. Pages of other
//! sites, which a clerk's browser may show at the same time, ask nothing.

use super::problem::Problem;
use super::{is_local, Hall};
use crate::serve::access::account_of;
use crate::serve::account::Who;
use hyper::header::{HeaderMap, HeaderName, HOST, ORIGIN};
use hyper::Method;
use nix::unistd::Uid;
use std::net::IpAddr;
use std::sync::Arc;

/// Who says who asks.
#[derive(Clone, Debug)]
pub enum Sayer {
    /// The system: the process at the other end of a Unix socket.
    System,
    /// Whoever may connect: a proxy that has signed its clients in.
    Header(HeaderName),
    /// An authority of certificates: the common name of the client's.
    Certificate,
}

impl Sayer {
    pub fn named(name: &str) -> Result<Sayer, String> {
        let read = HeaderName::from_bytes(name.as_bytes());
        read.map(Sayer::Header)
            .map_err(|_| format!("--account-header {name}: the name of a header is expected"))
    }
}

/// The other end of a connection.
#[derive(Clone, Debug)]
pub enum Peer {
    User(Uid),
    Address(IpAddr),
    /// By TLS, with the account that its certificate names.
    Certified(IpAddr, Option<Arc<str>>),
}

/// The account, or why there is none.
pub fn who(headers: &HeaderMap, peer: &Peer, hall: &Hall) -> Result<Who, Problem> {
    let gate = &hall.house.gate;
    let via = match peer {
        Peer::User(uid) => gate.who(*uid),
        Peer::Address(address) => gate.nobody(&format!("http:{address}")),
        Peer::Certified(address, _) => gate.nobody(&format!("https:{address}")),
    };
    let name = match (&hall.sayer, peer) {
        (Sayer::System, _) => return Ok(via),
        (Sayer::Certificate, Peer::Certified(_, Some(name))) => {
            return Ok(gate.named(name, &via.account))
        }
        (Sayer::Certificate, _) => return Err(Problem::no_certificate()),
        (Sayer::Header(name), _) => name,
    };
    let mut values = headers.get_all(name).iter();
    let (Some(value), None) = (values.next(), values.next()) else {
        return Err(Problem::no_account(name.as_str()));
    };
    let text = value.to_str().ok().map(str::trim);
    let account = text
        .and_then(account_of)
        .filter(|account| !account.is_empty());
    match account {
        Some(account) => Ok(gate.named(&account, &via.account)),
        None => Err(Problem::no_account(name.as_str())),
    }
}

fn text(headers: &HeaderMap, name: impl hyper::header::AsHeaderName) -> Option<&str> {
    headers.get(name).and_then(|value| value.to_str().ok())
}

/// Refuses what a page of another site asks, and what is asked by a name that is not this machine's. Where the system says who asks, a
/// browser's connection has the clerk's account whatever page it shows; so its host must be this machine.
pub fn is_meant(method: &Method, headers: &HeaderMap, sayer: &Sayer) -> Result<(), Problem> {
    let host = text(headers, HOST);
    if let (Sayer::System, Some(host)) = (sayer, host) {
        if !is_local(host) {
            return Err(Problem::misdirected(host));
        }
    }
    if method.is_safe() {
        return Ok(());
    }
    if let Some(site) = text(headers, "sec-fetch-site") {
        return match site {
            "same-origin" | "none" => Ok(()),
            _ => Err(Problem::elsewhere(format!(
                "this came from a page of another site: {site}"
            ))),
        };
    }
    let Some(origin) = text(headers, ORIGIN) else {
        return Ok(());
    };
    let from = origin.split_once("://").map_or(origin, |(_, host)| host);
    let hosts = [host, text(headers, "x-forwarded-host")];
    match hosts.contains(&Some(from)) {
        true => Ok(()),
        false => Err(Problem::elsewhere(format!(
            "this came from a page of {origin}"
        ))),
    }
}
