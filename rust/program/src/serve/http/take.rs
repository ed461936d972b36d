//! Connections of HTTP taken, a task each, as far as there are places. Who cannot be taken is told so.

use super::account::{Peer, Sayer};
use super::stream::{AtWork, Stream, Wire};
use super::{problem, route, tls, Hall, HEADER};
use crate::report::{log, report, Level};
use crate::serve::access::account_of;
use crate::serve::account::peer;
use crate::serve::places::Whose;
use hyper::server::conn::Http;
use hyper::service::service_fn;
use hyper::{Body, Request};
use serde_json::json;
use std::convert::Infallible;
use std::future::{poll_fn, Future};
use std::io::Write;
use std::net::IpAddr;
use std::pin::pin;
use std::sync::Arc;
use std::task::Poll;
use std::time::Duration;
use tokio::io::AsyncWriteExt;
use tokio::net::{TcpListener, TcpStream, UnixListener};
use tokio::time::timeout;
use tokio_rustls::TlsAcceptor;

pub async fn by_tcp(listener: TcpListener, tls: Option<TlsAcceptor>, hall: Arc<Hall>) {
    loop {
        match listener.accept().await {
            Ok((stream, from)) => {
                let _ = stream.set_nodelay(true);
                match &tls {
                    None => take(Wire::Tcp(stream), Peer::Address(from.ip()), &hall),
                    Some(tls) => take_certified(stream, from.ip(), tls, &hall),
                }
            }
            Err(why) => not_taken(&why).await,
        }
    }
}

pub async fn by_unix(listener: UnixListener, hall: Arc<Hall>) {
    loop {
        match listener.accept().await {
            Ok((stream, _)) => match peer(&stream) {
                Ok(uid) => take(Wire::Unix(stream), Peer::User(uid), &hall),
                Err(why) => report(format!("the system does not say who came by HTTP: {why}")),
            },
            Err(why) => not_taken(&why).await,
        }
    }
}

async fn not_taken(why: &std::io::Error) {
    report(format!("a connection of HTTP could not be taken: {why}"));
    tokio::time::sleep(Duration::from_millis(100)).await;
}

/// Serves a connection in a task of its own; one too many is told so, in as much as its socket takes at once.
fn take(wire: Wire, peer: Peer, hall: &Arc<Hall>) {
    let whose = match (&hall.sayer, &peer) {
        (Sayer::System, Peer::User(uid)) => Whose::User(uid.as_raw()),
        _ => Whose::Proxy,
    };
    match hall.places.take(whose) {
        Err(why) => turned_away(wire, &why),
        Ok(place) => {
            let hall = hall.clone();
            tokio::spawn(async move {
                served(wire, peer, hall).await;
                drop(place);
            });
        }
    }
}

/// The same by TLS. Whoever is too many at one address is left before its certificate is read: that costs nothing.
fn take_certified(stream: TcpStream, from: IpAddr, tls: &TlsAcceptor, hall: &Arc<Hall>) {
    let Ok(place) = hall.places.take(Whose::Address(from)) else {
        return;
    };
    let (tls, hall) = (tls.clone(), hall.clone());
    tokio::spawn(async move {
        match timeout(hall.house.patience, tls.accept(stream)).await {
            Ok(Ok(stream)) => certified(Box::new(stream), from, hall).await,
            Ok(Err(why)) => no_handshake(from, &why.to_string()),
            Err(_) => no_handshake(from, "it took too long"),
        }
        drop(place);
    });
}

fn no_handshake(from: IpAddr, why: &str) {
    let fields = [("from", json!(from)), ("why", json!(why))];
    log(Level::Info, "no TLS", &fields);
}

type Tls = tokio_rustls::server::TlsStream<TcpStream>;

/// Serves a connection whose certificate is good, or that has none.
async fn certified(mut stream: Box<Tls>, from: IpAddr, hall: Arc<Hall>) {
    let shown = stream.get_ref().1.peer_certificates();
    let name = shown.and_then(|shown| tls::common_name(&shown.first()?.0));
    let name: Option<Arc<str>> = name.as_deref().and_then(account_of).map(Into::into);
    let place = match &name {
        None => None,
        Some(name) => match hall.accounts.take(Whose::Account(name.clone())) {
            Ok(place) => Some(place),
            Err(why) => {
                let _ = stream.write_all(refusal(&why).as_bytes()).await;
                let _ = stream.shutdown().await;
                return;
            }
        },
    };
    let peer = Peer::Certified(from, name);
    served(Wire::Tls(stream), peer, hall).await;
    drop(place);
}

/// A response to whoever cannot be taken.
fn refusal(why: &str) -> String {
    let told = problem::Problem::not_done(why).object().to_string();
    format!(
        "HTTP/1.1 503 Service Unavailable\r\nContent-Type: application/problem+json\r\nContent-Length: {}\r\nRetry-After: 1\r\nConnection: close\r\n\r\n{told}",
        told.len()
    )
}

fn turned_away(wire: Wire, why: &str) {
    let response = refusal(why);
    // The standard library's streams stay non-blocking: what does not fit is left out.
    let told = |stream: &mut dyn Write| drop(stream.write_all(response.as_bytes()));
    match wire {
        Wire::Tcp(stream) => drop(stream.into_std().map(|mut s| told(&mut s))),
        Wire::Unix(stream) => drop(stream.into_std().map(|mut s| told(&mut s))),
        Wire::Tls(_) => {}
    }
}

async fn served(wire: Wire, peer: Peer, hall: Arc<Hall>) {
    let (number, patience) = (hall.house.next_client(), hall.house.patience);
    let (mut closing, at_work) = (hall.closing.clone(), AtWork::default());
    let stream = Stream::new(wire, patience, at_work.clone());
    let service = service_fn(move |request: Request<Body>| {
        let (hall, peer, working) = (hall.clone(), peer.clone(), at_work.begin());
        async move {
            let response = route::answered(request, peer, number, hall).await;
            drop(working);
            Ok::<_, Infallible>(response)
        }
    });
    let mut http = Http::new();
    http.http1_only(true).max_buf_size(HEADER);
    let mut connection = pin!(http.serve_connection(stream, service));
    let mut closed = pin!(async move {
        // The sender goes with the server: either way it ends.
        while !*closing.borrow_and_update() && closing.changed().await.is_ok() {}
    });
    let mut open = true;
    let _ = poll_fn(|cx| {
        if open && closed.as_mut().poll(cx).is_ready() {
            open = false;
            connection.as_mut().graceful_shutdown();
        }
        match connection.as_mut().poll(cx) {
            Poll::Ready(ended) => Poll::Ready(ended),
            Poll::Pending => Poll::Pending,
        }
    })
    .await;
}
