//! A connection of HTTP, by TCP, TLS or a Unix socket, which is left where nothing moves on it for too long, or where a header
//! does not end.

use std::future::Future;
use std::io;
use std::pin::Pin;
use std::sync::atomic::{AtomicBool, Ordering};
use std::sync::Arc;
use std::task::{Context, Poll};
use std::time::Duration;
use tokio::io::{AsyncRead, AsyncWrite, ReadBuf};
use tokio::net::{TcpStream, UnixStream};
use tokio::time::{sleep, Instant, Sleep};
use tokio_rustls::server::TlsStream;

pub enum Wire {
    Tcp(TcpStream),
    Tls(Box<TlsStream<TcpStream>>),
    Unix(UnixStream),
}

/// Whether a request of a connection is being answered: until then, what comes is a header.
#[derive(Clone, Default)]
pub struct AtWork(Arc<AtomicBool>);

/// A request is being answered as long as this lives.
pub struct Working(AtWork);

impl AtWork {
    pub fn begin(&self) -> Working {
        self.0.store(true, Ordering::Relaxed);
        Working(self.clone())
    }
}

impl Drop for Working {
    fn drop(&mut self) {
        self.0 .0.store(false, Ordering::Relaxed);
    }
}

/// A connection that ends where neither side takes or gives a byte for so long, or where a header takes so long.
pub struct Stream {
    wire: Wire,
    patience: Duration,
    until: Pin<Box<Sleep>>,
    at_work: AtWork,
    /// When the header must have come whose first byte is here. hyper has a limit for it, which 0.14.19 never starts.
    header: Option<Pin<Box<Sleep>>>,
}

impl Stream {
    pub fn new(wire: Wire, patience: Duration, at_work: AtWork) -> Stream {
        Stream {
            wire,
            patience,
            until: Box::pin(sleep(patience)),
            at_work,
            header: None,
        }
    }

    /// A byte moved: the time begins anew. Nothing moved: it goes on, and may be over.
    fn moved<T>(&mut self, polled: Poll<io::Result<T>>, cx: &mut Context) -> Poll<io::Result<T>> {
        if polled.is_ready() {
            self.until.as_mut().reset(Instant::now() + self.patience);
            return polled;
        }
        match self.until.as_mut().poll(cx) {
            Poll::Ready(()) => Poll::Ready(Err(io::ErrorKind::TimedOut.into())),
            Poll::Pending => Poll::Pending,
        }
    }

    /// Whether a header has taken too long, where one is on its way.
    fn is_late(&mut self, came: bool, cx: &mut Context) -> bool {
        if self.at_work.0.load(Ordering::Relaxed) {
            self.header = None;
        } else if came && self.header.is_none() {
            self.header = Some(Box::pin(sleep(self.patience)));
        }
        let header = self.header.as_mut();
        header.is_some_and(|header| header.as_mut().poll(cx).is_ready())
    }
}

impl AsyncRead for Stream {
    fn poll_read(
        mut self: Pin<&mut Self>,
        cx: &mut Context,
        room: &mut ReadBuf,
    ) -> Poll<io::Result<()>> {
        let polled = match &mut self.wire {
            Wire::Tcp(stream) => Pin::new(stream).poll_read(cx, room),
            Wire::Tls(stream) => Pin::new(stream).poll_read(cx, room),
            Wire::Unix(stream) => Pin::new(stream).poll_read(cx, room),
        };
        match self.is_late(polled.is_ready(), cx) {
            true => Poll::Ready(Err(io::ErrorKind::TimedOut.into())),
            false => self.moved(polled, cx),
        }
    }
}

impl AsyncWrite for Stream {
    fn poll_write(
        mut self: Pin<&mut Self>,
        cx: &mut Context,
        bytes: &[u8],
    ) -> Poll<io::Result<usize>> {
        let polled = match &mut self.wire {
            Wire::Tcp(stream) => Pin::new(stream).poll_write(cx, bytes),
            Wire::Tls(stream) => Pin::new(stream).poll_write(cx, bytes),
            Wire::Unix(stream) => Pin::new(stream).poll_write(cx, bytes),
        };
        if polled.is_ready() {
            // An answer is on its way: what came behind its request waits for it.
            self.header = None;
        }
        self.moved(polled, cx)
    }

    fn poll_flush(mut self: Pin<&mut Self>, cx: &mut Context) -> Poll<io::Result<()>> {
        match &mut self.wire {
            Wire::Tcp(stream) => Pin::new(stream).poll_flush(cx),
            Wire::Tls(stream) => Pin::new(stream).poll_flush(cx),
            Wire::Unix(stream) => Pin::new(stream).poll_flush(cx),
        }
    }

    fn poll_shutdown(mut self: Pin<&mut Self>, cx: &mut Context) -> Poll<io::Result<()>> {
        match &mut self.wire {
            Wire::Tcp(stream) => Pin::new(stream).poll_shutdown(cx),
            Wire::Tls(stream) => Pin::new(stream).poll_shutdown(cx),
            Wire::Unix(stream) => Pin::new(stream).poll_shutdown(cx),
        }
    }
}
