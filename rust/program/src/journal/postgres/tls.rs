//! TLS to a database, by libpq's words `sslmode`, `sslrootcert`, `sslcert` and `sslkey`, over the distribution's OpenSSL.

use super::place::Ssl;
use openssl::error::ErrorStack;
use openssl::hash::MessageDigest;
use openssl::nid::Nid;
use openssl::ssl::{
    ConnectConfiguration, SslConnector, SslFiletype, SslMethod, SslVerifyMode, SslVersion,
};
use openssl::x509::store::{X509Store, X509StoreBuilder};
use openssl::x509::{X509VerifyResult, X509};
use std::future::Future;
use std::io;
use std::pin::Pin;
use std::task::{Context, Poll};
use tokio::io::{AsyncRead, AsyncWrite, ReadBuf};
use tokio_openssl::SslStream;
use tokio_postgres::tls::{ChannelBinding, MakeTlsConnect, TlsConnect, TlsStream};

/// How much of a server's certificate is looked at.
#[derive(Clone, Copy, PartialEq, Eq, Debug)]
pub enum Trust {
    /// `require`: the connection is encrypted, whoever is at its other end.
    Anybody,
    /// `verify-ca`: an authority that is trusted has signed it.
    Authority,
    /// `verify-full`: and it is of the host that was named.
    Host,
}

/// Makes connections encrypted.
#[derive(Clone)]
pub struct Tls {
    connector: SslConnector,
    trust: Trust,
}

impl Tls {
    /// With the files that an address names; or which of them is unfit.
    pub fn of(trust: Trust, ssl: &Ssl) -> Result<Tls, String> {
        let cannot =
            |what: &str, why: &ErrorStack| format!("{what}: it cannot be used: {}", first(why));
        let builder = SslConnector::builder(SslMethod::tls_client());
        let mut builder = builder.map_err(|why| cannot("TLS", &why))?;
        let least = builder.set_min_proto_version(Some(SslVersion::TLS1_2));
        least.map_err(|why| cannot("TLS 1.2", &why))?;
        if trust == Trust::Anybody {
            builder.set_verify(SslVerifyMode::NONE);
        }
        if let Some(file) = &ssl.root {
            let store = store(file).map_err(|why| format!("sslrootcert={file}: {why}"))?;
            builder.set_cert_store(store);
        }
        if let Some((certificate, key)) = &ssl.own {
            for (word, file) in [("sslcert", certificate), ("sslkey", key)] {
                let read = std::fs::metadata(file);
                read.map_err(|why| format!("{word}={file}: {why}"))?;
            }
            let set = builder.set_certificate_chain_file(certificate);
            set.map_err(|why| cannot(&format!("sslcert={certificate}"), &why))?;
            let set = builder.set_private_key_file(key, SslFiletype::PEM);
            set.map_err(|why| cannot(&format!("sslkey={key}"), &why))?;
        }
        let connector = builder.build();
        Ok(Tls { connector, trust })
    }
}

/// The authorities of a file, and no others.
fn store(file: &str) -> Result<X509Store, String> {
    let bytes = std::fs::read(file).map_err(|why| why.to_string())?;
    let all = X509::stack_from_pem(&bytes).map_err(|why| first(&why))?;
    if all.is_empty() {
        return Err("it has no certificate".to_string());
    }
    let made = X509StoreBuilder::new().and_then(|mut store| {
        all.into_iter().try_for_each(|one| store.add_cert(one))?;
        Ok(store.build())
    });
    made.map_err(|why| first(&why))
}

fn first(why: &ErrorStack) -> String {
    let reason = why.errors().iter().find_map(|one| one.reason());
    reason.unwrap_or("unknown").to_string()
}

impl<S> MakeTlsConnect<S> for Tls
where
    S: AsyncRead + AsyncWrite + Unpin + Send + 'static,
{
    type Stream = Encrypted<S>;
    type TlsConnect = Connecting;
    type Error = ErrorStack;

    fn make_tls_connect(&mut self, host: &str) -> Result<Connecting, ErrorStack> {
        let mut configuration = self.connector.configure()?;
        configuration.set_verify_hostname(self.trust == Trust::Host);
        Ok(Connecting {
            configuration,
            trust: self.trust,
            host: host.to_string(),
        })
    }
}

/// A connection that is to be encrypted.
pub struct Connecting {
    configuration: ConnectConfiguration,
    trust: Trust,
    host: String,
}

type Handshake<S> = Pin<Box<dyn Future<Output = Result<Encrypted<S>, io::Error>> + Send>>;

impl<S> TlsConnect<S> for Connecting
where
    S: AsyncRead + AsyncWrite + Unpin + Send + 'static,
{
    type Stream = Encrypted<S>;
    type Error = io::Error;
    type Future = Handshake<S>;

    fn connect(self, stream: S) -> Handshake<S> {
        Box::pin(async move {
            let host = &self.host;
            let ssl = self.configuration.into_ssl(host)?;
            let mut stream = SslStream::new(ssl, stream)?;
            match Pin::new(&mut stream).connect().await {
                Ok(()) => Ok(Encrypted(stream)),
                Err(why) => Err(io::Error::other(
                    match (self.trust, stream.ssl().verify_result()) {
                        (Trust::Anybody, _) | (_, X509VerifyResult::OK) => why.to_string(),
                        (_, unfit) => refused(host, unfit),
                    },
                )),
            }
        })
    }
}

/// Why a server's certificate is not taken, and what helps.
fn refused(host: &str, why: X509VerifyResult) -> String {
    let said = why.error_string();
    let remedy = match said.contains("mismatch") {
        true => "name the host as its certificate does",
        false => "sslrootcert=FILE names the certificate of the authority that signed it",
    };
    format!("the certificate of {host} is refused: {said}: {remedy}")
}

/// A connection that is encrypted.
pub struct Encrypted<S>(SslStream<S>);

impl<S> TlsStream for Encrypted<S>
where
    S: AsyncRead + AsyncWrite + Unpin,
{
    /// The certificate's sum, by which a password's proof is bound to this server (RFC 5929).
    fn channel_binding(&self) -> ChannelBinding {
        let digest = |nid: Nid| match nid {
            Nid::MD5 | Nid::SHA1 => Some(MessageDigest::sha256()),
            nid => MessageDigest::from_nid(nid),
        };
        let sum = self.0.ssl().peer_certificate().and_then(|certificate| {
            let signed = certificate.signature_algorithm().object().nid();
            let digest = digest(signed.signature_algorithms()?.digest)?;
            certificate.digest(digest).ok()
        });
        match sum {
            Some(sum) => ChannelBinding::tls_server_end_point(sum.to_vec()),
            None => ChannelBinding::none(),
        }
    }
}

impl<S> AsyncRead for Encrypted<S>
where
    S: AsyncRead + AsyncWrite + Unpin,
{
    fn poll_read(
        mut self: Pin<&mut Self>,
        context: &mut Context,
        room: &mut ReadBuf,
    ) -> Poll<io::Result<()>> {
        Pin::new(&mut self.0).poll_read(context, room)
    }
}

impl<S> AsyncWrite for Encrypted<S>
where
    S: AsyncRead + AsyncWrite + Unpin,
{
    fn poll_write(
        mut self: Pin<&mut Self>,
        context: &mut Context,
        bytes: &[u8],
    ) -> Poll<io::Result<usize>> {
        Pin::new(&mut self.0).poll_write(context, bytes)
    }

    fn poll_flush(mut self: Pin<&mut Self>, context: &mut Context) -> Poll<io::Result<()>> {
        Pin::new(&mut self.0).poll_flush(context)
    }

    fn poll_shutdown(mut self: Pin<&mut Self>, context: &mut Context) -> Poll<io::Result<()>> {
        Pin::new(&mut self.0).poll_shutdown(context)
    }
}
