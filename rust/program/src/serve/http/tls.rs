//! Certificates: the one that this server shows, and those by which clients say who they are.

use crate::report::report;
use crate::stop::Stop;
use rustls_pemfile::Item;
use std::fs;
use std::os::unix::fs::PermissionsExt;
use std::sync::Arc;
use tokio_rustls::rustls::server::AllowAnyAnonymousOrAuthenticatedClient;
use tokio_rustls::rustls::sign::any_supported_type;
use tokio_rustls::rustls::{Certificate, PrivateKey, RootCertStore, ServerConfig, SignatureScheme};
use tokio_rustls::webpki::{self, EndEntityCert, SignatureAlgorithm};
use tokio_rustls::TlsAcceptor;

/// The files that are named on the command line.
#[derive(Clone, Debug)]
pub struct Files {
    /// The server's certificate, with those between it and its authority.
    pub certificate: String,
    pub key: String,
    /// The authorities of clients' certificates.
    pub clients: Option<String>,
}

/// A file that cannot be used: its option, its name, why.
fn unfit(option: &str, file: &str, why: impl std::fmt::Display) -> Stop {
    Stop::Wrong(vec![format!("{option} {file}: {why}")])
}

/// What a file in PEM has.
fn items(option: &str, file: &str) -> Result<Vec<Item>, Stop> {
    let bytes = fs::read(file).map_err(|why| unfit(option, file, why))?;
    rustls_pemfile::read_all(&mut &bytes[..]).map_err(|why| unfit(option, file, why))
}

fn certificates(option: &str, file: &str) -> Result<Vec<Certificate>, Stop> {
    let of = |item| match item {
        Item::X509Certificate(der) => Some(Certificate(der)),
        _ => None,
    };
    let all: Vec<Certificate> = items(option, file)?.into_iter().filter_map(of).collect();
    match all.is_empty() {
        true => Err(unfit(option, file, "there is no certificate in PEM in it")),
        false => Ok(all),
    }
}

/// The only private key of a file.
fn private_key(file: &str) -> Result<PrivateKey, Stop> {
    let option = "--tls-key";
    let of = |item| match item {
        Item::PKCS8Key(der) | Item::RSAKey(der) | Item::ECKey(der) => Some(PrivateKey(der)),
        _ => None,
    };
    let mut keys = items(option, file)?.into_iter().filter_map(of);
    let (Some(key), None) = (keys.next(), keys.next()) else {
        let why = "one private key in PEM, without a password, is expected in it";
        return Err(unfit(option, file, why));
    };
    let mode = fs::metadata(file).map_or(0, |about| about.permissions().mode());
    if mode & 0o004 != 0 {
        report(format!(
            "{file}: everyone on this machine may read this private key"
        ));
    }
    Ok(key)
}

/// What a key signs is read with the algorithm of the same name.
static SCHEMES: [(SignatureScheme, &SignatureAlgorithm); 4] = [
    (
        SignatureScheme::ECDSA_NISTP256_SHA256,
        &webpki::ECDSA_P256_SHA256,
    ),
    (
        SignatureScheme::ECDSA_NISTP384_SHA384,
        &webpki::ECDSA_P384_SHA384,
    ),
    (SignatureScheme::ED25519, &webpki::ED25519),
    (
        SignatureScheme::RSA_PKCS1_SHA256,
        &webpki::RSA_PKCS1_2048_8192_SHA256,
    ),
];

/// Whether the certificate is that of the key; or why not. A key of another certificate would fail with every client.
fn is_pair(certificate: &Certificate, key: &PrivateKey) -> Result<(), String> {
    let other = || "it is no key that can sign here: RSA, ECDSA or Ed25519".to_string();
    let key = any_supported_type(key).map_err(|_| other())?;
    let known = SCHEMES.map(|(scheme, _)| scheme);
    let signer = key.choose_scheme(&known).ok_or_else(other)?;
    let signed = signer.sign(b"desk").map_err(|why| why.to_string())?;
    let scheme = signer.scheme();
    let algorithm = SCHEMES.iter().find(|(of, _)| *of == scheme);
    let (_, algorithm) = algorithm.ok_or_else(other)?;
    let end = EndEntityCert::try_from(&certificate.0[..])
        .map_err(|why| format!("its certificate cannot be read: {why:?}"))?;
    end.verify_signature(algorithm, b"desk", &signed)
        .map_err(|_| "it is the key of another certificate".to_string())
}

/// Reads the files.
pub fn acceptor(files: &Files) -> Result<TlsAcceptor, Stop> {
    let chain = certificates("--tls-cert", &files.certificate)?;
    let key = private_key(&files.key)?;
    let no_key = |why: String| unfit("--tls-key", &files.key, why);
    is_pair(&chain[0], &key).map_err(no_key)?;
    let builder = ServerConfig::builder().with_safe_defaults();
    let builder = match &files.clients {
        None => builder.with_no_client_auth(),
        // What tells nothing about anybody is answered without a certificate, as elsewhere without an account.
        Some(file) => builder.with_client_cert_verifier(
            AllowAnyAnonymousOrAuthenticatedClient::new(authorities(file)?),
        ),
    };
    let made = builder.with_single_cert(chain, key);
    let mut config = made.map_err(|why| no_key(why.to_string()))?;
    config.alpn_protocols = vec![b"http/1.1".to_vec()];
    Ok(TlsAcceptor::from(Arc::new(config)))
}

fn authorities(file: &str) -> Result<RootCertStore, Stop> {
    let option = "--tls-client-ca";
    let mut roots = RootCertStore::empty();
    for certificate in certificates(option, file)? {
        let added = roots.add(&certificate);
        added.map_err(|why| unfit(option, file, format!("{why:?}")))?;
    }
    Ok(roots)
}

const SEQUENCE: u8 = 0x30;
const SET: u8 = 0x31;
const VERSION: u8 = 0xa0;

/// The type of a common name, 2.5.4.3.
const COMMON_NAME: [u8; 5] = [0x06, 0x03, 0x55, 0x04, 0x03];

/// Elements of DER one by one: the tag of each, and its content. They end where no whole one follows.
struct Elements<'a>(&'a [u8]);

impl<'a> Iterator for Elements<'a> {
    type Item = (u8, &'a [u8]);

    fn next(&mut self) -> Option<(u8, &'a [u8])> {
        let (&[tag, first], rest) = self.0.split_first_chunk()?;
        let (length, rest) = match first {
            0..=0x7f => (usize::from(first), rest),
            0x81..=0x83 => {
                let (digits, rest) = rest.split_at_checked(usize::from(first - 0x80))?;
                let length = digits
                    .iter()
                    .fold(0, |n, &digit| n << 8 | usize::from(digit));
                (length, rest)
            }
            _ => return None,
        };
        let (content, rest) = rest.split_at_checked(length)?;
        self.0 = rest;
        Some((tag, content))
    }
}

impl<'a> Elements<'a> {
    /// The content of the next one, if it has this tag.
    fn of(&mut self, tag: u8) -> Option<&'a [u8]> {
        self.next()
            .filter(|(own, _)| *own == tag)
            .map(|(_, content)| content)
    }
}

/// The content of the subject of a certificate.
fn subject(certificate: &[u8]) -> Option<&[u8]> {
    let certificate = Elements(certificate).of(SEQUENCE)?;
    let mut fields = Elements(Elements(certificate).of(SEQUENCE)?);
    let first = fields.next()?;
    if first.0 == VERSION {
        // The serial number.
        fields.next()?;
    }
    let (_algorithm, _issuer) = (fields.of(SEQUENCE)?, fields.of(SEQUENCE)?);
    let _validity = fields.of(SEQUENCE)?;
    fields.of(SEQUENCE)
}

/// The common name of a certificate's subject, if there is one alone, in characters that every system reads alike.
pub fn common_name(certificate: &[u8]) -> Option<String> {
    let mut found = None;
    for (tag, set) in Elements(subject(certificate)?) {
        for (inner, pair) in Elements(set).filter(|_| tag == SET) {
            let Some(value) = pair.strip_prefix(&COMMON_NAME[..]) else {
                continue;
            };
            let (kind, text) = Elements(value).next().filter(|_| inner == SEQUENCE)?;
            // UTF8String, PrintableString, IA5String.
            let text = String::from_utf8(text.to_vec()).ok()?;
            let fit = kind == 0x0c || (matches!(kind, 0x13 | 0x16) && text.is_ascii());
            if !fit || found.replace(text).is_some() {
                return None;
            }
        }
    }
    found
}

#[cfg(test)]
mod tests {
    use super::*;

    fn element(tag: u8, content: &[u8]) -> Vec<u8> {
        let length = content.len();
        let head = match length {
            0..=0x7f => vec![tag, length as u8],
            _ => vec![tag, 0x82, (length >> 8) as u8, length as u8],
        };
        [&head, content].concat()
    }

    /// A certificate with this subject, as far as it is read.
    fn certificate(subject: &[(u8, &[u8])]) -> Vec<u8> {
        let named = |&(kind, text): &(u8, &[u8])| {
            let pair = [&COMMON_NAME[..], &element(kind, text)].concat();
            element(SET, &element(SEQUENCE, &pair))
        };
        let subject: Vec<u8> = subject.iter().flat_map(named).collect();
        let fields = [
            element(VERSION, &[2, 1, 2]),
            element(2, &[7]),
            element(SEQUENCE, &[]),
            element(SEQUENCE, &[0; 200]),
            element(SEQUENCE, &[]),
            element(SEQUENCE, &subject),
        ];
        element(SEQUENCE, &element(SEQUENCE, &fields.concat()))
    }

    #[test]
    fn one_common_name_is_the_account() {
        let of = |subject: &[(u8, &[u8])]| common_name(&certificate(subject));
        assert_eq!(of(&[(0x0c, "jürgen".as_bytes())]), Some("jürgen".into()));
        assert_eq!(of(&[(0x13, b"anna")]), Some("anna".into()));
        assert_eq!(of(&[(0x13, "jürgen".as_bytes())]), None);
        assert_eq!(of(&[(0x1e, b"\0a")]), None);
        assert_eq!(of(&[(0x0c, b"\xff")]), None);
        assert_eq!(of(&[]), None);
        assert_eq!(of(&[(0x0c, b"anna"), (0x0c, b"bert")]), None);
        // Cut or changed anywhere, it is read as nobody's or as what it says: nothing breaks.
        let whole = certificate(&[(0x0c, b"anna")]);
        for at in 0..whole.len() {
            assert_eq!(common_name(&whole[..at]), None);
            for byte in 0..=255 {
                let mut changed = whole.clone();
                changed[at] = byte;
                common_name(&changed);
            }
        }
    }
}
