//! The desk by TLS: curl and openssl with certificates of an authority of the test's own. Who asks is the certificate's common name.

mod common;

use common::{mishantral, room, run, waited, Server, POLICY};
use rusqlite::Connection;
use serde_json::{json, Value};
use std::fs;
use std::io::{Read, Write};
use std::net::TcpStream;
use std::path::{Path, PathBuf};
use std::process::{Command, Output, Stdio};

const ACCESS: &str =
    "account anna is user anna\naccount bert is user bert\naccount revision reads\n";

fn openssl(room: &Path, arguments: &[&str]) {
    let mut command = Command::new("openssl");
    let done = command.current_dir(room).args(arguments).output();
    let done = done.expect("openssl is on the PATH");
    let why = String::from_utf8_lossy(&done.stderr).into_owned();
    assert!(done.status.success(), "{arguments:?}: {why}");
}

/// An authority: NAME.crt and NAME.key.
fn authority(room: &Path, name: &str) {
    let (key, file) = (format!("{name}.key"), format!("{name}.crt"));
    let mut all = vec![
        "req",
        "-x509",
        "-newkey",
        "ec",
        "-pkeyopt",
        "ec_paramgen_curve:prime256v1",
    ];
    all.extend(["-nodes", "-days", "2", "-keyout", &key, "-out", &file]);
    all.extend([
        "-subj",
        "/CN=authority",
        "-addext",
        "keyUsage=critical,keyCertSign",
    ]);
    openssl(room, &all);
}

/// A certificate of an authority: FILE.crt and FILE.key.
fn signed(room: &Path, by: &str, file: &str, subject: &str, more: &[&str]) {
    let (key, made) = (format!("{file}.key"), format!("{file}.crt"));
    let (by, with) = (format!("{by}.crt"), format!("{by}.key"));
    let mut all = vec!["req", "-x509", "-CA", &by, "-CAkey", &with, "-newkey", "ec"];
    all.extend([
        "-pkeyopt",
        "ec_paramgen_curve:prime256v1",
        "-nodes",
        "-days",
        "2",
    ]);
    all.extend(["-keyout", &key, "-out", &made, "-subj", subject]);
    all.extend(["-addext", "basicConstraints=critical,CA:FALSE"]);
    all.extend(more);
    openssl(room, &all);
}

const SERVER: [&str; 2] = ["-addext", "subjectAltName=IP:127.0.0.1,DNS:localhost"];

/// A room with an authority, the server's certificate and anna's.
fn certified(name: &str) -> PathBuf {
    let room = room(name);
    authority(&room, "ca");
    signed(&room, "ca", "desk", "/CN=desk", &SERVER);
    signed(
        &room,
        "ca",
        "anna",
        "/O=mill/CN=anna",
        &["-addext", "extendedKeyUsage=clientAuth"],
    );
    fs::write(room.join("access"), ACCESS).unwrap();
    room
}

struct Tls {
    _server: Server,
    room: PathBuf,
    address: String,
}

impl Tls {
    fn start(room: PathBuf, more: &[&str]) -> Tls {
        let mut all = vec!["serve", "--http", "127.0.0.1:0"];
        let path = |name: &str| room.join(name).display().to_string();
        let (journal, access) = (path("desk.db"), path("access"));
        let (certificate, key, clients) = (path("desk.crt"), path("desk.key"), path("ca.crt"));
        all.extend([POLICY, "--journal", &journal, "--access", &access]);
        all.extend([
            "--tls-cert",
            &certificate,
            "--tls-key",
            &key,
            "--tls-client-ca",
            &clients,
        ]);
        all.extend(more);
        let server = Server::started(&mut mishantral(&all), room.join("desk.db"));
        let told = server.told.last().unwrap();
        let address = told
            .strip_prefix("serving on HTTPS at ")
            .unwrap()
            .to_string();
        Tls {
            _server: server,
            room,
            address,
        }
    }

    /// What curl says with somebody's certificate, or with none.
    fn curl(&self, who: Option<&str>, path: &str, more: &[&str]) -> Output {
        let mut curl = Command::new("curl");
        curl.current_dir(&self.room)
            .args(["-sS", "--max-time", "240"]);
        curl.args(["--cacert", "ca.crt", "-w", "\n%{http_code}"]);
        if let Some(who) = who {
            curl.arg("--cert").arg(format!("{who}.crt"));
            curl.arg("--key").arg(format!("{who}.key"));
        }
        curl.args(more)
            .arg(format!("https://{}{path}", self.address));
        curl.output().expect("curl is on the PATH")
    }

    /// The status and the body.
    fn get(&self, who: Option<&str>, path: &str, more: &[&str]) -> (u16, Value) {
        let came = self.curl(who, path, more);
        let why = String::from_utf8_lossy(&came.stderr).into_owned();
        assert!(came.status.success(), "{path}: {why}");
        let text = String::from_utf8(came.stdout).unwrap();
        let (body, status) = text.rsplit_once('\n').unwrap();
        let body = serde_json::from_str(body).unwrap_or(json!(body));
        (status.parse().unwrap(), body)
    }

    fn asks(&self, who: &str, request: &str) -> (u16, Value) {
        let body = json!({ "request": request }).to_string();
        let more = ["-H", "Content-Type: application/json", "-d", &body];
        self.get(Some(who), "/v1/desks/desk/requests", &more)
    }
}

#[test]
fn the_common_name_is_the_account() {
    let tls = Tls::start(certified("tls"), &[]);
    let (status, reply) = tls.asks("anna", "create subject am for user anna with roles fitter");
    assert_eq!(
        (status, &reply["name"]),
        (200, &json!("GRANTED")),
        "{reply}"
    );
    let (status, told) = tls.asks("anna", "create subject for user bert with roles fitter");
    assert_eq!(
        (status, &told["detail"]),
        (403, &json!("anna may not act for bert"))
    );
    // A header names nobody here.
    let (_, desks) = tls.get(Some("anna"), "/v1/desks", &["-H", "X-Account: revision"]);
    assert_eq!(desks["account"], "anna");
    assert_eq!(tls.get(Some("anna"), "/v1/desks/desk/journal", &[]).0, 403);
    // Without a certificate: what tells about nobody.
    assert_eq!(tls.get(None, "/healthz", &[]).0, 200);
    let (status, told) = tls.get(None, "/v1/desks/desk/board", &[]);
    assert_eq!(
        (status, &told["type"]),
        (401, &json!("urn:mishantral:problem:no-account"))
    );
    let (_, found) = tls.get(None, "/.well-known/authzen-configuration", &[]);
    let point = found["policy_decision_point"].as_str().unwrap();
    assert_eq!(point, format!("https://{}", tls.address));
    // A page of another site in the same browser.
    let more = [
        "-H",
        "Origin: https://evil.example",
        "-H",
        "Content-Type: text/plain",
        "-d",
        "end order 7",
    ];
    let (status, _) = tls.get(Some("anna"), "/v1/desks/desk/requests", &more);
    assert_eq!(status, 403);
    let sql = Connection::open(tls.room.join("desk.db")).unwrap();
    let row = |select: &str| -> String { sql.query_row(select, [], |r| r.get(0)).unwrap() };
    assert_eq!(
        row("SELECT account || ' ' || via FROM request"),
        "anna https:127.0.0.1"
    );
    assert_eq!(
        row("SELECT account || ' ' || via FROM barred LIMIT 1"),
        "anna https:127.0.0.1"
    );
}

/// The lines of the pages that make certificates and show them, as they stand there.
#[test]
fn the_lines_of_the_pages_work() {
    let page = |name: &str| {
        let text = fs::read_to_string(common::root().join("docs").join(name)).unwrap();
        text.replace("\\\n", " ")
    };
    let lines = |text: &str, first: &str| -> Vec<String> {
        let all = text.lines().map(str::trim);
        all.filter(|line| line.starts_with(first))
            .map(String::from)
            .collect()
    };
    let room = room("lines");
    let shell = |line: &str| {
        let mut shell = Command::new("sh");
        let done = shell
            .current_dir(&room)
            .args(["-c", line])
            .output()
            .unwrap();
        let why = String::from_utf8_lossy(&done.stderr).into_owned();
        assert!(done.status.success(), "{line}: {why}");
        String::from_utf8(done.stdout).unwrap()
    };
    let made = lines(&page("HTTP.md"), "openssl ");
    assert_eq!(made.len(), 3, "{made:?}");
    made.iter().for_each(|line| drop(shell(line)));
    fs::write(room.join("access"), ACCESS).unwrap();
    fs::rename(room.join("clerks.crt"), room.join("ca.crt")).unwrap();
    let tls = Tls::start(room.clone(), &[]);
    fs::rename(room.join("ca.crt"), room.join("clerks.crt")).unwrap();
    let curl = lines(&page("OPERATE.md"), "curl --cacert ");
    assert_eq!(curl.len(), 1, "{curl:?}");
    let to = format!(" -sS --connect-to desk.example.net:8443:{}", tls.address);
    let told: Value = serde_json::from_str(&shell(&(curl[0].clone() + &to))).unwrap();
    assert_eq!(told, json!({"desks": ["desk"], "account": "anna"}));
}

#[test]
fn certificates_that_are_not_good_come_to_nothing() {
    let room = certified("forged");
    authority(&room, "other");
    signed(&room, "other", "forged", "/CN=anna", &[]);
    signed(
        &room,
        "ca",
        "server",
        "/CN=anna",
        &["-addext", "extendedKeyUsage=serverAuth"],
    );
    signed(&room, "ca", "two", "/CN=anna/CN=bert", &[]);
    signed(&room, "ca", "none", "/O=mill", &[]);
    signed(&room, "ca", "mallory", "/CN=mallory", &[]);
    // By somebody who has a certificate, and is no authority.
    signed(&room, "anna", "child", "/CN=bert", &[]);
    let chain = [
        fs::read(room.join("child.crt")),
        fs::read(room.join("anna.crt")),
    ];
    let chain: Vec<u8> = chain.into_iter().flat_map(Result::unwrap).collect();
    fs::write(room.join("child.crt"), chain).unwrap();
    let tls = Tls::start(room, &["--idle-seconds", "1"]);
    for who in ["forged", "server", "child"] {
        let came = tls.curl(Some(who), "/healthz", &[]);
        assert!(!came.status.success(), "{who}: {came:?}");
    }
    for who in ["two", "none"] {
        assert_eq!(tls.get(Some(who), "/v1/desks", &[]).0, 401, "{who}");
    }
    let (status, told) = tls.get(Some("mallory"), "/v1/desks", &[]);
    assert_eq!(
        (status, &told["detail"]),
        (403, &json!("mallory has no authority here"))
    );
    // What is no TLS, and what stops in the middle of it, is left.
    for bytes in [
        &b"GET /healthz HTTP/1.1\r\nHost: a\r\n\r\n"[..],
        b"",
        b"\x16\x03\x01\x02\x00",
    ] {
        let mut stream = TcpStream::connect(&tls.address).unwrap();
        stream.write_all(bytes).unwrap();
        let mut came = Vec::new();
        let _ = stream.read_to_end(&mut came);
        assert!(!came.starts_with(b"HTTP"), "{came:?}");
    }
    assert_eq!(tls.get(Some("anna"), "/v1/desks", &[]).0, 200);
}

/// What openssl's client says of a handshake.
fn shaken(tls: &Tls, more: &[&str]) -> (bool, String) {
    let mut client = Command::new("openssl");
    client
        .current_dir(&tls.room)
        .args(["s_client", "-connect", &tls.address, "-CAfile", "ca.crt"]);
    client.args(["-verify_return_error", "-brief"]).args(more);
    let done = client.stdin(Stdio::null()).output().unwrap();
    let told = String::from_utf8_lossy(&done.stderr).into_owned();
    (done.status.success(), told)
}

#[test]
fn openssl_agrees_on_versions_and_names() {
    let tls = Tls::start(certified("versions"), &[]);
    for (option, version) in [("-tls1_2", "TLSv1.2"), ("-tls1_3", "TLSv1.3")] {
        let (well, told) = shaken(&tls, &[option, "-cert", "anna.crt", "-key", "anna.key"]);
        assert!(well && told.contains(version), "{told}");
        assert!(told.contains("Verification: OK"), "{told}");
    }
    for option in ["-tls1_1", "-tls1"] {
        let weak = [option, "-cipher", "ALL:@SECLEVEL=0"];
        assert!(!shaken(&tls, &weak).0, "{option}");
    }
    assert!(!shaken(&tls, &["-verify_hostname", "elsewhere.example"]).0);
    assert!(shaken(&tls, &["-verify_hostname", "localhost"]).0);
}

#[test]
fn one_account_leaves_connections_to_others_by_tls() {
    let room = certified("bound");
    signed(&room, "ca", "bert", "/CN=bert", &[]);
    let tls = Tls::start(room, &["--http-account-connections", "2"]);
    let held = |who: &str| {
        let mut client = Command::new("openssl");
        client
            .current_dir(&tls.room)
            .args(["s_client", "-quiet", "-connect", &tls.address]);
        client.args([
            "-cert",
            &format!("{who}.crt"),
            "-key",
            &format!("{who}.key"),
        ]);
        let mut child = client
            .stdin(Stdio::piped())
            .stdout(Stdio::piped())
            .stderr(Stdio::null())
            .spawn()
            .unwrap();
        let ask = b"GET /healthz HTTP/1.1\r\nHost: localhost\r\n\r\n";
        child.stdin.as_mut().unwrap().write_all(ask).unwrap();
        let mut first = [0; 15];
        let read = child.stdout.as_mut().unwrap().read_exact(&mut first);
        assert!(read.is_ok() && &first == b"HTTP/1.1 200 OK");
        child
    };
    let mut all = [held("anna"), held("anna")];
    // Nobody else comes from that address, and anna from no other; bert does.
    assert!(!tls.curl(Some("bert"), "/healthz", &[]).status.success());
    let elsewhere = ["--interface", "127.0.0.2"];
    let (status, told) = tls.get(Some("anna"), "/healthz", &elsewhere);
    let detail = "2 connections of this account are here, and no more may come";
    assert_eq!((status, &told["detail"]), (503, &json!(detail)));
    assert_eq!(tls.get(Some("bert"), "/healthz", &elsewhere).0, 200);
    for child in &mut all {
        child.kill().unwrap();
        child.wait().unwrap();
    }
    waited("their places are free", || {
        tls.curl(Some("bert"), "/healthz", &[]).status.success()
    });
}

#[test]
fn files_that_do_not_fit_are_refused() {
    let room = certified("files");
    fs::write(room.join("empty"), "no PEM\n").unwrap();
    let path = |name: &str| room.join(name).display().to_string();
    let (journal, access) = (path("desk.db"), path("access"));
    let refused = |more: &[&str], expected: &str| {
        let all = [&["serve", POLICY, "--journal", &journal, "--http"], more].concat();
        let (_, why, status) = run(&all);
        assert_eq!(
            (why.contains(expected), status),
            (true, 2),
            "{more:?}: {why}"
        );
    };
    let (cert, key, ca, empty) = (
        path("desk.crt"),
        path("desk.key"),
        path("ca.crt"),
        path("empty"),
    );
    let (anna, gone) = (path("anna.key"), path("gone"));
    let any = "0.0.0.0:0";
    let with = ["--access", &access, "--tls-client-ca", &ca];
    let files = |cert: &str, key: &str| -> Vec<String> {
        let all = [any, "--tls-cert", cert, "--tls-key", key];
        all.iter()
            .chain(&with)
            .map(|word| word.to_string())
            .collect()
    };
    for (cert, key, expected) in [
        (&cert, &anna, "it is the key of another certificate"),
        (&cert, &empty, "one private key in PEM"),
        (&empty, &key, "there is no certificate in PEM in it"),
        (&gone, &key, "--tls-cert"),
        (&cert, &gone, "--tls-key"),
    ] {
        let all = files(cert, key);
        let all: Vec<&str> = all.iter().map(String::as_str).collect();
        refused(&all, expected);
    }
    let own = ["--tls-cert", &cert, "--tls-key", &key];
    let none = ["--access", &access, "--tls-client-ca", &empty];
    refused(&[&[any][..], &own, &none].concat(), "--tls-client-ca");
    refused(
        &[&[any][..], &own, &["--tls-client-ca", &ca]].concat(),
        "add --access FILE",
    );
    let header = ["--account-header", "X-Account"];
    refused(
        &[&[any][..], &own, &with, &header].concat(),
        "take one of them",
    );
    refused(
        &[&["unix:desk.http"][..], &own, &with].concat(),
        "a Unix socket is not encrypted",
    );
    refused(
        &[&[any][..], &own].concat(),
        "without certificates only this machine's own",
    );
    let proxy = ["--account-header", "X-Account", "--access", &access];
    refused(
        &[&[any][..], &own, &proxy].concat(),
        "without certificates only this machine's own",
    );
    refused(&[any, "--tls-cert", &cert], "--tls-key");
    refused(&[any, "--tls-client-ca", &ca], "--tls-cert");
}
