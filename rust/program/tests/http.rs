//! The served desk by HTTP, over real sockets: what is answered, what is refused, and that wrong or slow clients harm nobody.

mod common;

use common::web::{at, read, served, At, ACCESS};
use common::{mishantral, room, run, Server, POLICY};
use nix::sys::signal::{kill, Signal};
use nix::unistd::Pid;
use rusqlite::Connection;
use serde_json::json;
use std::fs;
use std::io::{BufRead, BufReader, Write};

const REQUESTS: &str = "/v1/desks/desk/requests";

#[test]
fn requests_go_the_way_of_those_of_sockets() {
    let room = room("http");
    let (server, at) = served(&room, &[]);
    let one = |account: &str, body| at.post(account, REQUESTS, &body);
    let answer = one(
        "anna",
        json!({"request": "create subject am for user anna with roles fitter", "id": [7]}),
    );
    let expected = json!({"status": 200, "number": 1, "reply": 0, "name": "GRANTED", "rule": 0, "subject": 0, "id": [7]});
    assert_eq!((answer.status, answer.json()), (200, expected));
    assert_eq!(answer.header("x-content-type-options"), Some("nosniff"));
    // Many: names that one gives hold for the next, and each has its own answer.
    let many = json!({"requests": [
        "open order 7 mill of template breakdown", {"request": "claim am mill repair"}, {"record": "3400000007000000"},
        {"request": "clam"}, "claim am mill sign", {"request": "add user 9", "id": "x"}, "who mill sign", "done am mill repair",
    ]});
    let answer = at.post("anna", &format!("{REQUESTS}?why=1"), &many);
    assert_eq!(answer.status, 200);
    let replies = answer.json()["replies"].as_array().unwrap().clone();
    let status: Vec<u64> = replies
        .iter()
        .map(|r| r["status"].as_u64().unwrap())
        .collect();
    assert_eq!(status, [200, 200, 200, 400, 200, 403, 400, 200]);
    assert_eq!(
        (&replies[2]["name"], &replies[4]["name"]),
        (&json!("SHAPE"), &json!("NO ROLE"))
    );
    assert_eq!(
        (&replies[3]["column"], &replies[3]["pointer"]),
        (&json!(1), &json!("/requests/3"))
    );
    assert_eq!(
        (&replies[5]["barred"], &replies[5]["id"]),
        (&json!("anna does not administer: add user 9"), &json!("x"))
    );
    assert!(replies[4]["why"][0]
        .as_str()
        .unwrap()
        .contains("sign is open to: signer"));
    assert!(replies[6]["wrong"].as_str().unwrap().contains("question"));
    // A request that came alone is a problem where it is none.
    let barred = one(
        "anna",
        json!({"request": "create subject for user bert with roles fitter"}),
    );
    assert_eq!(
        (barred.status, barred.header("content-type")),
        (403, Some("application/problem+json"))
    );
    assert_eq!(barred.json()["detail"], "anna may not act for bert");
    assert_eq!(barred.json()["type"], "urn:mishantral:problem:barred");
    let wrong = one("anna", json!({"request": "claim am mill sogn"}));
    assert_eq!(
        (wrong.status, &wrong.json()["line"], &wrong.json()["column"]),
        (400, &json!(1), &json!(15))
    );
    assert_eq!(wrong.json()["pointer"], "");
    // Lines, as a file of requests has them.
    let replies = at.lines(
        "anna",
        "# a comment\r\n\nentries of order mill\nclaim am mill x\n\u{feff}\n",
    );
    assert_eq!(replies[0]["figures"], "1 entry, done repair");
    assert_eq!(
        (&replies[1]["line"], &replies[1]["column"]),
        (&json!(4), &json!(15))
    );
    assert_eq!(at.lines("anna", "").len(), 0);
    // A request with a key may be sent again, in either form.
    let keyed = json!({"request": "open order yard of template breakdown", "key": "k 1"});
    let first = at.post("anna", REQUESTS, &keyed).json();
    assert_eq!(first["order"], 0);
    assert_eq!(at.post("anna", REQUESTS, &keyed).json(), first);
    at.lines("anna", "end order yard\n");
    assert_eq!(
        at.post("anna", REQUESTS, &keyed).json(),
        first,
        "and after its name has gone"
    );
    let twice = "key=k2 end order mill\nkey=k2 end order mill\n";
    let said = at.lines("anna", twice);
    assert_eq!(
        (said[0].clone(), &said[0]["reply"]),
        (said[1].clone(), &json!(0))
    );
    for (key, detail) in [
        (json!(7), "is a text"),
        (json!(""), "a key of 1"),
        (json!("k".repeat(65)), "at most 64"),
    ] {
        let wrong = one("anna", json!({"request": "end order 9", "key": key}));
        assert_eq!(
            (wrong.status, &wrong.json()["pointer"]),
            (400, &json!("/key"))
        );
        assert!(wrong.json()["detail"].as_str().unwrap().contains(detail));
    }
    drop(server);
    let sql = Connection::open(room.join("desk.db")).unwrap();
    let row = |select: &str| -> String { sql.query_row(select, [], |r| r.get(0)).unwrap() };
    assert_eq!(
        row("SELECT account || ' ' || via FROM request WHERE number = 2"),
        "anna http:127.0.0.1"
    );
    assert_eq!(
        row("SELECT group_concat(asked, '; ') FROM barred"),
        "add user 9; create subject 1 for user bert with roles fitter"
    );
}

#[test]
fn nobody_asks_without_an_account_or_beyond_it() {
    let room = room("who");
    let (server, at) = served(&room, &[]);
    let board = "/v1/desks/desk/board";
    for head in [
        "",
        "X-Account: \r\n",
        "X-Account: anna\r\nX-Account: bert\r\n",
        "X-Account: a\x01b\r\n",
    ] {
        let raw =
            format!("GET {board} HTTP/1.1\r\nHost: localhost\r\n{head}Connection: close\r\n\r\n");
        let answer = &at.raw(raw.as_bytes(), 1)[0];
        assert!([400, 401].contains(&answer.status), "{head:?}: {answer:?}");
    }
    let none = at.raw(format!("GET {board} HTTP/1.0\r\n\r\n").as_bytes(), 1);
    assert_eq!(
        (none[0].status, none[0].header("www-authenticate")),
        (401, Some("Account header=\"x-account\""))
    );
    for _ in 0..3 {
        let stranger = at.get("mallory", board);
        assert_eq!(
            (stranger.status, stranger.json()["detail"].clone()),
            (403, json!("mallory has no authority here"))
        );
    }
    assert_eq!(at.get("mallory", "/v1/desks").status, 403);
    assert_eq!(
        at.get("anna", "/v1/desks").json(),
        json!({"desks": ["desk"], "account": "anna"})
    );
    for (path, status) in [
        ("/v1/desks/desk/journal", 403),
        ("/v1/desks/desk/holds?from=repair&to=test", 403),
        (board, 200),
    ] {
        assert_eq!(at.get("anna", path).status, status, "{path}");
    }
    // Pages of other sites.
    let from = |head: &str| {
        let body = "{\"request\": \"open order 7 of template breakdown\"}";
        let raw = format!("POST {REQUESTS} HTTP/1.1\r\nHost: desk.example\r\nX-Account: anna\r\n{head}Content-Type: application/json\r\nContent-Length: {}\r\n\r\n{body}", body.len());
        at.raw(raw.as_bytes(), 1)[0].status
    };
    assert_eq!(from("Origin: https://evil.example\r\n"), 403);
    assert_eq!(from("Origin: null\r\n"), 403);
    assert_eq!(from("Sec-Fetch-Site: cross-site\r\n"), 403);
    assert_eq!(
        from("Sec-Fetch-Site: same-site\r\nOrigin: https://desk.example\r\n"),
        403
    );
    assert_eq!(from("Origin: https://desk.example\r\n"), 200);
    assert_eq!(
        from("Origin: https://front.example\r\nX-Forwarded-Host: front.example\r\n"),
        200
    );
    assert_eq!(from("Sec-Fetch-Site: same-origin\r\n"), 200);
    drop(server);
    let sql = Connection::open(room.join("desk.db")).unwrap();
    let kept: i64 = sql
        .query_row(
            "SELECT count(*) FROM barred WHERE account = 'mallory'",
            [],
            |r| r.get(0),
        )
        .unwrap();
    assert_eq!(kept, 1, "the same stranger is kept once a minute");
}

#[test]
fn a_unix_socket_says_who_asks() {
    let room = room("unix");
    let (journal, socket) = (room.join("desk.db"), room.join("desk.http"));
    let address = format!("unix:{}", socket.display());
    let all = [
        "serve",
        POLICY,
        "--journal",
        journal.to_str().unwrap(),
        "--http",
        &address,
    ];
    let server = Server::started(&mut mishantral(&all), socket.clone());
    let at = at(&server);
    use std::os::unix::fs::PermissionsExt;
    assert_eq!(
        fs::metadata(&socket).unwrap().permissions().mode() & 0o777,
        0o600
    );
    assert_eq!(
        at.lines("mallory", "open order 7 mill of template breakdown\n")[0]["reply"],
        0
    );
    let you = at.get("mallory", "/v1/desks/desk/board").json()["you"].clone();
    assert_eq!(
        you["everyone"], true,
        "the header counts for nothing here: {you}"
    );
    // A name that is not this machine's may be another site's.
    let raw = b"GET /v1/desks HTTP/1.1\r\nHost: evil.example\r\n\r\n";
    assert_eq!(at.raw(raw, 1)[0].status, 421);
    assert_eq!(
        at.raw(b"GET /v1/desks HTTP/1.1\r\nHost: 127.0.0.1:9\r\n\r\n", 1)[0].status,
        200
    );
    // It ends with the server, and another server may not have it meanwhile.
    let other = room.join("other.db");
    let (_, why, status) = run(&[
        "serve",
        POLICY,
        "--journal",
        other.to_str().unwrap(),
        "--http",
        &address,
    ]);
    assert_eq!(
        (why.contains("another server listens there"), status),
        (true, 1),
        "{why}"
    );
    kill(Pid::from_raw(server.child.id() as i32), Signal::SIGTERM).unwrap();
    common::waited("the socket goes", || !socket.exists());
}

#[test]
fn addresses_that_cannot_be_served_are_refused() {
    let room = room("addresses");
    let (journal, access) = (room.join("desk.db"), room.join("access"));
    fs::write(&access, ACCESS).unwrap();
    let (journal, access) = (journal.to_str().unwrap(), access.to_str().unwrap());
    let refused = |more: &[&str], expected: &str| {
        let all = [&["serve", POLICY, "--journal", journal], more].concat();
        let (_, why, status) = run(&all);
        assert_eq!(
            (why.contains(expected), status),
            (true, 2),
            "{more:?}: {why}"
        );
    };
    refused(&["--http", "127.0.0.1:0"], "add --account-header NAME");
    refused(
        &[
            "--http",
            "0.0.0.0:8080",
            "--account-header",
            "X-Account",
            "--access",
            access,
        ],
        "only this machine's own addresses",
    );
    refused(
        &[
            "--http",
            "[2001:db8::1]:80",
            "--account-header",
            "X-Account",
            "--access",
            access,
        ],
        "only this machine's own addresses",
    );
    refused(
        &["--http", "desk.http"],
        "an address as 127.0.0.1:8080 or unix:desk.http",
    );
    refused(
        &["--http", "127.0.0.1:0", "--account-header", "X-Account"],
        "add --access FILE",
    );
    refused(
        &[
            "--http",
            "127.0.0.1:0",
            "--account-header",
            "X Account",
            "--access",
            access,
        ],
        "the name of a header",
    );
    refused(
        &["--socket", "desk.sock", "--account-header", "X-Account"],
        "--http",
    );
    refused(&[], "--socket");
}

#[test]
fn what_cannot_be_read_is_told_where_it_is_wrong() {
    let room = room("wrong");
    let (_server, at) = served(&room, &[]);
    let sent = |body: &str| at.ask("anna", "POST", REQUESTS, Some(("application/json", body)));
    let deep = "[".repeat(100_000);
    let nested = format!(
        "{{\"id\": {}{}, \"request\": \"x\"}}",
        "[".repeat(300),
        "]".repeat(300)
    );
    for (body, detail) in [
        ("", "no JSON"),
        ("{\n\"request\": ", "no JSON"),
        (deep.as_str(), "recursion limit"),
        (nested.as_str(), "recursion limit"),
        ("{\"id\": 1e999, \"request\": \"x\"}", "number out of range"),
        ("{\"request\": \"\u{1}\"}", "no JSON"),
        ("\"claim\"", "expected an object"),
        ("[]", "expected an object"),
        ("{}", "expected an object"),
        ("{\"request\": 7}", "\"request\" is a text"),
        ("{\"record\": {}}", "\"record\" is a text"),
        ("{\"record\": \"3\"}", "32 hexadecimal digits"),
        ("{\"record\": \"zz\"}", "32 hexadecimal digits"),
        (
            "{\"request\": \"a\", \"record\": \"32\"}",
            "expected an object",
        ),
        (
            "{\"request\": \"end order 7\", \"requests\": []}",
            "beside \"requests\"",
        ),
        ("{\"requests\": {}}", "is a list"),
        ("{\"request\": \"end order 7\\nend order 8\"}", "one line"),
        ("{\"reqest\": \"end order 7\"}", "no \"reqest\""),
        ("{\"request\": \"\"}", "the request is empty"),
        (
            "{\"request\": \"end order 99999999999999999999\"}",
            "column 11",
        ),
    ] {
        let answer = sent(body);
        let told = answer.json();
        let short = body.chars().take(60).collect::<String>();
        assert_eq!(
            (answer.status, told["status"].clone()),
            (400, json!(400)),
            "{short}: {told}"
        );
        assert!(
            told["detail"].as_str().unwrap().contains(detail),
            "{short}: {told}"
        );
    }
    let told = sent("{\n \"request\": tru }").json();
    assert_eq!((&told["line"], &told["column"]), (&json!(2), &json!(16)));
    // Numbers as large as JSON writes them come back as they are.
    let id = sent("{\"request\": \"end order 7\", \"id\": 18446744073709551615}").json();
    assert_eq!(id["id"], json!(u64::MAX));
    let lines = at.ask(
        "anna",
        "POST",
        REQUESTS,
        Some(("text/plain; charset=utf-8", "end order 7")),
    );
    assert_eq!(lines.json()["replies"][0]["name"], "UNKNOWN");
    let mut raw = format!("POST {REQUESTS} HTTP/1.1\r\nHost: localhost\r\nX-Account: anna\r\nContent-Type: text/plain\r\nContent-Length: 13\r\n\r\nend \u{fc} \r\nclam").into_bytes();
    let at_umlaut = raw.len() - 9;
    raw[at_umlaut] = 0xff;
    let replies = at.raw(&raw, 1)[0].json()["replies"].clone();
    assert!(
        replies[0]["wrong"].as_str().unwrap().contains("UTF-8"),
        "{replies}"
    );
    for kind in ["", "text/html", "application/x-www-form-urlencoded"] {
        assert_eq!(
            at.ask("anna", "POST", REQUESTS, Some((kind, "{}"))).status,
            415,
            "{kind}"
        );
    }
    for (path, status) in [
        ("/v1/desks/nowhere/board", 404),
        ("/v1/desks/desk/orders/nix/finish", 404),
        ("/v1/desks/desk/orders/7/tasks/nix/who", 404),
        ("/v1/desks/desk/board?x=1", 400),
        ("/v1/desks/desk/board?%", 400),
        ("/v1/desks/%ff/board", 404),
        ("/v1", 404),
    ] {
        let answer = at.get("anna", path);
        assert_eq!(
            (answer.status, answer.header("content-type")),
            (status, Some("application/problem+json")),
            "{path}"
        );
    }
    let query = |path: &str| at.get("revision", path).status;
    for path in [
        "journal?last=x",
        "journal?user=nobody",
        "journal?reply=maybe",
        "journal?since=soon",
        "holds?from=repair",
        "holds?from=repair&to=nix",
        "holds?from=repair&to=test&by=moon",
        "holds?from=repair&to=test&by=shift",
        "holds?from=repair&to=test&zone=x",
        "holds?from=repair&to=test&panels=x",
    ] {
        assert_eq!(query(&format!("/v1/desks/desk/{path}")), 400, "{path}");
    }
}

#[test]
fn the_protocol_is_answered_as_it_should() {
    let room = room("protocol");
    let (_server, at) = served(&room, &["--http-connections", "6"]);
    // One answer of HTTP/1.0, after which the connection ends.
    let mut stream = BufReader::new(at.connect());
    stream
        .get_mut()
        .write_all(b"GET /healthz HTTP/1.0\r\n\r\n")
        .unwrap();
    assert_eq!(read(&mut stream, false).status, 200);
    assert_eq!(stream.read_line(&mut String::new()).unwrap(), 0);
    // Requests behind one another, answered in their order.
    let one = |line: &str| {
        format!("POST {REQUESTS} HTTP/1.1\r\nHost: localhost\r\nX-Account: router\r\nX-Request-ID: {line}\r\nContent-Type: text/plain\r\nContent-Length: {}\r\n\r\n{line}", line.len())
    };
    let raw = one("open order 7 of template breakdown") + &one("end order 7") + &one("end order 7");
    let names: Vec<String> = at
        .raw(raw.as_bytes(), 3)
        .iter()
        .map(|a| {
            format!(
                "{} {}",
                a.header("x-request-id").unwrap(),
                a.json()["replies"][0]["name"].as_str().unwrap()
            )
        })
        .collect();
    assert_eq!(
        names,
        [
            "open order 7 of template breakdown GRANTED",
            "end order 7 GRANTED",
            "end order 7 UNKNOWN"
        ]
    );
    // A body in chunks.
    let raw = format!("POST {REQUESTS} HTTP/1.1\r\nHost: localhost\r\nX-Account: router\r\nContent-Type: text/plain\r\nTransfer-Encoding: chunked\r\n\r\n4\r\nend \r\n7\r\norder 7\r\n0\r\n\r\n");
    assert_eq!(
        at.raw(raw.as_bytes(), 1)[0].json()["replies"][0]["name"],
        "UNKNOWN"
    );
    let head = at.ask("anna", "HEAD", "/v1/desks/desk/board", None);
    assert_eq!((head.status, head.body.len()), (200, 0));
    assert!(
        head.header("content-length")
            .unwrap()
            .parse::<usize>()
            .unwrap()
            > 100
    );
    let options = at.ask("anna", "OPTIONS", REQUESTS, None);
    assert_eq!(
        (options.status, options.header("allow")),
        (204, Some("POST, OPTIONS"))
    );
    for method in ["GET", "PUT", "DELETE", "PATCH", "BREW"] {
        let answer = at.ask("anna", method, REQUESTS, None);
        assert_eq!(
            (answer.status, answer.header("allow")),
            (405, Some("POST, OPTIONS")),
            "{method}"
        );
    }
    for (raw, status) in [
        ("nonsense\r\n\r\n".to_string(), 400),
        ("GET / HTTP/3.0\r\n\r\n".to_string(), 400),
        ("GET /healthz HTTP/1.1\r\nHost: localhost\r\nA b: c\r\n\r\n".to_string(), 400),
        (format!("POST {REQUESTS} HTTP/1.1\r\nHost: a\r\nContent-Length: 5\r\nContent-Length: 6\r\n\r\n12345"), 400),
        (format!("POST {REQUESTS} HTTP/1.1\r\nHost: a\r\nContent-Length: x\r\n\r\n"), 400),
        (format!("GET /healthz HTTP/1.1\r\nHost: localhost\r\nX: {}\r\n\r\n", "y".repeat(20_000)), 431),
        (format!("GET /{} HTTP/1.1\r\n\r\n", "y".repeat(20_000)), 414),
    ] {
        let answer = &at.raw(raw.as_bytes(), 1)[0];
        let short = raw.chars().take(60).collect::<String>();
        // A long target may be told as a long header.
        let fits = answer.status == status || (status == 414 && answer.status == 431);
        assert!(fits, "{short}: {}", answer.status);
    }
    // A body that is too large, told and untold.
    let raw = format!("POST {REQUESTS} HTTP/1.1\r\nHost: a\r\nX-Account: router\r\nContent-Type: text/plain\r\nContent-Length: 1048577\r\n\r\n");
    assert_eq!(at.raw(raw.as_bytes(), 1)[0].status, 413);
    let mut raw = format!("POST {REQUESTS} HTTP/1.1\r\nHost: a\r\nX-Account: router\r\nContent-Type: text/plain\r\nTransfer-Encoding: chunked\r\n\r\n");
    for _ in 0..17 {
        raw += &format!("10000\r\n{}\r\n", "#".repeat(65_536));
    }
    assert_eq!(at.raw(raw.as_bytes(), 1)[0].status, 413);
    let whole = "#".repeat(1_048_576);
    let full = at.ask("router", "POST", REQUESTS, Some(("text/plain", &whole)));
    assert_eq!(full.status, 200, "a body of exactly a megabyte");
}

#[test]
fn slow_and_silent_clients_delay_nobody() {
    let room = room("slow");
    let (_server, at) = served(&room, &["--http-connections", "4"]);
    let mut silent = at.connect();
    let mut half = at.connect();
    half.write_all(b"POST /v1/desks/desk/requests HTTP/1.1\r\nHost: a\r\nX-Acc")
        .unwrap();
    let mut body = at.connect();
    let raw = format!("POST {REQUESTS} HTTP/1.1\r\nHost: a\r\nX-Account: anna\r\nContent-Type: text/plain\r\nContent-Length: 11\r\n\r\nend");
    body.write_all(raw.as_bytes()).unwrap();
    assert_eq!(at.get("anna", "/v1/desks/desk/board").status, 200);
    // A fifth one is told that there is no room; when one goes there is. The fourth is asked for until it is answered: the server may
    // not have seen yet that the one before it has gone.
    let kept = loop {
        let mut one = BufReader::new(at.connect());
        let _ = one
            .get_mut()
            .write_all(b"GET /healthz HTTP/1.1\r\nHost: a\r\n\r\n");
        if read(&mut one, false).status == 200 {
            break one;
        }
    };
    let mut told = BufReader::new(at.connect());
    let answer = read(&mut told, false);
    assert_eq!(
        (answer.status, answer.header("retry-after")),
        (503, Some("1"))
    );
    drop(kept);
    body.write_all(b" order 7").unwrap();
    assert_eq!(
        read(&mut BufReader::new(body), false).json()["replies"][0]["name"],
        "UNKNOWN"
    );
    half.write_all(b"ount: anna\r\nContent-Type: text/plain\r\nContent-Length: 0\r\n\r\n")
        .unwrap();
    assert_eq!(read(&mut BufReader::new(half), false).status, 200);
    silent
        .write_all(b"GET /healthz HTTP/1.1\r\nHost: a\r\n\r\n")
        .unwrap();
    assert_eq!(read(&mut BufReader::new(silent), false).status, 200);
}

#[test]
fn the_board_and_what_is_asked_about_orders() {
    let room = room("board");
    let (_server, at) = served(&room, &[]);
    let said = at.lines("router", "create subject 1 am for user anna with roles fitter\ncreate subject 2 for user bert with roles tester\ncreate subject 3 for user clara with roles signer\nopen order 7 mill of template breakdown\nopen order 8 of template breakdown\nclaim am mill repair\ndone am mill repair\nclaim 2 mill test\nclaim 1 mill test\nclaim 2 8 test\n");
    assert_eq!(said.iter().filter(|r| r["reply"] == 0).count(), 8);
    let board = at.get("anna", "/v1/desks/desk/board").json();
    assert_eq!(
        (
            &board["last"],
            &board["complete"],
            board["orders"].as_array().unwrap().len()
        ),
        (&json!(10), &json!(true), 2)
    );
    let mill = &board["orders"][0];
    assert_eq!(
        (&mill["name"], &mill["template_name"], &mill["opening"]),
        (&json!("mill"), &json!("breakdown"), &json!(4))
    );
    let task = |at: usize| mill["tasks"][at].clone();
    assert_eq!(
        (&task(0)["state"], &task(0)["entries"][0]["user_name"]),
        (&json!("done"), &json!("anna"))
    );
    assert_eq!(
        (&task(1)["state"], &task(1)["entries"][0]["subject"]),
        (&json!("held"), &json!(2))
    );
    assert!(
        task(1)["entries"][0]["since"]
            .as_str()
            .unwrap()
            .starts_with("20"),
        "{}",
        task(1)
    );
    assert_eq!(
        (&task(2)["state"], &task(2)["may_claim"]),
        (&json!("free"), &json!([]))
    );
    let before = task(2)["refused"]
        .as_array()
        .unwrap()
        .iter()
        .find(|r| r["subjects"] == json!([3]))
        .unwrap()
        .clone();
    assert_eq!(
        (&before["name"], &before["rule"]),
        (&json!("BEFORE"), &json!(2))
    );
    assert!(before["rule_words"]
        .as_str()
        .unwrap()
        .starts_with("task test before task sign"));
    assert_eq!(board["you"]["users"][0]["name"], "anna");
    assert_eq!(
        board["refusals"].as_array().unwrap().len(),
        1,
        "anna sees her own: {}",
        board["refusals"]
    );
    let all = at.get("revision", "/v1/desks/desk/board").json()["refusals"].clone();
    assert_eq!(
        (all.as_array().unwrap().len(), &all[0]["request"]),
        (2, &json!("claim 2 8 test"))
    );
    let who = at
        .get("anna", "/v1/desks/desk/orders/8/tasks/repair/who")
        .json();
    assert_eq!(
        (
            &who["who"][0]["who"],
            who["others"].as_array().unwrap().len()
        ),
        (&json!("am of anna"), 2)
    );
    assert!(
        who["others"][0]["because"][0]
            .as_str()
            .unwrap()
            .contains("repair is open to: fitter"),
        "{who}"
    );
    let finish = at.get("anna", "/v1/desks/desk/orders/mill/finish").json();
    assert_eq!(
        (&finish["finish"], &finish["order_name"]),
        (&json!("no"), &json!("mill"))
    );
    let with = at
        .get(
            "anna",
            "/v1/desks/desk/orders/mill/finish?with=anna,bert,clara,fritz,hans",
        )
        .json();
    assert_eq!(with["finish"], "yes", "{with}");
    assert_eq!(
        at.get("anna", "/v1/desks/desk/finish").json()["orders"]
            .as_array()
            .unwrap()
            .len(),
        2
    );
    assert_eq!(
        at.get("anna", "/v1/desks/desk/finish?with=nobody").status,
        400
    );
    // The journal and the holds, for those who may read.
    let journal = at.get(
        "revision",
        "/v1/desks/desk/journal?order=mill&reply=refused",
    );
    assert_eq!(
        (
            journal.header("content-type"),
            journal.text().lines().count()
        ),
        (Some("application/x-ndjson"), 1)
    );
    let barred = at.get("revision", "/v1/desks/desk/journal?barred=1");
    assert_eq!(barred.status, 200);
    let holds = "/v1/desks/desk/holds?from=repair&to=test&by=opening";
    let raw = |accept: &str| {
        let raw = format!(
            "GET {holds} HTTP/1.1\r\nHost: a\r\nX-Account: revision\r\nAccept: {accept}\r\n\r\n"
        );
        at.raw(raw.as_bytes(), 1).remove(0)
    };
    assert!(
        raw("text/csv").text().starts_with("opening,"),
        "{}",
        raw("text/csv").text()
    );
    assert!(raw("text/html, image/svg+xml, */*;q=0.8")
        .text()
        .starts_with("<svg"));
    assert!(raw("*/*").json()["holds"].is_array() || raw("*/*").json().is_object());
    assert_eq!(raw("audio/ogg").status, 406);
    // A large journal comes in parts.
    let many = "end order 9\n".repeat(3000);
    at.lines("router", &many);
    let all = at.get("revision", "/v1/desks/desk/journal");
    assert_eq!(
        (all.header("transfer-encoding"), all.text().lines().count()),
        (Some("chunked"), 3010)
    );
}

#[test]
fn health_figures_and_the_end() {
    let room = room("health");
    let (mut server, at) = served(&room, &[]);
    at.lines(
        "anna",
        "open order 7 of template breakdown\nopen order 7 of template breakdown\nadd user 9\n",
    );
    assert_eq!(
        at.get("", "/healthz").json(),
        json!({"status": "ok", "desks": {"desk": {"state": "serving", "last": 2}}})
    );
    assert_eq!(at.get("", "/readyz").json()["status"], "ready");
    let metrics = at.get("", "/metrics");
    assert_eq!(
        metrics.header("content-type"),
        Some("text/plain; version=0.0.4; charset=utf-8")
    );
    let has = |line: &str| {
        assert!(
            metrics.text().lines().any(|l| l == line),
            "{line}: {}",
            metrics.text()
        )
    };
    has("mishantral_requests_total{desk=\"desk\",kind=\"open_order\",reply=\"GRANTED\"} 1");
    has("mishantral_requests_total{desk=\"desk\",kind=\"open_order\",reply=\"TAKEN\"} 1");
    has("mishantral_barred_total{desk=\"desk\"} 1");
    has("mishantral_http_responses_total{method=\"POST\",route=\"/v1/desks/{desk}/requests\",status=\"200\"} 1");
    // The example of a dashboard asks for figures that there are.
    for file in ["dashboard.json", "alerts.yml"] {
        let asked = fs::read_to_string(common::root().join("examples/monitor").join(file)).unwrap();
        let names: Vec<&str> = asked
            .split(|c: char| !(c.is_ascii_alphanumeric() || c == '_'))
            .filter(|word| word.starts_with("mishantral_"))
            .collect();
        assert!(names.len() >= 3, "{file}");
        for name in names {
            let there = |line: &str| {
                line.starts_with(&format!("{name}{{")) || line.starts_with(&format!("{name} "))
            };
            assert!(metrics.text().lines().any(there), "{file}: {name}");
        }
    }
    // News as they come, and that the server ends.
    let mut events = BufReader::new(at.connect());
    events
        .get_mut()
        .write_all(b"GET /v1/desks/desk/events HTTP/1.1\r\nHost: a\r\nX-Account: anna\r\n\r\n")
        .unwrap();
    let mut until = |wanted: &str| {
        let mut line = String::new();
        while !line.contains(wanted) {
            line.clear();
            assert_ne!(events.read_line(&mut line).unwrap(), 0, "{wanted}");
        }
    };
    until("text/event-stream");
    until("data: {\"last\":2}");
    at.lines("anna", "end order 7\n");
    until("data: {\"last\":3}");
    kill(Pid::from_raw(server.child.id() as i32), Signal::SIGTERM).unwrap();
    until("event: ended");
    assert_eq!(server.child.wait().unwrap().code(), Some(0));
}

#[test]
fn facts_are_told_a_line_each() {
    let room = room("log");
    let told = room.join("told");
    let (access, journal) = (room.join("access"), room.join("desk.db"));
    fs::write(&access, ACCESS).unwrap();
    let mut all = vec!["serve", POLICY, "--journal", journal.to_str().unwrap()];
    all.extend(["--access", access.to_str().unwrap()]);
    all.extend(["--http", "127.0.0.1:0", "--account-header", "X-Account"]);
    all.extend(["--log", "json", "--log-level", "debug"]);
    let mut command = mishantral(&all);
    command.stderr(fs::File::create(&told).unwrap());
    let mut server = Server::started(&mut command, journal);
    let at = at(&server);
    at.lines("anna", "add user 9\n");
    assert_eq!(at.get("anna", "/nowhere").status, 404);
    kill(Pid::from_raw(server.child.id() as i32), Signal::SIGTERM).unwrap();
    server.child.wait().unwrap();
    let text = fs::read_to_string(&told).unwrap();
    let facts: Vec<serde_json::Value> = text
        .lines()
        .map(|line| serde_json::from_str(line).unwrap())
        .collect();
    let of = |event: &str| {
        facts
            .iter()
            .find(|fact| fact["event"] == event)
            .unwrap_or_else(|| panic!("{event}: {text}"))
    };
    assert_eq!(
        (&of("barred")["account"], &of("barred")["level"]),
        (&json!("anna"), &json!("info"))
    );
    assert_eq!(of("desk")["last"], 0);
    let http = facts
        .iter()
        .find(|fact| fact["path"] == "/nowhere")
        .unwrap();
    assert_eq!(
        (&http["status"], &http["method"]),
        (&json!(404), &json!("GET"))
    );
    assert_eq!(of("ended")["status"], 0);
}

/// Requests with bytes changed, cut, doubled and put in: each is answered or left, and the desk goes on.
#[test]
fn garbage_harms_nobody() {
    let rounds: u64 =
        std::env::var("MISHANTRAL_ROUNDS").map_or(1500, |rounds| rounds.parse().unwrap());
    let room = room("garbage");
    let (_server, at) = served(&room, &["--question-seconds", "1"]);
    let body = "{\"requests\": [\"open order mill of template breakdown\", {\"record\": \"3200000000000000\", \"id\": 7}]}";
    let seeds = [
        format!("POST {REQUESTS}?why=1 HTTP/1.1\r\nHost: localhost\r\nX-Account: router\r\nContent-Type: application/json\r\nContent-Length: {}\r\n\r\n{body}", body.len()),
        format!("POST {REQUESTS} HTTP/1.1\r\nHost: localhost\r\nX-Account: anna\r\nContent-Type: text/plain\r\nTransfer-Encoding: chunked\r\n\r\n5\r\nend o\r\n6\r\nrder 7\r\n0\r\n\r\n"),
        "GET /v1/desks/desk/journal?order=mill&last=3 HTTP/1.1\r\nHost: localhost\r\nX-Account: revision\r\nAccept: text/csv;q=0.5, */*\r\n\r\n".to_string(),
        "GET /v1/desks/desk/orders/mill%207/tasks/sign/who HTTP/1.1\r\nHost: localhost\r\nX-Account: anna\r\n\r\n".to_string(),
    ];
    let mut seed = 7u64;
    let mut below = |end: usize| {
        seed = seed
            .wrapping_mul(6364136223846793005)
            .wrapping_add(1442695040888963407);
        (seed >> 33) as usize % end.max(1)
    };
    for round in 0..rounds {
        let mut bytes = seeds[below(seeds.len())].clone().into_bytes();
        for _ in 0..1 + below(6) {
            let at = below(bytes.len());
            match below(5) {
                0 => bytes[at] = below(256) as u8,
                1 => bytes.truncate(at),
                2 => bytes.insert(at, b"\r\n %/?&=:{}[]\"\\0\xff"[below(17)]),
                3 => drop(bytes.remove(at.min(bytes.len().saturating_sub(1)))),
                _ => bytes.extend_from_within(at..),
            }
            if bytes.is_empty() {
                bytes.push(b'\n');
            }
        }
        let At::Tcp(address) = &at else {
            unreachable!()
        };
        let mut stream = std::net::TcpStream::connect(address).unwrap();
        let _ = stream.write_all(&bytes);
        let _ = stream.shutdown(std::net::Shutdown::Write);
        let mut answer = Vec::new();
        let _ = std::io::Read::read_to_end(&mut stream, &mut answer);
        assert!(
            answer.is_empty() || answer.starts_with(b"HTTP/1."),
            "{bytes:?}"
        );
        if round % 250 == 0 {
            assert_eq!(at.get("", "/healthz").status, 200);
        }
    }
    assert_eq!(at.get("anna", "/v1/desks/desk/board").status, 200);
}
