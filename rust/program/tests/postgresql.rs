//! A journal in PostgreSQL: who has a desk, takeovers, commits in doubt, and what is refused. Where there is no server (tools/postgresql),
//! nothing of this is tried, and that is said.

mod common;

use common::{database, mishantral, room, run, waited, Place, Server, POLICY};
use std::io::{BufRead, BufReader, Read, Write};
use std::os::unix::net::{UnixListener, UnixStream};
use std::path::{Path, PathBuf};
use std::process::{Command, Stdio};
use std::sync::atomic::{AtomicU8, Ordering};
use std::sync::Arc;
use std::time::{Duration, Instant};

/// A desk of its own in the database, if there is one.
fn place(name: &str) -> Option<Place> {
    let Some(journal) = database() else {
        eprintln!("{name}: not tried, since there is no PostgreSQL");
        return None;
    };
    Some(Place {
        journal,
        desk: Some(format!("{name}-{}", std::process::id())),
        room: room(name),
    })
}

fn signal(server: &Server, signal: &str) {
    let id = server.child.id().to_string();
    let done = Command::new("kill").args([signal, &id]).status();
    assert!(done.unwrap().success());
}

/// A server that says why it does not start.
fn refused(place: &Place, more: &[&str]) -> (String, i32) {
    let socket = place.room.join("refused.sock");
    let serve = ["serve", "--socket", socket.to_str().unwrap()];
    let (_, why, status) = run(&[&serve[..], &place.options(), more].concat());
    (why, status)
}

/// The same with its standard error kept.
fn started(place: &Place, socket: &str, more: &[&str]) -> Server {
    let socket = place.room.join(socket);
    let serve = ["serve", "--socket", socket.to_str().unwrap()];
    let mut command = mishantral(&[&serve[..], &place.options(), more].concat());
    Server::started(command.stderr(Stdio::piped()), socket)
}

/// What it told on standard error, after its end.
fn told(server: &mut Server) -> (String, Option<i32>) {
    waited("its end", || server.child.try_wait().unwrap().is_some());
    let mut told = String::new();
    let mut from = server.child.stderr.take().unwrap();
    from.read_to_string(&mut told).unwrap();
    (told, server.child.wait().unwrap().code())
}

const OPEN: &str = "open order of template breakdown\n";

#[test]
fn a_desk_has_one_server_and_the_next_one_need_not_wait() {
    let Some(place) = place("one") else {
        return;
    };
    let mut server = place.start(&[POLICY]);
    server.lines(OPEN);
    let (why, status) = refused(&place, &[]);
    assert!(
        why.contains("another server has it: ") && why.contains("--standby"),
        "{why}"
    );
    assert_eq!(status, 1);
    // An end that was asked for: a snapshot is taken, and the next one has it at once.
    signal(&server, "-TERM");
    waited("its end", || server.child.try_wait().unwrap().is_some());
    let began = Instant::now();
    let server = place.start(&["--takeover", "60"]);
    assert!(server.told[0].ends_with(": 1 requests, 0 of them asked anew, all answered as before"));
    server.lines(OPEN);
    // A server that was killed: its session is gone, and that is enough.
    drop(server);
    let server = place.start(&["--takeover", "60"]);
    assert!(server.told[0].contains(": 2 requests, 1 of them"));
    assert!(began.elapsed() < Duration::from_secs(50));
    assert_eq!(server.lines(OPEN), ["3 0 GRANTED, order 2"]);
    drop(server);
    place.checked("3 requests");
    // Another policy, a desk that is not there, and no desk at all.
    let (why, status) = refused(&place, &["examples/listing/policy.txt"]);
    assert_eq!(
        (why.contains("it is of another policy"), status),
        (true, 1),
        "{why}"
    );
    let (_, why, status) = run(&["journal", &place.journal, "--desk", "nowhere"]);
    assert_eq!(
        (why.contains("there is no desk nowhere here"), status),
        (true, 2),
        "{why}"
    );
    let (_, why, status) = run(&["journal", &place.journal]);
    assert_eq!((why.contains("--desk NAME"), status), (true, 2), "{why}");
}

#[test]
fn a_standby_takes_over_and_the_old_server_writes_nothing() {
    let Some(place) = place("standby") else {
        return;
    };
    let takeover = ["--takeover", "1"];
    let mut first = started(&place, "a.sock", &[&[POLICY], &takeover[..]].concat());
    first.lines("key=1 open order mill of template breakdown\n");
    let second = started(&place, "b.sock", &[&["--standby"], &takeover[..]].concat());
    let desk = place.desk.clone().unwrap();
    let by = |socket: &str| place.room.join(socket).display().to_string();
    assert!(
        second.told[0].contains("standing by; it is served by "),
        "{:?}",
        second.told
    );
    // Whoever reaches the wrong one is told where the desk is.
    let said = second.lines("lines\nend order mill\n");
    assert!(
        said[0].starts_with(&format!("wrong: desk {desk} is served by "))
            && said[0].ends_with(&by("a.sock")),
        "{said:?}"
    );
    // A client that is there when its server is stopped, and asks when it goes on.
    let mut client = UnixStream::connect(&first.socket).unwrap();
    client.write_all(b"lines\n").unwrap();
    let mut replies = BufReader::new(client.try_clone().unwrap()).lines();
    assert_eq!(replies.next().unwrap().unwrap(), "lines");
    signal(&first, "-STOP");
    let began = Instant::now();
    waited("a takeover", || {
        let said = second.lines("lines\nkey=2 open order yard of template breakdown\n");
        said.last().unwrap() == "2 0 GRANTED, order 1"
    });
    eprintln!("taken over in {:.2} s", began.elapsed().as_secs_f64());
    // What the old server had answered is known to the new one.
    assert_eq!(
        second.lines("key=1 open order mill of template breakdown\n"),
        ["1 0 GRANTED, order 0"]
    );
    let _ = client.write_all(b"end order mill\n");
    signal(&first, "-CONT");
    let replied = replies.next().and_then(Result::ok).unwrap_or_default();
    assert!(!replied.contains("GRANTED"), "{replied}");
    let (why, status) = told(&mut first);
    assert!(
        why.contains(&format!("desk {desk} is served by "))
            && why.contains("writes nothing any more"),
        "{why}"
    );
    assert_eq!(status, Some(1));
    assert_eq!(second.lines("end order mill\n"), ["3 0 GRANTED"]);
    drop(second);
    place.checked("3 requests");
    assert_eq!(place.listed(&[]).len(), 3);
}

#[test]
fn ask_finds_the_server_that_has_the_desk() {
    let Some(place) = place("finds") else {
        return;
    };
    let first = place.start_at("a.sock", &[POLICY, "--takeover", "1"]);
    let second = place.start_at("b.sock", &["--standby", "--takeover", "1"]);
    let sockets = [&first.socket, &second.socket].map(|s| s.to_str().unwrap().to_string());
    // The standby first: it is asked, and says.
    let mut command = mishantral(&["ask", "--socket", &sockets[1], "--socket", &sockets[0]]);
    let mut ask = command
        .args(["--retry", "120"])
        .stdin(Stdio::piped())
        .stdout(Stdio::piped())
        .spawn()
        .unwrap();
    let mut to = ask.stdin.take().unwrap();
    let mut replies = BufReader::new(ask.stdout.take().unwrap()).lines();
    writeln!(to, "open order mill of template breakdown").unwrap();
    assert_eq!(replies.next().unwrap().unwrap(), "1 0 GRANTED, order 0");
    drop(first);
    writeln!(to, "end order mill").unwrap();
    assert_eq!(replies.next().unwrap().unwrap(), "2 0 GRANTED");
    drop(to);
    assert!(ask.wait().unwrap().success());
    drop(second);
    place.checked("2 requests");
}

/// A proxy before the database, which cuts a connection when it is armed: 1 before a message, 2 after it, 3 before its answer.
fn proxy(place: &Place) -> (String, Arc<AtomicU8>) {
    let base = place.journal.split_once("host=").unwrap().1;
    let base = Path::new(base).join(".s.PGSQL.5432");
    let folder = place.room.join("proxy");
    std::fs::create_dir_all(&folder).unwrap();
    let listener = UnixListener::bind(folder.join(".s.PGSQL.5432")).unwrap();
    let armed = Arc::new(AtomicU8::new(0));
    let arm = armed.clone();
    std::thread::spawn(move || {
        for client in listener.incoming().flatten() {
            passed(client, &base, arm.clone());
        }
    });
    let address = format!("postgresql://postgres@/postgres?host={}", folder.display());
    (address, armed)
}

fn passed(client: UnixStream, base: &PathBuf, armed: Arc<AtomicU8>) {
    let Ok(base) = UnixStream::connect(base) else {
        return;
    };
    let (mut from, mut to) = (client.try_clone().unwrap(), base.try_clone().unwrap());
    let (mut base, mut client) = (base, client);
    let loses = Arc::new(AtomicU8::new(0));
    let losing = loses.clone();
    std::thread::spawn(move || {
        let mut room = vec![0; 1 << 20];
        while let Ok(count @ 1..) = from.read(&mut room) {
            let cut = armed.swap(0, Ordering::SeqCst);
            losing.store(u8::from(cut == 3), Ordering::SeqCst);
            if cut == 1 || to.write_all(&room[..count]).is_err() || cut == 2 {
                break;
            }
        }
        let _ = from.shutdown(std::net::Shutdown::Both);
        let _ = to.shutdown(std::net::Shutdown::Both);
    });
    std::thread::spawn(move || {
        let mut room = vec![0; 1 << 20];
        while let Ok(count @ 1..) = base.read(&mut room) {
            let lost = loses.load(Ordering::SeqCst) == 1;
            if lost || client.write_all(&room[..count]).is_err() {
                break;
            }
        }
        let _ = base.shutdown(std::net::Shutdown::Both);
        let _ = client.shutdown(std::net::Shutdown::Both);
    });
}

#[test]
fn a_commit_in_doubt_is_settled_before_anybody_is_answered() {
    let Some(mut place) = place("doubt") else {
        return;
    };
    let direct = place.journal.clone();
    let (address, armed) = proxy(&place);
    place.journal = address;
    let server = place.start(&[POLICY]);
    for (turn, cut) in [1, 2, 3, 1, 2, 3, 3].into_iter().enumerate() {
        armed.store(cut, Ordering::SeqCst);
        let number = 2 * turn + 1;
        assert_eq!(
            server.lines("open order 7 mill of template breakdown\n"),
            [format!("{number} 0 GRANTED")],
            "cut {cut}"
        );
        assert_eq!(
            server.lines("end order mill\n"),
            [format!("{} 0 GRANTED", number + 1)]
        );
    }
    drop(server);
    place.journal = direct;
    place.checked("14 requests");
    assert_eq!(place.listed(&[]).len(), 14);
}

/// A host that takes connections and says nothing, as a stopped machine does, is passed over for the next one of the address.
#[test]
fn a_host_that_says_nothing_is_passed_over() {
    let Some(mut place) = place("silent") else {
        return;
    };
    drop(place.start(&[POLICY]));
    let silent = place.room.join("silent");
    std::fs::create_dir_all(&silent).unwrap();
    let _listener = UnixListener::bind(silent.join(".s.PGSQL.5432")).unwrap();
    let hosts = format!("host={},", silent.display());
    place.journal = place.journal.replace("host=", &hosts) + "&connect_timeout=1";
    let server = place.start(&[]);
    assert_eq!(server.lines(OPEN), ["1 0 GRANTED, order 0"]);
    drop(server);
    place.checked("1 requests");
}

#[test]
fn what_cannot_be_had_is_refused_with_a_remedy() {
    let Some(place) = place("refused") else {
        return;
    };
    let (why, status) = refused(&place, &[POLICY, "--saved", "replicated"]);
    assert_eq!(
        (why.contains("set synchronous_standby_names"), status),
        (true, 1),
        "{why}"
    );
    drop(place.start(&[POLICY]));
    // A row that was changed, a policy that was changed, and one that is gone.
    let desk = place.desk.clone().unwrap();
    let server = place.start(&[]);
    server.lines(
        "open order 7 of template breakdown\nend order 7\nopen order 8 of template breakdown\n",
    );
    drop(server);
    place.checked("3 requests");
    let change = |sql: &str| place.psql(&sql.replace("DESK", &format!("'{desk}'")));
    change("UPDATE mishantral.request SET account = 'nobody' WHERE desk = DESK AND number = 2");
    let (_, why, status) = place.journal(&["--check"]);
    assert_eq!(
        (why.contains("request 2 does not have its checksum"), status),
        (true, 1),
        "{why}"
    );
    let (why, status) = refused(&place, &[]);
    assert_eq!(
        (why.contains("request 2 does not have its checksum"), status),
        (true, 1),
        "{why}"
    );
    let whoami = common::whoami();
    change(&format!(
        "UPDATE mishantral.request SET account = '{whoami}' WHERE desk = DESK AND number = 2"
    ));
    place.checked("3 requests");
    change("DELETE FROM mishantral.request WHERE desk = DESK AND number = 3");
    let (why, status) = refused(&place, &[]);
    assert_eq!((why.contains("it was cut"), status), (true, 1), "{why}");
    change("UPDATE mishantral.policy SET a = a + 1 WHERE desk = DESK AND place = 1");
    let (why, status) = refused(&place, &[]);
    assert_eq!(
        (
            why.contains("its policy does not have its checksum"),
            status
        ),
        (true, 1),
        "{why}"
    );
    // A database that is not there.
    let (_, why, status) = run(&[
        "journal",
        "postgresql:///db?host=/nowhere",
        "--desk",
        "mill",
    ]);
    assert_eq!(
        (why.contains("it cannot be opened"), status),
        (true, 2),
        "{why}"
    );
}

#[test]
fn desks_of_one_database_are_apart_and_shared_by_servers() {
    let Some(place) = place("shared") else {
        return;
    };
    let mine = |name: &str| format!("{name}-{}", std::process::id());
    let (mill, yard) = (mine("mill"), mine("yard"));
    let serve = |socket: &str, more: &[&str]| {
        let socket = place.room.join(socket);
        let mut command = mishantral(&["serve", "--journal", &place.journal, "--socket"]);
        command.arg(&socket).args(more);
        Server::started(&mut command, socket)
    };
    let first = serve("a.sock", &[POLICY, "--desk", &mill, "--takeover", "1"]);
    let both = [
        "--desk",
        &mill,
        "--desk",
        &yard,
        "--standby",
        "--takeover",
        "1",
    ];
    let second = serve("b.sock", &[&[POLICY], &both[..]].concat());
    let say = |server: &Server, desk: &str, line: &str| {
        let said = server.lines(&format!("desk {desk}\nlines\n{line}\n"));
        said.last().unwrap().clone()
    };
    assert_eq!(
        say(&first, &mill, "open order 1 of template breakdown"),
        "1 0 GRANTED"
    );
    assert_eq!(
        say(&second, &yard, "open order 2 of template breakdown"),
        "1 0 GRANTED"
    );
    let elsewhere = say(&second, &mill, "end order 1");
    assert!(
        elsewhere.contains("is served by ") && elsewhere.ends_with("a.sock"),
        "{elsewhere}"
    );
    drop(first);
    waited("a takeover", || {
        say(&second, &mill, "end order 1") == "2 0 GRANTED"
    });
    assert_eq!(say(&second, &yard, "end order 2"), "2 0 GRANTED");
}

#[test]
fn servers_share_the_desks_by_their_numbers() {
    let Some(place) = place("shares") else {
        return;
    };
    let id = std::process::id();
    let desks: Vec<String> = (0..4).map(|n| format!("share{n}-{id}")).collect();
    let serve = |socket: &str, more: &[&str]| {
        let socket = place.room.join(socket);
        let mut command = mishantral(&["serve", POLICY, "--journal", &place.journal, "--socket"]);
        command.arg(&socket).args(more).args(["--takeover", "4"]);
        for desk in &desks {
            command.args(["--desk", desk]);
        }
        Server::started(&mut command, socket)
    };
    let say = |server: &Server, desk: &str, line: &str| {
        let said = server.lines(&format!("desk {desk}\nlines\n{line}\n"));
        said.last().unwrap().clone()
    };
    // The first one makes the desks. Two stand by, and when it is gone each takes those that are its own.
    let all = serve("all.sock", &[]);
    let first = serve("a.sock", &["--standby", "--share", "1/2"]);
    let second = serve("b.sock", &["--standby", "--share", "2/2"]);
    drop(all);
    let here = |server: &Server| {
        let is = |desk: &&String| say(server, desk, "end order 1").contains("UNKNOWN");
        desks.iter().filter(is).count()
    };
    // Other tests begin desks meanwhile, so that these need not have numbers in a row.
    let odd = format!(
        "SELECT count(*) FROM mishantral.writer WHERE desk LIKE 'share_-{id}' AND number % 2 = 1"
    );
    let odd: usize = place.psql(&odd).parse().unwrap();
    waited("shares", || (here(&first), here(&second)) == (odd, 4 - odd));
    drop(first);
    waited("a takeover", || here(&second) == 4);
    let socket = place.room.join("c.sock");
    let wrong = [
        "serve",
        "--share",
        "3/2",
        "--standby",
        "--socket",
        socket.to_str().unwrap(),
    ];
    let (_, why, status) = run(&[&wrong[..], &place.options()].concat());
    assert_eq!((why.contains("as 1/2"), status), (true, 2), "{why}");
}
