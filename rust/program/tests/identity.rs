//! Who asks, by the system's word, and what that account may ask: driven with real accounts of the system where root runs this, and with
//! the account that runs it everywhere.

mod common;

use common::{mishantral, room, Server};
use rusqlite::Connection;
use std::fs;
use std::os::unix::fs::PermissionsExt;
use std::path::{Path, PathBuf};
use std::process::Command;

fn whoami() -> String {
    let name = Command::new("id").arg("-un").output().unwrap().stdout;
    String::from_utf8(name).unwrap().trim().to_string()
}

/// A policy whose clerks have these names.
fn policy(room: &Path, clerks: &[&str]) -> PathBuf {
    let mut text = "role 0 fitter\nrole 1 signer\n".to_string();
    for (at, clerk) in clerks.iter().enumerate() {
        text += &format!("user {} {clerk}\nuser {clerk} has role fitter\n", 300 + at);
    }
    text += "task 0 repair of template 0 breakdown\ntask 1 sign of template breakdown\n";
    text += "task repair open to role fitter\ntask sign open to role fitter\n";
    text += "task set 1 of repair sign\n";
    let file = room.join("policy.txt");
    fs::write(&file, text).unwrap();
    file
}

/// A server with this access file.
fn served(room: &Path, clerks: &[&str], access: &str, more: &[&str]) -> Server {
    let (file, policy) = (room.join("access.txt"), policy(room, clerks));
    fs::write(&file, access).unwrap();
    let mut all = vec![policy.to_str().unwrap(), "--access", file.to_str().unwrap()];
    all.extend(more);
    Server::start(room, &all)
}

/// Rows of the journal's tables, by SQL.
fn rows(room: &Path, select: &str) -> Vec<String> {
    let sql = Connection::open(room.join("desk.db")).unwrap();
    let mut select = sql.prepare(select).unwrap();
    let rows = select.query_map([], |r| r.get(0)).unwrap();
    rows.map(Result::unwrap).collect()
}

/// The account that runs this is the clerk anna, in each form.
#[test]
fn a_clerk_acts_for_itself_alone() {
    let (room, me) = (room("clerk"), whoami());
    let server = served(
        &room,
        &["anna", "bert"],
        &format!("account {me} is user anna\n"),
        &[],
    );
    let said = server.lines(
        "create subject 1 for user anna with roles fitter\ncreate subject 2 for user bert with roles fitter\nopen order mill of template breakdown\nclaim 1 mill repair\nadd user 400 zoe\nassign role signer to user anna\n{\"request\": \"delete user bert\", \"id\": 7}\njournal\nwho mill sign\nclaim 9 mill sign\nas bert\n",
    );
    assert_eq!(said[0], "1 0 GRANTED");
    assert_eq!(said[1], format!("barred: {me} may not act for bert"));
    assert_eq!(said[2..4], ["2 0 GRANTED, order 0", "3 0 GRANTED"]);
    assert_eq!(
        said[4],
        format!("barred: {me} does not administer: add user 400")
    );
    assert_eq!(
        said[5],
        format!("barred: {me} does not administer: assign role signer to user anna")
    );
    assert_eq!(
        said[6],
        format!("{{\"barred\":\"{me} does not administer: delete user bert\",\"id\":7}}")
    );
    assert_eq!(said[7], format!("barred: {me} may not read the journal"));
    assert!(said[8].starts_with("nobody who is signed in"), "{said:?}");
    // A subject that is not live is nobody's: the engine says so.
    assert_eq!(said[9], "4 4 UNKNOWN");
    assert!(said[10].starts_with("wrong: line 11"), "{said:?}");
    // A record of another's subject: it is not done, and byte 1 says why.
    let barred = server.ask(&[40, 0, 2, 0, 45, 1, 0, 0, 1, 0, 0, 0, 0, 0, 0, 0]);
    assert_eq!(
        (barred.len(), barred[0], barred[1], barred[8]),
        (16, 0xff, 2, 0)
    );
    assert_eq!(
        server.lines("as bert\n"),
        [format!("barred: {me} may not speak for bert")]
    );
    drop(server);
    let kept = rows(
        &room,
        "SELECT account || '|' || asked FROM barred ORDER BY id",
    );
    let asked = [
        "create subject 2 for user bert with roles fitter",
        "add user 400",
        "assign role signer to user anna",
        "delete user bert",
        "journal",
        "create subject 2 for user bert with roles fitter",
        "as bert",
    ];
    let expected: Vec<String> = asked.iter().map(|asked| format!("{me}|{asked}")).collect();
    assert_eq!(kept, expected);
    let records = rows(
        &room,
        "SELECT hex(record) FROM barred WHERE record IS NOT NULL ORDER BY id LIMIT 1",
    );
    assert_eq!(records, ["280002002D0100000100000000000000"]);
}

#[test]
fn readers_and_administrators_do_what_is_theirs() {
    let (room, me) = (room("reader"), whoami());
    let server = served(&room, &["anna"], &format!("account {me} reads\n"), &[]);
    let said = server.lines("open order 7 of template breakdown\nstuck tasks of template breakdown\nadd user 9\ncheck 1 operation 0 object 0\nfinish all\njournal barred\n");
    assert!(said[0].starts_with("barred: "), "{said:?}");
    assert!(said[1].starts_with("1 0 GRANTED, stuck none"), "{said:?}");
    assert!(said[2].starts_with("barred: ") && said[3].starts_with("barred: "));
    assert!(said[4].contains("0 open orders"), "{said:?}");
    assert_eq!(said.last().unwrap(), "3 rows of the journal");
    drop(server);
    fs::write(
        room.join("access.txt"),
        format!("account {me} administers\n"),
    )
    .unwrap();
    let access = room.join("access.txt");
    let server = Server::start(&room, &["--access", access.to_str().unwrap()]);
    let said = server.lines("add user 9 zoe with roles fitter\nassign role signer to user anna\nopen order 7 of template breakdown\ncreate subject 1 for user zoe with roles none\njournal\n");
    assert_eq!(said[..2], ["2 0 GRANTED", "3 0 GRANTED"]);
    assert!(
        said[2..].iter().all(|line| line.starts_with("barred: ")),
        "{said:?}"
    );
}

#[test]
fn a_gateway_speaks_for_its_clients() {
    let (room, me) = (room("gateway"), whoami());
    let access = format!("account {me} speaks for everyone\naccount anna is user anna\n");
    let server = served(&room, &["anna", "bert"], &access, &[]);
    let said = server.lines("as anna\ncreate subject 1 for user anna with roles fitter\ncreate subject 2 for user bert with roles fitter\n");
    assert_eq!(said[..2], ["as anna", "1 0 GRANTED"]);
    assert_eq!(said[2], "barred: anna may not act for bert");
    assert_eq!(
        server.lines("as mallory\nopen order 7 of template breakdown\n"),
        ["as mallory", "barred: mallory has no authority here"]
    );
    assert_eq!(
        server.lines("as anna\nas bert\n")[1],
        "wrong: it was said already: anna is here"
    );
    // Without the line it speaks for itself, and may ask everything.
    assert_eq!(
        server.lines("create subject 2 for user bert with roles fitter\nadd user 9\n"),
        ["2 0 GRANTED", "3 0 GRANTED"]
    );
    let socket = server.socket.to_str().unwrap();
    let ask = |more: &[&str]| common::run(&[&["ask", "--socket", socket], more].concat());
    let (said, _, status) = ask(&["--as", "anna", "claim 2 7 repair"]);
    assert_eq!(
        (said.as_str(), status),
        ("barred: anna may not act for subject 2 of bert\n", 2)
    );
    let (said, why, status) = ask(&["--as", "mallory", "claim 2 7 repair"]);
    let told = said + &why;
    assert_eq!((told.contains("no authority"), status), (true, 2), "{told}");
    drop(server);
    let who = rows(
        &room,
        "SELECT account || ' via ' || coalesce(via, '-') FROM request",
    );
    assert_eq!(
        who,
        [
            format!("anna via {me}"),
            format!("{me} via -"),
            format!("{me} via -")
        ]
    );
}

/// Accounts and a group of the system, which go when this goes.
struct Accounts {
    names: Vec<String>,
    group: String,
}

fn done(program: &str, arguments: &[&str]) -> bool {
    let done = Command::new(program).args(arguments).output();
    done.is_ok_and(|done| done.status.success())
}

impl Accounts {
    /// None where they cannot be made, as without the rights to.
    fn make(count: usize) -> Option<Accounts> {
        let id = std::process::id();
        let group = format!("mshg{id}");
        if whoami() != "root" || !done("groupadd", &[&group]) {
            return None;
        }
        let mut all = Accounts {
            names: Vec::new(),
            group,
        };
        for at in 0..count {
            let name = format!("msh{}{id}", (b'a' + at as u8) as char);
            let made = ["--no-create-home", "--shell", "/bin/sh", &name];
            if !done("useradd", &made) {
                return None;
            }
            all.names.push(name);
        }
        Some(all)
    }
}

impl Drop for Accounts {
    fn drop(&mut self) {
        for name in &self.names {
            done("userdel", &[name]);
        }
        done("groupdel", &[&self.group]);
    }
}

/// The program run by another account: what it writes, what it says, its exit status.
fn by(account: &str, program: &Path, arguments: &[&str]) -> (String, String, i32) {
    let mut command = Command::new("runuser");
    command
        .args(["-u", account, "--"])
        .arg(program)
        .args(arguments);
    let done = command.current_dir("/").output().unwrap();
    let text = |bytes: Vec<u8>| String::from_utf8(bytes).unwrap();
    (
        text(done.stdout),
        text(done.stderr),
        done.status.code().unwrap_or(-1),
    )
}

#[test]
fn real_accounts_of_the_system_are_kept_apart() {
    let Some(accounts) = Accounts::make(4) else {
        eprintln!("not tried: accounts of the system cannot be made here; the other tests have the account that runs them");
        return;
    };
    let [anna, bert, carl, auditor] = &accounts.names[..] else {
        panic!("four accounts");
    };
    assert!(done("usermod", &["-aG", &accounts.group, bert]));
    let room = room("accounts");
    fs::set_permissions(&room, fs::Permissions::from_mode(0o755)).unwrap();
    let program = room.join("mishantral");
    fs::copy(mishantral(&[]).get_program(), &program).unwrap();
    let access = format!(
        "account {anna} is user {anna}\ngroup {} is users by name\naccount {auditor} reads\naccount root speaks for everyone\n",
        accounts.group
    );
    let mode = ["--socket-mode", "0666"];
    let server = served(&room, &[anna, bert, carl], &access, &mode);
    let socket = server.socket.to_str().unwrap().to_string();
    let ask = |account: &str, line: &str| {
        let (said, why, status) = by(account, &program, &["ask", "--socket", &socket, line]);
        (said.trim().to_string() + why.trim(), status)
    };
    let create = |subject: u16, user: &str| {
        format!("create subject {subject} for user {user} with roles fitter")
    };
    assert_eq!(ask(anna, &create(1, anna)), ("1 0 GRANTED".to_string(), 0));
    assert_eq!(ask(bert, &create(2, bert)), ("2 0 GRANTED".to_string(), 0));
    let barred = |why: String| (format!("barred: {why}"), 2);
    // One clerk is not another, whose subject it can neither make nor use.
    assert_eq!(
        ask(anna, &create(3, bert)),
        barred(format!("{anna} may not act for {bert}"))
    );
    assert_eq!(
        ask(anna, "open order 7 of template breakdown").0,
        "3 0 GRANTED"
    );
    assert_eq!(ask(anna, "claim 1 7 repair").0, "4 0 GRANTED");
    for line in ["done 1 7 repair", "release 1 7 repair", "destroy subject 1"] {
        let why = format!("{bert} may not act for subject 1 of {anna}");
        assert_eq!(ask(bert, line), barred(why));
    }
    // A clerk assigns no roles.
    let assign = format!("assign role signer to user {anna}");
    assert_eq!(
        ask(anna, &assign),
        barred(format!("{anna} does not administer: {assign}"))
    );
    // A clerk reads no journal, neither its file nor through the desk; the auditor does.
    let journal = room.join("desk.db");
    for part in ["", "-wal", "-shm", ".lock"] {
        let file = format!("{}{part}", journal.display());
        let read = by(anna, Path::new("/bin/cat"), &[&file]);
        assert!(
            read.1.contains("Permission denied") && read.2 != 0,
            "{read:?}"
        );
    }
    let file = journal.to_str().unwrap();
    assert_ne!(by(anna, &program, &["journal", file]).2, 0);
    let through = ["journal", "--socket", &socket, "--reply", "granted"];
    let (said, why, status) = by(anna, &program, &through);
    assert_eq!((said.as_str(), status), ("", 2), "{why}");
    assert!(why.contains(&format!("barred: {anna} may not read the journal")));
    let (said, why, status) = by(auditor, &program, &through);
    assert_eq!((said.lines().count(), status), (4, 0), "{said}{why}");
    assert!(said.contains(&format!("by {bert})")), "{said}");
    assert!(ask(auditor, "end order 7").0.starts_with("barred: "));
    // Who is in no line of the access file asks nothing; and nobody but a gateway speaks for another.
    assert!(ask(carl, "end order 7").0.contains("no authority here"));
    let as_bert = ["ask", "--socket", &socket, "--as", bert, "claim 2 7 sign"];
    let (_, why, status) = by(anna, &program, &as_bert);
    let expected = format!("{anna} may not speak for {bert}");
    assert_eq!((why.contains(&expected), status), (true, 2), "{why}");
    // Everything that was barred is in the journal, under the account that asked.
    let count = |account: &str| {
        let select = format!("SELECT asked FROM barred WHERE account = '{account}'");
        rows(&room, &select).len()
    };
    assert_eq!(
        [anna, bert, carl, auditor].map(|account| count(account)),
        [4, 3, 1, 1]
    );
    drop(server);
    // Without an access file nobody but the server's own account and root comes in, whatever the socket's mode.
    let server = Server::start(&room, &mode);
    assert!(ask(anna, "end order 7").0.contains("no authority here"));
    drop(server);
    let server = Server::start(&room, &[]);
    let (told, status) = ask(anna, "end order 7");
    assert_eq!(
        (told.contains("Permission denied"), status),
        (true, 2),
        "{told}"
    );
    drop(server);
    // The socket's group may connect, others may not.
    let access = room.join("access.txt");
    let access = access.to_str().unwrap();
    let group = ["--access", access, "--socket-mode", "660", "--socket-group"];
    let server = Server::start(&room, &[&group[..], &[&accounts.group]].concat());
    assert!(ask(anna, "end order 7").0.contains("Permission denied"));
    assert_eq!(ask(bert, "claim 2 7 sign").0, "5 0 GRANTED");
    drop(server);
}

#[test]
fn an_access_file_that_is_wrong_is_told_by_line_and_column() {
    let room = room("access");
    let (file, policy) = (room.join("access.txt"), policy(&room, &["anna"]));
    fs::write(
        &file,
        "account anna is user anna\naccount bert iz user 301\n",
    )
    .unwrap();
    let (socket, journal) = (room.join("desk.sock"), room.join("desk.db"));
    let arguments = [
        "serve",
        policy.to_str().unwrap(),
        "--journal",
        journal.to_str().unwrap(),
        "--socket",
        socket.to_str().unwrap(),
        "--access",
        file.to_str().unwrap(),
    ];
    let (_, why, status) = common::run(&arguments);
    assert!(
        why.contains("access.txt: line 2, column 14: expected \"is\", \"speaks\", \"administers\" or \"reads\", found \"iz\""),
        "{why}"
    );
    assert_eq!((status, journal.exists()), (2, false));
}
