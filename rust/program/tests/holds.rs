//! `mishantral holds` as people run it: over the journal of a desk that is served meanwhile, in every form, and with what is wrong.

use serde_json::Value;
use std::fs;
use std::path::{Path, PathBuf};
use std::process::{Child, Command, Stdio};
use std::time::Duration;

fn mishantral(arguments: &[&str]) -> Command {
    let root = Path::new(env!("CARGO_MANIFEST_DIR")).join("../..");
    let mut command = Command::new(env!("CARGO_BIN_EXE_mishantral"));
    command
        .args(arguments)
        .current_dir(root.canonicalize().unwrap());
    command.stdin(Stdio::null());
    command
}

/// What it writes, what it reports on standard error, and its exit status.
fn run(arguments: &[&str]) -> (String, String, i32) {
    let output = mishantral(arguments).output().unwrap();
    let text = |bytes: Vec<u8>| String::from_utf8(bytes).unwrap();
    (
        text(output.stdout),
        text(output.stderr),
        output.status.code().unwrap_or(-1),
    )
}

fn well(arguments: &[&str]) -> String {
    let (out, err, status) = run(arguments);
    assert_eq!((err.as_str(), status), ("", 0), "{arguments:?}");
    out
}

struct Room(PathBuf);

impl Room {
    fn new(name: &str) -> Room {
        let room = std::env::temp_dir().join(format!("mishantral-h-{name}-{}", std::process::id()));
        let _ = fs::remove_dir_all(&room);
        fs::create_dir_all(&room).unwrap();
        Room(room)
    }

    fn file(&self, name: &str) -> String {
        self.0.join(name).to_str().unwrap().to_string()
    }

    fn files(&self) -> Vec<String> {
        let all = fs::read_dir(&self.0).unwrap();
        let mut all: Vec<String> = all
            .map(|file| file.unwrap().file_name().into_string().unwrap())
            .collect();
        all.sort();
        all
    }
}

impl Drop for Room {
    fn drop(&mut self) {
        let _ = fs::remove_dir_all(&self.0);
    }
}

/// A served desk, which is killed when this goes.
struct Server {
    child: Child,
    socket: String,
}

impl Server {
    fn start(room: &Room) -> Server {
        let (journal, socket) = (room.file("desk.db"), room.file("desk.sock"));
        let mut serve = mishantral(&[
            "serve",
            "examples/named.txt",
            "--journal",
            &journal,
            "--socket",
            &socket,
        ]);
        let child = serve.stdout(Stdio::null()).spawn().unwrap();
        for _ in 0..600 {
            if Path::new(&socket).exists() {
                break;
            }
            std::thread::sleep(Duration::from_millis(50));
        }
        Server { child, socket }
    }

    /// Each line is granted.
    fn ask(&self, lines: &[&str]) {
        let mut all = vec!["ask", "--socket", &self.socket];
        all.extend(lines);
        let said = well(&all);
        assert!(
            said.lines().all(|line| line.contains("0 GRANTED")),
            "{lines:?}: {said}"
        );
    }
}

impl Drop for Server {
    fn drop(&mut self) {
        self.child.kill().unwrap();
        self.child.wait().unwrap();
    }
}

fn times(object: &Value) -> i64 {
    let parts = object["parts"].as_object().unwrap();
    parts.values().map(|time| time.as_i64().unwrap()).sum()
}

#[test]
fn a_served_desk_is_measured_while_it_works() {
    let room = Room::new("served");
    let server = Server::start(&room);
    server.ask(&[
        "create subject 1 for user anna with roles fitter",
        "create subject 2 for user clara with roles tester",
        "open order 7 mill of template breakdown",
        "claim 1 mill repair",
        "done 1 mill repair",
        "claim 2 mill test",
        "done 2 mill test",
    ]);
    let journal = room.file("desk.db");
    let common = [
        "holds",
        "--journal",
        &journal,
        "--from",
        "test",
        "--to",
        "sign",
    ];
    let said = |more: &[&str]| well(&[&common[..], more].concat());
    let object = |more: &[&str]| serde_json::from_str::<Value>(&said(more)).unwrap();
    let lying = object(&["--json"]);
    assert_eq!(
        (&lying["all"]["holds"], &lying["all"]["lying"]),
        (&0.into(), &1.into())
    );
    // Nobody who is signed in may sign; dirk comes, and may.
    std::thread::sleep(Duration::from_millis(30));
    server.ask(&["create subject 3 for user dirk with roles signer"]);
    std::thread::sleep(Duration::from_millis(20));
    server.ask(&["claim 3 mill sign"]);
    let held = object(&["--json"]);
    let all = &held["all"];
    assert_eq!((&all["holds"], &all["lying"]), (&1.into(), &0.into()));
    let length = all["median_us"].as_i64().unwrap();
    assert_eq!(
        (times(all), all["worst_us"].as_i64().unwrap()),
        (length, length)
    );
    let parts = &held["worst"][0]["parts"];
    assert!(
        parts["nobody_could_us"].as_i64().unwrap() >= 30_000,
        "{parts}"
    );
    assert!(
        parts["somebody_could_us"].as_i64().unwrap() >= 20_000,
        "{parts}"
    );
    assert_eq!(held["could"][0]["name"], "dirk");
    assert_eq!(held["worst"][0]["name"], "mill");
    let met: Vec<&str> = held["met"]
        .as_array()
        .unwrap()
        .iter()
        .map(|met| met["name"].as_str().unwrap())
        .collect();
    assert_eq!(met, ["NO ROLE"]);
    // The same from repair on: bert may test, and is refused by no rule; clara tested.
    let text = well(&[
        "holds",
        "--journal",
        &journal,
        "--from",
        "repair",
        "--to",
        "test",
        "--by",
        "clerk",
    ]);
    assert!(
        text.starts_with("repair done to test claimed: 1 hold; 0 still lying"),
        "{text}"
    );
    assert!(
        text.contains("\nclara ") && text.contains("claims refused meanwhile: 0"),
        "{text}"
    );
    let csv = said(&["--csv", "--by", "opening"]);
    let lines: Vec<&str> = csv.lines().collect();
    assert_eq!(lines.len(), 2);
    assert!(
        lines[1].starts_with("3,7,mill,") && lines[1].ends_with(",dirk,reached"),
        "{csv}"
    );
    // The desk goes on, and its journal is sound.
    server.ask(&["done 3 mill sign"]);
    let done = object(&["--json", "--end", "done"]);
    assert!(done["all"]["parts"]["held_us"].as_i64().unwrap() > 0);
    well(&["journal", &journal, "--check"]);
}

#[test]
fn a_picture_is_written_whole_or_not_at_all() {
    let room = Room::new("plot");
    let server = Server::start(&room);
    server.ask(&[
        "create subject 1 for user anna with roles fitter",
        "open order 7 \"<mill> & co\" of template breakdown",
        "claim 1 7 repair",
        "done 1 7 repair",
    ]);
    std::thread::sleep(Duration::from_millis(10));
    server.ask(&["create subject 2 for user fritz with roles buyer"]);
    drop(server);
    let (journal, picture) = (room.file("desk.db"), room.file("holds.svg"));
    let common = [
        "holds",
        "--journal",
        &journal,
        "--from",
        "repair",
        "--to",
        "test",
        "--plot",
    ];
    well(&[&common[..], &[picture.as_str()]].concat());
    let text = fs::read_to_string(&picture).unwrap();
    assert!(text.starts_with("<svg ") && text.ends_with("</svg>\n"));
    for words in [
        "prefers-color-scheme: dark",
        "The longest holds",
        "hour of the day",
        "&lt;mill&gt; &amp; co",
        ">nobody could<",
    ] {
        assert!(text.contains(words), "{words}");
    }
    well(
        &[
            &common[..],
            &[picture.as_str(), "--panels", "periods", "--title", "Before"],
        ]
        .concat(),
    );
    let text = fs::read_to_string(&picture).unwrap();
    assert!(text.contains(">Before<") && !text.contains("The longest holds"));
    let nowhere = room.file("none/holds.svg");
    let (_, err, status) = run(&[&common[..], &[nowhere.as_str()]].concat());
    assert!(status == 2 && err.contains("it cannot be written"), "{err}");
    assert!(
        room.files().iter().all(|file| !file.ends_with(".new")),
        "{:?}",
        room.files()
    );
}

#[test]
fn what_is_wrong_is_said() {
    let room = Room::new("wrong");
    drop(Server::start(&room));
    let journal = room.file("desk.db");
    for (more, status, words) in [
        (&["--from", "tset", "--to", "sign"][..], 2, "there is no task \"tset\" in the policy; its tasks: repair, test, sign, order_part, pay_part"),
        (&["--from", "test", "--to", "1"], 2, "--from and --to are the same task, test"),
        (&["--from", "test,repair", "--to", "sign"], 2, "name one task a template"),
        (&["--from", "test", "--to", "sign", "--by", "shift"], 2, "--by shift takes the shifts"),
        (&["--from", "test", "--to", "sign", "--shifts", "day 6-14"], 2, "\"day 6-14\" is no shift"),
        (&["--from", "test", "--to", "sign", "--zone", "CET"], 2, "--zone CET: +01:00, -03:30 or UTC is expected"),
        (&["--from", "test", "--to", "sign", "--since", "soon"], 2, "\"soon\" is no time"),
        (&["--from", "test", "--to", "sign", "--top", "0", "--plot", "x.svg"], 2, "a number of hours above 0 is expected"),
        (&["--from", "test", "--to", "sign", "--title", "x"], 2, "--plot"),
    ] {
        let (out, err, found) = run(&[&["holds", "--journal", &journal][..], more].concat());
        assert!(found == status && err.contains(words) && out.is_empty(), "{more:?}: {found} {err}{out}");
    }
    let text = well(&[
        "holds",
        "--journal",
        &journal,
        "--from",
        "test",
        "--to",
        "sign",
    ]);
    assert_eq!(text, "test done to sign claimed: 0 holds; 0 still lying, 0 ended unclaimed; 0 requests asked anew\n");
    let (_, err, status) = run(&[
        "holds",
        "--journal",
        "README.md",
        "--from",
        "test",
        "--to",
        "sign",
    ]);
    assert!(
        status == 1 && err.contains("it is no journal"),
        "{status} {err}"
    );
}

/// `examples/year`, some days of it, with a seed.
fn year(room: &Room, days: &str, seed: &str) {
    let root = Path::new(env!("CARGO_MANIFEST_DIR")).join("../..");
    let made = Command::new("sh")
        .arg(root.join("examples/year/make"))
        .args(["--days", days, "--seed", seed])
        .arg(&room.0)
        .env("MISHANTRAL", env!("CARGO_BIN_EXE_mishantral"))
        .output()
        .unwrap();
    assert!(
        made.status.success(),
        "{}",
        String::from_utf8_lossy(&made.stderr)
    );
}

fn measured(room: &Room, journal: &str, more: &[&str]) -> Value {
    let journal = room.file(journal);
    let common = [
        "holds",
        "--journal",
        &journal,
        "--from",
        "test",
        "--to",
        "sign",
        "--json",
    ];
    serde_json::from_str(&well(&[&common[..], more].concat())).unwrap()
}

const HOUR: i64 = 3_600_000_000;

#[test]
fn the_year_shows_the_old_fault_and_what_it_really_is() {
    let room = Room::new("year");
    year(&room, "21", "1");
    let then = measured(&room, "then.db", &["--by", "week"]);
    let now = measured(&room, "now.db", &["--by", "week"]);
    // The same orders, and each is signed in both.
    assert_eq!(then["all"]["holds"], now["all"]["holds"]);
    assert!(then["all"]["holds"].as_i64().unwrap() > 600);
    // Flat, week by week: numbers above 255 are one person, and that rule is why nobody could.
    for week in then["groups"].as_array().unwrap() {
        let median = week["median_us"].as_i64().unwrap();
        let usual = 15 * HOUR + HOUR * 2 / 3;
        assert!((median - usual).abs() < HOUR / 2, "{week}");
        assert_eq!(times(week), then_sum(&then, week), "{week}");
    }
    let met = &then["met"][0];
    assert_eq!(
        (met["name"].as_str(), met["rule"].as_str()),
        (Some("SEPARATION"), Some("task set 1 of test sign"))
    );
    assert_eq!(met["clerks"][0]["user"], 255);
    let part = |object: &Value, key: &str| {
        object["all"]["parts"][key].as_i64().unwrap() as f64 / times(&object["all"]) as f64
    };
    assert!(part(&then, "nobody_could_us") > 0.8 && part(&now, "nobody_could_us") < 0.01);
    assert!(now["all"]["ninety_percent_us"].as_i64().unwrap() < HOUR / 2);
    // Every answer of both is the engine's, and a seed repeats.
    for journal in ["then.db", "now.db"] {
        well(&["journal", &room.file(journal), "--check"]);
    }
    let again = Room::new("again");
    year(&again, "21", "1");
    let without_file = |object: &Value| {
        let mut object = object.clone();
        object["met"] = Value::Null;
        object["refused"] = Value::Null;
        object["worst"] = Value::Null;
        object
    };
    assert_eq!(
        without_file(&measured(&again, "then.db", &["--by", "week"])),
        without_file(&then)
    );
    let other = Room::new("other");
    year(&other, "3", "2");
    assert_ne!(
        fs::read(other.file("orders.csv")).unwrap()[..2000],
        fs::read(room.file("orders.csv")).unwrap()[..2000]
    );
    // The pictures are whole.
    for picture in ["then.svg", "now.svg", "then-all.svg", "now-all.svg"] {
        assert!(fs::read_to_string(room.file(picture))
            .unwrap()
            .ends_with("</svg>\n"));
    }
}

/// The sum of the holds of a group, by those that are its own.
fn then_sum(report: &Value, group: &Value) -> i64 {
    let groups = report["groups"].as_array().unwrap();
    let all: i64 = groups.iter().map(times).sum();
    let others: i64 = groups
        .iter()
        .filter(|other| other["group"] != group["group"])
        .map(times)
        .sum();
    assert_eq!(all, times(&report["all"]));
    all - others
}

#[test]
fn sql_finds_the_same_holds() {
    let room = Room::new("sql");
    year(&room, "12", "3");
    for journal in ["then.db", "now.db"] {
        let report = measured(&room, journal, &["--by", "opening", "--worst", "1000"]);
        let connection = rusqlite::Connection::open(room.file(journal)).unwrap();
        let number = |sql: &str| {
            connection
                .query_row(sql, [], |row| row.get::<_, i64>(0))
                .unwrap()
        };
        let between = "FROM hold WHERE from_name = 'test' AND to_name = 'sign'";
        assert_eq!(
            number(&format!("SELECT count(*) {between}")),
            report["all"]["holds"].as_i64().unwrap()
        );
        let middle = format!("SELECT hold_us {between} ORDER BY hold_us LIMIT 1 OFFSET (SELECT (count(*) - 1) / 2 {between})");
        assert_eq!(
            number(&middle),
            report["all"]["median_us"].as_i64().unwrap()
        );
        // And each hold, with the names of its order and of the clerk who claimed.
        let mut select = connection.prepare(&format!("SELECT opening, order_name, begun_at, claimed_at, user, user_name {between} ORDER BY opening")).unwrap();
        let rows = select.query_map([], |r| {
            Ok((
                r.get::<_, i64>(0)?,
                r.get::<_, String>(1)?,
                r.get::<_, i64>(2)?,
                r.get::<_, i64>(3)?,
                r.get::<_, i64>(4)?,
                r.get::<_, String>(5)?,
            ))
        });
        let rows: Vec<_> = rows.unwrap().map(|row| row.unwrap()).collect();
        let mut each = report["each"].as_array().unwrap().clone();
        each.retain(|hold| hold["end"] == "reached");
        each.sort_by_key(|hold| hold["opening"].as_i64());
        assert_eq!(rows.len(), each.len());
        for (row, hold) in rows.iter().zip(&each) {
            let (number, text) = (
                |key: &str| hold[key].as_i64().unwrap(),
                |key: &str| hold[key].as_str().unwrap(),
            );
            let found = (
                number("opening"),
                number("begun_us"),
                number("ended_us"),
                number("clerk"),
            );
            assert_eq!((row.0, row.2, row.3, row.4), found);
            assert_eq!(
                (row.1.trim_matches('"'), row.5.as_str()),
                (text("name").trim_matches('"'), text("clerk_name"))
            );
        }
        // Refused claims, by the rule's words.
        let refused = "SELECT count(*) FROM answered WHERE kind LIKE 'claim %' AND reply = 'SEPARATION' AND rule_words = 'task set 1 of test sign' AND task_name = 'sign'";
        let all: i64 = report["refused"]
            .as_array()
            .unwrap()
            .iter()
            .map(|met| met["claims"].as_i64().unwrap())
            .sum();
        assert_eq!(number(refused), all);
        assert_eq!(
            number("SELECT count(*) FROM opening"),
            number("SELECT count(*) FROM request WHERE kind = 48 AND reply = 0")
        );
        assert_eq!(
            number("SELECT count(*) FROM opening WHERE ended IS NULL"),
            0
        );
    }
}

#[test]
fn a_run_that_is_interrupted_leaves_nothing() {
    let room = Room::new("interrupted");
    year(&room, "40", "1");
    let (journal, picture) = (room.file("then.db"), room.file("cut.svg"));
    let before = room.files();
    let mut interrupted = 0;
    for pause in [0, 2, 5, 10, 20, 40] {
        let mut holds = mishantral(&[
            "holds",
            "--journal",
            &journal,
            "--from",
            "test",
            "--to",
            "sign",
            "--plot",
            &picture,
        ]);
        let mut child = holds.stdout(Stdio::null()).spawn().unwrap();
        std::thread::sleep(Duration::from_millis(pause));
        let _ = Command::new("kill")
            .args(["-TERM", &child.id().to_string()])
            .status();
        let whole = child.wait().unwrap().success();
        interrupted += i32::from(!whole);
        assert_eq!(Path::new(&picture).exists(), whole);
        let _ = fs::remove_file(&picture);
        // SQLite's own two files may stay, as with any reader of it.
        let left: Vec<String> = room
            .files()
            .into_iter()
            .filter(|file| !before.contains(file))
            .collect();
        assert!(
            left.iter()
                .all(|file| file.ends_with("-wal") || file.ends_with("-shm")),
            "{left:?}"
        );
    }
    assert!(interrupted > 0);
    well(&["journal", &journal, "--check"]);
}

#[test]
fn what_is_wrong_with_a_roster_is_said() {
    let room = Room::new("roster");
    let write = |name: &str, text: &str| fs::write(room.file(name), text).unwrap();
    write(
        "orders.csv",
        "time,template\n2025-01-01 10:00,plan_change\n",
    );
    write("roster.txt", "day 08:00-16:00: anna bert\n");
    write("wrong.txt", "day 08:00-16:00: zoe\nnight\n");
    write(
        "wrong.csv",
        "time,template\nnoon,plan_change\n2025-01-01 10:00,repair\n",
    );
    let (orders, roster, journal) = (
        room.file("orders.csv"),
        room.file("roster.txt"),
        room.file("desk.db"),
    );
    let staff = |orders: &str, roster: &str, more: &[&str]| {
        let common = [
            "staff",
            "examples/year/plan_change.txt",
            "--simulate",
            orders,
            "--roster",
            roster,
            "--journal",
            &journal,
        ];
        run(&[&common[..], more].concat())
    };
    for (orders, roster, more, words) in [
        (
            &orders,
            &room.file("wrong.txt"),
            &[][..],
            "line 1: there is no user \"zoe\"",
        ),
        (
            &room.file("wrong.csv"),
            &roster,
            &[],
            "line 2: \"noon\" is no time",
        ),
        (
            &orders,
            &roster,
            &["--minutes", "test=x"],
            "\"x\" is no number of minutes",
        ),
        (
            &orders,
            &roster,
            &["--minutes", "tset=1"],
            "--minutes: there is no task \"tset\"",
        ),
        (
            &orders,
            &roster,
            &["--prefer", "sing"],
            "--prefer: there is no task \"sing\"",
        ),
        (&orders, &room.file("none"), &[], "it cannot be read"),
    ] {
        let (_, err, status) = staff(orders, roster, more);
        assert!(
            status == 2 && err.contains(words),
            "{more:?}: {status} {err}"
        );
        assert!(!Path::new(&journal).exists());
    }
    let (out, err, status) = staff(&orders, &roster, &["--prefer", "sign"]);
    assert!(
        status == 0 && out.contains("1 orders, 1 ended, 0 still open"),
        "{out}{err}"
    );
    let (_, err, status) = staff(&orders, &roster, &[]);
    assert!(status == 2 && err.contains("it is there already"), "{err}");
}
