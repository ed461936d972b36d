//! The trials themselves, each with what must come of it.

use super::proxy::{Proxy, CUTS};
use super::{Scene, Which};
use crate::server::Server;
use random::Random;
use std::path::Path;
use std::process::Command;
use std::sync::atomic::Ordering;
use std::thread::sleep;
use std::time::{Duration, Instant};

/// What a trial is given: the program, how often it kills or cuts, and a seed.
pub struct Given<'a> {
    pub program: &'a Path,
    pub count: usize,
    pub seed: u64,
}

type Trial = fn(&Given) -> Result<String, String>;

/// Every trial, by the name that picks it.
pub const TRIALS: [(&str, &str, Trial); 7] = [
    (
        "kills",
        "kill -9 of server, primary and standby under load",
        kills,
    ),
    (
        "cuts",
        "the connection cut, also exactly at the commit",
        cuts,
    ),
    (
        "paused",
        "a server stopped past its takeover, then continued",
        paused,
    ),
    ("races", "servers race for one desk", races),
    ("promotion", "the standby promoted under load", promotion),
    ("cancelled", "a wait for the standby cancelled", cancelled),
    ("disk", "the primary's disk full", disk),
];

const CLIENTS: usize = 8;

fn a_while(random: &mut Random, most: usize) {
    sleep(Duration::from_millis(20 + random.below(most) as u64));
}

fn kills(given: &Given) -> Result<String, String> {
    let mut scene = Scene::new(given.program, "kills", true)?;
    let mut random = Random::new(given.seed);
    let mut counts = [0; 3];
    let mut server = scene.started("desk.sock", &["--saved", "replicated"])?;
    for kill in 1..=given.count {
        let crowd = scene.crowd(&["desk.sock"], CLIENTS);
        a_while(&mut random, 150);
        let which = [0, 0, 1, 2][random.below(4)];
        counts[which] += 1;
        match which {
            0 => {
                drop(server);
                server = scene.started("desk.sock", &["--saved", "replicated"])?;
            }
            1 => {
                scene.primary.kill();
                scene.primary.start()?;
            }
            _ => {
                let standby = scene.standby.as_ref().ok_or("there is no standby")?;
                standby.kill();
                a_while(&mut random, 100);
                standby.start()?;
                scene.primary.streaming()?;
            }
        }
        a_while(&mut random, 50);
        scene.compared(crowd, Which::Primary)?;
        eprint!(
            "\rkill -9: {kill} of {}, {} answered",
            given.count, scene.met.answered
        );
    }
    eprintln!();
    drop(server);
    scene.checked(Which::Primary)?;
    let [servers, primaries, standbys] = counts;
    Ok(format!(
        "{servers} kills of the server, {primaries} of the primary, {standbys} of the standby; {}",
        scene.said()
    ))
}

fn cuts(given: &Given) -> Result<String, String> {
    let mut scene = Scene::new(given.program, "cuts", false)?;
    let mut random = Random::new(given.seed);
    let proxy = Proxy::new(&scene.room.join("p"), &scene.primary.folder)?;
    let address = format!(
        "postgresql://postgres@/postgres?host={}",
        proxy.folder.display()
    );
    let server = scene.how("desk.sock", &address).start()?;
    let crowd = scene.crowd(&["desk.sock"], CLIENTS);
    let cuts = given.count;
    for cut in 1..=cuts {
        sleep(Duration::from_millis(5 + random.below(30) as u64));
        proxy.arm(random.pick(&CUTS));
        // The next group that is written meets it.
        let began = Instant::now();
        while proxy.cuts.load(Ordering::SeqCst) < cut as u64 {
            if began.elapsed() > Duration::from_secs(60) {
                return Err("no group was written for a minute".to_string());
            }
            sleep(Duration::from_millis(1));
        }
        eprint!("\rcut: {cut} of {cuts}");
    }
    eprintln!();
    a_while(&mut random, 50);
    scene.compared(crowd, Which::Primary)?;
    drop(server);
    scene.checked(Which::Primary)?;
    let cut = proxy.cuts.load(Ordering::SeqCst);
    Ok(format!(
        "{cut} connections cut exactly at a commit: before the database had it, while it was at it, and before its answer; the server lived on; {}",
        scene.said()
    ))
}

fn signal(server: &Server, signal: &str) {
    let id = server.id().to_string();
    let _ = Command::new("kill").args([signal, &id]).output();
}

/// Takeovers, by servers that were stopped and are continued when another one has the desk, and by killed ones.
fn paused(given: &Given) -> Result<String, String> {
    let mut scene = Scene::new(given.program, "paused", true)?;
    let takeover = ["--standby", "--takeover", "1"];
    let mut times: [Vec<Duration>; 2] = Default::default();
    let turns = (given.count / 4).max(2);
    let mut has = scene.started("s0.sock", &takeover[1..])?;
    for turn in 1..=turns {
        let name = format!("s{turn}.sock");
        let before = format!("s{}.sock", turn - 1);
        let next = scene.started(&name, &takeover)?;
        let crowd = scene.crowd(&[&before, &name], CLIENTS);
        sleep(Duration::from_millis(200));
        let told = has.errors();
        let began = Instant::now();
        let stops = turn % 2 == 1;
        signal(&has, if stops { "-STOP" } else { "-KILL" });
        // Its last answers are on their way.
        sleep(Duration::from_millis(50));
        let took = crowd.answered_after(began + Duration::from_millis(50));
        let took = took.ok_or("nobody took the desk over")?;
        times[usize::from(stops)].push(took + Duration::from_millis(50));
        if stops {
            signal(&has, "-CONT");
            let status = has.ended().ok_or("it did not end")?;
            let told = told.join().unwrap_or_default();
            if status != 1 || !told.contains("took it over") {
                return Err(format!("it ended with status {status}: {told}"));
            }
        }
        sleep(Duration::from_millis(100));
        scene.compared(crowd, Which::Primary)?;
        has = next;
        eprint!("\rtakeover: {turn} of {turns}");
    }
    eprintln!();
    drop(has);
    scene.checked(Which::Primary)?;
    let middle = |times: &mut Vec<Duration>| {
        times.sort();
        times[times.len() / 2].as_secs_f64()
    };
    let [killed, stopped] = &mut times;
    Ok(format!(
        "{turns} takeovers with --takeover 1: from a kill to the next answer {:.2} s in the median, from a stop {:.2} s, of which clients wait 2.5 s before they try the other server; whoever was continued wrote nothing, said so and ended with exit status 1; {}",
        middle(killed),
        middle(stopped),
        scene.said()
    ))
}

fn races(given: &Given) -> Result<String, String> {
    let mut scene = Scene::new(given.program, "races", false)?;
    drop(scene.started("first.sock", &[])?);
    let (mut served, mut refused) = (0, 0);
    let turns = (given.count / 2).max(4);
    for _ in 0..turns {
        let address = scene.primary.address();
        let hows: Vec<_> = (0..4)
            .map(|at| scene.how(&format!("r{at}.sock"), &address))
            .collect();
        let starting: Vec<_> = hows
            .into_iter()
            .map(|how| std::thread::spawn(move || how.with(&["--takeover", "2"]).start()))
            .collect();
        let mut servers = Vec::new();
        for start in starting {
            match start.join().map_err(|_| "a start failed")? {
                Ok(server) => servers.push(server),
                Err(why) if why.contains("another server has it") => refused += 1,
                Err(why) => return Err(why),
            }
        }
        if servers.len() != 1 {
            return Err(format!("{} servers have one desk", servers.len()));
        }
        served += 1;
        let sockets = ["r0.sock", "r1.sock", "r2.sock", "r3.sock"];
        let crowd = scene.crowd(&sockets, 2);
        sleep(Duration::from_millis(30));
        scene.compared(crowd, Which::Primary)?;
    }
    Ok(format!(
        "{turns} races of 4 servers: {served} serve, {refused} are refused with exit status 1; {}",
        scene.said()
    ))
}

fn promotion(given: &Given) -> Result<String, String> {
    let mut scene = Scene::new(given.program, "promotion", true)?;
    let hosts = format!(
        "{},{}",
        scene.room.join("a").display(),
        scene.room.join("b").display()
    );
    let address =
        format!("postgresql://postgres@/postgres?host={hosts}&target_session_attrs=read-write");
    let server = scene
        .how("desk.sock", &address)
        .with(&["--saved", "replicated"])
        .start()?;
    let crowd = scene.crowd(&["desk.sock"], CLIENTS);
    sleep(Duration::from_millis(500));
    // Whoever reads a whole journal reads it from the standby, while the desk works.
    scene.checked(Which::Standby)?;
    let began = Instant::now();
    scene.primary.kill();
    let standby = scene.standby.as_ref().ok_or("there is no standby")?;
    // The new primary has no standby yet: who promotes one decides that it need not wait for another.
    standby.set("synchronous_standby_names = ''\n")?;
    standby.promote()?;
    standby.psql("SELECT pg_reload_conf()")?;
    let took = crowd.answered_after(began + Duration::from_millis(100));
    let took = took.ok_or("nobody was answered after the promotion")?;
    sleep(Duration::from_millis(300));
    scene.compared(crowd, Which::Standby)?;
    drop(server);
    scene.checked(Which::Standby)?;
    Ok(format!(
        "the journal checked on the standby; the primary killed, its standby promoted: answers again after {:.1} s; nothing that was answered is missing on the new primary; {}",
        took.as_secs_f64() + 0.1,
        scene.said()
    ))
}

/// A wait for the standby that somebody cancels says success, with a warning: nobody may be answered by it.
fn cancelled(given: &Given) -> Result<String, String> {
    let mut scene = Scene::new(given.program, "cancelled", true)?;
    let server = scene.started("desk.sock", &["--saved", "replicated"])?;
    let (mut cancels, mut held) = (0, 0);
    for _ in 0..(given.count / 4).max(2) {
        let crowd = scene.crowd(&["desk.sock"], CLIENTS);
        sleep(Duration::from_millis(150));
        let id = scene.standby.as_ref().and_then(|standby| standby.id());
        let id = id.ok_or("there is no standby")?;
        let all = Command::new("pgrep").args(["-P", &id]).output();
        let all = String::from_utf8_lossy(&all.map_err(|why| why.to_string())?.stdout).into_owned();
        let receivers: Vec<&str> = all.split_whitespace().collect();
        let _ = Command::new("kill").arg("-STOP").args(&receivers).output();
        sleep(Duration::from_millis(200));
        let stopped = Instant::now();
        let sql = "SELECT count(pg_cancel_backend(pid)) FROM pg_stat_activity WHERE wait_event = 'SyncRep'";
        let before = scene.primary.psql(sql)?;
        cancels += before.parse::<usize>().unwrap_or(0);
        // Whoever is answered now has a reply that the standby does not have.
        sleep(Duration::from_millis(400));
        let last = *crowd.last.lock().unwrap_or_else(|e| e.into_inner());
        if last > stopped {
            return Err("somebody was answered by a wait that was cancelled".to_string());
        }
        held += 1;
        let _ = Command::new("kill").arg("-CONT").args(&receivers).output();
        scene.primary.streaming()?;
        sleep(Duration::from_millis(100));
        scene.compared(crowd, Which::Primary)?;
    }
    drop(server);
    scene.checked(Which::Primary)?;
    match cancels {
        0 => Err("no wait could be cancelled".to_string()),
        _ => Ok(format!(
            "{cancels} waits cancelled in {held} turns, and nobody answered until the standby was back; {}",
            scene.said()
        )),
    }
}

/// A small disk under the primary, filled and freed. It takes root.
fn disk(given: &Given) -> Result<String, String> {
    let room = crate::server::room("pg-small");
    let small = room.join("disk");
    let _ = std::fs::create_dir_all(&small);
    let mounted = Command::new("mount")
        .args(["-t", "tmpfs", "-o", "size=160m,mode=755", "tmpfs"])
        .arg(&small)
        .output();
    if !mounted.is_ok_and(|mounted| mounted.status.success()) {
        let _ = std::fs::remove_dir_all(&room);
        return Ok("not tried: no small disk could be mounted here".to_string());
    }
    let came = filled(given, &small);
    let _ = Command::new("umount").arg("-l").arg(&small).output();
    let _ = std::fs::remove_dir_all(&room);
    came
}

fn filled(given: &Given, small: &Path) -> Result<String, String> {
    let mut scene = Scene::new(given.program, "disk", false)?;
    scene.primary = super::Base::primary(&small.join("a"), false)?;
    let server = scene.started("desk.sock", &[])?;
    let crowd = scene.crowd(&["desk.sock"], CLIENTS);
    sleep(Duration::from_millis(200));
    let filler = small.join("filler");
    let fill = Command::new("dd")
        .args(["if=/dev/zero", "bs=64k"])
        .arg(format!("of={}", filler.display()))
        .output();
    fill.map_err(|why| why.to_string())?;
    sleep(Duration::from_millis(1500));
    let full = Instant::now();
    let _ = std::fs::remove_file(&filler);
    // A database that ended since it could not write its log is started again, as its service does.
    if scene.primary.psql("SELECT 1").is_err() {
        scene.primary.kill();
        scene.primary.start()?;
    }
    let took = crowd
        .answered_after(full)
        .ok_or("nobody was answered when there was room again")?;
    sleep(Duration::from_millis(200));
    scene.compared(crowd, Which::Primary)?;
    drop(server);
    scene.checked(Which::Primary)?;
    Ok(format!(
        "filled to the last block under load; answers again {:.1} s after there was room; {}",
        took.as_secs_f64(),
        scene.said()
    ))
}
