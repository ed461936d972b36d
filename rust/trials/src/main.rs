//! The served desk tried out: `trials faults` kills it, fills its disk, tears its pages and sends it garbage; `trials load` measures it.

mod attacks;
mod client;
mod full;
mod garbage;
mod kills;
mod load;
mod postgresql;
mod scale;
mod server;
mod talk;
mod torn;
mod truth;
mod web;

use std::path::{Path, PathBuf};
use std::process::ExitCode;
use std::time::Duration;

const HELP: &str = "\
trials: the served desk tried out

  trials faults --program PATH [--kills N] [--torn N] [--seed N]
  trials database --program PATH [--kills N] [--seed N] [--only WHAT]
  trials load --program PATH [--seconds N] [--docs FOLDER]
  trials cluster --program PATH [--kills N]
  trials stores --program PATH [--seconds N]
  trials http --program PATH [--seconds N] [--docs FOLDER]
  trials ratio --program PATH --before PATH [--seconds N]
  trials memory --program PATH [--requests N]
  trials desks --program PATH [--seconds N]

  faults           kills it, fills its disk, tears its files, sends it garbage; what was answered must be there, once. Then fifteen
                   faults that an attack found, each with the outcome that is wanted
  database         the same with the journal in PostgreSQL: a primary and a standby of its own, which are killed, cut off, filled, replaced
  cluster          a desk on two PostgreSQL nodes under Patroni with etcd, whose primary is moved under load
  load             requests a second and waits, by clients, with and without a journal
  stores           the same of a file, of PostgreSQL with and without a standby, and of no journal, in one run; and many desks
  http             the same by HTTP, beside the socket's figures
  ratio            the same of two programs in turn, nine times: how many requests a second the first answers, by those of the other; fails
                   where that is below 0.95 with a journal
  memory           the server's memory over ten million requests
  desks            what many desks in one server take and give

  --program PATH   the program `mishantral`
  --before PATH    the program that it is compared with
  --seconds N      how long each figure is measured; 3 where it is missing
  --docs FOLDER    where load.md and load.svg are written, or load-http.md
  --requests N     10000000 where it is missing
  --kills N        how often it is killed under load; 1000 where it is missing, and 200 with PostgreSQL; with cluster how often the primary
                   is moved in each way, 3 where it is missing
  --torn N         how many torn files of each sort are tried; 200 where it is missing
  --only WHAT      kills, full, torn, garbage, attacks (faults 1 to 15) or the number of one of these; several with commas between: kills,torn,3.
                   With PostgreSQL kills, cuts, paused, races, promotion, cancelled or disk
  --seed N         other random numbers

Exit status: 0 every promise was kept; 1 one was not; 2 wrong use. tools/faults builds and runs it.
";

struct Options {
    program: PathBuf,
    before: Option<PathBuf>,
    kills: Option<usize>,
    torn: usize,
    seed: u64,
    seconds: u64,
    docs: Option<PathBuf>,
    requests: u64,
    /// The trials that are asked for; all where there is none.
    only: Vec<String>,
}

/// The trials beside the numbered ones.
const TRIALS: [&str; 5] = ["kills", "full", "torn", "garbage", "attacks"];

/// The trials that an option names.
fn only(words: &str) -> Result<Vec<String>, String> {
    let known = |word: &str| {
        let numbered = |fault: &attacks::Fault| fault.0.to_string() == word;
        let of_database = postgresql::TRIALS.iter().any(|trial| trial.0 == word);
        TRIALS.contains(&word) || attacks::FAULTS.iter().any(numbered) || of_database
    };
    let words: Vec<String> = words.split(',').map(String::from).collect();
    match words.iter().find(|word| !known(word)) {
        Some(word) => Err(format!("--only: there is no trial {word:?}")),
        None => Ok(words),
    }
}

impl Options {
    /// Whether a trial is asked for, by any of its names.
    fn wants(&self, names: &[&str]) -> bool {
        let asked = |word: &String| names.contains(&word.as_str());
        self.only.is_empty() || self.only.iter().any(asked)
    }
}

fn options(arguments: &[String]) -> Result<Options, String> {
    let mut options = Options {
        program: PathBuf::new(),
        before: None,
        kills: None,
        torn: 200,
        seed: 1,
        seconds: 3,
        docs: None,
        requests: 10_000_000,
        only: Vec::new(),
    };
    let mut rest = arguments.iter();
    while let Some(option) = rest.next() {
        let value = rest.next().ok_or(format!("{option} takes a value"))?;
        let number = || {
            value
                .parse::<u64>()
                .map_err(|_| format!("{option}: {value:?} is no number"))
        };
        match option.as_str() {
            "--program" => options.program = PathBuf::from(value),
            "--before" => options.before = Some(PathBuf::from(value)),
            "--kills" => options.kills = Some(number()? as usize),
            "--torn" => options.torn = number()? as usize,
            "--seed" => options.seed = number()?,
            "--seconds" => options.seconds = number()?,
            "--requests" => options.requests = number()?,
            "--only" => options.only = only(value)?,
            "--docs" => options.docs = Some(PathBuf::from(value)),
            _ => return Err(format!("no such option: {option}")),
        }
    }
    match options.program.is_file() {
        true => Ok(options),
        false => Err("--program PATH is missing".to_string()),
    }
}

/// One trial: its line of the table, or what was not kept.
fn tell(what: &str, came: Result<String, String>) {
    match came {
        Ok(figures) => println!("| {what} | {figures} |"),
        Err(why) => println!("| {what} | **not kept**: {why} |"),
    }
}

fn killed(program: &Path, options: &Options) -> Result<String, String> {
    let count = options.kills.unwrap_or(1000);
    let k = kills::kills(program, count, options.seed)?;
    Ok(format!(
        "{} kills in {} s, {} of them before anyone could connect; {} requests answered, none lost, none twice; of those not answered yet {} are in the journal and {} are not; a start takes {:.1} ms",
        k.kills, k.seconds, k.early, k.met.answered, k.met.kept, k.met.gone, k.starts.as_secs_f64() * 1e3
    ))
}

fn filled(program: &Path) -> Result<String, String> {
    Ok(match full::full(program)? {
        None => "not tried: no small disk could be mounted here".to_string(),
        Some(f) => format!(
            "{} requests answered and there, {} told that they were not done and not there; {} answered after there was room again; a start without room: {}",
            f.met.answered, f.met.not_done, f.after, f.start
        ),
    })
}

fn ripped(program: &Path, options: &Options) -> Result<String, String> {
    let t = torn::torn(program, options.torn, options.seed)?;
    Ok(format!(
        "{} logs cut or garbled in their last write, {} pages half written by a checkpoint: every answered request is there and the desk goes on; {} files with one bit changed: {} found by `journal --check`, {} without effect on any row",
        t.cut, t.half, t.found + t.harmless, t.found, t.harmless
    ))
}

fn disturbed(program: &Path) -> Result<String, String> {
    let g = garbage::garbage(program)?;
    Ok(format!(
        "ten clients sent {:.1} million bytes of garbage and were told of {} wrong lines; four beside them were answered {} requests, all there; their worst wait was {:.1} ms, alone {:.1} ms",
        g.bytes as f64 / 1e6, g.lines, g.met.answered, g.beside.as_secs_f64() * 1e3, g.alone.as_secs_f64() * 1e3
    ))
}

fn faults(options: &Options) -> bool {
    let program = &options.program;
    println!("| Fault | What came of it |\n|---|---|");
    let mut kept = true;
    let mut trial = |name: &str, what: &str, came: &dyn Fn() -> Result<String, String>| {
        if options.wants(&[name]) {
            let came = came();
            kept &= came.is_ok();
            tell(what, came);
        }
    };
    trial("kills", "kill -9 under load", &|| killed(program, options));
    trial("full", "disk full", &|| filled(program));
    trial("torn", "torn writes", &|| ripped(program, options));
    trial("garbage", "garbage", &|| disturbed(program));
    for (number, what, fault) in attacks::FAULTS {
        if options.wants(&["attacks", &number.to_string()]) {
            eprintln!("fault {number}: {what}");
            let came = fault(program);
            kept &= came.is_ok();
            tell(&format!("{number}: {what}"), came);
        }
    }
    kept
}

/// The faults of a journal in PostgreSQL.
fn of_database(options: &Options) -> bool {
    if postgresql::programs().is_none() {
        println!("not tried: there is no PostgreSQL here (apt-get install postgresql)");
        return true;
    }
    println!("| Fault | What came of it |\n|---|---|");
    let mut kept = true;
    for (name, what, trial) in postgresql::TRIALS {
        if options.wants(&[name]) {
            eprintln!("{name}: {what}");
            let came = trial(&postgresql::Given {
                program: &options.program,
                count: options.kills.unwrap_or(200),
                seed: options.seed,
            });
            kept &= came.is_ok();
            tell(what, came);
        }
    }
    kept
}

fn measured(what: &str, options: &Options) -> Result<(), String> {
    let (program, time) = (&options.program, Duration::from_secs(options.seconds));
    match what {
        "load" => load::load(program, time, options.docs.as_deref()),
        "http" => web::load(program, time, options.docs.as_deref()),
        "ratio" => {
            let before = options.before.as_deref();
            let before = before.ok_or("--before PATH is missing")?;
            load::ratio(program, before, time)
        }
        "stores" => postgresql::stores(program, time),
        "cluster" => postgresql::failover(program, options.kills.unwrap_or(3)),
        "memory" => {
            let (sizes, rate, bytes) = load::memory(program, options.requests)?;
            let sizes: Vec<String> = sizes.iter().map(|kb| load::grouped(*kb as f64)).collect();
            println!(
                "KB after each tenth of {} requests: {}",
                options.requests,
                sizes.join(" ")
            );
            println!(
                "{} requests a second; {bytes} bytes of journal a request",
                load::grouped(rate)
            );
            Ok(())
        }
        _ => scale::desks(program, time),
    }
}

fn done(arguments: &[String]) -> Result<bool, String> {
    match arguments.split_first() {
        Some((what, rest)) if what == "faults" => options(rest).map(|options| faults(&options)),
        Some((what, rest)) if what == "database" => {
            options(rest).map(|options| of_database(&options))
        }
        Some((what, rest))
            if matches!(
                what.as_str(),
                "load" | "http" | "ratio" | "memory" | "desks" | "stores" | "cluster"
            ) =>
        {
            let options = options(rest)?;
            let kept = measured(what, &options);
            if let Err(why) = &kept {
                eprintln!("trials: {why}");
            }
            Ok(kept.is_ok())
        }
        _ => {
            Err("faults, database, cluster, load, stores, http, ratio, memory or desks".to_string())
        }
    }
}

fn main() -> ExitCode {
    let arguments: Vec<String> = std::env::args().skip(1).collect();
    match done(&arguments) {
        Ok(true) => ExitCode::SUCCESS,
        Ok(false) => ExitCode::FAILURE,
        Err(why) => {
            eprint!("trials: {why}\n\n{HELP}");
            ExitCode::from(2)
        }
    }
}
