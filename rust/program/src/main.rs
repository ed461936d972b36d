//! `mishantral`: one program for people over the proved library. docs/PROGRAM.md says its use.

mod ask;
mod carry;
mod check;
mod clash;
mod command;
mod convert;
mod desk;
mod diff;
mod expect;
mod files;
mod finish;
mod holds;
mod journal;
mod manual;
mod moving;
mod progress;
mod prompt;
mod report;
mod run;
mod serve;
mod source;
mod staff;
mod stop;
mod tables;
mod told;
mod warnings;
mod whatif;
mod why;

use clap::ArgMatches;
use desk::Desk;
use journal::Saved;
// One notation for all programs: `crate::names` and the others are the crate's own modules.
use notation::{names, reader, writer};
use run::Style;
use source::{Format, Policy, Reading, Sections};
use std::fs::File;
use std::io::{stdout, BufWriter, Write};
use std::process::ExitCode;
use std::time::Duration;
use stop::{wrong, Done, Stop, REFUSED, WELL, WRONG};

fn text<'a>(given: &'a ArgMatches, name: &str) -> Option<&'a str> {
    given.get_one::<String>(name).map(String::as_str)
}

/// How the policy is to be read whose task lines this option names.
fn reading<'a>(given: &'a ArgMatches, tasks: &str) -> Reading<'a> {
    Reading {
        tasks: text(given, tasks),
        format: text(given, "from").and_then(Format::of_name),
        sections: match given.get_flag("all-sections") {
            true => Sections::All,
            false => Sections::Asked,
        },
    }
}

/// The policy that is named. What is to be warned of in a dealer's text is left to the caller.
fn read_policy(given: &ArgMatches) -> Result<Policy, Stop> {
    let file = text(given, "policy").unwrap_or("-");
    source::policy(file, &reading(given, "tasks"))
}

/// The policy that is named, warnings told on standard error.
fn policy(given: &ArgMatches) -> Result<Policy, Stop> {
    let policy = read_policy(given)?;
    policy.warnings().iter().for_each(report::report);
    Ok(policy)
}

fn style(given: &ArgMatches) -> Style {
    match (given.get_flag("json"), given.get_flag("plain")) {
        (true, _) => Style::Json,
        (_, true) => Style::Plain,
        _ => Style::Words {
            brief: given.get_flag("brief"),
        },
    }
}

/// The file that an option names, which is none of those that are read here.
fn to_file<'a>(given: &'a ArgMatches, option: &str) -> Result<Option<&'a str>, Stop> {
    let Some(name) = text(given, option).filter(|&name| name != "-") else {
        return Ok(None);
    };
    let inputs = ["policy", "tasks", "requests"].map(|name| text(given, name));
    let mut inputs = inputs.iter().flatten();
    match inputs.any(|input| files::is_same(name, input)) {
        true => wrong(format!(
            "{name}: it is read here, and is not written over: -o takes another name"
        )),
        false => Ok(Some(name)),
    }
}

fn created(name: &str) -> Result<BufWriter<File>, Stop> {
    match File::create(name) {
        Ok(made) => Ok(BufWriter::new(made)),
        Err(why) => wrong(format!("{name}: it cannot be written: {why}")),
    }
}

fn convert(given: &ArgMatches, out: &mut dyn Write) -> Done {
    let policy = policy(given)?;
    let numbers = given.get_flag("numbers");
    let to = match text(given, "to") {
        Some("records") => convert::To::Records,
        Some("opl") => return convert_to_opl(given, &policy, out),
        _ => convert::To::Text { numbers },
    };
    if text(given, "tasks-to").is_some() || given.get_flag("renumber") {
        return wrong("--tasks-to and --renumber go with --to opl");
    }
    let requests = match text(given, "requests") {
        Some(file) => Some(source::requests(file, &policy.names)?),
        None => None,
    };
    let mut file;
    let out = match to_file(given, "output")? {
        None => out,
        Some(name) => {
            file = created(name)?;
            &mut file as &mut dyn Write
        }
    };
    match requests {
        Some(requests) => convert::requests(&requests, &policy.names, to, out),
        None => convert::policy(&policy, to, out),
    }
}

/// Two texts, the task lines to a file of their own.
fn convert_to_opl(given: &ArgMatches, policy: &Policy, out: &mut dyn Write) -> Done {
    if text(given, "requests").is_some() {
        return wrong(
            "requests have no form in OPL/XML: --requests goes with --to text or records",
        );
    }
    let way = notation::dealer::Way {
        renumber: given.get_flag("renumber"),
        all_sections: given.get_flag("all-sections"),
    };
    let written = convert::opl(policy, given.get_flag("numbers"), way)?;
    let (file, tasks) = (to_file(given, "output")?, to_file(given, "tasks-to")?);
    let Some(tasks) = tasks else {
        return match written.tasks.is_empty() {
            true => put(file, &written.policy, out),
            false => wrong("the task lines are a text of their own: --tasks-to names its file"),
        };
    };
    if file.is_some_and(|file| file == tasks || files::is_same(file, tasks)) {
        return wrong(format!("{tasks}: -o and --tasks-to name one file"));
    }
    put(Some(tasks), &written.tasks, out)?;
    put(file, &written.policy, out)
}

/// Bytes to a file, or to standard output.
fn put(file: Option<&str>, bytes: &[u8], out: &mut dyn Write) -> Done {
    match file {
        None => out.write_all(bytes)?,
        Some(name) => {
            let mut file = created(name)?;
            let written = file.write_all(bytes).and_then(|()| file.flush());
            written.or_else(|why| wrong(format!("{name}: it cannot be written: {why}")))?;
        }
    }
    Ok(WELL)
}

fn write(given: &ArgMatches, out: &mut dyn Write) -> Done {
    let desk = match text(given, "policy") {
        None => stood(given)?,
        Some(_) => {
            let policy = policy(given)?;
            match Desk::open(&policy) {
                Ok(desk) => desk,
                Err(refused) => return Err(Stop::Refused(check::refusal(&policy, refused))),
            }
        }
    };
    let requests = match text(given, "requests") {
        Some(file) => source::requests(file, &desk.names)?,
        None => Vec::new(),
    };
    let (file, to) = (text(given, "output"), text(given, "to"));
    let output = files::Output::new(file, to, given.get_flag("numbers"));
    if desk.told.rules_of(18).next().is_some() {
        report::report("bindings to walls are left out, as sessions and orders are: whoever loads this is bound to nothing");
    }
    files::write(desk, &requests, &output, out)
}

fn diff(given: &ArgMatches, out: &mut dyn Write) -> Done {
    let read = |name: &str, tasks: &str| {
        let file = text(given, name).unwrap_or_default();
        source::policy(file, &reading(given, tasks))
    };
    let old = read("old", "tasks")?;
    let new = read("new", "new-tasks")?;
    let by = diff::By::of(text(given, "by"), &old, &new);
    diff::diff(&old, &new, by, given.get_flag("json"), out)
}

fn whatif(given: &ArgMatches, out: &mut dyn Write) -> Done {
    let policy = read_policy(given)?;
    let since = match text(given, "since") {
        None => i64::MIN,
        Some(word) => journal::moment(word)?,
    };
    let examples = given.get_one::<u64>("examples").copied().unwrap_or(3);
    let options = whatif::Options {
        journal: &journal_of(given, "journal")?,
        since,
        present: given.get_flag("present"),
        examples: examples as usize,
        json: given.get_flag("json"),
    };
    whatif::whatif(&options, &policy, out)
}

fn moving(given: &ArgMatches, out: &mut dyn Write) -> Done {
    let policy = read_policy(given)?;
    let options = moving::Options {
        journal: &journal_of(given, "journal")?,
        to: text(given, "into"),
        dry_run: given.get_flag("dry-run"),
        leave: text(given, "leave"),
        users: match text(given, "users") {
            Some("from-policy") => carry::Users::FromPolicy,
            _ => carry::Users::AsNow,
        },
        json: given.get_flag("json"),
    };
    moving::moving(&options, &policy, out)
}

fn mend(given: &ArgMatches, out: &mut dyn Write) -> Done {
    let file = text(given, "file").unwrap_or_default();
    let format = text(given, "from").and_then(Format::of_name);
    let policy = source::damaged(file, format)?;
    let to_file = text(given, "output");
    if to_file.is_some_and(|name| files::is_same(name, file)) {
        return wrong(format!(
            "{file}: the damaged file is kept: -o takes another name"
        ));
    }
    let (to, numbers) = (text(given, "to"), given.get_flag("numbers"));
    let output = to_file.map(|name| files::Output::new(Some(name), to, numbers));
    files::mend(policy, output.as_ref(), given.get_flag("json"), out)
}

fn generate(given: &ArgMatches, out: &mut dyn Write) -> Done {
    let mut command = command::command();
    match text(given, "what").and_then(command::shell) {
        Some(shell) => {
            // The generator takes a failed write for a fault of the program; a failed write is ours to tell.
            let mut made = Vec::new();
            clap_complete::generate(shell, &mut command, "mishantral", &mut made);
            out.write_all(&made)?;
        }
        None => out.write_all(manual::manual(&mut command).as_bytes())?,
    }
    Ok(WELL)
}

/// The desks to serve: those named, or the one of `--journal`.
fn desks(given: &ArgMatches) -> Result<Vec<serve::Wanted>, Stop> {
    let (named, journal) = (words(given, "desk"), text(given, "journal"));
    let database = journal.filter(|word| journal::is_database(word));
    if named.is_empty() {
        // A desk of a database has a name, which stands after its address.
        let name = database.and_then(|word| word.split_once('#'));
        return Ok(vec![serve::Wanted {
            name: name.map_or(String::new(), |(_, name)| name.to_string()),
            journal: journal.map(String::from),
            alone: true,
        }]);
    }
    let alone = named.len() == 1 && database.is_some();
    let one = |word: &String| {
        match (word.split_once('='), journal, database) {
        (Some((name, place)), None, _) if !name.is_empty() && !place.is_empty() => {
            Ok(serve::Wanted {
                name: name.to_string(),
                journal: Some(journal::with_desk(place, Some(name))),
                alone: false,
            })
        }
        (None, Some(_), Some(database)) => Ok(serve::Wanted {
            name: word.to_string(),
            journal: Some(journal::with_desk(database, Some(word))),
            alone,
        }),
        (_, Some(_), None) => wrong(format!(
            "--desk {word}: a file is one desk's journal: --desk NAME=JOURNAL without --journal, or --journal postgresql://.. with --desk NAME"
        )),
        _ => wrong(format!(
            "--desk {word}: NAME=JOURNAL is expected, or with --journal postgresql://.. NAME"
        )),
    }
    };
    named.iter().map(one).collect()
}

/// The journal that a command reads: a file, or a desk of a database.
fn journal_of(given: &ArgMatches, option: &str) -> Result<String, Stop> {
    let (word, desk) = (text(given, option).unwrap_or_default(), text(given, "desk"));
    match desk {
        Some(desk) if !journal::is_database(word) => wrong(format!(
            "--desk {desk}: {word} is a file, which is one desk's journal"
        )),
        _ => Ok(journal::with_desk(word, desk)),
    }
}

/// Which of several servers this is, `1/2`, and how many there are.
fn share(given: &ArgMatches) -> Result<Option<(i64, i64)>, Stop> {
    let Some(word) = text(given, "share") else {
        return Ok(None);
    };
    let numbers = word.split_once('/').map(|(a, b)| (a.parse(), b.parse()));
    match numbers {
        Some((Ok(which), Ok(of))) if 1 <= which && which <= of => Ok(Some((which, of))),
        _ => wrong(format!(
            "--share {word}: which of how many servers is expected, as 1/2"
        )),
    }
}

/// How clients find this server, as those are told who reach another one.
fn server(given: &ArgMatches) -> String {
    let host = std::fs::read_to_string("/proc/sys/kernel/hostname").unwrap_or_default();
    let socket = text(given, "socket").unwrap_or_default();
    let whole = std::path::absolute(socket).unwrap_or_default();
    match text(given, "server") {
        Some(name) => name.to_string(),
        None => format!("{}:{}", host.trim(), whole.display()),
    }
}

/// A socket's mode, in octal digits.
fn mode(given: &ArgMatches, name: &str) -> Result<u32, Stop> {
    let Some(digits) = text(given, name) else {
        return Ok(0o600);
    };
    let mode = u32::from_str_radix(digits, 8);
    match mode.ok().filter(|mode| mode & !0o777 == 0) {
        Some(mode) => Ok(mode),
        None => wrong(format!(
            "--{name} {digits}: octal digits are expected, as 0660"
        )),
    }
}

fn serve(given: &ArgMatches, out: &mut dyn Write) -> Done {
    let number = |name: &str, usual: u64| given.get_one::<u64>(name).copied().unwrap_or(usual);
    let policy = match text(given, "policy") {
        Some(_) => Some(policy(given)?),
        None => None,
    };
    let (socket_mode, http_mode) = (mode(given, "socket-mode")?, mode(given, "http-mode")?);
    let options = serve::Options {
        desks: desks(given)?,
        policy,
        socket: text(given, "socket").map(|path| serve::Socket {
            path: path.to_string(),
            mode: socket_mode,
            group: text(given, "socket-group").map(String::from),
        }),
        http: text(given, "http").map(|address| serve::Http {
            address: address.to_string(),
            header: text(given, "account-header").map(String::from),
            mode: http_mode,
            group: text(given, "http-group").map(String::from),
            connections: number("http-connections", 1024) as usize,
            each: given
                .get_one::<u64>("http-account-connections")
                .map(|&count| count as usize),
            tls: text(given, "tls-cert").map(|certificate| serve::Tls {
                certificate: certificate.to_string(),
                key: text(given, "tls-key").unwrap_or_default().to_string(),
                clients: text(given, "tls-client-ca").map(String::from),
            }),
        }),
        access: text(given, "access").map(String::from),
        group: number("group", 4096) as usize,
        snapshot: number("snapshot", 100_000) as i64,
        saved: match text(given, "saved") {
            Some("normal") => Saved::Normal,
            Some("replicated") => Saved::Replicated,
            _ => Saved::Full,
        },
        takeover: journal::Takeover {
            server: server(given),
            silent: Duration::from_secs(number("takeover", 5)),
            share: share(given)?,
        },
        standby: given.get_flag("standby"),
        keys: number("keys", 30) as i64 * 86_400_000_000,
        clients: number("clients", 1000) as usize,
        clients_each: given
            .get_one::<u64>("account-clients")
            .map(|&count| count as usize),
        patience: Duration::from_secs(number("idle-seconds", 60)),
        questions: serve::Allowed {
            seconds: number("question-seconds", 5),
            bytes: number("question-megabytes", 32) as usize * 1_000_000,
        },
        together: given.get_flag("together"),
        log: report::How {
            level: text(given, "log-level")
                .and_then(report::Level::of_name)
                .unwrap_or(report::Level::Warn),
            form: text(given, "log")
                .and_then(report::Form::of_name)
                .unwrap_or(report::Form::Text),
        },
    };
    serve::serve(&options, out)
}

/// A journal read through its desk, with the options in the place of words.
fn journal_of_desk(given: &ArgMatches, socket: &str, out: &mut dyn Write) -> Done {
    let mut filter: Vec<(&str, String)> = Vec::new();
    for name in [
        "order", "user", "task", "account", "reply", "since", "until",
    ] {
        filter.extend(text(given, name).map(|value| (name, value.to_string())));
    }
    for name in ["opening", "last"] {
        let value = given.get_one::<u64>(name);
        filter.extend(value.map(|value| (name, value.to_string())));
    }
    if given.get_flag("barred") {
        filter.push(("barred", String::new()));
    }
    let options = ask::Options {
        sockets: &[socket.to_string()],
        desk: text(given, "desk"),
        account: None,
        json: given.get_flag("json"),
        why: false,
        strict: false,
        retry: Duration::ZERO,
    };
    ask::journal(&options, &filter, out)
}

fn journal(given: &ArgMatches, out: &mut dyn Write) -> Done {
    if let Some(socket) = text(given, "socket") {
        return journal_of_desk(given, socket, out);
    }
    let file = &journal_of(given, "file")?;
    let seal = match text(given, "seal") {
        Some(word) if !word.is_empty() => {
            Some(journal::Seal::of_text(word).map_err(|why| Stop::Wrong(vec![why]))?)
        }
        _ => None,
    };
    let print = given.contains_id("seal") && seal.is_none();
    if given.get_flag("check") {
        let sound = journal::check(file, seal.as_ref(), out)?;
        return match print {
            true => journal::print_seal(file, out),
            false => Ok(sound),
        };
    }
    if seal.is_some() {
        return wrong("a seal is compared by --check: journal FILE --check --seal SEAL");
    }
    if print {
        return journal::print_seal(file, out);
    }
    let filter = journal::Filter {
        opening: given.get_one::<u64>("opening").map(|&n| n as i64),
        last: given.get_one::<u64>("last").map(|&count| count as usize),
        barred: given.get_flag("barred"),
        json: given.get_flag("json"),
        ..journal::Filter::of_texts(|name| text(given, name).map(String::from))
    };
    journal::list(file, &filter, out)
}

/// A desk as a journal leaves it.
fn stood(given: &ArgMatches) -> Result<Desk, Stop> {
    let found = journal::found(&journal_of(given, "journal")?, false)?;
    Ok(Desk::at(&found.policy, found.live.names, found.engine))
}

fn finish(given: &ArgMatches, out: &mut dyn Write) -> Done {
    let desk = stood(given)?;
    let tries = given.get_one::<u64>("tries").copied();
    let budget = finish::Budget::of_tries(tries.unwrap_or(finish::TRIES));
    let options = finish::Options {
        list: text(given, "with"),
        budget: &budget,
        json: given.get_flag("json"),
    };
    match text(given, "order") {
        Some(order) => finish::finish_one(&desk, order, &options, out),
        None => finish::finish_all(&desk, &options, out),
    }
}

fn holds(given: &ArgMatches, out: &mut dyn Write) -> Done {
    let word = |name: &str| text(given, name);
    let asked = holds::Words {
        word: &word,
        said: |name, value| format!("--{name} {value}"),
    };
    let panels = asked.panels(&words(given, "panels")).or_else(wrong)?;
    let picture = holds::Picture {
        panels,
        title: word("title"),
        top: given.get_one::<f64>("top").copied(),
    };
    let mut options = asked.options().or_else(wrong)?;
    options.plot = word("plot").map(|file| (file, picture));
    if let Some(&count) = given.get_one::<u64>("worst") {
        options.worst = count as usize;
    }
    options.form = match (given.get_flag("csv"), given.get_flag("json")) {
        (true, _) => holds::Form::Csv,
        (_, true) => holds::Form::Json,
        _ => holds::Form::Text,
    };
    holds::holds(&journal_of(given, "journal")?, &options, out)
}

fn planned(given: &ArgMatches, out: &mut dyn Write) -> Done {
    let desk = match text(given, "journal") {
        Some(_) => Some(stood(given)?),
        None => None,
    };
    let own = match (text(given, "policy"), &desk) {
        (None, Some(desk)) => desk.policy.clone(),
        _ => policy(given)?,
    };
    let shift = words(given, "shift");
    let options = staff::Planning {
        shift: &shift,
        shifts: text(given, "shifts"),
        template: text(given, "template"),
        absent: given.get_one::<u64>("absent").map(|&count| count as usize),
        tries: given
            .get_one::<u64>("tries")
            .copied()
            .unwrap_or(finish::TRIES),
        plan: given.get_flag("plan"),
        json: given.get_flag("json"),
        plot: text(given, "plot"),
    };
    staff::planned(&own, desk.as_ref(), &options, out)
}

fn staff(given: &ArgMatches, out: &mut dyn Write) -> Done {
    let word = |name| text(given, name);
    if word("simulate").is_none() {
        return planned(given, out);
    }
    let options = staff::Options {
        orders: word("simulate").unwrap_or_default(),
        roster: word("roster").unwrap_or_default(),
        journal: &journal_of(given, "journal")?,
        minutes: word("minutes"),
        prefer: word("prefer"),
        notice: given.get_one::<f64>("notice").copied().unwrap_or(2.0),
        seed: given.get_one::<u64>("seed").copied().unwrap_or(1),
    };
    staff::simulate(&policy(given)?, &options, out)
}

fn words(given: &ArgMatches, name: &str) -> Vec<String> {
    let all = given.get_many(name).into_iter().flatten();
    all.cloned().collect()
}

fn done(out: &mut dyn Write) -> Done {
    let given = command::command().get_matches();
    match given.subcommand() {
        Some(("check", given)) => {
            let (strict, json) = (given.get_flag("strict"), given.get_flag("json"));
            check::check(read_policy(given)?, strict, json, out)
        }
        Some(("run", given)) => {
            run::run(policy(given)?, text(given, "requests"), style(given), out)
        }
        Some(("test", given)) => {
            let files = words(given, "files");
            let how = expect::How {
                update: given.get_flag("update"),
                json: given.get_flag("json"),
            };
            expect::test(&files, how, out)
        }
        Some(("convert", given)) => convert(given, out),
        Some(("diff", given)) => diff(given, out),
        Some(("whatif", given)) => whatif(given, out),
        Some(("move", given)) => moving(given, out),
        Some(("write", given)) => write(given, out),
        Some(("mend", given)) => mend(given, out),
        Some(("serve", given)) => serve(given, out),
        Some(("ask", given)) => {
            let retry = given.get_one::<u64>("retry").copied();
            let options = ask::Options {
                sockets: &words(given, "socket"),
                desk: text(given, "desk"),
                account: text(given, "as"),
                json: given.get_flag("json"),
                why: given.get_flag("why"),
                strict: given.get_flag("strict"),
                retry: Duration::from_secs(retry.unwrap_or(10)),
            };
            ask::ask(&options, &words(given, "lines"), out)
        }
        Some(("journal", given)) => journal(given, out),
        Some(("who", given)) => {
            let word = |name| text(given, name).unwrap_or_default();
            let desk = stood(given)?;
            finish::who(
                &desk,
                word("order"),
                word("task"),
                given.get_flag("json"),
                out,
            )
        }
        Some(("finish", given)) => finish(given, out),
        Some(("holds", given)) => holds(given, out),
        Some(("staff", given)) => staff(given, out),
        Some(("generate", given)) => generate(given, out),
        _ => Ok(WRONG),
    }
}

fn told(out: &mut dyn Write, lines: Vec<String>, status: u8) -> ExitCode {
    let _ = out.flush();
    lines.iter().for_each(report::report);
    status.into()
}

fn main() -> ExitCode {
    let mut out = BufWriter::new(stdout());
    let done = done(&mut out).and_then(|status| {
        out.flush()?;
        Ok(status)
    });
    let status = match done {
        Ok(status) => status.into(),
        Err(Stop::Quiet) => WELL.into(),
        Err(Stop::Wrong(lines)) => told(&mut out, lines, WRONG),
        Err(Stop::Refused(lines)) => told(&mut out, lines, REFUSED),
    };
    report::drained();
    status
}
