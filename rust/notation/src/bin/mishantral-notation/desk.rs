//! The command `desk`: runs a desk program (docs/RULES.md, "The desk program and its listing") on files of any format. `./desk`
//! builds the proved one and calls this.

use crate::convert::bytes;
use crate::{usage, wrong, Done, Given, Stop};
use notation::source::{self, Policy, Reading, Requests};
use notation::{dealer, writer, Reply};
use records::LENGTH;
use std::fs::{self, File};
use std::io::{self, BufRead, BufReader, Read, Write};
use std::path::Path;
use std::process::{Child, Command, Stdio};

/// The longest policy that the desk program accepts, in bytes.
const LONGEST: usize = 65_536;

/// The options and files of the command.
struct Asked<'a> {
    words: bool,
    how: Reading<'a>,
    write: Option<&'a str>,
    policy: &'a str,
    /// The file of requests; `-` is standard input.
    requests: &'a str,
}

impl<'a> Asked<'a> {
    fn of(given: &Given<'a>) -> Result<Asked<'a>, Stop> {
        let missing = || usage("a policy file is missing");
        let policy = given.word(0, 1)?.ok_or_else(missing)?;
        if policy == "-" {
            return Err(usage("a policy is a file"));
        }
        let write = given.value("--write");
        if let Some(folder) = write.filter(|file| Path::new(file).is_dir()) {
            return Err(wrong(format!("{folder}: it is a folder")));
        }
        Ok(Asked {
            words: given.flag("--words"),
            how: given.reading(),
            write,
            policy,
            requests: given.word(1, 1)?.unwrap_or("-"),
        })
    }

    fn policy(&self) -> Result<Policy, Stop> {
        Ok(source::policy(self.policy, &self.how)?)
    }

    /// Whether the proved library is needed: to read OPL/XML, or to write a policy out.
    fn needs_library(&self, policy: &Policy) -> bool {
        self.write.is_some() || policy.is_dealt()
    }

    /// The requests, if all of them are read before the first answer; `None` if they are answered as they arrive.
    fn requests(&self, policy: &Policy) -> Result<Option<Requests>, Stop> {
        let stream = self.requests == "-" && !self.words && self.write.is_none();
        if stream && !is_file("/dev/stdin") {
            return Ok(None);
        }
        Ok(Some(source::requests(self.requests, &policy.names)?))
    }
}

fn is_file(path: &str) -> bool {
    fs::metadata(path).is_ok_and(|file| file.is_file())
}

pub fn desk(arguments: &[&str], out: &mut dyn Write) -> Done {
    let values = ["--program", "--room", "--tasks", "--write"];
    let given = Given::read(arguments, &values, &["--words", "--look", "--all-sections"])?;
    let asked = Asked::of(&given)?;
    if given.flag("--look") {
        return look(&asked, out);
    }
    let (Some(command), Some(room)) = (given.value("--program"), given.value("--room")) else {
        return Err(usage("desk takes --program and --room"));
    };
    run(&asked, &Program { command, room }, out)
}

/// Checks the files that can be read more than once; prints `library` if the library is needed.
fn look(asked: &Asked, out: &mut dyn Write) -> Done {
    let piped = |file: &str| {
        let path = Path::new(file);
        path.exists() && !path.is_file() && !path.is_dir()
    };
    if piped(asked.policy) || asked.how.tasks.is_some_and(piped) {
        return Ok(0);
    }
    let policy = asked.policy()?;
    if asked.requests != "-" && !piped(asked.requests) {
        source::requests(asked.requests, &policy.names)?;
    }
    if asked.needs_library(&policy) {
        out.write_all(b"library\n")?;
    }
    Ok(0)
}

/// The desk program: its shell command, and the folder of its policy.rec.
struct Program<'a> {
    command: &'a str,
    room: &'a str,
}

impl Program<'_> {
    fn start(&self, input: Stdio) -> Result<Child, Stop> {
        let mut shell = Command::new("sh");
        shell.args(["-c", self.command]).current_dir(self.room);
        let child = shell.stdin(input).stdout(Stdio::piped()).spawn();
        child.map_err(|why| wrong(format!("the desk program cannot be started: {why}")))
    }

    /// Writes a file into the folder; returns its path.
    fn put(&self, name: &str, bytes: &[u8]) -> Result<String, Stop> {
        let path = format!("{}/{name}", self.room);
        let failed = |why: io::Error| wrong(format!("{path}: it cannot be written: {why}"));
        fs::write(&path, bytes).map_err(failed)?;
        Ok(path)
    }

    /// Its listing for a complete file of requests.
    fn listing(&self, requests: &[u8]) -> Result<String, Stop> {
        let path = self.put("requests.rec", requests)?;
        let failed = |why: io::Error| wrong(format!("the desk program failed: {why}"));
        let child = self.start(File::open(path).map_err(failed)?.into())?;
        let output = child.wait_with_output().map_err(failed)?;
        let listing = String::from_utf8(output.stdout).unwrap_or_default();
        match output.status.success() {
            false => Err(wrong("the desk program failed")),
            // A truncated listing, for instance after a full disk, is an error: it must have a line for the load and one for each
            // request.
            true if !listing.ends_with('\n') => Err(incomplete()),
            true => Ok(listing),
        }
    }
}

fn incomplete() -> Stop {
    wrong("the desk program's listing is not complete")
}

fn run(asked: &Asked, program: &Program, out: &mut dyn Write) -> Done {
    let policy = asked.policy()?;
    if policy.is_dealt() && !dealer::is_proved(asked.how.sections) {
        let file = &policy.file;
        eprintln!("desk: {file}: the plain reader reads it, which is not proved: the library has no reader");
    }
    for warning in policy.warnings() {
        eprintln!("desk: {warning}");
    }
    let whole = asked.requests(&policy)?;
    program.put("policy.rec", &policy.bytes)?;
    let load = program.listing(&[])?;
    let told = |error: notation::Error| wrong(format!("the desk program's listing: {error}"));
    let (reply, place) = notation::load(&load).map_err(told)?;
    if !reply.is_granted() {
        return refused(asked, &policy, &load, (reply, place), out);
    }
    let streamed = whole.is_none();
    let requests = match whole {
        Some(requests) => requests,
        None => match stream(&load, program, out)? {
            None => return Ok(0),
            Some(text) => source::requests_of("-", &text, &policy.names)?,
        },
    };
    let listing = program.listing(&bytes(&requests))?;
    if listing.lines().count() != 1 + bytes(&requests).len().div_ceil(LENGTH) {
        return Err(incomplete());
    }
    if let Some(file) = asked.write {
        write_out(file, &policy, &requests, &listing)?;
    }
    let shown = match (asked.words, streamed) {
        (true, _) => {
            for line in notation::stuck(&policy.bytes, &policy.names) {
                eprintln!("desk: {}: warning: {line}", policy.file);
            }
            let explained =
                notation::explain(Some(&policy.bytes), &requests, &listing, &policy.names);
            explained.map_err(told)?
        }
        (false, true) => listing
            .split_once('\n')
            .map_or("", |(_, rest)| rest)
            .to_string(),
        (false, false) => listing,
    };
    out.write_all(shown.as_bytes())?;
    Ok(0)
}

/// Prints a refused load and where the policy is wrong.
fn refused(
    asked: &Asked,
    policy: &Policy,
    load: &str,
    (reply, place): (Reply, usize),
    out: &mut dyn Write,
) -> Done {
    let explained = || notation::explain(Some(&policy.bytes), &[], load, &policy.names);
    let shown = match asked.words {
        true => explained().unwrap_or_default(),
        false => load.to_string(),
    };
    out.write_all(shown.as_bytes())?;
    out.flush()?;
    let (file, bytes) = (&policy.file, policy.bytes.len());
    if bytes > LONGEST {
        eprintln!("desk: {file}: its records are {bytes} bytes; a policy has at most {LONGEST}, which is 4096 records");
    } else {
        eprintln!("desk: {}", policy.refusal(reply, place));
    }
    let kind = policy.bytes.get(place.saturating_sub(1) * LENGTH);
    if place > 0 && reply == Reply::Shape && kind.is_some_and(|&kind| kind >= 32) {
        eprintln!("desk: that record is a request: are policy and requests swapped?");
    }
    Ok(1)
}

/// Writes the policy as it is after the requests of a listing: as text if the file's name ends so, else as records.
fn write_out(file: &str, policy: &Policy, requests: &Requests, listing: &str) -> Result<(), Stop> {
    if notation::WRITER != "proved" {
        eprintln!("desk: {file}: the plain engine writes it, which is not proved: the library has no call for it");
    }
    let mut names = policy.names.clone();
    let written = notation::written(&policy.bytes, requests, listing, &mut names);
    let written = written.map_err(|why| {
        wrong(format!(
            "{file}: the policy is not written: the desk program's listing: {why}"
        ))
    })?;
    let made = match file.ends_with(".txt") {
        true => writer::policy(&written, &names).into_bytes(),
        false => written,
    };
    fs::write(file, made).map_err(|why| wrong(format!("{file}: it cannot be written: {why}")))
}

/// Answers records from standard input as they arrive. Returns text unanswered, because text is answered only once it is
/// complete.
fn stream(load: &str, program: &Program, out: &mut dyn Write) -> Result<Option<Vec<u8>>, Stop> {
    out.write_all(load.as_bytes())?;
    out.flush()?;
    let failed = |why: io::Error| wrong(format!("standard input cannot be read: {why}"));
    // Two bytes distinguish records, whose second is 0, from text, and they are available as soon as there is any input.
    let mut first = Vec::new();
    io::stdin()
        .lock()
        .take(2)
        .read_to_end(&mut first)
        .map_err(failed)?;
    let control = |b: &u8| b.is_ascii_control() && !matches!(b, b'\t' | b'\n' | b'\r');
    if !first.iter().any(control) {
        io::stdin().lock().read_to_end(&mut first).map_err(failed)?;
        return Ok(Some(first));
    }
    let mut child = program.start(Stdio::piped())?;
    let (input, output) = (child.stdin.take(), child.stdout.take());
    // After the program has ended, this thread may still wait for input; it is not joined.
    std::thread::spawn(move || input.map(|input| relay(&first, input)));
    let mut lines = BufReader::new(output.ok_or_else(incomplete)?);
    lines.read_line(&mut String::new())?;
    loop {
        let some = lines.fill_buf()?;
        if some.is_empty() {
            break;
        }
        out.write_all(some)?;
        out.flush()?;
        let length = some.len();
        lines.consume(length);
    }
    match child.wait() {
        Ok(status) if status.success() => Ok(None),
        _ => Err(wrong("the desk program failed")),
    }
}

/// Passes standard input on as it arrives.
fn relay(first: &[u8], mut to: impl Write) -> io::Result<()> {
    to.write_all(first)?;
    let mut from = io::stdin().lock();
    loop {
        let length = {
            let some = from.fill_buf()?;
            to.write_all(some)?;
            some.len()
        };
        if length == 0 {
            return Ok(());
        }
        from.consume(length);
    }
}
