//! `write` and `mend`: a policy as it is now to a file, and a damaged file to one that loads (document 02, Asks 8 and 12).

use crate::convert::{self, To};
use crate::desk::Desk;
use crate::source::{Policy, Requests};
use crate::stop::{wrong, Done, Stop, REFUSED, WELL};
use mishantral::{Engine, Reply};
use records::LENGTH;
use serde_json::json;
use std::fs;
use std::io::Write;

/// The policy of an engine as it is now, by the library's own call.
#[cfg(mishantral_write)]
pub fn written(engine: &Engine) -> Result<Vec<u8>, Stop> {
    let written = engine.write_policy();
    written.or_else(|reply| wrong(format!("the policy cannot be written: {reply}")))
}

#[cfg(not(mishantral_write))]
pub fn written(_: &Engine) -> Result<Vec<u8>, Stop> {
    older("writes a policy out")
}

/// What became of a file: an engine with what was kept, the records kept, and of each dropped one its place, from 1, and its refusal.
pub struct Mended {
    pub engine: Engine,
    pub records: Vec<u8>,
    pub dropped: Vec<(usize, Reply)>,
}

/// A file mended by the library's own call.
#[cfg(mishantral_mend)]
pub fn mended(file: &[u8]) -> Result<Mended, Stop> {
    let mended = Engine::mend(file);
    let dropped = mended.dropped.iter();
    Ok(Mended {
        dropped: dropped.map(|d| (d.place, d.reply)).collect(),
        engine: mended.engine,
        records: mended.records,
    })
}

#[cfg(not(mishantral_mend))]
pub fn mended(_: &[u8]) -> Result<Mended, Stop> {
    older("mends a file")
}

/// What the linked library has not.
#[cfg(not(all(mishantral_write, mishantral_mend)))]
fn older<T>(call: &str) -> Result<T, Stop> {
    wrong(format!(
        "the proved library that this program is built with has no call that {call}: tools/program builds both again"
    ))
}

/// Where a command's result goes, and in which form.
pub struct Output<'a> {
    /// A file; none and `-` are standard output.
    pub file: Option<&'a str>,
    /// By the option, else by the file's name.
    pub to: To,
}

impl<'a> Output<'a> {
    pub fn new(file: Option<&'a str>, to: Option<&str>, numbers: bool) -> Output<'a> {
        let file = file.filter(|name| *name != "-");
        let text = file.is_none_or(|name| name.ends_with(".txt"));
        let to = match to.unwrap_or(if text { "text" } else { "records" }) {
            "text" => To::Text { numbers },
            _ => To::Records,
        };
        Output { file, to }
    }

    /// Writes the policy; a file is touched when all of it is there.
    fn put(&self, policy: &Policy, out: &mut dyn Write) -> Result<(), Stop> {
        let Some(name) = self.file else {
            convert::policy(policy, self.to, out)?;
            return Ok(());
        };
        let mut made = Vec::new();
        convert::policy(policy, self.to, &mut made)?;
        fs::write(name, made).or_else(|why| wrong(format!("{name}: it cannot be written: {why}")))
    }
}

fn counted(count: usize, one: &str, many: &str) -> String {
    format!("{count} {}", if count == 1 { one } else { many })
}

/// Has the desk take the requests, and writes its policy out.
pub fn write(mut desk: Desk, requests: &Requests, output: &Output, out: &mut dyn Write) -> Done {
    let (mut granted, mut refused) = (0, 0);
    for answer in requests.iter().filter_map(|line| desk.take(line)) {
        match answer.is_granted() {
            true => granted += 1,
            false => refused += 1,
        }
    }
    let policy = Policy {
        bytes: written(desk.engine())?,
        lines: Vec::new(),
        names: desk.names,
        dealt: None,
        ..desk.policy
    };
    output.put(&policy, out)?;
    if let Some(file) = output.file {
        let records = counted(policy.bytes.len() / LENGTH, "record", "records");
        let requests = match (granted, refused) {
            (0, 0) => String::new(),
            (granted, 0) => format!(", {} granted", counted(granted, "request", "requests")),
            (granted, refused) => format!(
                ", {} granted and {refused} refused",
                counted(granted, "request", "requests")
            ),
        };
        writeln!(out, "{file}: {records}{requests}")?;
    }
    Ok(WELL)
}

/// Mends a file and says what was dropped, a line each: `record 17: 5 TAKEN  user 300`.
pub fn mend(policy: Policy, output: Option<&Output>, as_json: bool, out: &mut dyn Write) -> Done {
    let mended = mended(&policy.bytes)?;
    let (kept, dropped) = (mended.records.len() / LENGTH, mended.dropped.len());
    let on_stdout = output.is_some_and(|output| output.file.is_none());
    let mut report = String::new();
    for &(place, reply) in &mended.dropped {
        let (at, line) = (policy.place_within(place - 1), policy.line(place - 1));
        report += &match as_json {
            true => {
                let line_of_text = policy.line_of(place - 1);
                let (number, name) = (reply.number(), reply.name());
                format!(
                    "{}\n",
                    json!({"record": place, "line": line_of_text, "reply": number, "name": name, "dropped": line})
                )
            }
            false => format!("{at}: {reply}  {line}\n"),
        };
    }
    let kept_policy = Policy {
        bytes: mended.records,
        ..policy.clone()
    };
    if let Some(output) = output {
        output.put(&kept_policy, out)?;
    }
    let written = match output {
        None => "; nothing is written, -o says where to".to_string(),
        Some(output) => output
            .file
            .map_or(String::new(), |name| format!("; written to {name}")),
    };
    report += &match as_json {
        true => format!(
            "{}\n",
            json!({"file": policy.file, "kept": kept, "dropped": dropped})
        ),
        false => format!(
            "{}: {} kept, {dropped} dropped{written}\n",
            policy.file,
            counted(kept, "record", "records")
        ),
    };
    match on_stdout {
        true => eprint!("{report}"),
        false => out.write_all(report.as_bytes())?,
    }
    Ok(if dropped == 0 { WELL } else { REFUSED })
}

/// Whether two names are of one file.
pub fn is_same(one: &str, other: &str) -> bool {
    let whole = |name: &str| fs::canonicalize(name).ok();
    one != "-" && other != "-" && whole(one).is_some_and(|path| whole(other) == Some(path))
}
