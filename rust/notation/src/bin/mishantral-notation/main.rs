//! The notation's program: converts text and OPL/XML to records and records to text, and runs a desk program on files of any
//! format. `../../desk` calls it.

mod convert;
mod desk;

use notation::dealer::Sections;
use notation::source::{Reading, Wrongs};
use std::io::{self, Write};
use std::process::ExitCode;

const HELP: &str = "\
Records as lines of words (docs/RULES.md), and back; a desk program on files of either form.

  mishantral-notation records [--for POLICY] [--tasks TASKS] [--all-sections] [FILE]
                              a policy, or requests, to records
  mishantral-notation words [--for POLICY] [--tasks TASKS] [--all-sections] [--numbers] [FILE]
                              the same as text; --numbers: without names
  mishantral-notation desk --program COMMAND --room FOLDER [--words] [--tasks TASKS] [--all-sections] [--write FILE] POLICY [REQUESTS]
                              what ./desk does (its --help tells it), on the desk program that a shell runs by COMMAND in
                              FOLDER, where policy.rec is written
  mishantral-notation desk --look [--words] [--tasks TASKS] [--all-sections] [--write FILE] POLICY [REQUESTS]
                              what can be judged of the files alone; nothing is run
  mishantral-notation forms   every line that the notation has
  mishantral-notation replies every reply's number and name

  --for       FILE is requests, which may use the names of this policy
  --tasks     the task lines of a policy in OPL/XML: a task's name, one space and its template's name
  --all-sections
              of OPL/XML read role hierarchies (6.2), separation of duty in them (6.4) and Chinese walls (6.6) too

A file is records of sixteen bytes, text in the notation, or OPL/XML, which its content tells, or the suffix .txt or .xml. Without FILE,
or where it is -, standard input is read. What is made goes to standard output. One line a record; # begins a comment. A number is
decimal, or hexadecimal after 0x. All that is wrong in a text is told, and then nothing is made. Whoever stops reading what is made ends
the program quietly.

Exit status: 0 done; 1 a policy that `desk` loaded was refused; 2 wrong use, text that is not in the notation, or a file that cannot be
read or written.
";

/// Why a command ends early.
enum Stop {
    /// The lines of an error message; exit status 2.
    Wrong(Wrongs),
    /// The reader of the output has closed it: nothing is reported.
    Quiet,
}

/// The exit status of a command.
type Done = Result<u8, Stop>;

impl From<Wrongs> for Stop {
    fn from(lines: Wrongs) -> Stop {
        Stop::Wrong(lines)
    }
}

/// A write of the output failed.
impl From<io::Error> for Stop {
    fn from(why: io::Error) -> Stop {
        match why.kind() {
            io::ErrorKind::BrokenPipe => Stop::Quiet,
            _ => wrong(format!("the output could not be written: {why}")),
        }
    }
}

fn wrong(line: impl Into<String>) -> Stop {
    Stop::Wrong(vec![line.into()])
}

fn usage(what: &str) -> Stop {
    wrong(format!("{what}; --help tells the use"))
}

/// The options with a value, those without, and the other arguments in order.
struct Given<'a> {
    values: Vec<(&'a str, &'a str)>,
    flags: Vec<&'a str>,
    words: Vec<&'a str>,
}

impl<'a> Given<'a> {
    fn read(arguments: &[&'a str], values: &[&str], flags: &[&str]) -> Result<Given<'a>, Stop> {
        let (mut given, mut plain) = (
            Given {
                values: vec![],
                flags: vec![],
                words: vec![],
            },
            false,
        );
        let mut rest = arguments.iter();
        while let Some(&word) = rest.next() {
            let (option, joined) = match word.split_once('=') {
                Some((option, value)) => (option, Some(value)),
                None => (word, None),
            };
            match word {
                _ if plain || word == "-" || !word.starts_with('-') => given.words.push(word),
                "--" => plain = true,
                _ if flags.contains(&word) => given.flags.push(word),
                _ if values.contains(&option) => {
                    let value = joined.or_else(|| rest.next().copied());
                    let value = value.filter(|value| !value.is_empty());
                    let missing = || usage(&format!("{option} takes a value"));
                    given.values.push((option, value.ok_or_else(missing)?));
                }
                _ => return Err(usage(&format!("no such option: {word}"))),
            }
        }
        Ok(given)
    }

    fn value(&self, option: &str) -> Option<&'a str> {
        let last = self.values.iter().rfind(|(name, _)| *name == option);
        last.map(|&(_, value)| value)
    }

    fn flag(&self, option: &str) -> bool {
        self.flags.contains(&option)
    }

    /// How to read a policy.
    fn reading(&self) -> Reading<'a> {
        Reading {
            tasks: self.value("--tasks"),
            format: None,
            sections: match self.flag("--all-sections") {
                true => Sections::All,
                false => Sections::Asked,
            },
        }
    }

    /// The argument at an index, if there is one; an error if there is an argument after index `last`.
    fn word(&self, at: usize, last: usize) -> Result<Option<&'a str>, Stop> {
        match self.words.get(last + 1) {
            Some(further) => Err(usage(&format!("one argument too many: {further}"))),
            None => Ok(self.words.get(at).copied()),
        }
    }
}

fn replies() -> String {
    let line = |r: &notation::Reply| format!("{:>2} {}\n", r.number(), r.name());
    notation::Reply::ALL.iter().map(line).collect()
}

fn done(arguments: &[&str], out: &mut dyn Write) -> Done {
    let made = match arguments {
        ["desk", rest @ ..] => return desk::desk(rest, out),
        ["records", rest @ ..] => convert::records(rest)?,
        ["words", rest @ ..] => convert::words(rest)?,
        ["forms"] => notation::forms().into_bytes(),
        ["replies"] => replies().into_bytes(),
        ["help" | "--help" | "-h", ..] => HELP.as_bytes().to_vec(),
        [] => return Err(usage("a command is missing")),
        [other, ..] => return Err(usage(&format!("no such command: {other:?}"))),
    };
    out.write_all(&made)?;
    Ok(0)
}

fn main() -> ExitCode {
    let arguments: Vec<String> = std::env::args().skip(1).collect();
    let arguments: Vec<&str> = arguments.iter().map(String::as_str).collect();
    // Users know this program's `desk` as the script that calls it.
    let called = match arguments.first() {
        Some(&"desk") => "desk",
        _ => "mishantral-notation",
    };
    let mut out = io::stdout().lock();
    let done = done(&arguments, &mut out).and_then(|status| {
        out.flush()?;
        Ok(status)
    });
    match done {
        Ok(status) => status.into(),
        Err(Stop::Quiet) => ExitCode::SUCCESS,
        Err(Stop::Wrong(lines)) => {
            for line in lines {
                eprintln!("{called}: {line}");
            }
            ExitCode::from(2)
        }
    }
}
