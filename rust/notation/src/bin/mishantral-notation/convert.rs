//! The commands `records` and `words`: convert a policy, or requests, to records or to text.

use crate::{usage, Given, Stop};
use notation::reader::{self, Line};
use notation::{source, writer, Names};

/// What is converted: a policy's records and names, or requests for a policy with these names.
enum Source {
    Policy(source::Policy),
    Requests(source::Requests, Names),
}

fn read(given: &Given) -> Result<Source, Stop> {
    let file = given.word(0, 0)?.unwrap_or("-");
    let how = given.reading();
    Ok(match given.value("--for") {
        Some(policy) if policy == file => return Err(usage("--for takes another file")),
        Some(policy) => {
            let names = source::policy(policy, &how)?.names;
            Source::Requests(source::requests(file, &names)?, names)
        }
        None => {
            let policy = source::either(file, &how)?;
            for warning in policy.warnings() {
                eprintln!("mishantral-notation: {warning}");
            }
            Source::Policy(policy)
        }
    })
}

pub fn records(arguments: &[&str]) -> Result<Vec<u8>, Stop> {
    let given = Given::read(arguments, &["--for", "--tasks"], &["--all-sections"])?;
    Ok(match read(&given)? {
        Source::Policy(policy) => policy.bytes,
        Source::Requests(lines, _) => bytes(&lines),
    })
}

pub fn words(arguments: &[&str]) -> Result<Vec<u8>, Stop> {
    let flags = ["--numbers", "--all-sections"];
    let given = Given::read(arguments, &["--for", "--tasks"], &flags)?;
    let numbers = given.flag("--numbers");
    let text = match read(&given)? {
        Source::Policy(policy) if numbers => notation::write(&policy.bytes),
        Source::Policy(policy) => writer::policy(&policy.bytes, &policy.names),
        Source::Requests(lines, _) if numbers => notation::write(&bytes(&lines)),
        Source::Requests(lines, mut names) => {
            let mut text = String::new();
            for line in &lines {
                reader::give(&mut names, &line.namings, false);
                if let Some(record) = &line.record {
                    text += &(writer::line(record, &names) + "\n");
                }
            }
            text
        }
    };
    Ok(text.into_bytes())
}

/// The bytes of all records.
pub fn bytes(lines: &[Line]) -> Vec<u8> {
    let records = lines.iter().filter_map(|line| line.record.as_deref());
    records.flatten().copied().collect()
}
