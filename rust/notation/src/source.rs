//! Policies and requests as files: records, text in the notation, or a dealer's OPL/XML with its task lines. Errors in a file are
//! reported in lines that begin with its name.

use crate::dealer::{self, Sections, Spot};
use crate::is_text;
use crate::names::{Names, Sort};
use crate::reader::{self, Error, Line};
use crate::writer;
use records::{Record, Reply, LENGTH};
use std::io::Read;
use std::sync::Arc;

/// Errors, one line each.
pub type Wrongs = Vec<String>;

/// The format of a policy file.
#[derive(Clone, Copy, PartialEq, Eq, Debug)]
pub enum Format {
    /// Sixteen bytes a record.
    Records,
    /// Lines in the notation.
    Text,
    /// A dealer's OPL/XML.
    Opl,
}

impl Format {
    /// The names of the formats, for an option.
    pub const NAMES: [&'static str; 3] = ["records", "text", "opl"];

    /// The format with this name.
    pub fn of_name(name: &str) -> Option<Format> {
        match name {
            "records" => Some(Format::Records),
            "text" => Some(Format::Text),
            "opl" => Some(Format::Opl),
            _ => None,
        }
    }

    /// The format that a file seems to have. No line of the notation begins with `<`; a record of that kind has a zero after it,
    /// and one in range has a byte that no text has.
    pub fn of_content(file: &str, bytes: &[u8]) -> Format {
        let text = bytes
            .strip_prefix(b"\xef\xbb\xbf")
            .unwrap_or(bytes)
            .trim_ascii_start();
        let tag = text.first() == Some(&b'<') && text.get(1) != Some(&0);
        if tag || file.ends_with(".xml") {
            Format::Opl
        } else if file.ends_with(".txt") || is_text(bytes) {
            Format::Text
        } else {
            Format::Records
        }
    }
}

/// A policy's records, the place of each, and the names that it gives.
#[derive(Clone, Default, Debug)]
pub struct Policy {
    /// The file's name as the user gave it.
    pub file: String,
    /// Sixteen bytes a record; the last may be truncated.
    pub bytes: Vec<u8>,
    /// The line of each record, for a text.
    pub lines: Vec<usize>,
    /// The names that it gives.
    pub names: Names,
    /// For a dealer's OPL/XML: the origins of its records.
    pub dealt: Option<Arc<Dealt>>,
}

/// The origins of the records of a dealer's OPL/XML, and the warnings about it.
#[derive(Clone, Debug)]
pub struct Dealt {
    /// The file of the task lines.
    tasks: String,
    /// The place of each record.
    spots: Vec<Spot>,
    /// Lines that begin with the file's name and the place.
    warnings: Vec<String>,
}

impl Policy {
    /// The whole records, without a truncated one at the end.
    pub fn records(&self) -> Vec<Record> {
        let whole = self.bytes.as_chunks::<LENGTH>().0;
        whole.iter().map(|&bytes| Record(bytes)).collect()
    }

    /// Whether it is a dealer's OPL/XML: it has names, but its records have no lines of a text.
    pub fn is_dealt(&self) -> bool {
        let named = || Sort::ALL.into_iter().any(|sort| self.names.has_any(sort));
        self.dealt.is_some() || self.lines.is_empty() && named()
    }

    fn spot(&self, before: usize) -> Option<Spot> {
        self.dealt.as_ref()?.spots.get(before).copied()
    }

    /// The file that contains a record, by its index: for a task of OPL/XML the task lines, else the policy.
    pub fn file_of(&self, before: usize) -> &str {
        match (self.spot(before), &self.dealt) {
            (Some(spot), Some(dealt)) if spot.of_tasks => &dealt.tasks,
            _ => &self.file,
        }
    }

    /// The line of a record, if it has one.
    pub fn line_of(&self, before: usize) -> Option<usize> {
        let spot = || self.spot(before).map(|spot| spot.line);
        self.lines.get(before).copied().or_else(spot)
    }

    /// The column of a record's element, if it has one.
    pub fn column_of(&self, before: usize) -> Option<usize> {
        let spot = self.spot(before).filter(|spot| !spot.of_tasks);
        spot.map(|spot| spot.column)
    }

    /// The policy with only some of its records, by index; each keeps its reported place.
    pub fn keeping(&self, stays: impl Fn(usize) -> bool) -> Policy {
        fn kept<T: Copy>(all: &[T], stays: impl Fn(usize) -> bool) -> Vec<T> {
            let all = all.iter().enumerate();
            all.filter(|(at, _)| stays(*at))
                .map(|(_, one)| *one)
                .collect()
        }
        let dealt = self.dealt.as_ref().map(|dealt| {
            Arc::new(Dealt {
                spots: kept(&dealt.spots, &stays),
                ..Dealt::clone(dealt)
            })
        });
        let records: Vec<&[u8]> = self.bytes.chunks(LENGTH).collect();
        Policy {
            file: self.file.clone(),
            bytes: kept(&records, &stays).concat(),
            lines: kept(&self.lines, &stays),
            names: self.names.clone(),
            dealt,
        }
    }

    /// The place of a record, by its index: `policy.txt, line 14`.
    pub fn place(&self, before: usize) -> String {
        format!("{}, {}", self.file_of(before), self.within(before))
    }

    /// The place within the file only: `line 14`, for OPL/XML `line 14, column 5`; with the file's name if that is the file of
    /// the task lines.
    pub fn place_within(&self, before: usize) -> String {
        match self.file_of(before) == self.file {
            true => self.within(before),
            false => self.place(before),
        }
    }

    fn within(&self, before: usize) -> String {
        match (self.line_of(before), self.column_of(before)) {
            (Some(line), Some(column)) => format!("line {line}, column {column}"),
            (Some(line), None) => format!("line {line}"),
            (None, _) => format!("record {}", before + 1),
        }
    }

    /// The start of a line about a record: `policy.txt: line 14`.
    pub fn head(&self, before: usize) -> String {
        format!("{}: {}", self.file_of(before), self.within(before))
    }

    /// Warnings about the text itself, whether it loads or not: `policy.xml: line 3, column 5: warning: ..`.
    pub fn warnings(&self) -> &[String] {
        self.dealt.as_ref().map_or(&[], |dealt| &dealt.warnings)
    }

    /// A refused load in words: `policy.txt: line 7: 5 TAKEN: user 3`. The place counts from 1; 0 means no place.
    pub fn refusal(&self, reply: Reply, place: usize) -> String {
        match place.checked_sub(1) {
            None => format!("{}: {reply}", self.file),
            Some(before) => format!("{}: {reply}: {}", self.head(before), self.line(before)),
        }
    }

    /// The rule that a reply reports, by its place among the rules of its kind, from 1: `task set 1 of repair sign (policy.txt,
    /// line 12)`.
    pub fn rule(&self, reply: Reply, place: usize) -> Option<String> {
        let kind = reply.rule_kind()?;
        let records = self.records();
        let of_kind = (0..records.len()).filter(|&at| records[at].kind() == kind);
        let at = of_kind.into_iter().nth(place.checked_sub(1)?)?;
        Some(format!("{} ({})", self.line(at), self.place(at)))
    }

    /// A record in words.
    pub fn line(&self, before: usize) -> String {
        let record = self.bytes.chunks(LENGTH).nth(before);
        record.map_or(String::new(), |record| writer::line(record, &self.names))
    }
}

/// A file's bytes; `-` is standard input.
pub fn bytes_of(file: &str) -> Result<Vec<u8>, Wrongs> {
    let mut bytes = Vec::new();
    let read = match file {
        "-" => std::io::stdin().read_to_end(&mut bytes).map(drop),
        _ => std::fs::read(file).map(|all| bytes = all),
    };
    match read {
        Ok(()) => Ok(bytes),
        Err(why) => Err(vec![format!("{}: it cannot be read: {why}", shown(file))]),
    }
}

/// A file's name for a message.
pub fn shown(file: &str) -> &str {
    match file {
        "-" => "standard input",
        file => file,
    }
}

/// One line for each error: `policy.txt: line 2, column 14: expected "role", found "rolle"`.
pub fn told(file: &str, errors: &[Error]) -> Wrongs {
    let line = |error: &Error| format!("{}: {error}", shown(file));
    errors.iter().map(line).collect()
}

/// How to read a policy file.
#[derive(Clone, Copy, Default, Debug)]
pub struct Reading<'a> {
    /// For OPL/XML: the file of its task lines.
    pub tasks: Option<&'a str>,
    /// The format; `None` to recognize it from the content.
    pub format: Option<Format>,
    /// For OPL/XML: which sections are read.
    pub sections: Sections,
}

/// Reads a policy file, with its task lines if it is OPL/XML.
pub fn policy(file: &str, how: &Reading) -> Result<Policy, Wrongs> {
    if file == "-" && how.tasks == Some("-") {
        return Err(vec!["standard input is one text alone".to_string()]);
    }
    let bytes = bytes_of(file)?;
    let format = how.format;
    let format = format.unwrap_or_else(|| Format::of_content(file, &bytes));
    if how.tasks.is_some() && format != Format::Opl {
        let file = shown(file);
        return Err(vec![format!(
            "{file}: task lines go with OPL/XML, and this is no OPL/XML"
        )]);
    }
    match format {
        Format::Records => Ok(record_policy(file, bytes)),
        Format::Text => text_policy(file, &bytes),
        Format::Opl => opl_policy(file, &bytes, how),
    }
}

/// Reads a file that may be a policy or requests, so names may be given more than once.
pub fn either(file: &str, how: &Reading) -> Result<Policy, Wrongs> {
    let bytes = bytes_of(file)?;
    match Format::of_content(file, &bytes) {
        Format::Records => Ok(record_policy(file, bytes)),
        Format::Text => text_of(file, &bytes, false),
        Format::Opl => opl_policy(file, &bytes, how),
    }
}

/// Reads a damaged policy file: as text if its name or every byte indicates text, else as records, whatever they are.
pub fn damaged(file: &str, format: Option<Format>) -> Result<Policy, Wrongs> {
    let bytes = bytes_of(file)?;
    let text = file.ends_with(".txt") || is_text(&bytes) && !bytes.is_empty();
    match format {
        Some(Format::Text) => text_policy(file, &bytes),
        None if text => text_policy(file, &bytes),
        _ => Ok(record_policy(file, bytes)),
    }
}

fn record_policy(file: &str, bytes: Vec<u8>) -> Policy {
    Policy {
        file: shown(file).to_string(),
        bytes,
        ..Policy::default()
    }
}

/// Reads a policy from text; errors are reported with this file name.
pub fn text_policy(file: &str, text: &[u8]) -> Result<Policy, Wrongs> {
    text_of(file, text, true)
}

fn text_of(file: &str, text: &[u8], once: bool) -> Result<Policy, Wrongs> {
    let read = reader::read(text, &Names::default(), once).map_err(|all| told(file, &all))?;
    Ok(Policy {
        file: shown(file).to_string(),
        lines: read.records().map(|(line, _)| line).collect(),
        bytes: read.bytes(),
        names: read.names,
        dealt: None,
    })
}

fn opl_policy(file: &str, xml: &[u8], how: &Reading) -> Result<Policy, Wrongs> {
    let tasks = how.tasks;
    let lines = tasks.map_or(Ok(Vec::new()), bytes_of)?;
    let read = dealer::read(xml, &lines, how.sections).map_err(|fault| {
        let of = match fault.of_tasks {
            false => shown(file),
            true => tasks.map_or("no task lines", shown),
        };
        let mut lines = vec![format!("{of}: {}", fault.message)];
        if tasks.is_none() && fault.message.contains("that the task lines do not have") {
            lines.push("--tasks names the file of the task lines".to_string());
        }
        lines
    })?;
    let file = shown(file).to_string();
    let warning = |(spot, text): &(Spot, String)| {
        let Spot { line, column, .. } = spot;
        format!("{file}: line {line}, column {column}: warning: {text}")
    };
    let dealt = Dealt {
        tasks: tasks.map_or("no task lines", shown).to_string(),
        warnings: read.warnings.iter().map(warning).collect(),
        spots: read.spots,
    };
    Ok(Policy {
        file,
        bytes: read.records,
        lines: Vec::new(),
        names: read.names,
        dealt: Some(Arc::new(dealt)),
    })
}

/// A complete list of requests, with the names that their lines give.
pub type Requests = Vec<Line>;

/// Reads a whole file of requests: text with the policy's names, or records.
pub fn requests(file: &str, names: &Names) -> Result<Requests, Wrongs> {
    requests_of(file, &bytes_of(file)?, names)
}

/// As `requests`, from bytes; errors are reported with this file name.
pub fn requests_of(file: &str, bytes: &[u8], names: &Names) -> Result<Requests, Wrongs> {
    if file.ends_with(".txt") || is_text(bytes) {
        let read = reader::read(bytes, names, false).map_err(|all| told(file, &all))?;
        return Ok(read.lines.into_iter().map(|(_, line)| line).collect());
    }
    Ok(bytes.chunks(LENGTH).map(Line::of).collect())
}

#[cfg(test)]
mod tests {
    use super::*;

    #[test]
    fn records_that_are_kept_are_told_where_they_stood() {
        let xml = b"<policy_object><policy_object_attributes/><active_modules/><policy_object_modules>\n<module_rbac_core_policy>\n\
            <users>\n<user user_id='anna'/>\n<user user_id='bert'/></users><roles/><permissions/><user_assignments/>\n\
            <permission_assignments/></module_rbac_core_policy></policy_object_modules></policy_object>";
        let dealt = opl_policy("policy.xml", xml, &Reading::default()).unwrap();
        assert_eq!(dealt.place(1), "policy.xml, line 5, column 1");
        let kept = dealt.keeping(|at| at != 0);
        assert_eq!(
            (kept.line(0), kept.place(0)),
            (
                "user bert".to_string(),
                "policy.xml, line 5, column 1".to_string()
            )
        );
        let text = text_policy("policy.txt", b"user 1\nuser 2\n\nuser 3\n").unwrap();
        let kept = text.keeping(|at| at != 1);
        assert_eq!(
            (kept.place(1), kept.line(1)),
            ("policy.txt, line 4".to_string(), "user 3".to_string())
        );
    }
}
