//! Reads a dealer's OPL/XML and its task lines with the proved reader if the library has it, else with the plain one (rust/opl).
//! Errors in a text are reported in the plain reader's words.

use crate::names::{Names, Sort};
pub use opl::{Remedy, Sections, Unsaid, Way, Written};

/// Records, and the dealer's names.
#[derive(Clone, Debug)]
pub struct Dealt {
    /// The records, which a load may still refuse.
    pub records: Vec<u8>,
    /// The dealer's names by number.
    pub names: Names,
    /// The place of each record; empty if it is not known.
    pub spots: Vec<Spot>,
    /// Warnings about the policy text: the place and the message.
    pub warnings: Vec<(Spot, String)>,
}

/// A place in one of the two texts, from 1.
#[derive(Clone, Copy, PartialEq, Eq, Debug)]
pub struct Spot {
    /// Whether it is in the task lines.
    pub of_tasks: bool,
    /// The line.
    pub line: usize,
    /// The column: each character is one, whatever its number of bytes.
    pub column: usize,
}

/// A refusal of the task lines or of the policy, with its message.
#[derive(Clone, Debug)]
pub struct Fault {
    /// Whether it concerns the task lines.
    pub of_tasks: bool,
    /// The line, the column, what was expected and what was found.
    pub message: String,
}

fn named<'n>(names: &mut Names, word: &str, all: impl Iterator<Item = &'n [u8]>) {
    if let Some(sort) = Sort::of_word(word) {
        for (number, name) in (0..=u16::MAX).zip(all) {
            names.give(sort, number, name);
        }
    }
}

/// The refusal in words: `line 12, column 7: TEXT: expected .., found ..`.
fn plain(refusal: &opl::Refusal, xml: &[u8], tasks: &[u8]) -> Fault {
    let of_tasks = refusal.text() == opl::Text::Tasks;
    let message = refusal.message(if of_tasks { tasks } else { xml });
    Fault { of_tasks, message }
}

/// Whether the proved reader reads these sections; the plain one does if the library was not available at the build.
pub const fn is_proved(sections: Sections) -> bool {
    match sections {
        Sections::Asked => cfg!(mishantral_opl),
        Sections::All => cfg!(mishantral_opl_all),
    }
}

/// Reads both texts: the records, the names and the places.
pub fn read(xml: &[u8], tasks: &[u8], sections: Sections) -> Result<Dealt, Fault> {
    let (records, names) = said(xml, tasks, sections)?;
    let spots = spots(xml, tasks, &records);
    let warnings = warnings(xml);
    Ok(Dealt {
        records,
        names,
        spots,
        warnings,
    })
}

/// Reads the records and the names with the plain reader.
#[cfg(not(mishantral_opl_all))]
fn plainly_said(xml: &[u8], tasks: &[u8], of: Sections) -> Result<(Vec<u8>, Names), Fault> {
    let read = opl::read_sections(xml, tasks, of);
    let policy = read.map_err(|why| plain(&why, xml, tasks))?;
    let mut names = Names::default();
    for space in opl::Space::ALL {
        let all = policy.names(space).iter().copied();
        named(&mut names, space.name(), all);
    }
    Ok((policy.records(), names))
}

#[cfg(not(mishantral_opl))]
fn said(xml: &[u8], tasks: &[u8], sections: Sections) -> Result<(Vec<u8>, Names), Fault> {
    plainly_said(xml, tasks, sections)
}

#[cfg(mishantral_opl)]
fn said(xml: &[u8], tasks: &[u8], sections: Sections) -> Result<(Vec<u8>, Names), Fault> {
    let same = match sections {
        Sections::Asked => mishantral::opl::Sections::Asked,
        #[cfg(mishantral_opl_all)]
        Sections::All => mishantral::opl::Sections::All,
        #[cfg(not(mishantral_opl_all))]
        Sections::All => return plainly_said(xml, tasks, sections),
    };
    let policy = mishantral::Policy::from_opl_sections(xml, tasks, same)
        .map_err(|why| proved(why, xml, tasks, sections))?;
    let mut names = Names::default();
    for space in mishantral::Space::ALL {
        named(&mut names, space.word(), policy.names(space));
    }
    Ok((policy.bytes().to_vec(), names))
}

/// The lines of a text, to look up many places.
struct Lines<'t> {
    text: &'t [u8],
    starts: Vec<usize>,
}

impl<'t> Lines<'t> {
    fn of(text: &'t [u8]) -> Lines<'t> {
        let ends = text.iter().enumerate().filter(|(_, &byte)| byte == b'\n');
        let starts = [0].into_iter().chain(ends.map(|(at, _)| at + 1));
        Lines {
            text,
            starts: starts.collect(),
        }
    }

    fn spot(&self, place: usize, of_tasks: bool) -> Spot {
        let before = place.saturating_sub(1).min(self.text.len());
        let line = self.starts.partition_point(|&start| start <= before);
        let start = line.checked_sub(1).map_or(0, |at| self.starts[at]);
        // A byte order mark does not count as a character of the first line.
        let mark = usize::from(start == 0 && self.text.starts_with(b"\xef\xbb\xbf") && before > 0);
        let begins = |byte: &&u8| !(0x80..0xc0).contains(*byte);
        let column = 1 + self.text[start..before].iter().filter(begins).count() - mark;
        Spot {
            of_tasks,
            line,
            column,
        }
    }
}

/// The places of the records, found by the plain reader's functions; empty if their number is not the number of records.
fn spots(xml: &[u8], tasks: &[u8], records: &[u8]) -> Vec<Spot> {
    let origins = opl::origins(xml, tasks);
    if origins.len() * opl::RECORD != records.len() {
        return Vec::new();
    }
    let (xml, tasks) = (Lines::of(xml), Lines::of(tasks));
    let spot = |origin: &opl::Origin| match origin.text {
        opl::Text::Policy => xml.spot(origin.place, false),
        opl::Text::Tasks => tasks.spot(origin.place, true),
    };
    origins.iter().map(spot).collect()
}

/// Warnings about parts of an accepted policy text that are probably mistakes.
fn warnings(xml: &[u8]) -> Vec<(Spot, String)> {
    let lines = Lines::of(xml);
    let mut all: Vec<(Spot, String)> = Vec::new();
    if let Err(why) = std::str::from_utf8(xml) {
        let at = why.valid_up_to();
        let says = match opl::has_encoding(xml) {
            true => "the text says that it is UTF-8",
            false => "a text without a declared encoding is UTF-8",
        };
        let byte = xml[at];
        let text = format!(
            "{says}, and the byte 0x{byte:02x} here is not; names are compared byte by byte"
        );
        all.push((lines.spot(at + 1, false), text));
    }
    for module in opl::missing_modules(xml) {
        let name = String::from_utf8_lossy(module.name)
            .escape_debug()
            .to_string();
        let text = match module.known {
            true => format!(
                "{name} is said to be active, and the text has no such module: it sets no rule"
            ),
            false => format!("{name} is said to be active, and OPL/XML has no module of this name"),
        };
        all.push((lines.spot(module.place, false), text));
    }
    all
}

/// The proved reader's refusal, in the plain reader's words if that refuses at the same place.
#[cfg(mishantral_opl)]
fn proved(why: mishantral::opl::NotRead, xml: &[u8], tasks: &[u8], sections: Sections) -> Fault {
    let of_tasks = why
        .place
        .is_some_and(|place| place.text == mishantral::opl::Text::Tasks);
    let (text, figure) = why.place.map_or((0, 0), |p| (p.text as u8, p.byte as u64));
    let reply = why.reply.number();
    match opl::read_sections(xml, tasks, sections) {
        Err(other)
            if other.answer()
                == (opl::Answer {
                    reply,
                    text,
                    figure,
                }) =>
        {
            plain(&other, xml, tasks)
        }
        _ => Fault {
            of_tasks,
            message: why.to_string(),
        },
    }
}

/// The opposite direction: writes records and their names as OPL/XML and task lines. The written texts have been read again, to
/// the same records.
pub fn write(records: &[u8], names: &Names, way: Way) -> Result<Written, Vec<Unsaid>> {
    let name = |space: opl::Space, number: u16| {
        let sort = Sort::of_word(space.name())?;
        names.name(sort, number).map(<[u8]>::to_vec)
    };
    let written = opl::write(records, &name, way)?;
    let sections = match way.all_sections {
        true => Sections::All,
        false => Sections::Asked,
    };
    match said(&written.policy, &written.tasks, sections) {
        Ok((back, _)) if back == written.records => Ok(written),
        _ => Err(vec![Unsaid {
            record: None,
            why: "what was written is read back otherwise, which is a fault of this program"
                .to_string(),
            remedy: None,
        }]),
    }
}
