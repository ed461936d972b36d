//! Translates a dealer's OPL/XML and its task lines into a policy with the proved reader.
//!
//! It exists only if the archive has the reader's function.

use crate::lent::{reply_of, zeroed};
use crate::library;
use crate::names::{Names, Space};
use crate::{Record, Reply, LENGTH};
use alloc::{vec, vec::Vec};
use core::fmt;

/// The number of the scratch buffer's group.
const SCRATCH: u64 = 4;

/// The library's answer.
#[derive(Clone, Copy, PartialEq, Eq, Debug)]
pub struct Answer {
    /// `Granted`, `Room`, `Text` or `Names`.
    pub reply: Reply,
    /// The text that is refused with `Text`.
    pub text: Option<Text>,
    /// For `Text` the place of the byte, from 1; for accepted texts the number of records; else 0.
    pub figure: u64,
}

/// One of the two texts.
#[derive(Clone, Copy, PartialEq, Eq, Debug)]
#[repr(u8)]
pub enum Text {
    /// The OPL/XML.
    Policy = 1,
    /// The task lines.
    Tasks = 2,
}

/// Which sections of OPL 1.2 are read. A text that is accepted with [`Sections::Asked`] gives the same records with all sections.
#[derive(Clone, Copy, PartialEq, Eq, Default, Debug)]
pub enum Sections {
    /// Sections 5.2, 6.1, 6.3, 6.8, 6.9 and 6.11 to 6.13; a module of another section is refused.
    #[default]
    Asked,
    /// All sections that the engine supports: also role hierarchies (6.2), separation of duty in them (6.4) and Chinese walls
    /// (6.6). It exists only if the archive has the function for it.
    #[cfg(mishantral_opl_all)]
    All,
}

/// The number of words that the scratch buffer of [`translate`] must have.
pub fn scratch_words() -> usize {
    usize::try_from(library::mishantral_words(SCRATCH)).expect("a buffer's length fits a usize")
}

/// The library's call: reads both texts and writes records to the start of the output. A refusal writes nothing there. The
/// scratch buffer may hold anything; its length must be [`scratch_words`], and with another length the answer is `Text` or
/// `Room`.
///
/// [`Policy::from_opl`] makes the same call and allocates the output and the scratch buffer.
pub fn translate(xml: &[u8], tasks: &[u8], output: &mut [u8], scratch: &mut [u64]) -> Answer {
    translate_sections(xml, tasks, output, scratch, Sections::Asked)
}

/// As `translate`, with a choice of sections: the library has a call for each choice.
pub fn translate_sections(
    xml: &[u8],
    tasks: &[u8],
    output: &mut [u8],
    scratch: &mut [u64],
    sections: Sections,
) -> Answer {
    let number = match sections {
        Sections::Asked => library::mishantral_opl(xml, tasks, output, scratch),
        #[cfg(mishantral_opl_all)]
        Sections::All => library::mishantral_opl_all(xml, tasks, output, scratch),
    };
    Answer {
        reply: reply_of(number),
        text: match number / 256 % 4 {
            1 => Some(Text::Policy),
            2 => Some(Text::Tasks),
            _ => None,
        },
        figure: number / 1024,
    }
}

/// A place in one of the texts; all numbers are from 1.
#[derive(Clone, Copy, PartialEq, Eq, Debug)]
pub struct Place {
    /// The text that contains it.
    pub text: Text,
    /// The byte; the number after the last byte if the text ends too early.
    pub byte: usize,
    /// The line.
    pub line: usize,
    /// The column: each character is one, whatever its number of bytes.
    pub column: usize,
}

impl Place {
    fn of(text: Text, bytes: &[u8], byte: usize) -> Place {
        let before = &bytes[..byte.saturating_sub(1).min(bytes.len())];
        // A byte order mark does not count as a character of the first line.
        let before = before.strip_prefix(b"\xef\xbb\xbf").unwrap_or(before);
        let line = before.rsplit(|&b| b == b'\n').next().unwrap_or(&[]);
        let begins = |b: &&u8| !(0x80..0xc0).contains(*b);
        Place {
            text,
            byte,
            line: 1 + before.iter().filter(|&&b| b == b'\n').count(),
            column: 1 + line.iter().filter(begins).count(),
        }
    }
}

/// Why texts were refused: `Text` with its place, or `Names`.
#[derive(Clone, Copy, PartialEq, Eq, Debug)]
pub struct NotRead {
    /// The refusal.
    pub reply: Reply,
    /// The place, for `Text`.
    pub place: Option<Place>,
}

impl fmt::Display for NotRead {
    fn fmt(&self, f: &mut fmt::Formatter) -> fmt::Result {
        let Some(place) = self.place else {
            return write!(f, "{}", self.reply);
        };
        let text = match place.text {
            Text::Policy => "policy text",
            Text::Tasks => "task lines",
        };
        let Place { line, column, .. } = place;
        write!(
            f,
            "{} in the {text}, line {line}, column {column}",
            self.reply
        )
    }
}

impl core::error::Error for NotRead {}

/// A policy's records, and the dealer's names by number.
///
/// ```
/// use mishantral::{Engine, Policy, Record, Reply, Set, Space};
///
/// let xml = b"<policy_object><policy_object_attributes/><active_modules/><policy_object_modules>
///   <module_rbac_core_policy>
///     <users><user user_id='user:karla'/></users><roles><role role_id='role:clerk'/></roles><permissions/>
///     <user_assignments><user_assignment user_id='user:karla' role_id='role:clerk'/></user_assignments>
///     <permission_assignments/>
///   </module_rbac_core_policy>
/// </policy_object_modules></policy_object>";
/// let policy = Policy::from_opl(xml, b"task:sign template:loan\n")?;
/// assert_eq!(policy.records().count(), 4);
///
/// let mut engine = Engine::new();
/// engine.load(policy.bytes())?;
/// let karla = policy.number(Space::User, b"user:karla").unwrap();
/// let create = Record::create_subject(5, karla, Set::of(&[0]));
/// assert_eq!(engine.request(&create), Reply::Granted);
/// assert_eq!(policy.name(Space::Role, 0), Some(&b"role:clerk"[..]));
///
/// let refused = Policy::from_opl(&xml[..xml.len() - 1], b"").unwrap_err();
/// assert_eq!(refused.to_string(), "21 TEXT in the policy text, line 7, column 40");
/// assert_eq!(refused.place.unwrap().byte, xml.len());
/// # Ok::<(), Box<dyn std::error::Error>>(())
/// ```
#[derive(Clone, PartialEq, Eq, Debug)]
pub struct Policy {
    bytes: Vec<u8>,
    names: Names,
}

impl Policy {
    /// Reads a dealer's OPL/XML and its task lines: each line has a task's name, one space and its template's name. Lines end
    /// with a line feed, with or without a carriage return before it.
    ///
    /// A load may still refuse the policy: [`Policy::bytes`] is what `Engine::load` takes.
    pub fn from_opl(xml: &[u8], tasks: &[u8]) -> Result<Policy, NotRead> {
        Policy::from_opl_sections(xml, tasks, Sections::Asked)
    }

    /// As `from_opl`, with a choice of sections.
    pub fn from_opl_sections(
        xml: &[u8],
        tasks: &[u8],
        sections: Sections,
    ) -> Result<Policy, NotRead> {
        // An element that yields a record has more than sixteen bytes, and a line yields one record.
        let lines = 1 + tasks.iter().filter(|&&b| b == b'\n').count();
        let mut output = vec![0; xml.len() + LENGTH * lines];
        let mut scratch = zeroed(scratch_words() as u64);
        let answer = translate_sections(xml, tasks, &mut output, &mut scratch, sections);
        let figure = usize::try_from(answer.figure).expect("a figure is below the texts' length");
        if !answer.reply.is_granted() {
            let place = answer.text.map(|text| match text {
                Text::Policy => Place::of(text, xml, figure),
                Text::Tasks => Place::of(text, tasks, figure),
            });
            let reply = answer.reply;
            return Err(NotRead { reply, place });
        }
        output.truncate(LENGTH * figure);
        output.shrink_to_fit();
        Ok(Policy {
            names: Names::told(xml, tasks, &output),
            bytes: output,
        })
    }

    /// The records' bytes, sixteen each.
    pub fn bytes(&self) -> &[u8] {
        &self.bytes
    }

    /// The records, kinds ascending, and within a kind in text order.
    pub fn records(&self) -> impl Iterator<Item = Record> + '_ {
        let records = self.bytes.as_chunks::<LENGTH>().0;
        records.iter().map(|&bytes| Record(bytes))
    }

    /// The names of a space, by their numbers.
    pub fn names(&self, space: Space) -> impl ExactSizeIterator<Item = &[u8]> {
        self.names.all(space)
    }

    /// The name of a number.
    pub fn name(&self, space: Space, number: u16) -> Option<&[u8]> {
        self.names.name(space, number)
    }

    /// The number of a name.
    pub fn number(&self, space: Space, name: &[u8]) -> Option<u16> {
        self.names.number(space, name)
    }
}
