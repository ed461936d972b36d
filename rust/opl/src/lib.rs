//! Translates dealers' OPL/XML (document 000, 5.2, 6.1, 6.3, 6.8, 6.9 and 6.11 to 6.13) into policy records, in plain Rust and
//! separately from the proved reader. It is the oracle of the differential test and, because it is written for speed, the
//! baseline of the benchmark.
//!
//! ```
//! let policy = b"<policy_object><policy_object_attributes/><active_modules/><policy_object_modules>
//!   <module_wf_bind_duty_policy><bind_of_duty_constraints>
//!     <bind_of_duty_constraint task_id='sell' bound_task_id='pay'/>
//!   </bind_of_duty_constraints></module_wf_bind_duty_policy>
//! </policy_object_modules></policy_object>";
//! let tasks = b"pay loan\nsell loan\n";
//!
//! let read = opl::read(policy, tasks).unwrap();
//! assert_eq!(read.count(), 3);
//! assert_eq!(read.records()[32..40], [15, 0, 1, 0, 0, 0, 0, 0]);
//! assert_eq!(read.names(opl::Space::Task), [&b"pay"[..], b"sell"]);
//!
//! let refusal = opl::read(policy, b"pay loan\nsell\n").unwrap_err();
//! let message = "line 2, column 5: TEXT: expected a space and a template name, found the end of the line";
//! assert_eq!(refusal.message(b"pay loan\nsell\n"), message);
//! ```

mod elements;
mod names;
mod origins;
mod policy;
mod reader;
mod reasons;
mod refusal;
mod tasks;
mod writer;
mod xml;

pub use names::{Space, LONGEST};
pub use origins::{has_encoding, missing_modules, origins, Missing, Origin};
pub use policy::{Policy, RECORD};
pub use refusal::{found, line_and_column, Fault, NameFault, NameWhy, Refusal, Text, Why};
pub use writer::{write, Remedy, Unsaid, Way, Written};

/// The reply to an accepted policy.
pub const ACCEPTED: u8 = 0;
/// The reply if the records do not fit the output.
pub const ROOM: u8 = 1;
/// The reply to a text that is not in its grammar.
pub const TEXT: u8 = 21;
/// The reply if a name is too long, not declared or above a limit.
pub const NAMES: u8 = 22;

/// The answer for a program.
#[derive(Clone, Copy, PartialEq, Eq, Debug)]
pub struct Answer {
    /// One of 0, 1, 21 and 22.
    pub reply: u8,
    /// For TEXT the refused text: 1 for the policy, 2 for the task lines; else 0.
    pub text: u8,
    /// For TEXT the place of the byte, for an accepted policy the number of records, else 0.
    pub figure: u64,
}

impl Answer {
    /// The answer encoded in one number.
    pub const fn number(self) -> u64 {
        self.reply as u64 + 256 * (self.text as u64 + 4 * self.figure)
    }

    /// Decodes an answer from its number.
    pub const fn from_number(number: u64) -> Answer {
        Answer {
            reply: (number % 256) as u8,
            text: (number / 256 % 4) as u8,
            figure: number / 1024,
        }
    }
}

/// Which sections of document 000 are read.
#[derive(Clone, Copy, PartialEq, Eq, Default, Debug)]
pub enum Sections {
    /// Those that Ask 4 names: 5.2, 6.1, 6.3, 6.8, 6.9 and 6.11 to 6.13.
    #[default]
    Asked,
    /// All sections that the engine supports: also 6.2, 6.4 and 6.6.
    All,
}

/// Reads a policy and its task lines: checks the whole policy text first, then the lines, then the names.
pub fn read<'t>(policy: &'t [u8], tasks: &'t [u8]) -> Result<Policy<'t>, Refusal> {
    read_sections(policy, tasks, Sections::Asked)
}

/// As `read`, with a choice of sections.
pub fn read_sections<'t>(
    policy: &'t [u8],
    tasks: &'t [u8],
    sections: Sections,
) -> Result<Policy<'t>, Refusal> {
    let mut read = reader::read_policy(policy, sections).map_err(Refusal::Text)?;
    tasks::read_tasks(tasks, &mut read)?;
    match read.name_fault() {
        Some(fault) => Err(Refusal::Names(fault)),
        None => Ok(read),
    }
}

/// Reads the texts and writes the records to the start of the output. A refusal writes nothing.
pub fn translate(policy: &[u8], tasks: &[u8], output: &mut [u8]) -> Answer {
    translate_sections(policy, tasks, output, Sections::Asked)
}

/// As `translate`, with a choice of sections.
pub fn translate_sections(
    policy: &[u8],
    tasks: &[u8],
    output: &mut [u8],
    sections: Sections,
) -> Answer {
    let (reply, count) = match read_sections(policy, tasks, sections) {
        Ok(read) if read.write(output) => (ACCEPTED, read.count()),
        Ok(_) => (ROOM, 0),
        Err(refusal) => return refusal.answer(),
    };
    Answer {
        reply,
        text: 0,
        figure: count as u64,
    }
}
