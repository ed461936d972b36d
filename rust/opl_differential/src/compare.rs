//! Runs one pair of texts on all readers, and compares every figure of the answer and every byte of the output.

use crate::slow;
use crate::texts::Texts;
use opl::{Answer, Sections, Space, RECORD};
use std::cell::{Cell, RefCell};
use std::fmt::Write;

/// A reader of OPL/XML under comparison.
pub struct Reader {
    /// The name in reports.
    pub name: &'static str,
    /// Whether it is too slow to be timed.
    pub slow: bool,
    /// Reads the texts and writes the records.
    pub translate: Box<Translate>,
}

/// A function from policy text, task lines and output to an answer.
pub type Translate = dyn Fn(&[u8], &[u8], &mut [u8]) -> Answer;

impl Reader {
    /// A reader from a closure.
    pub fn new(
        name: &'static str,
        translate: impl Fn(&[u8], &[u8], &mut [u8]) -> Answer + 'static,
    ) -> Reader {
        Reader {
            name,
            slow: false,
            translate: Box::new(translate),
        }
    }
}

/// A library's function from both texts and an output, each as pointer and length in bytes, and a scratch buffer, as pointer and
/// length in words, to the encoded answer.
pub type Exported = unsafe extern "C" fn(
    policy: *const u8,
    policy_bytes: usize,
    tasks: *const u8,
    tasks_bytes: usize,
    output: *mut u8,
    output_bytes: usize,
    scratch: *mut u64,
    scratch_words: usize,
) -> u64;

impl Reader {
    /// A reader that a library exports. Its scratch buffer has `words` words, which keep whatever an earlier call left in them.
    ///
    /// # Safety
    /// The function must read and write only its arguments, and must not keep them.
    pub unsafe fn exported(name: &'static str, function: Exported, words: usize) -> Reader {
        let scratch = RefCell::new(vec![0x5a5a_5a5a_5a5a_5a5a_u64; words]);
        Reader::new(name, move |policy, tasks, output| {
            let mut scratch = scratch.borrow_mut();
            // SAFETY: the pointers and lengths come from slices that outlive the call; the rest is the caller's promise.
            let number = unsafe {
                function(
                    policy.as_ptr(),
                    policy.len(),
                    tasks.as_ptr(),
                    tasks.len(),
                    output.as_mut_ptr(),
                    output.len(),
                    scratch.as_mut_ptr(),
                    scratch.len(),
                )
            };
            Answer::from_number(number)
        })
    }
}

/// All available readers of Ask 4's sections: the plain one, the slow one, and the proved one if the library is linked.
pub fn readers() -> Vec<Reader> {
    readers_of(Sections::Asked)
}

/// All available readers of these sections.
pub fn readers_of(sections: Sections) -> Vec<Reader> {
    let plain = Reader::new("plain", move |policy, tasks, output| {
        opl::translate_sections(policy, tasks, output, sections)
    });
    let slow = Reader::new("slow", move |policy, tasks, output| {
        slow::translate(policy, tasks, output, sections).0
    });
    let mut all = vec![plain, Reader { slow: true, ..slow }];
    all.extend(proved::reader(sections));
    all
}

/// The proved reader, and the names that its wrapper reports.
#[cfg(mishantral_opl)]
mod proved {
    use super::{Answer, Reader, Sections, Space, Texts};
    use mishantral::opl::{scratch_words, translate_sections};
    use mishantral::Policy;
    use random::Random;
    use std::cell::RefCell;

    /// One call in this number gets a scratch buffer of noise. In the others it holds what the previous call left: the names of
    /// other texts.
    const NOISE: usize = 50;

    /// The wrapper's value for these sections, if the library has a call for them.
    fn same(sections: Sections) -> Option<mishantral::opl::Sections> {
        match sections {
            Sections::Asked => Some(mishantral::opl::Sections::Asked),
            #[cfg(mishantral_opl_all)]
            Sections::All => Some(mishantral::opl::Sections::All),
            #[cfg(not(mishantral_opl_all))]
            Sections::All => None,
        }
    }

    pub fn reader(sections: Sections) -> Option<Reader> {
        let same = same(sections)?;
        let lent = RefCell::new((Random::new(11), vec![0; scratch_words()]));
        Some(Reader::new("proved", move |policy, tasks, output| {
            let (random, scratch) = &mut *lent.borrow_mut();
            if random.chance(1, NOISE) {
                scratch.fill_with(|| random.word());
            }
            let answer = translate_sections(policy, tasks, output, scratch, same);
            Answer {
                reply: answer.reply.number(),
                text: answer.text.map_or(0, |text| text as u8),
                figure: answer.figure,
            }
        }))
    }

    pub fn agrees(texts: &Texts, read: &opl::Policy, sections: Sections) -> bool {
        let Some(same) = same(sections) else {
            return true;
        };
        let policy = Policy::from_opl_sections(&texts.policy, &texts.tasks, same);
        policy.is_ok_and(|policy| {
            let mut spaces = Space::ALL.into_iter().zip(mishantral::Space::ALL);
            let names = spaces.all(|(space, same)| {
                let told = policy.names(same).eq(read.names(space).iter().copied());
                let mut numbers = (0..=u16::MAX).zip(read.names(space));
                told && numbers.all(|(number, name)| policy.number(same, name) == Some(number))
            });
            names && policy.bytes() == read.records()
        })
    }
}

#[cfg(not(mishantral_opl))]
mod proved {
    use super::{Reader, Sections, Texts};

    pub fn reader(_: Sections) -> Option<Reader> {
        None
    }

    pub fn agrees(_: &Texts, _: &opl::Policy, _: Sections) -> bool {
        true
    }
}

/// The byte that fills the output before a reader writes.
const BEFORE: u8 = 0xa5;

type Told = (Answer, Vec<u8>);

fn told(reader: &Reader, texts: &Texts, room: usize) -> Told {
    let mut output = vec![BEFORE; room];
    let answer = (reader.translate)(&texts.policy, &texts.tasks, &mut output);
    (answer, output)
}

fn differ(readers: &[Reader], texts: &Texts, room: usize) -> bool {
    let mut all = readers.iter().map(|reader| told(reader, texts, room));
    let first = all.next();
    all.any(|other| Some(other) != first)
}

/// The common answer of all readers; else the smallest texts found on which they differ, in words.
pub fn compare(readers: &[Reader], texts: &Texts, room: usize) -> Result<Answer, String> {
    if differ(readers, texts, room) {
        return Err(report(readers, &smallest(readers, texts, room), room));
    }
    let first = readers.first().expect("a reader");
    Ok(told(first, texts, room).0)
}

/// Removes pieces of one text as long as the readers still differ.
fn smaller(text: &[u8], differ: impl Fn(&[u8]) -> bool) -> Vec<u8> {
    let mut text = text.to_vec();
    let mut piece = text.len().div_ceil(2);
    while piece > 0 {
        let mut at = 0;
        while at < text.len() {
            let end = (at + piece).min(text.len());
            let less = [&text[..at], &text[end..]].concat();
            if differ(&less) {
                text = less;
            } else {
                at = end;
            }
        }
        piece /= 2;
    }
    text
}

/// How many bytes may be read again to shrink the texts.
const PATIENCE: usize = 10_000_000;

/// The smallest texts that can be found within `PATIENCE`; larger pieces are removed first.
fn smallest(readers: &[Reader], texts: &Texts, room: usize) -> Texts {
    let left = Cell::new(PATIENCE);
    let still = |texts: Texts| {
        left.set(
            left.get()
                .saturating_sub(texts.policy.len() + texts.tasks.len()),
        );
        left.get() > 0 && differ(readers, &texts, room)
    };
    let mut texts = texts.clone();
    texts.policy = smaller(&texts.policy, |policy| {
        let policy = policy.to_vec();
        still(Texts {
            policy,
            ..texts.clone()
        })
    });
    texts.tasks = smaller(&texts.tasks, |tasks| {
        let tasks = tasks.to_vec();
        still(Texts {
            tasks,
            ..texts.clone()
        })
    });
    texts
}

fn report(readers: &[Reader], texts: &Texts, room: usize) -> String {
    let mut words = String::new();
    let shown = |text: &[u8]| text.escape_ascii().to_string();
    let _ = writeln!(words, "policy: \"{}\"", shown(&texts.policy));
    let _ = writeln!(words, " tasks: \"{}\"", shown(&texts.tasks));
    let _ = writeln!(words, "  room: {room}");
    for reader in readers {
        let (
            Answer {
                reply,
                text,
                figure,
            },
            output,
        ) = told(reader, texts, room);
        let name = reader.name;
        let _ = writeln!(
            words,
            "{name:>6}: reply {reply}, text {text}, figure {figure}"
        );
        for record in output
            .chunks(RECORD)
            .filter(|r| r.iter().any(|&b| b != BEFORE))
        {
            let _ = writeln!(words, "        {record:02x?}");
        }
    }
    words
}

/// Checks that all readers of these sections give the same names by number for an accepted policy.
pub fn compare_names(texts: &Texts, sections: Sections) -> Result<(), String> {
    let read =
        |of| opl::read_sections(&texts.policy, &texts.tasks, of).map_err(|r| format!("{r:?}"));
    let wider = read(Sections::All)?.records();
    let read = read(sections)?;
    if read.records() != wider {
        return Err(format!(
            "all sections are read otherwise than these in {texts:?}"
        ));
    }
    let mut output = vec![0; RECORD * read.count()];
    let (_, names) = slow::translate(&texts.policy, &texts.tasks, &mut output, sections);
    let names = names.ok_or("the slow reader accepts what the plain one accepts")?;
    for space in Space::ALL {
        if read.names(space) != names[space as usize] {
            return Err(format!("the {} names differ in {texts:?}", space.name()));
        }
    }
    let begins = |origin: &opl::Origin| match origin.text {
        opl::Text::Policy => texts.policy[origin.place - 1] == b'<',
        opl::Text::Tasks => match origin.place {
            1 => !texts.tasks.starts_with(b"\xef\xbb\xbf"),
            place => {
                texts.tasks[place - 2] == b'\n' || &texts.tasks[..place - 1] == b"\xef\xbb\xbf"
            }
        },
    };
    let origins = opl::origins(&texts.policy, &texts.tasks);
    if origins.len() != read.count() || !origins.iter().all(begins) {
        return Err(format!("the records' origins differ in {texts:?}"));
    }
    if !proved::agrees(texts, &read, sections) {
        return Err(format!("the wrapper's names differ in {texts:?}"));
    }
    if read.records() == output {
        return Ok(());
    }
    Err(format!("the records differ in {texts:?}"))
}
