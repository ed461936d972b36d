//! Writes records as lines, with names in place of the numbers that have one.

use crate::names::{shown, Names, Sort};
use crate::reader::declares;
use records::forms::{parts, Field, Part, FORMS, RAW};
use records::{Record, Set, LENGTH};

/// Writes a number of a sort that is in this field; the members of a set are in m.
type Say<'a> = &'a mut dyn FnMut(Sort, Field, u16) -> String;

/// The form filled with the record's fields; `None` if the record has more than the form shows.
fn fill(kind: u8, pattern: &'static str, record: Record, say: Say) -> Option<String> {
    let mut kept = Record::new(kind, 0, 0, 0, 0, 0);
    let mut text = String::new();
    let mut before = "";
    for part in parts(pattern) {
        let sort = Sort::of_part(part, kind, before);
        let mut named = |field: Field, number: u64| match (sort, u16::try_from(number)) {
            (Some(sort), Ok(number)) => say(sort, field, number),
            _ => number.to_string(),
        };
        let piece = match part {
            Part::Word(word) => word.to_string(),
            Part::Number(field, _) => {
                kept = field.put(kept, field.of(record));
                named(field, field.of(record))
            }
            Part::Set if record.m() == 0 => "none".to_string(),
            Part::Set => {
                kept = Field::M.put(kept, record.m());
                let members = Set(record.m()).members();
                let members = members.map(|member| named(Field::M, member.into()));
                members.collect::<Vec<String>>().join(" ")
            }
            Part::Bytes => return None,
        };
        if !text.is_empty() && part != Part::Word(":") {
            text.push(' ');
        }
        text += &piece;
        before = if let Part::Word(word) = part {
            word
        } else {
            ""
        };
    }
    (kept == record).then_some(text)
}

fn line_by(record: &[u8], say: Say) -> String {
    let in_words = <[u8; LENGTH]>::try_from(record).ok().and_then(|bytes| {
        let record = Record(bytes);
        let known = FORMS.into_iter().filter(|&(kind, _)| kind == record.kind());
        let mut in_words = known.filter(|&(_, pattern)| pattern != RAW);
        in_words.find_map(|(kind, pattern)| fill(kind, pattern, record, say))
    });
    in_words.unwrap_or_else(|| by_bytes(record))
}

/// A record by its fields; by its bytes if it is truncated.
fn by_bytes(record: &[u8]) -> String {
    if let Ok(bytes) = <[u8; LENGTH]>::try_from(record) {
        return Record(bytes).to_string();
    }
    let hex: Vec<String> = record.iter().map(|byte| format!("{byte:02x}")).collect();
    format!("bytes {}", hex.join(" "))
}

/// One record's line; its bytes if it is truncated.
pub fn line(record: &[u8], names: &Names) -> String {
    line_by(record, &mut |sort, _, number| names.shown(sort, number))
}

/// The lines of many records, of which the last may be truncated.
pub fn lines(records: &[u8], names: &Names) -> String {
    let line = |record| line(record, names) + "\n";
    records.chunks(LENGTH).map(line).collect()
}

/// The numbers that a record contains, each with its sort and field, in the order of its line.
pub fn numbers(record: &[u8]) -> Vec<(Sort, Field, u16)> {
    let mut all = Vec::new();
    line_by(record, &mut |sort, field, number| {
        all.push((sort, field, number));
        String::new()
    });
    all
}

/// A policy's lines, which give each name where its number is declared and use it from there on. An object that no permission
/// declares, such as one of a wall, is named by a separate line.
pub fn policy(records: &[u8], names: &Names) -> String {
    let mut text = String::new();
    let mut known = Names::default();
    for record in records.chunks(LENGTH) {
        let mut given = Vec::new();
        let mut named = String::new();
        let line = line_by(record, &mut |sort, field, number| {
            let name = names.name(sort, number);
            match (name, known.name(sort, number)) {
                (Some(name), None) if declares(record[0], field) => {
                    given.push((sort, number, name));
                    format!("{number} {}", shown(name))
                }
                (Some(name), None) if sort == Sort::Object => {
                    given.push((sort, number, name));
                    named += &format!("object {number} {}\n", shown(name));
                    shown(name)
                }
                _ => known.shown(sort, number),
            }
        });
        text += &format!("{named}{line}\n");
        for (sort, number, name) in given {
            known.give(sort, number, name);
        }
    }
    text
}

#[cfg(test)]
mod tests {
    use super::*;
    use crate::reader::read;

    #[test]
    fn a_policy_is_written_as_it_reads() {
        let text = "user 300 clerk_b\nrole 0 \"the clerk\"\nuser clerk_b has role \"the clerk\"
task 4 sign of template 0 loan\ntask 5 of template loan\ntask set 1 of sign 5
permission 1 p is operation 2 read on object 9 book\nblock of partitioning 3 money: sign\nrecord 1 1 1 1 1 1\nbytes 01 02\n";
        let read =
            read(text.as_bytes(), &Names::default(), true).unwrap_or_else(|e| panic!("{e:?}"));
        let bytes: Vec<u8> = read.records().flat_map(|(_, r)| r.to_vec()).collect();
        assert_eq!(policy(&bytes, &read.names), text);
        assert_eq!(
            line(&Record::claim(5, 0, 4).0, &read.names),
            "claim 5 0 sign"
        );
        assert_eq!(
            policy(&bytes, &Names::default()),
            lines(&bytes, &Names::default())
        );
    }

    /// An object of a wall may have no declaration; its name is still written.
    #[test]
    fn objects_of_walls_keep_their_names() {
        let text = "permission 0 p is operation 0 open_it on object 0 book\nobject 4 mails\nwall 0 block 0 object mails\n\
            wall 0 block 1 object book\nwall 1 block 0 object mails\n";
        let read =
            read(text.as_bytes(), &Names::default(), true).unwrap_or_else(|e| panic!("{e:?}"));
        let bytes: Vec<u8> = read.records().flat_map(|(_, r)| r.to_vec()).collect();
        assert_eq!(policy(&bytes, &read.names), text);
    }

    /// With names for every other number, some of which need quotes, every line reads back as its record.
    #[test]
    fn lines_with_names_read_back() {
        let mut names = Names::default();
        for sort in Sort::ALL {
            for number in (0..64).step_by(2) {
                let name = match number % 3 {
                    0 => format!("{}:{number} \"x\"", sort.word()),
                    _ => format!("{}_{number}", sort.word()),
                };
                names.give(sort, number, name.as_bytes());
            }
        }
        let known = |kind: &u8| FORMS.iter().any(|(of, _)| of == kind);
        for kind in (1..=255).filter(known) {
            for number in 0..40u16 {
                let (a, b, c) = (number, number * 7 % 61, number * 5 % 59);
                let whole = Record::new(kind, number as u8, a, b, c, u64::from(number) << 3 | 1);
                // Set only the fields that the kind uses, so that the record is written as the kind's line.
                let pattern = FORMS.into_iter().rfind(|&(of, _)| of == kind).unwrap().1;
                let fields = parts(pattern).filter_map(|part| match part {
                    Part::Number(field, _) => Some(field),
                    Part::Set => Some(Field::M),
                    _ => None,
                });
                let none = Record::new(kind, 0, 0, 0, 0, 0);
                let record = fields.fold(none, |record, field| field.put(record, field.of(whole)));
                let text = line(&record.0, &names);
                let back = crate::reader::read_line(&text, &names).unwrap().unwrap();
                assert_eq!(back.record.as_deref(), Some(&record.0[..]), "{text}");
                assert_ne!(text.split(' ').next(), Some("record"), "{text}");
            }
        }
    }
}
