//! Names in place of numbers: where they may be used, and how a wrong one is reported.

use notation::reader::Line;
use notation::{explain, reader, writer, Error, Names, Sort};
use random::Random;
use records::Record;
use std::collections::BTreeSet;

/// The records of a text with these known names.
fn read_named(text: &[u8], names: &Names) -> Result<Vec<u8>, Vec<Error>> {
    reader::read(text, names, false).map(|text| text.bytes())
}

/// Each number up to 63 of each sort has a name, some of which need quotes.
fn names() -> Names {
    let mut names = Names::default();
    for sort in Sort::ALL {
        let word = sort.word();
        for number in 0..64 {
            let name = match number % 4 {
                0 => format!("{word}:{number}"),
                1 => format!("{word} # : {number}"),
                2 => format!("C:\\{word}\"{number}\""),
                _ => format!("{number}"),
            };
            names.give(sort, number, name.as_bytes());
        }
    }
    names
}

#[test]
fn every_kind_is_read_back_with_its_names() {
    let (names, mut random) = (names(), Random::new(3));
    let mut named = BTreeSet::new();
    for _ in 0..20_000 {
        let kind = random.below(61) as u8;
        let n = random.pick(&[0, 0, 1, 255]);
        let [a, b, c] = [0; 3].map(|_| random.pick(&[0, 0, 0, 0, 0, 0, 1, 2, 3, 5, 63, 64, 700]));
        let m = random.pick(&[0, 0, 0, 0, 1, 6, 0x2_0003, 1 << 63, u64::MAX]);
        let record = Record::new(kind, n, a, b, c, m);
        let text = writer::lines(&record.0, &names);
        assert_eq!(
            read_named(text.as_bytes(), &names).unwrap(),
            record.0,
            "{text}"
        );
        if text.contains('"') {
            named.insert(kind);
        }
    }
    let with_names = [1..=18, 32..=37, 40..=43, 48..=52, 56..=60];
    assert_eq!(named, with_names.into_iter().flatten().collect());
}

#[test]
fn a_name_stands_where_its_sort_is_meant() {
    let names = names();
    for (line, numbers) in [
        ("user \"user:4\" has role \"3\"", "user 4 has role 3"),
        ("task set 1 of \"task:4\" 7 \"3\"", "task set 1 of 3 4 7"),
        (
            "block of partitioning 0: \"task:4\"",
            "block of partitioning 0: 4",
        ),
        (
            "static set 1 of \"role:0\" \"role:8\"",
            "static set 1 of 0 8",
        ),
        (
            "create subject 5 for user \"user # : 1\" with roles \"role:4\"",
            "create subject 5 for user 1 with roles 4",
        ),
        (
            "task check 1 2 \"task:8\" operation \"operation:0\" object \"C:\\\\object\\\"2\\\"\"",
            "task check 1 2 8 operation 0 object 2",
        ),
        (
            "open order 0 of template \"template:8\" # \"",
            "open order 0 of template 8",
        ),
    ] {
        let record = read_named(line.as_bytes(), &names).unwrap();
        assert_eq!(
            record,
            notation::read(numbers.as_bytes()).unwrap(),
            "{line}"
        );
    }
}

#[test]
fn a_wrong_name_is_told() {
    let names = names();
    for (line, message) in [
        (
            "claim 5 0 \"role:4\"",
            "line 1, column 11: expected the task, a number up to 63 or the name of a known task, \
             found \"role:4\"",
        ),
        (
            "claim \"user:4\" 0 1",
            "line 1, column 7: expected the subject, a number up to 127 or the name of a known subject, found \"user:4\"",
        ),
        (
            "user \"user:4",
            "line 1, column 6: expected a number up to 1023 or the name of a known user (\"user:4\"?), found \"user:4",
        ),
        (
            "user é \"user:4\"",
            "line 1, column 6: expected a number up to 1023 or the name of a known user, found \"é\"",
        ),
        (
            "static set 1 of \"role:4\" 4",
            "line 1, column 26: expected a number up to 63 not named before, the name of a known role \
             or the end of the line, found \"4\"",
        ),
    ] {
        let errors = read_named(line.as_bytes(), &names).unwrap_err();
        assert_eq!(errors[0].to_string(), message);
    }
    let errors = notation::read(b"user \"user:4\"").unwrap_err();
    let message = "line 1, column 6: expected a number up to 1023, found \"user:4\", and no line above names a user";
    assert_eq!(errors[0].to_string(), message);
}

#[test]
fn a_listing_shows_names() {
    let names = names();
    let policy = Record::user_has_role(4, 0);
    let said = explain(Some(&policy.0), &[], "load 4 1\n", &names).unwrap();
    assert_eq!(
        said,
        "load 4 UNKNOWN at record 1: user \"user:4\" has role \"role:0\"\n"
    );
    assert_eq!(writer::line(&Record::user(700).0, &names), "user 700");
}

#[test]
fn a_rule_is_shown_with_names() {
    let names = names();
    let policy = Record::before(0, 4);
    let claim = Record::claim(5, 0, 4);
    let said = explain(
        Some(&policy.0),
        &[Line::of(&claim.0)],
        "load 0 0\n1 14 1\n",
        &names,
    )
    .unwrap();
    assert_eq!(
        said,
        "load 0 GRANTED\n    1  14 BEFORE        claim \"subject # : 5\" \"order:0\" \"task:4\"\n\
         \u{20}      14 BEFORE  task \"task:0\" before task \"task:4\" (rule 1 of its kind)\n"
    );
}
