//! Every kind as words and back, any bytes and back, and text with any spacing.

use notation::{is_text, line, read, write};
use random::Random;
use records::{Record, Set};

/// Each kind's line, and its record.
fn every_kind() -> Vec<(&'static str, Record)> {
    let two = Set::of(&[0, 63]);
    vec![
        ("user 300", Record::user(300)),
        ("role 7", Record::role(7)),
        (
            "permission 7 is operation 40 on object 50",
            Record::permission(7, 40, 50),
        ),
        ("user 300 has role 7", Record::user_has_role(300, 7)),
        ("role 7 has permission 8", Record::role_has_permission(7, 8)),
        ("task 5 of template 3", Record::task(5, 3)),
        ("task 5 open to role 7", Record::task_open_to(5, 7)),
        ("task 5 carries permission 8", Record::task_carries(5, 8)),
        ("static set 1 of 0 63", Record::static_set(1, two)),
        ("dynamic set 2 of 0 63", Record::dynamic_set(2, two)),
        ("task set 3 of none", Record::task_set(3, Set::EMPTY)),
        ("block of partitioning 4: 0 63", Record::block(4, two)),
        ("lone-worker ban on template 3", Record::lone_worker_ban(3)),
        ("task 5 at most 255 times", Record::at_most(5, 255)),
        ("task 5 bound to task 6", Record::bound(5, 6)),
        ("task 5 before task 6", Record::before(5, 6)),
        ("role 7 above role 3", Record::role_above(7, 3)),
        ("wall 0 block 1 object 7", Record::wall(0, 1, 7)),
        ("add user 65535", Record::add_user(65535)),
        ("delete user 300", Record::delete_user(300)),
        ("assign role 7 to user 300", Record::assign_role(300, 7)),
        ("take role 7 from user 300", Record::take_role(300, 7)),
        ("give role 7 permission 8", Record::give_permission(7, 8)),
        (
            "take permission 8 from role 7",
            Record::take_permission(7, 8),
        ),
        (
            "create subject 9 for user 300 with roles 0 63",
            Record::create_subject(9, 300, two),
        ),
        (
            "create subject 9 for user 300 with roles none",
            Record::create_subject(9, 300, Set::EMPTY),
        ),
        ("destroy subject 9", Record::destroy_subject(9)),
        ("activate role 7 in subject 9", Record::activate_role(9, 7)),
        (
            "deactivate role 7 in subject 9",
            Record::deactivate_role(9, 7),
        ),
        ("open order 2 of template 3", Record::open_order(2, 3)),
        ("end order 2", Record::end_order(2)),
        ("claim 9 2 5", Record::claim(9, 2, 5)),
        ("release 9 2 5", Record::release(9, 2, 5)),
        ("done 9 2 5", Record::done(9, 2, 5)),
        ("check 9 operation 40 object 50", Record::check(9, 40, 50)),
        (
            "task check 9 2 5 operation 40 object 50",
            Record::task_check(9, 2, 5, 40, 50),
        ),
        (
            "task check 9 2 5 operation 65535 object 65535",
            Record::task_check(9, 2, 5, 65535, 65535),
        ),
        ("entries of order 2", Record::entries_of(2)),
        ("commit 5 operation 2 object 7", Record::commit(5, 2, 7)),
        ("stuck tasks of template 3", Record::stuck_tasks(3)),
    ]
}

#[test]
fn every_kind_in_words_and_back() {
    let mut kinds = Vec::new();
    for (words, record) in every_kind() {
        assert_eq!(line(&record.0), words);
        assert_eq!(read(words.as_bytes()).as_deref(), Ok(&record.0[..]));
        kinds.push(record.kind());
    }
    kinds.dedup();
    let all = (1..=18).chain(32..=37).chain(40..=43).chain(48..=52);
    let all: Vec<u8> = all.chain(56..=60).collect();
    assert_eq!(kinds, all);
}

#[test]
fn a_file_in_words_and_back() {
    let all = every_kind();
    let bytes: Vec<u8> = all.iter().flat_map(|(_, record)| record.0).collect();
    let text: String = all.iter().map(|(words, _)| format!("{words}\n")).collect();
    assert_eq!(write(&bytes), text);
    assert_eq!(read(text.as_bytes()), Ok(bytes));
}

#[test]
fn what_words_do_not_show_is_shown_by_fields() {
    let rows = [
        (Record::new(1, 1, 300, 0, 0, 0), "record 1 1 300 0 0 0"),
        (Record::new(50, 0, 5, 0, 1, 16), "record 50 0 5 0 1 0x10"),
        (
            Record::new(57, 0, 5, 0, 1, 1 << 32),
            "record 57 0 5 0 1 0x100000000",
        ),
        (Record::new(0, 0, 0, 0, 0, 0), "record 0 0 0 0 0 0"),
        (Record::new(31, 0, 1, 2, 0, 0), "record 31 0 1 2 0 0"),
    ];
    for (record, words) in rows {
        assert_eq!(line(&record.0), words);
        assert_eq!(read(words.as_bytes()).as_deref(), Ok(&record.0[..]));
    }
    assert_eq!(write(&[1, 0xab]), "bytes 01 ab\n");
    assert_eq!(read(b"bytes 01 ab"), Ok(vec![1, 0xab]));
}

/// Random bytes, often of a known kind and with some fields cleared, so that words are used.
fn random_record(random: &mut Random) -> Record {
    let mut bytes = random.bytes::<16>();
    if random.chance(3, 4) {
        bytes[0] = random.below(60) as u8;
        for field in [1..2, 2..4, 4..6, 6..8, 8..12, 8..16] {
            if random.chance(2, 3) {
                bytes[field].fill(0);
            }
        }
    }
    Record(bytes)
}

#[test]
fn any_bytes_in_words_and_back() {
    let mut random = Random::new(1);
    let mut in_words = 0;
    for _ in 0..20_000 {
        let record = random_record(&mut random);
        let words = line(&record.0);
        in_words += usize::from(!words.starts_with("record"));
        let back = read(words.as_bytes());
        assert_eq!(back.as_deref(), Ok(&record.0[..]), "{words}");
    }
    assert!(in_words > 2_000, "only {in_words} in words");
}

#[test]
fn any_file_in_words_and_back() {
    let mut random = Random::new(2);
    for _ in 0..200 {
        let count = random.below(40);
        let mut bytes: Vec<u8> = Vec::new();
        for _ in 0..count {
            bytes.extend(random_record(&mut random).0);
        }
        bytes.truncate(bytes.len() - random.below(16).min(bytes.len()));
        assert_eq!(read(write(&bytes).as_bytes()), Ok(bytes));
    }
}

/// The line with other spacing and a comment at its end.
fn respaced(words: &str, random: &mut Random) -> String {
    let mut text = random.pick(&["", " ", "\t "]).to_string();
    for word in words.replace(':', " : ").split_whitespace() {
        text += word;
        text += random.pick(&[" ", "  ", "\t", " \t "]);
    }
    text + random.pick(&["", "\r", "# a comment: user 3", "#"])
}

#[test]
fn spaces_comments_and_blank_lines_make_no_difference() {
    let mut random = Random::new(3);
    for (words, record) in every_kind() {
        let text = format!("\n# first\n{}\n  \n", respaced(words, &mut random));
        let back = read(text.as_bytes());
        assert_eq!(back.as_deref(), Ok(&record.0[..]), "{text}");
    }
    assert_eq!(
        read(b"block of partitioning 3:0 1"),
        read(b"block of partitioning 3 : 0 1")
    );
    assert_eq!(read(b"user 0x12c#tight"), read(b"user 300"));
    assert_eq!(read(b"task set 1 of 0,1 , 2"), read(b"task set 1 of 0 1 2"));
    assert_eq!(
        read(b"task 5 at most 1 time"),
        read(b"task 5 at most 1 times")
    );
    assert_eq!(read(b"\xef\xbb\xbfuser 300\r\n"), read(b"user 300"));
    assert_eq!(read(b""), Ok(vec![]));
    assert_eq!(read(b"# nothing\n\n"), Ok(vec![]));
}

#[test]
fn text_is_told_from_records() {
    for (words, record) in every_kind() {
        assert!(is_text(words.as_bytes()));
        // 65,535 is out of range, and its bytes are not text either.
        assert!(!is_text(&record.0), "{words}");
    }
    assert!(is_text("# größer\r\n\tuser 3\n".as_bytes()));
    assert!(!is_text(&[0xff, 0xfe]));
}
