//! An error names the line, the column and what was expected.

use notation::read;

/// Checks the text's error: line, column, expected, found.
fn refused(text: &str, line: usize, column: usize, expected: &str, found: &str) {
    let errors = read(text.as_bytes()).expect_err(text);
    assert_eq!(errors.len(), 1, "{text:?}");
    let error = &errors[0];
    let got = (
        error.line,
        error.wrong.column,
        &error.wrong.expected[..],
        &error.wrong.found[..],
    );
    assert_eq!(got, (line, column, expected, found), "{text:?}");
}

const END: &str = "the end of the line";
const USER: &str = "a number up to 1023";

#[test]
fn a_wrong_word() {
    refused("take 5", 1, 6, "\"role\" or \"permission\"", "\"5\"");
    refused(
        "block of partitioning 3 0",
        1,
        25,
        "\":\" or a name for the partitioning",
        "\"0\"",
    );
    refused("größer 3", 1, 1, FIRST, "\"größer\"");
    refused("user 3 ä x", 1, 10, END, "\"x\"");
}

#[test]
fn a_word_that_is_nearly_right() {
    refused("User 3", 1, 1, "\"user\"", "\"User\"");
    refused("clam 5 0 1", 1, 1, "\"claim\"", "\"clam\"");
    // The word is read as a name at first, and reported as the word that it nearly is.
    refused(
        "user 3\n  task 3 off template 0",
        2,
        10,
        "\"of\"",
        "\"off\"",
    );
    let has = "a name for the user, the end of the line or \"has\" (\"has\"?)";
    refused("user 3 hass role 0", 1, 8, has, "\"hass\"");
    // A name that resembles a word, before a word that is nearly right: the error is at the word.
    let word = "\"of\" or the end of the line (\"of\"?)";
    refused("task 4 opens off template 0", 1, 14, word, "\"off\"");
}

/// What is expected if a line begins with an unknown word.
const FIRST: &str = "the first word of a line, such as \"user\", \"task\", \"open\" or \"claim\"";

#[test]
fn a_word_of_the_notation_is_no_name_without_quotes() {
    let found = "\"open\", a word of the notation: as a name it goes between quotes";
    let line = "permission 0 is operation 0 open on object 0";
    refused(
        line,
        1,
        29,
        "\"on\" or a name for the operation (\"on\"?)",
        found,
    );
    assert!(read(line.replace("open", "\"open\"").as_bytes()).is_ok());
}

#[test]
fn what_a_terminal_would_obey_is_shown_and_not_sent() {
    refused("\u{1b}[31m 3", 1, 1, FIRST, "\"\\u{1b}[31m\"");
}

#[test]
fn a_text_in_two_bytes_a_letter_is_told_once() {
    let mut text = vec![0xff, 0xfe];
    text.extend("user 1\nuser 2\n".encode_utf16().flat_map(u16::to_le_bytes));
    let errors = read(&text).unwrap_err();
    assert_eq!(errors.len(), 1);
    let message = "line 1, column 1: expected text in UTF-8, found UTF-16: save the file as UTF-8";
    assert_eq!(errors[0].to_string(), message);
}

#[test]
fn a_line_that_ends_early() {
    refused("user", 1, 5, USER, END);
    refused("user   # 3", 1, 5, USER, END);
    refused("claim 5 0", 1, 10, "the task, a number up to 63", END);
    refused(
        "static set 1 of",
        1,
        16,
        "a number up to 63 or \"none\"",
        END,
    );
    refused("user 3 has role\r\nuser 4", 1, 16, "a number up to 63", END);
}

#[test]
fn a_line_that_goes_on() {
    refused(
        "add user 3 4",
        1,
        12,
        "a name for the user, the end of the line or \"with\"",
        "\"4\"",
    );
    refused("delete user 3 4", 1, 15, END, "\"4\"");
    refused("static set 1 of none 3", 1, 22, END, "\"3\"");
    let seventeen = format!("bytes{}", " 00".repeat(17));
    refused(&seventeen, 1, 55, END, "\"00\"");
    refused(
        "bytes 01\n\n user 3",
        3,
        2,
        "no record after a cut one",
        "\"user\"",
    );
}

#[test]
fn a_number_that_does_not_fit_its_field() {
    refused("user 65536", 1, 6, USER, "\"65536\"");
    refused("user -1", 1, 6, USER, "\"-1\"");
    refused("user 3x", 1, 6, USER, "\"3x\"");
    refused("user 0x", 1, 6, USER, "\"0x\"");
    refused("user 0x10000", 1, 6, USER, "\"0x10000\"");
    refused(
        "task 3 at most 256 times",
        1,
        16,
        "a number up to 255",
        "\"256\"",
    );
    refused(
        "record 256 0 0 0 0 0",
        1,
        8,
        "the kind, a number up to 255",
        "\"256\"",
    );
    refused(
        "record 1 0 0 0 0 0x10000000000000000",
        1,
        18,
        "the m, a number up to 18446744073709551615",
        "\"0x10000000000000000\"",
    );
    refused("bytes 1", 1, 7, "a byte as two hexadecimal digits", "\"1\"");
    refused(
        "bytes 0g",
        1,
        7,
        "a byte as two hexadecimal digits",
        "\"0g\"",
    );
}

#[test]
fn a_member_that_is_too_large_or_named_twice() {
    let further = "a number up to 63 not named before or the end of the line";
    refused(
        "task set 1 of 64 1",
        1,
        15,
        "a number up to 63 or \"none\"",
        "\"64\"",
    );
    refused("task set 1 of 1 64", 1, 17, further, "\"64\"");
    refused("task set 1 of 1 1", 1, 17, further, "\"1\"");
    refused("task set 1 of 1 none", 1, 17, further, "\"none\"");
}

#[test]
fn bytes_that_are_no_text() {
    let errors = read(b"user 3\nus\xffer 4").unwrap_err();
    let message = "line 2, column 3: expected text in UTF-8, found the byte 0xff";
    assert_eq!(errors[0].to_string(), message);
}

#[test]
fn all_errors_of_a_text() {
    let text = b"user x\nuser 3\nus\xffer 4\nclaim 5 0\nbytes 01\nuser 5\nuser 6\n";
    let errors = read(text).unwrap_err();
    let told: Vec<String> = errors.iter().map(ToString::to_string).collect();
    assert_eq!(
        told,
        [
            "line 1, column 6: expected a number up to 1023, found \"x\", and no line above names a user",
            "line 3, column 3: expected text in UTF-8, found the byte 0xff",
            "line 4, column 10: expected the task, a number up to 63, found the end of the line",
            "line 6, column 1: expected no record after a cut one, found \"user\"",
        ]
    );
}

#[test]
fn a_comma_stands_between_members() {
    let member = "a number up to 63 or \"none\"";
    let further = "a number up to 63 not named before";
    refused("task set 1 of , 1", 1, 15, member, "\",\"");
    refused("task set 1 of 0, ", 1, 17, further, END);
    refused("task set 1 of 0,,1", 1, 17, further, "\",\"");
    refused(
        "claim 5, 0 1",
        1,
        8,
        "the order, a number up to 63",
        "\",\"",
    );
}
