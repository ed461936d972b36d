//! Readers with one fault each: the comparison finds every fault.

use opl::{Answer, Refusal, Why, ACCEPTED, NAMES, RECORD, ROOM, TEXT};
use opl_differential::{readers, run, Reader};

/// Checks that texts are found on which this reader differs from the others.
#[track_caller]
fn is_found(name: &'static str, translate: impl Fn(&[u8], &[u8], &mut [u8]) -> Answer + 'static) {
    let mut all = readers();
    all.push(Reader::new(name, translate));
    let difference = run(&all, 3, 20_000).err().unwrap_or_default();
    assert!(difference.contains(name), "{name}: {difference}");
}

fn with(answer: Answer, change: impl Fn(&mut Answer)) -> Answer {
    let mut answer = answer;
    change(&mut answer);
    answer
}

#[test]
fn places_counted_from_zero() {
    is_found("places", |policy, tasks, output| {
        with(opl::translate(policy, tasks, output), |answer| {
            if answer.reply == TEXT {
                answer.figure -= 1;
            }
        })
    });
}

#[test]
fn the_texts_mistaken_for_each_other() {
    is_found("texts", |policy, tasks, output| {
        with(opl::translate(policy, tasks, output), |answer| {
            if answer.text == 2 {
                answer.text = 1;
            }
        })
    });
}

#[test]
fn a_refusal_that_writes() {
    is_found("writes", |policy, tasks, output| {
        let answer = opl::translate(policy, tasks, output);
        if answer.reply == ROOM && !output.is_empty() {
            output[0] = 0;
        }
        answer
    });
}

#[test]
fn output_behind_the_records_changed() {
    is_found("behind", |policy, tasks, output| {
        let answer = opl::translate(policy, tasks, output);
        let end = RECORD * answer.figure as usize;
        if answer.reply == ACCEPTED && output.len() > end {
            output[end..].fill(0);
        }
        answer
    });
}

#[test]
fn tags_without_a_name_refused_at_their_bracket() {
    for (name, bracket) in [("start tags", &b"<"[..]), ("end tags", b"</")] {
        is_found(name, move |policy, tasks, output| {
            with(opl::translate(policy, tasks, output), |answer| {
                let place = answer.figure as usize;
                if answer.text == 1 && policy[..place - 1].ends_with(bracket) {
                    answer.figure -= bracket.len() as u64;
                }
            })
        });
    }
}

/// A reader that checks an attribute's name before its value stops at the name. So if the text up to the faulty byte, with the
/// attribute completed, is refused at an attribute's name, that reader reports the wrong place.
#[test]
fn attributes_judged_before_their_value() {
    for (name, rest) in [("no sign", "=''"), ("no quote", "''"), ("no end", "'")] {
        is_found(name, move |policy, tasks, output| {
            let answer = opl::translate(policy, tasks, output);
            if answer.text != 1 {
                return answer;
            }
            let before = &policy[..answer.figure as usize - 1];
            let Err(Refusal::Text(fault)) = opl::read(&[before, rest.as_bytes()].concat(), tasks)
            else {
                return answer;
            };
            let why = &fault.why;
            let by_name = matches!(why, Why::UnknownAttribute(..) | Why::RepeatedAttribute(_));
            with(answer, |answer| {
                if by_name {
                    answer.figure = fault.place as u64;
                }
            })
        });
    }
}

#[test]
fn comments_that_end_at_any_bracket() {
    is_found("comments", |policy, tasks, output| {
        let text = String::from_utf8_lossy(policy).replace("<!--->", "<!---->");
        opl::translate(text.as_bytes(), tasks, output)
    });
}

#[test]
fn names_of_65_bytes_taken() {
    is_found("long", |policy, tasks, output| {
        let answer = opl::translate(policy, tasks, output);
        let only_long = |text: &[u8]| text.windows(65).any(|w| w.ends_with(b"zz"));
        if answer.reply == NAMES && only_long(policy) {
            return with(answer, |answer| answer.reply = ACCEPTED);
        }
        answer
    });
}

#[test]
fn records_in_text_order() {
    is_found("order", |policy, tasks, output| {
        let answer = opl::translate(policy, tasks, output);
        if answer.reply == ACCEPTED && answer.figure > 1 {
            let records = &mut output[..RECORD * answer.figure as usize];
            if records[0] == records[RECORD] {
                let (first, rest) = records.split_at_mut(RECORD);
                first.swap_with_slice(&mut rest[..RECORD]);
            }
        }
        answer
    });
}

#[test]
fn white_space_trimmed_from_values() {
    is_found("trims", |policy, tasks, output| {
        let text = String::from_utf8_lossy(policy)
            .replace("\" ", "\"")
            .replace("' ", "'");
        opl::translate(text.as_bytes(), tasks, output)
    });
}
