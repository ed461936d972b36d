//! Damages texts, at single bytes or by whole pieces of markup.

use random::Random;

/// Replacements for a byte, besides random ones: all bytes with a meaning in the grammar, and similar ones.
const BYTES: &[u8] = b"<>/=\"'&!?- \n\t\rA_.:[1es\0\x1f\x7f\x80\xef\xbb\xbf";

/// Damage to one byte.
#[derive(Clone, Copy, Debug)]
pub enum Blow {
    /// The byte is removed.
    Deleted,
    /// The byte is doubled.
    Doubled,
    /// The text ends before the byte.
    Cut,
    /// The byte is replaced.
    Replaced(u8),
}

/// The damages to try at one byte: the first three, and some replacements.
pub fn blows(random: &mut Random) -> Vec<Blow> {
    let mut blows = vec![Blow::Deleted, Blow::Doubled, Blow::Cut];
    blows.push(Blow::Replaced(random.pick(BYTES)));
    blows.push(Blow::Replaced(random.pick(BYTES)));
    blows.push(Blow::Replaced(random.word() as u8));
    blows
}

/// The text with damage at an index.
pub fn struck(text: &[u8], place: usize, blow: Blow) -> Vec<u8> {
    let (before, behind) = text.split_at(place);
    match blow {
        Blow::Deleted => [before, &behind[1..]].concat(),
        Blow::Doubled => [before, &behind[..1], behind].concat(),
        Blow::Cut => before.to_vec(),
        Blow::Replaced(byte) => [before, &[byte], &behind[1..]].concat(),
    }
}

/// Elements of other sections, elements in wrong places, and text that is not an element.
const INTRUDERS: [&str; 41] = [
    "<inherit_role upper_role='r' lower_role='r'/>",
    "<inherit_role upper_role='' lower_role='r'/>",
    "<cw_partitions/>",
    "<cw_partition/>",
    "<partition_object object_id='o'/>",
    "<uocws/>",
    "<uocw user_id='u' object_id='o'/>",
    "<static_separation_of_duty_attached_to_permissions/>",
    "<strict_static_separation_of_duty><critical_role_sets/></strict_static_separation_of_duty>",
    "<critical_permission_sets/>",
    "<module_role_hierarchy_policy><role_hierarchy/></module_role_hierarchy_policy>",
    "<inherit_role/>",
    "<module_sep_duty_rh_policy/>",
    "<module_exo_context_policy/>",
    "<context_constraints/>",
    "<module_chinese_wall_policy/>",
    "<module_obj_sep_duty_policy/>",
    "<objsod object_id='a'/>",
    "<module_wf_sep_duty_cc_policy/>",
    "<hdsodtpcc/>",
    "<module_sep_duty_policy/>",
    "<module_wf_sep_duty_policy></module_wf_sep_duty_policy>",
    "<users/>",
    "<user user_id='u'/>",
    "<user user_id='u' user_id='u'/>",
    "<user/>",
    "<role role_id=''/>",
    "<role role_id='a' cardinality='1'/>",
    "<critical_roles/>",
    "<critical_role_set cardinality='256'/>",
    "<task_cardinality task_id='a' cardinality='1'/>",
    "<hdsod/>",
    "<hdsodtp/>",
    "<policy_object/>",
    "<![CDATA[a]]>",
    "<?php a ?>",
    "<!-- a -- b -->",
    "&lt;",
    "text",
    "<a:users xmlns:a='b'/>",
    "<!DOCTYPE policy_object SYSTEM 'a'>",
];

/// Attributes to insert into a tag.
const ATTRIBUTES: [&str; 8] = [
    " name='n'",
    " description=\"d\"",
    " user_id='u'",
    " cardinality='300'",
    " xmlns='x'",
    " role_id=''",
    " task_id='t",
    " =''",
];

/// Parts of a tag and of a prolog, to insert where they do not belong.
const CRUMBS: [&str; 45] = [
    "\u{feff}",
    "encoding='UTF-16'",
    "standalone='yes'",
    "standalone=\"Yes\"",
    "\r",
    " ",
    "\n",
    "=",
    "'",
    "\"",
    "<",
    "/",
    ">",
    "/>",
    "</",
    "&",
    "-",
    "--",
    "-->",
    "<!--",
    "<!",
    "<?",
    "?>",
    "<?xml",
    "version='1.0'",
    "encoding='UTF-8'",
    "<!DOCTYPE",
    "policy_object",
    "SYSTEM",
    "'1.0'",
    "user_id",
    "role_id='r'",
    "task_id='t'",
    "cardinality='256'",
    "cardinality=''",
    "cardinality='09'",
    "name='n'",
    "description=''",
    "value='v'",
    "key='k'",
    "users",
    "user",
    "1",
    "\u{e9}",
    "\u{1}",
];

/// Where each piece of markup begins: at each `<`, and after each `>`.
fn seams(text: &[u8]) -> Vec<usize> {
    let mut seams: Vec<usize> = vec![0, text.len()];
    for (at, &byte) in text.iter().enumerate() {
        match byte {
            b'<' => seams.push(at),
            b'>' => seams.push(at + 1),
            _ => {}
        }
    }
    seams.sort();
    seams.dedup();
    seams
}

/// The first value after an index: the positions of its `=`, its opening quote and its closing quote.
fn value_behind(text: &[u8], place: usize) -> Option<[usize; 3]> {
    let equals = place + text[place..].iter().position(|&byte| byte == b'=')?;
    let rest = &text[equals..];
    let open = equals + rest.iter().position(|byte| b"'\"".contains(byte))?;
    let rest = &text[open + 1..];
    let close = open + 1 + rest.iter().position(|&byte| byte == text[open])?;
    Some([equals, open, close])
}

/// The text with the first attribute after an index written twice.
fn attribute_twice(text: &[u8], place: usize) -> Option<Vec<u8>> {
    let [equals, _, close] = value_behind(text, place)?;
    let blank = text[..equals].iter().rposition(u8::is_ascii_whitespace)?;
    let attribute = &text[blank..=close];
    Some([&text[..=close], attribute, &text[close + 1..]].concat())
}

/// The text with another value for some attribute; half of the time for a cardinality.
fn value_changed(random: &mut Random, text: &[u8]) -> Option<Vec<u8>> {
    const NAME: &[u8] = b"cardinality";
    let numbers = text.windows(NAME.len()).enumerate();
    let numbers = numbers.filter(|(_, window)| *window == NAME);
    let mut places: Vec<usize> = numbers.map(|(at, _)| at).collect();
    if random.chance(1, 2) || places.is_empty() {
        places = vec![random.below(text.len())];
    }
    let [_, open, close] = value_behind(text, random.pick(&places))?;
    let values = ["", "1", "255", "256", "0", "007", "x", "task:1", " 2"];
    let value = random.pick(&values).as_bytes();
    Some([&text[..=open], value, &text[close..]].concat())
}

/// The end of the word that contains an index or begins at it.
fn word_end(text: &[u8], place: usize) -> usize {
    let rest = &text[place..];
    let sign = |byte: &u8| b" \n\t\r<>/='\"".contains(byte);
    place + rest.iter().position(sign).unwrap_or(rest.len())
}

/// The text with one to three changes of whole pieces.
pub fn mangled(random: &mut Random, text: &[u8]) -> Vec<u8> {
    let mut text = text.to_vec();
    for _ in 0..1 + random.below(3) {
        text = mangled_once(random, &text);
    }
    text
}

fn mangled_once(random: &mut Random, text: &[u8]) -> Vec<u8> {
    let seams = seams(text);
    let pieces = seams.len() - 1;
    if pieces == 0 {
        return text.to_vec();
    }
    let from = random.below(pieces);
    let length = 1 + random.below(3.min(pieces - from));
    let piece = &text[seams[from]..seams[from + length]];
    let (before, behind) = (&text[..seams[from]], &text[seams[from + length]..]);
    let there = seams[random.below(seams.len())];
    match random.below(11) {
        0 => [before, behind].concat(),
        1 => [before, piece, piece, behind].concat(),
        2 => [&text[..there], piece, &text[there..]].concat(),
        3 => {
            let intruder = random.pick(&INTRUDERS).as_bytes();
            [&text[..there], intruder, &text[there..]].concat()
        }
        4 => [before, random.pick(&INTRUDERS).as_bytes(), behind].concat(),
        5 => {
            let end = there.saturating_sub(random.below(2) + 1).min(text.len());
            let attribute = random.pick(&ATTRIBUTES).as_bytes();
            [&text[..end], attribute, &text[end..]].concat()
        }
        6 => attribute_twice(text, random.below(text.len())).unwrap_or_default(),
        7 => value_changed(random, text).unwrap_or_default(),
        8 | 9 => {
            let count = 1 + random.below(4);
            let crumbs: String = (0..count).map(|_| random.pick(&CRUMBS)).collect();
            let inside = random.below(text.len());
            let at = if random.chance(1, 2) {
                inside
            } else {
                word_end(text, inside)
            };
            [&text[..at], crumbs.as_bytes(), &text[at..]].concat()
        }
        _ => {
            let at = random.below(text.len());
            let other = random.below(text.len());
            let (at, other) = (at.min(other), at.max(other).min(at.min(other) + 40));
            [&text[..at], &text[other..]].concat()
        }
    }
}
