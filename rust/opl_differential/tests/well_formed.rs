//! Accepted texts that are UTF-8 are well-formed XML and valid under document 000's DTDs, according to libxml2. Texts refused
//! with TEXT are not, except for what is left out of XML on purpose.
//! Without `xmllint` (Debian: libxml2-utils) the test prints on standard error that it is skipped.

use opl::{Refusal, Text, Why};
use opl_differential::{blows, mangled, readers, struck, Reader, Style, Texts, DTD};
use random::Random;
use std::fs;
use std::io::Write;
use std::path::{Path, PathBuf};
use std::process::{Command, Output};

/// A temporary folder, removed at the end.
struct Folder(PathBuf);

impl Folder {
    fn new(name: &str) -> Folder {
        let path = std::env::temp_dir().join(format!("opl-{name}-{}", std::process::id()));
        fs::create_dir_all(&path).unwrap();
        Folder(path)
    }
}

impl Drop for Folder {
    fn drop(&mut self) {
        let _ = fs::remove_dir_all(&self.0);
    }
}

fn xmllint(folder: &Path, options: &[&str], count: usize) -> Option<Output> {
    let files = (0..count).map(|i| format!("{i}.xml"));
    let run = Command::new("xmllint")
        .current_dir(folder)
        .args(["--noout", "--nonet"])
        .args(options)
        .args(files)
        .output();
    match run {
        Ok(output) => Some(output),
        Err(why) => {
            // Not with `println`, whose output is hidden for a test that passes.
            let said =
                format!("SKIPPED: accepted texts are not shown to libxml2: xmllint: {why}\n");
            let _ = std::io::stderr().write_all(said.as_bytes());
            None
        }
    }
}

/// U+FFFE and U+FFFF are valid in UTF-8, but are not characters of XML.
fn is_xml_text(text: &[u8]) -> bool {
    let noncharacter = |c: char| matches!(c, '\u{fffe}' | '\u{ffff}');
    std::str::from_utf8(text).is_ok_and(|text| !text.contains(noncharacter))
}

/// Whether all readers accept, including the proved one if it is linked.
fn all_accept(readers: &[Reader], policy: &[u8], tasks: &[u8]) -> bool {
    let mut output = vec![0; policy.len() + 16 * (1 + tasks.len())];
    let mut accepts = readers.iter().map(|reader| {
        let answer = (reader.translate)(policy, tasks, &mut output);
        answer.reply == opl::ACCEPTED
    });
    accepts.all(|accepted| accepted)
}

/// Accepted texts, some of which were damaged and are still accepted.
fn accepted(
    seed: u64,
    count: usize,
    fits: fn(&Style) -> bool,
    suits: fn(&[u8]) -> bool,
) -> Vec<Vec<u8>> {
    let (mut random, readers) = (Random::new(seed), readers());
    let mut texts = Vec::new();
    while texts.len() < count {
        let style = Style::random(&mut random);
        if !fits(&style) {
            continue;
        }
        let text = Texts::styled(&mut random, style);
        let changed = mangled(&mut random, &text.policy);
        for policy in [text.policy, changed] {
            let suits = is_xml_text(&policy) && suits(&policy);
            if suits && all_accept(&readers, &policy, &text.tasks) {
                texts.push(policy);
            }
        }
    }
    texts.truncate(count);
    texts
}

/// XML's validity rules forbid white space between elements in a standalone text, because the DTD is a separate file.
fn may_be_valid(text: &[u8]) -> bool {
    let end = text.windows(2).position(|window| window == b"?>");
    let declaration = String::from_utf8_lossy(&text[..end.unwrap_or(0)]);
    has_no_empty_system(text) && !declaration.contains("yes")
}

/// xmllint reads an empty system literal as the text itself, which is not a DTD.
fn has_no_empty_system(text: &[u8]) -> bool {
    let text = String::from_utf8_lossy(text);
    let literal = text.split("SYSTEM").nth(1).unwrap_or("").trim_start();
    !literal.starts_with("\"\"") && !literal.starts_with("''")
}

fn put(folder: &Folder, texts: &[Vec<u8>]) {
    for (place, text) in texts.iter().enumerate() {
        fs::write(folder.0.join(format!("{place}.xml")), text).unwrap();
    }
}

fn succeeds(output: Option<Output>) {
    if let Some(output) = output {
        let said = String::from_utf8_lossy(&output.stderr);
        assert!(output.status.success(), "{said}");
    }
}

#[test]
fn accepted_texts_are_well_formed() {
    let folder = Folder::new("well-formed");
    put(&folder, &accepted(5, 400, |_| true, |_| true));
    succeeds(xmllint(&folder.0, &[], 400));
}

#[test]
fn accepted_texts_are_valid() {
    let folder = Folder::new("valid");
    fs::write(folder.0.join("policy-object.dtd"), DTD).unwrap();
    put(
        &folder,
        &accepted(6, 400, |style| !style.loose, may_be_valid),
    );
    succeeds(xmllint(
        &folder.0,
        &["--dtdvalid", "policy-object.dtd"],
        400,
    ));
}

#[test]
fn what_is_not_valid_is_seen() {
    let folder = Folder::new("not-valid");
    fs::write(folder.0.join("policy-object.dtd"), DTD).unwrap();
    put(&folder, &[b"<policy_object/>".to_vec()]);
    if let Some(output) = xmllint(&folder.0, &["--dtdvalid", "policy-object.dtd"], 1) {
        assert!(!output.status.success());
    }
}

/// The index where the root element begins, if there is one.
fn root(text: &[u8]) -> Option<usize> {
    let name = b"<policy_object";
    text.windows(name.len()).position(|window| window == name)
}

fn has(text: &[u8], bytes: &[u8]) -> bool {
    text.windows(bytes.len()).any(|window| window == bytes)
}

/// Whether the text is refused within its root, for a reason that XML and the DTD share.
fn refused_by_both(policy: &[u8]) -> bool {
    let Err(Refusal::Text(fault)) = opl::read(policy, b"") else {
        return false;
    };
    let Some(root) = root(policy).filter(|&root| root < fault.place) else {
        return false;
    };
    let left_out = matches!(fault.why, Why::EmptyName | Why::Cardinality);
    let within = &policy[root..];
    fault.text == Text::Policy
        && !left_out
        && ![&b"&"[..], b"<?", b"<![CDATA["]
            .iter()
            .any(|bytes| has(within, bytes))
}

#[test]
fn refused_texts_are_not_valid() {
    let folder = Folder::new("refused");
    fs::write(folder.0.join("policy-object.dtd"), DTD).unwrap();
    let mut random = Random::new(8);
    let mut texts = Vec::new();
    while texts.len() < 600 {
        let style = Style::random(&mut random);
        let Texts { policy, .. } = Texts::styled(&mut random, style);
        let place = random.below(policy.len());
        let blow = random.below(6);
        let changed = match random.chance(1, 2) {
            true => mangled(&mut random, &policy),
            false => struck(&policy, place, blows(&mut random)[blow]),
        };
        if has_no_empty_system(&changed) && refused_by_both(&changed) {
            texts.push(changed);
        }
    }
    put(&folder, &texts);
    let Some(output) = xmllint(&folder.0, &["--dtdvalid", "policy-object.dtd"], texts.len()) else {
        return;
    };
    let said = String::from_utf8_lossy(&output.stderr);
    for (place, text) in texts.iter().enumerate() {
        let file = format!("{place}.xml:");
        let tells = |line: &str| line.starts_with(&file) && line.contains("error");
        let told = said.lines().any(tells);
        assert!(told, "{}", text.escape_ascii());
    }
}
