//! Reasons for refusing what XML or OPL would allow: what is left out on purpose, and what to do about it.

use crate::refusal::{is_name, Fault, Text, Why, MARK};

/// The modules that this crate never reads, by their section of document 000.
const OTHER_SECTIONS: [(&str, &[&str]); 3] = [
    ("6.5", &["module_exo_context_policy"]),
    ("6.7", &["module_obj_sep_duty_policy"]),
    ("6.10", &["module_wf_sep_duty_cc_policy", "hdsodtpcc"]),
];

/// Modules that are read only with all sections, and what they are about.
const WIDER: [(&str, &str); 3] = [
    (
        "module_role_hierarchy_policy",
        "role hierarchies (section 6.2) are",
    ),
    (
        "module_sep_duty_rh_policy",
        "separation of duty in role hierarchies (section 6.4) is",
    ),
    (
        "module_chinese_wall_policy",
        "Chinese walls (section 6.6) are",
    ),
];

/// Whether a text begins like UTF-16: with its byte order mark, or with half a character.
fn is_utf16(text: &[u8]) -> bool {
    matches!(
        text,
        [0xff, 0xfe, ..] | [0xfe, 0xff, ..] | [b'<', 0, ..] | [0, b'<', ..]
    )
}

/// The name at the start of a text.
pub(crate) fn name_of(text: &[u8]) -> &[u8] {
    let length = text.iter().take_while(|&&byte| is_name(byte)).count();
    &text[..length]
}

/// The element's name, if the text begins with a start tag.
pub(crate) fn tag_of(text: &[u8]) -> Option<&str> {
    let name = name_of(text.strip_prefix(b"<")?);
    std::str::from_utf8(name)
        .ok()
        .filter(|name| !name.is_empty())
}

/// Why an element of OPL may not occur here.
fn of_element(name: &str) -> Option<String> {
    if let Some((_, what)) = WIDER.iter().find(|(module, _)| *module == name) {
        return Some(format!("{what} read with --all-sections"));
    }
    let other = |(_, elements): &&(&str, &[&str])| elements.contains(&name);
    if let Some((section, _)) = OTHER_SECTIONS.iter().find(other) {
        return Some(format!(
            "section {section} of OPL is not read, since the engine has no such rule"
        ));
    }
    Some(match name {
        "static_separation_of_duty_attached_to_permissions" => {
            "separation of duty attached to permissions (ssodp) is not read, since the engine has no such rule".to_string()
        }
        "strict_static_separation_of_duty" => {
            "strict separation of duty (sssod) is not read, since the engine has no such rule".to_string()
        }
        "uocw" => "a policy does not say who has touched what: commits bind users to walls while the desk is at work".to_string(),
        name if name.contains(':') => "namespaces are not read".to_string(),
        _ => return None,
    })
}

/// Why other content or markup may not occur here.
fn of_content(rest: &[u8]) -> Option<&'static str> {
    Some(match rest {
        [b'<', b'!', b'[', ..] => "elements have no text within, and so no CDATA section",
        [b'<', b'?', b'x', b'm', b'l', ..] => {
            "a declaration stands at the very start of a text, once"
        }
        [b'<', b'?', ..] => "processing instructions are not read",
        [b'<', ..] | [] => return None,
        _ => "elements have no text within",
    })
}

/// The reason for a fault, if a reader may wonder about it.
pub(crate) fn reason(text: &[u8], fault: &Fault) -> Option<String> {
    let rest = &text[(fault.place - 1).min(text.len())..];
    if is_utf16(text) && fault.place <= 4 {
        return Some(
            "the text is UTF-16, and only UTF-8 is read: convert it with iconv -f UTF-16 -t UTF-8"
                .to_string(),
        );
    }
    if fault.text == Text::Tasks {
        let empty = matches!(rest, [b'\n', ..] | [b'\r', b'\n', ..]);
        let begins = fault.why == Why::Expected("a task name");
        return (empty && begins).then(|| "there are no empty lines".to_string());
    }
    if rest.starts_with(MARK) {
        return Some("it stands at the very start of a text, once".to_string());
    }
    if rest.first() == Some(&b'&') {
        return Some("references to characters and entities are not read".to_string());
    }
    match &fault.why {
        Why::Literal("UTF-8") => {
            let encoding = String::from_utf8_lossy(name_of(rest));
            Some(format!(
                "only UTF-8 is read, because names are compared byte by byte: convert the text with iconv -f {encoding} -t UTF-8, \
                 and change its declaration"
            ))
        }
        Why::Expected(">") if rest.first() == Some(&b'[') => Some(
            "a DTD within the text may declare entities and values, which are not looked up: leave it out".to_string(),
        ),
        Why::UnknownAttribute(..) if name_of(rest).starts_with(b"xmlns") => {
            Some("namespaces are not read".to_string())
        }
        Why::Elements(..) | Why::Markup(_) => {
            let content = || of_content(rest).map(str::to_string);
            tag_of(rest).and_then(of_element).or_else(content)
        }
        _ => None,
    }
}
