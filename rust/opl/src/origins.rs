//! Facts about accepted texts for people, not for programs: the element or line from which each record comes, and modules that
//! are listed as active but are missing. For refused texts the results mean nothing.

use crate::refusal::{is_name, Text, MARK};

/// The origin of a record.
#[derive(Clone, Copy, PartialEq, Eq, Debug)]
pub struct Origin {
    /// The policy text, or the task lines if the record is a task.
    pub text: Text,
    /// The place, from 1, of the `<` of its element, or of the first byte of its line.
    pub place: usize,
}

/// The highest kind of record that an element yields.
const KINDS: usize = 18;

/// The kind of the records that an element yields, except role sets, whose kind depends on the element around them.
fn kind_of(element: &[u8]) -> Option<usize> {
    Some(match element {
        b"user" => 1,
        b"role" => 2,
        b"permission" => 3,
        b"user_assignment" => 4,
        b"permission_assignment" => 5,
        b"task_role_assignment" => 7,
        b"task_permission_assignment" => 8,
        b"critical_tasks_set" => 11,
        b"hdsodtp_partition" => 12,
        b"critical_workflow_template" => 13,
        b"task_cardinality" => 14,
        b"bind_of_duty_constraint" => 15,
        b"prereq_step" => 16,
        b"inherit_role" => 17,
        b"partition_object" => 18,
        _ => return None,
    })
}

/// The start tags of an accepted policy text: the place of each `<`, from 1, and the element's name. In such a text a `<` begins
/// a tag, a part of the prolog or a comment, and only a comment contains further ones.
struct Tags<'t> {
    text: &'t [u8],
    at: usize,
}

impl<'t> Tags<'t> {
    fn seek(&self, piece: &[u8]) -> Option<usize> {
        let rest = &self.text[self.at..];
        let found = rest.windows(piece.len()).position(|window| window == piece);
        found.map(|length| self.at + length)
    }
}

impl<'t> Iterator for Tags<'t> {
    type Item = (usize, &'t [u8]);

    fn next(&mut self) -> Option<Self::Item> {
        loop {
            let start = self.seek(b"<")?;
            self.at = start + 1;
            let rest = &self.text[self.at..];
            if rest.starts_with(b"!--") {
                self.at += b"!--".len();
                self.at = self.seek(b"-->")?;
                continue;
            }
            let length = rest.iter().take_while(|&&byte| is_name(byte)).count();
            self.at += length;
            if length > 0 {
                return Some((start + 1, &rest[..length]));
            }
        }
    }
}

/// The origin of each record of accepted texts, in the order of the records.
pub fn origins(policy: &[u8], tasks: &[u8]) -> Vec<Origin> {
    let mut by_kind: [Vec<Origin>; KINDS + 1] = Default::default();
    let mut role_sets = 9;
    for (place, element) in (Tags {
        text: policy,
        at: 0,
    }) {
        let kind = match element {
            b"critical_role_set" => Some(role_sets),
            _ => kind_of(element),
        };
        match element {
            b"static_separation_of_duty" => role_sets = 9,
            b"dynamic_separation_of_duty" => role_sets = 10,
            _ => {}
        }
        let text = Text::Policy;
        by_kind[kind.unwrap_or(0)].extend(kind.map(|_| Origin { text, place }));
    }
    let lines = tasks.strip_prefix(MARK).unwrap_or(tasks);
    let mut place = 1 + tasks.len() - lines.len();
    for line in lines.split(|&byte| byte == b'\n') {
        let text = Text::Tasks;
        by_kind[6].extend((!line.is_empty()).then_some(Origin { text, place }));
        place += line.len() + 1;
    }
    by_kind.concat()
}

/// Whether an accepted text has a declaration that gives its encoding, which is then UTF-8.
pub fn has_encoding(policy: &[u8]) -> bool {
    let text = policy.strip_prefix(MARK).unwrap_or(policy);
    let end = text.windows(2).position(|window| window == b"?>");
    let declaration = &text[..end.unwrap_or(0)];
    let word = b"encoding";
    let mut words = declaration.windows(word.len());
    declaration.starts_with(b"<?xml") && words.any(|window| window == word)
}

/// The modules of OPL/XML (document 000, 5.2).
const MODULES: [&str; 13] = [
    "module_rbac_core_policy",
    "module_role_hierarchy_policy",
    "module_sep_duty_policy",
    "module_sep_duty_rh_policy",
    "module_exo_context_policy",
    "module_chinese_wall_policy",
    "module_obj_sep_duty_policy",
    "module_wf_core_policy",
    "module_wf_sep_duty_policy",
    "module_wf_sep_duty_cc_policy",
    "module_wf_cardinality_policy",
    "module_wf_bind_duty_policy",
    "module_wf_prereq_step_policy",
];

/// A module that an accepted text lists as active but does not have.
#[derive(Clone, Copy, PartialEq, Eq, Debug)]
pub struct Missing<'t> {
    /// Its name in the list.
    pub name: &'t [u8],
    /// The place, from 1, of the `<` of the element that names it.
    pub place: usize,
    /// Whether OPL/XML has a module of this name.
    pub known: bool,
}

/// The value between the first quotes of the text.
fn first_value(text: &[u8]) -> &[u8] {
    let quoted = text.iter().position(|byte| b"'\"".contains(byte));
    let Some(start) = quoted else { return &[] };
    let within = &text[start + 1..];
    let end = within.iter().position(|&byte| byte == text[start]);
    &within[..end.unwrap_or(within.len())]
}

/// The modules that an accepted text lists as active but does not have. RBACStandard is not reported: it has no data and
/// therefore no element (000, 6.1).
pub fn missing_modules(policy: &[u8]) -> Vec<Missing<'_>> {
    let tags = || Tags {
        text: policy,
        at: 0,
    };
    let there: Vec<&[u8]> = tags().map(|(_, element)| element).collect();
    let active = tags().filter(|(_, element)| *element == b"active_module");
    let named = active.map(|(place, _)| (place, first_value(&policy[place..])));
    let missing = named.filter(|(_, name)| !there.contains(name) && !is_standard(name));
    let told = missing.map(|(place, name)| Missing {
        name,
        place,
        known: MODULES.iter().any(|module| module.as_bytes() == name),
    });
    told.collect()
}

/// Whether the name is RBACStandard in some spelling: document 000 defines none.
fn is_standard(name: &[u8]) -> bool {
    let letters = name.iter().filter(|byte| byte.is_ascii_alphabetic());
    let letters: Vec<u8> = letters.map(u8::to_ascii_lowercase).collect();
    letters.windows(12).any(|window| window == b"rbacstandard")
}
