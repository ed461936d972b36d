//! Parses document 000's DTDs: content models as expressions over element names, and derivatives of them for what may follow.

use opl::Sections;
use std::collections::HashMap;
use std::sync::OnceLock;

/// The DTD of Ask 4's sections.
pub const DTD: &str = include_str!("../../opl/policy-object.dtd");
/// The DTD of all sections that the engine supports.
pub const WIDE_DTD: &str = include_str!("../../opl/policy-object-all.dtd");

/// A content model. `Nothing` fits no content; it is never a part of another model.
#[derive(Clone, PartialEq, Debug)]
pub enum Model {
    Nothing,
    Empty,
    Child(&'static str),
    Then(Box<Model>, Box<Model>),
    Or(Box<Model>, Box<Model>),
    Any(Box<Model>),
}

use Model::{Any, Child, Empty, Nothing, Or, Then};

fn then(first: Model, second: Model) -> Model {
    match (first, second) {
        (Nothing, _) | (_, Nothing) => Nothing,
        (Empty, other) | (other, Empty) => other,
        (first, second) => Then(first.into(), second.into()),
    }
}

fn or(one: Model, other: Model) -> Model {
    match (one, other) {
        (Nothing, model) | (model, Nothing) => model,
        (one, other) if one == other => one,
        (one, other) => Or(one.into(), other.into()),
    }
}

impl Model {
    /// Whether the element may end here.
    pub fn may_end(&self) -> bool {
        match self {
            Nothing | Child(_) => false,
            Empty | Any(_) => true,
            Then(first, second) => first.may_end() && second.may_end(),
            Or(one, other) => one.may_end() || other.may_end(),
        }
    }

    /// What may follow a child of this name; `Nothing` if the child is not allowed here.
    pub fn after(&self, child: &[u8]) -> Model {
        match self {
            Nothing | Empty => Nothing,
            Child(name) if name.as_bytes() == child => Empty,
            Child(_) => Nothing,
            Then(first, second) => {
                let within = then(first.after(child), (**second).clone());
                let past = if first.may_end() {
                    second.after(child)
                } else {
                    Nothing
                };
                or(within, past)
            }
            Or(one, other) => or(one.after(child), other.after(child)),
            Any(model) => then(model.after(child), self.clone()),
        }
    }
}

pub struct Element {
    pub model: Model,
    /// Each attribute, and whether it is required.
    pub attributes: Vec<(&'static str, bool)>,
}

/// The words and punctuation of a declaration.
fn tokens(text: &'static str) -> Vec<&'static str> {
    let mut tokens = Vec::new();
    let mut rest = text.trim_start();
    while let Some(first) = rest.chars().next() {
        let word = |c: char| c.is_alphanumeric() || c == '_' || c == '#';
        let length = match word(first) {
            true => rest.find(|c| !word(c)).unwrap_or(rest.len()),
            false => first.len_utf8(),
        };
        tokens.push(&rest[..length]);
        rest = rest[length..].trim_start();
    }
    tokens
}

/// Parses a model; returns it with the tokens after it.
fn model<'a>(tokens: &'a [&'static str]) -> (Model, &'a [&'static str]) {
    let (inner, rest) = match tokens {
        ["(", rest @ ..] => group(rest),
        [name, rest @ ..] => (Child(name), rest),
        [] => panic!("a content model ends too early"),
    };
    match rest {
        ["*", rest @ ..] => (Any(inner.into()), rest),
        ["+", rest @ ..] => (then(inner.clone(), Any(inner.into())), rest),
        ["?", rest @ ..] => (or(Empty, inner), rest),
        rest => (inner, rest),
    }
}

/// Parses from after a `(` to after its `)`.
fn group<'a>(tokens: &'a [&'static str]) -> (Model, &'a [&'static str]) {
    let (first, rest) = model(tokens);
    match rest {
        [")", rest @ ..] => (first, rest),
        [",", rest @ ..] => {
            let (others, rest) = group(rest);
            (then(first, others), rest)
        }
        ["|", rest @ ..] => {
            let (others, rest) = group(rest);
            (or(first, others), rest)
        }
        other => panic!("{other:?} in a content model"),
    }
}

fn declarations(text: &'static str) -> HashMap<&'static str, Element> {
    let mut elements = HashMap::new();
    for piece in text.split("<!").skip(1) {
        let declaration = piece.split('>').next().expect("a declaration");
        match &tokens(declaration)[..] {
            ["ELEMENT", name, "EMPTY"] => add(&mut elements, name, Empty),
            ["ELEMENT", name, rest @ ..] => {
                let (model, behind) = model(rest);
                assert!(behind.is_empty(), "{behind:?} behind the model of {name}");
                add(&mut elements, name, model);
            }
            ["ATTLIST", name, rest @ ..] => {
                let attributes = rest.chunks(3).map(|a| (a[0], a[2] == "#REQUIRED"));
                let element: &mut Element = elements.get_mut(name).expect("an element");
                element.attributes.extend(attributes);
            }
            comment => assert_eq!(comment[..2], ["-", "-"]),
        }
    }
    elements
}

fn add(elements: &mut HashMap<&'static str, Element>, name: &'static str, model: Model) {
    let attributes = Vec::new();
    elements.insert(name, Element { model, attributes });
}

/// The element with this name, as the DTD of these sections declares it.
pub fn element(name: &[u8], sections: Sections) -> Option<&'static Element> {
    static ELEMENTS: [OnceLock<HashMap<&'static str, Element>>; 2] = [const { OnceLock::new() }; 2];
    let elements = match sections {
        Sections::Asked => ELEMENTS[0].get_or_init(|| declarations(DTD)),
        Sections::All => ELEMENTS[1].get_or_init(|| declarations(WIDE_DTD)),
    };
    elements.get(std::str::from_utf8(name).ok()?)
}

#[cfg(test)]
mod tests {
    use super::*;

    #[test]
    fn the_dtd_has_fifty_elements() {
        let elements = declarations(DTD);
        assert_eq!(elements.len(), 50);
        let mut attributes: Vec<&str> = elements
            .values()
            .flat_map(|element| element.attributes.iter().map(|a| a.0))
            .collect();
        attributes.sort();
        attributes.dedup();
        assert_eq!(attributes.len(), 15);
        assert_eq!(declarations(WIDE_DTD).len(), 59);
    }

    #[test]
    fn children_in_their_order() {
        let model = |name: &str| &element(name.as_bytes(), Sections::Asked).unwrap().model;
        let permission = model("permission");
        assert_eq!(permission.after(b"object"), Nothing);
        assert!(!permission.may_end());
        let object = permission.after(b"operation");
        assert_eq!(object, Child("object"));
        assert!(object.after(b"object").may_end());
        let duties = model("module_wf_sep_duty_policy");
        assert_eq!(duties.after(b"hdsod").after(b"hdsodsl"), Nothing);
        assert!(duties.after(b"hdsodsl").after(b"hdsodtp").may_end());
        let modules = model("policy_object_modules");
        assert!(!modules.may_end());
        let more = modules.after(b"module_sep_duty_policy");
        assert_eq!(more.after(b"module_wf_core_policy"), more);
    }
}
