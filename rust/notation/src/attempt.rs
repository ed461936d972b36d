//! Matches a line against all forms in parallel, token by token, so that an error can list everything that was expected, and the
//! prompt can offer it.
//!
//! The forms are those of rust/records, extended by names. A name may follow the number that it names at the number's declaration
//! (`user 300 clerk_b`, `task 4 sign of template 0`), a line may only give a name (`task 4 sign`), and a name may be used in
//! place of a number.

use crate::expected::Expected;
use crate::names::{name_of, Names, Naming, Sort};
use crate::tokens::Token;
use records::forms::{parts, Field, Part, FORMS};
use records::{Record, Set, LENGTH};
use std::sync::OnceLock;

/// A form of a line: its kind, and its parts with the sorts of their numbers.
pub(crate) struct Form {
    pub kind: u8,
    parts: Vec<(Part, Option<Sort>)>,
    /// Whether the line only gives a name and makes no record.
    pub names_alone: bool,
}

/// The sorts whose numbers can be named by a separate line. `user 300 clerk_b` and `role 0 clerk` also declare.
const NAMED_ALONE: [Sort; 8] = [
    Sort::Permission,
    Sort::Operation,
    Sort::Object,
    Sort::Task,
    Sort::Template,
    Sort::Partitioning,
    Sort::Subject,
    Sort::Order,
];

fn forms() -> &'static [Form] {
    static ALL: OnceLock<Vec<Form>> = OnceLock::new();
    let form = |(kind, pattern): (u8, &'static str)| {
        let mut before = "";
        let mut sorted = |part| {
            let sort = Sort::of_part(part, kind, before);
            before = if let Part::Word(word) = part {
                word
            } else {
                ""
            };
            (part, sort)
        };
        Form {
            kind,
            parts: parts(pattern).map(&mut sorted).collect(),
            names_alone: false,
        }
    };
    let naming = |sort: Sort| Form {
        kind: 0,
        parts: vec![
            (Part::Word(sort.word()), None),
            (Part::Number(Field::A, ""), Some(sort)),
        ],
        names_alone: true,
    };
    ALL.get_or_init(|| {
        let lines = FORMS.into_iter().map(form);
        lines.chain(NAMED_ALONE.into_iter().map(naming)).collect()
    })
}

/// Whether a form of this kind declares the number in this field, so that a name may follow.
pub fn declares(kind: u8, field: Field) -> bool {
    match kind {
        1 | 2 | 12 | 32 | 40 | 48 => field == Field::A,
        3 => true,
        6 => matches!(field, Field::A | Field::B),
        _ => false,
    }
}

/// One form, matched as far as the line has been read.
#[derive(Clone)]
pub(crate) struct Attempt {
    pub form: &'static Form,
    /// The index of its next part.
    at: usize,
    pub record: Record,
    pub bytes: Vec<u8>,
    /// Whether a set's last token is a comma, so that a member must follow.
    comma: bool,
    pub namings: Vec<Naming>,
    /// The number just read, if a name may follow.
    unnamed: Option<(Sort, u16)>,
}

impl Attempt {
    fn new(form: &'static Form) -> Attempt {
        Attempt {
            form,
            at: 0,
            record: Record::new(form.kind, 0, 0, 0, 0, 0),
            bytes: Vec::new(),
            comma: false,
            namings: Vec::new(),
            unnamed: None,
        }
    }

    pub fn part(&self) -> Option<(Part, Option<Sort>)> {
        self.form.parts.get(self.at).copied()
    }

    fn next(mut self) -> Option<Attempt> {
        self.at += 1;
        Some(self)
    }

    fn number(&self, token: Token, last: u64, sort: Option<Sort>, names: &Names) -> Option<u64> {
        let named = || names.number(sort?, &name_of(token.text)?);
        let number = token.number().or_else(|| named().map(u64::from))?;
        (number <= last).then_some(number)
    }

    /// The attempt after one more token, if the form allows it; the token may be a name for the number before it.
    fn step(mut self, token: Token, names: &Names) -> Option<Attempt> {
        if let (Some((sort, number)), Some(name)) = (self.unnamed.take(), name_of(token.text)) {
            let column = token.column;
            self.namings.push(Naming {
                sort,
                number,
                name,
                column,
            });
            return Some(self);
        }
        let (part, sort) = self.part()?;
        match part {
            Part::Word("times") if token.text == "time" => self.next(),
            Part::Word(word) => (word == token.text).then(|| self.next())?,
            Part::Number(field, _) => self.with_number(token, field, sort, names),
            Part::Set => self.with_member(token, sort, names),
            Part::Bytes => {
                (self.bytes.len() < LENGTH).then_some(())?;
                self.bytes.push(token.byte()?);
                Some(self)
            }
        }
    }

    fn with_number(
        mut self,
        token: Token,
        field: Field,
        sort: Option<Sort>,
        names: &Names,
    ) -> Option<Attempt> {
        let by_name = sort.filter(|_| !self.form.names_alone);
        let number = self.number(token, field.last(), by_name, names)?;
        self.record = field.put(self.record, number);
        let declared = self.form.names_alone || declares(self.form.kind, field);
        let nameable = sort.filter(|_| declared && token.number().is_some());
        self.unnamed = nameable.map(|sort| (sort, number as u16));
        self.next()
    }

    fn with_member(mut self, token: Token, sort: Option<Sort>, names: &Names) -> Option<Attempt> {
        match token.text {
            "none" if self.record.m() == 0 => return self.next(),
            "," if self.complete() => {
                self.comma = true;
                return Some(self);
            }
            _ => {}
        }
        let member = self.number(token, 63, sort, names)? as u8;
        (!Set(self.record.m()).has(member)).then_some(())?;
        self.record = Field::M.put(self.record, Set::EMPTY.with(member).0);
        self.comma = false;
        Some(self)
    }

    /// The column of the last name that it has given.
    pub fn named_at(&self) -> Option<usize> {
        self.namings.last().map(|naming| naming.column)
    }

    /// Whether the line may end here.
    pub fn complete(&self) -> bool {
        match self.part() {
            None => !self.form.names_alone || !self.namings.is_empty(),
            Some((Part::Set, _)) => self.record.m() != 0 && !self.comma,
            Some((Part::Bytes, _)) => !self.bytes.is_empty(),
            Some(_) => false,
        }
    }

    pub fn expected(&self) -> Vec<Expected> {
        let mut all = Vec::new();
        match self.part() {
            None => {}
            Some((Part::Word(word), _)) => all.push(Expected::Word(word)),
            Some((Part::Number(field, name), sort)) => {
                // A line that gives a name needs a number, because the number may have no name yet.
                let sort = sort.filter(|_| !self.form.names_alone);
                all.push(Expected::Number(field.last(), name, sort));
            }
            Some((Part::Set, sort)) if self.record.m() == 0 => {
                all.extend([Expected::Member(true, sort), Expected::Word("none")]);
            }
            Some((Part::Set, sort)) => all.push(Expected::Member(false, sort)),
            Some((Part::Bytes, _)) if self.bytes.len() == LENGTH => {}
            Some((Part::Bytes, _)) => all.push(Expected::Byte),
        }
        all.extend(self.unnamed.map(|(sort, _)| Expected::Name(sort)));
        if self.complete() {
            all.push(Expected::End);
        }
        all
    }
}

/// The attempts that remain after these tokens; or the first token that fits none, and the attempts before it.
pub(crate) fn follow(
    tokens: &[Token],
    names: &Names,
    of: impl Fn(&Form) -> bool,
) -> Result<Vec<Attempt>, (usize, Vec<Attempt>)> {
    let followed = forms().iter().filter(|form| of(form));
    let mut open: Vec<Attempt> = followed.map(Attempt::new).collect();
    for (at, &token) in tokens.iter().enumerate() {
        let steps = open.iter().cloned().filter_map(|a| a.step(token, names));
        let on: Vec<Attempt> = steps.collect();
        if on.is_empty() {
            return Err((at, open));
        }
        open = on;
    }
    Ok(open)
}
