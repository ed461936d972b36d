//! Reads the policy text in one pass from left to right. The functions for an element and for its content call each other, to the
//! depth at which the elements nest.

use crate::elements::{Element, Progress, Sort, Tag, ATTRIBUTES};
use crate::names::{Met, Space};
use crate::policy::{Name, Policy};
use crate::refusal::{is_name, Fault, Text, Why, MARK};
use crate::Sections;

type Read<T> = Result<T, Box<Fault>>;

/// Classes of bytes.
const NAME: u8 = 1;
const WHITE: u8 = 2;
/// Bytes of a value, whatever its quotes.
const PLAIN: u8 = 4;
/// Bytes of a comment.
const REMARK: u8 = 8;

const fn class(byte: u8) -> u8 {
    let white = matches!(byte, b' ' | b'\t' | b'\n' | b'\r');
    let text = byte >= b' ' || white;
    let plain = text && !matches!(byte, b'<' | b'&' | b'"' | b'\'');
    let remark = text && byte != b'-';
    let of = [
        (NAME, is_name(byte)),
        (WHITE, white),
        (PLAIN, plain),
        (REMARK, remark),
    ];
    let (mut classes, mut at) = (0, 0);
    while at < of.len() {
        classes |= of[at].0 * of[at].1 as u8;
        at += 1;
    }
    classes
}

static CLASSES: [u8; 256] = {
    let mut classes = [0; 256];
    let mut byte = 0;
    while byte < 256 {
        classes[byte] = class(byte as u8);
        byte += 1;
    }
    classes
};

#[inline]
fn is(byte: u8, of: u8) -> bool {
    CLASSES[usize::from(byte)] & of != 0
}

/// A word of eight equal bytes.
const fn eight(byte: u8) -> u64 {
    u64::from_le_bytes([byte; 8])
}

/// The high bit of the first byte that is below the bound is set, and that of each byte before it is not. All other bits of the result are
/// unspecified.
#[inline]
fn below(word: u64, bound: u8) -> u64 {
    word.wrapping_sub(eight(bound)) & !word
}

/// As `below`, for the first byte that is equal to `byte`.
#[inline]
fn equal(word: u64, byte: u8) -> u64 {
    below(word ^ eight(byte), 1)
}

/// Marks the first byte at which a value may end: a control byte, its quote, `<` or `&`.
#[inline]
fn value_stops(word: u64, quote: u8) -> u64 {
    below(word, b' ') | equal(word, quote) | equal(word, b'<') | equal(word, b'&')
}

#[inline]
fn comment_stops(word: u64) -> u64 {
    below(word, b' ') | equal(word, b'-')
}

/// The range of the text between two quotes.
#[derive(Clone, Copy, Default)]
struct Value {
    start: usize,
    end: usize,
}

/// The values of an element's attributes, in the order of the element's table.
#[derive(Default)]
struct Attributes {
    values: [Value; ATTRIBUTES],
    given: u8,
    cardinality: u8,
}

struct Reader<'t> {
    text: &'t [u8],
    /// The index of the next byte.
    at: usize,
    policy: Policy<'t>,
    /// The kind of the role sets that are being read.
    role_sets: usize,
}

/// Single bytes, white space and values.
impl<'t> Reader<'t> {
    #[cold]
    fn fault<T>(&self, at: usize, why: Why) -> Read<T> {
        Err(Box::new(Fault {
            text: Text::Policy,
            place: at + 1,
            why,
        }))
    }

    /// Refuses the text at the next byte, with what was expected there.
    #[cold]
    fn expected<T>(&self, what: &'static str) -> Read<T> {
        self.fault(self.at, Why::Expected(what))
    }

    #[inline]
    fn peek(&self) -> Option<u8> {
        self.text.get(self.at).copied()
    }

    #[inline]
    fn begins(&self, with: &[u8]) -> bool {
        self.text[self.at..].starts_with(with)
    }

    /// The end of the run of bytes of a class that begins at `from`.
    #[inline]
    fn run(&self, from: usize, of: u8) -> usize {
        let rest = &self.text[from..];
        let length = rest.iter().position(|&byte| !is(byte, of));
        from + length.unwrap_or(rest.len())
    }

    /// As `run`, eight bytes at a time: `stops` marks each byte that is not of the class, and perhaps others.
    #[inline]
    fn long_run(&self, from: usize, of: u8, stops: impl Fn(u64) -> u64) -> usize {
        let mut at = from;
        loop {
            while let Some(&word) = self.text[at..].first_chunk() {
                let stops = stops(u64::from_le_bytes(word)) & eight(0x80);
                at += stops.trailing_zeros() as usize / 8;
                if stops != 0 {
                    break;
                }
            }
            match self.text.get(at) {
                Some(&byte) if is(byte, of) => at += 1,
                _ => return at,
            }
        }
    }

    /// Whether the name that begins at an index is this one.
    #[inline]
    fn is_named(&self, at: usize, name: &str) -> bool {
        let rest = &self.text[at..];
        let behind = rest.get(name.len());
        rest.starts_with(name.as_bytes()) && !behind.is_some_and(|&byte| is(byte, NAME))
    }

    /// Whether some name begins at an index.
    fn has_name(&self, at: usize) -> bool {
        self.text.get(at).is_some_and(|&byte| is(byte, NAME))
    }

    /// Skips white space and returns whether there was any. Indentation is mostly spaces.
    #[inline]
    fn white(&mut self) -> bool {
        let from = self.at;
        while self.peek().is_some_and(|byte| is(byte, WHITE)) {
            self.at += 1;
            while self.begins(b"        ") {
                self.at += 8;
            }
        }
        self.at != from
    }

    fn some_white(&mut self) -> Read<()> {
        if self.white() {
            return Ok(());
        }
        self.expected("white space")
    }

    fn literal(&mut self, literal: &'static str) -> Read<()> {
        for byte in literal.bytes() {
            if self.peek() != Some(byte) {
                return self.expected(literal);
            }
            self.at += 1;
        }
        Ok(())
    }

    #[inline]
    fn equals(&mut self) -> Read<()> {
        self.white();
        if self.peek() != Some(b'=') {
            return self.expected("\"=\"");
        }
        self.at += 1;
        self.white();
        Ok(())
    }

    #[inline]
    fn value(&mut self) -> Read<Value> {
        let Some(quote @ (b'"' | b'\'')) = self.peek() else {
            return self.expected("a quote");
        };
        let start = self.at + 1;
        self.at = start;
        loop {
            self.at = self.long_run(self.at, PLAIN, |word| value_stops(word, quote));
            match self.peek() {
                Some(byte) if byte == quote => break,
                Some(b'"' | b'\'') => self.at += 1,
                _ => return self.fault(self.at, Why::Value),
            }
        }
        let end = self.at;
        self.at += 1;
        Ok(Value { start, end })
    }

    /// Reads a word with its value. `may` tests the value, and `value` describes the allowed ones in words.
    fn pseudo(
        &mut self,
        word: &'static str,
        value: &'static str,
        may: fn(&[u8]) -> bool,
    ) -> Read<()> {
        self.literal(word)?;
        self.equals()?;
        let Value { start, end } = self.value()?;
        if may(&self.text[start..end]) {
            return Ok(());
        }
        self.fault(start, Why::Literal(value))
    }

    /// Reads a comment, which begins at the next byte with `<!--`.
    fn comment(&mut self) -> Read<()> {
        self.at += 4;
        loop {
            self.at = self.long_run(self.at, REMARK, comment_stops);
            match self.text[self.at..] {
                [b'-', b'-', b'>', ..] => break,
                [b'-', b'-'] => return self.fault(self.text.len(), Why::Comment),
                [b'-', b'-', ..] => return self.fault(self.at, Why::DoubleHyphen),
                [b'-', ..] => self.at += 1,
                _ => return self.fault(self.at, Why::Comment),
            }
        }
        self.at += 3;
        Ok(())
    }

    /// Skips white space and comments.
    fn misc(&mut self) -> Read<()> {
        loop {
            self.white();
            if !self.begins(b"<!--") {
                return Ok(());
            }
            self.comment()?;
        }
    }
}

/// The document outside its root element.
impl Reader<'_> {
    /// Reads an XML declaration, from after its `<?xml`.
    fn declaration(&mut self) -> Read<()> {
        self.some_white()?;
        self.pseudo("version", "1.0", |value| value == b"1.0")?;
        let mut apart = self.white();
        if apart && self.peek() == Some(b'e') {
            self.pseudo("encoding", "UTF-8", |value| {
                value.eq_ignore_ascii_case(b"UTF-8")
            })?;
            apart = self.white();
        }
        if apart && self.peek() == Some(b's') {
            self.pseudo("standalone", "yes or no", |value| {
                value == b"yes" || value == b"no"
            })?;
            self.white();
        }
        self.literal("?>")
    }

    /// Reads a document type declaration, from after its `<!DOCTYPE`.
    fn doctype(&mut self) -> Read<()> {
        self.some_white()?;
        self.literal("policy_object")?;
        self.some_white()?;
        self.literal("SYSTEM")?;
        self.some_white()?;
        self.value()?;
        self.white();
        self.literal(">")
    }

    fn prolog(&mut self) -> Read<()> {
        const XML: &[u8] = b"<?xml";
        const DOCTYPE: &[u8] = b"<!DOCTYPE";
        if self.begins(MARK) {
            self.at = MARK.len();
        }
        let behind = self.text.get(self.at + XML.len());
        if self.begins(XML) && behind.is_some_and(|&byte| is(byte, WHITE)) {
            self.at += XML.len();
            self.declaration()?;
        }
        self.misc()?;
        if self.begins(DOCTYPE) {
            self.at += DOCTYPE.len();
            self.doctype()?;
            self.misc()?;
        }
        Ok(())
    }

    fn document(&mut self, root: Tag) -> Read<()> {
        self.prolog()?;
        let start = self.at;
        if self.peek() != Some(b'<') {
            return self.expected("<policy_object>");
        }
        let name = root.element().name;
        if !self.is_named(start + 1, name) {
            return self.no_start_tag(Why::Markup("<policy_object>"));
        }
        self.at += 1 + name.len();
        self.element(root)?;
        self.misc()?;
        if self.at < self.text.len() {
            return self.expected("the end of the text");
        }
        Ok(())
    }
}

/// Elements and their attributes.
impl<'t> Reader<'t> {
    /// Reads an element, from after its name.
    fn element(&mut self, tag: Tag) -> Read<()> {
        let element = tag.element();
        let attributes = self.attributes(element)?;
        let end = self.at;
        self.at += 1;
        let closed = self.text[end] == b'/';
        if closed {
            self.literal(">")?;
            if let Some(child) = Progress::default().missing(&element.content) {
                let why = Why::MissingChild(element.name, child.element().name);
                return self.fault(end, why);
            }
        }
        self.say(tag, &attributes);
        if closed {
            return Ok(());
        }
        self.content(element)
    }

    /// Reads the content of an element and its end tag.
    fn content(&mut self, element: &'static Element) -> Read<()> {
        let mut progress = Progress::default();
        loop {
            self.white();
            let start = self.at;
            match self.text[start..] {
                [b'<', b'/', ..] => return self.end_tag(element, progress),
                [b'<', b'!', b'-', b'-', ..] => self.comment()?,
                [b'<', ..] => {
                    let named = |child: &Element| self.is_named(start + 1, child.name);
                    let Some(child) = progress.take(&element.content, named) else {
                        return self.no_start_tag(Why::elements(element.tag, progress));
                    };
                    self.at += 1 + child.element().name.len();
                    self.element(child)?;
                }
                _ => return self.fault(start, Why::elements(element.tag, progress)),
            }
        }
    }

    /// Refuses a `<` that begins nothing allowed here. The place is the `<`; for a tag without a name it is the byte where the
    /// name must begin.
    #[cold]
    fn no_start_tag(&self, why: Why) -> Read<()> {
        let behind = self.at + 1;
        let markup = matches!(self.text.get(behind), Some(b'!' | b'?'));
        if markup || self.has_name(behind) {
            return self.fault(self.at, why);
        }
        self.fault(behind, Why::Expected("the name of an element"))
    }

    #[inline]
    fn end_tag(&mut self, element: &'static Element, progress: Progress) -> Read<()> {
        let start = self.at;
        if !self.is_named(start + 2, element.name) {
            return match self.has_name(start + 2) {
                true => self.fault(start, Why::EndTag(element.name)),
                false => self.fault(start + 2, Why::Expected(element.name)),
            };
        }
        self.at += 2 + element.name.len();
        if let Some(child) = progress.missing(&element.content) {
            let why = Why::MissingChild(element.name, child.element().name);
            return self.fault(start, why);
        }
        self.white();
        self.literal(">")
    }

    /// Reads the attributes up to the `>` or `/` after them.
    #[inline]
    fn attributes(&mut self, element: &'static Element) -> Read<Attributes> {
        let mut attributes = Attributes::default();
        loop {
            let apart = self.white();
            match self.peek() {
                Some(b'>' | b'/') => break,
                Some(byte) if apart && is(byte, NAME) => {
                    self.attribute(element, &mut attributes)?
                }
                _ if apart => return self.expected("an attribute, \"/\" or \">\""),
                _ => return self.expected("white space, \"/\" or \">\""),
            }
        }
        for (index, attribute) in element.attributes.iter().enumerate() {
            if attribute.required && attributes.given >> index & 1 == 0 {
                let why = Why::MissingAttribute(element.name, attribute.name);
                return self.fault(self.at, why);
            }
        }
        Ok(attributes)
    }

    /// Reads one attribute and checks it after its whole value was read.
    #[inline]
    fn attribute(&mut self, element: &'static Element, into: &mut Attributes) -> Read<()> {
        let start = self.at;
        let mut known = element.attributes.iter();
        let index = known.position(|a| self.is_named(start, a.name));
        self.at = match index {
            Some(index) => start + element.attributes[index].name.len(),
            None => self.run(start, NAME),
        };
        self.equals()?;
        let value = self.value()?;
        let Some(index) = index else {
            let names = element.attributes.iter().map(|a| a.name).collect();
            return self.fault(start, Why::UnknownAttribute(element.name, names));
        };
        let attribute = &element.attributes[index];
        if into.given >> index & 1 == 1 {
            return self.fault(start, Why::RepeatedAttribute(attribute.name));
        }
        into.given |= 1 << index;
        into.values[index] = value;
        match attribute.sort {
            Sort::Free => {}
            Sort::Id if value.start == value.end => {
                return self.fault(value.end, Why::EmptyName);
            }
            Sort::Id => {}
            Sort::Cardinality => match cardinality(&self.text[value.start..value.end]) {
                Some(number) => into.cardinality = number,
                None => return self.fault(value.start, Why::Cardinality),
            },
        }
        Ok(())
    }
}

/// A number up to 255, of one or more digits.
fn cardinality(digits: &[u8]) -> Option<u8> {
    let add = |number: u8, digit: &u8| {
        let digit = digit.is_ascii_digit().then(|| digit - b'0')?;
        number.checked_mul(10)?.checked_add(digit)
    };
    let number = digits.iter().try_fold(0, add)?;
    (!digits.is_empty()).then_some(number)
}

/// From elements to records.
impl<'t> Reader<'t> {
    fn named(&self, attributes: &Attributes, index: usize) -> Name<'t> {
        let Value { start, end } = attributes.values[index];
        Name {
            bytes: &self.text[start..end],
            text: Text::Policy,
            place: start + 1,
        }
    }

    #[inline]
    fn used(&mut self, space: Space, attributes: &Attributes, index: usize) -> Met {
        let name = self.named(attributes, index);
        self.policy.used(space, name)
    }

    #[inline]
    fn declared(&mut self, space: Space, attributes: &Attributes) -> Met {
        let name = self.named(attributes, 0);
        self.policy.declared(space, name)
    }

    /// Adds a record of two used names.
    #[inline]
    fn pair(&mut self, kind: usize, attributes: &Attributes, of: [(Space, usize); 2]) {
        let [a, b] = of.map(|(space, index)| self.used(space, attributes, index));
        self.policy.record(kind, 0, a, b);
    }

    /// Adds what the start tag states; the children give members, and the operation and object of a permission.
    #[inline]
    fn say(&mut self, tag: Tag, attributes: &Attributes) {
        use Space::{Object, Operation, Permission, Role, Task, Template, User};
        match tag {
            Tag::User => {
                let user = self.declared(User, attributes);
                self.policy.record(1, 0, user, 0);
            }
            Tag::Role => {
                let role = self.declared(Role, attributes);
                self.policy.record(2, 0, role, 0);
            }
            Tag::Permission => {
                let permission = self.declared(Permission, attributes);
                self.policy.permission(permission);
            }
            Tag::Operation => {
                let operation = self.declared(Operation, attributes);
                self.policy.operation(operation);
            }
            Tag::Object => {
                let object = self.declared(Object, attributes);
                self.policy.object(object);
            }
            Tag::UserAssignment => self.pair(4, attributes, [(User, 0), (Role, 1)]),
            Tag::PermissionAssignment => self.pair(5, attributes, [(Role, 1), (Permission, 0)]),
            Tag::TaskRoleAssignment => self.pair(7, attributes, [(Task, 0), (Role, 1)]),
            Tag::TaskPermissionAssignment => self.pair(8, attributes, [(Task, 0), (Permission, 1)]),
            Tag::StaticSeparation => self.role_sets = 9,
            Tag::DynamicSeparation => self.role_sets = 10,
            Tag::CriticalRoleSet => self.policy.set(self.role_sets, attributes.cardinality),
            Tag::CriticalRole => self.member(self.role_sets, Role, attributes),
            Tag::CriticalTasksSet => self.policy.set(11, attributes.cardinality),
            Tag::CriticalTask => self.member(11, Task, attributes),
            Tag::HdsodtpPartitioning => self.policy.partitioning(self.at),
            Tag::HdsodtpPartition => self.policy.block(),
            Tag::PartitionTask => self.member(12, Task, attributes),
            Tag::CriticalWorkflowTemplate => {
                let template = self.used(Template, attributes, 0);
                self.policy.record(13, 0, template, 0);
            }
            Tag::TaskCardinality => {
                let task = self.used(Task, attributes, 0);
                self.policy.record(14, attributes.cardinality, task, 0);
            }
            Tag::BindOfDutyConstraint => self.pair(15, attributes, [(Task, 0), (Task, 1)]),
            Tag::PrereqStep => self.pair(16, attributes, [(Task, 0), (Task, 1)]),
            Tag::InheritRole => self.pair(17, attributes, [(Role, 0), (Role, 1)]),
            Tag::ChineseWall => self.policy.wall(self.at),
            Tag::CwPartition => self.policy.wall_block(self.at),
            Tag::PartitionObject => {
                let object = self.declared(Object, attributes);
                self.policy.walled(object);
            }
            _ => {}
        }
    }

    #[inline]
    fn member(&mut self, kind: usize, space: Space, attributes: &Attributes) {
        let member = self.used(space, attributes, 0);
        self.policy.member(kind, member);
    }
}

pub(crate) fn read_policy(text: &[u8], sections: Sections) -> Read<Policy<'_>> {
    let mut reader = Reader {
        text,
        at: 0,
        policy: Policy::default(),
        role_sets: 0,
    };
    reader.document(match sections {
        Sections::Asked => Tag::PolicyObject,
        Sections::All => Tag::WidePolicyObject,
    })?;
    Ok(reader.policy)
}
