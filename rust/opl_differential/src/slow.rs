//! A slow reader with a function for each rule of the grammar: the text becomes a tree, and each kind of record searches the
//! whole tree.
//! Content models and attributes come from the text of the DTD.

use crate::dtd;
use opl::{Answer, Sections, Space, ACCEPTED, NAMES, RECORD, ROOM, TEXT};

/// An element of a text.
#[derive(Default)]
struct Node {
    name: Vec<u8>,
    attributes: Vec<(Vec<u8>, Vec<u8>)>,
    children: Vec<Node>,
}

/// A parsed value and the index where it ends, from 0; or the index of the fault, from 0.
type Step<T> = Result<(T, usize), usize>;

/// A text, and the sections whose grammar it follows.
#[derive(Clone, Copy)]
struct Grammar<'t>(&'t [u8], Sections);

const WHITE: [u8; 4] = [0x20, 0x09, 0x0a, 0x0d];

fn is_name_byte(byte: u8) -> bool {
    byte.is_ascii_alphanumeric() || b"_-.:".contains(&byte) || byte >= 0x80
}

fn is_forbidden_control(byte: u8) -> bool {
    byte < 0x20 && !WHITE.contains(&byte)
}

impl Grammar<'_> {
    fn at(self, at: usize) -> Option<u8> {
        self.0.get(at).copied()
    }

    fn has(self, at: usize, bytes: &[u8]) -> bool {
        self.0[at..].starts_with(bytes)
    }

    fn blank(self, at: usize) -> usize {
        let rest = self.0[at..].iter();
        at + rest.take_while(|byte| WHITE.contains(byte)).count()
    }

    fn some_blank(self, at: usize) -> Result<usize, usize> {
        let end = self.blank(at);
        if end > at {
            Ok(end)
        } else {
            Err(at)
        }
    }

    /// As many bytes of the class as there are, at least one.
    fn word(self, at: usize, class: fn(u8) -> bool) -> Step<Vec<u8>> {
        let word = self.0[at..].iter().copied();
        let word: Vec<u8> = word.take_while(|&b| class(b)).collect();
        let end = at + word.len();
        if word.is_empty() {
            Err(at)
        } else {
            Ok((word, end))
        }
    }

    fn name(self, at: usize) -> Step<Vec<u8>> {
        self.word(at, is_name_byte)
    }

    fn literal(self, at: usize, literal: &str) -> Result<usize, usize> {
        let mut at = at;
        for byte in literal.bytes() {
            if self.at(at) != Some(byte) {
                return Err(at);
            }
            at += 1;
        }
        Ok(at)
    }

    fn value(self, at: usize) -> Step<Vec<u8>> {
        let quote = self.at(at).filter(|&b| b == b'"' || b == b'\'').ok_or(at)?;
        let mut end = at + 1;
        loop {
            match self.at(end) {
                Some(byte) if byte == quote => break,
                Some(b'<' | b'&') | None => return Err(end),
                Some(byte) if is_forbidden_control(byte) => return Err(end),
                Some(_) => end += 1,
            }
        }
        Ok((self.0[at + 1..end].to_vec(), end + 1))
    }

    fn equals_value(self, at: usize) -> Step<Vec<u8>> {
        let at = self.literal(self.blank(at), "=")?;
        self.value(self.blank(at))
    }

    fn equals_one_of(self, at: usize, values: &[&str]) -> Result<usize, usize> {
        let (found, end) = self.equals_value(at)?;
        if values.iter().any(|value| found == value.as_bytes()) {
            Ok(end)
        } else {
            Err(end - 1 - found.len())
        }
    }

    /// White space, a word and one of these values; or nothing, unless white space and the word's first letter follow.
    fn optional(self, at: usize, word: &str, values: &[&str]) -> Result<usize, usize> {
        let behind = self.blank(at);
        if behind == at || self.at(behind) != word.bytes().next() {
            return Ok(at);
        }
        self.equals_one_of(self.literal(behind, word)?, values)
    }

    fn comment(self, at: usize) -> Result<usize, usize> {
        let mut at = at + "<!--".len();
        while !self.has(at, b"--") {
            match self.at(at) {
                Some(byte) if !is_forbidden_control(byte) => at += 1,
                _ => return Err(at),
            }
        }
        match self.at(at + 2) {
            Some(b'>') => Ok(at + 3),
            Some(_) => Err(at),
            None => Err(at + 2),
        }
    }

    fn misc(self, at: usize) -> Result<usize, usize> {
        let mut at = self.blank(at);
        while self.has(at, b"<!--") {
            at = self.blank(self.comment(at)?);
        }
        Ok(at)
    }

    fn mark(self) -> usize {
        let mark = "\u{feff}";
        if self.has(0, mark.as_bytes()) {
            mark.len()
        } else {
            0
        }
    }

    fn declaration(self, start: usize) -> Result<usize, usize> {
        let at = start + "<?xml".len();
        if !self.has(start, b"<?xml") || self.some_blank(at).is_err() {
            return Ok(start);
        }
        let at = self.literal(self.blank(at), "version")?;
        let at = self.equals_one_of(at, &["1.0"])?;
        let encodings: Vec<String> = (0..8).map(utf_8).collect();
        let encodings: Vec<&str> = encodings.iter().map(String::as_str).collect();
        let at = self.optional(at, "encoding", &encodings)?;
        let at = self.optional(at, "standalone", &["yes", "no"])?;
        self.literal(self.blank(at), "?>")
    }

    fn doctype(self, at: usize) -> Result<usize, usize> {
        let at = self.some_blank(at + "<!DOCTYPE".len())?;
        let at = self.some_blank(self.literal(at, "policy_object")?)?;
        let at = self.some_blank(self.literal(at, "SYSTEM")?)?;
        let (_, at) = self.value(at)?;
        self.literal(self.blank(at), ">")
    }

    fn document(self) -> Result<Node, usize> {
        let mut at = self.misc(self.declaration(self.mark())?)?;
        if self.has(at, b"<!DOCTYPE") {
            at = self.misc(self.doctype(at)?)?;
        }
        let start = at;
        let (name, at) = self.start_tag(at)?;
        if name != b"policy_object" {
            return Err(start);
        }
        let (root, at) = self.element(name, at)?;
        match self.misc(at)? {
            end if end == self.0.len() => Ok(root),
            at => Err(at),
        }
    }

    /// The name of a start tag. Other markup is refused before a name is looked for.
    fn start_tag(self, at: usize) -> Step<Vec<u8>> {
        if self.has(at, b"<!") || self.has(at, b"<?") {
            return Err(at);
        }
        self.name(self.literal(at, "<")?)
    }

    /// Parses an element from after its name, which is allowed here.
    fn element(self, name: Vec<u8>, at: usize) -> Step<Node> {
        let declared = dtd::element(&name, self.1).expect("a declared element");
        let mut node = Node {
            name,
            ..Node::default()
        };
        let end = self.attributes(&mut node, at)?;
        let given = |name: &str| node.attributes.iter().any(|a| a.0 == name.as_bytes());
        if declared
            .attributes
            .iter()
            .any(|&(name, required)| required && !given(name))
        {
            return Err(end);
        }
        if self.at(end) == Some(b'/') {
            let behind = self.literal(end + 1, ">")?;
            return match declared.model.may_end() {
                true => Ok((node, behind)),
                false => Err(end),
            };
        }
        self.content(node, end + 1)
    }

    /// Parses the attributes; returns the index of the `>` or `/` after them.
    fn attributes(self, node: &mut Node, at: usize) -> Result<usize, usize> {
        let behind = self.blank(at);
        match self.at(behind) {
            Some(b'>' | b'/') => Ok(behind),
            Some(byte) if behind > at && is_name_byte(byte) => {
                let at = self.attribute(node, behind)?;
                self.attributes(node, at)
            }
            _ => Err(behind),
        }
    }

    fn attribute(self, node: &mut Node, start: usize) -> Result<usize, usize> {
        let (name, at) = self.name(start)?;
        let (value, at) = self.equals_value(at)?;
        let known = &dtd::element(&node.name, self.1)
            .expect("an element")
            .attributes;
        let twice = node.attributes.iter().any(|given| given.0 == name);
        if twice || !known.iter().any(|a| a.0.as_bytes() == name) {
            return Err(start);
        }
        if space_of(&name).is_some() && value.is_empty() {
            return Err(at - 1);
        }
        if name == b"cardinality" && cardinality(&value).is_none() {
            return Err(at - 1 - value.len());
        }
        node.attributes.push((name, value));
        Ok(at)
    }

    fn content(self, mut node: Node, at: usize) -> Step<Node> {
        let declared = dtd::element(&node.name, self.1).expect("a declared element");
        let mut model = declared.model.clone();
        let mut at = self.misc(at)?;
        while !self.has(at, b"</") {
            let (name, behind) = self.start_tag(at)?;
            model = model.after(&name);
            if model == dtd::Model::Nothing {
                return Err(at);
            }
            let (child, behind) = self.element(name, behind)?;
            node.children.push(child);
            at = self.misc(behind)?;
        }
        let (name, behind) = self.name(at + 2)?;
        if name != node.name || !model.may_end() {
            return Err(at);
        }
        Ok((node, self.literal(self.blank(behind), ">")?))
    }

    /// Parses the lines of the second text.
    fn tasks(self) -> Result<Vec<[Vec<u8>; 2]>, usize> {
        let in_line = |byte: u8| byte > 0x20;
        let mut lines = Vec::new();
        let mut at = self.mark();
        while at < self.0.len() {
            let (task, behind) = self.word(at, in_line)?;
            let (template, behind) = self.word(self.literal(behind, " ")?, in_line)?;
            lines.push([task, template]);
            at = match self.at(behind) {
                None => behind,
                Some(b'\r') => self.literal(behind, "\r\n")?,
                Some(_) => self.literal(behind, "\n")?,
            };
        }
        Ok(lines)
    }
}

/// The string UTF-8, with a lower-case letter for each set bit of a number.
fn utf_8(small: usize) -> String {
    let letter = |(at, letter): (usize, char)| match small >> at & 1 {
        0 => letter,
        _ => letter.to_ascii_lowercase(),
    };
    "UTF-8".chars().enumerate().map(letter).collect()
}

fn cardinality(value: &[u8]) -> Option<u8> {
    let digits = !value.is_empty() && value.iter().all(u8::is_ascii_digit);
    let text = std::str::from_utf8(value).ok().filter(|_| digits)?;
    let short = text.trim_start_matches('0');
    if short.is_empty() {
        return Some(0);
    }
    short.parse().ok()
}

impl Node {
    fn value(&self, attribute: &str) -> &[u8] {
        let mut given = self.attributes.iter();
        let found = given.find(|a| a.0 == attribute.as_bytes());
        &found.expect("a required attribute").1
    }

    /// All elements with this name in this element, itself included, in text order.
    fn all<'n>(&'n self, name: &str) -> Vec<&'n Node> {
        self.all_of(&[name])
    }

    /// As `all`, with any of these names.
    fn all_of<'n>(&'n self, names: &[&str]) -> Vec<&'n Node> {
        let mut found = Vec::new();
        if names.iter().any(|name| self.name == name.as_bytes()) {
            found.push(self);
        }
        for child in &self.children {
            found.extend(child.all_of(names));
        }
        found
    }
}

/// Both parsed texts.
struct Read {
    root: Node,
    lines: Vec<[Vec<u8>; 2]>,
}

fn distinct<'a>(names: impl Iterator<Item = &'a [u8]>) -> Vec<&'a [u8]> {
    let mut all = Vec::new();
    for name in names {
        if !all.contains(&name) {
            all.push(name);
        }
    }
    all
}

/// The space of the names in an attribute.
fn space_of(attribute: &[u8]) -> Option<Space> {
    Some(match attribute {
        b"user_id" => Space::User,
        b"role_id" | b"upper_role" | b"lower_role" => Space::Role,
        b"permission_id" => Space::Permission,
        b"operation_id" => Space::Operation,
        b"object_id" => Space::Object,
        b"task_id" | b"bound_task_id" | b"prereq_task_id" => Space::Task,
        b"template_id" => Space::Template,
        _ => return None,
    })
}

/// All names by number, in the order of `Space::ALL`.
pub type AllNames = [Vec<Vec<u8>>; 7];

impl Read {
    fn declared(&self, space: Space) -> Vec<&[u8]> {
        let each = |names: &[&str], attribute: &'static str| {
            let elements = self.root.all_of(names).into_iter();
            distinct(elements.map(|element| element.value(attribute)))
        };
        let elements = |name: &str, attribute: &'static str| each(&[name], attribute);
        match space {
            Space::User => elements("user", "user_id"),
            Space::Role => elements("role", "role_id"),
            Space::Permission => elements("permission", "permission_id"),
            Space::Operation => elements("operation", "operation_id"),
            Space::Object => each(&["object", "partition_object"], "object_id"),
            Space::Task => distinct(self.lines.iter().map(|line| &line[0][..])),
            Space::Template => distinct(self.lines.iter().map(|line| &line[1][..])),
        }
    }

    fn all_declared(&self) -> [Vec<&[u8]>; 7] {
        Space::ALL.map(|space| self.declared(space))
    }

    fn names_are_fit(&self, declared: &[Vec<&[u8]>; 7], node: &Node) -> bool {
        let fit = |(attribute, value): &(Vec<u8>, Vec<u8>)| match space_of(attribute) {
            None => true,
            Some(space) => value.len() <= 64 && declared[space as usize].contains(&&value[..]),
        };
        let mut children = node.children.iter();
        node.attributes.iter().all(fit) && children.all(|child| self.names_are_fit(declared, child))
    }

    fn is_fit(&self, declared: &[Vec<&[u8]>; 7]) -> bool {
        let limits = [1_024, 64, 256, 65_536, 65_536, 64, 16];
        let mut within = declared.iter().zip(limits);
        within.all(|(names, limit)| names.len() <= limit)
            && self.lines.iter().flatten().all(|name| name.len() <= 64)
            && self.root.all("hdsodtp_partitioning").len() <= 16
            && self.walls().len() <= 16
            && self
                .walls()
                .iter()
                .all(|wall| wall.all("cw_partition").len() <= 16)
            && self.names_are_fit(declared, &self.root)
    }

    fn walls(&self) -> Vec<&Node> {
        self.root.all("module_chinese_wall_policy")
    }

    fn records(&self, declared: &[Vec<&[u8]>; 7]) -> Vec<[u8; RECORD]> {
        let number_of = |space: Space, name: &[u8]| {
            let place = declared[space as usize].iter().position(|n| *n == name);
            place.expect("a declared name") as u16
        };
        let number = |node: &Node, attribute: &str| {
            let space = space_of(attribute.as_bytes()).expect("an attribute of names");
            number_of(space, node.value(attribute))
        };
        let set = |node: &Node, member: &str, attribute: &str| -> u64 {
            let members = node.all(member).into_iter();
            members.fold(0, |set, member| set | 1 << number(member, attribute))
        };
        let n = |node: &Node| cardinality(node.value("cardinality")).expect("a number");
        let mut records = Vec::new();
        let mut add = |kind: u8, n: u8, fields: [u16; 3], m: u64| {
            let [[a0, a1], [b0, b1], [c0, c1]] = fields.map(u16::to_le_bytes);
            let mut record = [0; RECORD];
            record[..8].copy_from_slice(&[kind, n, a0, a1, b0, b1, c0, c1]);
            record[8..].copy_from_slice(&m.to_le_bytes());
            records.push(record);
        };
        let all = |name: &str| self.root.all(name);
        for node in all("user") {
            add(1, 0, [number(node, "user_id"), 0, 0], 0);
        }
        for node in all("role") {
            add(2, 0, [number(node, "role_id"), 0, 0], 0);
        }
        for node in all("permission") {
            let operation = number(&node.children[0], "operation_id");
            let object = number(&node.children[1], "object_id");
            add(3, 0, [number(node, "permission_id"), operation, object], 0);
        }
        for node in all("user_assignment") {
            add(
                4,
                0,
                [number(node, "user_id"), number(node, "role_id"), 0],
                0,
            );
        }
        for node in all("permission_assignment") {
            add(
                5,
                0,
                [number(node, "role_id"), number(node, "permission_id"), 0],
                0,
            );
        }
        for [task, template] in &self.lines {
            let task = number_of(Space::Task, task);
            add(6, 0, [task, number_of(Space::Template, template), 0], 0);
        }
        for node in all("task_role_assignment") {
            add(
                7,
                0,
                [number(node, "task_id"), number(node, "role_id"), 0],
                0,
            );
        }
        for node in all("task_permission_assignment") {
            add(
                8,
                0,
                [number(node, "task_id"), number(node, "permission_id"), 0],
                0,
            );
        }
        for (kind, above) in [
            (9, "static_separation_of_duty"),
            (10, "dynamic_separation_of_duty"),
        ] {
            for node in all(above)
                .iter()
                .flat_map(|node| node.all("critical_role_set"))
            {
                add(kind, n(node), [0; 3], set(node, "critical_role", "role_id"));
            }
        }
        for node in all("critical_tasks_set") {
            add(11, n(node), [0; 3], set(node, "critical_task", "task_id"));
        }
        for (place, partitioning) in all("hdsodtp_partitioning").into_iter().enumerate() {
            for node in &partitioning.children {
                add(
                    12,
                    0,
                    [place as u16, 0, 0],
                    set(node, "partition_task", "task_id"),
                );
            }
        }
        for node in all("critical_workflow_template") {
            add(13, 0, [number(node, "template_id"), 0, 0], 0);
        }
        for node in all("task_cardinality") {
            add(14, n(node), [number(node, "task_id"), 0, 0], 0);
        }
        for node in all("bind_of_duty_constraint") {
            add(
                15,
                0,
                [number(node, "task_id"), number(node, "bound_task_id"), 0],
                0,
            );
        }
        for node in all("prereq_step") {
            add(
                16,
                0,
                [number(node, "prereq_task_id"), number(node, "task_id"), 0],
                0,
            );
        }
        for node in all("inherit_role") {
            let roles = [number(node, "upper_role"), number(node, "lower_role"), 0];
            add(17, 0, roles, 0);
        }
        for (wall, module) in (0..).zip(self.walls()) {
            for (block, partition) in (0..).zip(module.all("cw_partition")) {
                for node in &partition.children {
                    add(18, 0, [wall, block, number(node, "object_id")], 0);
                }
            }
        }
        records
    }
}

fn refused(reply: u8, text: u8, figure: usize) -> (Answer, Option<AllNames>) {
    let figure = figure as u64;
    let answer = Answer {
        reply,
        text,
        figure,
    };
    (answer, None)
}

/// The answer, the records for the output, and the names of an accepted policy.
pub fn translate(
    policy: &[u8],
    tasks: &[u8],
    output: &mut [u8],
    sections: Sections,
) -> (Answer, Option<AllNames>) {
    let root = match Grammar(policy, sections).document() {
        Ok(root) => root,
        Err(at) => return refused(TEXT, 1, at + 1),
    };
    let lines = match Grammar(tasks, sections).tasks() {
        Ok(lines) => lines,
        Err(at) => return refused(TEXT, 2, at + 1),
    };
    let read = Read { root, lines };
    let declared = read.all_declared();
    if !read.is_fit(&declared) {
        return refused(NAMES, 0, 0);
    }
    let records = read.records(&declared);
    if RECORD * records.len() > output.len() {
        return refused(ROOM, 0, 0);
    }
    output[..RECORD * records.len()].copy_from_slice(&records.concat());
    let (answer, _) = refused(ACCEPTED, 0, records.len());
    let names = declared.map(|names| names.into_iter().map(<[u8]>::to_vec).collect());
    (answer, Some(names))
}
