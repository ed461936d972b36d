//! Random texts of the grammar: with white space, comments, both quotes, both forms of an element without children, repeated
//! modules, names used before their declaration or never declared, and names and numbers at their limits.

use opl::Sections;
use random::Random;

/// A policy and its task lines.
#[derive(Clone, PartialEq, Debug)]
pub struct Texts {
    /// The OPL/XML.
    pub policy: Vec<u8>,
    /// The task lines.
    pub tasks: Vec<u8>,
}

/// The style of a text.
#[derive(Clone, Copy)]
pub struct Style {
    /// The percentages of the allowed places that have white space, and a comment.
    blanks: usize,
    comments: usize,
    /// Whether elements that the DTD says are empty contain white space and comments, and bytes are not always UTF-8.
    pub loose: bool,
    /// Per thousand uses, how many are of names that are never declared.
    strays: usize,
    /// Whether names, numbers and layout are as a dealer would send them.
    tidy: bool,
    /// Whether modules of all sections that the engine supports occur.
    wide: bool,
}

impl Style {
    /// Any style except a tidy one.
    pub fn random(random: &mut Random) -> Style {
        Style {
            blanks: random.pick(&[0, 10, 50, 90]),
            comments: random.pick(&[0, 0, 5, 30]),
            loose: random.chance(1, 3),
            strays: random.pick(&[0, 0, 0, 0, 0, 10]),
            tidy: false,
            wide: false,
        }
    }
}

/// How many names each space declares, and roughly how many other elements of each sort there are.
#[derive(Clone, Copy)]
struct Size {
    users: usize,
    roles: usize,
    permissions: usize,
    tasks: usize,
    templates: usize,
    partitionings: usize,
    others: usize,
    modules: usize,
}

impl Size {
    /// Mostly small; sometimes a space is empty, at its limit, or one above it.
    fn random(random: &mut Random) -> Size {
        let mut size = Size {
            users: 1 + random.below(5),
            roles: 1 + random.below(5),
            permissions: 1 + random.below(4),
            tasks: 1 + random.below(6),
            templates: 1 + random.below(3),
            partitionings: random.below(3),
            others: random.below(4),
            modules: random.below(4),
        };
        if random.chance(1, 25) {
            let above = random.below(2);
            match random.below(7) {
                0 => (size.users, size.permissions) = (0, 0),
                1 => size.users = 1_024 + above,
                2 => size.roles = 64 + above,
                3 => size.permissions = 256 + above,
                4 => size.tasks = 64 + above,
                5 => (size.tasks, size.templates) = (20, 16 + above),
                _ => (size.partitionings, size.modules) = (16 + above, 0),
            }
        }
        size
    }
}

/// The names of one space: those before index `declared` are declared.
struct Pool {
    names: Vec<Vec<u8>>,
    declared: usize,
}

struct Writer<'r> {
    out: Vec<u8>,
    depth: usize,
    random: &'r mut Random,
    style: Style,
    users: Pool,
    roles: Pool,
    permissions: Pool,
    external: Pool,
    tasks: Pool,
    templates: Pool,
}

const WHITE: [&str; 6] = [" ", "\n", "  ", "\t", "\r\n", " \n   "];

const REMARKS: [&str; 12] = [
    "",
    " ",
    " a - b ",
    "- ",
    "->",
    "<user user_id='x'/>",
    "&amp; &lt;",
    "</users>",
    "]]>",
    "'\"",
    " \u{e9}\u{20ac} ",
    "<!DOCTYPE <?xml",
];

/// A name of a space: mostly a short one; sometimes of 64 bytes, or with quotes, blanks or letters beyond ASCII; rarely of 65
/// bytes.
fn name(random: &mut Random, prefix: &str, place: usize, style: Style) -> Vec<u8> {
    if style.tidy {
        let word = random.pick(&["loan", "check_rating", "customer", "contract_signed"]);
        return format!("{prefix}:{word}_{place}").into_bytes();
    }
    let spaced = !matches!(prefix, "task" | "wf_template");
    let mut name = match random.below(12) {
        0 => format!("{place}"),
        1 => format!("{prefix}:{}", "x".repeat(place + 1)),
        2 if spaced => format!(" {prefix} {place}"),
        3 if spaced => format!("{prefix}\t>\n{place}"),
        4 => format!("{prefix}'{place}"),
        5 => format!("\"{prefix}\"{place}"),
        6 => format!("{prefix}:\u{e9}\u{20ac}{place}"),
        7 => format!("C:\\{place}\\--[]{{}}%;.txt"),
        8 => format!("{}{place}", prefix.to_uppercase()),
        _ => format!("{prefix}:{place}"),
    }
    .into_bytes();
    match random.below(300) {
        0 => name.resize(65, b'z'),
        1..20 => name.resize(64, b'y'),
        20 if style.loose => name.push(0xff),
        _ => {}
    }
    name
}

fn pool(random: &mut Random, prefix: &str, declared: usize, style: Style) -> Pool {
    let mut names: Vec<Vec<u8>> = Vec::new();
    while names.len() < declared + 2 {
        let name = name(random, prefix, names.len(), style);
        // At a limit, repeated names would keep the count below it.
        if declared < 10 || !names.contains(&name) {
            names.push(name);
        }
    }
    Pool { names, declared }
}

type Values<'a> = Vec<(&'a str, Vec<u8>)>;

impl Writer<'_> {
    fn put(&mut self, text: &str) {
        self.out.extend(text.as_bytes());
    }

    fn some_white(&mut self) {
        let white = match self.random.chance(self.style.blanks, 200) {
            true => self.random.pick(&WHITE),
            false => " ",
        };
        self.put(white);
    }

    fn white(&mut self) {
        if self.random.chance(self.style.blanks, 200) {
            self.some_white();
        }
    }

    fn comment(&mut self) {
        let remark = self.random.pick(&REMARKS);
        self.put("<!--");
        self.put(remark);
        if self.style.loose && self.random.chance(1, 20) {
            self.out.push(0xfe);
        }
        self.put("-->");
    }

    /// Writes white space and comments; in a tidy text a line break and indentation.
    fn misc(&mut self) {
        if self.style.tidy {
            let indent = "  ".repeat(self.depth);
            self.put("\n");
            self.put(&indent);
        }
        if self.random.chance(self.style.blanks, 100) {
            let white = self.random.pick(&WHITE);
            self.put(white);
        }
        if self.random.chance(self.style.comments, 100) {
            self.comment();
            self.white();
        }
    }

    fn equals(&mut self) {
        self.white();
        self.put("=");
        self.white();
    }

    /// Writes a value between quotes that it does not contain.
    fn value(&mut self, value: &[u8]) {
        let quote = match (value.contains(&b'"'), value.contains(&b'\'')) {
            (true, _) => b'\'',
            (_, true) => b'"',
            _ if self.style.tidy => b'"',
            _ => self.random.pick(b"\"'"),
        };
        self.out.push(quote);
        self.out.extend(value);
        self.out.push(quote);
    }

    /// Writes a start tag up to the `>` or `/>`, with the attributes in any order.
    fn start(&mut self, name: &str, mut values: Values) {
        self.put("<");
        self.put(name);
        while !values.is_empty() {
            let place = match self.style.tidy {
                true => 0,
                false => self.random.below(values.len()),
            };
            let (attribute, value) = values.remove(place);
            self.some_white();
            self.put(attribute);
            self.equals();
            self.value(&value);
        }
        self.white();
    }

    fn end(&mut self, name: &str) {
        self.put("</");
        self.put(name);
        self.white();
        self.put(">");
    }

    /// Writes an element without children.
    fn empty(&mut self, name: &str, values: Values) {
        self.start(name, values);
        if self.style.tidy || self.random.chance(4, 5) {
            return self.put("/>");
        }
        self.put(">");
        if self.style.loose {
            self.misc();
        }
        self.end(name);
    }

    /// Writes an element and its content.
    fn within(&mut self, name: &str, values: Values, content: impl FnOnce(&mut Self)) {
        self.start(name, values);
        self.put(">");
        self.depth += 1;
        self.misc();
        content(self);
        self.depth -= 1;
        self.end(name);
        self.misc();
    }

    /// Writes children of one sort in their parent, which may use the short form if there are none.
    fn each(&mut self, name: &str, count: usize, child: impl Fn(&mut Self, usize)) {
        if count == 0 && self.random.chance(1, 2) {
            self.start(name, vec![]);
            self.put("/>");
            return self.misc();
        }
        self.within(name, vec![], |w| {
            for place in 0..count {
                child(w, place);
                w.misc();
            }
        });
    }

    fn used(&mut self, pool: fn(&Self) -> &Pool) -> Vec<u8> {
        let (declared, all) = (pool(self).declared, pool(self).names.len());
        let stray = declared == 0 || self.random.chance(self.style.strays, 1000);
        let place = self.random.below(if stray { all } else { declared });
        pool(self).names[place].clone()
    }

    fn others(&mut self, size: Size) -> usize {
        self.random.below(size.others + 1)
    }

    /// Adds some of the attributes that are not read.
    fn with_remarks<'a>(&mut self, mut values: Values<'a>, names: [&'a str; 2]) -> Values<'a> {
        for name in names {
            if self.random.chance(1, 4) {
                let long = self.random.chance(1, 4);
                let value = if long { "w".repeat(70) } else { String::new() };
                values.push((name, value.into_bytes()));
            }
        }
        values
    }
}

/// Cardinalities, most of them valid.
const CARDINALITIES: [&str; 8] = [
    "1",
    "2",
    "1",
    "255",
    "0",
    "007",
    "00000000000000000000255",
    "10",
];
const NO_CARDINALITIES: [&str; 9] = [
    "256",
    "",
    "-1",
    "1 ",
    " 1",
    "1000000000000000000000",
    "0x1",
    "1.0",
    "ten",
];

impl Writer<'_> {
    fn cardinality(&mut self) -> Vec<u8> {
        let number = match !self.style.tidy && self.random.chance(1, 60) {
            true => self.random.pick(&NO_CARDINALITIES),
            false => self.random.pick(&CARDINALITIES),
        };
        number.as_bytes().to_vec()
    }

    fn role_used(&mut self) -> Vec<u8> {
        self.used(|w| &w.roles)
    }

    fn task_used(&mut self) -> Vec<u8> {
        self.used(|w| &w.tasks)
    }

    fn permission_used(&mut self) -> Vec<u8> {
        self.used(|w| &w.permissions)
    }

    /// Writes the core module with a part of the names of each space.
    fn core(&mut self, size: Size, part: impl Fn(usize) -> std::ops::Range<usize>) {
        let (users, roles) = (part(self.users.declared), part(self.roles.declared));
        let permissions = part(self.permissions.declared);
        self.within("module_rbac_core_policy", vec![], |w| {
            w.each("users", users.len(), |w, place| {
                let user = w.users.names[users.start + place].clone();
                w.empty("user", vec![("user_id", user)]);
            });
            w.each("roles", roles.len(), |w, place| {
                let role = w.roles.names[roles.start + place].clone();
                let values = vec![("role_id", role)];
                let values = w.with_remarks(values, ["role_description"; 2]);
                let once = values.len().min(2);
                w.empty("role", values[..once].to_vec());
            });
            w.each("permissions", permissions.len(), |w, place| {
                let permission = w.permissions.names[permissions.start + place].clone();
                w.permission(permission);
            });
            let count = w.others(size);
            w.each("user_assignments", count, |w, _| {
                let values = vec![
                    ("user_id", w.used(|w| &w.users)),
                    ("role_id", w.role_used()),
                ];
                w.empty("user_assignment", values);
            });
            let count = w.others(size);
            w.each("permission_assignments", count, |w, _| {
                let permission = w.permission_used();
                let values = vec![("permission_id", permission), ("role_id", w.role_used())];
                w.empty("permission_assignment", values);
            });
        });
    }

    fn permission(&mut self, permission: Vec<u8>) {
        self.within("permission", vec![("permission_id", permission)], |w| {
            let operation = w.used(|w| &w.external);
            w.empty("operation", vec![("operation_id", operation)]);
            w.misc();
            let object = w.used(|w| &w.external);
            w.empty("object", vec![("object_id", object)]);
            w.misc();
        });
    }

    fn separation(&mut self, module: &str, size: Size) {
        self.within(module, vec![], |w| {
            for name in ["static_separation_of_duty", "dynamic_separation_of_duty"] {
                if w.random.chance(2, 3) {
                    w.within(name, vec![], |w| w.role_sets(size));
                }
            }
        });
    }

    fn role_sets(&mut self, size: Size) {
        let count = self.others(size);
        self.each("critical_role_sets", count, |w, _| {
            let values = vec![("cardinality", w.cardinality())];
            let values = w.with_remarks(values, ["name", "description"]);
            w.within("critical_role_set", values, |w| {
                let members = 1 + w.random.below(4);
                w.each("critical_roles", members, |w, _| {
                    let role = w.role_used();
                    w.empty("critical_role", vec![("role_id", role)]);
                });
            });
        });
    }

    fn workflow(&mut self, size: Size) {
        self.within("module_wf_core_policy", vec![], |w| {
            let count = w.others(size);
            w.each("task_permission_assignments", count, |w, _| {
                let task = w.task_used();
                let values = vec![("task_id", task), ("permission_id", w.permission_used())];
                w.empty("task_permission_assignment", values);
            });
            let count = w.others(size);
            w.each("task_role_assignments", count, |w, _| {
                let values = vec![("task_id", w.task_used()), ("role_id", w.role_used())];
                w.empty("task_role_assignment", values);
            });
        });
    }

    fn members(&mut self, name: &str, member: &str, values: Values) {
        let count = 1 + self.random.below(4);
        self.within(name, values, |w| {
            for _ in 0..count {
                let task = w.task_used();
                w.empty(member, vec![("task_id", task)]);
                w.misc();
            }
        });
    }

    fn task_separation(&mut self, size: Size, partitionings: usize) {
        self.within("module_wf_sep_duty_policy", vec![], |w| {
            if w.random.chance(2, 3) {
                let count = w.others(size);
                w.each("hdsodsl", count, |w, _| {
                    let template = w.used(|w| &w.templates);
                    w.empty(
                        "critical_workflow_template",
                        vec![("template_id", template)],
                    );
                });
            }
            if w.random.chance(2, 3) {
                let count = w.others(size);
                w.each("hdsod", count, |w, _| {
                    let values = vec![("cardinality", w.cardinality())];
                    let values = w.with_remarks(values, ["name", "description"]);
                    w.members("critical_tasks_set", "critical_task", values);
                });
            }
            if partitionings > 0 || w.random.chance(1, 2) {
                w.each("hdsodtp", partitionings, |w, _| w.partitioning());
            }
        });
    }

    fn partitioning(&mut self) {
        let values = self.with_remarks(vec![], ["name", "description"]);
        if self.random.chance(1, 6) {
            return self.empty("hdsodtp_partitioning", values);
        }
        let count = self.random.below(3);
        self.within("hdsodtp_partitioning", values, |w| {
            for _ in 0..count {
                let values = w.with_remarks(vec![], ["name", "description"]);
                w.members("hdsodtp_partition", "partition_task", values);
            }
        });
    }

    /// Writes a module with one list of pairs of tasks, or of a task and a number.
    fn list(&mut self, [module, holder, element]: [&str; 3], attributes: [&str; 2], size: Size) {
        let count = self.others(size);
        self.within(module, vec![], |w| {
            w.each(holder, count, |w, _| {
                let first = w.task_used();
                let second = match attributes[1] {
                    "cardinality" => w.cardinality(),
                    _ => w.task_used(),
                };
                w.empty(
                    element,
                    vec![(attributes[0], first), (attributes[1], second)],
                );
            });
        });
    }

    /// Writes a module of senior roles.
    fn hierarchy(&mut self, size: Size) {
        let count = self.others(size);
        self.within("module_role_hierarchy_policy", vec![], |w| {
            w.each("role_hierarchy", count, |w, _| {
                let (upper, lower) = (w.role_used(), w.role_used());
                w.empty(
                    "inherit_role",
                    vec![("upper_role", upper), ("lower_role", lower)],
                );
            });
        });
    }

    /// Writes a wall with this number of blocks; permissions may use its objects too.
    fn wall(&mut self, blocks: usize) {
        self.within("module_chinese_wall_policy", vec![], |w| {
            w.each("cw_partitions", blocks, |w, _| {
                let objects = w.random.below(3);
                w.each("cw_partition", objects, |w, _| {
                    let place = w.random.below(w.external.names.len());
                    let object = w.external.names[place].clone();
                    w.empty("partition_object", vec![("object_id", object)]);
                });
            });
            w.empty("uocws", vec![]);
            w.misc();
        });
    }

    /// Writes modules of the sections that Ask 4 does not name; sometimes with the largest number of walls or blocks, or one
    /// more.
    fn wide_rules(&mut self, size: Size) {
        match self.random.below(40) {
            0 => {
                for _ in 0..16 + self.random.below(2) {
                    self.wall(1);
                    self.misc();
                }
            }
            1 => {
                let blocks = 16 + self.random.below(2);
                self.wall(blocks);
            }
            2..14 => self.hierarchy(size),
            14..27 => {
                let blocks = self.random.below(4);
                self.wall(blocks);
            }
            _ => self.separation("module_sep_duty_rh_policy", size),
        }
    }

    fn rules(&mut self, size: Size) {
        if self.style.wide && self.random.chance(1, 2) {
            self.wide_rules(size);
            return self.misc();
        }
        match self.random.below(6) {
            0 => self.separation("module_sep_duty_policy", size),
            1 => self.workflow(size),
            2 => self.task_separation(size, size.partitionings % 16),
            3 => self.list(
                [
                    "module_wf_cardinality_policy",
                    "task_cardinalities",
                    "task_cardinality",
                ],
                ["task_id", "cardinality"],
                size,
            ),
            4 => self.list(
                [
                    "module_wf_bind_duty_policy",
                    "bind_of_duty_constraints",
                    "bind_of_duty_constraint",
                ],
                ["task_id", "bound_task_id"],
                size,
            ),
            _ => self.list(
                [
                    "module_wf_prereq_step_policy",
                    "prereq_steps",
                    "prereq_step",
                ],
                ["prereq_task_id", "task_id"],
                size,
            ),
        }
        self.misc();
    }

    /// Writes the modules: the core whole or in two parts, with rules before, between and after.
    fn modules(&mut self, size: Size) {
        let split = self.random.chance(1, 3);
        for _ in 0..self.random.below(size.modules + 1) {
            self.rules(size);
        }
        if split {
            self.core(size, |count| 0..count / 2);
            self.rules(size);
            self.core(size, |count| count / 2..count);
        } else {
            self.core(size, |count| 0..count);
        }
        if size.partitionings >= 16 {
            self.task_separation(size, size.partitionings);
        }
        for _ in 0..self.random.below(size.modules + 1) {
            self.rules(size);
        }
    }

    fn prolog(&mut self) {
        if self.random.chance(1, 8) {
            self.put("\u{feff}");
        }
        if self.random.chance(1, 2) {
            self.put("<?xml");
            self.some_white();
            self.put("version");
            self.equals();
            self.value(b"1.0");
            if self.random.chance(1, 2) {
                self.some_white();
                self.put("encoding");
                self.equals();
                let encoding = self.random.pick(&["UTF-8", "utf-8", "Utf-8", "uTF-8"]);
                self.value(encoding.as_bytes());
            }
            if self.random.chance(1, 3) {
                self.some_white();
                self.put("standalone");
                self.equals();
                let alone = self.random.pick(&["yes", "no"]);
                self.value(alone.as_bytes());
            }
            self.white();
            self.put("?>");
        }
        self.misc();
        if self.random.chance(1, 2) {
            self.put("<!DOCTYPE");
            self.some_white();
            self.put("policy_object");
            self.some_white();
            self.put("SYSTEM");
            self.some_white();
            let system = self.random.pick(&["policy-object.dtd", "", "a'b>", "x y"]);
            self.value(system.as_bytes());
            self.white();
            self.put(">");
            self.misc();
        }
    }

    fn document(&mut self, size: Size) {
        self.prolog();
        self.within("policy_object", vec![], |w| {
            let count = w.random.below(3);
            w.each("policy_object_attributes", count, |w, _| {
                let values = ["", "1.2", "a > b", "]]>"].map(|v| v.as_bytes().to_vec());
                let [key, value] = [0, 1].map(|_| values[w.random.below(4)].clone());
                w.empty("attribute", vec![("key", key), ("value", value)]);
            });
            let count = w.random.below(3);
            w.each("active_modules", count, |w, _| {
                let name = w.random.pick(&["module_rbac_core_policy", "", "x"]);
                w.empty("active_module", vec![("name", name.as_bytes().to_vec())]);
            });
            w.within("policy_object_modules", vec![], |w| w.modules(size));
        });
    }

    /// Writes each task on a line, in the order of the pool, some twice, with the line ends of any system; the last line end may
    /// be missing.
    fn lines(&mut self) -> Vec<u8> {
        let mut lines: Vec<Vec<u8>> = Vec::new();
        for place in 0..self.tasks.declared {
            let template = match place < self.templates.declared {
                true => place,
                false => self.random.below(self.templates.declared.max(1)),
            };
            let (task, template) = (&self.tasks.names[place], &self.templates.names[template]);
            let line = [&task[..], b" ", template].concat();
            lines.push(line.clone());
            if self.random.chance(1, 30) {
                lines.push(line);
            }
        }
        let returned = self.random.pick(&[0, 0, 50, 100]);
        let mut text = Vec::new();
        if self.random.chance(1, 10) {
            text.extend("\u{feff}".bytes());
        }
        let count = lines.len();
        for (place, line) in (1..).zip(lines) {
            text.extend(line);
            if place < count || self.random.chance(4, 5) {
                let end = if self.random.chance(returned, 100) {
                    "\r\n"
                } else {
                    "\n"
                };
                text.extend(end.bytes());
            }
        }
        text
    }
}

/// A text of the grammar with this style and size.
fn written(random: &mut Random, style: Style, size: Size) -> Texts {
    let mut space = |prefix: &str, count: usize| pool(random, prefix, count, style);
    let (users, roles) = (space("user", size.users), space("role", size.roles));
    let permissions = space("permission", size.permissions);
    let external = space("object", size.permissions.clamp(1, 40));
    let (tasks, templates) = (
        space("task", size.tasks),
        space("wf_template", size.templates),
    );
    let mut writer = Writer {
        out: Vec::new(),
        depth: 0,
        random,
        style,
        users,
        roles,
        permissions,
        external,
        tasks,
        templates,
    };
    writer.document(size);
    let tasks = writer.lines();
    Texts {
        policy: writer.out,
        tasks,
    }
}

impl Texts {
    /// A text of any style and size, of Ask 4's sections.
    pub fn random(random: &mut Random) -> Texts {
        Texts::of_sections(random, Sections::Asked)
    }

    /// A text of any style and size, of these sections.
    pub fn of_sections(random: &mut Random, sections: Sections) -> Texts {
        let wide = sections == Sections::All;
        let style = Style::random(random);
        Texts::styled(random, Style { wide, ..style })
    }

    /// A text of a style and any size.
    pub fn styled(random: &mut Random, style: Style) -> Texts {
        let size = Size::random(random);
        written(random, style, size)
    }

    /// A text as a dealer would send it, with a policy of about this many bytes.
    pub fn orderly(bytes: usize) -> Texts {
        let part = |whole: usize, limit: usize| (bytes / whole).clamp(2, limit);
        let size = Size {
            users: part(400, 1_024),
            roles: part(2_000, 64),
            permissions: part(1_000, 256),
            tasks: part(2_000, 64),
            templates: part(4_000, 16),
            partitionings: part(20_000, 4),
            others: 3,
            modules: 1,
        };
        let style = Style {
            blanks: 0,
            comments: 2,
            loose: false,
            strays: 0,
            tidy: true,
            wide: false,
        };
        let mut random = Random::new(bytes as u64);
        let mut others = 2;
        loop {
            let text = written(&mut random, style, Size { others, ..size });
            if text.policy.len() >= bytes {
                return text;
            }
            others += others / 8 + 1;
        }
    }
}
