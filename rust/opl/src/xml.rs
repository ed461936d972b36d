//! Writes records that can be expressed as elements and lines.

use crate::names::Space;
use crate::writer::{Fields, Named};

/// The text so far.
pub(crate) struct Xml<'a> {
    out: Vec<u8>,
    depth: usize,
    records: &'a [Fields],
    named: &'a Named,
}

/// The modules and their kinds: the core first, the others in the order of document 000.
const MODULES: [(&str, &[u8]); 9] = [
    ("module_rbac_core_policy", &[1, 2, 3, 4, 5]),
    ("module_role_hierarchy_policy", &[17]),
    ("module_sep_duty_policy", &[9, 10]),
    ("module_chinese_wall_policy", &[18]),
    ("module_wf_core_policy", &[7, 8]),
    ("module_wf_sep_duty_policy", &[11, 12, 13]),
    ("module_wf_cardinality_policy", &[14]),
    ("module_wf_bind_duty_policy", &[15]),
    ("module_wf_prereq_step_policy", &[16]),
];

use Space::{Object, Operation, Permission, Role, Task, Template, User};

impl<'a> Xml<'a> {
    /// The policy text and the task lines.
    pub fn texts(records: &'a [Fields], named: &'a Named) -> (Vec<u8>, Vec<u8>) {
        let mut xml = Xml {
            out: Vec::new(),
            depth: 0,
            records,
            named,
        };
        let tasks = xml.lines();
        xml.document();
        (xml.out, tasks)
    }

    fn of_kind(&self, kind: u8) -> impl Iterator<Item = Fields> + use<'a> {
        let records = self.records.iter();
        records.filter(move |fields| fields.kind == kind).copied()
    }

    fn name(&self, space: Space, number: u16) -> Vec<u8> {
        self.named
            .get(&(space, number))
            .cloned()
            .unwrap_or_default()
    }

    fn lines(&self) -> Vec<u8> {
        let line = |fields: Fields| {
            let [task, template, _] = fields.of;
            let (task, template) = (self.name(Task, task), self.name(Template, template));
            [&task[..], b" ", &template, b"\n"].concat()
        };
        self.of_kind(6).flat_map(line).collect()
    }

    fn begin(&mut self) {
        self.out.extend(b"  ".repeat(self.depth));
    }

    fn start(&mut self, element: &str, attributes: &[(&str, Vec<u8>)], end: &str) {
        self.begin();
        self.out.extend(format!("<{element}").bytes());
        for (name, value) in attributes {
            let quote = if value.contains(&b'"') { '\'' } else { '"' };
            self.out.extend(format!(" {name}={quote}").bytes());
            self.out.extend(value);
            self.out.extend(quote.to_string().bytes());
        }
        self.out.extend(end.bytes());
        self.out.push(b'\n');
    }

    fn empty(&mut self, element: &str, attributes: &[(&str, Vec<u8>)]) {
        self.start(element, attributes, "/>");
    }

    fn within(
        &mut self,
        element: &str,
        attributes: &[(&str, Vec<u8>)],
        content: impl FnOnce(&mut Self),
    ) {
        self.start(element, attributes, ">");
        self.depth += 1;
        content(self);
        self.depth -= 1;
        self.begin();
        self.out.extend(format!("</{element}>\n").bytes());
    }

    /// Writes an element for each record of a kind, with the names of its fields.
    fn each(
        &mut self,
        kind: u8,
        holder: &str,
        element: &str,
        attributes: [(&str, Space, usize); 2],
    ) {
        self.within(holder, &[], |xml| {
            for fields in xml.of_kind(kind) {
                let named = attributes
                    .map(|(attribute, space, at)| (attribute, xml.name(space, fields.of[at])));
                xml.empty(element, &named);
            }
        });
    }

    fn document(&mut self) {
        self.out.extend(b"<?xml version=\"1.0\" encoding=\"UTF-8\"?>\n<!DOCTYPE policy_object SYSTEM \"policy-object.dtd\">\n");
        let has = |kinds: &[u8]| {
            self.records
                .iter()
                .any(|fields| kinds.contains(&fields.kind))
        };
        let there = |(name, kinds): &(&'static str, &[u8])| {
            (*name == MODULES[0].0 || has(kinds)).then_some(*name)
        };
        let modules: Vec<&str> = MODULES.iter().filter_map(there).collect();
        self.within("policy_object", &[], |xml| {
            xml.within("policy_object_attributes", &[], |_| {});
            xml.within("active_modules", &[], |xml| {
                for name in &modules {
                    xml.empty("active_module", &[("name", name.bytes().collect())]);
                }
            });
            xml.within("policy_object_modules", &[], |xml| {
                for name in &modules {
                    xml.module(name);
                }
            });
        });
    }

    fn module(&mut self, name: &'static str) {
        if name == "module_chinese_wall_policy" {
            return self.walls(name);
        }
        self.within(name, &[], |xml| match name {
            "module_rbac_core_policy" => xml.core(),
            "module_role_hierarchy_policy" => {
                let roles = [("upper_role", Role, 0), ("lower_role", Role, 1)];
                xml.each(17, "role_hierarchy", "inherit_role", roles);
            }
            "module_sep_duty_policy" => xml.role_sets(),
            "module_wf_core_policy" => {
                let (permission, role) = (("permission_id", Permission, 1), ("role_id", Role, 1));
                let task = ("task_id", Task, 0);
                xml.each(
                    8,
                    "task_permission_assignments",
                    "task_permission_assignment",
                    [task, permission],
                );
                xml.each(
                    7,
                    "task_role_assignments",
                    "task_role_assignment",
                    [task, role],
                );
            }
            "module_wf_sep_duty_policy" => xml.task_sets(),
            "module_wf_cardinality_policy" => xml.within("task_cardinalities", &[], |xml| {
                for fields in xml.of_kind(14) {
                    let task = ("task_id", xml.name(Task, fields.of[0]));
                    xml.empty("task_cardinality", &[task, cardinality(&fields)]);
                }
            }),
            "module_wf_bind_duty_policy" => {
                let tasks = [("task_id", Task, 0), ("bound_task_id", Task, 1)];
                xml.each(
                    15,
                    "bind_of_duty_constraints",
                    "bind_of_duty_constraint",
                    tasks,
                );
            }
            _ => {
                let tasks = [("prereq_task_id", Task, 0), ("task_id", Task, 1)];
                xml.each(16, "prereq_steps", "prereq_step", tasks);
            }
        });
    }

    fn core(&mut self) {
        for (kind, holder, element, attribute, space) in [
            (1, "users", "user", "user_id", User),
            (2, "roles", "role", "role_id", Role),
        ] {
            self.within(holder, &[], |xml| {
                for fields in xml.of_kind(kind) {
                    let name = xml.name(space, fields.of[0]);
                    xml.empty(element, &[(attribute, name)]);
                }
            });
        }
        self.within("permissions", &[], |xml| {
            for fields in xml.of_kind(3) {
                let [permission, operation, object] = fields.of;
                let [permission, operation, object] = [
                    xml.name(Permission, permission),
                    xml.name(Operation, operation),
                    xml.name(Object, object),
                ];
                xml.within("permission", &[("permission_id", permission)], |xml| {
                    xml.empty("operation", &[("operation_id", operation)]);
                    xml.empty("object", &[("object_id", object)]);
                });
            }
        });
        let role = |at| ("role_id", Role, at);
        self.each(
            4,
            "user_assignments",
            "user_assignment",
            [("user_id", User, 0), role(1)],
        );
        let permission = ("permission_id", Permission, 1);
        self.each(
            5,
            "permission_assignments",
            "permission_assignment",
            [permission, role(0)],
        );
    }

    /// Writes an element for each member of a set.
    fn members(&mut self, fields: &Fields, element: &str, (attribute, space): (&str, Space)) {
        for member in fields.members() {
            let name = self.name(space, member);
            self.empty(element, &[(attribute, name)]);
        }
    }

    fn role_sets(&mut self) {
        for (kind, holder) in [
            (9, "static_separation_of_duty"),
            (10, "dynamic_separation_of_duty"),
        ] {
            if self.of_kind(kind).next().is_none() {
                continue;
            }
            self.within(holder, &[], |xml| {
                xml.within("critical_role_sets", &[], |xml| {
                    for fields in xml.of_kind(kind) {
                        xml.within("critical_role_set", &[cardinality(&fields)], |xml| {
                            xml.within("critical_roles", &[], |xml| {
                                xml.members(&fields, "critical_role", ("role_id", Role));
                            });
                        });
                    }
                });
            });
        }
    }

    fn task_sets(&mut self) {
        let has = |xml: &Self, kind| xml.of_kind(kind).next().is_some();
        if has(self, 13) {
            self.within("hdsodsl", &[], |xml| {
                for fields in xml.of_kind(13) {
                    let template = xml.name(Template, fields.of[0]);
                    xml.empty("critical_workflow_template", &[("template_id", template)]);
                }
            });
        }
        if has(self, 11) {
            self.within("hdsod", &[], |xml| {
                for fields in xml.of_kind(11) {
                    xml.within("critical_tasks_set", &[cardinality(&fields)], |xml| {
                        xml.members(&fields, "critical_task", ("task_id", Task));
                    });
                }
            });
        }
        if has(self, 12) {
            self.within("hdsodtp", &[], Self::partitionings);
        }
    }

    /// Writes each partitioning up to the last that has a block, even an empty one, because their position is their number.
    fn partitionings(&mut self) {
        let last = self.of_kind(12).map(|fields| fields.of[0]).max();
        for partitioning in 0..=last.unwrap_or(0) {
            self.within("hdsodtp_partitioning", &[], |xml| {
                for fields in xml
                    .of_kind(12)
                    .filter(|fields| fields.of[0] == partitioning)
                {
                    xml.within("hdsodtp_partition", &[], |xml| {
                        xml.members(&fields, "partition_task", ("task_id", Task));
                    });
                }
            });
        }
    }

    /// Writes each wall up to the last, and each block up to the last of its wall, because their position is their number.
    fn walls(&mut self, module: &str) {
        let last = self.of_kind(18).map(|fields| fields.of[0]).max();
        for wall in 0..=last.unwrap_or(0) {
            let of_wall: Vec<Fields> = self
                .of_kind(18)
                .filter(|fields| fields.of[0] == wall)
                .collect();
            let blocks = of_wall.iter().map(|fields| fields.of[1] + 1).max();
            self.within(module, &[], |xml| {
                xml.within("cw_partitions", &[], |xml| {
                    for block in 0..blocks.unwrap_or(0) {
                        xml.within("cw_partition", &[], |xml| {
                            for fields in of_wall.iter().filter(|fields| fields.of[1] == block) {
                                let object = xml.name(Object, fields.of[2]);
                                xml.empty("partition_object", &[("object_id", object)]);
                            }
                        });
                    }
                });
                xml.empty("uocws", &[]);
            });
        }
    }
}

fn cardinality(fields: &Fields) -> (&'static str, Vec<u8>) {
    ("cardinality", fields.n.to_string().into_bytes())
}
