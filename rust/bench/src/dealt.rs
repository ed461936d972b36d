//! Policies as a dealer would send them: policy records written as OPL/XML, with their task lines.

use crate::policies::largest;
use random::Random;
use records::{Record, Set};
use std::fmt::Write;

/// A policy text and its task lines.
pub struct Dealt {
    pub name: String,
    pub policy: String,
    pub tasks: String,
}

/// A part of the largest policy: only the records about the first users, roles, permissions and tasks.
#[derive(Clone, Copy)]
struct Part {
    users: u16,
    roles: u16,
    permissions: u16,
    tasks: u16,
}

impl Part {
    fn has(self, record: &Record) -> bool {
        let (a, b) = (record.a(), record.b());
        let (users, roles) = (a < self.users, |role| role < self.roles);
        let within = |end: u16| Set(record.m()).members().all(|i| u16::from(i) < end);
        match record.kind() {
            1 => users,
            2 => roles(a),
            3 => a < self.permissions,
            4 => users && roles(b),
            5 => roles(a) && b < self.permissions,
            7 => a < self.tasks && roles(b),
            8 => a < self.tasks && b < self.permissions,
            9 | 10 => within(self.roles),
            11 | 12 => within(self.tasks),
            13 => 4 * a < self.tasks,
            15 | 16 => a < self.tasks && b < self.tasks,
            _ => a < self.tasks,
        }
    }
}

/// Writes records as text: one element a line, indented by its depth.
struct Writer<'r> {
    records: &'r [Record],
    text: String,
    depth: usize,
}

fn user(number: u16) -> String {
    format!("user:clerk_{number:04}")
}

fn role(number: u16) -> String {
    format!("role:loan_desk_{number}")
}

fn permission(number: u16) -> String {
    format!("permission:customer_data_{number}")
}

fn task(number: u16) -> String {
    format!("task:{number}_check_rating")
}

fn template(number: u16) -> String {
    format!("wf_template:loan_{number}")
}

impl Writer<'_> {
    fn line(&mut self, line: &str) {
        let indent = 2 * self.depth;
        writeln!(self.text, "{:indent$}{line}", "").unwrap();
    }

    /// Writes an element without children.
    fn one(&mut self, name: &str, attributes: &[(&str, String)]) {
        let attributes = attributes.iter().map(|(k, v)| format!(" {k}=\"{v}\""));
        let attributes: String = attributes.collect();
        self.line(&format!("<{name}{attributes}/>"));
    }

    fn within(&mut self, name: &str, more: &str, content: impl FnOnce(&mut Self)) {
        self.line(&format!("<{name}{more}>"));
        self.depth += 1;
        content(self);
        self.depth -= 1;
        self.line(&format!("</{name}>"));
    }

    /// Writes the records of a kind, each by `said`, inside an element.
    fn each(&mut self, name: &str, kind: u8, said: impl Fn(&mut Self, &Record)) {
        let records = self.records.iter().filter(|r| r.kind() == kind);
        self.within(name, "", |w| records.for_each(|record| said(w, record)));
    }

    fn core(&mut self) {
        self.within("module_rbac_core_policy", "", |w| {
            w.each("users", 1, |w, r| {
                w.one("user", &[("user_id", user(r.a()))])
            });
            w.each("roles", 2, |w, r| {
                w.one("role", &[("role_id", role(r.a()))])
            });
            w.each("permissions", 3, |w, r| {
                let id = format!(" permission_id=\"{}\"", permission(r.a()));
                w.within("permission", &id, |w| {
                    w.one(
                        "operation",
                        &[("operation_id", format!("query_{}()", r.b()))],
                    );
                    w.one("object", &[("object_id", format!("Customer{}", r.c()))]);
                });
            });
            w.each("user_assignments", 4, |w, r| {
                let ids = [("user_id", user(r.a())), ("role_id", role(r.b()))];
                w.one("user_assignment", &ids);
            });
            w.each("permission_assignments", 5, |w, r| {
                let ids = [
                    ("permission_id", permission(r.b())),
                    ("role_id", role(r.a())),
                ];
                w.one("permission_assignment", &ids);
            });
        });
    }

    fn members(&mut self, record: &Record, name: &str, attribute: &str, of: fn(u16) -> String) {
        for member in Set(record.m()).members() {
            self.one(name, &[(attribute, of(member.into()))]);
        }
    }

    fn role_sets(&mut self, name: &str, kind: u8) {
        self.within(name, "", |w| {
            w.each("critical_role_sets", kind, |w, r| {
                let cardinality = format!(" cardinality=\"{}\"", r.n());
                w.within("critical_role_set", &cardinality, |w| {
                    w.within("critical_roles", "", |w| {
                        w.members(r, "critical_role", "role_id", role)
                    });
                });
            });
        });
    }

    fn task_rules(&mut self) {
        self.module("module_wf_sep_duty_policy", &[11, 12, 13], |w| {
            w.each("hdsodsl", 13, |w, r| {
                w.one(
                    "critical_workflow_template",
                    &[("template_id", template(r.a()))],
                );
            });
            w.each("hdsod", 11, |w, r| {
                let cardinality = format!(" cardinality=\"{}\"", r.n());
                w.within("critical_tasks_set", &cardinality, |w| {
                    w.members(r, "critical_task", "task_id", task);
                });
            });
            w.within("hdsodtp", "", |w| {
                for number in 0..16 {
                    w.partitioning(number);
                }
            });
        });
    }

    fn partitioning(&mut self, number: u16) {
        let of = |r: &&Record| r.kind() == 12 && r.a() == number;
        let blocks: Vec<&Record> = self.records.iter().filter(of).collect();
        if blocks.is_empty() {
            return;
        }
        self.within("hdsodtp_partitioning", "", |w| {
            for block in blocks {
                w.within("hdsodtp_partition", "", |w| {
                    w.members(block, "partition_task", "task_id", task);
                });
            }
        });
    }

    /// Writes a module, if there are records for it.
    fn module(&mut self, name: &str, kinds: &[u8], content: impl FnOnce(&mut Self)) {
        if self.records.iter().any(|r| kinds.contains(&r.kind())) {
            self.within(name, "", content);
        }
    }

    /// Writes a module with one list.
    fn list(&mut self, [name, holder]: [&str; 2], kind: u8, said: impl Fn(&mut Self, &Record)) {
        self.module(name, &[kind], |w| w.each(holder, kind, said));
    }

    fn document(&mut self) {
        self.line("<?xml version=\"1.0\" encoding=\"UTF-8\"?>");
        self.within("policy_object", "", |w| {
            w.one("policy_object_attributes", &[]);
            w.one("active_modules", &[]);
            w.within("policy_object_modules", "", |w| {
                w.core();
                w.module("module_sep_duty_policy", &[9, 10], |w| {
                    w.role_sets("static_separation_of_duty", 9);
                    w.role_sets("dynamic_separation_of_duty", 10);
                });
                w.within("module_wf_core_policy", "", |w| {
                    w.each("task_permission_assignments", 8, |w, r| {
                        let ids = [
                            ("task_id", task(r.a())),
                            ("permission_id", permission(r.b())),
                        ];
                        w.one("task_permission_assignment", &ids);
                    });
                    w.each("task_role_assignments", 7, |w, r| {
                        let ids = [("task_id", task(r.a())), ("role_id", role(r.b()))];
                        w.one("task_role_assignment", &ids);
                    });
                });
                w.task_rules();
                w.list(
                    ["module_wf_cardinality_policy", "task_cardinalities"],
                    14,
                    |w, r| {
                        let cardinality = ("cardinality", r.n().to_string());
                        w.one("task_cardinality", &[("task_id", task(r.a())), cardinality]);
                    },
                );
                w.list(
                    ["module_wf_bind_duty_policy", "bind_of_duty_constraints"],
                    15,
                    |w, r| {
                        let ids = [("task_id", task(r.a())), ("bound_task_id", task(r.b()))];
                        w.one("bind_of_duty_constraint", &ids);
                    },
                );
                w.list(
                    ["module_wf_prereq_step_policy", "prereq_steps"],
                    16,
                    |w, r| {
                        let ids = [("prereq_task_id", task(r.a())), ("task_id", task(r.b()))];
                        w.one("prereq_step", &ids);
                    },
                );
            });
        });
    }
}

fn dealt(name: &str, records: &[Record]) -> Dealt {
    let mut writer = Writer {
        records,
        text: String::new(),
        depth: 0,
    };
    writer.document();
    let lines = records.iter().filter(|r| r.kind() == 6);
    Dealt {
        name: name.to_string(),
        policy: writer.text,
        tasks: lines
            .map(|r| format!("{} {}\n", task(r.a()), template(r.b())))
            .collect(),
    }
}

/// A text of about 2 KiB, one of about 64 KiB, the largest policy that loads, and one with as many names of every sort as
/// possible.
pub fn texts() -> Vec<Dealt> {
    let all = largest(&mut Random::new(7));
    let part = |name, users, roles, permissions, tasks| {
        let part = Part {
            users,
            roles,
            permissions,
            tasks,
        };
        let records: Vec<Record> = all.iter().filter(|r| part.has(r)).copied().collect();
        dealt(name, &records)
    };
    // Each further declaration of a permission adds an operation and an object to it.
    let pairs = (0..=u16::MAX).map(|i| Record::permission(i % 256, i, i));
    let others = all.iter().filter(|r| r.kind() != 3).copied();
    let names: Vec<Record> = others.chain(pairs).collect();
    vec![
        part("a small policy", 5, 1, 2, 1),
        part("a middling policy", 172, 34, 66, 32),
        dealt("the largest policy that loads", &all),
        dealt("every space of names full", &names),
    ]
}
