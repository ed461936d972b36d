//! "NAMES (22) for a name .. above a limit": for each of the seven spaces of names, a text with the last name that gets a number,
//! and one with the first name that gets none. All readers agree, including the proved one if the library is linked.

use opl_differential::{readers, Reader};
use std::fmt::Write;

/// How many declarations of each sort a text has. Permissions declare operations and objects, and two permissions may have the
/// same name.
#[derive(Clone, Copy, Default)]
struct Declared {
    users: usize,
    roles: usize,
    permissions: usize,
    operations: usize,
    objects: usize,
    tasks: usize,
    templates: usize,
}

impl Declared {
    /// The policy text.
    fn policy(&self) -> String {
        let mut text = String::from("<policy_object><policy_object_attributes/><active_modules/><policy_object_modules><module_rbac_core_policy><users>");
        for user in 0..self.users {
            write!(text, "<user user_id=\"u{user}\"/>").unwrap();
        }
        text.push_str("</users><roles>");
        for role in 0..self.roles {
            write!(text, "<role role_id=\"r{role}\"/>").unwrap();
        }
        text.push_str("</roles><permissions>");
        for at in 0..self.permissions.max(self.operations).max(self.objects) {
            let (permission, operation, object) = (
                at % self.permissions,
                at % self.operations,
                at % self.objects,
            );
            write!(text, "<permission permission_id=\"p{permission}\"><operation operation_id=\"o{operation}\"/><object object_id=\"b{object}\"/></permission>").unwrap();
        }
        text.push_str("</permissions><user_assignments/><permission_assignments/></module_rbac_core_policy></policy_object_modules></policy_object>");
        text
    }

    /// The task lines.
    fn lines(&self) -> String {
        let mut lines = String::new();
        for at in 0..self.tasks.max(self.templates) {
            writeln!(lines, "t{} w{}", at % self.tasks, at % self.templates).unwrap();
        }
        lines
    }
}

/// A space of names: its limit, the kind of record and the offset that hold a name's number, and a text with a given number of
/// its names.
struct Limit {
    space: &'static str,
    names: usize,
    kind: u8,
    at: usize,
    declared: fn(usize) -> Declared,
}

/// Permissions with this number of operations and objects.
fn permissions(permissions: usize, operations: usize, objects: usize) -> Declared {
    Declared {
        permissions,
        operations,
        objects,
        ..Declared::default()
    }
}

const LIMITS: [Limit; 7] = [
    Limit {
        space: "users",
        names: 1_024,
        kind: 1,
        at: 2,
        declared: |users| Declared {
            users,
            ..Declared::default()
        },
    },
    Limit {
        space: "roles",
        names: 64,
        kind: 2,
        at: 2,
        declared: |roles| Declared {
            roles,
            ..Declared::default()
        },
    },
    Limit {
        space: "permissions",
        names: 256,
        kind: 3,
        at: 2,
        declared: |n| permissions(n, n, 1),
    },
    Limit {
        space: "operations",
        names: 65_536,
        kind: 3,
        at: 4,
        declared: |n| permissions(256, n, 1),
    },
    Limit {
        space: "objects",
        names: 65_536,
        kind: 3,
        at: 6,
        declared: |n| permissions(256, 1, n),
    },
    Limit {
        space: "tasks",
        names: 64,
        kind: 6,
        at: 2,
        declared: |tasks| Declared {
            tasks,
            templates: 1,
            ..Declared::default()
        },
    },
    Limit {
        space: "templates",
        names: 16,
        kind: 6,
        at: 4,
        declared: |templates| Declared {
            tasks: templates,
            templates,
            ..Declared::default()
        },
    },
];

/// The readers that are fast enough for this number of names: the slow one looks each up among all.
fn for_names(names: usize) -> impl Iterator<Item = Reader> {
    readers()
        .into_iter()
        .filter(move |reader| !reader.slow || names < 2_000)
}

/// The highest number in the records of a kind.
fn highest(records: &[u8], kind: u8, at: usize) -> Option<u16> {
    let numbers = records.chunks_exact(16).filter(|record| record[0] == kind);
    numbers
        .map(|record| u16::from_le_bytes([record[at], record[at + 1]]))
        .max()
}

#[test]
fn the_last_name_has_the_last_number() {
    for limit in LIMITS {
        let declared = (limit.declared)(limit.names);
        let (policy, lines) = (declared.policy(), declared.lines());
        for reader in for_names(limit.names) {
            let mut output = vec![0; 16 * 70_000];
            let answer = (reader.translate)(policy.as_bytes(), lines.as_bytes(), &mut output);
            let told = (limit.space, reader.name, answer);
            assert_eq!((answer.reply, answer.text), (opl::ACCEPTED, 0), "{told:?}");
            let written = &output[..16 * answer.figure as usize];
            let last = highest(written, limit.kind, limit.at);
            assert_eq!(last.map(usize::from), Some(limit.names - 1), "{told:?}");
        }
    }
}

#[test]
fn one_name_more_is_refused() {
    for limit in LIMITS {
        let declared = (limit.declared)(limit.names + 1);
        let (policy, lines) = (declared.policy(), declared.lines());
        for reader in for_names(limit.names) {
            let mut output = vec![3; 16 * 70_000];
            let answer = (reader.translate)(policy.as_bytes(), lines.as_bytes(), &mut output);
            let told = (limit.space, reader.name, answer);
            assert_eq!(
                (answer.reply, answer.text, answer.figure),
                (opl::NAMES, 0, 0),
                "{told:?}"
            );
            assert!(output.iter().all(|&byte| byte == 3), "{told:?}");
        }
    }
}

/// The load accepts what the reader accepts at these limits, if every name is declared once.
#[cfg(mishantral_opl)]
#[test]
fn policies_at_the_limits_load() {
    for limit in LIMITS.iter().filter(|limit| limit.names <= 1_024) {
        let declared = (limit.declared)(limit.names);
        let (policy, lines) = (declared.policy(), declared.lines());
        let policy = mishantral::Policy::from_opl(policy.as_bytes(), lines.as_bytes()).unwrap();
        let loaded = mishantral::Engine::new().load(policy.bytes());
        assert!(loaded.is_ok(), "{}: {loaded:?}", limit.space);
    }
}
