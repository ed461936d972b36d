//! The records that the elements yield, the numbers that names get, and refusals in words.

use opl::{read, Refusal, Space};

fn policy(modules: &str) -> String {
    format!(
        "<policy_object>\n <policy_object_attributes><attribute key=\"\" value='x'/></policy_object_attributes>\n \
         <active_modules><active_module name=''/></active_modules>\n <policy_object_modules>\n{modules}\n \
         </policy_object_modules>\n</policy_object>\n"
    )
}

/// The kind, n, a, b, c and m of each record.
fn fields(records: &[u8]) -> Vec<(u8, u8, [u16; 3], u64)> {
    let half = |r: &[u8], at: usize| u16::from_le_bytes([r[at], r[at + 1]]);
    let fields = |r: &[u8]| {
        let m = u64::from_le_bytes(r[8..].try_into().unwrap());
        (r[0], r[1], [half(r, 2), half(r, 4), half(r, 6)], m)
    };
    records.chunks(16).map(fields).collect()
}

fn core(users: &[&str], roles: &[&str], permissions: &[[&str; 3]], rest: &str) -> String {
    let users: String = users
        .iter()
        .map(|u| format!("<user user_id='{u}'/>"))
        .collect();
    let roles: String = roles
        .iter()
        .map(|r| format!("<role role_id='{r}'/>"))
        .collect();
    let permission = |[p, operation, object]: &[&str; 3]| {
        format!(
            "<permission permission_id='{p}'><operation operation_id='{operation}'/>\
             <object object_id='{object}'/></permission>"
        )
    };
    let permissions: String = permissions.iter().map(permission).collect();
    format!(
        "<module_rbac_core_policy><users>{users}</users><roles>{roles}</roles>\
         <permissions>{permissions}</permissions>{rest}</module_rbac_core_policy>"
    )
}

const NO_ASSIGNMENTS: &str = "<user_assignments/><permission_assignments/>";

/// Every element that yields a record, at least once; rules come before the module that declares the names in them.
const RULES: &str = r#"
<module_wf_prereq_step_policy><prereq_steps><prereq_step task_id="t1" prereq_task_id="t0"/></prereq_steps></module_wf_prereq_step_policy>
<module_wf_bind_duty_policy><bind_of_duty_constraints><bind_of_duty_constraint bound_task_id="t2" task_id="t1"/></bind_of_duty_constraints></module_wf_bind_duty_policy>
<module_wf_cardinality_policy><task_cardinalities><task_cardinality task_id="t2" cardinality="7"/></task_cardinalities></module_wf_cardinality_policy>
<module_wf_sep_duty_policy>
  <hdsodsl><critical_workflow_template template_id="w1"/></hdsodsl>
  <hdsod><critical_tasks_set cardinality="255" name="n" description="d"><critical_task task_id="t2"/><critical_task task_id="t0"/><critical_task task_id="t2"/></critical_tasks_set></hdsod>
  <hdsodtp>
    <hdsodtp_partitioning/>
    <hdsodtp_partitioning name="p"><hdsodtp_partition><partition_task task_id="t0"/></hdsodtp_partition><hdsodtp_partition description=""><partition_task task_id="t1"/><partition_task task_id="t2"/></hdsodtp_partition></hdsodtp_partitioning>
  </hdsodtp>
</module_wf_sep_duty_policy>
<module_sep_duty_policy>
  <static_separation_of_duty><critical_role_sets><critical_role_set cardinality="1"><critical_roles><critical_role role_id="r1"/><critical_role role_id="r0"/></critical_roles></critical_role_set></critical_role_sets></static_separation_of_duty>
  <dynamic_separation_of_duty><critical_role_sets><critical_role_set cardinality="0"><critical_roles><critical_role role_id="r1"/></critical_roles></critical_role_set></critical_role_sets></dynamic_separation_of_duty>
</module_sep_duty_policy>
<module_wf_core_policy>
  <task_permission_assignments><task_permission_assignment permission_id="p1" task_id="t0"/></task_permission_assignments>
  <task_role_assignments><task_role_assignment task_id="t2" role_id="r1"/></task_role_assignments>
</module_wf_core_policy>
"#;

#[test]
fn every_element_says_its_record() {
    let assignments = "<user_assignments><user_assignment role_id='r1' user_id='u1'/></user_assignments>\
        <permission_assignments><permission_assignment permission_id='p1' role_id='r0'/></permission_assignments>";
    let permissions = [["p0", "read", "book"], ["p1", "write", "book"]];
    let core = core(&["u0", "u1"], &["r0", "r1"], &permissions, assignments);
    let text = policy(&format!("{RULES}{core}"));
    let read = read(text.as_bytes(), b"t0 w0\nt1 w1\nt2 w1\n").unwrap();
    assert_eq!(
        fields(&read.records()),
        [
            (1, 0, [0, 0, 0], 0),
            (1, 0, [1, 0, 0], 0),
            (2, 0, [0, 0, 0], 0),
            (2, 0, [1, 0, 0], 0),
            (3, 0, [0, 0, 0], 0),
            (3, 0, [1, 1, 0], 0),
            (4, 0, [1, 1, 0], 0),
            (5, 0, [0, 1, 0], 0),
            (6, 0, [0, 0, 0], 0),
            (6, 0, [1, 1, 0], 0),
            (6, 0, [2, 1, 0], 0),
            (7, 0, [2, 1, 0], 0),
            (8, 0, [0, 1, 0], 0),
            (9, 1, [0, 0, 0], 3),
            (10, 0, [0, 0, 0], 2),
            (11, 255, [0, 0, 0], 5),
            (12, 0, [1, 0, 0], 1),
            (12, 0, [1, 0, 0], 6),
            (13, 0, [1, 0, 0], 0),
            (14, 7, [2, 0, 0], 0),
            (15, 0, [1, 2, 0], 0),
            (16, 0, [0, 1, 0], 0),
        ]
    );
    let names = |space| {
        read.names(space)
            .iter()
            .map(|n| String::from_utf8_lossy(n))
            .collect::<Vec<_>>()
    };
    assert_eq!(names(Space::Operation), ["read", "write"]);
    assert_eq!(names(Space::Object), ["book"]);
    assert_eq!(names(Space::Template), ["w0", "w1"]);
    assert_eq!(read.number_of(Space::Permission, b"p1"), Some(1));
    assert_eq!(read.number_of(Space::Role, b"R1"), None);
}

#[test]
fn a_name_declared_twice_has_one_number_and_two_records() {
    let core = core(
        &["a", "b", "a"],
        &[],
        &[["p", "x", "y"], ["p", "y", "x"]],
        NO_ASSIGNMENTS,
    );
    let text = policy(&format!("{core}{core}"));
    let read = read(text.as_bytes(), b"t w\nt w\n").unwrap();
    let users: Vec<u16> = fields(&read.records()[..96])
        .iter()
        .map(|r| r.2[0])
        .collect();
    assert_eq!(users, [0, 1, 0, 0, 1, 0]);
    assert_eq!(read.count(), 12);
    let pairs: Vec<[u16; 3]> = fields(&read.records()[96..160])
        .iter()
        .map(|r| r.2)
        .collect();
    assert_eq!(pairs, [[0, 0, 0], [0, 1, 1], [0, 0, 0], [0, 1, 1]]);
}

fn numbered(letter: &str, count: usize) -> Vec<String> {
    (0..count).map(|i| format!("{letter}{i}")).collect()
}

fn borrowed(names: &[String]) -> Vec<&str> {
    names.iter().map(String::as_str).collect()
}

/// The refusal in words, if the names of a policy are refused.
fn judged(policy: &str, tasks: &str) -> Option<String> {
    let refusal = read(policy.as_bytes(), tasks.as_bytes()).err()?;
    assert!(matches!(refusal, Refusal::Names(_)), "{refusal:?}");
    let text = match refusal.text() {
        opl::Text::Policy => policy,
        opl::Text::Tasks => tasks,
    };
    Some(refusal.message(text.as_bytes()))
}

#[test]
fn each_space_has_its_limit() {
    for (count, refused) in [(1_024, false), (1_025, true)] {
        let core = core(&borrowed(&numbered("u", count)), &[], &[], NO_ASSIGNMENTS);
        let said = judged(&policy(&core), "");
        assert_eq!(said.is_some(), refused, "{said:?}");
    }
    let roles = core(&[], &borrowed(&numbered("r", 65)), &[], NO_ASSIGNMENTS);
    let said = judged(&policy(&roles), "").unwrap();
    assert!(
        said.ends_with("NAMES: more than 64 roles, \"r64\""),
        "{said}"
    );
    let lines = |tasks: usize, templates: usize| -> String {
        (0..tasks)
            .map(|t| format!("t{t} w{}\n", t % templates))
            .collect()
    };
    let none = policy(&core(&[], &[], &[], NO_ASSIGNMENTS));
    assert_eq!(judged(&none, &lines(64, 16)), None);
    let said = judged(&none, &lines(65, 16)).unwrap();
    assert_eq!(
        said,
        "line 65, column 1: NAMES: more than 64 tasks, \"t64\""
    );
    let said = judged(&none, &lines(20, 17)).unwrap();
    assert_eq!(
        said,
        "line 17, column 5: NAMES: more than 16 templates, \"w16\""
    );
    let partitionings = |count| {
        let all = "<hdsodtp_partitioning/>".repeat(count);
        policy(&format!(
            "<module_wf_sep_duty_policy><hdsodtp>{all}</hdsodtp></module_wf_sep_duty_policy>"
        ))
    };
    assert_eq!(judged(&partitionings(16), ""), None);
    let said = judged(&partitionings(17), "").unwrap();
    assert!(
        said.ends_with("NAMES: more than 16 partitionings"),
        "{said}"
    );
}

#[test]
fn operations_and_objects_have_sixteen_bits() {
    let permissions = |count: usize| -> String {
        let one = |i: usize| {
            format!(
                "<permission permission_id='p'><operation operation_id='o{i}'/><object object_id='b{i}'/></permission>"
            )
        };
        let all: String = (0..count).map(one).collect();
        policy(&format!(
            "<module_rbac_core_policy><users/><roles/><permissions>{all}</permissions>{NO_ASSIGNMENTS}\
             </module_rbac_core_policy>"
        ))
    };
    let full = permissions(65_536);
    let read = read(full.as_bytes(), b"").unwrap();
    let records = read.records();
    assert_eq!(
        fields(&records[records.len() - 16..]),
        [(3, 0, [0, 65_535, 65_535], 0)]
    );
    let said = judged(&permissions(65_537), "").unwrap();
    assert!(
        said.ends_with("NAMES: more than 65536 operations, \"o65536\""),
        "{said}"
    );
}

#[test]
fn long_and_undeclared_names_are_told() {
    let assigned = "<user_assignments>\n<user_assignment user_id='a' role_id='r'/></user_assignments><permission_assignments/>";
    let text = policy(&core(&["a"], &[], &[], assigned));
    assert_eq!(
        judged(&text, "").unwrap(),
        "line 6, column 39: NAMES: a role declared nowhere, \"r\""
    );
    let lone = "<module_wf_sep_duty_policy><hdsodsl><critical_workflow_template template_id=\"t\"/></hdsodsl></module_wf_sep_duty_policy>";
    let said = judged(&policy(lone), "t w\n").unwrap();
    assert!(
        said.ends_with("a template that the task lines do not have, \"t\""),
        "{said}"
    );
    let long = "é".repeat(33);
    let said = judged(
        &policy(&core(&[], &[], &[], NO_ASSIGNMENTS)),
        &format!("a {long}"),
    )
    .unwrap();
    assert!(
        said.starts_with("line 1, column 3: NAMES: a template of more than 64 bytes, \"éé"),
        "{said}"
    );
    let free = policy(&core(&[], &[], &[], NO_ASSIGNMENTS))
        .replace("key=\"\"", &format!("key='{long}{long}'"));
    assert_eq!(judged(&free, ""), None);
}

#[test]
fn refusals_in_words() {
    for (text, message) in [
        ("", "line 1, column 1: TEXT: expected <policy_object>, found the end of the text"),
        ("<?xml version='1.1'?>", "line 1, column 16: TEXT: expected the value 1.0, found \"1.1\""),
        ("\n <policy_objekt>", "line 2, column 2: TEXT: expected <policy_object>, found <policy_objekt>"),
        ("<policy_object>\n\t</policy_object>", "line 2, column 2: TEXT: expected <policy_object_attributes>, which <policy_object> needs, found </policy_object>"),
        ("< policy_object>", "line 1, column 2: TEXT: expected the name of an element, found a space"),
        ("<policy_object></\n", "line 1, column 18: TEXT: expected policy_object, found the end of the line"),
        ("<policy_object a", "line 1, column 17: TEXT: expected \"=\", found the end of the text"),
        ("<policy_object a b", "line 1, column 18: TEXT: expected \"=\", found \"b\""),
        ("<policy_object a='b'>", "line 1, column 16: TEXT: expected no attribute of <policy_object>, found \"a\""),
        ("<policy_object>é", "line 1, column 16: TEXT: expected <policy_object_attributes>, found \"é\": elements have no text within"),
        ("<policy_object><policy_object_attributes>&", "line 1, column 42: TEXT: expected <attribute> or </policy_object_attributes>, found \"&\": references to characters and entities are not read"),
        ("<policy_object><policy_object_attributes><attribute value='1' name='2'/>", "line 1, column 63: TEXT: expected key or value as the attribute of <attribute>, found \"name\""),
        ("<policy_object><policy_object_attributes><attribute value='1'\n/>", "line 2, column 1: TEXT: expected the attribute key, which <attribute> needs, found \"/\""),
        ("<policy_object><!-- é -- -->", "line 1, column 23: TEXT: expected no \"--\" within a comment, found \"--\""),
        ("<policy_object><policy_object_attributes><![CDATA[", "line 1, column 42: TEXT: expected <attribute> or </policy_object_attributes>, found \"<!\": elements have no text within, and so no CDATA section"),
        ("<policy_object><?php", "line 1, column 16: TEXT: expected <policy_object_attributes>, found \"<?php\": processing instructions are not read"),
        ("<policy_object><a:b/>", "line 1, column 16: TEXT: expected <policy_object_attributes>, found <a:b>: namespaces are not read"),
        ("<policy_object xmlns='x'>", "line 1, column 16: TEXT: expected no attribute of <policy_object>, found \"xmlns\": namespaces are not read"),
    ] {
        let refusal = read(text.as_bytes(), b"").unwrap_err();
        assert_eq!(refusal.message(text.as_bytes()), message);
    }
    let utf16 = b"\xff\xfe<\0p\0";
    let refusal = read(utf16, b"").unwrap_err();
    let message = "line 1, column 1: TEXT: expected <policy_object>, found the byte order mark of UTF-16: the text is UTF-16, and only UTF-8 is read: convert it with iconv -f UTF-16 -t UTF-8";
    assert_eq!(refusal.message(utf16), message);
    let policy = policy("<module_sep_duty_policy/>");
    for (lines, message) in [
        (
            "a b\rc d",
            "line 1, column 5: TEXT: expected a line feed after the carriage return, found \"c\"",
        ),
        (
            "a b\n\n",
            "line 2, column 1: TEXT: expected a task name, found the end of the line: there are no empty lines",
        ),
        (
            "a\tb\n",
            "line 1, column 2: TEXT: expected a space and a template name, found a tab",
        ),
    ] {
        let refusal = read(policy.as_bytes(), lines.as_bytes()).unwrap_err();
        assert_eq!(refusal.message(lines.as_bytes()), message);
    }
}

/// What XML or OPL allows but is left out here: the message gives the reason.
#[test]
fn what_is_left_out_on_purpose_says_why() {
    let head = "<policy_object><policy_object_attributes/><active_modules/><policy_object_modules>";
    let separation = format!("{head}<module_sep_duty_policy>");
    for (text, why) in [
        ("<\0?\0x\0", "the text is UTF-16, and only UTF-8 is read: convert it with iconv -f UTF-16 -t UTF-8"),
        ("\0<\0?", "the text is UTF-16, and only UTF-8 is read: convert it with iconv -f UTF-16 -t UTF-8"),
        (
            "<?xml version='1.0' encoding='ISO-8859-1'?>",
            "only UTF-8 is read, because names are compared byte by byte: convert the text with iconv -f ISO-8859-1 -t UTF-8, and change its declaration",
        ),
        (
            "<!DOCTYPE policy_object SYSTEM 'a' [<!ENTITY b 'c'>]>",
            "a DTD within the text may declare entities and values, which are not looked up: leave it out",
        ),
        (&format!("{head}<module_exo_context_policy/>"), "section 6.5 of OPL is not read, since the engine has no such rule"),
        (&format!("{head}<module_role_hierarchy_policy/>"), "role hierarchies (section 6.2) are read with --all-sections"),
        (&format!("{head}<module_sep_duty_rh_policy/>"), "separation of duty in role hierarchies (section 6.4) is read with --all-sections"),
        (&format!("{head}<module_chinese_wall_policy>"), "Chinese walls (section 6.6) are read with --all-sections"),
        (&format!("{separation}<strict_static_separation_of_duty/>"), "strict separation of duty (sssod) is not read, since the engine has no such rule"),
        (&format!("{head}\n<?xml version='1.0'?>"), "a declaration stands at the very start of a text, once"),
    ] {
        let refusal = read(text.as_bytes(), b"").unwrap_err();
        let said = refusal.message(text.as_bytes());
        assert!(said.contains(": TEXT: expected ") && said.ends_with(&format!(": {why}")), "{said}");
    }
    let text = format!("{head}<module_chinese_wall_policy/>");
    let refusal = read(text.as_bytes(), b"").unwrap_err();
    assert_eq!(
        refusal.element(text.as_bytes()),
        Some("module_chinese_wall_policy")
    );
}

/// Names and places do not depend on line ends or on a byte order mark.
#[test]
fn texts_as_other_programs_write_them() {
    let plain = policy(&core(&["a"], &[], &[], NO_ASSIGNMENTS));
    let marked =
        format!("\u{feff}<?xml version=\"1.0\" encoding=\"utf-8\" standalone=\"yes\"?>\r\n{plain}");
    let one = read(plain.as_bytes(), b"t w\nu w").unwrap();
    let other = read(marked.as_bytes(), b"\xef\xbb\xbft w\r\nu w\r\n").unwrap();
    assert_eq!(one.records(), other.records());
    for space in Space::ALL {
        assert_eq!(one.names(space), other.names(space));
    }
    let wrong = "\u{feff}<policy_objekt>";
    let said = read(wrong.as_bytes(), b"")
        .unwrap_err()
        .message(wrong.as_bytes());
    assert_eq!(
        said,
        "line 1, column 1: TEXT: expected <policy_object>, found <policy_objekt>"
    );
    let twice = "\u{feff}\u{feff}<policy_object>";
    let said = read(twice.as_bytes(), b"")
        .unwrap_err()
        .message(twice.as_bytes());
    let message = "line 1, column 1: TEXT: expected <policy_object>, found a byte order mark: it stands at the very start of a text, once";
    assert_eq!(said, message);
}
