//! The element or line from which each record comes, and the modules that are listed as active but are missing.

use opl::{missing_modules, origins, read, Text};

const LOAN: &[u8] = include_bytes!("../../../examples/opl_loan/policy.xml");
const TASKS: &[u8] = include_bytes!("../../../examples/opl_loan/tasks.txt");

/// The text at a record's origin: the element's name, or the line.
fn at(text: &[u8], place: usize) -> &str {
    let rest = std::str::from_utf8(&text[place - 1..]).unwrap();
    match rest.strip_prefix('<') {
        Some(tag) => tag
            .split(|c: char| c.is_whitespace() || c == '>')
            .next()
            .unwrap(),
        None => rest.lines().next().unwrap(),
    }
}

#[test]
fn each_record_of_the_loan_has_its_element() {
    let policy = read(LOAN, TASKS).unwrap();
    let origins = origins(LOAN, TASKS);
    assert_eq!(origins.len(), policy.count());
    let lines: Vec<&str> = std::str::from_utf8(TASKS).unwrap().lines().collect();
    for (record, origin) in policy.records().chunks(16).zip(&origins) {
        let expected = match record[0] {
            1 => "user",
            2 => "role",
            3 => "permission",
            4 => "user_assignment",
            5 => "permission_assignment",
            6 => lines[usize::from(record[2])],
            7 => "task_role_assignment",
            8 => "task_permission_assignment",
            9 | 10 => "critical_role_set",
            11 => "critical_tasks_set",
            12 => "hdsodtp_partition",
            13 => "critical_workflow_template",
            14 => "task_cardinality",
            15 => "bind_of_duty_constraint",
            _ => "prereq_step",
        };
        let text = match origin.text {
            Text::Policy => LOAN,
            Text::Tasks => TASKS,
        };
        assert_eq!(at(text, origin.place), expected);
        assert_eq!(record[0] == 6, origin.text == Text::Tasks);
    }
}

#[test]
fn static_and_dynamic_sets_comments_and_several_modules() {
    let module = |of: &str| {
        format!(
            "<module_sep_duty_policy><{of}><critical_role_sets><!-- <critical_role_set cardinality='1'> --><critical_role_set \
             cardinality='1'><critical_roles><critical_role role_id='r>'/></critical_roles></critical_role_set></critical_role_sets></{of}></module_sep_duty_policy>"
        )
    };
    let (fixed, active) = ("static_separation_of_duty", "dynamic_separation_of_duty");
    let modules = [module(active), module(fixed), module(active)].concat();
    let policy = format!(
        "<policy_object><policy_object_attributes/><active_modules/><policy_object_modules><module_rbac_core_policy><users/>\
         <roles><role role_id='r>'/></roles><permissions/><user_assignments/><permission_assignments/></module_rbac_core_policy>\
         {modules}</policy_object_modules></policy_object>"
    );
    let kinds: Vec<u8> = read(policy.as_bytes(), b"")
        .unwrap()
        .records()
        .chunks(16)
        .map(|r| r[0])
        .collect();
    assert_eq!(kinds, [2, 9, 10, 10]);
    let origins = origins(policy.as_bytes(), b"");
    let all: Vec<usize> = policy
        .match_indices("--><critical_role_set ")
        .map(|(at, _)| at + 4)
        .collect();
    let places: Vec<usize> = origins[1..].iter().map(|origin| origin.place).collect();
    assert_eq!(places, [all[1], all[0], all[2]]);
}

#[test]
fn modules_that_are_active_and_not_there() {
    let policy = b"<policy_object><policy_object_attributes/><active_modules>
<active_module name='module_wf_core_policy'/><active_module name=\"module_sep_duty_policy\"/><active_module name='RBACStandard'/>
<active_module name='module_wf_coer_policy'/><active_module name='module_exo_context_policy'/></active_modules>
<policy_object_modules><module_wf_core_policy><task_permission_assignments/><task_role_assignments/></module_wf_core_policy></policy_object_modules></policy_object>";
    assert!(read(policy, b"").is_ok());
    let missing: Vec<(&[u8], bool)> = missing_modules(policy)
        .iter()
        .map(|m| (m.name, m.known))
        .collect();
    let expected: [(&[u8], bool); 3] = [
        (b"module_sep_duty_policy", true),
        (b"module_wf_coer_policy", false),
        (b"module_exo_context_policy", true),
    ];
    assert_eq!(missing, expected);
    for module in missing_modules(policy) {
        assert!(policy[module.place - 1..].starts_with(b"<active_module name="));
    }
    assert!(missing_modules(LOAN).is_empty());
}
