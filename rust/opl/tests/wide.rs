//! All sections that the engine supports: senior roles (6.2), separation in hierarchies (6.4) and walls (6.6).

use opl::{
    read, read_sections, translate_sections, Answer, Policy, Refusal, Sections, NAMES, TEXT,
};

fn policy(modules: &str) -> String {
    format!(
        "<policy_object><policy_object_attributes/><active_modules/><policy_object_modules>{modules}</policy_object_modules></policy_object>"
    )
}

const CORE: &str = "<module_rbac_core_policy><users/><roles><role role_id='lead'/><role role_id='clerk'/></roles>\
    <permissions><permission permission_id='p'><operation operation_id='open'/><object object_id='book_b'/></permission></permissions>\
    <user_assignments/><permission_assignments/></module_rbac_core_policy>";

fn all(text: &str) -> Result<Policy<'_>, Refusal> {
    read_sections(text.as_bytes(), b"", Sections::All)
}

/// The kind, a, b and c of each record of kinds 9 and above.
fn rules(text: &str) -> Vec<[u16; 4]> {
    let records = all(text)
        .unwrap_or_else(|why| panic!("{}", why.message(text.as_bytes())))
        .records();
    let half = |r: &[u8], at: usize| u16::from_le_bytes([r[at], r[at + 1]]);
    let fields = |r: &[u8]| [r[0].into(), half(r, 2), half(r, 4), half(r, 6)];
    records
        .chunks(16)
        .map(fields)
        .filter(|fields| fields[0] >= 9)
        .collect()
}

#[test]
fn senior_roles_are_upper_and_lower() {
    let seniors = "<module_role_hierarchy_policy><role_hierarchy><inherit_role lower_role='clerk' upper_role='lead'/></role_hierarchy></module_role_hierarchy_policy>";
    // The rule may also come before the declarations of its roles.
    let text = policy(&format!("{seniors}{CORE}"));
    assert_eq!(rules(&text), [[17, 0, 1, 0]]);
    let refused = read(text.as_bytes(), b"").unwrap_err();
    assert_eq!(
        refused.element(text.as_bytes()),
        Some("module_role_hierarchy_policy")
    );
    let unknown = policy(&format!("{CORE}{}", seniors.replace("'lead'", "'boss'")));
    let said = all(&unknown).unwrap_err().message(unknown.as_bytes());
    assert!(
        said.ends_with("NAMES: a role declared nowhere, \"boss\""),
        "{said}"
    );
}

#[test]
fn separation_in_hierarchies_is_separation() {
    let sets = |of: &str, n: u8| {
        format!(
            "<{of}><critical_role_sets><critical_role_set cardinality='{n}'><critical_roles><critical_role role_id='lead'/>\
             <critical_role role_id='clerk'/></critical_roles></critical_role_set></critical_role_sets></{of}>"
        )
    };
    let (fixed, active) = (
        sets("static_separation_of_duty", 1),
        sets("dynamic_separation_of_duty", 1),
    );
    let text = policy(&format!(
        "{CORE}<module_sep_duty_rh_policy>{fixed}{active}</module_sep_duty_rh_policy>"
    ));
    let same = text.replace("_rh_policy", "_policy");
    assert_eq!(
        all(&text).unwrap().records(),
        read(same.as_bytes(), b"").unwrap().records()
    );
    for other in [
        "strict_static_separation_of_duty",
        "static_separation_of_duty_attached_to_permissions",
    ] {
        let text = policy(&format!(
            "<module_sep_duty_rh_policy><{other}/></module_sep_duty_rh_policy>"
        ));
        refused_at(&text, &format!("<{other}"));
    }
}

/// Checks that the text is refused with TEXT where this piece begins.
#[track_caller]
fn refused_at(text: &str, piece: &str) {
    let answer = translate_sections(text.as_bytes(), b"", &mut [0; 1024], Sections::All);
    let place = text.find(piece).unwrap() + 1;
    let expected = Answer {
        reply: TEXT,
        text: 1,
        figure: place as u64,
    };
    assert_eq!(answer, expected);
}

fn wall(blocks: &str) -> String {
    format!("<module_chinese_wall_policy><cw_partitions>{blocks}</cw_partitions><uocws/></module_chinese_wall_policy>")
}

fn block(objects: &[&str]) -> String {
    let object = |name: &&str| format!("<partition_object object_id='{name}'/>");
    let objects: String = objects.iter().map(object).collect();
    format!("<cw_partition>{objects}</cw_partition>")
}

#[test]
fn walls_and_blocks_are_numbered_as_they_stand() {
    let first = wall(
        &[
            block(&["book_a", "mails_a"]),
            block(&[]),
            block(&["book_b"]),
        ]
        .concat(),
    );
    let second = wall("");
    let third = wall(&block(&["book_a"]));
    // A wall declares its objects in text order: those of the first wall before those of the core.
    let text = policy(&format!("{first}{CORE}{second}{third}"));
    assert_eq!(
        rules(&text),
        [[18, 0, 0, 0], [18, 0, 0, 1], [18, 0, 2, 2], [18, 2, 0, 0]]
    );
    let names = all(&text).unwrap();
    assert_eq!(
        names.names(opl::Space::Object),
        [&b"book_a"[..], b"mails_a", b"book_b"]
    );
}

#[test]
fn the_17th_wall_and_the_17th_block_are_names() {
    let judged = |text: &str| {
        all(text)
            .err()
            .map(|why| (why.answer().reply, why.message(text.as_bytes())))
    };
    assert_eq!(judged(&policy(&wall("").repeat(16))), None);
    let (reply, said) = judged(&policy(&wall("").repeat(17))).unwrap();
    assert!(
        reply == NAMES && said.ends_with("NAMES: more than 16 walls"),
        "{said}"
    );
    assert_eq!(
        judged(&policy(&wall(&block(&[]).repeat(16)).repeat(2))),
        None
    );
    let (reply, said) = judged(&policy(&wall(&block(&[]).repeat(17)))).unwrap();
    assert!(
        reply == NAMES && said.ends_with("NAMES: more than 16 blocks in a wall"),
        "{said}"
    );
}

#[test]
fn who_has_touched_what_is_no_policy() {
    let touched = "<uocws><uocw user_id='u' object_id='o'/></uocws>";
    let text = policy(&wall("").replace("<uocws/>", touched));
    refused_at(&text, "<uocw ");
    let said = all(&text).unwrap_err().message(text.as_bytes());
    let why = "expected </uocws>, found <uocw>: a policy does not say who has touched what: commits bind users to walls while the desk is at work";
    assert!(said.ends_with(why), "{said}");
    refused_at(
        &policy(&wall("").replace("<uocws/>", "")),
        "</module_chinese_wall_policy",
    );
    let empty = policy(&wall("").replace("<uocws/>", "<uocws><!-- none --> </uocws>"));
    assert!(all(&empty).is_ok());
    let nameless = "<role_hierarchy><inherit_role upper_role='' lower_role='a'/></role_hierarchy>";
    refused_at(
        &policy(&format!(
            "<module_role_hierarchy_policy>{nameless}</module_role_hierarchy_policy>"
        )),
        "' lower_role",
    );
}

#[test]
fn other_sections_stay_refused() {
    for other in [
        "module_exo_context_policy",
        "module_obj_sep_duty_policy",
        "module_wf_sep_duty_cc_policy",
    ] {
        refused_at(&policy(&format!("<{other}/>")), &format!("<{other}"));
    }
}
