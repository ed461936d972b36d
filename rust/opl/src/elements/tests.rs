//! The table of elements, and which element may follow which.

use super::*;

#[test]
fn the_table_is_by_tag_and_has_each_name_once() {
    for (at, element) in ELEMENTS.iter().enumerate() {
        assert_eq!(element.tag as usize, at, "{}", element.name);
        assert!(element.attributes.len() <= ATTRIBUTES);
        let same = ELEMENTS.iter().filter(|other| other.name == element.name);
        let twice = matches!(element.name, "policy_object" | "policy_object_modules");
        assert_eq!(same.count(), 1 + usize::from(twice), "{}", element.name);
        for attribute in element.attributes {
            let is_id = attribute.name.ends_with("_id")
                || matches!(attribute.name, "upper_role" | "lower_role");
            assert_eq!(is_id, attribute.sort == Sort::Id, "{}", attribute.name);
        }
    }
}

#[test]
fn no_element_stands_deeper_than_eight() {
    fn depth(tag: Tag) -> usize {
        let below = match tag.element().content {
            Content::Empty => None,
            Content::Choice(children) => children.iter().map(|&c| depth(c)).max(),
            Content::Sequence(children) => children.iter().map(|&(c, _)| depth(c)).max(),
        };
        1 + below.unwrap_or(0)
    }
    assert_eq!((depth(PolicyObject), depth(WidePolicyObject)), (8, 8));
}

/// The names of the elements that may follow these children, and whether the parent may end there.
fn after(tag: Tag, names: &[&str]) -> Option<(Vec<&'static str>, bool)> {
    let content = &tag.element().content;
    let mut progress = Progress::default();
    for name in names {
        progress.take(content, |child| child.name == *name)?;
    }
    let allowed = progress.allowed(content);
    let names = allowed.iter().map(|child| child.element().name).collect();
    Some((names, progress.missing(content).is_none()))
}

#[test]
fn children_stand_in_their_order_and_number() {
    assert_eq!(
        after(PolicyObject, &[]),
        Some((vec!["policy_object_attributes"], false))
    );
    assert_eq!(after(Users, &["user", "user"]), Some((vec!["user"], true)));
    let (rest, ends) = after(WfSepDuty, &["hdsod"]).unwrap();
    assert_eq!((&rest[..], ends), (&["hdsodtp"][..], true));
    assert_eq!(after(WfSepDuty, &["hdsod", "hdsod"]), None);
    assert_eq!(after(WfSepDuty, &["hdsodtp", "hdsodsl"]), None);
    let (rest, ends) = after(CriticalRoles, &[]).unwrap();
    assert_eq!((&rest[..], ends), (&["critical_role"][..], false));
    assert_eq!(
        after(Permission, &["operation"]),
        Some((vec!["object"], false))
    );
    assert_eq!(
        after(Permission, &["operation", "object"]),
        Some((vec![], true))
    );
    let (rest, ends) = after(PolicyObjectModules, &["module_wf_core_policy"]).unwrap();
    assert_eq!((rest.len(), ends), (7, true));
    assert_eq!(after(User, &["user"]), None);
}
