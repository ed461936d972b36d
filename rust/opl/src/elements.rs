//! The fifty accepted elements of OPL/XML: attributes and content models as in the report's DTDs (5.2, 6.1, 6.3, 6.8, 6.9, 6.11
//! to 6.13), without the elements of other sections. With all sections, nine more of 6.2, 6.4 and 6.6 are accepted.

use Bound::{Many, One, Optional, Several};
use Tag::*;

#[derive(Clone, Copy, PartialEq, Eq, Debug)]
#[repr(u8)]
pub(crate) enum Tag {
    PolicyObject,
    PolicyObjectAttributes,
    Attribute,
    ActiveModules,
    ActiveModule,
    PolicyObjectModules,
    RbacCore,
    Users,
    User,
    Roles,
    Role,
    Permissions,
    Permission,
    Operation,
    Object,
    UserAssignments,
    UserAssignment,
    PermissionAssignments,
    PermissionAssignment,
    SepDuty,
    StaticSeparation,
    DynamicSeparation,
    CriticalRoleSets,
    CriticalRoleSet,
    CriticalRoles,
    CriticalRole,
    WfCore,
    TaskPermissionAssignments,
    TaskPermissionAssignment,
    TaskRoleAssignments,
    TaskRoleAssignment,
    WfSepDuty,
    Hdsodsl,
    CriticalWorkflowTemplate,
    Hdsod,
    CriticalTasksSet,
    CriticalTask,
    Hdsodtp,
    HdsodtpPartitioning,
    HdsodtpPartition,
    PartitionTask,
    WfCardinality,
    TaskCardinalities,
    TaskCardinality,
    WfBindDuty,
    BindOfDutyConstraints,
    BindOfDutyConstraint,
    WfPrereqStep,
    PrereqSteps,
    PrereqStep,
    /// The root and its modules with all sections.
    WidePolicyObject,
    WidePolicyObjectModules,
    RoleHierarchyModule,
    RoleHierarchy,
    InheritRole,
    SepDutyRh,
    ChineseWall,
    CwPartitions,
    CwPartition,
    PartitionObject,
    Uocws,
}

impl Tag {
    pub fn element(self) -> &'static Element {
        &ELEMENTS[self as usize]
    }
}

/// How often a child may occur at its position in a sequence.
#[derive(Clone, Copy, PartialEq, Eq, Debug)]
pub(crate) enum Bound {
    One,
    /// `?`
    Optional,
    /// `*`
    Many,
    /// `+`
    Several,
}

impl Bound {
    fn repeats(self) -> bool {
        matches!(self, Many | Several)
    }

    fn required(self) -> bool {
        matches!(self, One | Several)
    }
}

/// The children of an element, in order.
type Children = &'static [(Tag, Bound)];

#[derive(Clone, Copy, Debug)]
pub(crate) enum Content {
    Empty,
    Sequence(Children),
    /// Any of these in any order, at least one.
    Choice(&'static [Tag]),
}

/// How the value of an attribute is checked.
#[derive(Clone, Copy, PartialEq, Eq, Debug)]
pub(crate) enum Sort {
    /// A name of at least one byte.
    Id,
    /// A number up to 255.
    Cardinality,
    /// Not checked.
    Free,
}

#[derive(Clone, Copy, Debug)]
pub(crate) struct Attribute {
    pub name: &'static str,
    pub required: bool,
    pub sort: Sort,
}

#[derive(Debug)]
pub(crate) struct Element {
    pub tag: Tag,
    pub name: &'static str,
    pub attributes: &'static [Attribute],
    pub content: Content,
}

/// The largest number of attributes of an element.
pub(crate) const ATTRIBUTES: usize = 3;

const fn id(name: &'static str) -> Attribute {
    attribute(name, true, Sort::Id)
}

const fn free(name: &'static str, required: bool) -> Attribute {
    attribute(name, required, Sort::Free)
}

const fn attribute(name: &'static str, required: bool, sort: Sort) -> Attribute {
    Attribute {
        name,
        required,
        sort,
    }
}

const CARDINALITY: Attribute = attribute("cardinality", true, Sort::Cardinality);
const NAME: Attribute = free("name", false);
const DESCRIPTION: Attribute = free("description", false);

const fn element(
    tag: Tag,
    name: &'static str,
    attributes: &'static [Attribute],
    content: Content,
) -> Element {
    Element {
        tag,
        name,
        attributes,
        content,
    }
}

/// An element without attributes that only contains others.
const fn holder(tag: Tag, name: &'static str, children: Children) -> Element {
    element(tag, name, &[], Content::Sequence(children))
}

const fn empty(tag: Tag, name: &'static str, attributes: &'static [Attribute]) -> Element {
    element(tag, name, attributes, Content::Empty)
}

/// The elements, indexed by tag.
static ELEMENTS: [Element; 61] = [
    holder(
        PolicyObject,
        "policy_object",
        &[
            (PolicyObjectAttributes, One),
            (ActiveModules, One),
            (PolicyObjectModules, One),
        ],
    ),
    holder(
        PolicyObjectAttributes,
        "policy_object_attributes",
        &[(Attribute, Many)],
    ),
    empty(
        Attribute,
        "attribute",
        &[free("key", true), free("value", true)],
    ),
    holder(ActiveModules, "active_modules", &[(ActiveModule, Many)]),
    empty(ActiveModule, "active_module", &[free("name", true)]),
    element(
        PolicyObjectModules,
        "policy_object_modules",
        &[],
        Content::Choice(&[
            RbacCore,
            SepDuty,
            WfCore,
            WfSepDuty,
            WfCardinality,
            WfBindDuty,
            WfPrereqStep,
        ]),
    ),
    holder(
        RbacCore,
        "module_rbac_core_policy",
        &[
            (Users, One),
            (Roles, One),
            (Permissions, One),
            (UserAssignments, One),
            (PermissionAssignments, One),
        ],
    ),
    holder(Users, "users", &[(User, Many)]),
    empty(User, "user", &[id("user_id")]),
    holder(Roles, "roles", &[(Role, Many)]),
    empty(
        Role,
        "role",
        &[id("role_id"), free("role_description", false)],
    ),
    holder(Permissions, "permissions", &[(Permission, Many)]),
    element(
        Permission,
        "permission",
        &[id("permission_id")],
        Content::Sequence(&[(Operation, One), (Object, One)]),
    ),
    empty(Operation, "operation", &[id("operation_id")]),
    empty(Object, "object", &[id("object_id")]),
    holder(
        UserAssignments,
        "user_assignments",
        &[(UserAssignment, Many)],
    ),
    empty(
        UserAssignment,
        "user_assignment",
        &[id("user_id"), id("role_id")],
    ),
    holder(
        PermissionAssignments,
        "permission_assignments",
        &[(PermissionAssignment, Many)],
    ),
    empty(
        PermissionAssignment,
        "permission_assignment",
        &[id("permission_id"), id("role_id")],
    ),
    holder(
        SepDuty,
        "module_sep_duty_policy",
        &[(StaticSeparation, Optional), (DynamicSeparation, Optional)],
    ),
    holder(
        StaticSeparation,
        "static_separation_of_duty",
        &[(CriticalRoleSets, One)],
    ),
    holder(
        DynamicSeparation,
        "dynamic_separation_of_duty",
        &[(CriticalRoleSets, One)],
    ),
    holder(
        CriticalRoleSets,
        "critical_role_sets",
        &[(CriticalRoleSet, Many)],
    ),
    element(
        CriticalRoleSet,
        "critical_role_set",
        &[CARDINALITY, NAME, DESCRIPTION],
        Content::Sequence(&[(CriticalRoles, One)]),
    ),
    holder(CriticalRoles, "critical_roles", &[(CriticalRole, Several)]),
    empty(CriticalRole, "critical_role", &[id("role_id")]),
    holder(
        WfCore,
        "module_wf_core_policy",
        &[(TaskPermissionAssignments, One), (TaskRoleAssignments, One)],
    ),
    holder(
        TaskPermissionAssignments,
        "task_permission_assignments",
        &[(TaskPermissionAssignment, Many)],
    ),
    empty(
        TaskPermissionAssignment,
        "task_permission_assignment",
        &[id("task_id"), id("permission_id")],
    ),
    holder(
        TaskRoleAssignments,
        "task_role_assignments",
        &[(TaskRoleAssignment, Many)],
    ),
    empty(
        TaskRoleAssignment,
        "task_role_assignment",
        &[id("task_id"), id("role_id")],
    ),
    holder(
        WfSepDuty,
        "module_wf_sep_duty_policy",
        &[(Hdsodsl, Optional), (Hdsod, Optional), (Hdsodtp, Optional)],
    ),
    holder(Hdsodsl, "hdsodsl", &[(CriticalWorkflowTemplate, Many)]),
    empty(
        CriticalWorkflowTemplate,
        "critical_workflow_template",
        &[id("template_id")],
    ),
    holder(Hdsod, "hdsod", &[(CriticalTasksSet, Many)]),
    element(
        CriticalTasksSet,
        "critical_tasks_set",
        &[CARDINALITY, NAME, DESCRIPTION],
        Content::Sequence(&[(CriticalTask, Several)]),
    ),
    empty(CriticalTask, "critical_task", &[id("task_id")]),
    holder(Hdsodtp, "hdsodtp", &[(HdsodtpPartitioning, Many)]),
    element(
        HdsodtpPartitioning,
        "hdsodtp_partitioning",
        &[NAME, DESCRIPTION],
        Content::Sequence(&[(HdsodtpPartition, Many)]),
    ),
    element(
        HdsodtpPartition,
        "hdsodtp_partition",
        &[NAME, DESCRIPTION],
        Content::Sequence(&[(PartitionTask, Several)]),
    ),
    empty(PartitionTask, "partition_task", &[id("task_id")]),
    holder(
        WfCardinality,
        "module_wf_cardinality_policy",
        &[(TaskCardinalities, One)],
    ),
    holder(
        TaskCardinalities,
        "task_cardinalities",
        &[(TaskCardinality, Many)],
    ),
    empty(
        TaskCardinality,
        "task_cardinality",
        &[id("task_id"), CARDINALITY],
    ),
    holder(
        WfBindDuty,
        "module_wf_bind_duty_policy",
        &[(BindOfDutyConstraints, One)],
    ),
    holder(
        BindOfDutyConstraints,
        "bind_of_duty_constraints",
        &[(BindOfDutyConstraint, Many)],
    ),
    empty(
        BindOfDutyConstraint,
        "bind_of_duty_constraint",
        &[id("task_id"), id("bound_task_id")],
    ),
    holder(
        WfPrereqStep,
        "module_wf_prereq_step_policy",
        &[(PrereqSteps, One)],
    ),
    holder(PrereqSteps, "prereq_steps", &[(PrereqStep, Many)]),
    empty(
        PrereqStep,
        "prereq_step",
        &[id("prereq_task_id"), id("task_id")],
    ),
    holder(
        WidePolicyObject,
        "policy_object",
        &[
            (PolicyObjectAttributes, One),
            (ActiveModules, One),
            (WidePolicyObjectModules, One),
        ],
    ),
    element(
        WidePolicyObjectModules,
        "policy_object_modules",
        &[],
        Content::Choice(&[
            RbacCore,
            RoleHierarchyModule,
            SepDuty,
            SepDutyRh,
            ChineseWall,
            WfCore,
            WfSepDuty,
            WfCardinality,
            WfBindDuty,
            WfPrereqStep,
        ]),
    ),
    holder(
        RoleHierarchyModule,
        "module_role_hierarchy_policy",
        &[(RoleHierarchy, One)],
    ),
    holder(RoleHierarchy, "role_hierarchy", &[(InheritRole, Many)]),
    empty(
        InheritRole,
        "inherit_role",
        &[id("upper_role"), id("lower_role")],
    ),
    holder(
        SepDutyRh,
        "module_sep_duty_rh_policy",
        &[(StaticSeparation, Optional), (DynamicSeparation, Optional)],
    ),
    holder(
        ChineseWall,
        "module_chinese_wall_policy",
        &[(CwPartitions, One), (Uocws, One)],
    ),
    holder(CwPartitions, "cw_partitions", &[(CwPartition, Many)]),
    holder(CwPartition, "cw_partition", &[(PartitionObject, Many)]),
    empty(PartitionObject, "partition_object", &[id("object_id")]),
    // What users have accessed is not policy, so the children that document 000 gives this element are not read.
    holder(Uocws, "uocws", &[]),
];

/// How far the children of an open element have been read: the position in its sequence, and whether there is a child at it.
#[derive(Clone, Copy, Default, Debug)]
pub(crate) struct Progress {
    step: usize,
    filled: bool,
}

impl Progress {
    /// The child with this name, if it may come next; records that it was read.
    #[inline]
    pub fn take(&mut self, content: &Content, named: impl Fn(&Element) -> bool) -> Option<Tag> {
        let found = match content {
            Content::Empty => None,
            Content::Choice(children) => {
                let child = children.iter().find(|child| named(child.element()));
                child.map(|&child| (0, child))
            }
            Content::Sequence(children) => self
                .reach(children)
                .find(|&(step, child)| self.has_room(children, step) && named(child.element())),
        };
        let (step, child) = found?;
        *self = Progress { step, filled: true };
        Some(child)
    }

    fn has_child(self, step: usize) -> bool {
        self.filled && step == self.step
    }

    fn lacks(self, children: Children, step: usize) -> bool {
        children[step].1.required() && !self.has_child(step)
    }

    /// The positions up to and including the first that still needs a child.
    fn reach(self, children: Children) -> impl Iterator<Item = (usize, Tag)> {
        let steps = self.step..children.len();
        let past = move |step: usize| step == self.step || !self.lacks(children, step - 1);
        let reached = steps.take_while(move |&step| past(step));
        reached.map(|step| (step, children[step].0))
    }

    fn has_room(self, children: Children, step: usize) -> bool {
        !self.has_child(step) || children[step].1.repeats()
    }

    /// The first required child that is missing.
    pub fn missing(self, content: &Content) -> Option<Tag> {
        match content {
            Content::Empty => None,
            Content::Choice(children) => (!self.filled).then_some(children[0]),
            Content::Sequence(children) => {
                let mut steps = self.step..children.len();
                let step = steps.find(|&step| self.lacks(children, step))?;
                Some(children[step].0)
            }
        }
    }

    /// Every child that may come next.
    pub fn allowed(self, content: &Content) -> Vec<Tag> {
        match content {
            Content::Empty => Vec::new(),
            Content::Choice(children) => children.to_vec(),
            Content::Sequence(children) => self
                .reach(children)
                .filter(|&(step, _)| self.has_room(children, step))
                .map(|(_, child)| child)
                .collect(),
        }
    }
}

#[cfg(test)]
mod tests;
