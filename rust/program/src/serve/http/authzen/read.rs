//! What is asked, as a body has it: who, what, with which thing. What an evaluation leaves out stands above all of them.

use super::super::problem::Problem;
use serde_json::Value;

/// What is asked of one.
#[derive(Clone, Debug)]
pub struct Evaluation {
    pub subject: Entity,
    pub action: Action,
    pub resource: Entity,
    /// The task within which an object is used, `order/task`.
    pub task: Option<String>,
}

/// Something of a type, by its id; a search may leave the id open.
#[derive(Clone, Debug)]
pub struct Entity {
    pub kind: String,
    pub id: String,
}

#[derive(Clone, Debug)]
pub struct Action {
    pub name: String,
    /// The operation of `check` and `commit`.
    pub operation: Option<String>,
}

/// A member that must be there: of an evaluation itself, or of what stands above all of them.
fn member<'a>(
    value: &'a Value,
    above: &'a Value,
    name: &str,
    at: &str,
) -> Result<&'a Value, Problem> {
    let own = value.get(name).or_else(|| above.get(name));
    let Some(member) = own else {
        return Err(Problem::wrong_at(at, format!("\"{name}\" is missing")));
    };
    match member.is_object() {
        true => Ok(member),
        false => Err(Problem::wrong_at(
            &format!("{at}/{name}"),
            format!("\"{name}\" is an object"),
        )),
    }
}

pub fn text(value: &Value, name: &str, at: &str) -> Result<String, Problem> {
    match value.get(name) {
        Some(Value::String(text)) => Ok(text.clone()),
        Some(_) => Err(Problem::wrong_at(
            &format!("{at}/{name}"),
            format!("\"{name}\" is a text"),
        )),
        None => Err(Problem::wrong_at(at, format!("\"{name}\" is missing"))),
    }
}

fn property(value: &Value, name: &str, at: &str) -> Result<Option<String>, Problem> {
    match value.get("properties") {
        None => Ok(None),
        Some(properties) if properties.get(name).is_none() => Ok(None),
        Some(properties) => text(properties, name, &format!("{at}/properties")).map(Some),
    }
}

/// An entity of a value; its id may be missing where it is searched for.
fn entity(value: &Value, at: &str, has_id: bool) -> Result<Entity, Problem> {
    Ok(Entity {
        kind: text(value, "type", at)?,
        id: if has_id {
            text(value, "id", at)?
        } else {
            String::new()
        },
    })
}

fn action(value: &Value, at: &str) -> Result<Action, Problem> {
    Ok(Action {
        name: text(value, "name", at)?,
        operation: property(value, "operation", at)?,
    })
}

/// What is left open by a search.
#[derive(Clone, Copy, PartialEq, Eq)]
pub enum Open {
    Nothing,
    Subject,
    Resource,
    Action,
}

pub fn read(value: &Value, above: &Value, at: &str, open: Open) -> Result<Evaluation, Problem> {
    if !value.is_object() {
        return Err(Problem::wrong_at(
            at,
            "expected an object with subject, action and resource",
        ));
    }
    let of = |name: &str| member(value, above, name, at);
    let under = |name: &str| format!("{at}/{name}");
    let action = match open {
        Open::Action => Action {
            name: String::new(),
            operation: None,
        },
        _ => action(of("action")?, &under("action"))?,
    };
    let resource = of("resource")?;
    Ok(Evaluation {
        subject: entity(of("subject")?, &under("subject"), open != Open::Subject)?,
        action,
        resource: entity(resource, &under("resource"), open != Open::Resource)?,
        task: property(resource, "task", &under("resource"))?,
    })
}
