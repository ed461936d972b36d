//! The outlook in words, as a table, and as objects.

use super::outlook::{Able, Finish, Outlook, Unable, CREWS};
use super::planning::{Row, Shift};
use crate::clash::{at, reason, Crew, More};
use crate::desk::{joined, Desk};
use crate::finish::few;
use crate::names::Sort;
use records::Set;
use serde_json::{json, Value};

/// `anna (tester)`, `2 of anna, bert and clara (tester)`.
fn some_of(desk: &Desk, count: usize, users: &[u16], with_roles: bool) -> String {
    let names = few(desk, Sort::User, users);
    let words = match (count, users.len()) {
        (_, 1) => names,
        (count, all) if count == all => names,
        (1, _) => format!("one of {names}"),
        (count, _) => format!("{count} of {names}"),
    };
    let roles = users
        .first()
        .map(|&user| desk.told.roles_of(user))
        .unwrap_or_default();
    match with_roles {
        true => format!("{words} ({})", desk.say_set(Sort::Role, roles)),
        false => words,
    }
}

fn crew(desk: &Desk, crew: &Crew, with_roles: bool) -> String {
    let parts = crew
        .iter()
        .map(|(count, users)| some_of(desk, *count, users, with_roles));
    joined(&parts.collect::<Vec<String>>())
}

fn clerks(count: usize) -> String {
    format!("{count} {}", if count == 1 { "clerk" } else { "clerks" })
}

/// What is said of an order and a shift.
pub fn lines(
    desk: &Desk,
    row: &Row,
    shift: &Shift,
    outlook: &Outlook,
    with_plan: bool,
) -> Vec<String> {
    let head = format!("{}, {}", row.name, shift.name);
    let every = if row.order.is_some() {
        "it"
    } else {
        "every order"
    };
    let (verdict, rest) = match &outlook.finish {
        Finish::Yes(able) => (
            format!("{every} can be finished"),
            yes(desk, able, with_plan),
        ),
        Finish::No(unable) => {
            let none = if row.order.is_some() {
                "it cannot"
            } else {
                "no order can"
            };
            (
                format!("{none} be finished"),
                no(desk, unable, &shift.clerks),
            )
        }
        Finish::Open(why) => ("not settled".to_string(), vec![why.clone()]),
    };
    let rest = rest.into_iter().map(|line| format!("  {line}"));
    [format!("{head}: {verdict}")]
        .into_iter()
        .chain(rest)
        .collect()
}

fn yes(desk: &Desk, able: &Able, with_plan: bool) -> Vec<String> {
    let crews = &able.crews;
    let least = if crews.least {
        ""
    } else {
        " or fewer, which is not settled"
    };
    let mut lines = vec![format!("smallest crew: {}{least}", clerks(crews.size))];
    lines.extend(
        crews
            .all
            .iter()
            .map(|of| format!("  {}", crew(desk, of, true))),
    );
    if crews.least && !crews.whole {
        lines.push(match crews.all.len() {
            CREWS => format!("  and more: only {CREWS} are listed"),
            _ => "  whether there are more is not settled".to_string(),
        });
    }
    lines.extend(away(desk, able));
    if with_plan {
        lines.push("a plan, each request granted by the engine:".to_string());
        lines.extend(able.plan.iter().map(|step| format!("  {step}")));
    }
    lines
}

fn away(desk: &Desk, able: &Able) -> Vec<String> {
    let away = &able.away;
    let any = match away.any {
        0 if away.settled => "nobody may be away".to_string(),
        any if away.settled && away.stops.is_some() => {
            format!("any {any} may be away, and no more")
        }
        any if away.settled => format!("any {any} may be away"),
        0 => "how many may be away is not settled".to_string(),
        any => format!("any {any} may be away; whether more may is not settled"),
    };
    vec![match &away.stops {
        None => any,
        Some(stops) => format!(
            "{any}: without {} {}",
            crew(desk, &stops.away, false),
            stops.short
        ),
    }]
}

fn no(desk: &Desk, unable: &Unable, users: &[u16]) -> Vec<String> {
    let mut lines = unable.because.clone();
    if let Some(clash) = &unable.clash {
        for core in &clash.cores {
            lines.push(format!("clash: {}", reason(desk, core, users)));
            lines.extend(core.iter().map(|&place| format!("  {}", at(desk, place))));
        }
        let (which, all) = match (&clash.any[..], clash.fewest.len()) {
            ([_], _) => ("without this rule it can be finished:", &clash.any),
            ([], _) => (
                "without these rules it can be finished, and without fewer rules it cannot:",
                &clash.fewest,
            ),
            _ => (
                "without any one of these rules it can be finished:",
                &clash.any,
            ),
        };
        lines.push(which.to_string());
        lines.extend(all.iter().map(|&place| format!("  {}", at(desk, place))));
    }
    lines.extend(
        unable
            .open
            .iter()
            .map(|why| format!("which rules clash: {why}")),
    );
    if !unable.circle {
        lines.extend(more(desk, &unable.more));
    }
    lines
}

fn more(desk: &Desk, more: &More) -> Vec<String> {
    let mut lines: Vec<String> = Vec::new();
    lines.extend(
        more.clerks
            .iter()
            .map(|of| format!("with {} more it can be finished", crew(desk, of, true))),
    );
    for (role, users) in &more.roles {
        let who = some_of(desk, 1, users, false);
        lines.push(format!(
            "if {who} had {}, it could be finished",
            desk.say(Sort::Role, *role)
        ));
    }
    for new in &more.new {
        let roles: Vec<String> = new
            .iter()
            .map(|&roles| format!("one with {}", desk.say_set(Sort::Role, roles)))
            .collect();
        let word = if new.len() == 1 {
            "a new clerk"
        } else {
            "new clerks"
        };
        lines.push(format!(
            "with {word} it could be finished: {}",
            joined(&roles)
        ));
    }
    if lines.is_empty() && !more.open {
        lines.push(
            "no clerk more, no role for those who are there and no new clerk is enough".to_string(),
        );
    }
    if more.open {
        lines.push(
            "of some clerks and roles it is not settled, since the bound was reached".to_string(),
        );
    }
    lines
}

/// A field of the table.
pub fn field(outlook: &Outlook) -> String {
    match &outlook.finish {
        Finish::Yes(able) if able.away.settled && able.away.stops.is_none() => {
            format!("yes, K >= {}", able.away.any)
        }
        Finish::Yes(able) if able.away.settled => format!("yes, K = {}", able.away.any),
        Finish::Yes(able) => format!("yes, K >= {}, not settled", able.away.any),
        Finish::No(_) => "no".to_string(),
        Finish::Open(_) => "not settled".to_string(),
    }
}

/// Columns of one width.
pub fn table(rows: &[Vec<String>]) -> Vec<String> {
    let columns = rows.iter().map(Vec::len).max().unwrap_or(0);
    let width = |at: usize| {
        rows.iter()
            .filter_map(|row| row.get(at))
            .map(|cell| cell.chars().count())
            .max()
    };
    let widths: Vec<usize> = (0..columns).map(|at| width(at).unwrap_or(0)).collect();
    let line = |row: &Vec<String>| {
        let cells = row
            .iter()
            .zip(&widths)
            .map(|(cell, &width)| format!("{cell:<width$}"));
        cells
            .collect::<Vec<String>>()
            .join("  ")
            .trim_end()
            .to_string()
    };
    rows.iter().map(line).collect()
}

fn crew_object(of: &Crew) -> Value {
    let one = |(count, users): &(usize, Vec<u16>)| json!({"count": count, "of": users});
    Value::Array(of.iter().map(one).collect())
}

fn records(desk: &Desk, places: &[usize]) -> Value {
    let one = |&place: &usize| json!({"record": place + 1, "line": desk.policy.line_of(place), "says": desk.policy.line(place)});
    Value::Array(places.iter().map(one).collect())
}

pub fn object(desk: &Desk, row: &Row, shift: &Shift, outlook: &Outlook) -> Value {
    let mut object = json!({
        "template": row.template, "order": row.order, "name": row.name, "shift": shift.name, "hours": shift.hours,
        "clerks": shift.clerks, "tries": outlook.tries,
    });
    match &outlook.finish {
        Finish::Yes(able) => {
            object["finish"] = json!("yes");
            object["plan"] = json!(able.plan);
            let crews: Vec<Value> = able.crews.all.iter().map(crew_object).collect();
            object["crews"] = json!({"size": able.crews.size, "settled": able.crews.least, "whole": able.crews.whole, "all": crews});
            let stops = able.away.stops.as_ref();
            object["away"] = json!({
                "any": able.away.any, "settled": able.away.settled, "stops": stops.map(|stops| crew_object(&stops.away)),
                "because": stops.map(|stops| &stops.because),
            });
        }
        Finish::No(unable) => {
            object["finish"] = json!("no");
            object["because"] = json!(unable.because);
            no_object(desk, unable, &shift.clerks, &mut object);
        }
        Finish::Open(why) => {
            object["finish"] = json!("open");
            object["because"] = json!([why]);
        }
    }
    object
}

fn no_object(desk: &Desk, unable: &Unable, users: &[u16], object: &mut Value) {
    if let Some(clash) = &unable.clash {
        let core = |core: &Vec<usize>| json!({"because": reason(desk, core, users), "records": records(desk, core)});
        object["clashes"] = Value::Array(clash.cores.iter().map(core).collect());
        object["without_all"] = records(desk, &clash.fewest);
        object["without_one"] = records(desk, &clash.any);
    }
    if let Some(open) = &unable.open {
        object["clashes_open"] = json!(open);
    }
    let more = &unable.more;
    let roles = |(role, users): &(u16, Vec<u16>)| json!({"role": role, "users": users});
    let new = |new: &Vec<Set>| {
        let members = |set: &Set| set.members().collect::<Vec<u8>>();
        json!(new.iter().map(members).collect::<Vec<_>>())
    };
    object["with"] = json!({
        "clerks": more.clerks.iter().map(crew_object).collect::<Vec<Value>>(),
        "roles": more.roles.iter().map(roles).collect::<Vec<Value>>(),
        "new_clerks": more.new.iter().map(new).collect::<Vec<Value>>(),
        "settled": !more.open,
    });
}
