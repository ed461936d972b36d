//! Orders that come in: a CSV file with a `time` and a `template` a row, a `name` where it has that column, and for each task's column its minutes.

use crate::holds::moment;
use crate::names::{Names, Sort};
use records::Record;

#[derive(Clone, PartialEq, Debug)]
pub struct Arrival {
    pub at: i64,
    pub template: u16,
    pub name: Option<String>,
    /// Minutes by task, where the row has them.
    pub minutes: Vec<(u16, f64)>,
}

enum Column {
    Time,
    Template,
    Name,
    Task(u16),
}

/// The orders of a file by their time, or every line that is wrong.
pub fn read(
    file: &str,
    text: &str,
    policy: &[Record],
    names: &Names,
) -> Result<Vec<Arrival>, Vec<String>> {
    let mut lines = (1..)
        .zip(text.lines())
        .filter(|(_, line)| !line.trim().is_empty());
    let head = lines.next().map_or("", |(_, line)| line);
    let columns: Result<Vec<Column>, String> = head
        .split(',')
        .map(|word| column(word.trim(), policy, names))
        .collect();
    let columns = columns.map_err(|why| vec![format!("{file}: line 1: {why}")])?;
    for (word, there) in [
        ("time", columns.iter().any(|c| matches!(c, Column::Time))),
        (
            "template",
            columns.iter().any(|c| matches!(c, Column::Template)),
        ),
    ] {
        if !there {
            return Err(vec![format!(
                "{file}: line 1: a column {word:?} is expected"
            )]);
        }
    }
    let (mut all, mut wrong) = (Vec::new(), Vec::new());
    for (number, line) in lines {
        match arrival(line, &columns, policy, names) {
            Ok(arrival) => all.push(arrival),
            Err(why) => wrong.push(format!("{file}: line {number}: {why}")),
        }
    }
    all.sort_by_key(|arrival: &Arrival| arrival.at);
    if wrong.is_empty() {
        Ok(all)
    } else {
        Err(wrong)
    }
}

fn column(word: &str, policy: &[Record], names: &Names) -> Result<Column, String> {
    match word {
        "time" => Ok(Column::Time),
        "template" => Ok(Column::Template),
        "name" => Ok(Column::Name),
        _ => {
            let task = names.given(Sort::Task, word);
            let task = task.filter(|&task| policy.iter().any(|r| r.kind() == 6 && r.a() == task));
            task.map(Column::Task).ok_or(format!(
                "{word:?} is no column: time, template, name and the policy's tasks are"
            ))
        }
    }
}

fn arrival(
    line: &str,
    columns: &[Column],
    policy: &[Record],
    names: &Names,
) -> Result<Arrival, String> {
    let cells: Vec<&str> = line.split(',').map(str::trim).collect();
    if cells.len() != columns.len() {
        return Err(format!(
            "{} fields, and the first line has {}",
            cells.len(),
            columns.len()
        ));
    }
    let mut found = Arrival {
        at: 0,
        template: 0,
        name: None,
        minutes: Vec::new(),
    };
    for (column, &cell) in columns.iter().zip(&cells) {
        match column {
            Column::Time => {
                found.at =
                    moment(cell).ok_or(format!("{cell:?} is no time: write 2026-11-15 20:31"))?
            }
            Column::Template => {
                let template = names.given(Sort::Template, cell);
                let template = template
                    .filter(|&template| policy.iter().any(|r| r.kind() == 6 && r.b() == template));
                found.template =
                    template.ok_or(format!("there is no template {cell:?} with a task"))?;
            }
            Column::Name if cell.is_empty() => {}
            Column::Name => found.name = Some(cell.to_string()),
            Column::Task(_) if cell.is_empty() => {}
            Column::Task(task) => found.minutes.push((*task, minutes(cell)?)),
        }
    }
    Ok(found)
}

/// A number of minutes, 0 or more.
pub fn minutes(word: &str) -> Result<f64, String> {
    let minutes = word.parse::<f64>().ok();
    let minutes = minutes.filter(|minutes| (0.0..1e6).contains(minutes));
    minutes.ok_or(format!("{word:?} is no number of minutes"))
}

#[cfg(test)]
mod tests {
    use super::*;

    #[test]
    fn orders_are_read_by_their_columns() {
        let policy = [Record::task(0, 3), Record::task(1, 3)];
        let mut names = Names::default();
        names.give(Sort::Task, 1, b"sign");
        names.give(Sort::Template, 3, b"line");
        let read = |text| read("orders.csv", text, &policy, &names);
        let all =
            read("time,template,name,sign\n2026-01-02 03:04:05,line,b,7.5\n2026-01-01 00:00,3,,\n")
                .unwrap();
        assert_eq!(
            (all[0].at, all[0].template, all[0].name.as_deref()),
            (1_767_225_600_000_000, 3, None)
        );
        assert_eq!(
            (
                all[1].at - all[0].at,
                all[1].name.as_deref(),
                &all[1].minutes[..]
            ),
            (97_445_000_000, Some("b"), &[(1, 7.5)][..])
        );
        let wrong =
            read("time,template\nsoon,line\n2026-01-01 00:00,x\n2026-01-01 00:00\n").unwrap_err();
        let said = [
            "line 2: \"soon\" is no time",
            "line 3: there is no template \"x\"",
            "line 4: 1 fields, and the first line has 2",
        ];
        assert!(
            wrong
                .iter()
                .zip(said)
                .all(|(line, said)| line.contains(said))
                && wrong.len() == 3,
            "{wrong:?}"
        );
        assert!(read("time,templates\n").unwrap_err()[0].contains("\"templates\" is no column"));
        assert!(read("time\n").unwrap_err()[0].contains("a column \"template\" is expected"));
    }
}
