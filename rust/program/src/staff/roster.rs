//! Who is on duty when: a file of shifts, a line each, `night 16:00-00:00: 300-303 dirk`.

use crate::holds::{shifts, Shift};
use crate::names::{Names, Sort};
use records::Record;

/// A shift with the clerks who come for it. A number that stands twice comes twice: two people whom the engine takes for one.
#[derive(Clone, PartialEq, Eq, Debug)]
pub struct Duty {
    pub shift: Shift,
    pub clerks: Vec<u16>,
}

/// The shifts of a file, or every line that is wrong.
pub fn read(
    file: &str,
    text: &str,
    policy: &[Record],
    names: &Names,
) -> Result<Vec<Duty>, Vec<String>> {
    let (mut all, mut wrong) = (Vec::new(), Vec::new());
    for (number, line) in (1..).zip(text.lines()) {
        let line = line.split('#').next().unwrap_or_default().trim();
        if line.is_empty() {
            continue;
        }
        match duty(line, policy, names) {
            Ok(duty) => all.push(duty),
            Err(why) => wrong.push(format!("{file}: line {number}: {why}")),
        }
    }
    if all.is_empty() && wrong.is_empty() {
        wrong.push(format!("{file}: there is no shift in it"));
    }
    if wrong.is_empty() {
        Ok(all)
    } else {
        Err(wrong)
    }
}

fn duty(line: &str, policy: &[Record], names: &Names) -> Result<Duty, String> {
    // Times have a colon too: the one with a space or nothing after it parts the clerks off.
    let at = line
        .match_indices(':')
        .map(|(at, _)| at)
        .find(|&at| line[at + 1..].is_empty() || line[at + 1..].starts_with(' '));
    let at = at.ok_or("NAME HH:MM-HH:MM: CLERKS is expected")?;
    let (shift, clerks) = (&line[..at], &line[at + 1..]);
    let shift = shifts(Some(shift))?.remove(0);
    let all = self::clerks(clerks, policy, names)?;
    match all.is_empty() {
        true => Err(format!("nobody comes for {}", shift.name)),
        false => Ok(Duty { shift, clerks: all }),
    }
}

/// Clerks by name, number, range or role, with spaces or commas between.
pub fn clerks(words: &str, policy: &[Record], names: &Names) -> Result<Vec<u16>, String> {
    let mut all = Vec::new();
    for word in words.split([' ', ',']).filter(|word| !word.is_empty()) {
        all.extend(users(word, policy, names)?);
    }
    Ok(all)
}

/// A name, a number, a range of numbers, or `role:NAME` for all who have that role in the policy.
fn users(word: &str, policy: &[Record], names: &Names) -> Result<Vec<u16>, String> {
    let is_user = |user: u16| policy.iter().any(|r| r.kind() == 1 && r.a() == user);
    if let Some(role) = word.strip_prefix("role:") {
        let Some(role) = names.given(Sort::Role, role) else {
            return Err(format!("there is no role {role:?}"));
        };
        let having = policy.iter().filter(|r| r.kind() == 4 && r.b() == role);
        return Ok(having.map(Record::a).collect());
    }
    let all: Vec<u16> = match word
        .split_once('-')
        .map(|(from, to)| (from.parse::<u16>(), to.parse::<u16>()))
    {
        Some((Ok(from), Ok(to))) if from <= to => (from..=to).collect(),
        _ => names.given(Sort::User, word).into_iter().collect(),
    };
    match all.iter().find(|&&user| !is_user(user)) {
        Some(user) => Err(format!("there is no user {user} in the policy")),
        None if all.is_empty() => Err(format!("there is no user {word:?}")),
        None => Ok(all),
    }
}

#[cfg(test)]
mod tests {
    use super::*;

    #[test]
    fn a_roster_has_names_ranges_and_roles() {
        let mut policy: Vec<Record> = [1, 300, 301, 302].map(Record::user).to_vec();
        policy.extend([
            Record::role(0),
            Record::user_has_role(1, 0),
            Record::user_has_role(301, 0),
        ]);
        let mut names = Names::default();
        names.give(Sort::User, 1, b"anna");
        names.give(Sort::Role, 0, b"signer");
        let read = |text| read("roster.txt", text, &policy, &names);
        let all = read("# who comes\nday 06:00-14:00: anna 300-301\nnight 22:00-06:00: role:signer, 302 302 # twice\n").unwrap();
        assert_eq!(
            all.iter()
                .map(|duty| duty.clerks.clone())
                .collect::<Vec<_>>(),
            [vec![1, 300, 301], vec![1, 301, 302, 302]]
        );
        assert_eq!(all[1].shift.name, "night");
        let wrong = read("day 06:00-14:00: bert\nlate\nnight 22:00-06:00: 7\nnone 1:00-2:00:\n")
            .unwrap_err();
        let said = [
            "line 1: there is no user \"bert\"",
            "line 2: NAME",
            "line 3: there is no user 7",
            "line 4: nobody comes",
        ];
        assert!(
            wrong
                .iter()
                .zip(said)
                .all(|(line, said)| line.contains(said))
                && wrong.len() == 4,
            "{wrong:?}"
        );
        assert!(read("# nothing").unwrap_err()[0].contains("no shift"));
    }
}
