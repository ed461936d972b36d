//! `journal FILE`: its requests with their replies, all or those that are picked, in words or as objects. A name is shown, and picked,
//! as it was at the time of the row.

use super::about::about;
use super::found::Unfit;
use super::head::Head;
use super::rows::Step;
use super::store::{reading, Store};
use super::{shown, Barred, Live, Row};
use crate::names::{name_of, Names, Sort};
use crate::stop::{Done, Stop, WELL};
use crate::writer;
use records::{Record, Reply, LENGTH};
use rusqlite::{Connection, OptionalExtension};
use serde_json::json;
use std::collections::{BTreeSet, VecDeque};
use std::io::Write;

/// Which requests are shown: those that meet everything that is given.
#[derive(Clone, Default, Debug)]
pub struct Filter {
    pub order: Option<String>,
    /// The number of the request that opened the order.
    pub opening: Option<i64>,
    pub user: Option<String>,
    pub task: Option<String>,
    pub account: Option<String>,
    /// By number or name; `refused` is all but GRANTED.
    pub reply: Option<String>,
    /// Times as SQLite reads them, `2026-11-15 20:31`, UTC.
    pub since: Option<String>,
    pub until: Option<String>,
    /// So many, the last of those picked.
    pub last: Option<usize>,
    /// What was barred, in the place of requests.
    pub barred: bool,
    pub json: bool,
}

impl Filter {
    /// The filter of texts by their names, as a command line or a query has them.
    pub fn of_texts(text: impl Fn(&str) -> Option<String>) -> Filter {
        Filter {
            order: text("order"),
            user: text("user"),
            task: text("task"),
            account: text("account"),
            reply: text("reply"),
            since: text("since"),
            until: text("until"),
            ..Filter::default()
        }
    }

    /// The filter of a line: `order mill reply refused last 20`; or what is wrong with it.
    pub fn of_words(words: &[String]) -> Result<Filter, String> {
        const EXPECTED: &str = "journal [order ORDER] [opening N] [user USER] [task TASK] [account ACCOUNT] [reply REPLY] \
             [since TIME] [until TIME] [last N] [barred]: a time with an hour goes between quotes";
        let mut filter = Filter::default();
        let mut words = words.iter();
        let number = |word: String| word.parse::<i64>().map_err(|_| EXPECTED.to_string());
        while let Some(word) = words.next() {
            if word == "barred" {
                filter.barred = true;
                continue;
            }
            let value = words.next().ok_or(EXPECTED)?;
            let quoted = value
                .starts_with('"')
                .then(|| crate::names::unquoted(value));
            let value = match quoted {
                None => value.clone(),
                Some(text) => {
                    String::from_utf8(text.ok_or(EXPECTED)?).map_err(|_| EXPECTED.to_string())?
                }
            };
            match word.as_str() {
                "order" => filter.order = Some(value),
                "opening" => filter.opening = Some(number(value)?),
                "user" => filter.user = Some(value),
                "task" => filter.task = Some(value),
                "account" => filter.account = Some(value),
                "reply" => filter.reply = Some(value),
                "since" => filter.since = Some(value),
                "until" => filter.until = Some(value),
                "last" => filter.last = Some(number(value)?.max(0) as usize),
                _ => return Err(EXPECTED.to_string()),
            }
        }
        Ok(filter)
    }
}

/// One of a sort: a number, or whoever had the name at the time.
enum Whose {
    Number(u16),
    Name(Vec<u8>),
}

impl Whose {
    fn is(&self, sort: Sort, number: u16, names: &Names) -> bool {
        match self {
            Whose::Number(wanted) => *wanted == number,
            Whose::Name(name) => names.name(sort, number) == Some(name),
        }
    }
}

/// The same with numbers.
struct Picked {
    order: Option<u16>,
    /// The openings that had the order's name, or the one that is asked for.
    openings: Option<BTreeSet<i64>>,
    user: Option<Whose>,
    task: Option<Whose>,
    account: Option<String>,
    reply: Option<Replies>,
    since: i64,
    until: i64,
}

enum Replies {
    One(u8),
    Refused,
}

/// Lines on their way out, of which the last ones may be all that is wanted.
struct Lines<'a> {
    out: &'a mut dyn Write,
    last: Option<usize>,
    kept: VecDeque<String>,
    failed: Option<std::io::Error>,
}

impl Lines<'_> {
    /// A line that cannot be written ends the listing; why is kept for its end.
    fn put(&mut self, line: String) -> Result<(), Unfit> {
        let Some(count) = self.last else {
            return writeln!(self.out, "{line}").map_err(|why| {
                self.failed = Some(why);
                Unfit("the output could not be written".to_string())
            });
        };
        self.kept.push_back(line);
        if self.kept.len() > count {
            self.kept.pop_front();
        }
        Ok(())
    }

    fn end(self) -> std::io::Result<()> {
        let Lines { out, kept, .. } = self;
        kept.iter().try_for_each(|line| writeln!(out, "{line}"))
    }
}

pub fn list(file: &str, filter: &Filter, out: &mut dyn Write) -> Done {
    let stop = |Unfit(why): Unfit| Stop::Refused(vec![format!("{}: {why}", shown(file))]);
    let store = &*reading(file)?;
    let Head {
        policy, version, ..
    } = store.head().map_err(stop)?;
    let picked = picked(store, filter, &policy.names)?;
    let mut lines = Lines {
        out,
        last: filter.last,
        kept: VecDeque::new(),
        failed: None,
    };
    let listing = Listing {
        store,
        version,
        picked,
        filter,
    };
    let listed = match filter.barred {
        true => listing.barred(&mut lines),
        false => listing.requests(Live::new(policy.names), &mut lines),
    };
    if let Some(why) = lines.failed.take() {
        return Err(why.into());
    }
    listed.map_err(stop)?;
    lines.end()?;
    Ok(WELL)
}

struct Listing<'a> {
    store: &'a dyn Store,
    version: i64,
    picked: Picked,
    filter: &'a Filter,
}

impl Listing<'_> {
    fn requests(&self, policy: Live, lines: &mut Lines) -> Result<(), Unfit> {
        let first = self.first()?;
        let before = self.store.snapshot_before(first)?;
        let after = before.as_ref().map_or(0, |taken| taken.after);
        let mut live = before.map_or(Ok(policy), |taken| taken.live())?;
        let mut jumps = self.jumps()?;
        self.store.each(self.version, after, &mut |step| {
            let Step::Row(row, _) = step else {
                return Ok(());
            };
            while jumps.front().is_some_and(|jump| jump.0 < row.number) {
                let jump = jumps.pop_front().unwrap_or_default();
                if jump.0 + 1 >= first {
                    lines.put(self.jump(jump))?;
                }
            }
            // A name that this request gives holds in its own line, and so does one that it ends.
            let begins = matches!(row.bytes.record().map(|r| r.kind()), Some(32 | 40 | 48));
            let follow = |live: &mut Live| {
                if let (0, Some(record)) = (row.reply, row.bytes.record()) {
                    live.granted(row.number, &record, &row.namings);
                }
            };
            if begins {
                follow(&mut live);
            }
            if row.number >= first && self.picked.has(&row, &live.names) {
                let text = match self.filter.json {
                    true => object(&row, &live.names),
                    false => line(&row, &live.names),
                };
                lines.put(text)?;
            }
            if !begins {
                follow(&mut live);
            }
            Ok(())
        })?;
        Ok(())
    }

    /// The first request that may be shown.
    fn first(&self) -> Result<i64, Unfit> {
        if self.filter.since.is_some() {
            let first = self.store.first_since(self.picked.since)?;
            return Ok(first.unwrap_or(i64::MAX));
        }
        match self.filter.last {
            Some(count) if self.picked.is_all() => {
                Ok((self.store.last()? - count as i64 + 1).max(1))
            }
            _ => Ok(1),
        }
    }

    /// When the clock was set: behind which request, and from which time to which. Only a listing of everything has them.
    fn jumps(&self) -> Result<VecDeque<(i64, i64, i64)>, Unfit> {
        match self.picked.is_all() {
            true => Ok(self.store.jumps()?.into()),
            false => Ok(VecDeque::new()),
        }
    }

    fn jump(&self, (after, expected, found): (i64, i64, i64)) -> String {
        let (from, to) = (time(expected), time(found));
        match self.filter.json {
            true => json!({"clock": {"after": after, "expected": from, "found": to}}).to_string(),
            false => format!("{:>7}  the clock was set from {from} to {to}", ""),
        }
    }

    fn barred(&self, lines: &mut Lines) -> Result<(), Unfit> {
        let (since, until) = (self.picked.since, self.picked.until);
        self.store.barred(since, until, &mut |after, barred| {
            let Barred {
                at,
                client,
                account,
                via,
                asked,
                why,
                ..
            } = barred;
            if self
                .picked
                .account
                .as_ref()
                .is_some_and(|a| **a != *account)
            {
                return Ok(());
            }
            let text = match self.filter.json {
                true => json!({
                    "at": at, "time": time(at), "after": after, "client": client,
                    "account": &*account, "via": via.as_deref(), "asked": asked, "barred": why,
                })
                .to_string(),
                false => format!("{}  {account:<12}  {asked}  (barred: {why})", time(at)),
            };
            lines.put(text)
        })
    }
}

fn wrong(text: String) -> Stop {
    Stop::Wrong(vec![text])
}

fn picked(store: &dyn Store, filter: &Filter, policy: &Names) -> Result<Picked, Stop> {
    let gave = |sort: Sort, name: &[u8]| {
        let gave = store.gave(sort, name);
        gave.map_err(|Unfit(why)| wrong(why))
    };
    let whose = |sort: Sort, word: &Option<String>| -> Result<Option<Whose>, Stop> {
        let Some(word) = word else {
            return Ok(None);
        };
        if let Ok(number) = word.parse() {
            return Ok(Some(Whose::Number(number)));
        }
        let name = name_of(word).unwrap_or_else(|| word.as_bytes().to_vec());
        let known = policy.number(sort, &name).is_some() || !gave(sort, &name)?.is_empty();
        match known {
            true => Ok(Some(Whose::Name(name))),
            false => Err(wrong(format!("there is no {} {word:?}", sort.word()))),
        }
    };
    let order = whose(Sort::Order, &filter.order)?;
    let openings = match (&order, filter.opening) {
        (_, Some(opening)) => Some(BTreeSet::from([opening])),
        (Some(Whose::Name(name)), _) => Some(gave(Sort::Order, name)?),
        _ => None,
    };
    Ok(Picked {
        order: match order {
            Some(Whose::Number(number)) => Some(number),
            _ => None,
        },
        openings,
        user: whose(Sort::User, &filter.user)?,
        task: whose(Sort::Task, &filter.task)?,
        account: filter.account.clone(),
        reply: match &filter.reply {
            None => None,
            Some(word) => {
                Some(replies(word).ok_or_else(|| wrong(format!("there is no reply {word:?}")))?)
            }
        },
        since: time_of(filter.since.as_deref(), i64::MIN)?,
        until: time_of(filter.until.as_deref(), i64::MAX)?,
    })
}

/// A time as people write it, UTC, in microseconds since 1970.
pub fn moment(word: &str) -> Result<i64, Stop> {
    time_of(Some(word), i64::MIN)
}

/// A time as SQLite reads it, in microseconds since 1970; `else_at` where none is given.
pub fn time_of(word: Option<&str>, else_at: i64) -> Result<i64, Stop> {
    let Some(word) = word else {
        return Ok(else_at);
    };
    let failed = |why: rusqlite::Error| wrong(format!("{word}: {why}"));
    let connection = Connection::open_in_memory().map_err(failed)?;
    let read = "SELECT CAST((julianday(?1) - 2440587.5) * 86400000.0 + 0.5 AS INTEGER) * 1000";
    let at: Option<Option<i64>> = connection
        .query_row(read, [word], |r| r.get(0))
        .optional()
        .ok()
        .flatten();
    at.flatten().ok_or_else(|| {
        wrong(format!(
            "{word:?} is no time: write 2026-11-15, or 2026-11-15 20:31:07"
        ))
    })
}

fn replies(word: &str) -> Option<Replies> {
    if word.eq_ignore_ascii_case("refused") {
        return Some(Replies::Refused);
    }
    let named = |reply: &&Reply| {
        reply.name().eq_ignore_ascii_case(word) || reply.number().to_string() == word
    };
    Reply::ALL
        .iter()
        .find(named)
        .map(|reply| Replies::One(reply.number()))
}

/// The number of a sort that a row's record has.
fn number(row: &Row, sort: Sort) -> Option<u16> {
    let record: Record = row.bytes.record()?;
    about(record.kind()).number(sort, &record)
}

impl Picked {
    /// Whether nothing but times picks.
    fn is_all(&self) -> bool {
        self.order.is_none()
            && self.openings.is_none()
            && self.user.is_none()
            && self.task.is_none()
            && self.account.is_none()
            && self.reply.is_none()
            && self.until == i64::MAX
    }

    fn has(&self, row: &Row, names: &Names) -> bool {
        let replied = match self.reply {
            None => true,
            Some(Replies::One(reply)) => row.reply == reply,
            Some(Replies::Refused) => row.reply != 0,
        };
        let is = |whose: &Option<Whose>, sort: Sort, number: Option<u16>| {
            let meets = |whose: &Whose| number.is_some_and(|n| whose.is(sort, n, names));
            whose.as_ref().is_none_or(meets)
        };
        let opened = |openings: &BTreeSet<i64>| row.opening.is_some_and(|o| openings.contains(&o));
        replied
            && (self.since..self.until).contains(&row.at)
            && self.account.as_ref().is_none_or(|a| **a == *row.account)
            && self
                .order
                .is_none_or(|n| number(row, Sort::Order) == Some(n))
            && self.openings.as_ref().is_none_or(opened)
            && is(&self.user, Sort::User, row.user)
            && is(&self.task, Sort::Task, number(row, Sort::Task))
    }
}

/// `2026-11-15 20:31:07.123456`, UTC.
pub fn time(at: i64) -> String {
    let (seconds, micros) = (at.div_euclid(1_000_000), at.rem_euclid(1_000_000));
    let (days, second) = (seconds.div_euclid(86_400), seconds.rem_euclid(86_400));
    // The calendar in eras of 400 years that begin in March.
    let shifted = days + 719_468;
    let (era, day) = (shifted.div_euclid(146_097), shifted.rem_euclid(146_097));
    let year = (day - day / 1_460 + day / 36_524 - day / 146_096) / 365;
    let of_year = day - (365 * year + year / 4 - year / 100);
    let month = (5 * of_year + 2) / 153;
    let day = of_year - (153 * month + 2) / 5 + 1;
    let month = if month < 10 { month + 3 } else { month - 9 };
    let year = 400 * era + year + i64::from(month <= 2);
    let (hour, minute, second) = (second / 3_600, second / 60 % 60, second % 60);
    format!("{year:04}-{month:02}-{day:02} {hour:02}:{minute:02}:{second:02}.{micros:06}")
}

fn name_of_reply(reply: u8) -> &'static str {
    Reply::from_number(reply.into()).map_or("", |reply| reply.name())
}

/// What stands behind a line: the rule, the numbers that have names, the opening and who asked.
fn behind(row: &Row, names: &Names) -> String {
    let mut all = Vec::new();
    if row.place != 0 {
        all.push(format!("rule {}", row.place));
    }
    for sort in [Sort::Subject, Sort::Order] {
        let named = number(row, sort).filter(|&n| names.name(sort, n).is_some());
        all.extend(named.map(|n| format!("{} {n}", sort.word())));
    }
    all.extend(row.opening.map(|opening| format!("opening {opening}")));
    all.push(match &row.via {
        Some(via) => format!("by {} via {via}", row.account),
        None => format!("by {}", row.account),
    });
    all.extend(row.moved.as_ref().map(|moved| {
        let (number, time, account) = (moved.number, time(moved.at), &moved.account);
        format!("moved from request {number} at {time} by {account}")
    }));
    all.join(", ")
}

fn line(row: &Row, names: &Names) -> String {
    let (number, time, reply) = (row.number, time(row.at), row.reply);
    let name = name_of_reply(row.reply);
    let words = writer::line(row.bytes.as_ref(), names);
    let user = row
        .user
        .map_or("-".to_string(), |user| names.shown(Sort::User, user));
    let behind = behind(row, names);
    format!("{number:>7}  {time}  {reply:>2} {name:<12}  {user:<12}  {words}  ({behind})")
}

fn object(row: &Row, names: &Names) -> String {
    let bytes = row.bytes.as_ref();
    let mut object = json!({
        "number": row.number, "at": row.at, "time": time(row.at), "client": row.client,
        "account": &*row.account, "request": writer::line(bytes, names), "reply": row.reply,
        "name": name_of_reply(row.reply), "rule": row.place, "user": row.user,
    });
    if let Some(via) = &row.via {
        object["via"] = json!(**via);
    }
    if let Some(opening) = row.opening {
        object["opening"] = json!(opening);
    }
    if let Some(key) = &row.key {
        object["key"] = json!(**key);
    }
    if let Some(moved) = &row.moved {
        object["moved_from"] = json!({
            "number": moved.number, "at": moved.at, "time": time(moved.at), "account": &*moved.account, "opening": moved.opening,
        });
    }
    let numbers = [Sort::Subject, Sort::Order, Sort::Task].map(|sort| (sort, number(row, sort)));
    for (sort, number) in [(Sort::User, row.user)].into_iter().chain(numbers) {
        let Some(number) = number else {
            continue;
        };
        object[sort.word()] = json!(number);
        if let Some(name) = names.name(sort, number) {
            object[format!("{}_name", sort.word())] = json!(String::from_utf8_lossy(name));
        }
    }
    match row.bytes.record() {
        Some(record) => object["kind"] = json!(record.kind()),
        None => object["cut"] = json!(format!("{} of {LENGTH} bytes", bytes.len())),
    }
    object.to_string()
}

#[cfg(test)]
mod tests {
    use super::time;

    #[test]
    fn times_are_those_of_the_calendar() {
        assert_eq!(time(0), "1970-01-01 00:00:00.000000");
        assert_eq!(time(951_782_400_000_000), "2000-02-29 00:00:00.000000");
        assert_eq!(time(1_794_774_667_123_456), "2026-11-15 20:31:07.123456");
        assert_eq!(time(4_107_542_399_999_999), "2100-02-28 23:59:59.999999");
        assert_eq!(time(-1), "1969-12-31 23:59:59.999999");
    }
}
