//! Holds asked for by words: the options of a command line, or the names of a query.

use super::calendar::{shifts, Zone};
use super::{By, End, Form, Options, Panel};

/// Words by their names.
pub struct Words<'a, 'b> {
    pub word: &'b dyn Fn(&str) -> Option<&'a str>,
    /// How an option with its value is written there: `--by shift`, or `by=shift`.
    pub said: fn(&str, &str) -> String,
}

impl<'a> Words<'a, '_> {
    fn wrong<T>(&self, name: &str, value: &str, expected: &str) -> Result<T, String> {
        Err(format!("{}: {expected}", (self.said)(name, value)))
    }

    /// A word that must be there.
    fn needed(&self, name: &str) -> Result<&'a str, String> {
        let missing = || format!("{} is needed", (self.said)(name, "TASK"));
        (self.word)(name).ok_or_else(missing)
    }

    /// A word that is one of these, where it is there.
    fn one_of(&self, name: &str, all: &[&str]) -> Result<Option<&'a str>, String> {
        match (self.word)(name) {
            Some(word) if !all.contains(&word) => self.wrong(
                name,
                word,
                &format!("one of {} is expected", all.join(", ")),
            ),
            word => Ok(word),
        }
    }

    /// What is asked for, as a text with the ten longest holds where nothing else is said; or what is wrong.
    pub fn options(&self) -> Result<Options<'a>, String> {
        let end = match self.one_of("end", &["claim", "done"])? {
            Some("done") => End::Done,
            _ => End::Claim,
        };
        let by = self.one_of("by", &By::NAMES)?.unwrap_or("month");
        let shifts = shifts((self.word)("shifts"))?;
        if by == "shift" && shifts.is_empty() {
            let example = (self.said)("shifts", "'day 06:00-14:00, night 22:00-06:00'");
            let (asked, takes) = ((self.said)("by", by), "takes the shifts");
            return Err(format!("{asked} {takes}: {example}"));
        }
        let zone = (self.word)("zone").unwrap_or("UTC");
        let Some(zone) = Zone::read(zone) else {
            return self.wrong("zone", zone, "+01:00, -03:30 or UTC is expected");
        };
        Ok(Options {
            from: self.needed("from")?,
            to: self.needed("to")?,
            end,
            by: By::of_name(by, shifts),
            since: (self.word)("since"),
            until: (self.word)("until"),
            zone,
            worst: 10,
            form: Form::Text,
            plot: None,
        })
    }

    /// The panels of a picture by their names; all of them where there is none.
    pub fn panels(&self, names: &[impl AsRef<str>]) -> Result<Vec<Panel>, String> {
        let one = |name: &str| {
            let known = format!("of {} is expected", Panel::NAMES.join(", "));
            Panel::of_name(name).map_or_else(|| self.wrong("panels", name, &known), Ok)
        };
        match names {
            [] => Ok(Panel::ALL.to_vec()),
            names => names.iter().map(|name| one(name.as_ref())).collect(),
        }
    }
}
