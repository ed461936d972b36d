//! The access file: which account may ask what. A line each, `#` begins a comment:
//!
//! ```text
//! account anna is user anna              # a clerk: may act for this user alone
//! account router speaks for everyone     # a gateway that has authenticated its own clients
//! account mueller administers            # 32 to 37
//! account revision reads                 # the journal and all questions: changes nothing
//! group desk is users by name            # every member of a system group is the user of that name
//! ```

use crate::names::{name_of, Sort};
use crate::reader::{self, Error, Token, Wrong};
use crate::source;
use crate::stop::Stop;
use std::collections::BTreeMap;

/// A user, by number or by the name that holds at the time.
#[derive(Clone, PartialEq, Eq, Debug)]
pub enum Whose {
    Number(u16),
    Name(Vec<u8>),
}

/// What an account may ask.
#[derive(Clone, Default, PartialEq, Eq, Debug)]
pub struct Rights {
    /// Every kind, and the lines `as ACCOUNT`.
    pub everyone: bool,
    pub administers: bool,
    pub reads: bool,
    /// The users whom the account is.
    pub users: Vec<Whose>,
}

impl Rights {
    pub fn of_everyone() -> Rights {
        Rights {
            everyone: true,
            ..Rights::default()
        }
    }

    pub fn is_none(&self) -> bool {
        *self == Rights::default()
    }
}

/// An access file that was read.
#[derive(Clone, Default, PartialEq, Eq, Debug)]
pub struct Access {
    accounts: BTreeMap<String, Rights>,
    /// System groups whose members are the users of their names.
    groups: Vec<String>,
}

impl Access {
    pub fn read(file: &str) -> Result<Access, Stop> {
        let text = source::bytes_of(file)?;
        Access::of(&text).map_err(|errors| source::told(file, errors))
    }

    /// A whole text; or every error with its line.
    pub fn of(text: &[u8]) -> Result<Access, Vec<Error>> {
        let (mut access, mut errors) = (Access::default(), Vec::new());
        for (number, line) in reader::lines(text) {
            let line = line.strip_suffix(b"\r").unwrap_or(line);
            let read = reader::decode(line).and_then(|line| access.line(line));
            errors.extend(read.err().map(|wrong| Error::new(number, wrong)));
        }
        match errors.is_empty() {
            true => Ok(access),
            false => Err(errors),
        }
    }

    fn line(&mut self, line: &str) -> Result<(), Wrong> {
        let tokens = reader::tokens(line).0;
        let mut words = Words {
            end: line.chars().count() + 1,
            rest: &tokens,
        };
        if words.rest.is_empty() {
            return Ok(());
        }
        if words.one_of(&["account", "group"])? == "group" {
            let group = words.name("the name of a group")?;
            for word in ["is", "users", "by", "name"] {
                words.one_of(&[word])?;
            }
            words.ended()?;
            self.groups.push(group);
            return Ok(());
        }
        let account = words.name("the name of an account")?;
        let mut rights = self.accounts.get(&account).cloned().unwrap_or_default();
        match words.one_of(&["is", "speaks", "administers", "reads"])? {
            "is" => {
                words.one_of(&["user"])?;
                rights.users.push(words.user()?);
            }
            "speaks" => {
                words.one_of(&["for"])?;
                words.one_of(&["everyone"])?;
                rights.everyone = true;
            }
            "administers" => rights.administers = true,
            _ => rights.reads = true,
        }
        words.ended()?;
        self.accounts.insert(account, rights);
        Ok(())
    }

    /// What an account may ask that is a member of the groups for which `is_in` holds.
    pub fn rights(&self, account: &str, is_in: impl Fn(&str) -> bool) -> Rights {
        let mut rights = self.accounts.get(account).cloned().unwrap_or_default();
        if self.groups.iter().any(|group| is_in(group)) {
            rights.users.push(Whose::Name(account.as_bytes().to_vec()));
        }
        rights
    }

    /// The users whom it names, each with its account.
    pub fn users(&self) -> impl Iterator<Item = (&str, &Whose)> {
        let each = self.accounts.iter();
        each.flat_map(|(account, rights)| rights.users.iter().map(move |u| (account.as_str(), u)))
    }
}

/// The words of a line that are left.
struct Words<'a> {
    rest: &'a [Token<'a>],
    end: usize,
}

impl<'a> Words<'a> {
    fn wrong(&self, expected: String) -> Wrong {
        let (column, found) = match self.rest.first() {
            Some(token) if token.text.starts_with('"') => (token.column, token.text.to_string()),
            Some(token) => (token.column, format!("\"{}\"", token.text)),
            None => (self.end, "the end of the line".to_string()),
        };
        Wrong {
            column,
            expected,
            found,
        }
    }

    fn next(&mut self) {
        self.rest = &self.rest[1..];
    }

    fn one_of(&mut self, words: &[&'static str]) -> Result<&'static str, Wrong> {
        let first = self.rest.first().map(|token| token.text);
        match words.iter().find(|word| first == Some(**word)) {
            Some(word) => {
                self.next();
                Ok(word)
            }
            None => {
                let all: Vec<String> = words.iter().map(|word| format!("\"{word}\"")).collect();
                Err(self.wrong(reader::either(&all)))
            }
        }
    }

    /// The name of an account or a group: any word, or text between quotes.
    fn name(&mut self, expected: &str) -> Result<String, Wrong> {
        let Some(token) = self.rest.first() else {
            return Err(self.wrong(expected.to_string()));
        };
        let Some(name) = account_of(token.text) else {
            return Err(self.wrong(expected.to_string()));
        };
        // `uid:1234` is three tokens.
        if let [_, colon, number, ..] = self.rest {
            if (name.as_str(), colon.text) == ("uid", ":") {
                let name = format!("uid:{}", number.text);
                self.rest = &self.rest[3..];
                return Ok(name);
            }
        }
        self.next();
        Ok(name)
    }

    fn user(&mut self) -> Result<Whose, Wrong> {
        let last = u64::from(Sort::User.last());
        let expected = format!("a user's name, or a number up to {last}");
        let Some(token) = self.rest.first() else {
            return Err(self.wrong(expected));
        };
        let number = token.number().filter(|number| *number <= last);
        let whose = match (number, name_of(token.text)) {
            (Some(number), _) => Whose::Number(number as u16),
            (None, Some(name)) => Whose::Name(name),
            _ => return Err(self.wrong(expected)),
        };
        self.next();
        Ok(whose)
    }

    fn ended(&self) -> Result<(), Wrong> {
        match self.rest {
            [] => Ok(()),
            _ => Err(self.wrong("the end of the line".to_string())),
        }
    }
}

/// The longest name of an account, in bytes.
const LONGEST: usize = 64;

/// The account that a word names, as it is or between quotes: no control characters, at most 64 bytes.
pub fn account_of(word: &str) -> Option<String> {
    let name = match word.starts_with('"') {
        true => String::from_utf8(crate::names::unquoted(word)?).ok()?,
        false => word.to_string(),
    };
    let fit = (1..=LONGEST).contains(&name.len()) && !name.chars().any(char::is_control);
    (fit && name != ":" && name != ",").then_some(name)
}

#[cfg(test)]
mod tests {
    use super::*;

    const TEXT: &str = "\u{feff}account anna is user anna   # a clerk
account bert is user 301\r
account \"router 7\" speaks for everyone

account mueller administers
account anna reads
account uid:1234 is user \"the clerk\"
group desk is users by name";

    #[test]
    fn lines_say_who_may_what() {
        let access = Access::of(TEXT.as_bytes()).unwrap();
        let nobody = |_: &str| false;
        let anna = access.rights("anna", nobody);
        assert_eq!(anna.users, [Whose::Name(b"anna".to_vec())]);
        assert!(anna.reads && !anna.administers && !anna.everyone);
        assert_eq!(access.rights("bert", nobody).users, [Whose::Number(301)]);
        assert!(access.rights("router 7", nobody).everyone);
        assert!(access.rights("mueller", nobody).administers);
        assert_eq!(access.rights("uid:1234", nobody).users.len(), 1);
        assert!(access.rights("carl", nobody).is_none());
        let carl = access.rights("carl", |group| group == "desk");
        assert_eq!(carl.users, [Whose::Name(b"carl".to_vec())]);
        assert_eq!(access.users().count(), 3);
    }

    #[test]
    fn errors_are_told_by_line_and_column() {
        let errors = |text: &str| {
            let errors = Access::of(text.as_bytes()).unwrap_err();
            let told = errors.iter().map(|error| error.to_string());
            told.collect::<Vec<String>>()
        };
        let text = "account anna iz user anna\nacount bert reads\naccount carl is user 1024\ngroup desk is users\naccount dirk reads all\naccount\n";
        assert_eq!(
            errors(text),
            [
                "line 1, column 14: expected \"is\", \"speaks\", \"administers\" or \"reads\", found \"iz\"",
                "line 2, column 1: expected \"account\" or \"group\", found \"acount\"",
                "line 3, column 22: expected a user's name, or a number up to 1023, found \"1024\"",
                "line 4, column 20: expected \"by\", found the end of the line",
                "line 5, column 20: expected the end of the line, found \"all\"",
                "line 6, column 8: expected the name of an account, found the end of the line",
            ]
        );
        let long = format!("account {} reads", "a".repeat(65));
        assert_eq!(errors(&long).len(), 1);
        assert_eq!(errors("account \"a\u{1b}\" reads").len(), 1);
    }
}
