//! What a desk has beside its engine, by the requests that were granted: the names that hold now, and which request opened each order.
//!
//! A name belongs to one user, subject or order, from the grant of the request that gave it until that one is deleted, destroyed or
//! ended. Numbers 0 to 63 come again; an opening does not: it is the number of the request that opened the order.

use super::about::about;
use crate::names::{name_of, shown, Names, Naming, Sort};
use records::Record;

/// How many orders there may be.
const ORDERS: usize = 64;

#[derive(Clone, Debug)]
pub struct Live {
    pub names: Names,
    /// By order: the request that opened it, or 0.
    pub openings: [i64; ORDERS],
    /// How often a name was given or ended: what was read with other names is read again.
    pub changes: u64,
}

impl Live {
    pub fn new(names: Names) -> Live {
        Live {
            names,
            openings: [0; ORDERS],
            changes: 0,
        }
    }

    /// The opening of the order that a record is about, where it is open.
    pub fn opening(&self, record: &Record) -> Option<i64> {
        let order = usize::from(about(record.kind()).number(Sort::Order, record)?);
        self.openings
            .get(order)
            .copied()
            .filter(|&opening| opening != 0)
    }

    /// What a granted request, by its number, changes: names end with whom they belong to, and those that it gives begin.
    pub fn granted(&mut self, number: i64, record: &Record, namings: &[Naming]) {
        let order = usize::from(record.a());
        match record.kind() {
            48 => self.set(order, number),
            49 => self.set(order, 0),
            _ => {}
        }
        if let Some((sort, whose)) = named_anew(record) {
            self.changes += u64::from(self.names.end(sort, whose));
        }
        for naming in namings {
            self.names.give(naming.sort, naming.number, &naming.name);
            self.changes += 1;
        }
    }

    /// Why a name cannot be given: another one has it, until that one is gone.
    pub fn taken(&self, naming: &Naming) -> Option<String> {
        let has = self.names.number(naming.sort, &naming.name);
        let number = has.filter(|&number| number != naming.number)?;
        let (name, word) = (shown(&naming.name), naming.sort.word());
        let until = match naming.sort {
            Sort::Order => "ended",
            Sort::Subject => "destroyed",
            _ => "deleted",
        };
        Some(format!(
            "{name} is {word} {number} until that is {until}: another name is needed"
        ))
    }

    fn set(&mut self, order: usize, opening: i64) {
        if let Some(kept) = self.openings.get_mut(order) {
            *kept = opening;
        }
    }

    /// The names as text, a line each: `user 300 anna`.
    pub fn text(&self) -> String {
        let mut text = String::new();
        for sort in Sort::ALL {
            for (number, name) in self.names.of_sort(sort) {
                text += &format!("{} {number} {name}\n", sort.word());
            }
        }
        text
    }

    /// The names of such a text; none where it is no such text.
    pub fn names_of(text: &str) -> Option<Names> {
        let mut names = Names::default();
        for line in text.lines() {
            let mut words = line.splitn(3, ' ');
            let sort = Sort::of_word(words.next()?)?;
            let number = words.next()?.parse().ok()?;
            names.give(sort, number, &name_of(words.next()?)?);
        }
        Some(names)
    }
}

/// Whose name begins or ends with a granted request.
fn named_anew(record: &Record) -> Option<(Sort, u16)> {
    match record.kind() {
        32 | 33 => Some((Sort::User, record.a())),
        40 | 41 => Some((Sort::Subject, record.a())),
        48 | 49 => Some((Sort::Order, record.a())),
        _ => None,
    }
}

#[cfg(test)]
mod tests {
    use super::*;
    use records::Set;

    fn naming(sort: Sort, number: u16, name: &[u8]) -> Naming {
        Naming {
            sort,
            number,
            name: name.to_vec(),
            column: 1,
        }
    }

    #[test]
    fn a_name_belongs_to_its_opening() {
        let mut live = Live::new(Names::default());
        let zed = naming(Sort::Order, 7, b"zed");
        live.granted(4, &Record::open_order(7, 0), std::slice::from_ref(&zed));
        assert_eq!(live.opening(&Record::claim(1, 7, 0)), Some(4));
        assert_eq!(live.opening(&Record::claim(1, 8, 0)), None);
        let other = naming(Sort::Order, 61, b"zed");
        assert!(live.taken(&other).unwrap().contains("zed is order 7"));
        assert_eq!(live.taken(&zed), None);
        live.granted(9, &Record::end_order(7), &[]);
        assert_eq!(live.opening(&Record::claim(1, 7, 0)), None);
        assert_eq!(live.names.number(Sort::Order, b"zed"), None);
        assert_eq!(live.changes, 2);
        // The number comes again, without the name of its last opening.
        live.granted(10, &Record::open_order(7, 0), &[]);
        assert_eq!(
            (live.opening(&Record::end_order(7)), live.changes),
            (Some(10), 2)
        );
    }

    #[test]
    fn a_deleted_users_name_ends() {
        let mut live = Live::new(Names::default());
        live.names.give(Sort::User, 300, b"anna");
        live.granted(1, &Record::delete_user(300), &[]);
        live.granted(2, &Record::add_user_with(300, Set::EMPTY), &[]);
        assert_eq!(live.names.name(Sort::User, 300), None);
    }

    #[test]
    fn names_are_text_and_read_back() {
        let mut live = Live::new(Names::default());
        live.names.give(Sort::User, 300, b"anna");
        live.names.give(Sort::Order, 7, b"mill \"7\" \xff");
        live.names.give(Sort::Task, 1, b"of");
        let back = Live::names_of(&live.text()).unwrap();
        assert_eq!(Live::new(back).text(), live.text());
        assert!(Live::names_of("user x anna\n").is_none());
    }
}
