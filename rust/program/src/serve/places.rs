//! Places: how many connections there are at once, and how many of them are of one account, so that nobody shuts the others out.

use std::collections::BTreeMap;
use std::net::IpAddr;
use std::sync::{Arc, Mutex, MutexGuard, PoisonError};

/// How many there may be, and how many of one account.
#[derive(Clone, Copy, PartialEq, Eq, Debug)]
pub struct Limits {
    pub all: usize,
    pub each: usize,
}

/// Whose a connection is.
#[derive(Clone, PartialEq, Eq, PartialOrd, Ord, Debug)]
pub enum Whose {
    /// A user of the system, by number.
    User(u32),
    Account(Arc<str>),
    /// Nobody has said more than where it comes from.
    Address(IpAddr),
    /// A proxy's: it brings those of many accounts.
    Proxy,
}

impl Whose {
    /// What those are told who are too many.
    fn shown(&self) -> &'static str {
        match self {
            Whose::User(_) | Whose::Account(_) => "of this account",
            Whose::Address(_) => "from this address",
            Whose::Proxy => "of this proxy",
        }
    }
}

#[derive(Default)]
struct Counts {
    all: usize,
    by: BTreeMap<Whose, usize>,
}

pub struct Places {
    pub limits: Limits,
    /// What is counted, as `clients`.
    what: &'static str,
    counts: Mutex<Counts>,
}

/// A place, which is free again when this goes.
pub struct Place {
    places: Arc<Places>,
    whose: Whose,
}

impl Places {
    pub fn new(what: &'static str, limits: Limits) -> Arc<Places> {
        Arc::new(Places {
            limits,
            what,
            counts: Mutex::default(),
        })
    }

    fn counts(&self) -> MutexGuard<'_, Counts> {
        self.counts.lock().unwrap_or_else(PoisonError::into_inner)
    }

    /// How many are taken.
    pub fn taken(&self) -> usize {
        self.counts().all
    }

    /// A place; or why there is none.
    pub fn take(self: &Arc<Places>, whose: Whose) -> Result<Place, String> {
        let (Limits { all, each }, what) = (self.limits, self.what);
        let mut counts = self.counts();
        if counts.all >= all {
            return Err(format!("{all} {what} are here, and no more may come"));
        }
        let of_this = counts.by.entry(whose.clone()).or_default();
        if *of_this >= each && whose != Whose::Proxy {
            let shown = whose.shown();
            return Err(format!(
                "{each} {what} {shown} are here, and no more may come"
            ));
        }
        *of_this += 1;
        counts.all += 1;
        drop(counts);
        let places = self.clone();
        Ok(Place { places, whose })
    }
}

impl Drop for Place {
    fn drop(&mut self) {
        let mut counts = self.places.counts();
        counts.all -= 1;
        if let Some(count) = counts.by.get_mut(&self.whose) {
            *count -= 1;
            if *count == 0 {
                counts.by.remove(&self.whose);
            }
        }
    }
}

#[cfg(test)]
mod tests {
    use super::*;

    #[test]
    fn one_account_leaves_places_to_others() {
        let places = Places::new("clients", Limits { all: 3, each: 2 });
        let take = |user| places.take(Whose::User(user));
        let told = |user| take(user).err().unwrap();
        let (first, second) = (take(1).ok(), take(1).ok());
        assert_eq!(
            told(1),
            "2 clients of this account are here, and no more may come"
        );
        let third = take(2).ok();
        assert_eq!(told(3), "3 clients are here, and no more may come");
        assert_eq!(places.taken(), 3);
        drop(first);
        assert!(take(1).is_ok() && places.taken() == 2);
        drop((second, third));
        assert_eq!((places.taken(), places.counts().by.len()), (0, 0));
        // A proxy brings the clients of many accounts.
        let all: Vec<_> = (0..3).map(|_| places.take(Whose::Proxy).ok()).collect();
        assert!(all.iter().all(Option::is_some));
    }
}
