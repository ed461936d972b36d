//! Who has a desk, and how another server takes it: it first makes itself the one whose groups are written, and only then reads.

use super::place::Place;
use super::tables::{HOLD, NEXT, TAKE, WHO};
use super::wire::{Fault, Wire};
use crate::journal::begin::{now, PROGRAM};
use std::time::Duration;

/// How a server takes desks.
#[derive(Clone, Debug)]
pub struct Takeover {
    /// How clients find this server, as those are told who reach another one.
    pub server: String,
    /// A server that is silent for so long has lost its desks.
    pub silent: Duration,
    /// Which of several servers this is, and how many there are: each has a share of the desks, by their numbers.
    pub share: Option<(i64, i64)>,
}

/// Who has a desk now.
#[derive(Clone, Debug)]
pub struct Having {
    pub start: i64,
    pub server: String,
    /// It ended as it was asked to.
    pub ended: bool,
    /// The desk's number.
    pub number: i64,
    /// For how long nothing came from there.
    pub silent: Duration,
    /// Its session with the database is gone.
    pub gone: bool,
}

impl Having {
    pub fn of(wire: &mut Wire, desk: &str) -> Result<Having, Fault> {
        let Some(row) = wire.row(WHO, &[&desk])? else {
            return Err(Fault::Doubt("nobody is said to have it".to_string()));
        };
        let silent: i64 = row.get(4);
        Ok(Having {
            start: row.get(0),
            server: row.get(1),
            ended: row.get(2),
            number: row.get(3),
            silent: Duration::from_micros(silent.max(0) as u64),
            gone: row.get(5),
        })
    }

    /// Whether whoever has the desk was heard of since an earlier look: it would have been silent for longer.
    fn heard_since(&self, before: &Having) -> bool {
        self.start != before.start || self.silent < before.silent
    }

    /// For how long it must be silent before this server takes the desk: none where it has ended and the desk is of this server's share. Those
    /// of the others' shares are left to them for as long again.
    pub fn patience(&self, takeover: &Takeover) -> Duration {
        let own = |(which, of): (i64, i64)| self.number.rem_euclid(of) == which % of;
        match (takeover.share.is_none_or(own), self.ended) {
            (true, true) => Duration::ZERO,
            (true, false) => takeover.silent,
            (false, _) => 2 * takeover.silent,
        }
    }
}

/// A desk that was taken.
pub struct Taken {
    pub start: i64,
    pub last: i64,
    pub groups: i64,
}

/// Takes a desk from whoever has it, unless that is heard of meanwhile; whether it could be taken.
pub fn take(
    wire: &mut Wire,
    place: &Place,
    having: &Having,
    takeover: &Takeover,
    silent: Duration,
) -> Result<Option<Taken>, Fault> {
    let start: i64 = match wire.row(NEXT, &[])? {
        Some(row) => row.get(0),
        None => {
            return Err(Fault::Doubt(
                "there is no number for this start".to_string(),
            ))
        }
    };
    let silent = silent.as_micros() as i64;
    let taken = wire.committed(
        TAKE,
        &[
            &place.desk,
            &having.start,
            &start,
            &takeover.server,
            &silent,
            &now(),
            &PROGRAM,
        ],
    )?;
    Ok(taken.first().map(|row| Taken {
        start,
        last: row.get(0),
        groups: row.get(1),
    }))
}

/// How often a server is looked for.
pub const PAUSE: Duration = Duration::from_millis(50);

/// Takes a desk, in the way that is given, from nobody, from a server that has ended or whose session is gone; one that was killed is waited for.
pub fn free<T>(
    wire: &mut Wire,
    desk: &str,
    patience: Duration,
    remedy: &str,
    mut taken: impl FnMut(&mut Wire, &Having, Duration) -> Result<Option<T>, Fault>,
) -> Result<T, String> {
    let told = |why: Fault| why.text();
    let mut before: Option<Having> = None;
    loop {
        let having = Having::of(wire, desk).map_err(told)?;
        let silent = match having.gone {
            true => Duration::ZERO,
            false => patience,
        };
        if having.ended || having.silent >= silent {
            if let Some(taken) = taken(wire, &having, silent).map_err(told)? {
                return Ok(taken);
            }
            continue;
        }
        if before.is_some_and(|before| having.heard_since(&before)) {
            let server = having.server;
            return Err(format!("another server has it: {server}; {remedy}"));
        }
        before = Some(having);
        std::thread::sleep(PAUSE);
    }
}

/// A desk that nobody serves as long as this lives. Nothing of it is changed until the end.
pub struct Held {
    wire: Wire,
    pub last: i64,
}

impl Held {
    /// Locks the row that says who has the desk: whoever wants it meanwhile waits.
    pub fn take(place: &Place) -> Result<Held, String> {
        let mut wire = Wire::connect(place).map_err(|why| why.text())?;
        let set = wire.batch("SET idle_in_transaction_session_timeout = 0");
        set.map_err(|why| why.text())?;
        let remedy = "end it first, or try with --dry-run";
        let last = free(
            &mut wire,
            &place.desk,
            SILENT,
            remedy,
            |wire, having, silent| {
                let silent = silent.as_micros() as i64;
                wire.batch("BEGIN")?;
                let held = wire.row(HOLD, &[&place.desk, &having.start, &silent])?;
                if held.is_none() {
                    wire.batch("ROLLBACK")?;
                }
                Ok(held.map(|row| row.get(0)))
            },
        )?;
        Ok(Held { wire, last })
    }

    /// That it is held still.
    pub fn still(&mut self) -> Result<(), String> {
        self.wire.batch("SELECT 1").map_err(|why| why.text())
    }

    /// Lets go of it: from now on whoever had it before can write nothing, and the next server need not wait.
    pub fn end(self) -> Result<(), String> {
        self.wire.warned();
        self.wire.batch("COMMIT").map_err(|why| why.text())?;
        self.wire.warned().map_or(Ok(()), Err)
    }
}

/// A server that is silent for so long has lost a desk that is to be moved.
const SILENT: Duration = Duration::from_secs(5);

#[cfg(test)]
mod tests {
    use super::*;

    #[test]
    fn a_server_that_shows_itself_between_two_looks_is_heard() {
        let look = |start: i64, silent: u64| Having {
            start,
            server: String::new(),
            ended: false,
            number: 1,
            silent: Duration::from_millis(silent),
            gone: false,
        };
        assert!(!look(7, 60).heard_since(&look(7, 10)));
        assert!(look(7, 5).heard_since(&look(7, 460)));
        // Later than at the first look of all, and heard of since the last one.
        assert!(look(7, 20).heard_since(&look(7, 30)));
        assert!(look(8, 60).heard_since(&look(7, 10)));
    }

    #[test]
    fn desks_of_others_are_left_to_them_for_a_while() {
        let having = |number: i64, ended: bool| Having {
            start: 1,
            server: String::new(),
            ended,
            number,
            silent: Duration::ZERO,
            gone: false,
        };
        let second = Duration::from_secs(1);
        let of = |share: Option<(i64, i64)>| Takeover {
            server: String::new(),
            silent: second,
            share,
        };
        let all = of(None);
        assert_eq!(having(7, true).patience(&all), Duration::ZERO);
        assert_eq!(having(7, false).patience(&all), second);
        let (first, last) = (of(Some((1, 3))), of(Some((3, 3))));
        assert_eq!(having(7, true).patience(&first), Duration::ZERO);
        assert_eq!(having(7, true).patience(&last), 2 * second);
        assert_eq!(having(6, false).patience(&last), second);
        assert_eq!(having(6, false).patience(&first), 2 * second);
    }
}
