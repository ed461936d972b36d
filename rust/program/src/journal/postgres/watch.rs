//! A desk that another server has, watched until that is silent.

use super::place::Place;
use super::take::{take, Having};
use super::wire::{Fault, Wire};
use super::write::{connected, Journal};
use crate::journal::found::Found;
use crate::journal::store::{place_of, How};
use crate::stop::Stop;

pub struct Watch {
    place: Place,
    wire: Option<Wire>,
}

/// What is seen of a desk.
pub enum Sight {
    /// It was taken, and read.
    Taken(Box<(Journal, Found)>),
    /// This server has it.
    Elsewhere(String),
    /// The database cannot be reached.
    Nothing(String),
}

impl Watch {
    pub fn new(word: &str) -> Result<Watch, Stop> {
        let place = place_of(word)?;
        Ok(Watch { place, wire: None })
    }

    /// Looks at who has the desk, and takes it from a server that has ended or is silent for long enough.
    pub fn look(&mut self, how: &How) -> Result<Sight, Stop> {
        let wire = match self.wire.take() {
            Some(wire) => Ok(wire),
            None => connected(&self.place, how.saved),
        };
        let mut wire = match wire {
            Ok(wire) => wire,
            Err(why) => return Ok(Sight::Nothing(why)),
        };
        match self.looked(&mut wire, how) {
            Ok(Ok(taken)) => {
                let taken = Journal::taken(wire, &self.place, how, taken)?;
                Ok(Sight::Taken(Box::new(taken)))
            }
            Ok(Err(having)) => {
                self.wire = Some(wire);
                Ok(Sight::Elsewhere(having.server))
            }
            Err(why) => Ok(Sight::Nothing(why.text())),
        }
    }

    fn looked(
        &self,
        wire: &mut Wire,
        how: &How,
    ) -> Result<Result<super::take::Taken, Having>, Fault> {
        let having = Having::of(wire, &self.place.desk)?;
        let silent = having.patience(&how.takeover);
        if having.silent < silent {
            return Ok(Err(having));
        }
        let taken = take(wire, &self.place, &having, &how.takeover, silent)?;
        Ok(taken.ok_or(having))
    }
}
