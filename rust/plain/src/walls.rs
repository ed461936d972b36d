//! Walls: which objects are in which block of each wall (document 02, Ask 11). Records are looked up by object.

use crate::reply::{refuse, Outcome, Reply};

const RECORDS: usize = 256;
const CHAINS: usize = 256;

/// The records in policy order. Those whose objects have the same lower byte form a chain.
#[derive(Clone, PartialEq, Debug)]
pub(crate) struct Walls {
    rows: [Row; RECORDS],
    used: usize,
    /// The newest record of each chain, counted from 1; 0 if the chain is empty.
    newest: [u16; CHAINS],
}

#[derive(Clone, Copy, PartialEq, Debug)]
struct Row {
    wall: u8,
    block: u8,
    object: u16,
    /// The previous record of the same chain, counted from 1; 0 if there is none.
    before: u16,
}

const BLANK: Row = Row {
    wall: 0,
    block: 0,
    object: 0,
    before: 0,
};

impl Walls {
    pub const NONE: Walls = Walls {
        rows: [BLANK; RECORDS],
        used: 0,
        newest: [0; CHAINS],
    };

    pub fn is_empty(&self) -> bool {
        self.used == 0
    }

    /// Wall, block and object of each record, in policy order.
    pub fn rows(&self) -> impl Iterator<Item = (u16, u16, u16)> + '_ {
        let used = self.rows[..self.used].iter();
        used.map(|r| (r.wall.into(), r.block.into(), r.object))
    }

    /// The walls that have the object, and its block in each.
    pub fn of(&self, object: u16) -> impl Iterator<Item = (usize, u8)> + '_ {
        let row = |at: u16| (at > 0).then(|| &self.rows[usize::from(at) - 1]);
        let newest = row(self.newest[usize::from(object) % CHAINS]);
        std::iter::successors(newest, move |r| row(r.before))
            .filter(move |r| r.object == object)
            .map(|r| (usize::from(r.wall), r.block))
    }

    /// Kind 18: puts an object into a block of a wall.
    pub fn take(&mut self, wall: usize, block: u8, object: u16) -> Outcome {
        let stands = self.of(object).find(|(of, _)| *of == wall);
        refuse(Reply::Taken, stands == Some((wall, block)))?;
        refuse(Reply::Rule, stands.is_some())?;
        refuse(Reply::Full, self.used == RECORDS)?;
        let newest = &mut self.newest[usize::from(object) % CHAINS];
        self.rows[self.used] = Row {
            wall: wall as u8,
            block,
            object,
            before: *newest,
        };
        self.used += 1;
        *newest = self.used as u16;
        Ok(())
    }
}
