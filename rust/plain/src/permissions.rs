//! Permissions, looked up by operation and object.

/// Four times the number of permissions, so that most searches end at the first slot.
const PLACES: usize = 1024;

#[derive(Clone, PartialEq, Debug)]
pub(crate) struct Permissions {
    declared: [bool; 256],
    pair: [u32; 256],
    /// Open addressing: a permission's number plus one, or 0 if the slot is empty.
    places: [u16; PLACES],
    /// The roles that have each permission.
    pub given_to: [u64; 256],
    /// The tasks that carry each permission.
    pub carried_by: [u64; 256],
}

fn pair(operation: u16, object: u16) -> u32 {
    u32::from(operation) | u32::from(object) << 16
}

/// The slot where the search for a pair begins: the upper ten bits of the product depend on all bits of the pair.
fn first_place(pair: u32) -> usize {
    (pair.wrapping_mul(0x9e37_79b1) >> 22) as usize
}

impl Permissions {
    pub const NONE: Permissions = Permissions {
        declared: [false; 256],
        pair: [0; 256],
        places: [0; PLACES],
        given_to: [0; 256],
        carried_by: [0; 256],
    };

    pub fn has(&self, permission: usize) -> bool {
        self.declared[permission]
    }

    /// The operation and the object of a declared permission.
    pub fn pair_of(&self, permission: usize) -> (u16, u16) {
        let pair = self.pair[permission];
        (pair as u16, (pair >> 16) as u16)
    }

    /// The permission with this operation and object.
    pub fn find(&self, operation: u16, object: u16) -> Option<usize> {
        let pair = pair(operation, object);
        let mut place = first_place(pair);
        loop {
            let permission = usize::from(self.places[place]).checked_sub(1)?;
            if self.pair[permission] == pair {
                return Some(permission);
            }
            place = (place + 1) % PLACES;
        }
    }

    /// Declares a permission; the caller has checked that its number and its pair are free.
    pub fn declare(&mut self, permission: usize, operation: u16, object: u16) {
        let pair = pair(operation, object);
        let mut place = first_place(pair);
        while self.places[place] != 0 {
            place = (place + 1) % PLACES;
        }
        self.places[place] = permission as u16 + 1;
        self.declared[permission] = true;
        self.pair[permission] = pair;
    }
}
