//! The block of each of sixteen walls, in two words with four bits a wall.

#[derive(Clone, Copy, Default, PartialEq)]
pub struct Blocks {
    /// All four bits are set for each wall that has a block.
    walls: u64,
    blocks: u64,
}

impl Blocks {
    pub fn of(wall: usize, block: usize) -> Blocks {
        Blocks {
            walls: 15 << (4 * wall),
            blocks: (block as u64) << (4 * wall),
        }
    }

    /// Whether some wall has different blocks in the two.
    pub fn apart(self, other: Blocks) -> bool {
        (self.blocks ^ other.blocks) & self.walls & other.walls != 0
    }

    /// Whether some wall has a block in both.
    pub fn meets(self, other: Blocks) -> bool {
        self.walls & other.walls != 0
    }

    /// These blocks; for walls that have none here, the blocks of `other`.
    pub fn over(self, other: Blocks) -> Blocks {
        Blocks {
            walls: self.walls | other.walls,
            blocks: self.blocks | other.blocks & !self.walls,
        }
    }
}
