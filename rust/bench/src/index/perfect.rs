//! Rows found by a 32-bit key with one multiplication and one probe: a perfect hash, built once all keys are known.

/// How many factors are tried before the number of slots doubles.
const TRIES: u32 = 64;

#[derive(Clone, Copy, Default)]
struct Slot<R> {
    key: u32,
    row: R,
}

/// Rows by key. A slot without a key holds the default row, which has no effect.
#[derive(Clone)]
pub struct Perfect<R> {
    factor: u64,
    shift: u32,
    slots: Vec<Slot<R>>,
}

impl<R: Copy + Default> Perfect<R> {
    /// One slot, which any factor finds.
    pub fn empty() -> Perfect<R> {
        Perfect {
            factor: 0,
            shift: 1,
            slots: vec![Slot::default()],
        }
    }

    fn place(factor: u64, shift: u32, key: u32) -> usize {
        (u64::from(key).wrapping_mul(factor) >> shift) as usize
    }

    /// Whether the key is in the table, and the row in its slot.
    #[inline(always)]
    pub fn probe(&self, key: u32) -> (bool, R) {
        let slot = &self.slots[Self::place(self.factor, self.shift, key)];
        (slot.key == key, slot.row)
    }

    /// The row of a key that is in the table.
    pub fn row(&mut self, key: u32) -> &mut R {
        let place = Self::place(self.factor, self.shift, key);
        &mut self.slots[place].row
    }

    /// Builds the table for these keys, which must differ from one another.
    ///
    /// Factors are tried until no two keys collide. Of all odd factors, at most 2 in s make two given keys collide, where s is the
    /// number of slots. So with 2 * n * n slots for n keys at least half of the factors are perfect, and the search ends.
    pub fn build(&mut self, keys: &[u32], row: impl Fn(usize) -> R) {
        let wanted = (keys.len() * keys.len() / 8).max(2).next_power_of_two();
        let mut bits = wanted.trailing_zeros();
        let mut random = random::Random::new(1);
        let mut used = Vec::new();
        let (factor, shift) = 'found: loop {
            for _ in 0..TRIES {
                let (factor, shift) = (random.word() | 1, 64 - bits);
                if Self::is_perfect(&mut used, factor, shift, keys) {
                    break 'found (factor, shift);
                }
            }
            bits += 1;
        };
        self.factor = factor;
        self.shift = shift;
        self.slots.clear();
        self.slots.resize(1 << (64 - shift), Slot::default());
        for (number, &key) in keys.iter().enumerate() {
            let row = row(number);
            self.slots[Self::place(factor, shift, key)] = Slot { key, row };
        }
    }

    /// Whether no two keys collide under this factor. `used` is reused memory with a bit for each slot.
    fn is_perfect(used: &mut Vec<u64>, factor: u64, shift: u32, keys: &[u32]) -> bool {
        used.clear();
        used.resize((1 << (64 - shift)) / 64 + 1, 0);
        keys.iter().all(|&key| {
            let place = Self::place(factor, shift, key);
            let free = used[place / 64] >> (place % 64) & 1 == 0;
            used[place / 64] |= 1 << (place % 64);
            free
        })
    }
}

#[cfg(test)]
mod tests {
    use super::Perfect;

    #[test]
    fn every_key_has_its_own_row() {
        let close = (0..256).collect::<Vec<u32>>();
        let far = (0..256).map(|i| i << 24).collect::<Vec<u32>>();
        for keys in [&close[..], &far[..], &[7], &[]] {
            let mut rows = Perfect::empty();
            rows.build(keys, |number| number + 1);
            for (number, &key) in keys.iter().enumerate() {
                assert_eq!(rows.probe(key), (true, number + 1));
            }
            let (found, row) = rows.probe(1_000_003);
            assert!(!found || row == 0);
        }
    }
}
