//! The checksums of journals of version 2, against damage alone: FNV-1a over 64 bits, eight bytes at a time. They are read, and no longer written.

use super::begin::namings;
use super::Row;
use crate::names::Naming;
use crate::source::Policy;

#[derive(Clone, Copy)]
pub struct Checksum(u64);

impl Checksum {
    pub fn new() -> Checksum {
        Checksum(0xcbf2_9ce4_8422_2325)
    }

    /// One word of eight bytes. The product's upper half is folded in, so that every bit of a word reaches every bit of the sum.
    fn word(self, word: u64) -> Checksum {
        let product = (self.0 ^ word).wrapping_mul(0x9e37_79b9_7f4a_7c15);
        Checksum(product ^ product >> 32)
    }

    fn bytes(self, bytes: &[u8]) -> Checksum {
        let words = bytes.chunks_exact(8);
        let rest = words.remainder();
        let sum = words.fold(self, |sum, word| {
            sum.word(u64::from_le_bytes(word.try_into().unwrap_or_default()))
        });
        if rest.is_empty() {
            return sum;
        }
        let mut last = [0; 8];
        last[..rest.len()].copy_from_slice(rest);
        sum.word(u64::from_le_bytes(last))
    }

    pub fn number(self, number: i64) -> Checksum {
        self.word(number as u64)
    }

    /// Bytes with their length before them.
    pub fn text(self, text: &[u8]) -> Checksum {
        self.number(text.len() as i64).bytes(text)
    }

    fn naming(self, naming: &Naming) -> Checksum {
        self.text(naming.sort.word().as_bytes())
            .number(naming.number.into())
            .text(&naming.name)
    }

    pub fn whole(self) -> i64 {
        self.0 as i64
    }

    /// Folded to 32 bits, as rows keep it.
    fn half(self) -> u32 {
        (self.0 >> 32) as u32 ^ self.0 as u32
    }
}

/// A row's checksum after the one of the row before it.
pub fn of_row(before: u32, row: &Row) -> u32 {
    let user = row.user.map_or(-1, i64::from);
    let replied = i64::from(row.reply) | i64::from(row.place) << 8;
    let sum = Checksum::new()
        .number(before.into())
        .number(row.number)
        .number(row.at)
        .number(row.client)
        .text(row.account.as_bytes())
        .text(row.via.as_deref().unwrap_or_default().as_bytes())
        .number(user)
        .text(row.bytes.as_ref())
        .number(replied)
        .number(row.opening.unwrap_or(0));
    let named = row.namings.iter().fold(sum, |sum, n| sum.naming(n));
    named.half()
}

/// The checksum that the first row's is after: that of the journal's head.
pub fn first(head: i64) -> u32 {
    Checksum(head as u64).half()
}

/// The checksum of what stands before the first request: version, the buffers' lengths, policy and names.
pub fn head(policy: &Policy, lengths: [i64; 3]) -> i64 {
    let sum = Checksum::new().number(2);
    let sum = lengths.into_iter().fold(sum, Checksum::number);
    let sum = sum.text(policy.file.as_bytes()).text(&policy.bytes);
    let lines = policy.lines.iter();
    let sum = lines.fold(sum, |sum, &line| sum.number(line as i64));
    namings(policy).iter().fold(sum, Checksum::naming).whole()
}
