//! Damage to a policy file, as a failing memory card would do it.

use random::Random;
use records::LENGTH;

/// A way to damage a file that is not empty: its name and the function that does it.
type Damage = (&'static str, fn(&mut Random, &mut Vec<u8>));

/// The start of a random record.
fn record(random: &mut Random, file: &[u8]) -> usize {
    random.below(file.len().div_ceil(LENGTH)) * LENGTH
}

/// The byte range of a record, or of what is left of it.
fn at(file: &[u8], start: usize) -> std::ops::Range<usize> {
    start..(start + LENGTH).min(file.len())
}

const DAMAGES: [Damage; 13] = [
    ("nothing", |_, _| {}),
    ("some bits", |random, file| {
        for _ in 0..1 + random.below(12) {
            let at = random.below(file.len());
            file[at] ^= 1 << random.below(8);
        }
    }),
    ("some bytes", |random, file| {
        for _ in 0..1 + random.below(6) {
            let at = random.below(file.len());
            file[at] = random.word() as u8;
        }
    }),
    ("a cut", |random, file| {
        let left = random.below(file.len());
        file.truncate(left);
    }),
    ("a cut within the last record", |random, file| {
        let left = file.len() - 1 - random.below(15).min(file.len() - 1);
        file.truncate(left);
    }),
    ("records shuffled", |random, file| {
        let mut records: Vec<Vec<u8>> = file.chunks(LENGTH).map(<[u8]>::to_vec).collect();
        for _ in 0..1 + random.below(records.len()) {
            let (one, other) = (random.below(records.len()), random.below(records.len()));
            records.swap(one, other);
        }
        *file = records.concat();
    }),
    ("records doubled", |random, file| {
        for _ in 0..1 + random.below(5) {
            let (from, to) = (record(random, file), record(random, file));
            let again = file[at(file, from)].to_vec();
            file.splice(to..to, again);
        }
    }),
    ("records left out", |random, file| {
        for _ in 0..(1 + random.below(5)).min(file.len() / LENGTH) {
            let start = record(random, file);
            file.drain(at(file, start));
        }
    }),
    ("bytes put in", |random, file| {
        let at = random.below(file.len() + 1);
        let more: Vec<u8> = (0..1 + random.below(20))
            .map(|_| random.word() as u8)
            .collect();
        file.splice(at..at, more);
    }),
    ("bytes left out", |random, file| {
        let at = random.below(file.len());
        let end = (at + 1 + random.below(20)).min(file.len());
        file.drain(at..end);
    }),
    ("a stretch of zeros", |random, file| {
        let at = random.below(file.len());
        let end = (at + 1 + random.below(64)).min(file.len());
        file[at..end].fill(0);
    }),
    ("a stretch of noise", |random, file| {
        let at = random.below(file.len());
        let end = (at + 1 + random.below(64)).min(file.len());
        file[at..end]
            .iter_mut()
            .for_each(|b| *b = random.word() as u8);
    }),
    ("the file once more behind it", |_, file| {
        file.extend(file.clone());
    }),
];

/// Damages a file; returns the name of the damage.
pub(crate) fn spoilt(random: &mut Random, file: &mut Vec<u8>) -> &'static str {
    if file.is_empty() {
        return DAMAGES[0].0;
    }
    let (name, deed) = DAMAGES[random.below(DAMAGES.len())];
    deed(random, file);
    name
}

/// The names of all kinds of damage.
pub(crate) fn damages() -> impl Iterator<Item = &'static str> {
    DAMAGES.into_iter().map(|(name, _)| name)
}
