//! Piles at their limits on all engines: every index, every length of the buffer, and the largest number of records.

use differential::{Panel, Pile};
use records::Record;

/// Granted and refused requests in turn: users 0, 0, 1, 1 and so on are added.
fn records(count: usize) -> Vec<u8> {
    let users = (0..count).map(|k| (k / 2 % 1024) as u16);
    users.flat_map(|user| Record::add_user(user).0).collect()
}

/// The correct reply to the pile and the buffer afterwards, by document 02.
fn expected(pile: &Pile) -> (u8, Vec<u8>) {
    let (whole, length) = (pile.records.len() / 16, pile.buffer.len());
    if pile.at > length || length - pile.at < whole || whole > 4096 {
        return (1, pile.buffer.clone());
    }
    if 16 * whole != pile.records.len() {
        return (2, pile.buffer.clone());
    }
    let mut one_by_one = Panel::all();
    let mut buffer = pile.buffer.clone();
    for (k, record) in pile.records.chunks(16).enumerate() {
        buffer[pile.at + k] = one_by_one.request(record).unwrap().0;
    }
    (0, buffer)
}

fn comes_out(records: Vec<u8>, length: usize, at: usize) {
    let buffer = (0..length).map(|k| 200 + (k % 50) as u8).collect();
    let pile = Pile {
        records,
        buffer,
        at,
    };
    let mut panel = Panel::all();
    let answer = panel.pile(&pile).unwrap_or_else(|d| panic!("{d:?}"));
    let (bytes, wanted) = (pile.records.len(), expected(&pile));
    assert_eq!(answer, wanted, "{bytes} bytes at {at} of {length}");
    // All users of an accepted pile exist; after a refused pile, none does.
    for user in 0..4 {
        let joined = answer.0 == 0 && 2 * usize::from(user) < bytes / 16;
        let reply = panel.request(&Record::add_user(user).0).unwrap().0;
        assert_eq!(reply, if joined { 5 } else { 0 });
    }
}

#[test]
fn every_place_and_every_length_of_few_records() {
    for bytes in [0, 1, 15, 16, 17, 31, 32, 33, 47, 48, 64] {
        for length in 0..7 {
            for at in (0..9).chain([usize::MAX - 1, usize::MAX]) {
                comes_out(records(5)[..bytes].to_vec(), length, at);
            }
        }
    }
}

#[test]
fn as_many_records_as_there_may_be() {
    for count in [4095, 4096, 4097] {
        for (length, at) in [(count, 0), (count, 1), (count - 1, 0), (count + 9, 4)] {
            comes_out(records(count), length, at);
        }
        let mut cut = records(count);
        cut.extend([1; 15]);
        comes_out(cut, count, 0);
    }
}
