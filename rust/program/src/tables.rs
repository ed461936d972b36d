//! The tables as the buffers have them (docs/STATE.md): what a state that was kept, or copied, says of users, subjects and orders.

use crate::told::{Entry, Order, Session, Told};
use mishantral::State;
use records::{Record, Set};

impl Told {
    /// The tables of a state that requests have led to from this policy.
    pub fn read(policy: &[Record], state: &State) -> Told {
        let mut told = Told::loaded(policy);
        let words = &state.policy;
        let declared = |user: &u16| words[8 + usize::from(*user)] & 1 == 1;
        let roles = |user: u16| (user, Set(words[1032 + usize::from(user)]));
        told.users = (0..1024).filter(declared).map(roles).collect();
        let having = |permission: u16| {
            let roles = Set(words[2312 + usize::from(permission)]).members();
            roles.map(move |role| (u16::from(role), permission))
        };
        told.allowed = told.permissions.keys().copied().flat_map(having).collect();
        told.subjects = (0..128)
            .filter_map(|subject| Some((subject, session(state, subject)?)))
            .collect();
        told.orders = (0..64)
            .filter_map(|order| Some((order, opened(state, order)?)))
            .collect();
        told
    }
}

fn session(state: &State, subject: u16) -> Option<Session> {
    let (words, at) = (&state.sessions, usize::from(subject));
    let word = words[at];
    let (user, active) = ((word & 1023) as u16, Set(words[128 + at]));
    let had = Set(words[256 + at] | active.0);
    (word >> 10 & 1 == 1).then_some(Session { user, active, had })
}

fn opened(state: &State, order: u16) -> Option<Order> {
    let (words, at) = (&state.orders, usize::from(order));
    (words[1] >> at & 1 == 1).then_some(())?;
    let chain = words[66 + at];
    let (mut next, count) = (chain & 0xfff, chain >> 12 & 0xfff);
    let mut entries = Vec::new();
    for _ in 0..count {
        let word = *words.get(195 + next as usize)?;
        entries.push(Entry {
            user: (word >> 20 & 1023) as u16,
            task: (word >> 7 & 63) as u16,
            holder: (word >> 6 & 1 == 0).then_some((word >> 13 & 127) as u16),
        });
        next = word >> 32 & 0xfff;
    }
    // The chain begins at the newest.
    entries.reverse();
    let template = (words[2 + at] & 15) as u16;
    Some(Order { template, entries })
}
