//! Reads the orders buffer (docs/STATE.md) in plain Rust: from its words to orders and entries, or to nothing if its links are
//! broken. Also takes the buffer after a day, lays it out differently or damages it in one place, and checks that the proved
//! library answers by this reading.

use crate::cases::{Case, Step};
use crate::compare::compare;
use crate::desks::{Checked, Desk, Panel};
use crate::slow::{Entry, Slow};
use mishantral::{Engine, Set};
use random::Random;

const MARK: usize = 0;
const OPEN: usize = 1;
const TEMPLATES: usize = 2;
const CHAINS: usize = 66;
const DONE: usize = 132;
/// The index of the word before entry 1.
const BEFORE: usize = 195;

/// The chains after those of the instances: the free entries, and the entries set aside.
const FREE: usize = 64;
const ASIDE: usize = 65;

/// The open orders with their templates, and all entries.
#[derive(Default)]
struct Read {
    orders: Vec<(u16, u16)>,
    entries: Vec<Entry>,
}

/// The chain that an entry's word names.
fn owner(entry: u64) -> usize {
    (entry % 64 + 64 * (entry >> 30 & 1)) as usize
}

fn link(entry: u64) -> u64 {
    entry >> 32 & 4095
}

fn is_done(entry: u64) -> bool {
    entry >> 6 & 1 == 1
}

fn task(entry: u64) -> u16 {
    (entry >> 7 & 63) as u16
}

fn entry(word: u64) -> Entry {
    let subject = (word >> 13 & 127) as u16;
    Entry {
        instance: (word & 63) as u16,
        user: (word >> 20 & 1023) as u16,
        task: task(word),
        holder: (!is_done(word)).then_some(subject),
    }
}

/// The words of a chain's entries. `None` if a link leads past the mark, to an entry of another chain or to one reached before,
/// or if the number of entries is not the chain's number.
fn follow(words: &[u64], chain: usize, reached: &mut [bool]) -> Option<Vec<u64>> {
    let (mut at, number) = (
        words[CHAINS + chain] % 4096,
        words[CHAINS + chain] >> 12 & 4095,
    );
    let mut found = Vec::new();
    while at != 0 {
        let reached = reached.get_mut(at as usize)?;
        let entry = words[BEFORE + at as usize];
        if *reached || owner(entry) != chain {
            return None;
        }
        *reached = true;
        found.push(entry);
        at = link(entry);
    }
    (found.len() as u64 == number).then_some(found)
}

/// The orders and entries in the words; `None` if the words are not sound.
fn read(words: &[u64]) -> Option<Read> {
    let mark = usize::try_from(words[MARK])
        .ok()
        .filter(|mark| *mark <= 2048)?;
    let mut reached = vec![false; mark + 1];
    reached[0] = true;
    let mut all = Read::default();
    for order in Set(words[OPEN]).members().map(usize::from) {
        let found = follow(words, order, &mut reached)?;
        let done = found.iter().filter(|entry| is_done(**entry));
        let done: Set = done.map(|entry| task(*entry) as u8).collect();
        if done.0 != words[DONE + order] {
            return None;
        }
        let template = (words[TEMPLATES + order] % 16) as u16;
        all.orders.push((order as u16, template));
        all.entries.extend(found.into_iter().map(entry));
    }
    follow(words, FREE, &mut reached)?;
    let aside = follow(words, ASIDE, &mut reached)?;
    (aside.is_empty() && reached.into_iter().all(|r| r)).then_some(all)
}

/// An entry's word, with junk in the bits that are never read.
fn word(random: &mut Random, e: &Entry, link: u64) -> u64 {
    let done = u64::from(e.holder.is_none());
    let subject = e.holder.map_or(random.below(128) as u64, u64::from);
    let (instance, task, user) = (u64::from(e.instance), u64::from(e.task), u64::from(e.user));
    let junk = random.word() & (1 << 31 | !0 << 44);
    instance | done << 6 | task << 7 | subject << 13 | user << 20 | link << 32 | junk
}

/// Writes the same orders and entries in another layout: in other places and another order, with free entries between them, and
/// with junk in all words that are never read. Some entries are ones that no request would make.
fn laid_out_anew(random: &mut Random, words: &mut [u64], now: Read) {
    let Read { orders, entries } = now;
    words.iter_mut().for_each(|word| *word = random.word());
    let mark = (entries.len() + random.below(20)).min(2048);
    let mut places: Vec<u64> = (1..=mark as u64).collect();
    for last in (1..places.len()).rev() {
        places.swap(last, random.below(last + 1));
    }
    words[MARK] = mark as u64;
    let open: Set = orders.iter().map(|(order, _)| *order as u8).collect();
    words[OPEN] = open.0;
    for &(order, template) in &orders {
        let at = usize::from(order);
        words[TEMPLATES + at] = u64::from(template) | random.word() << 4;
        let (mut head, mut number, mut done) = (0, 0, Set::EMPTY);
        for e in entries.iter().filter(|e| e.instance == order) {
            let mut e = e.clone();
            if random.chance(1, 20) {
                e.user = random.below(1024) as u16;
                e.task = random.below(64) as u16;
                e.holder = Some(random.below(128) as u16).filter(|_| random.chance(1, 2));
            }
            let place = places.pop().expect("there are as many places as entries");
            words[BEFORE + place as usize] = word(random, &e, head);
            (head, number) = (place, number + 1);
            if e.holder.is_none() {
                done = done.with(e.task as u8);
            }
        }
        words[CHAINS + at] = head | number << 12 | random.word() << 24;
        words[DONE + at] = done.0;
    }
    let mut head = 0;
    let free = places.len() as u64;
    for place in places {
        let junk = random.word() & !(63 | 1 << 30 | 4095 << 32);
        words[BEFORE + place as usize] = 1 << 30 | head << 32 | junk;
        head = place;
    }
    words[CHAINS + FREE] = head | free << 12 | random.word() << 24;
    words[CHAINS + ASIDE] = random.word() << 24;
}

/// The chains of sound words that have entries, each with the indexes of its words.
fn chains(words: &[u64]) -> Vec<(usize, Vec<usize>)> {
    let open = Set(words[OPEN]).members().map(usize::from);
    let places = |chain: usize| {
        let next = |at: u64| (at != 0).then_some(BEFORE + at as usize);
        let head = next(words[CHAINS + chain] % 4096);
        std::iter::successors(head, |at| next(link(words[*at]))).collect()
    };
    let all = open.chain([FREE]).map(|chain| (chain, places(chain)));
    all.filter(|(_, places): &(_, Vec<usize>)| !places.is_empty())
        .collect()
}

fn linked(entry: &mut u64, to: usize) {
    *entry = *entry & !(4095 << 32) | ((to - BEFORE) as u64) << 32;
}

/// Sound words and a random choice in them: an entry of one chain, an entry of another if there is one, and an open order.
struct Sound<'a> {
    words: &'a mut [u64],
    one: Vec<usize>,
    at: usize,
    other: usize,
    chain: usize,
    order: usize,
}

/// A way to change one thing, which mostly breaks the links or the counts: its name and the function that does it.
type Damage = (&'static str, fn(&mut Random, Sound));

const DAMAGES: [Damage; 17] = [
    ("a bit of an entry", |random, s| {
        s.words[s.at] ^= 1 << random.below(44);
    }),
    ("a bit of a table", |random, s| {
        let at = random.pick(&[MARK, OPEN, TEMPLATES + s.order, CHAINS + s.chain]);
        s.words[at] ^= 1 << random.below(64);
    }),
    ("a bit anywhere", |random, s| {
        s.words[random.below(s.words.len())] ^= 1 << random.below(64);
    }),
    ("a link into another chain", |_, s| {
        linked(&mut s.words[s.at], s.other);
    }),
    ("two chains that cross", |_, s| {
        let both = (link(s.words[s.at]), link(s.words[s.other]));
        let to = |at: u64| BEFORE + at as usize;
        linked(&mut s.words[s.at], to(both.1));
        linked(&mut s.words[s.other], to(both.0));
    }),
    ("a link to itself", |_, s| linked(&mut s.words[s.at], s.at)),
    ("a link back", |_, s| {
        linked(&mut s.words[s.one[s.one.len() - 1]], s.one[0]);
    }),
    ("an early end", |_, s| {
        linked(&mut s.words[s.one[0]], BEFORE)
    }),
    ("an entry left out", |_, s| {
        if let [first, second, ..] = s.one[..] {
            let behind = BEFORE + link(s.words[second]) as usize;
            linked(&mut s.words[first], behind);
        }
    }),
    ("an entry of another order", |random, s| {
        s.words[s.at] ^= 1 + random.below(63) as u64;
    }),
    ("an entry turned free or back", |_, s| {
        s.words[s.at] ^= 1 << 30;
    }),
    ("a number too large", |_, s| {
        s.words[CHAINS + s.chain] = s.words[CHAINS + s.chain].wrapping_add(1 << 12);
    }),
    ("a number too small", |_, s| {
        s.words[CHAINS + s.chain] = s.words[CHAINS + s.chain].wrapping_sub(1 << 12);
    }),
    ("numbers exchanged", |_, s| {
        let number = |word: u64| word >> 12 & 4095;
        let (one, free) = (s.words[CHAINS + s.chain], s.words[CHAINS + FREE]);
        let with = |word: u64, number: u64| word & !(4095 << 12) | number << 12;
        s.words[CHAINS + s.chain] = with(one, number(free));
        s.words[CHAINS + FREE] = with(free, number(one));
    }),
    ("another first entry", |_, s| {
        let head = &mut s.words[CHAINS + s.chain];
        *head = *head & !4095 | (s.other - BEFORE) as u64;
    }),
    ("a done task more or less", |random, s| {
        s.words[DONE + s.order] ^= 1 << random.below(64);
    }),
    ("another mark", |random, s| {
        let mark = s.words[MARK];
        s.words[MARK] = random.pick(&[mark + 1, mark.wrapping_sub(1), 2048, 2049, 4097]);
    }),
];

/// Changes one thing in sound words; returns its name.
fn damage(random: &mut Random, words: &mut [u64]) -> &'static str {
    let chains = chains(words);
    let open: Vec<usize> = Set(words[OPEN]).members().map(usize::from).collect();
    let order = if open.is_empty() {
        random.below(64)
    } else {
        random.pick(&open)
    };
    // If there are no entries, the first entry's word is changed instead.
    let (mut chain, mut one) = (order, vec![BEFORE + 1]);
    if !chains.is_empty() {
        (chain, one) = chains[random.below(chains.len())].clone();
    }
    let others: Vec<usize> = chains
        .iter()
        .filter(|(c, _)| *c != chain)
        .flat_map(|(_, places)| places.clone())
        .collect();
    let other = if others.is_empty() {
        random.pick(&one)
    } else {
        random.pick(&others)
    };
    let at = random.pick(&one);
    let (name, deed) = DAMAGES[random.below(DAMAGES.len())];
    let sound = Sound {
        words,
        one,
        at,
        other,
        chain,
        order,
    };
    deed(random, sound);
    name
}

/// The names of all kinds of damage.
pub fn damages() -> impl Iterator<Item = &'static str> {
    DAMAGES.into_iter().map(|(name, _)| name)
}

/// What a case did to the orders buffer, and whether the buffer was still sound.
pub struct Links {
    /// The damage, if there was any.
    pub damage: Option<&'static str>,
    /// Whether the links and the counts are sound.
    pub sound: bool,
}

/// Continues a case on an orders buffer with another layout or with damage. Reports a difference from a slow engine that has the
/// orders and entries that the words describe, or none if they are broken.
pub fn links(seed: u64, number: u64) -> Result<Links, String> {
    let mut random = Random::new(seed ^ number.wrapping_mul(0x2545_f491_4f6c_dd1d));
    let case = Case::random(seed, number);
    let (mut engine, mut slow) = (Engine::new(), Slow::default());
    let (day, rest) = case.steps.split_at(case.steps.len().min(400));
    for step in day {
        take(&mut engine, step);
        take(&mut slow, step);
    }
    let mut state = engine.into_state();
    let Some(now) = read(&state.orders) else {
        return Err(format!("case {number} left links that are not sound"));
    };
    if random.chance(1, 2) {
        laid_out_anew(&mut random, &mut state.orders, now);
    }
    let damaged = random.chance(2, 3);
    let damage = damaged.then(|| damage(&mut random, &mut state.orders));
    let read = read(&state.orders);
    let sound = read.is_some();
    let expected = match read {
        Some(Read { orders, entries }) => slow.with_orders(orders, entries),
        None => Slow::default(),
    };
    let panel = Panel::of(vec![
        Box::new(Checked(state.clone())),
        Box::new(Engine::from_state(state)),
        Box::new(expected),
    ]);
    let asks = |step: &&Step| !matches!(step, Step::Load(_) | Step::Mend(_));
    let steps = day.iter().rev().take(60).rev().chain(rest.iter().take(200));
    let case = Case {
        steps: steps.filter(asks).cloned().collect(),
        pools: case.pools,
    };
    match compare(&panel, &case, false) {
        Ok(_) => Ok(Links { damage, sound }),
        Err(failure) => {
            let told = if sound { "sound" } else { "not sound" };
            let (report, damage) = (failure.report(), damage.unwrap_or("no damage"));
            Err(format!("case {number}, {damage}, links {told}:\n{report}"))
        }
    }
}

fn take(desk: &mut dyn Desk, step: &Step) {
    match step {
        Step::Load(policy) => {
            desk.load(policy);
        }
        Step::Request(record) => {
            desk.request(record);
        }
        Step::Pile(pile) => {
            desk.pile(&pile.records, &mut pile.buffer.clone(), pile.at);
        }
        Step::Mend(mend) => {
            desk.mend(&mend.file, &mut mend.output(), &mut mend.report());
        }
        Step::Question(_) | Step::Write(_) => {}
    }
}
