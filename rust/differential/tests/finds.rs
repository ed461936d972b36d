//! Engines with one fault each: the comparison finds every fault and shows it with a small case.

use differential::{compare, plain, Answer, Case, Desk, Panel, Place, Slow, Walling};
use plain::{Engine, OrderLists, Reply};

/// How a record is misread.
type Bend = fn(&[u8]) -> Vec<u8>;

/// The plain engine with a fault in its input or in what it does.
#[derive(Clone)]
struct Faulty {
    engine: Engine<OrderLists>,
    /// The record that the engine gets instead.
    bent: Bend,
    /// Requests that are answered but not carried out.
    idle: fn(u8) -> bool,
    /// The reply that is given instead.
    told: fn(u8) -> u8,
    /// The loaded policy, and the place that is given instead.
    policy: Vec<u8>,
    placed: Placed,
    /// How a pile is answered.
    piled: Piled,
    /// How a question is answered.
    asked: Asked,
    /// What is written for the policy, and how a file is mended.
    wrote: Wrote,
    mended: Mended,
}

/// The records that an engine writes, from the loaded policy and the correct output.
type Wrote = fn(&[u8], Vec<u8>) -> Vec<u8>;

/// How an engine mends a file into an output and a report.
type Mended = fn(&mut Engine<OrderLists>, &[u8], &mut [u8], &mut [(u64, u64)]) -> (Reply, usize);

/// How an engine answers a question, from the record and the answer buffer.
type Asked = fn(&Engine<OrderLists>, &[u8], &mut [u64]) -> Reply;

/// How an engine answers a pile, from the records, the buffer and the index.
type Piled = fn(&mut Faulty, &[u8], &mut [u8], usize) -> u8;

/// The place, from the loaded policy, the request and the correct answer.
type Placed = fn(&[u8], &[u8], Answer) -> usize;

impl Desk for Faulty {
    fn name(&self) -> &'static str {
        "faulty"
    }

    fn load(&mut self, policy: &[u8]) -> Answer {
        let bent: Vec<u8> = policy.chunks(16).flat_map(self.bent).collect();
        let (reply, place) = self.engine.load(&bent);
        self.policy = policy.to_vec();
        ((self.told)(reply.number()), place)
    }

    fn request(&mut self, record: &[u8]) -> Answer {
        let before = self.engine.clone();
        let (reply, place) = self.engine.request(&(self.bent)(record));
        if record.first().is_some_and(|kind| (self.idle)(*kind)) {
            self.engine = before;
        }
        let place = (self.placed)(&self.policy, record, (reply.number(), place));
        ((self.told)(reply.number()), place)
    }

    fn copy(&self) -> Box<dyn Desk> {
        Box::new(self.clone())
    }

    fn pile(&mut self, records: &[u8], answers: &mut [u8], at: usize) -> u8 {
        (self.piled)(self, records, answers, at)
    }

    fn question(&self, record: &[u8], answer: &mut [u64]) -> u8 {
        (self.asked)(&self.engine, record, answer).number()
    }

    fn write(&self, output: &mut [u8]) -> Option<Answer> {
        let policy = (self.wrote)(&self.policy, self.engine.written());
        let Some(front) = output.get_mut(..policy.len()) else {
            return Some((1, 0));
        };
        front.copy_from_slice(&policy);
        Some((0, policy.len() / 16))
    }

    fn mend(&mut self, file: &[u8], output: &mut [u8], report: &mut [(u64, u64)]) -> Answer {
        let (reply, kept) = (self.mended)(&mut self.engine, file, output, report);
        if reply == Reply::Granted {
            self.policy = output[..kept * 16].to_vec();
        }
        (reply.number(), kept)
    }
}

/// Answers correctly: the requests in sequence, unless ROOM or SHAPE applies to the pile.
fn rightly(desk: &mut Faulty, records: &[u8], answers: &mut [u8], at: usize) -> u8 {
    let whole = records.len() / 16;
    if at > answers.len() || whole > answers.len() - at {
        return 1;
    }
    if 16 * whole != records.len() {
        return 2;
    }
    for (record, answer) in records.chunks(16).zip(&mut answers[at..]) {
        *answer = desk.request(record).0;
    }
    0
}

fn sound() -> Faulty {
    Faulty {
        engine: Engine::new(),
        bent: <[u8]>::to_vec,
        idle: |_| false,
        told: |reply| reply,
        policy: Vec::new(),
        placed: |_, _, (_, place)| place,
        piled: rightly,
        asked: Engine::question,
        wrote: |_, policy| policy,
        mended: Engine::mend,
    }
}

/// The report of the first case that shows the fault.
fn found(faulty: impl Desk + 'static) -> Option<String> {
    let good = plain("plain", Engine::<OrderLists>::new());
    let panel = Panel::of(vec![good, Box::new(faulty)]);
    let failure = |number| compare(&panel, &Case::random(5, number), false).err();
    (0..400).find_map(failure).map(|f| f.report())
}

fn finds(faulty: impl Desk + 'static, most_lines: usize) {
    let report = found(faulty).expect("the fault is found");
    assert!(report.lines().count() <= most_lines, "{report}");
}

#[test]
fn a_sound_engine_is_not_blamed() {
    assert_eq!(found(sound()), None);
}

/// A user's number truncated to one byte.
fn one_byte(record: &[u8]) -> Vec<u8> {
    let mut bent = record.to_vec();
    match record.first() {
        Some(1 | 4 | 32..=35) if bent.len() == 16 && bent[3] < 4 => bent[3] = 0,
        Some(40) if bent.len() == 16 && bent[5] < 4 => bent[5] = 0,
        _ => {}
    }
    bent
}

#[test]
fn a_user_number_in_one_byte_is_found() {
    finds(
        Faulty {
            bent: one_byte,
            ..sound()
        },
        8,
    );
}

#[test]
fn a_reply_without_a_deed_is_found_for_every_kind_that_does_something() {
    let kinds: [fn(u8) -> bool; 15] = [
        |k| k == 32,
        |k| k == 33,
        |k| k == 34,
        |k| k == 35,
        |k| k == 36,
        |k| k == 37,
        |k| k == 40,
        |k| k == 41,
        |k| k == 42,
        |k| k == 43,
        |k| k == 48,
        |k| k == 49,
        |k| k == 50,
        |k| k == 51,
        |k| k == 52,
    ];
    for idle in kinds {
        finds(Faulty { idle, ..sound() }, 40);
    }
}

/// Each rule record is read as a weaker or a different one.
#[test]
fn a_rule_that_is_read_wrongly_is_found() {
    let bends: [Bend; 6] = [
        // A set that allows one member more, if such a set is still well-formed.
        |r| bent(r, 9, |b| b[1] += u8::from(ones(b) > u32::from(b[1]) + 1)),
        |r| bent(r, 10, |b| b[1] += u8::from(ones(b) > u32::from(b[1]) + 1)),
        |r| bent(r, 11, |b| b[1] += u8::from(ones(b) > u32::from(b[1]) + 1)),
        // A limit that allows one more.
        |r| bent(r, 14, |b| b[1] = b[1].saturating_add(u8::from(b[1] > 0))),
        // A prerequisite with its two tasks exchanged.
        |r| bent(r, 16, |b| (b[2], b[4]) = (b[4], b[2])),
        // Two partitionings read as one.
        |r| bent(r, 12, |b| b[2] /= if b[2] < 16 { 2 } else { 1 }),
    ];
    for bent in bends {
        finds(Faulty { bent, ..sound() }, 40);
    }
}

fn bent(record: &[u8], kind: u8, change: impl Fn(&mut Vec<u8>)) -> Vec<u8> {
    let mut bytes = record.to_vec();
    if bytes.len() == 16 && bytes[0] == kind {
        change(&mut bytes);
    }
    bytes
}

fn ones(record: &[u8]) -> u32 {
    record[8..].iter().map(|byte| byte.count_ones()).sum()
}

#[test]
fn a_reply_told_as_another_is_found() {
    let tells: [fn(u8) -> u8; 5] = [
        |reply| if reply == 3 { 2 } else { reply },
        |reply| if reply == 9 { 10 } else { reply },
        |reply| if reply == 15 { 16 } else { reply },
        |reply| if reply == 18 { 19 } else { reply },
        |reply| if reply == 20 { 19 } else { reply },
    ];
    for told in tells {
        finds(Faulty { told, ..sound() }, 120);
    }
}

/// The rules of the kind to which a reply's place refers.
fn rules(policy: &[u8], reply: u8) -> impl Iterator<Item = &[u8]> {
    let kind = records::Reply::from_number(reply.into()).and_then(records::Reply::rule_kind);
    policy.chunks(16).filter(move |rule| Some(rule[0]) == kind)
}

/// Whether a rule names the claimed task.
fn about(rule: &[u8], claim: &[u8]) -> bool {
    let task = claim[6];
    match rule[0] {
        11 | 12 => rule[8 + usize::from(task / 8)] & 1 << (task % 8) != 0,
        _ => rule[2] == task || rule[4] == task,
    }
}

#[test]
fn a_place_that_is_another_rule_s_is_found() {
    let wrong: [Placed; 6] = [
        // Counted from 0.
        |_, _, (_, place)| place.saturating_sub(1),
        // Counted only among the rules about the claimed task.
        |policy, claim, (reply, place)| match reply {
            14 | 15 | 18 => {
                let rules = rules(policy, reply).take(place);
                rules.filter(|rule| about(rule, claim)).count()
            }
            _ => place,
        },
        // For a block, counted within its partitioning.
        |policy, _, (reply, place)| match (reply, rules(policy, reply).nth(place.max(1) - 1)) {
            (16, Some(met)) => {
                let rules = rules(policy, reply).take(place);
                rules.filter(|rule| rule[2] == met[2]).count()
            }
            _ => place,
        },
        // The last rule of the kind.
        |policy, _, (reply, place)| match place {
            0 => 0,
            _ => rules(policy, reply).count(),
        },
        // Also given with COUNT.
        |_, _, (reply, place)| place + usize::from(reply == 19),
        // Given for one kind of rule only.
        |_, _, (reply, place)| if reply == 15 { place } else { 0 },
    ];
    for placed in wrong {
        finds(Faulty { placed, ..sound() }, 60);
    }
}

#[test]
fn a_pile_that_is_answered_wrongly_is_found() {
    let wrong: [Piled; 6] = [
        // The replies are written from index 0.
        |desk, records, answers, at| match rightly(desk, records, answers, at) {
            0 => {
                answers.rotate_left(at);
                0
            }
            refused => refused,
        },
        // The pile ends at the first refusal.
        |desk, records, answers, at| {
            let before = desk.engine.clone();
            let reply = rightly(desk, records, answers, at);
            let granted = answers.iter().skip(at).take_while(|reply| **reply == 0);
            let done = 16 * (granted.count() + 1).min(records.len() / 16);
            if reply == 0 {
                desk.engine = before;
                let _ = rightly(desk, &records[..done], answers, at);
            }
            reply
        },
        // SHAPE is checked before ROOM.
        |desk, records, answers, at| match records.len() % 16 {
            0 => rightly(desk, records, answers, at),
            _ => 2,
        },
        // A byte is written after the last reply.
        |desk, records, answers, at| {
            let reply = rightly(desk, records, answers, at);
            if let Some(byte) = answers.get_mut(at + records.len() / 16) {
                *byte = if reply == 0 { 0 } else { *byte };
            }
            reply
        },
        // The whole records of a pile with a truncated one are carried out.
        |desk, records, answers, at| {
            let whole = &records[..records.len() / 16 * 16];
            let reply = rightly(desk, whole, answers, at);
            reply.max(2 * u8::from(whole.len() < records.len() && reply == 0))
        },
        // An empty pile is refused.
        |desk, records, answers, at| match records.len() {
            0 => 2,
            _ => rightly(desk, records, answers, at),
        },
    ];
    for piled in wrong {
        finds(Faulty { piled, ..sound() }, 40);
    }
}

/// The entries of the order that the record asks about.
fn entries(engine: &Engine<OrderLists>, record: &[u8]) -> Vec<plain::Entry> {
    let of_it = |e: &plain::Entry| record.get(2) == Some(&e.instance);
    engine.entries().into_iter().filter(of_it).collect()
}

#[test]
fn a_question_that_is_answered_wrongly_is_found() {
    let wrong: [Asked; 10] = [
        // Only held entries are counted.
        |engine, record, answer| {
            let reply = engine.question(record, answer);
            if reply == Reply::Granted && record[0] == 58 {
                let held = entries(engine, record).into_iter();
                answer[0] = held.filter(|e| e.holder.is_some()).count() as u64;
            }
            reply
        },
        // A held task is reported as done.
        |engine, record, answer| {
            let reply = engine.question(record, answer);
            if reply == Reply::Granted && record[0] == 58 {
                let tasks = entries(engine, record).into_iter();
                answer[1] = tasks.fold(0, |all, e| all | 1 << e.task);
            }
            reply
        },
        // Words after the figures keep their values.
        |engine, record, answer| {
            let before = answer.to_vec();
            let reply = engine.question(record, answer);
            if reply == Reply::Granted {
                answer[65] = before[65];
            }
            reply
        },
        // Free tasks are given in the order of their numbers.
        |engine, record, answer| {
            let reply = engine.question(record, answer);
            if reply == Reply::Granted && record[0] == 60 {
                let free = answer[1] as usize;
                answer[2..2 + free].sort();
            }
            reply
        },
        // The set of free tasks is given instead of the stuck ones.
        |engine, record, answer| {
            let reply = engine.question(record, answer);
            if reply == Reply::Granted && record[0] == 60 {
                let free = &answer[2..2 + answer[1] as usize];
                answer[0] = free.iter().fold(0, |all, task| all | 1 << task);
            }
            reply
        },
        // No free tasks are listed if some are stuck.
        |engine, record, answer| {
            let reply = engine.question(record, answer);
            if reply == Reply::Granted && record[0] == 60 && answer[0] != 0 {
                answer[1..].fill(0);
            }
            reply
        },
        // A refusal clears the answer.
        |engine, record, answer| {
            let reply = engine.question(record, answer);
            if reply != Reply::Granted {
                answer.fill(0);
            }
            reply
        },
        // An answer that is too long is accepted.
        |engine, record, answer| {
            let most = answer.len().min(66);
            engine.question(record, &mut answer[..most])
        },
        // The record is checked before the room.
        |engine, record, answer| match engine.question(record, &mut [0; 66]) {
            Reply::Granted => engine.question(record, answer),
            refused => refused,
        },
        // Every request is accepted as a question.
        |engine, record, answer| match engine.question(record, answer) {
            Reply::Shape => engine.clone().request(record).0,
            reply => reply,
        },
    ];
    for asked in wrong {
        finds(Faulty { asked, ..sound() }, 40);
    }
}

/// The policy with its list of records changed.
fn rows(policy: &[u8], change: impl Fn(&mut Vec<&[u8]>)) -> Vec<u8> {
    let mut rows: Vec<&[u8]> = policy.chunks(16).collect();
    change(&mut rows);
    rows.concat()
}

/// A record's kind, a and b.
fn key(row: &[u8]) -> (u8, u16, u16) {
    let number = |at: usize| u16::from_le_bytes([row[at], row[at + 1]]);
    (row[0], number(2), number(4))
}

#[test]
fn a_policy_that_is_written_wrongly_is_found() {
    let wrong: [Wrote; 8] = [
        // The policy as it was loaded, without later changes.
        |loaded, _| loaded.to_vec(),
        // Rules are written in sorted order.
        |_, policy| rows(&policy, |rows| rows.sort()),
        // Assignments are ordered by role and then user.
        |_, policy| {
            rows(&policy, |rows| {
                rows.sort_by_key(|row| match key(row) {
                    (4, user, role) => (4, role, user),
                    (kind, ..) => (kind, 0, 0),
                });
            })
        },
        // Kinds in another order: rules before what they refer to.
        |_, policy| {
            rows(&policy, |rows| {
                rows.sort_by_key(|row| if row[0] == 9 { 3 } else { row[0] });
            })
        },
        // The last record is left out.
        |_, mut policy| {
            policy.truncate(policy.len().saturating_sub(16));
            policy
        },
        // Senior roles in the order of the policy.
        |loaded, policy| {
            let others = rows(&policy, |rows| rows.retain(|row| row[0] != 17));
            let above = loaded.chunks_exact(16).filter(|row| row[0] == 17);
            match others.len() < policy.len() {
                true => [others, above.collect::<Vec<_>>().concat()].concat(),
                false => policy,
            }
        },
        // A limit without its number.
        |_, mut policy| {
            for row in policy.chunks_mut(16).filter(|row| row[0] == 14) {
                row[1] = 1;
            }
            policy
        },
        // Users' numbers truncated to one byte.
        |_, mut policy| {
            for row in policy.chunks_mut(16).filter(|row| row[0] == 1) {
                row[3] = 0;
            }
            policy
        },
    ];
    for wrote in wrong {
        finds(Faulty { wrote, ..sound() }, 60);
    }
}

#[test]
fn a_file_that_is_mended_wrongly_is_found() {
    let wrong: [Mended; 9] = [
        // A dropped record is written too.
        |engine, file, output, report| {
            let answer = engine.mend(file, output, report);
            if answer.0 == Reply::Granted {
                output[..file.len()].copy_from_slice(file);
            }
            answer
        },
        // The truncated record is not reported.
        |engine, file, output, report| {
            let whole = file.len() / 16 * 16;
            match output.len() < file.len() {
                true => (Reply::Room, 0),
                false => engine.mend(&file[..whole], output, report),
            }
        },
        // Each record is judged as if nothing had been kept before it.
        |engine, file, output, report| {
            let answer = engine.mend(file, output, report);
            let alone = |record: &[u8]| Engine::<OrderLists>::new().policy_record(record);
            let refused = file.chunks(16).zip(1..).map(|(r, place)| (place, alone(r)));
            let refused = refused.filter(|(_, reply)| *reply != Reply::Granted);
            if answer.0 == Reply::Granted {
                for (entry, (place, reply)) in report.iter_mut().zip(refused) {
                    *entry = (place, reply.number().into());
                }
            }
            answer
        },
        // Mending ends at the first refusal.
        |engine, file, output, report| {
            let (_, place) = Engine::<OrderLists>::new().load(file);
            let end = place
                .checked_sub(1)
                .map_or(file.len(), |before| before * 16);
            match output.len() < file.len() || report.len() <= file.len() / 16 {
                true => (Reply::Room, 0),
                false => engine.mend(&file[..end], output, report),
            }
        },
        // Places are counted from 0.
        |engine, file, output, report| {
            let (reply, kept) = engine.mend(file, output, report);
            let told = if reply == Reply::Granted {
                file.len().div_ceil(16) - kept
            } else {
                0
            };
            report[..told].iter_mut().for_each(|entry| entry.0 -= 1);
            (reply, kept)
        },
        // Sessions and orders are kept.
        |engine, file, output, report| {
            let mut other = Engine::new();
            let (reply, kept) = other.mend(file, output, report);
            if reply == Reply::Granted && kept * 16 < file.len() {
                *engine = other;
            }
            (reply, kept)
        },
        // The output after the last record is cleared.
        |engine, file, output, report| {
            let (reply, kept) = engine.mend(file, output, report);
            if reply == Reply::Granted {
                output[kept * 16..].fill(0);
            }
            (reply, kept)
        },
        // One entry too many is reported.
        |engine, file, output, report| {
            let (reply, kept) = engine.mend(file, output, report);
            if reply == Reply::Granted {
                report[file.len().div_ceil(16) - kept] = (0, 0);
            }
            (reply, kept)
        },
        // An output with room for the whole records only is accepted.
        |engine, file, output, report| {
            let mut longer = [&*output, &[0; 15]].concat();
            let answer = engine.mend(file, &mut longer, report);
            let length = output.len();
            output.copy_from_slice(&longer[..length]);
            answer
        },
    ];
    for mended in wrong {
        finds(Faulty { mended, ..sound() }, 60);
    }
}

#[test]
fn walls_that_are_taken_wrongly_are_found() {
    for walling in Walling::ALL {
        finds(Slow::walling(walling), 60);
    }
}

#[test]
fn a_place_that_forgets_the_roles_below_is_found() {
    for place in Place::ALL {
        finds(Slow::forgetting(place), 60);
    }
    assert_eq!(found(Slow::default()), None);
}
