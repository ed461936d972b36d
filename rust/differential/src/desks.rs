//! The engines that are compared, behind one interface, and a panel that gives all of them the same calls.

use crate::cases::{Mend, Pile, Question};
use crate::slow::Slow;
use plain::{Engine, FlatLedger, Ledger, OrderLists};
use records::{Record, Reply, LENGTH};

/// A reply's number, and a place: of a load's refused record, or of the rule that refused a claim.
pub type Answer = (u8, usize);

/// An engine that is compared.
pub trait Desk {
    /// The name in reports.
    fn name(&self) -> &'static str;
    /// Loads a policy.
    fn load(&mut self, policy: &[u8]) -> Answer;
    /// Answers a request.
    fn request(&mut self, record: &[u8]) -> Answer;
    /// A copy of the engine in the same state.
    fn copy(&self) -> Box<dyn Desk>;

    /// Answers a pile of requests into a buffer from index `at` on. The default, for an engine without a call for piles, checks
    /// the pile and makes the requests one by one.
    fn pile(&mut self, records: &[u8], answers: &mut [u8], at: usize) -> u8 {
        let whole = records.len() / LENGTH;
        if at > answers.len() || whole > answers.len() - at || whole > 4096 {
            return Reply::Room.number();
        }
        if !records.chunks_exact(LENGTH).remainder().is_empty() {
            return Reply::Shape.number();
        }
        for (k, record) in records.chunks(LENGTH).enumerate() {
            answers[at + k] = self.request(record).0;
        }
        Reply::Granted.number()
    }

    /// Answers a question and writes its figures to the answer. The default, for an engine without a call for questions, refuses
    /// all.
    fn question(&self, _record: &[u8], _answer: &mut [u64]) -> u8 {
        Reply::Shape.number()
    }

    /// Writes the policy to the start of the output: the reply and the number of records. `None` if the engine has no call for
    /// it.
    fn write(&self, _output: &mut [u8]) -> Option<Answer> {
        None
    }

    /// Mends a file into the output and the report: the reply and the number of records kept. The default, for an engine without
    /// a call for it, loads what the plain engine keeps.
    fn mend(&mut self, file: &[u8], output: &mut [u8], report: &mut [(u64, u64)]) -> Answer {
        let (reply, kept) = Engine::<OrderLists>::new().mend(file, output, report);
        match reply {
            plain::Reply::Granted => match self.load(&output[..kept * LENGTH]) {
                (0, _) => (0, kept),
                refused => refused,
            },
            refused => (refused.number(), 0),
        }
    }

    /// The replies to records, in sequence. Each engine gets its own instance of this loop with its `request` inlined, so that a
    /// time measured around it contains no dynamic call for each record.
    fn answer_all(&mut self, records: &[Record], replies: &mut [u8]) {
        for (record, reply) in records.iter().zip(replies) {
            *reply = self.request(&record.0).0;
        }
    }
}

struct Plain<L>(&'static str, Engine<L>);

impl<L: Ledger + 'static> Desk for Plain<L> {
    fn name(&self) -> &'static str {
        self.0
    }

    fn load(&mut self, policy: &[u8]) -> Answer {
        let (reply, place) = self.1.load(policy);
        (reply.number(), place)
    }

    fn request(&mut self, record: &[u8]) -> Answer {
        let (reply, place) = self.1.request(record);
        (reply.number(), place)
    }

    fn copy(&self) -> Box<dyn Desk> {
        Box::new(Plain(self.0, self.1.clone()))
    }

    fn pile(&mut self, records: &[u8], answers: &mut [u8], at: usize) -> u8 {
        self.1.pile(records, answers, at).number()
    }

    fn question(&self, record: &[u8], answer: &mut [u64]) -> u8 {
        self.1.question(record, answer).number()
    }

    fn write(&self, output: &mut [u8]) -> Option<Answer> {
        let (reply, records) = self.1.write(output);
        Some((reply.number(), records))
    }

    fn mend(&mut self, file: &[u8], output: &mut [u8], report: &mut [(u64, u64)]) -> Answer {
        let (reply, kept) = self.1.mend(file, output, report);
        (reply.number(), kept)
    }
}

impl Desk for Slow {
    fn name(&self) -> &'static str {
        "slow"
    }

    fn load(&mut self, policy: &[u8]) -> Answer {
        let (reply, place) = Slow::load(self, policy);
        (reply.number(), place)
    }

    fn request(&mut self, record: &[u8]) -> Answer {
        let (reply, place) = Slow::request(self, record);
        (reply.number(), place)
    }

    fn copy(&self) -> Box<dyn Desk> {
        Box::new(self.clone())
    }

    fn pile(&mut self, records: &[u8], answers: &mut [u8], at: usize) -> u8 {
        let (reply, written) = Slow::pile(self, records, answers, at);
        answers.copy_from_slice(&written);
        reply.number()
    }

    fn question(&self, record: &[u8], answer: &mut [u64]) -> u8 {
        let (reply, written) = Slow::question(self, record, answer);
        answer.copy_from_slice(&written);
        reply.number()
    }

    fn write(&self, output: &mut [u8]) -> Option<Answer> {
        let (reply, records, written) = Slow::write(self, output);
        output.copy_from_slice(&written);
        Some((reply.number(), records))
    }

    fn mend(&mut self, file: &[u8], output: &mut [u8], report: &mut [(u64, u64)]) -> Answer {
        let (reply, kept, written, told) = Slow::mend(self, file, output, report);
        output.copy_from_slice(&written);
        report.copy_from_slice(&told);
        (reply.number(), kept)
    }
}

/// The result of the library's call: the reply and the number of records.
#[cfg(any(mishantral_write, mishantral_lower_write, mishantral_mend))]
fn counted(written: Result<usize, Reply>) -> Answer {
    match written {
        Ok(records) => (0, records),
        Err(refused) => (refused.number(), 0),
    }
}

/// Mends a file with the library, in a given state.
#[cfg(mishantral_mend)]
fn mend_in(
    state: &mut mishantral::State,
    file: &[u8],
    output: &mut [u8],
    report: &mut [(u64, u64)],
) -> Answer {
    let entry = |(place, reply): &(u64, u64)| mishantral::Entry {
        place: *place,
        reply: *reply,
    };
    let mut entries: Vec<mishantral::Entry> = report.iter().map(entry).collect();
    let answer = counted(state.mend(file, output, &mut entries));
    for (told, entry) in report.iter_mut().zip(entries) {
        *told = (entry.place, entry.reply);
    }
    answer
}

/// Implements `Desk` for a wrapper of the proved engine: the wrappers of the whole engine and of the lower part have the same
/// calls.
#[cfg(any(mishantral_engine, mishantral_lower))]
macro_rules! proved_desk {
    ($engine:ty $(, $more:item)*) => {
        impl Desk for $engine {
            fn name(&self) -> &'static str {
                "proved"
            }

            fn load(&mut self, policy: &[u8]) -> Answer {
                match <$engine>::load(self, policy) {
                    Ok(()) => (0, 0),
                    Err(refused) => (refused.reply.number(), refused.place),
                }
            }

            fn request(&mut self, record: &[u8]) -> Answer {
                let answer = mishantral::Answer::from(<$engine>::request(self, record));
                (answer.reply.number(), answer.place)
            }

            fn copy(&self) -> Box<dyn Desk> {
                Box::new(self.clone())
            }

            $($more)*
        }
    };
}

#[cfg(mishantral_engine)]
proved_desk!(
    mishantral::Engine,
    #[cfg(mishantral_pile)]
    fn pile(&mut self, records: &[u8], answers: &mut [u8], at: usize) -> u8 {
        self.pile_bytes(records, answers, at).number()
    },
    fn question(&self, record: &[u8], answer: &mut [u64]) -> u8 {
        mishantral::Engine::question(self, record, answer).number()
    },
    #[cfg(mishantral_write)]
    fn write(&self, output: &mut [u8]) -> Option<Answer> {
        Some(counted(self.write_into(output)))
    },
    #[cfg(mishantral_mend)]
    fn mend(&mut self, file: &[u8], output: &mut [u8], report: &mut [(u64, u64)]) -> Answer {
        let mut state = self.state().clone();
        let answer = mend_in(&mut state, file, output, report);
        *self = mishantral::Engine::from_state(state);
        answer
    }
);

#[cfg(mishantral_lower)]
proved_desk!(
    mishantral::lower::Engine,
    #[cfg(mishantral_lower_write)]
    fn write(&self, output: &mut [u8]) -> Option<Answer> {
        Some(counted(self.write_into(output)))
    }
);

/// The proved engine through the request that accepts any content of the state.
#[cfg(mishantral_engine)]
pub(crate) struct Checked(pub mishantral::State);

#[cfg(mishantral_engine)]
impl Desk for Checked {
    fn name(&self) -> &'static str {
        "checked"
    }

    fn load(&mut self, policy: &[u8]) -> Answer {
        match self.0.load(policy) {
            Ok(()) => (0, 0),
            Err(refused) => (refused.reply.number(), refused.place),
        }
    }

    fn request(&mut self, record: &[u8]) -> Answer {
        let answer = self.0.request(record);
        (answer.reply.number(), answer.place)
    }

    fn copy(&self) -> Box<dyn Desk> {
        Box::new(Checked(self.0.clone()))
    }

    fn question(&self, record: &[u8], answer: &mut [u64]) -> u8 {
        self.0.question(record, answer).number()
    }

    #[cfg(mishantral_write)]
    fn write(&self, output: &mut [u8]) -> Option<Answer> {
        Some(counted(self.0.write_into(output)))
    }

    #[cfg(mishantral_mend)]
    fn mend(&mut self, file: &[u8], output: &mut [u8], report: &mut [(u64, u64)]) -> Answer {
        mend_in(&mut self.0, file, output, report)
    }
}

/// A proved engine that uses that request.
#[cfg(mishantral_engine)]
pub fn checked() -> Option<Box<dyn Desk>> {
    Some(Box::new(Checked(mishantral::State::zeroed())))
}

/// As above; `None`, because the library is not linked.
#[cfg(not(mishantral_engine))]
pub fn checked() -> Option<Box<dyn Desk>> {
    None
}

/// The lower part of an engine: it does not know the kinds about orders.
struct Lowered(Box<dyn Desk>);

impl Desk for Lowered {
    fn name(&self) -> &'static str {
        self.0.name()
    }

    fn load(&mut self, policy: &[u8]) -> Answer {
        self.0.load(policy)
    }

    fn request(&mut self, record: &[u8]) -> Answer {
        match record.first() {
            Some(48..=52 | 57 | 58 | 60) => (Reply::Shape.number(), 0),
            _ => self.0.request(record),
        }
    }

    fn copy(&self) -> Box<dyn Desk> {
        Box::new(Lowered(self.0.copy()))
    }

    fn write(&self, output: &mut [u8]) -> Option<Answer> {
        self.0.write(output)
    }

    fn mend(&mut self, file: &[u8], output: &mut [u8], report: &mut [(u64, u64)]) -> Answer {
        self.0.mend(file, output, report)
    }
}

/// An engine that answers a pile by single requests.
struct OneByOne(Box<dyn Desk>);

impl Desk for OneByOne {
    fn name(&self) -> &'static str {
        self.0.name()
    }

    fn load(&mut self, policy: &[u8]) -> Answer {
        self.0.load(policy)
    }

    fn request(&mut self, record: &[u8]) -> Answer {
        self.0.request(record)
    }

    fn copy(&self) -> Box<dyn Desk> {
        Box::new(OneByOne(self.0.copy()))
    }

    fn question(&self, record: &[u8], answer: &mut [u64]) -> u8 {
        self.0.question(record, answer)
    }

    fn write(&self, output: &mut [u8]) -> Option<Answer> {
        self.0.write(output)
    }

    fn mend(&mut self, file: &[u8], output: &mut [u8], report: &mut [(u64, u64)]) -> Answer {
        self.0.mend(file, output, report)
    }
}

/// The proved engine, if the library is linked.
#[cfg(mishantral_engine)]
pub fn proved() -> Option<Box<dyn Desk>> {
    Some(Box::new(mishantral::Engine::new()))
}

/// As above; `None`, because the library is not linked.
#[cfg(not(mishantral_engine))]
pub fn proved() -> Option<Box<dyn Desk>> {
    None
}

#[cfg(mishantral_lower)]
fn proved_lower() -> Option<Box<dyn Desk>> {
    Some(Box::new(mishantral::lower::Engine::new()))
}

#[cfg(not(mishantral_lower))]
fn proved_lower() -> Option<Box<dyn Desk>> {
    None
}

/// A plain engine with a name.
pub fn plain<L: Ledger + 'static>(name: &'static str, engine: Engine<L>) -> Box<dyn Desk> {
    Box::new(Plain(name, engine))
}

/// Each engine's answer in words, if they did not all agree.
#[derive(Clone, Debug)]
pub struct Difference(pub Vec<(&'static str, String)>);

fn shown((reply, place): &Answer) -> String {
    let name = Reply::from_number((*reply).into()).map_or("?", Reply::name);
    format!("{reply} {name}, place {place}")
}

/// A pile's reply, and the buffer after the call.
type Piled = (u8, Vec<u8>);

fn shown_pile((reply, buffer): &Piled) -> String {
    format!("{}, buffer {buffer:?}", shown(&(*reply, 0)))
}

/// A question's reply, and the answer buffer after the call.
type Asked = (u8, Vec<u64>);

fn shown_question((reply, answer): &Asked) -> String {
    let runs = answer.chunk_by(|one, other| one == other);
    let shown_run = |run: &[u64]| match run.len() {
        1 => format!("{:#x}", run[0]),
        times => format!("{times} times {:#x}", run[0]),
    };
    let words: Vec<String> = runs.map(shown_run).collect();
    format!("{}, answer {}", shown(&(*reply, 0)), words.join(", "))
}

/// The result of writing: the reply, the number of records, and the output after the call.
pub type Written = (u8, usize, Vec<u8>);

fn shown_written((reply, records, output): &Written) -> String {
    let written = output.get(..records * LENGTH).unwrap_or_default();
    let lines: Vec<String> = written.chunks(LENGTH).map(notation::line).collect();
    let rest = &output[written.len()..];
    let (reply, lines) = (shown(&(*reply, 0)), lines.join("; "));
    format!("{reply}, {records} records: {lines}; behind them {rest:?}")
}

/// The result of mending: the reply, the number of records kept, and the output and the report after the call.
pub type Mended = (u8, usize, Vec<u8>, Vec<(u64, u64)>);

fn shown_mended((reply, kept, output, report): &Mended) -> String {
    let written = shown_written(&(*reply, *kept, output.clone()));
    format!("{written}; report {report:?}")
}

/// Several engines that get the same calls.
pub struct Panel(Vec<Box<dyn Desk>>);

impl Panel {
    /// All available engines, the plain one first.
    pub fn all() -> Panel {
        let mut desks = vec![
            plain("lists", Engine::<OrderLists>::new()),
            Box::new(OneByOne(plain("flat", Engine::<FlatLedger>::new()))),
        ];
        desks.extend(proved());
        desks.extend(checked());
        desks.push(Box::new(Slow::default()));
        Panel(desks)
    }

    /// The lower part alone: engines that have orders answer as their lower part would.
    pub fn lower() -> Panel {
        let lists = plain("lists", Engine::<OrderLists>::new());
        let mut desks: Vec<Box<dyn Desk>> = vec![Box::new(Lowered(lists))];
        desks.extend(proved_lower());
        desks.push(Box::new(Lowered(Box::new(Slow::default()))));
        Panel(desks)
    }

    /// A panel of these engines.
    pub fn of(desks: Vec<Box<dyn Desk>>) -> Panel {
        Panel(desks)
    }

    /// The engines' names.
    pub fn names(&self) -> Vec<&'static str> {
        self.0.iter().map(|desk| desk.name()).collect()
    }

    /// Copies of all engines, in the same states.
    pub fn copy(&self) -> Panel {
        Panel(self.0.iter().map(|desk| desk.copy()).collect())
    }

    fn agreed<A: PartialEq + Clone>(
        &self,
        answers: Vec<A>,
        shown: fn(&A) -> String,
    ) -> Result<A, Difference> {
        if answers.iter().all(|answer| *answer == answers[0]) {
            return Ok(answers[0].clone());
        }
        let told = self.names().into_iter().zip(answers.iter().map(shown));
        Err(Difference(told.collect()))
    }

    /// Loads a policy into all engines: the common answer, or what each answered.
    pub fn load(&mut self, policy: &[u8]) -> Result<Answer, Difference> {
        let answers = self.0.iter_mut().map(|desk| desk.load(policy)).collect();
        self.agreed(answers, shown)
    }

    /// Makes a request of all engines: the common answer, or what each answered.
    pub fn request(&mut self, record: &[u8]) -> Result<Answer, Difference> {
        let answers = self.0.iter_mut().map(|desk| desk.request(record)).collect();
        self.agreed(answers, shown)
    }

    /// Gives all engines a pile: its reply and the buffer afterwards, or what each answered.
    pub fn pile(&mut self, pile: &Pile) -> Result<Piled, Difference> {
        let ask = |desk: &mut Box<dyn Desk>| {
            let mut buffer = pile.buffer.clone();
            let reply = desk.pile(&pile.records, &mut buffer, pile.at);
            (reply, buffer)
        };
        let answers = self.0.iter_mut().map(ask).collect();
        self.agreed(answers, shown_pile)
    }

    /// Puts a question to all engines: its reply and the answer buffer afterwards, or what each answered.
    pub fn question(&self, question: &Question) -> Result<Asked, Difference> {
        let ask = |desk: &dyn Desk| {
            let mut answer = question.answer.clone();
            let reply = desk.question(&question.record, &mut answer);
            (reply, answer)
        };
        let answers = self.0.iter().map(|desk| ask(desk.as_ref()));
        self.agreed(answers.collect(), shown_question)
    }

    /// Makes all engines that have a call for it write the policy out: the common result, or what each wrote.
    pub fn write(&self, output: &[u8]) -> Result<Written, Difference> {
        let mut told = Vec::new();
        for desk in &self.0 {
            let mut after = output.to_vec();
            if let Some((reply, records)) = desk.write(&mut after) {
                told.push((desk.name(), (reply, records, after)));
            }
        }
        let (_, first) = &told[0];
        if told.iter().all(|(_, written)| written == first) {
            return Ok(first.clone());
        }
        let shown = told.iter().map(|(name, w)| (*name, shown_written(w)));
        Err(Difference(shown.collect()))
    }

    /// Makes all engines mend a file: the common result, or what each did.
    pub fn mend(&mut self, mend: &Mend) -> Result<Mended, Difference> {
        let ask = |desk: &mut Box<dyn Desk>| {
            let (mut output, mut report) = (mend.output(), mend.report());
            let (reply, kept) = desk.mend(&mend.file, &mut output, &mut report);
            (reply, kept, output, report)
        };
        let answers = self.0.iter_mut().map(ask).collect();
        self.agreed(answers, shown_mended)
    }
}
