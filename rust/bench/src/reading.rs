//! The readers of OPL/XML on texts of several sizes, in turn, in one run: the proved one, the plain one, and libxml2 for
//! comparison.

use crate::dealt::{texts, Dealt};
use crate::figures::Effort;
use crate::libxml2::Libxml2;
use crate::numbers::grouped;
use std::fmt::Write;
use std::time::Instant;

/// One text's best times, in nanoseconds a byte.
pub struct Reading {
    pub name: String,
    pub bytes: usize,
    pub records: u64,
    pub proved: Option<f64>,
    pub plain: f64,
    pub libxml2: Option<f64>,
}

/// The proved reader, if the library is linked.
#[cfg(mishantral_opl)]
mod proved {
    use mishantral::opl::{scratch_words, translate};

    pub struct Proved(Vec<u64>);

    impl Proved {
        pub fn find() -> Option<Proved> {
            Some(Proved(vec![0; scratch_words()]))
        }

        /// The number of records, if the texts are accepted.
        pub fn reads(&mut self, policy: &[u8], tasks: &[u8], output: &mut [u8]) -> Option<u64> {
            let answer = translate(policy, tasks, output, &mut self.0);
            answer.reply.is_granted().then_some(answer.figure)
        }
    }
}

#[cfg(not(mishantral_opl))]
mod proved {
    pub enum Proved {}

    impl Proved {
        pub fn find() -> Option<Proved> {
            None
        }

        pub fn reads(&mut self, _: &[u8], _: &[u8], _: &mut [u8]) -> Option<u64> {
            match *self {}
        }
    }
}

use proved::Proved;

/// Roughly how many bytes of a text each reader reads in a full measurement; large texts are read only a few times.
const READ: usize = 1 << 25;

struct Race {
    dealt: Dealt,
    best: [f64; 3],
    outputs: [Vec<u8>; 2],
    records: u64,
}

impl Race {
    fn new(dealt: Dealt) -> Result<Race, String> {
        let (policy, tasks) = (dealt.policy.as_bytes(), dealt.tasks.as_bytes());
        let read = opl::read(policy, tasks);
        let records = read
            .map_err(|refusal| format!("{}: {refusal:?}", dealt.name))?
            .count();
        let room = || vec![0; opl::RECORD * records];
        Ok(Race {
            best: [f64::MAX; 3],
            outputs: [room(), room()],
            records: records as u64,
            dealt,
        })
    }

    /// One pass of each reader; an error if two readers disagree.
    fn pass(
        &mut self,
        proved: &mut Option<Proved>,
        libxml2: &Option<Libxml2>,
    ) -> Result<(), String> {
        let (policy, tasks) = (self.dealt.policy.as_bytes(), self.dealt.tasks.as_bytes());
        let bytes = (policy.len() + tasks.len()) as f64;
        let mut time = |place: usize, reads: &mut dyn FnMut() -> bool| {
            let begin = Instant::now();
            let read = reads();
            let taken = begin.elapsed().as_nanos() as f64 / bytes;
            self.best[place] = self.best[place].min(taken);
            read
        };
        let [one, other] = &mut self.outputs;
        let expected = Some(self.records);
        let mut agreed = true;
        if let Some(proved) = proved {
            agreed &= time(0, &mut || proved.reads(policy, tasks, one) == expected);
        }
        agreed &= time(1, &mut || {
            let answer = opl::translate(policy, tasks, other);
            answer.reply == opl::ACCEPTED && Some(answer.figure) == expected
        });
        if let Some(libxml2) = libxml2 {
            agreed &= time(2, &mut || libxml2.reads(policy));
        }
        if proved.is_some() {
            agreed &= one == other;
        }
        match agreed {
            true => Ok(()),
            false => Err(format!(
                "{}: the readers of OPL/XML differ",
                self.dealt.name
            )),
        }
    }

    fn reading(self) -> Reading {
        let time = |place: usize| (self.best[place] < f64::MAX).then_some(self.best[place]);
        Reading {
            bytes: self.dealt.policy.len() + self.dealt.tasks.len(),
            records: self.records,
            proved: time(0),
            plain: self.best[1],
            libxml2: time(2),
            name: self.dealt.name,
        }
    }
}

/// All texts on all readers, in sweeps.
pub fn readings(effort: Effort) -> Result<Vec<Reading>, String> {
    let races = texts().into_iter().map(Race::new);
    let mut races = races.collect::<Result<Vec<Race>, String>>()?;
    let (mut proved, libxml2) = (Proved::find(), Libxml2::find());
    for _ in 0..effort.sweeps {
        for race in &mut races {
            let most = READ / effort.sweeps / race.dealt.policy.len();
            for _ in 0..most.clamp(1, 10 * effort.passes) {
                race.pass(&mut proved, &libxml2)?;
            }
        }
    }
    Ok(races.into_iter().map(Race::reading).collect())
}

/// A table of the readings.
pub fn reading_table(readings: &[Reading]) -> String {
    let mut out = String::from(
        "| ns a byte | bytes | records | proved | plain | proved / plain | libxml2 | proved / libxml2 |\n\
         |---|---:|---:|---:|---:|---:|---:|---:|\n",
    );
    let shown = |time: Option<f64>| time.map_or(String::from("-"), |time| format!("{time:.2}"));
    for line in readings {
        let ratio =
            |other: Option<f64>| shown(line.proved.zip(other).map(|(ours, theirs)| ours / theirs));
        let (bytes, records) = (grouped(line.bytes), grouped(line.records as usize));
        let (name, proved, plain) = (&line.name, shown(line.proved), shown(Some(line.plain)));
        let (to_plain, to_libxml2) = (ratio(Some(line.plain)), ratio(line.libxml2));
        let libxml2 = shown(line.libxml2);
        writeln!(
            out,
            "| {name} | {bytes} | {records} | {proved} | {plain} | {to_plain} | {libxml2} | {to_libxml2} |"
        )
        .unwrap();
    }
    out
}

/// The most stack that reading uses, in bytes, if the library is linked.
pub fn reading_stack() -> Option<usize> {
    let mut proved = Proved::find()?;
    let deepest = texts().into_iter().map(|dealt| {
        let (policy, tasks) = (dealt.policy.as_bytes(), dealt.tasks.as_bytes());
        let mut output = vec![0; policy.len() + opl::RECORD * (1 + tasks.len())];
        crate::stack::used_by(|| {
            proved.reads(policy, tasks, &mut output);
        })
    });
    deepest.max()
}
