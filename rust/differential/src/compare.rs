//! Runs one case on all engines; reports the first difference and the smallest case found that still shows one.

use crate::cases::{junk, Case, Mend, Step};
use crate::coverage::Coverage;
use crate::desks::{Answer, Difference, Panel};
use crate::walk::{count_free, walk};
use records::{Reply, LENGTH};
use std::cell::Cell;
use std::fmt::Write;

/// Steps, of which the engines answered the last one differently.
pub struct Failure {
    steps: Vec<Step>,
    difference: Difference,
}

/// Counts the reply to a request, or to the last record that a load judged.
fn count(coverage: &mut Coverage, step: &Step, (reply, place): (u8, usize)) {
    match step {
        Step::Request(record) => {
            if let Some(kind) = record.first() {
                coverage.add(*kind, reply);
                coverage.add_place(reply, place);
            }
        }
        // Its records are counted when it is answered.
        Step::Pile(_) => coverage.add_pile(reply),
        Step::Question(question) => coverage.add_question(question.record.first().copied(), reply),
        // These are counted when they run.
        Step::Write(_) | Step::Mend(_) => {}
        Step::Load(policy) => {
            let last = place
                .checked_sub(1)
                .unwrap_or(policy.len().div_ceil(LENGTH));
            let mut records = policy.chunks(LENGTH);
            let accepted = records.by_ref().take(last);
            accepted.for_each(|record| coverage.add(record[0], 0));
            if let Some(refused) = records.next() {
                coverage.add(refused[0], reply);
            }
        }
    }
}

/// Reports an unexpected result as a difference.
fn unlike(what: &'static str, found: String) -> Result<(), Difference> {
    Err(Difference(vec![(what, found)]))
}

/// The policy as all engines write it, to an output with this many bytes to spare.
fn written(panel: &Panel, spare: i64) -> Result<(Answer, Vec<u8>), Difference> {
    let mut room = 1 << 14;
    let needed = loop {
        match panel.write(&junk(room))? {
            (0, records, _) => break (records * LENGTH) as i64,
            _ => room *= 8,
        }
    };
    let (reply, records, output) = panel.write(&junk(needed + spare))?;
    let fits = spare >= 0 || needed == 0;
    let front = if fits { needed as usize } else { 0 };
    if fits != (reply == 0) || output[front..] != junk(needed + spare)[front..] {
        unlike(
            "written",
            format!("{reply} with {spare} bytes to spare, {output:?}"),
        )?;
    }
    Ok(((reply, records), output))
}

/// Makes all engines write the policy out and load what they wrote: the load must be accepted, and the policy must be written the
/// same again.
fn write(panel: &Panel, spare: i64, coverage: &mut Coverage) -> Result<Answer, Difference> {
    let (answer, output) = written(panel, spare)?;
    coverage.add_write(answer.0);
    let policy = &output[..answer.1 * LENGTH];
    if answer.0 == 0 {
        coverage.add_rows(policy);
        loads_to(panel, policy, policy)?;
    }
    Ok((answer.0, 0))
}

/// Checks on copies that these bytes are accepted and that the policy is then written as `policy`.
fn loads_to(panel: &Panel, bytes: &[u8], policy: &[u8]) -> Result<(), Difference> {
    let mut copy = panel.copy();
    match copy.load(bytes)? {
        (0, 0) => {}
        refused => unlike("written", format!("its load is refused: {refused:?}"))?,
    }
    let (_, again) = written(&copy, 0)?;
    if again != policy {
        unlike("loaded", notation::write(&again))?;
    }
    Ok(())
}

/// Makes all engines mend a file. The kept records must load to what the engines then hold. A file that loads must be kept as it
/// is, and any other must not. Nothing after the written part may change.
fn mend(panel: &mut Panel, mend: &Mend, coverage: &mut Coverage) -> Result<Answer, Difference> {
    let loads = panel.copy().load(&mend.file)? == (0, 0);
    let no_room =
        mend.output().len() < mend.file.len() || mend.report().len() <= mend.file.len() / LENGTH;
    let before = if no_room {
        written(panel, 0)?.1
    } else {
        Vec::new()
    };
    let (reply, kept, output, report) = panel.mend(mend)?;
    let dropped = mend.file.len().div_ceil(LENGTH) - kept;
    let told = if reply == 0 { dropped } else { 0 };
    coverage.add_mend(reply, mend, kept, &report[..told]);
    let bytes = kept * LENGTH;
    let stayed =
        output[bytes..] == mend.output()[bytes..] && report[told..] == mend.report()[told..];
    let now = written(panel, 0)?.1;
    if !stayed || no_room != (reply != 0) || no_room && (kept != 0 || now != before) {
        unlike(
            "mended",
            format!("{reply}, {kept} kept: more is written than that"),
        )?;
    }
    if reply == 0 {
        loads_to(panel, &output[..bytes], &now)?;
        if loads != (dropped == 0) || loads && output[..bytes] != mend.file {
            unlike(
                "mended",
                format!("{dropped} dropped, and that it loads is {loads}"),
            )?;
        }
    }
    Ok((reply, 0))
}

/// Runs the steps in sequence, up to the first that is answered differently.
fn take(panel: &mut Panel, steps: &[Step], coverage: &mut Coverage) -> Result<(), Failure> {
    for (before, step) in steps.iter().enumerate() {
        let answer = match step {
            Step::Load(policy) => panel.load(policy),
            Step::Request(record) => panel.request(record),
            Step::Question(question) => panel.question(question).map(|(reply, answer)| {
                if reply == Reply::Granted.number() {
                    coverage.add_figures(question.record[0], &answer);
                }
                (reply, 0)
            }),
            Step::Pile(pile) => panel.pile(pile).map(|(reply, buffer)| {
                let taken = reply == Reply::Granted.number();
                let answered = buffer.iter().skip(pile.at).filter(|_| taken);
                for (record, reply) in pile.records.chunks(LENGTH).zip(answered) {
                    coverage.add(record[0], *reply);
                }
                (reply, 0)
            }),
            Step::Write(spare) => write(panel, *spare, coverage),
            Step::Mend(file) => mend(panel, file, coverage),
        };
        let answer = answer.map_err(|difference| Failure {
            steps: steps[..=before].to_vec(),
            difference,
        })?;
        count(coverage, step, answer);
    }
    Ok(())
}

/// The checks after the steps. They run on copies of the engines.
fn after(panel: &Panel, case: &Case, fill: bool) -> Result<(), Failure> {
    let written = Step::Write(0);
    let all_written = write(panel, 0, &mut Coverage::default());
    all_written.map_err(|difference| Failure {
        steps: case.steps.iter().cloned().chain([written]).collect(),
        difference,
    })?;
    let mut walked = walk(panel, &case.pools);
    if walked.is_ok() && fill {
        walked = count_free(panel, &case.pools);
    }
    walked.map_err(|found| Failure {
        steps: case.steps.iter().cloned().chain(found.asked).collect(),
        difference: found.difference,
    })
}

/// Removes pieces of a given length as long as the rest still fails; then pieces of half that length.
fn without_pieces<T: Clone>(list: Vec<T>, fails: impl Fn(&[T]) -> bool) -> Vec<T> {
    let mut list = list;
    let mut piece = list.len().div_ceil(2);
    while piece > 0 {
        let mut at = 0;
        while at < list.len() {
            let end = (at + piece).min(list.len());
            let less = [&list[..at], &list[end..]].concat();
            if fails(&less) {
                list = less;
            } else {
                at = end;
            }
        }
        piece /= 2;
    }
    list
}

/// Removes those records of loads and piles that are not needed for the failure.
fn without_records(steps: Vec<Step>, fails: impl Fn(&[Step]) -> bool) -> Vec<Step> {
    let mut steps = steps;
    for at in 0..steps.len() {
        let records = match &steps[at] {
            Step::Request(_) | Step::Question(_) | Step::Write(_) => continue,
            Step::Load(policy) => policy,
            Step::Pile(pile) => &pile.records,
            Step::Mend(mend) => &mend.file,
        };
        let records: Vec<Vec<u8>> = records.chunks(LENGTH).map(<[u8]>::to_vec).collect();
        let with = |records: &[Vec<u8>]| {
            let mut changed = steps.clone();
            match &mut changed[at] {
                Step::Load(bytes) => *bytes = records.concat(),
                Step::Pile(pile) => pile.records = records.concat(),
                Step::Mend(mend) => mend.file = records.concat(),
                Step::Request(_) | Step::Question(_) | Step::Write(_) => {}
            }
            changed
        };
        let fewer = without_pieces(records, |records| fails(&with(records)));
        steps = with(&fewer);
    }
    steps
}

/// How many steps may be repeated to shrink a failure.
const PATIENCE: usize = 2_000_000;

/// The failure with as few steps and records as can be found within `PATIENCE`.
fn smallest(start: &Panel, mut failure: Failure) -> Failure {
    let left = Cell::new(PATIENCE);
    let again = |steps: &[Step]| take(&mut start.copy(), steps, &mut Coverage::default()).err();
    let fails = |steps: &[Step]| {
        left.set(left.get().saturating_sub(size(steps)));
        left.get() > 0 && again(steps).is_some()
    };
    loop {
        let before = size(&failure.steps);
        let steps = without_pieces(failure.steps.clone(), fails);
        let steps = without_records(steps, fails);
        failure = again(&steps).expect("what was made smaller still differs");
        if size(&failure.steps) == before {
            return failure;
        }
    }
}

/// How many records the steps contain.
fn size(steps: &[Step]) -> usize {
    let records = |step: &Step| match step {
        Step::Load(policy) => 1 + policy.len().div_ceil(LENGTH),
        Step::Pile(pile) => 1 + pile.records.len().div_ceil(LENGTH),
        Step::Mend(mend) => 1 + mend.file.len().div_ceil(LENGTH),
        Step::Request(_) | Step::Question(_) | Step::Write(_) => 1,
    };
    steps.iter().map(records).sum()
}

/// Runs the case on copies of the panel's engines. If they differ, returns a small case that shows it.
pub fn compare(start: &Panel, case: &Case, fill: bool) -> Result<Coverage, Box<Failure>> {
    let mut panel = start.copy();
    let mut coverage = Coverage::default();
    take(&mut panel, &case.steps, &mut coverage)
        .and_then(|()| after(&panel, case, fill))
        .map_err(|failure| Box::new(smallest(start, failure)))?;
    Ok(coverage)
}

impl Failure {
    /// The steps in words, and each engine's answer to the last.
    pub fn report(&self) -> String {
        let mut text = String::new();
        let within = |text: &mut String, records: &[u8]| {
            for record in records.chunks(LENGTH) {
                let _ = writeln!(text, "    {}", notation::line(record));
            }
        };
        for step in &self.steps {
            match step {
                Step::Load(policy) => {
                    let _ = writeln!(text, "load");
                    within(&mut text, policy);
                }
                Step::Pile(pile) => {
                    let _ = writeln!(text, "pile at {} of {:?}", pile.at, pile.buffer);
                    within(&mut text, &pile.records);
                }
                Step::Question(question) => {
                    let (line, words) = (notation::line(&question.record), question.answer.len());
                    let _ = writeln!(text, "question, answer of {words} words: {line}");
                }
                Step::Request(record) => {
                    let _ = writeln!(text, "{}", notation::line(record));
                }
                Step::Write(spare) => {
                    let _ = writeln!(text, "write, with {spare} bytes to spare");
                }
                Step::Mend(mend) => {
                    let (bytes, entries) = (mend.spare, mend.entries);
                    let _ = writeln!(
                        text,
                        "mend, with {bytes} bytes and {entries} entries to spare"
                    );
                    within(&mut text, &mend.file);
                }
            }
        }
        for (name, answer) in &self.difference.0 {
            let _ = writeln!(text, "{name:>8}: {answer}");
        }
        text
    }
}
