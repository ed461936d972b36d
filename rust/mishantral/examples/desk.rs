//! The desk program (docs/RULES.md) on the proved library. It loads `policy.rec`, then reads requests from standard input and
//! answers each one at once.
//!
//! Exit status: 0 if the load was accepted, 1 if it was refused, 2 if a read or a write failed.

#[cfg(mishantral_engine)]
mod desk {
    use mishantral::{Engine, Refused, Reply, LENGTH};
    use std::fs::File;
    use std::io::{stdin, stdout, BufReader, BufWriter, Read, Result, Write};

    /// The longest policy file that the program accepts, in bytes.
    const LONGEST: u64 = 65_536;

    fn load(engine: &mut Engine) -> std::result::Result<(), Refused> {
        let mut policy = Vec::new();
        let read = File::open("policy.rec")
            .and_then(|file| file.take(LONGEST + 1).read_to_end(&mut policy));
        match read {
            Ok(length) if length as u64 <= LONGEST => engine.load(&policy),
            _ => Err(Refused {
                reply: Reply::Room,
                place: 0,
            }),
        }
    }

    /// Loads the policy and answers the requests; returns whether the load was accepted.
    pub fn run() -> Result<bool> {
        let mut engine = Engine::new();
        let mut out = BufWriter::new(stdout().lock());
        if let Err(Refused { reply, place }) = load(&mut engine) {
            writeln!(out, "load {} {place}", reply.number())?;
            return out.flush().map(|()| false);
        }
        writeln!(out, "load 0 0")?;
        let mut requests = BufReader::new(stdin().lock());
        for place in 1u64.. {
            // Write the answers so far before a read that may block.
            if requests.buffer().len() < LENGTH {
                out.flush()?;
            }
            let mut record = Vec::with_capacity(LENGTH);
            requests
                .by_ref()
                .take(LENGTH as u64)
                .read_to_end(&mut record)?;
            if record.is_empty() {
                break;
            }
            let answer = engine.request(&record);
            writeln!(out, "{place} {} {}", answer.reply.number(), answer.place)?;
        }
        out.flush().map(|()| true)
    }
}

#[cfg(mishantral_engine)]
fn main() -> std::process::ExitCode {
    match desk::run() {
        Ok(true) => 0.into(),
        Ok(false) => 1.into(),
        Err(why) => {
            eprintln!("desk: {why}");
            2.into()
        }
    }
}

#[cfg(not(mishantral_engine))]
fn main() {
    eprintln!(
        "the proved library is not linked: tools/archive makes it, and the example is built anew"
    );
    std::process::exit(2);
}
