//! The policy as it is after the requests of a listing. They are repeated on an engine that writes its policy out: the proved
//! library if it is linked and has a call for that, else the plain engine. Every reply must agree with the listing.

use crate::explain::{load, request_line, Listed};
use crate::names::Names;
use crate::reader::{give, Error, Line, Wrong};

#[cfg(mishantral_write)]
mod engine {
    pub const NAME: &str = "proved";

    pub struct Engine(mishantral::Engine);

    impl Engine {
        pub fn new() -> Engine {
            Engine(mishantral::Engine::new())
        }

        pub fn load(&mut self, policy: &[u8]) -> u8 {
            let loaded = self.0.load(policy);
            loaded.map_or_else(|refused| refused.reply.number(), |()| 0)
        }

        pub fn request(&mut self, record: &[u8]) -> u8 {
            self.0.request(record).reply.number()
        }

        pub fn written(&self) -> Vec<u8> {
            let written = self.0.write_policy();
            written.expect("the state has its lengths")
        }
    }
}

#[cfg(not(mishantral_write))]
mod engine {
    pub const NAME: &str = "plain";

    pub struct Engine(plain::Engine);

    impl Engine {
        pub fn new() -> Engine {
            Engine(plain::Engine::new())
        }

        pub fn load(&mut self, policy: &[u8]) -> u8 {
            self.0.load(policy).0.number()
        }

        pub fn request(&mut self, record: &[u8]) -> u8 {
            self.0.request(record).0.number()
        }

        pub fn written(&self) -> Vec<u8> {
            self.0.written()
        }
    }
}

/// The engine that writes: `proved` or `plain`.
pub const WRITER: &str = engine::NAME;

/// The records of the policy after these requests, which a desk program answered with this listing. An error if an engine answers
/// differently, or if the load was refused. Names that granted requests give are added.
pub fn written(
    policy: &[u8],
    requests: &[Line],
    listing: &str,
    names: &mut Names,
) -> Result<Vec<u8>, Error> {
    let mut lines = listing.lines().enumerate().skip(1);
    let otherwise = |line: usize, reply: u8, listed: u8| match reply == listed {
        true => Ok(()),
        false => Err(Error {
            line,
            wrong: Wrong {
                column: 1,
                expected: format!("reply {reply}, which the {WRITER} engine gives"),
                found: format!("reply {listed}"),
            },
        }),
    };
    let mut engine = engine::Engine::new();
    let (reply, _) = load(listing)?;
    otherwise(1, engine.load(policy), reply.number())?;
    otherwise(1, 0, reply.number())?;
    let mut made = 0;
    for line in requests {
        let Some(record) = &line.record else {
            give(names, &line.namings, false);
            continue;
        };
        made += 1;
        let (at, listed) = lines.next().unwrap_or((made, ""));
        let (reply, _) = request_line(Listed::new(at, listed), made, record, None, names)?;
        otherwise(at + 1, engine.request(record), reply.number())?;
        if reply.is_granted() {
            give(names, &line.namings, false);
        }
    }
    Ok(engine.written())
}
