//! A desk that another server has: whoever asks for it here is reported which one that is, until it is silent and this server takes the desk.

use super::door::Door;
use super::group::{refused, Waiting};
use crate::journal::{Found, How, Sight, Watch, Writes};
use crate::report::report;
use crate::stop::Stop;
use std::sync::mpsc::{Receiver, RecvTimeoutError};
use std::sync::Arc;
use std::time::{Duration, Instant};

pub struct Standby {
    pub watch: Watch,
    pub how: How,
    pub door: Arc<Door>,
}

/// A desk that is here from now on.
pub type Here = (Box<dyn Writes>, Found);

impl Standby {
    /// Watches until the desk can be taken, or the server ends.
    pub fn until_taken(mut self, waiting: &Receiver<Waiting>) -> Result<Option<Here>, String> {
        let silent = self.how.takeover.silent;
        let pause = (silent / 8).clamp(Duration::from_millis(20), Duration::from_secs(1));
        let mut unseen = false;
        loop {
            let began = Instant::now();
            match self.watch.look(&self.how) {
                Ok(Sight::Taken(taken)) => {
                    let (journal, found) = *taken;
                    let (name, last) = (&self.door.name, found.last);
                    report(format!(
                        "desk {name}: taken over after request {last}, {} requests asked anew, in {} ms",
                        found.replayed,
                        began.elapsed().as_millis()
                    ));
                    return Ok(Some((Box::new(journal), found)));
                }
                Ok(Sight::Elsewhere(server)) => {
                    self.door.is_at(Some(server));
                    unseen = false;
                }
                Ok(Sight::Nothing(why)) if !unseen => {
                    report(format!(
                        "desk {}: it cannot be watched: {why}",
                        self.door.name
                    ));
                    unseen = true;
                }
                Ok(Sight::Nothing(_)) => {}
                Err(Stop::Wrong(why) | Stop::Refused(why)) => return Err(why.join("; ")),
                Err(Stop::Quiet) => return Ok(None),
            }
            if self.told_for(pause, waiting) {
                return Ok(None);
            }
        }
    }

    /// Tells everyone who asks meanwhile where the desk is; whether the server ends.
    fn told_for(&self, time: Duration, waiting: &Receiver<Waiting>) -> bool {
        let until = Instant::now() + time;
        let why = self.door.elsewhere().unwrap_or_default();
        loop {
            let left = until.saturating_duration_since(Instant::now());
            match waiting.recv_timeout(left) {
                Ok(Waiting::End) | Err(RecvTimeoutError::Disconnected) => return true,
                Ok(one) => refused(one, &why),
                Err(RecvTimeoutError::Timeout) => return false,
            }
        }
    }
}
