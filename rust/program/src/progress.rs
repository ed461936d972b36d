//! How far a replay is, as one line on a terminal; nothing where standard error is no terminal.

use crate::journal;
use crate::stop::Stop;
use std::io::{stderr, IsTerminal, Write};
use std::time::{Duration, Instant};

pub struct Progress {
    what: &'static str,
    whole: i64,
    /// When it is drawn next; none where nobody sees it.
    next: Option<Instant>,
    drawn: bool,
}

/// So many requests pass between two looks at the clock.
const STEP: i64 = 4_096;
/// The line is drawn no more often, and not at all for what is over before.
const PAUSE: Duration = Duration::from_millis(200);
const WIDTH: usize = 30;

impl Progress {
    pub fn new(what: &'static str, whole: i64) -> Progress {
        let next = stderr().is_terminal().then(|| Instant::now() + PAUSE);
        Progress {
            what,
            whole,
            next,
            drawn: false,
        }
    }

    /// Over all requests of a journal.
    pub fn over(file: &str, what: &'static str) -> Result<Progress, Stop> {
        Ok(Progress::new(what, journal::last(file)?))
    }

    pub fn at(&mut self, number: i64) {
        if number % STEP != 0 {
            return;
        }
        let now = Instant::now();
        if self.next.is_none_or(|next| now < next) {
            return;
        }
        self.next = Some(now + PAUSE);
        self.drawn = true;
        let line = bar(self.what, number, self.whole);
        let _ = write!(stderr(), "\r{line}").and_then(|()| stderr().flush());
    }

    /// Takes the line away.
    pub fn end(&self) {
        if self.drawn {
            let _ = write!(stderr(), "\r\x1b[K").and_then(|()| stderr().flush());
        }
    }
}

/// `holds  [#########---------------------]  30 %, request 300000 of 1000000`.
fn bar(what: &str, number: i64, whole: i64) -> String {
    let part = (number as f64 / whole.max(1) as f64).clamp(0.0, 1.0);
    let full = (part * WIDTH as f64) as usize;
    let (done, rest) = ("#".repeat(full), "-".repeat(WIDTH - full));
    format!(
        "{what}  [{done}{rest}]  {:.0} %, request {number} of {whole}",
        part * 100.0
    )
}

#[cfg(test)]
mod tests {
    use super::bar;

    #[test]
    fn a_bar_says_how_far_it_is() {
        assert_eq!(
            bar("holds", 3, 10),
            "holds  [#########---------------------]  30 %, request 3 of 10"
        );
        assert!(bar("holds", 11, 10).contains("100 %"));
        assert!(bar("holds", 1, 0).contains("100 %"));
    }
}
