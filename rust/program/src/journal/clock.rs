//! The time of a row is the clock's. That it was set shows by a second clock, which nobody sets.

use super::begin::now;
use std::time::Instant;

/// A difference of the two clocks that is reported: one second.
const JUMP: i64 = 1_000_000;

/// A clock that was set: the time that was expected, and the one that was found.
#[derive(Clone, Copy, PartialEq, Eq, Debug)]
pub struct Jump {
    pub expected: i64,
    pub found: i64,
}

pub struct Clock {
    wall: i64,
    steady: Instant,
    /// A jump that no group has told yet.
    pub jump: Option<Jump>,
}

impl Clock {
    /// A clock that goes on after a last known time.
    pub fn after(last: i64) -> Clock {
        let (expected, found) = (last, now());
        Clock {
            wall: found,
            steady: Instant::now(),
            // How long nobody looked is not known: only a time before the last one is a jump for certain.
            jump: (found < expected - JUMP).then_some(Jump { expected, found }),
        }
    }

    /// The time now. That the clock was set since it was last asked is kept until a group has told it; two jumps between two groups are one.
    pub fn time(&mut self) -> i64 {
        let (found, steady) = (now(), Instant::now());
        let passed = steady.duration_since(self.steady).as_micros() as i64;
        let expected = self.wall + passed;
        (self.wall, self.steady) = (found, steady);
        if (found - expected).abs() > JUMP {
            let expected = self.jump.map_or(expected, |before| before.expected);
            self.jump = Some(Jump { expected, found });
        }
        found
    }
}

#[cfg(test)]
mod tests {
    use super::*;

    #[test]
    fn a_clock_that_was_set_shows() {
        let mut clock = Clock::after(now());
        clock.time();
        assert_eq!(clock.jump, None);
        clock.wall -= 10 * 365 * 86_400 * JUMP;
        clock.time();
        let jump = clock.jump.unwrap();
        assert!(jump.found - jump.expected > 9 * 365 * 86_400 * JUMP);
        // A second one before the first was reported: what was expected at first stays.
        clock.wall -= 100 * JUMP;
        clock.time();
        assert_eq!(clock.jump.unwrap().expected, jump.expected);
        clock.jump = None;
        clock.time();
        assert_eq!(clock.jump, None);
        assert!(Clock::after(now() + 60 * JUMP).jump.is_some());
    }
}
