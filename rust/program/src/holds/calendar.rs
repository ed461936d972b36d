//! Days, weeks, hours and shifts of a moment, at a fixed distance from UTC.

pub const SECOND: i64 = 1_000_000;
pub const HOUR: i64 = 3_600 * SECOND;
const DAY: i64 = 24 * HOUR;

/// Microseconds ahead of UTC.
#[derive(Clone, Copy, PartialEq, Eq, Debug, Default)]
pub struct Zone(pub i64);

/// Year, month and day of a day since 1970-01-01, in the Gregorian calendar. Its eras are 400 years that begin in March.
fn date(days: i64) -> (i64, i64, i64) {
    let shifted = days + 719_468;
    let (era, day) = (shifted.div_euclid(146_097), shifted.rem_euclid(146_097));
    let year = (day - day / 1_460 + day / 36_524 - day / 146_096) / 365;
    let of_year = day - (365 * year + year / 4 - year / 100);
    let month = (5 * of_year + 2) / 153;
    let day = of_year - (153 * month + 2) / 5 + 1;
    let month = if month < 10 { month + 3 } else { month - 9 };
    (400 * era + year + i64::from(month <= 2), month, day)
}

pub const WEEKDAYS: [&str; 7] = [
    "Monday",
    "Tuesday",
    "Wednesday",
    "Thursday",
    "Friday",
    "Saturday",
    "Sunday",
];

impl Zone {
    /// `+01:00`, `-03:30` or `UTC`.
    pub fn read(word: &str) -> Option<Zone> {
        if word.eq_ignore_ascii_case("utc") {
            return Some(Zone(0));
        }
        let sign = match word.chars().next()? {
            '+' => 1,
            '-' => -1,
            _ => return None,
        };
        let time = time_of_day(word.get(1..)?)?;
        (time <= 14 * HOUR).then_some(Zone(sign * time))
    }

    /// `UTC`, or `UTC+01:00`.
    pub fn words(self) -> String {
        let (minutes, sign) = (
            self.0.abs() / (60 * SECOND),
            if self.0 < 0 { '-' } else { '+' },
        );
        match minutes {
            0 => "UTC".to_string(),
            _ => format!("UTC{sign}{:02}:{:02}", minutes / 60, minutes % 60),
        }
    }

    fn local(self, at: i64) -> i64 {
        at + self.0
    }

    fn day_of(self, at: i64) -> i64 {
        self.local(at).div_euclid(DAY)
    }

    /// `2026-11`.
    pub fn month(self, at: i64) -> String {
        let (year, month, _) = date(self.day_of(at));
        format!("{year:04}-{month:02}")
    }

    /// `2026-11-16`.
    pub fn day(self, at: i64) -> String {
        let (year, month, day) = date(self.day_of(at));
        format!("{year:04}-{month:02}-{day:02}")
    }

    /// `2026-W47`: the year and week of ISO 8601, whose weeks belong to the year of their Thursday.
    pub fn week(self, at: i64) -> String {
        let days = self.day_of(at);
        let thursday = days - self.weekday(at) as i64 + 3;
        let (year, month, day) = date(thursday);
        let leap = i64::from(year % 4 == 0 && (year % 100 != 0 || year % 400 == 0));
        let before = [0, 31, 59, 90, 120, 151, 181, 212, 243, 273, 304, 334][month as usize - 1];
        let of_year = before + i64::from(month > 2) * leap + day - 1;
        format!("{year:04}-W{:02}", of_year / 7 + 1)
    }

    /// From 0, Monday.
    pub fn weekday(self, at: i64) -> usize {
        // 1970-01-01 was a Thursday.
        (self.day_of(at) + 3).rem_euclid(7) as usize
    }

    pub fn hour(self, at: i64) -> usize {
        (self.local(at).rem_euclid(DAY) / HOUR) as usize
    }

    /// `2026-11-16 08:30:05`, to the second.
    pub fn moment(self, at: i64) -> String {
        let of_day = self.local(at).rem_euclid(DAY) / SECOND;
        let (hour, minute, second) = (of_day / 3_600, of_day / 60 % 60, of_day % 60);
        format!("{} {hour:02}:{minute:02}:{second:02}", self.day(at))
    }

    /// Adds the time from one moment to another to the hours of the day in which it lies.
    pub fn by_hour(self, from: i64, to: i64, hours: &mut [i64; 24]) {
        let mut at = from;
        while at < to {
            let next = (at + HOUR - self.local(at).rem_euclid(HOUR)).min(to);
            hours[self.hour(at)] += next - at;
            at = next;
        }
    }
}

/// `06:30` as microseconds since midnight; `24:00` is the end of the day.
fn time_of_day(word: &str) -> Option<i64> {
    let (hour, minute) = word.split_once(':')?;
    let two = |digits: &str| {
        digits.bytes().all(|b| b.is_ascii_digit()) && (1..=2).contains(&digits.len())
    };
    if !two(hour) || !two(minute) {
        return None;
    }
    let (hour, minute): (i64, i64) = (hour.parse().ok()?, minute.parse().ok()?);
    let time = hour * HOUR + minute * 60 * SECOND;
    (minute < 60 && time <= DAY).then_some(time)
}

/// `2026-11-15 20:31`, with seconds or without, as microseconds since 1970, UTC.
pub fn moment(word: &str) -> Option<i64> {
    let (day, time) = word.split_once([' ', 'T'])?;
    let digits = |text: &str, length: usize| {
        let all = text.len() == length && text.bytes().all(|b| b.is_ascii_digit());
        all.then(|| text.parse::<i64>().ok()).flatten()
    };
    let mut parts = day.splitn(3, '-');
    let year = digits(parts.next()?, 4)?;
    let (month, day) = (digits(parts.next()?, 2)?, digits(parts.next()?, 2)?);
    let (minutes, second) = match time.len() {
        8 if time.is_char_boundary(5) => (&time[..5], digits(time[5..].strip_prefix(':')?, 2)?),
        _ => (time, 0),
    };
    let time = time_of_day(minutes)?;
    // Back from the calendar: a day of that month, if it is one.
    let near = (year - 1970) * 365 + (year - 1969).div_euclid(4) - (year - 1901).div_euclid(100)
        + (year - 1601).div_euclid(400);
    let days = (near..near + 366).find(|&days| date(days) == (year, month, day))?;
    (second < 60 && time < DAY).then_some(days * DAY + time + second * SECOND)
}

/// The first moment, from one on, at which clocks show a time of the day.
pub fn next_time(from: i64, time_of_day: i64) -> i64 {
    from + (time_of_day - from).rem_euclid(DAY)
}

/// A shift: its name, and from when to when it lasts, over midnight where it ends before it begins.
#[derive(Clone, PartialEq, Eq, Debug)]
pub struct Shift {
    pub name: String,
    pub from: i64,
    pub to: i64,
}

/// `day 06:00-14:00, late 14:00-22:00, night 22:00-06:00`; or which part of it is wrong.
pub fn shifts(text: Option<&str>) -> Result<Vec<Shift>, String> {
    let Some(text) = text else {
        return Ok(Vec::new());
    };
    let one = |part: &str| -> Option<Shift> {
        let (name, times) = part.trim().rsplit_once(char::is_whitespace)?;
        let (from, to) = times.split_once('-')?;
        let name = name.trim().to_string();
        let (from, to) = (time_of_day(from)?, time_of_day(to)?);
        (from < DAY && from != to).then_some(Shift { name, from, to })
    };
    let wrong = |part: &str| {
        format!(
            "{:?} is no shift: write NAME HH:MM-HH:MM, with commas between shifts",
            part.trim()
        )
    };
    let parts = text
        .split(',')
        .map(|part| one(part).ok_or_else(|| wrong(part)));
    parts.collect()
}

impl Shift {
    /// `22:00-06:00`.
    pub fn hours(&self) -> String {
        let minutes = |time: i64| time / (60 * SECOND);
        let clock = |time: i64| format!("{:02}:{:02}", minutes(time) / 60, minutes(time) % 60);
        format!("{}-{}", clock(self.from), clock(self.to))
    }

    pub fn has(&self, zone: Zone, at: i64) -> bool {
        let time = zone.local(at).rem_euclid(DAY);
        match self.from < self.to {
            true => (self.from..self.to).contains(&time),
            false => time >= self.from || time < self.to,
        }
    }
}

/// A length of time for people: `15 h 40 min`, `3 min 12 s`, `12.4 s`.
pub fn length(time: i64) -> String {
    let seconds = (time + SECOND / 2) / SECOND;
    let minutes = (time + 30 * SECOND) / (60 * SECOND);
    match time {
        _ if minutes >= 60 => format!("{} h {:02} min", minutes / 60, minutes % 60),
        _ if seconds >= 60 => format!("{} min {:02} s", seconds / 60, seconds % 60),
        _ => format!("{:.1} s", time as f64 / SECOND as f64),
    }
}

/// The same where there is little room: `15:40 h`, `3:12 min`, `12 s`.
pub fn short_length(time: i64) -> String {
    let seconds = (time + SECOND / 2) / SECOND;
    let minutes = (time + 30 * SECOND) / (60 * SECOND);
    match time {
        _ if minutes >= 60 => format!("{}:{:02} h", minutes / 60, minutes % 60),
        _ if seconds >= 60 => format!("{}:{:02} min", seconds / 60, seconds % 60),
        _ => format!("{seconds} s"),
    }
}

#[cfg(test)]
mod tests {
    use super::*;

    const UTC: Zone = Zone(0);
    /// 2026-11-15 20:31:07.123456, a Sunday.
    const AT: i64 = 1_794_774_667_123_456;

    #[test]
    fn a_moment_has_its_day_week_and_hour() {
        assert_eq!(UTC.moment(AT), "2026-11-15 20:31:07");
        assert_eq!(
            (UTC.month(AT), UTC.week(AT)),
            ("2026-11".to_string(), "2026-W46".to_string())
        );
        assert_eq!((WEEKDAYS[UTC.weekday(AT)], UTC.hour(AT)), ("Sunday", 20));
        let east = Zone::read("+03:30").unwrap();
        assert_eq!(
            (east.words(), UTC.words()),
            ("UTC+03:30".to_string(), "UTC".to_string())
        );
        assert_eq!(east.moment(AT), "2026-11-16 00:01:07");
        assert_eq!((WEEKDAYS[east.weekday(AT)], east.hour(AT)), ("Monday", 0));
        assert_eq!(UTC.moment(-1), "1969-12-31 23:59:59");
        // Weeks at the turn of years: 2021-01-03 is in the last week of 2020, 2024-12-30 in the first of 2025.
        assert_eq!(UTC.week(1_609_632_000 * SECOND), "2020-W53");
        assert_eq!(UTC.week(1_735_516_800 * SECOND), "2025-W01");
        assert_eq!(UTC.day(951_782_400 * SECOND), "2000-02-29");
        for wrong in ["", "1", "+25:00", "+1", "x", "+01:60", "+-1:00"] {
            assert_eq!(Zone::read(wrong), None, "{wrong}");
        }
    }

    #[test]
    fn time_falls_into_the_hours_in_which_it_lies() {
        let mut hours = [0; 24];
        UTC.by_hour(AT, AT + 30 * HOUR, &mut hours);
        assert_eq!(hours.iter().sum::<i64>(), 30 * HOUR);
        let rest = (31 * 60 + 7) * SECOND + 123_456;
        assert_eq!(
            (hours[21], hours[2], hours[3]),
            (2 * HOUR, HOUR + rest, HOUR)
        );
        assert_eq!(hours[20], 2 * HOUR - rest);
    }

    #[test]
    fn shifts_are_read_and_go_over_midnight() {
        let all = shifts(Some(
            "day 06:00-14:00, the late one 14:00-22:00,night 22:00-6:00",
        ))
        .unwrap();
        let of = |hour: i64| all.iter().position(|shift| shift.has(UTC, hour * HOUR));
        assert_eq!(all[1].name, "the late one");
        assert_eq!(
            [of(6), of(13), of(14), of(21), of(22), of(0), of(5)],
            [0, 0, 1, 1, 2, 2, 2].map(Some)
        );
        assert!(shifts(Some("day 06:00-14:00, late"))
            .unwrap_err()
            .contains("\"late\""));
        assert!(shifts(Some("day 06:00-06:00")).is_err());
    }

    #[test]
    fn moments_are_read_back() {
        assert_eq!(
            moment("2026-11-15 20:31:07"),
            Some(AT - AT.rem_euclid(SECOND))
        );
        assert_eq!(moment("1970-01-01 00:00"), Some(0));
        for at in [0, AT, 951_782_400 * SECOND, 4_107_542_399 * SECOND] {
            assert_eq!(moment(&UTC.moment(at)), Some(at - at.rem_euclid(SECOND)));
        }
        for wrong in [
            "2026-02-29 00:00",
            "2026-13-01 00:00",
            "2026-1-1 00:00",
            "2026-01-01",
            "2026-01-01 24:00",
            "soon",
            "2026-01-01 00:00:60",
        ] {
            assert_eq!(moment(wrong), None, "{wrong}");
        }
        assert_eq!(next_time(DAY + 5 * HOUR, 6 * HOUR), DAY + 6 * HOUR);
        assert_eq!(next_time(DAY + 7 * HOUR, 6 * HOUR), 2 * DAY + 6 * HOUR);
        assert_eq!(next_time(DAY + 6 * HOUR, 6 * HOUR), DAY + 6 * HOUR);
    }

    #[test]
    fn lengths_are_for_people() {
        assert_eq!(length(56_400 * SECOND), "15 h 40 min");
        assert_eq!(length(192 * SECOND), "3 min 12 s");
        assert_eq!(length(12_400_000), "12.4 s");
        let short = [56_400 * SECOND, 192 * SECOND, 12_400_000].map(short_length);
        assert_eq!(short, ["15:40 h", "3:12 min", "12 s"]);
        assert_eq!(
            (length(0), length(3_599_900_000)),
            ("0.0 s".to_string(), "1 h 00 min".to_string())
        );
    }
}
