//! Maps values to positions, and computes the tick marks of an axis.

/// Maps the values of a range to positions on a line, linearly or by their logarithm.
#[derive(Clone, Copy, Debug)]
pub struct Scale {
    first: f64,
    last: f64,
    from: f64,
    to: f64,
    by_logarithm: bool,
}

impl Scale {
    /// A linear scale from 0 to `last`.
    pub fn even(last: f64, from: f64, to: f64) -> Scale {
        Scale {
            first: 0.0,
            last,
            from,
            to,
            by_logarithm: false,
        }
    }

    /// A logarithmic scale; both ends must be above 0.
    pub fn logarithm([first, last]: [f64; 2], from: f64, to: f64) -> Scale {
        Scale {
            first,
            last,
            from,
            to,
            by_logarithm: true,
        }
    }

    /// The position of a value.
    pub fn at(&self, value: f64) -> f64 {
        let part = match self.by_logarithm {
            true => (value / self.first).ln() / (self.last / self.first).ln(),
            false => (value - self.first) / (self.last - self.first),
        };
        self.from + part * (self.to - self.from)
    }

    /// The positions where the scale begins and ends.
    pub fn ends(&self) -> [f64; 2] {
        [self.from, self.to]
    }
}

/// 1, 2 and 5 times all powers of ten.
fn all_round() -> impl Iterator<Item = f64> {
    (-9..13).flat_map(|power| [1.0, 2.0, 5.0].map(|step| step * 10f64.powi(power)))
}

/// The first of 1, 2 and 5 times a power of ten that is not below the number.
pub fn round_up(number: f64) -> f64 {
    all_round().find(|&mark| mark >= number).unwrap_or(number)
}

/// 1, 2 and 5 times powers of ten, from the last that is not above `low` to the first that is not below `high`.
pub fn rounded(low: f64, high: f64) -> Vec<f64> {
    let all: Vec<f64> = all_round().collect();
    let first = all.iter().rposition(|&mark| mark <= low).unwrap_or(0);
    let last = all.iter().position(|&mark| mark >= high);
    all[first..=last.unwrap_or(all.len() - 1)].to_vec()
}

/// The labels of an axis, with as many digits as needed to distinguish neighbours.
pub fn labels(marks: &[f64]) -> Vec<String> {
    let step = marks.windows(2).map(|two| two[1] - two[0]);
    let step = step.fold(f64::INFINITY, f64::min);
    // A step is 1, 2, 5 or a number that clocks use, times a power of ten, so it has few digits after the point.
    let shown = |digits: &usize| {
        let whole = step * 10f64.powi(*digits as i32);
        (whole - whole.round()).abs() < 1e-6 && whole > 0.5
    };
    let digits = (0..12).find(shown).unwrap_or(2);
    marks
        .iter()
        .map(|mark| format!("{mark:.digits$}"))
        .collect()
}

/// The unit of a time axis, and the distance of its marks.
#[derive(Clone, Copy, PartialEq, Debug)]
pub struct Time {
    /// The name: `hours`, `minutes` or `seconds`.
    pub unit: &'static str,
    /// The length of the unit in seconds.
    pub seconds: f64,
    /// The distance from one mark to the next, in the unit.
    pub step: f64,
}

impl Time {
    /// The unit for times of up to this number of seconds: about six marks, at numbers that clocks use.
    pub fn up_to(seconds: f64) -> Time {
        const STEPS: [f64; 8] = [1.0, 2.0, 5.0, 10.0, 15.0, 20.0, 30.0, 60.0];
        const HOURS: [f64; 6] = [1.0, 2.0, 4.0, 6.0, 12.0, 24.0];
        let (unit, one, steps) = match seconds {
            _ if seconds > 7_200.0 => ("hours", 3_600.0, &HOURS[..]),
            _ if seconds > 120.0 => ("minutes", 60.0, &STEPS[..]),
            _ => ("seconds", 1.0, &STEPS[..]),
        };
        let whole = seconds / one;
        let step = steps.iter().copied().find(|step| whole / step <= 9.0);
        let fine = whole / steps[0] < 3.0;
        let step = match fine {
            true => round_up(whole / 6.0),
            false => step.unwrap_or(24.0 * (whole / 24.0 / 6.0).ceil()),
        };
        Time {
            unit,
            seconds: one,
            step,
        }
    }

    /// The marks from 0 to the first that is not below this number of seconds.
    pub fn marks(&self, seconds: f64) -> Vec<f64> {
        let last = (seconds / self.seconds / self.step - 1e-9).ceil().max(1.0);
        (0..=last as usize)
            .map(|mark| mark as f64 * self.step)
            .collect()
    }
}

#[cfg(test)]
mod tests {
    use super::*;

    #[test]
    fn scales_place_values() {
        let even = Scale::even(10.0, 100.0, 0.0);
        assert_eq!(
            [even.at(0.0), even.at(5.0), even.at(10.0)],
            [100.0, 50.0, 0.0]
        );
        let log = Scale::logarithm([1.0, 100.0], 0.0, 10.0);
        assert!((log.at(10.0) - 5.0).abs() < 1e-9);
    }

    #[test]
    fn marks_are_told_apart() {
        assert_eq!(labels(&[0.0, 5.0, 10.0]), ["0", "5", "10"]);
        assert_eq!(
            labels(&[0.0, 0.2, 0.4, 0.2 * 3.0]),
            ["0.0", "0.2", "0.4", "0.6"]
        );
        assert_eq!(
            labels(&[0.0, 0.00005, 0.0001]),
            ["0.00000", "0.00005", "0.00010"]
        );
        assert_eq!(labels(&[0.0, 0.25, 0.5]), ["0.00", "0.25", "0.50"]);
        assert_eq!(labels(&[0.0]), ["0.00"]);
        for power in -9..9 {
            for step in [1.0, 2.0, 5.0] {
                let marks: Vec<f64> = (0..6)
                    .map(|n| f64::from(n) * step * 10f64.powi(power))
                    .collect();
                let mut told = labels(&marks);
                told.dedup();
                assert_eq!(told.len(), 6, "{told:?}");
            }
        }
    }

    #[test]
    fn marks_are_round() {
        assert_eq!(rounded(3.0, 60.0), [2.0, 5.0, 10.0, 20.0, 50.0, 100.0]);
        let marks = |seconds| {
            let time = Time::up_to(seconds);
            (time.unit, time.marks(seconds))
        };
        assert_eq!(
            marks(57_600.0),
            (
                "hours",
                vec![0.0, 2.0, 4.0, 6.0, 8.0, 10.0, 12.0, 14.0, 16.0]
            )
        );
        assert_eq!(
            marks(1_500.0),
            ("minutes", vec![0.0, 5.0, 10.0, 15.0, 20.0, 25.0])
        );
        assert_eq!(marks(3_000_000.0).0, "hours");
        assert!(marks(3_000_000.0).1.len() < 10);
        assert_eq!(
            marks(0.9),
            ("seconds", vec![0.0, 0.2, 0.4, 0.6000000000000001, 0.8, 1.0])
        );
    }
}
