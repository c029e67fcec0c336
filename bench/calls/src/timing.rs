//! The ratio of our time to std's.
use crate::clock;
use std::hint::black_box;
use std::time::{Duration, Instant};

/// A function that does a side's work on the slice with this index. Returns a digest of the
/// results.
pub type Work<'a> = &'a dyn Fn(usize) -> u64;

/// The ratio of our time to std's, and whether both sides returned the same.
pub struct Measure {
    pub ratio: f64,
    pub is_same: bool,
}

/// The shortest time that is measured, in seconds.
const SHORTEST: f64 = 1e-4;

/// The greatest number of rounds. A round takes longer than `SHORTEST` divided by this number.
const MOST_ROUNDS: usize = 1 << 16;

/// The longest search for enough rounds, whatever the clock says.
const LONGEST_SEARCH: Duration = Duration::from_millis(100);

/// How work is timed.
pub struct Timer {
    /// The number of times that each slice of the work is timed.
    pub reps: usize,
    /// The number of seconds after which no more slices are timed.
    pub budget: f64,
    pub clock: fn() -> f64,
}

impl Timer {
    /// Returns the timer for calls.
    pub fn of_calls(reps: usize) -> Timer {
        Timer {
            reps,
            budget: reps as f64 * 0.1,
            clock: clock::of_this_thread,
        }
    }

    /// Returns the median of the ratios on each of the slices, timed repeatedly.
    pub fn compare(&self, slices: usize, ours: Work, std: Work) -> Measure {
        let is_same = (0..slices).all(|slice| ours(slice) == std(slice));
        let start = Instant::now();
        let mut ratios = vec![];
        for _ in 0..self.reps {
            ratios.extend((0..slices).map(|slice| self.ratio_on(slice, ours, std)));
            if start.elapsed().as_secs_f64() > self.budget {
                break;
            }
        }
        ratios.sort_by(f64::total_cmp);
        let ratio = ratios[ratios.len() / 2];
        Measure { ratio, is_same }
    }

    /// Returns the ratio of our time to std's on one slice. The sides run right after each other,
    /// alternating, so that a busy machine slows both, and neither finds the bytes in a faster
    /// cache.
    fn ratio_on(&self, slice: usize, ours: Work, std: Work) -> f64 {
        let [one, other] =
            [ours, std].map(|work| enough_rounds(|rounds| self.seconds(work, slice, rounds)));
        let rounds = one.max(other);
        let [a, b, c, d] = [ours, std, std, ours].map(|work| self.seconds(work, slice, rounds));
        (a + d) / (b + c)
    }

    /// Returns the seconds that the work on this slice takes, repeated for this many rounds.
    fn seconds(&self, work: Work, slice: usize, rounds: usize) -> f64 {
        let start = (self.clock)();
        for _ in 0..rounds {
            black_box(work(slice));
        }
        (self.clock)() - start
    }
}

/// Returns a number of rounds that take at least `SHORTEST` seconds: doubles the number until the
/// clock measures so many. The search ends even if the clock stops or goes back.
fn enough_rounds(seconds: impl Fn(usize) -> f64) -> usize {
    let start = Instant::now();
    let mut rounds = 1;
    // The maximum of NaN and 0 is 0.
    while seconds(rounds).max(0.0) < SHORTEST
        && rounds < MOST_ROUNDS
        && start.elapsed() < LONGEST_SEARCH
    {
        rounds *= 2;
    }
    rounds
}

#[cfg(test)]
mod tests {
    use super::{enough_rounds, Timer, MOST_ROUNDS};
    use std::thread::sleep;
    use std::time::Duration;

    #[test]
    fn rounds_are_bounded() {
        for seconds in [0.0, -0.0, -1.0, f64::NAN, f64::NEG_INFINITY, 5e-324] {
            assert_eq!(enough_rounds(|_| seconds), MOST_ROUNDS, "{seconds}");
        }
        for seconds in [1e-4, 1.0, 1e300, f64::MAX, f64::INFINITY] {
            assert_eq!(enough_rounds(|_| seconds), 1, "{seconds}");
        }
    }

    #[test]
    fn rounds_are_enough() {
        for (round, wanted) in [(1e-4, 1), (6e-5, 2), (1e-5, 16), (1e-8, 16384)] {
            let seconds = |rounds| rounds as f64 * round;
            assert_eq!(enough_rounds(seconds), wanted, "{round}");
        }
        // The first time is below 0.
        assert_eq!(enough_rounds(|rounds| rounds as f64 - 1.5), 2);
    }

    #[test]
    fn slow_work_has_few_rounds() {
        let slow = |rounds| {
            sleep(Duration::from_millis(60) * rounds as u32);
            0.0
        };
        assert_eq!(enough_rounds(slow), 2);
    }

    #[test]
    fn a_stopped_clock_ends() {
        let timer = Timer {
            reps: 2,
            budget: 60.0,
            clock: || 0.0,
        };
        let measure = timer.compare(3, &|slice| slice as u64, &|slice| slice as u64);
        assert!(measure.is_same && measure.ratio.is_nan());
    }
}
