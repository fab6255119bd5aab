//! Time in a stream, counted without rounding.

use std::fmt;
use std::ops::AddAssign;

/// Parts of a second: every sampling rate divides it, so that times add up exactly.
const SECOND: u64 = 14_112_000;
/// Samples of a block.
const BLOCK: u64 = 256;

/// A time from the start of a stream, or the length of a part of it.
#[derive(Clone, Copy, Debug, Default, PartialEq, Eq, PartialOrd, Ord)]
pub struct Time(u64);

impl Time {
    /// The time of so many blocks at a sampling rate.
    pub fn of_blocks(blocks: u64, rate: u64) -> Time {
        Time(blocks * BLOCK * (SECOND / rate))
    }

    /// Bits a second where so many bytes last so long, rounded to the nearest.
    pub fn bit_rate(self, bytes: u64) -> Option<u64> {
        let (bits, time) = (u128::from(bytes) * 8, u128::from(self.0));
        let rate = (bits * u128::from(SECOND) + time / 2).checked_div(time)?;
        u64::try_from(rate).ok()
    }

    /// So many bytes times this time, to compare bytes over times without a division.
    pub fn parts_of(self, bytes: u64) -> u128 {
        u128::from(bytes) * u128::from(self.0)
    }

    /// Seconds, with six places, rounded down.
    pub fn seconds(self) -> String {
        let rest = u128::from(self.0 % SECOND) * 1_000_000 / u128::from(SECOND);
        format!("{}.{rest:06}", self.0 / SECOND)
    }
}

impl AddAssign for Time {
    fn add_assign(&mut self, more: Time) {
        self.0 = self.0.saturating_add(more.0);
    }
}

/// Hours, minutes and seconds, with three places, rounded down.
impl fmt::Display for Time {
    fn fmt(&self, f: &mut fmt::Formatter<'_>) -> fmt::Result {
        let (seconds, rest) = (self.0 / SECOND, self.0 % SECOND);
        let (hours, minutes) = (seconds / 3600, seconds / 60 % 60);
        let milliseconds = rest * 1000 / SECOND;
        let seconds = seconds % 60;
        write!(f, "{hours:02}:{minutes:02}:{seconds:02}.{milliseconds:03}")
    }
}

#[cfg(test)]
mod tests {
    use super::*;

    #[test]
    fn every_rate_divides_a_second() {
        for rate in [48_000, 44_100, 32_000] {
            assert_eq!(SECOND % rate, 0);
            assert_eq!(SECOND % (rate / 2), 0);
        }
    }

    #[test]
    fn a_time_is_written_by_the_clock() {
        let mut time = Time::of_blocks(6, 44_100);
        assert_eq!(time.to_string(), "00:00:00.034");
        assert_eq!(time.seconds(), "0.034829");
        time += Time(SECOND * 359_999);
        assert_eq!(time.to_string(), "99:59:59.034");
        assert_eq!(Time(SECOND * 360_000).to_string(), "100:00:00.000");
    }

    #[test]
    fn a_bit_rate_is_that_of_the_bytes() {
        assert_eq!(Time::of_blocks(6, 48_000).bit_rate(1792), Some(448_000));
        assert_eq!(Time::default().bit_rate(1792), None);
    }
}
