//! Moments and durations, as the library takes and gives them.

use crate::ffi::{Itimerspec, Timespec};
use std::time::Duration;

/// A timer's setting, as timerfd_settime(2) has it.
#[derive(Clone, Copy, Debug, PartialEq, Eq, Default)]
pub struct Setting {
    /// The time until the next expiration; zero if none comes.
    pub value: Duration,
    /// The time between further expirations; zero if there is only one.
    pub interval: Duration,
}

impl Setting {
    /// One expiration after this time.
    pub const fn once(value: Duration) -> Setting {
        Setting {
            value,
            interval: Duration::ZERO,
        }
    }

    /// An expiration at each end of this time.
    pub const fn every(interval: Duration) -> Setting {
        Setting {
            value: interval,
            interval,
        }
    }
}

/// The library rounds it up to its unit. More seconds than a number holds are the most that it
/// holds, which is more than the clock goes.
pub(crate) fn timespec(time: Duration) -> Timespec {
    Timespec {
        seconds: i64::try_from(time.as_secs()).unwrap_or(i64::MAX),
        nanoseconds: time.subsec_nanos().into(),
    }
}

/// What the library gives is a time: its numbers aren't negative.
pub(crate) fn duration(time: Timespec) -> Duration {
    Duration::new(time.seconds as u64, time.nanoseconds as u32)
}

pub(crate) fn itimerspec(setting: Setting) -> Itimerspec {
    Itimerspec {
        interval: timespec(setting.interval),
        value: timespec(setting.value),
    }
}

pub(crate) fn setting(times: Itimerspec) -> Setting {
    Setting {
        value: duration(times.value),
        interval: duration(times.interval),
    }
}

#[cfg(test)]
mod tests {
    use super::*;

    #[test]
    fn a_time_keeps_its_nanoseconds() {
        let time = Duration::new(3, 7);
        let expected = Timespec {
            seconds: 3,
            nanoseconds: 7,
        };
        assert_eq!(timespec(time), expected);
        assert_eq!(duration(expected), time);
    }

    #[test]
    fn the_longest_time_stays_the_longest() {
        let expected = Timespec {
            seconds: i64::MAX,
            nanoseconds: 999_999_999,
        };
        assert_eq!(timespec(Duration::MAX), expected);
    }
}
