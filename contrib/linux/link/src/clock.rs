//! Moments as the daemon counts them, which no step of the wall clock changes, and whether the host was suspended.

use crate::leases::Moment;
use std::fs::File;
use std::os::unix::fs::FileExt;
use std::time::{Duration, Instant, SystemTime, UNIX_EPOCH};

/// Less than this isn't taken for a suspend.
const SUSPENDED: Duration = Duration::from_secs(2);
/// proc(5): how long the host has been up, and in suspends too, in seconds.
const UPTIME: &str = "/proc/uptime";
const UPTIME_MOST: usize = 64;

pub struct Clock {
    begun: Instant,
    wall: Duration,
    uptime: Option<File>,
    /// How long the host had been up, and when that was, by the clock that stands while it is suspended.
    before: Option<(Duration, Instant)>,
}

impl Clock {
    pub fn start() -> Clock {
        let wall = SystemTime::now().duration_since(UNIX_EPOCH).unwrap_or_default();
        let mut clock = Clock { begun: Instant::now(), wall, uptime: File::open(UPTIME).ok(), before: None };
        clock.was_suspended();
        clock
    }

    /// The wall clock's moment at the start, and what has passed since.
    pub fn moment(&self) -> Moment {
        u64::try_from((self.wall + self.begun.elapsed()).as_millis()).unwrap_or(u64::MAX)
    }

    /// Whether the host was suspended since this was asked last.
    pub fn was_suspended(&mut self) -> bool {
        let now = self.up().map(|up| (up, Instant::now()));
        match (std::mem::replace(&mut self.before, now), now) {
            (Some(before), Some(now)) => is_asleep(now.0.saturating_sub(before.0), now.1 - before.1),
            _ => false,
        }
    }

    fn up(&self) -> Option<Duration> {
        let mut room = [0; UPTIME_MOST];
        let length = self.uptime.as_ref()?.read_at(&mut room, 0).ok()?;
        uptime(std::str::from_utf8(&room[..length]).ok()?)
    }
}

/// Whether the host was suspended, which was up for so long while so much passed awake.
fn is_asleep(up: Duration, awake: Duration) -> bool {
    up.saturating_sub(awake) >= SUSPENDED
}

/// The time that the text of the file tells, as `350735.47 234388.90`.
fn uptime(text: &str) -> Option<Duration> {
    let (seconds, hundredths) = text.split(' ').next()?.split_once('.')?;
    Some(Duration::from_secs(seconds.parse().ok()?) + Duration::from_millis(10 * hundredths.parse::<u64>().ok()?))
}

#[cfg(test)]
mod tests {
    use super::*;

    #[test]
    fn a_time_is_read() {
        assert_eq!(uptime("350735.47 234388.90\n"), Some(Duration::from_millis(350_735_470)));
        assert_eq!((uptime(""), uptime("1"), uptime("x.y z")), (None, None, None));
    }

    #[test]
    fn a_suspend_is_told_from_time_awake() {
        let seconds = Duration::from_secs;
        assert!(is_asleep(seconds(3602), seconds(3600)) && !is_asleep(seconds(3601), seconds(3600)));
        assert!(!is_asleep(seconds(0), seconds(5)) && !Clock::start().was_suspended());
    }
}
