//! How much may come in and go out: a bucket for frames that are heard, a window for messages that are sent.

use std::collections::VecDeque;
use std::time::{Duration, Instant};

/// How many frames of an interface are handed on in a second, and at once after a rest.
const FRAMES_A_SECOND: u32 = 200;
/// RFC 8415, section 14.1: a client limits the rate of its messages. So many leave in so long.
const MESSAGES: usize = 20;
const WINDOW: Duration = Duration::from_secs(10);

/// Frames that may still be handed on: a bucket that fills with time.
pub struct Bucket {
    left: f64,
    filled: Instant,
}

impl Bucket {
    pub fn new(now: Instant) -> Bucket {
        Bucket { left: f64::from(FRAMES_A_SECOND), filled: now }
    }

    /// Takes one, where there is one.
    pub fn take(&mut self, now: Instant) -> bool {
        let passed = now.saturating_duration_since(self.filled).as_secs_f64();
        self.filled = self.filled.max(now);
        self.left = (self.left + passed * f64::from(FRAMES_A_SECOND)).min(f64::from(FRAMES_A_SECOND));
        let is_there = self.left >= 1.0;
        if is_there {
            self.left -= 1.0;
        }
        is_there
    }

    /// One that was taken for nothing.
    pub fn give_back(&mut self) {
        self.left += 1.0;
    }
}

/// The moments of the last messages that left.
#[derive(Default)]
pub struct Window {
    sent: VecDeque<Instant>,
    held_back: u64,
}

/// What becomes of a message.
#[derive(Debug, PartialEq, Eq)]
pub enum Leave {
    /// It may go; so many were held back before it since the last that went.
    Go {
        held_back: u64,
    },
    /// It is held back, the first one after some that went.
    HoldFirst,
    Hold,
}

impl Window {
    pub fn ask(&mut self, now: Instant) -> Leave {
        while self.sent.front().map_or(false, |first| now.saturating_duration_since(*first) >= WINDOW) {
            self.sent.pop_front();
        }
        if self.sent.len() < MESSAGES {
            self.sent.push_back(now);
            return Leave::Go { held_back: std::mem::take(&mut self.held_back) };
        }
        self.held_back += 1;
        if self.held_back == 1 {
            Leave::HoldFirst
        } else {
            Leave::Hold
        }
    }
}

/// So many in so long, as when something is put back.
pub struct Budget {
    most: usize,
    span: Duration,
    spent: VecDeque<Instant>,
}

impl Budget {
    pub fn new(most: usize, span: Duration) -> Budget {
        Budget { most, span, spent: VecDeque::new() }
    }

    pub fn spend(&mut self, now: Instant) -> bool {
        while self.spent.front().map_or(false, |first| now.saturating_duration_since(*first) >= self.span) {
            self.spent.pop_front();
        }
        let is_there = self.spent.len() < self.most;
        if is_there {
            self.spent.push_back(now);
        }
        is_there
    }
}

#[cfg(test)]
mod tests {
    use super::*;

    #[test]
    fn a_flood_is_thinned_to_the_rate() {
        let begun = Instant::now();
        let mut bucket = Bucket::new(begun);
        let taken = (0..200_000u64).filter(|n| bucket.take(begun + Duration::from_micros(50 * n))).count();
        // ten seconds, and what was there at first
        assert!((2190..=2201).contains(&taken), "{taken}");
    }

    #[test]
    fn a_clock_that_stands_or_goes_back_fills_nothing() {
        let begun = Instant::now() + Duration::from_secs(5);
        let mut bucket = Bucket::new(begun);
        assert_eq!((0..1000).filter(|_| bucket.take(begun - Duration::from_secs(1))).count(), 200);
    }

    #[test]
    fn twenty_messages_leave_in_ten_seconds() {
        let begun = Instant::now();
        let mut window = Window::default();
        let at = |millis| begun + Duration::from_millis(millis);
        for n in 0..20 {
            assert_eq!(window.ask(at(n)), Leave::Go { held_back: 0 });
        }
        assert_eq!(window.ask(at(100)), Leave::HoldFirst);
        assert_eq!(window.ask(at(9_999)), Leave::Hold);
        assert_eq!(window.ask(at(10_000)), Leave::Go { held_back: 2 });
        assert_eq!(window.ask(at(10_000)), Leave::HoldFirst);
        assert_eq!(window.ask(at(10_001)), Leave::Go { held_back: 1 });
    }

    #[test]
    fn any_ten_seconds_have_at_most_twenty() {
        let begun = Instant::now();
        let mut window = Window::default();
        let sent: Vec<u64> = (0..60_000)
            .step_by(70)
            .filter(|n| matches!(window.ask(begun + Duration::from_millis(*n)), Leave::Go { .. }))
            .collect();
        assert!(sent.windows(21).all(|of| of[20] - of[0] >= 10_000));
    }

    #[test]
    fn a_budget_comes_back_with_time() {
        let begun = Instant::now();
        let mut budget = Budget::new(3, Duration::from_secs(60));
        assert_eq!((0..10).filter(|_| budget.spend(begun)).count(), 3);
        assert!(!budget.spend(begun + Duration::from_secs(59)) && budget.spend(begun + Duration::from_secs(60)));
    }
}
