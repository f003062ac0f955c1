//! States that the daemon has to know: each is said again until it stands, since a datagram may be lost in a flood.

use std::time::{Duration, Instant};

/// How long an answer is waited for before a state is said again.
const AGAIN: Duration = Duration::from_millis(500);
/// The same where nobody took it, as before the daemon has its port.
const SOON: Duration = Duration::from_millis(20);

/// A state as it is here, as the daemon knows it, and as it was said last, with when to say it again.
pub struct Standing<T> {
    now: T,
    known: T,
    said: Option<(T, Instant)>,
}

impl<T: Copy + PartialEq> Standing<T> {
    /// A state that the daemon begins with.
    pub fn new(known: T) -> Standing<T> {
        Standing { now: known, known, said: None }
    }

    pub fn set(&mut self, now: T) {
        self.now = now;
    }

    pub fn now(&self) -> T {
        self.now
    }

    pub fn stands(&self) -> bool {
        self.said.is_none() && self.known == self.now
    }

    /// When it is to be said; `None` where it stands.
    pub fn due(&self, at: Instant) -> Option<Instant> {
        match self.said {
            Some((said, again)) if said == self.now => Some(again),
            Some(_) => Some(at),
            None if self.known != self.now => Some(at),
            None => None,
        }
    }

    /// It was said, and taken or not.
    pub fn say(&mut self, at: Instant, taken: bool) {
        self.said = Some((self.now, at + if taken { AGAIN } else { SOON }));
    }

    /// The daemon has heard a state.
    pub fn heard(&mut self, state: T) {
        self.known = state;
        if matches!(self.said, Some((said, _)) if said == state) {
            self.said = None;
        }
    }
}

#[cfg(test)]
mod tests {
    use super::*;

    #[test]
    fn a_state_is_said_until_it_is_heard() {
        let at = Instant::now();
        let mut carrier = Standing::new(true);
        assert_eq!(carrier.due(at), None);
        carrier.set(false);
        assert_eq!(carrier.due(at), Some(at));
        carrier.say(at, true);
        assert_eq!(carrier.due(at), Some(at + AGAIN));
        carrier.heard(false);
        assert!(carrier.stands() && carrier.due(at).is_none());
    }

    #[test]
    fn a_state_that_comes_back_is_said_too() {
        let at = Instant::now();
        let mut carrier = Standing::new(true);
        carrier.set(false);
        carrier.say(at, true);
        carrier.set(true);
        assert_eq!(carrier.due(at), Some(at));
        carrier.say(at, true);
        // the first of the two is heard, and the second one lost
        carrier.heard(false);
        assert_eq!(carrier.due(at), Some(at + AGAIN));
        carrier.say(at + AGAIN, false);
        assert_eq!(carrier.due(at), Some(at + AGAIN + SOON));
        carrier.heard(true);
        assert!(carrier.stands());
    }
}
