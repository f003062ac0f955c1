//! Waiting for whatever comes first.

use nix::poll::{poll, PollFd, PollFlags};
use std::os::unix::io::RawFd;
use std::time::{Duration, Instant};

/// Where something may come from.
#[derive(Clone, Copy, Debug, PartialEq, Eq)]
pub enum Source {
    Signals,
    Daemon,
    Kernel,
    Transcript,
    Files,
    Calls,
    Timer,
    /// The frames of the interface that stands there in the list.
    Port(usize),
}

/// Those from which something came, until a moment, or without one for as long as it lasts.
pub fn wait(sources: &[(RawFd, Source)], until: Option<Instant>) -> Vec<Source> {
    let mut polled: Vec<PollFd> = sources.iter().map(|(fd, _)| PollFd::new(*fd, PollFlags::POLLIN)).collect();
    let timeout = until.map_or(-1, |until| millis(until.saturating_duration_since(Instant::now())));
    match poll(&mut polled, timeout) {
        Ok(_) => {
            let ready = |polled: &PollFd| polled.revents().map_or(false, |events| !events.is_empty());
            let both = polled.iter().zip(sources);
            both.filter(|(polled, _)| ready(polled)).map(|(_, (_, source))| *source).collect()
        }
        // a signal: its byte is there at the next wait
        Err(_) => Vec::new(),
    }
}

/// In whole milliseconds, upwards.
fn millis(time: Duration) -> i32 {
    i32::try_from(time.as_micros().saturating_add(999) / 1000).unwrap_or(i32::MAX)
}
