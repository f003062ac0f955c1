//! Signals, as something to wait on.

use signal_hook::consts::{SIGCHLD, SIGHUP, SIGINT, SIGTERM, SIGUSR1};
use signal_hook::{flag, low_level::pipe};
use std::io::{self, Read};
use std::os::unix::io::{AsRawFd, RawFd};
use std::os::unix::net::UnixStream;
use std::sync::atomic::{AtomicBool, Ordering};
use std::sync::Arc;

/// What a signal asks for.
#[derive(Clone, Copy, Debug, PartialEq, Eq)]
pub enum Asks {
    Stop,
    Rebind,
    Release,
    /// A child has ended.
    Child,
}

const SIGNALS: [(i32, Asks); 5] = [
    (SIGTERM, Asks::Stop),
    (SIGINT, Asks::Stop),
    (SIGHUP, Asks::Rebind),
    (SIGUSR1, Asks::Release),
    (SIGCHLD, Asks::Child),
];

pub struct Signals {
    reader: UnixStream,
    flags: Vec<(Asks, Arc<AtomicBool>)>,
}

impl Signals {
    pub fn open() -> io::Result<Signals> {
        let (reader, writer) = UnixStream::pair()?;
        reader.set_nonblocking(true)?;
        let mut flags = Vec::new();
        for (number, asks) in SIGNALS {
            let came = Arc::new(AtomicBool::new(false));
            flag::register(number, Arc::clone(&came))?;
            pipe::register(number, writer.try_clone()?)?;
            flags.push((asks, came));
        }
        Ok(Signals { reader, flags })
    }

    pub fn fd(&self) -> RawFd {
        self.reader.as_raw_fd()
    }

    /// What the signals asked for that came, each once.
    pub fn came(&self) -> Vec<Asks> {
        let mut room = [0; 64];
        while matches!((&self.reader).read(&mut room), Ok(length) if length > 0) {}
        self.flags.iter().filter(|(_, came)| came.swap(false, Ordering::SeqCst)).map(|(asks, _)| *asks).collect()
    }
}
