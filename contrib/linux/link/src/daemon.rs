//! The daemon: how it is started, told and heard.

use crate::datagrams::{self, Told};
use std::io::{self, Read};
use std::net::{Ipv4Addr, UdpSocket};
use std::os::unix::io::{AsRawFd, RawFd};
use std::os::unix::process::ExitStatusExt;
use std::path::Path;
use std::process::{Child, ChildStdout, Command, Stdio};

/// util-linux: starts a program without the rights of this one, and ends it with this one.
const SETPRIV: &str = "/usr/bin/setpriv";
const LOWERED: [&str; 5] = ["--pdeathsig", "TERM", "--ambient-caps=-all", "--inh-caps=-all", "--"];
const ROOM: usize = 4096;
/// What a shell adds to the number of the signal that ended a child.
const BY_SIGNAL: i32 = 128;

/// The way to a daemon.
pub struct Wire {
    socket: UdpSocket,
    port: u16,
}

impl Wire {
    /// A way from this port to that of the daemon, each on the loopback.
    pub fn open(own: u16, port: u16) -> io::Result<Wire> {
        let socket = UdpSocket::bind((Ipv4Addr::LOCALHOST, own))?;
        socket.connect((Ipv4Addr::LOCALHOST, port))?;
        socket.set_nonblocking(true)?;
        Ok(Wire { socket, port })
    }

    /// A way from any port to one that nobody has.
    pub fn open_any() -> io::Result<Wire> {
        let free = UdpSocket::bind((Ipv4Addr::LOCALHOST, 0))?.local_addr()?.port();
        Wire::open(0, free)
    }

    pub fn port(&self) -> u16 {
        self.port
    }

    pub fn own_port(&self) -> io::Result<u16> {
        Ok(self.socket.local_addr()?.port())
    }

    pub fn fd(&self) -> RawFd {
        self.socket.as_raw_fd()
    }

    /// Whether the daemon's port took it, as far as the loopback says so at once.
    pub fn tell(&self, place: usize, told: Told) -> bool {
        self.send(&datagrams::datagram(place, told))
    }

    pub fn tell_stop(&self) -> bool {
        self.send(&datagrams::stop())
    }

    fn send(&self, datagram: &[u8]) -> bool {
        // what came of an earlier one doesn't count
        let _ = self.socket.take_error();
        let sent = self.socket.send(datagram).is_ok();
        sent && matches!(self.socket.take_error(), Ok(None))
    }

    /// The next datagram of the daemon, where there is one.
    pub fn next(&self) -> Option<Vec<u8>> {
        let mut room = [0; ROOM];
        loop {
            match self.socket.recv(&mut room) {
                Ok(length) => return Some(room[..length].to_vec()),
                // one that was told before the daemon had its port
                Err(error) if error.kind() == io::ErrorKind::ConnectionRefused => {}
                Err(error) if error.kind() == io::ErrorKind::Interrupted => {}
                Err(_) => return None,
            }
        }
    }

    /// Whether nobody has the daemon's port.
    pub fn is_free(&self) -> bool {
        UdpSocket::bind((Ipv4Addr::LOCALHOST, self.port)).is_ok()
    }
}

/// A daemon that this process started.
pub struct Daemon {
    child: Child,
    transcript: ChildStdout,
}

/// What came of its transcript.
pub enum Transcript {
    Bytes(Vec<u8>),
    End,
}

impl Daemon {
    /// Starts the daemon with a configuration and its words behind `live`.
    pub fn start(program: &Path, configuration: std::fs::File, words: &[String]) -> io::Result<Daemon> {
        let mut command = if Path::new(SETPRIV).exists() {
            let mut command = Command::new(SETPRIV);
            command.args(LOWERED).arg(program);
            command
        } else {
            Command::new(program)
        };
        let mut child = command.arg("live").args(words).stdin(configuration).stdout(Stdio::piped()).spawn()?;
        match child.stdout.take() {
            Some(transcript) => Ok(Daemon { child, transcript }),
            None => Err(io::ErrorKind::BrokenPipe.into()),
        }
    }

    pub fn fd(&self) -> RawFd {
        self.transcript.as_raw_fd()
    }

    /// What came of the transcript; to be asked for where something came.
    pub fn transcript(&mut self) -> Transcript {
        let mut room = vec![0; ROOM];
        match self.transcript.read(&mut room) {
            Ok(0) => Transcript::End,
            Ok(length) => {
                room.truncate(length);
                Transcript::Bytes(room)
            }
            Err(error) if error.kind() == io::ErrorKind::Interrupted => Transcript::Bytes(Vec::new()),
            Err(_) => Transcript::End,
        }
    }

    /// Waits for its end, which its transcript told: its status, as a shell tells it.
    pub fn wait(&mut self) -> i32 {
        match self.child.wait() {
            Ok(status) => status.code().unwrap_or_else(|| BY_SIGNAL + status.signal().unwrap_or(0)),
            Err(_) => BY_SIGNAL,
        }
    }

    /// Ends it at once.
    pub fn kill(&mut self) {
        let _ = self.child.kill();
        let _ = self.child.wait();
    }
}
