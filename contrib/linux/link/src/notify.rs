//! What systemd is told of this service (sd_notify(3)). Without systemd nothing is said.

use nix::sys::socket::{sendto, MsgFlags, UnixAddr};
use std::os::unix::io::AsRawFd;
use std::os::unix::net::UnixDatagram;

/// The way to systemd, and what it was told last.
pub struct Notify {
    way: Option<(UnixDatagram, UnixAddr)>,
    status: String,
    is_ready: bool,
}

impl Notify {
    /// The way that the environment names. It is taken out of it, so that no child speaks in place of this process.
    pub fn open() -> Notify {
        let named = std::env::var("NOTIFY_SOCKET").ok();
        std::env::remove_var("NOTIFY_SOCKET");
        let way = named.as_deref().and_then(address).zip(UnixDatagram::unbound().ok());
        Notify { way: way.map(|(address, socket)| (socket, address)), status: String::new(), is_ready: false }
    }

    fn tell(&self, text: &str) {
        if let Some((socket, address)) = &self.way {
            // systemd that can't be told changes nothing here
            let _ = sendto(socket.as_raw_fd(), text.as_bytes(), address, MsgFlags::empty());
        }
    }

    pub fn ready(&mut self) {
        if !self.is_ready {
            self.is_ready = true;
            self.tell("READY=1");
        }
    }

    pub fn is_ready(&self) -> bool {
        self.is_ready
    }

    pub fn status(&mut self, text: &str) {
        if self.status != text {
            self.status = text.to_string();
            self.tell(&format!("STATUS={text}"));
        }
    }

    pub fn stopping(&self) {
        self.tell("STOPPING=1");
    }
}

/// The address of a socket with this name; `@` in front is that of an abstract one.
fn address(name: &str) -> Option<UnixAddr> {
    match name.strip_prefix('@') {
        Some(rest) => UnixAddr::new_abstract(rest.as_bytes()).ok(),
        None => UnixAddr::new(name).ok(),
    }
}
