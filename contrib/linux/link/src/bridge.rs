//! Frames between interfaces and the daemon, and what the daemon has to know of the interfaces.

use crate::daemon::Wire;
use crate::datagrams::{self, Told};
use crate::netlink::events::{Change, Events};
use crate::netlink::request::{Kernel, Link};
use crate::ports::Port;
use crate::say;
use crate::signals::{Asks, Signals};
use crate::waiting::{wait, Source};
use std::io;
use std::net::IpAddr;
use std::os::unix::io::RawFd;
use std::time::{Duration, Instant};

/// How many datagrams of the daemon are read before others have their turn.
const AT_ONCE: usize = 64;
const RETRY: Duration = Duration::from_millis(100);
const STOP: Duration = Duration::from_secs(6);

/// How it is known that the daemon has heard a state.
#[derive(Clone, Copy, PartialEq, Eq)]
pub enum Hearing {
    /// Its transcript says so.
    Transcript,
    /// Its port took the datagram.
    Sending,
}

pub struct Bridge {
    pub wire: Wire,
    pub ports: Vec<Port>,
    events: Events,
    kernel: Kernel,
    hearing: Hearing,
}

/// What changes in the kernel mean for the run.
#[derive(Default)]
pub struct Meaning {
    /// Rows may be gone.
    pub rows: bool,
    /// Why the run has to begin anew.
    pub anew: Option<String>,
    /// Interfaces that came and aren't of this run.
    pub others: Vec<String>,
}

impl Bridge {
    /// Joins the interfaces with these names, which are set up where they aren't.
    pub fn open(wire: Wire, names: &[String], hearing: Hearing) -> Result<Bridge, String> {
        let failed = |error: io::Error| format!("netlink: {error}");
        // events come from before the first look on
        let events = Events::open().map_err(failed)?;
        let mut bridge = Bridge { wire, ports: Vec::new(), events, kernel: Kernel::open().map_err(failed)?, hearing };
        let links = bridge.kernel.links().map_err(failed)?;
        for (at, name) in names.iter().enumerate() {
            let link = links
                .iter()
                .find(|link| &link.name == name)
                .ok_or_else(|| format!("{name}: there is no such interface"))?;
            let hardware = link.hardware.filter(|_| link.is_ethernet);
            let hardware = hardware.ok_or_else(|| format!("{name} is no Ethernet interface"))?;
            bridge.ports.push(Port::new(at + 1, name, hardware, Instant::now()));
            bridge.open_port(at, link).map_err(|error| format!("{name}: {error}"))?;
        }
        Ok(bridge)
    }

    /// Opens an interface that is there.
    fn open_port(&mut self, at: usize, link: &Link) -> io::Result<()> {
        if !link.is_up() {
            self.kernel.set_up(link.index)?;
        }
        let addresses = self.kernel.addresses()?;
        let port = &mut self.ports[at];
        port.open(link)?;
        for address in addresses.iter().filter(|address| address.index == link.index) {
            if let IpAddr::V4(address) = address.net.address {
                port.note_address(address);
            }
        }
        Ok(())
    }

    pub fn sources(&self) -> Vec<(RawFd, Source)> {
        let ports = self.ports.iter().enumerate().filter_map(|(at, port)| Some((port.fd()?, Source::Port(at))));
        [(self.wire.fd(), Source::Daemon), (self.events.fd(), Source::Kernel)].into_iter().chain(ports).collect()
    }

    pub fn due(&self, now: Instant) -> Option<Instant> {
        self.ports.iter().filter_map(|port| port.due(now)).min()
    }

    /// Does what is due: says states, and goes on to read after a pause.
    pub fn act(&mut self, now: Instant) {
        for port in &mut self.ports {
            port.resume(now);
            if port.carrier.due(now).map_or(false, |due| due <= now) {
                let up = port.carrier.now();
                let taken = self.wire.tell(port.place, Told::Carrier { up });
                port.carrier.say(now, taken);
                if taken && self.hearing == Hearing::Sending {
                    port.carrier.heard(up);
                }
            }
        }
    }

    /// The daemon has heard of a carrier.
    pub fn heard_carrier(&mut self, place: usize, up: bool) {
        if let Some(port) = self.ports.iter_mut().find(|port| port.place == place) {
            port.carrier.heard(up);
        }
    }

    pub fn tell_all(&self, told: Told) {
        for port in &self.ports {
            self.wire.tell(port.place, told);
        }
    }

    pub fn hear_daemon(&mut self, now: Instant) {
        for _ in 0..AT_ONCE {
            let datagram = match self.wire.next() {
                Some(datagram) => datagram,
                None => return,
            };
            if let Some((place, frame)) = datagrams::sent(&datagram) {
                if let Some(port) = self.ports.iter_mut().find(|port| port.place == place) {
                    port.send(frame, now);
                }
            }
        }
    }

    pub fn hear_port(&mut self, at: usize, now: Instant) {
        if let Some(port) = self.ports.get_mut(at) {
            port.hand_on(&self.wire, now);
        }
    }

    pub fn hear_kernel(&mut self, now: Instant) -> Meaning {
        let mut meaning = Meaning::default();
        for change in self.events.came() {
            self.change(change, &mut meaning);
            // each state is said, also one that lasts shorter than a wait
            self.act(now);
        }
        meaning
    }

    fn change(&mut self, change: Change, meaning: &mut Meaning) {
        match change {
            Change::Link(link) => self.link(&link, meaning),
            Change::Gone(index) => {
                if let Some(port) = self.port(index) {
                    say!(Warning, "{} is gone", port.name);
                    port.close();
                }
            }
            Change::Duplicate { index, address } => {
                if let Some(place) = self.port(index).map(|port| port.place) {
                    self.wire.tell(place, Told::Duplicate(address));
                }
            }
            Change::Address4 { index, address } => {
                if let Some(port) = self.port(index) {
                    port.note_address(address);
                }
            }
            Change::Rows => meaning.rows = true,
            Change::Lost => self.look_anew(meaning),
        }
    }

    fn port(&mut self, index: u32) -> Option<&mut Port> {
        self.ports.iter_mut().find(|port| port.index() == Some(index))
    }

    /// An interface as it is now.
    fn link(&mut self, link: &Link, meaning: &mut Meaning) {
        if let Some(port) = self.port(link.index) {
            if port.name != link.name {
                say!(Warning, "{} is {} now", port.name, link.name);
                port.close();
            } else if link.hardware != Some(port.hardware) {
                meaning.anew = Some(format!("{}: its hardware address is another one now", port.name));
            } else {
                port.carrier.set(link.has_carrier());
            }
            return;
        }
        match self.ports.iter().position(|port| port.name == link.name && port.index().is_none()) {
            Some(at) => self.come_again(at, link, meaning),
            None => meaning.others.push(link.name.clone()),
        }
    }

    fn come_again(&mut self, at: usize, link: &Link, meaning: &mut Meaning) {
        let name = &link.name;
        if link.hardware != Some(self.ports[at].hardware) {
            meaning.anew = Some(format!("{name} came again with another hardware address"));
            return;
        }
        match self.open_port(at, link) {
            Ok(()) => say!(Notice, "{name} is there again"),
            // it may be gone already; its next change is another try
            Err(error) => say!(Warning, "{name}: {error}"),
        }
    }

    /// Looks at all interfaces, since some of the kernel's words were lost.
    fn look_anew(&mut self, meaning: &mut Meaning) {
        meaning.rows = true;
        let links = match self.kernel.links() {
            Ok(links) => links,
            Err(error) => {
                say!(Warning, "netlink: {error}");
                return;
            }
        };
        for port in &mut self.ports {
            if !links.iter().any(|link| port.index().map_or(true, |index| index == link.index)) {
                port.close();
            }
        }
        for link in &links {
            self.link(link, meaning);
        }
    }
}

/// Joins the interfaces to a daemon that another one starts, until a stop: whether the daemon ended then.
pub fn alone(mut bridge: Bridge, signals: &Signals) -> bool {
    let mut stop_at: Option<Instant> = None;
    loop {
        let now = Instant::now();
        bridge.act(now);
        if let Some(until) = stop_at {
            if bridge.wire.is_free() || now >= until {
                return bridge.wire.is_free();
            }
        }
        let mut sources = bridge.sources();
        sources.push((signals.fd(), Source::Signals));
        let owing = stop_at.is_some() || bridge.ports.iter().any(|port| !port.carrier.stands());
        let retry = Some(now + RETRY).filter(|_| owing);
        let due = bridge.due(now).filter(|due| *due > now);
        for source in wait(&sources, [retry, due].into_iter().flatten().min()) {
            match source {
                Source::Signals => signals.came().into_iter().for_each(|asks| match asks {
                    Asks::Rebind => bridge.tell_all(Told::Rebind),
                    Asks::Release => bridge.tell_all(Told::Release),
                    Asks::Stop if stop_at.is_none() => {
                        bridge.wire.tell_stop();
                        stop_at = Some(Instant::now() + STOP);
                    }
                    Asks::Stop | Asks::Child => {}
                }),
                Source::Daemon => bridge.hear_daemon(now),
                Source::Kernel => {
                    bridge.hear_kernel(now);
                }
                Source::Port(at) => bridge.hear_port(at, now),
                _ => {}
            }
        }
    }
}
