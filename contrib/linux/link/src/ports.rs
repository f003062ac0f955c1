//! An interface of the run: its sockets, its carrier, and what may go over it.

use crate::daemon::Wire;
use crate::datagrams::Told;
use crate::frames::{self, Family, Message};
use crate::netlink::request::Link;
use crate::packet::{Heard, Packets};
use crate::rates::{Bucket, Budget, Leave, Window};
use crate::say;
use crate::states::Standing;
use std::collections::VecDeque;
use std::net::Ipv4Addr;
use std::os::unix::io::RawFd;
use std::time::{Duration, Instant};

/// How many frames are read of one interface before others have their turn.
const AT_ONCE: usize = 32;
/// How long an interface isn't read of which too many frames came.
const PAUSE: Duration = Duration::from_millis(50);
/// So many addresses are compared with what ARP names.
const ADDRESSES: usize = 24;
/// How often a flood is told.
const FLOOD_SPAN: Duration = Duration::from_secs(60);

pub struct Port {
    pub place: usize,
    pub name: String,
    pub hardware: [u8; 6],
    index: Option<u32>,
    packets: Option<Packets>,
    pub carrier: Standing<bool>,
    bucket: Bucket,
    paused: Option<Instant>,
    floods: Budget,
    windows: [Window; 2],
    addresses: VecDeque<Ipv4Addr>,
}

impl Port {
    pub fn new(place: usize, name: &str, hardware: [u8; 6], now: Instant) -> Port {
        Port {
            place,
            name: name.to_string(),
            hardware,
            index: None,
            packets: None,
            // the daemon begins with all carriers
            carrier: Standing::new(true),
            bucket: Bucket::new(now),
            paused: None,
            floods: Budget::new(1, FLOOD_SPAN),
            windows: [Window::default(), Window::default()],
            addresses: VecDeque::new(),
        }
    }

    pub fn index(&self) -> Option<u32> {
        self.index
    }

    /// Opens the sockets of the interface, as it is there now.
    pub fn open(&mut self, link: &Link) -> std::io::Result<()> {
        self.packets = Some(Packets::open(&self.name)?);
        self.index = Some(link.index);
        self.carrier.set(link.has_carrier());
        self.hear();
        Ok(())
    }

    pub fn close(&mut self) {
        self.packets = None;
        self.index = None;
        self.carrier.set(false);
    }

    /// What is waited on, where frames may come and be read.
    pub fn fd(&self) -> Option<RawFd> {
        match (&self.packets, self.paused) {
            (Some(packets), None) => Some(packets.fd()),
            _ => None,
        }
    }

    /// When something is to be done.
    pub fn due(&self, now: Instant) -> Option<Instant> {
        [self.carrier.due(now), self.paused].into_iter().flatten().min()
    }

    pub fn resume(&mut self, now: Instant) {
        self.paused = self.paused.filter(|until| *until > now);
    }

    /// Hands frames on to the daemon, as many as may be.
    pub fn hand_on(&mut self, wire: &Wire, now: Instant) {
        for _ in 0..AT_ONCE {
            if !self.bucket.take(now) {
                self.paused = Some(now + PAUSE);
                if self.floods.spend(now) {
                    say!(Warning, "{}: too many frames come in: some aren't heard", self.name);
                }
                return;
            }
            match self.packets.as_ref().map(Packets::next) {
                Some(Heard::Frame(frame)) => {
                    wire.tell(self.place, Told::Frame(&frame));
                }
                Some(Heard::Other) => {}
                Some(Heard::Nothing | Heard::Down) | None => {
                    self.bucket.give_back();
                    return;
                }
            }
        }
    }

    /// Sends a frame of the daemon, where the rate of messages lets it go.
    pub fn send(&mut self, frame: &[u8], now: Instant) {
        if let Some(address) = frames::arp_target(frame) {
            self.note_address(address);
        }
        if let Some(family) = frames::to_server(frame) {
            let window = &mut self.windows[match family {
                Family::V4 => 0,
                Family::V6 => 1,
            }];
            match window.ask(now) {
                Leave::Go { held_back: 0 } => {}
                Leave::Go { held_back } => say!(Notice, "{}: {held_back} messages were held back", self.name),
                Leave::HoldFirst => {
                    say!(Warning, "{}: more than 20 messages in 10 s: further ones are held back", self.name);
                    return;
                }
                Leave::Hold => return,
            }
        }
        self.tell_of(frame);
        if let Some(packets) = &self.packets {
            if let Err(error) = packets.send(frame) {
                say!(Info, "{}: a frame wasn't sent: {error}", self.name);
            }
        }
    }

    /// Messages that give an address away are told.
    fn tell_of(&self, frame: &[u8]) {
        match frames::message(frame) {
            Some(Message::Decline) => say!(Warning, "{}: conflict: another host has the address", self.name),
            Some(Message::Release) => say!(Info, "{}: released", self.name),
            None => {}
        }
    }

    /// ARP that names this address is heard from now on.
    pub fn note_address(&mut self, address: Ipv4Addr) {
        if let Some(at) = self.addresses.iter().position(|other| *other == address) {
            self.addresses.remove(at);
            self.addresses.push_back(address);
            return;
        }
        if self.addresses.len() >= ADDRESSES {
            self.addresses.pop_front();
        }
        self.addresses.push_back(address);
        self.hear();
    }

    fn hear(&self) {
        let addresses: Vec<Ipv4Addr> = self.addresses.iter().copied().collect();
        if let Some(Err(error)) = self.packets.as_ref().map(|packets| packets.hear(&addresses)) {
            say!(Warning, "{}: ARP of {} can't be heard: {error}", self.name, addresses.len());
        }
    }
}
