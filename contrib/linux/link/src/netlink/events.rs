//! What the kernel tells by itself: changes of interfaces, of addresses, and of routes that a DHCP client made.

use super::message::messages;
use super::request::{Address, Link, IFA_F_DADFAILED, PROTOCOL};
use crate::filter;
use nix::sys::socket::{bind, NetlinkAddr};
use socket2::{Domain, Protocol, Socket, Type};
use std::io::{self, Read};
use std::net::{IpAddr, Ipv4Addr, Ipv6Addr};
use std::os::unix::io::{AsRawFd, RawFd};

// linux/rtnetlink.h: the groups of events
const LINK: u32 = 0x1;
const IPV4_ADDRESS: u32 = 0x10;
const IPV4_ROUTE: u32 = 0x40;
const IPV6_ADDRESS: u32 = 0x100;
const IPV6_ROUTE: u32 = 0x400;
const GROUPS: u32 = LINK | IPV4_ADDRESS | IPV4_ROUTE | IPV6_ADDRESS | IPV6_ROUTE;
const RTM_NEWLINK: u16 = 16;
const RTM_DELLINK: u16 = 17;
const RTM_NEWADDR: u16 = 20;
const RTM_DELADDR: u16 = 21;
const RTM_DELROUTE: u16 = 25;

/// A change in the kernel.
#[derive(Debug, PartialEq, Eq)]
pub enum Change {
    /// An interface is there, as it is now.
    Link(Link),
    /// The interface with this index is gone.
    Gone(u32),
    /// Another host has an address.
    Duplicate { index: u32, address: Ipv6Addr },
    /// An interface has an address of IPv4.
    Address4 { index: u32, address: Ipv4Addr },
    /// Some row may be gone, or be no more as it was made.
    Rows,
    /// Some changes were lost: all has to be looked at.
    Lost,
}

pub struct Events {
    socket: Socket,
    room: Vec<u8>,
}

impl Events {
    pub fn open() -> io::Result<Events> {
        let socket = Socket::new(Domain::from(libc::AF_NETLINK), Type::RAW, Some(Protocol::from(libc::NETLINK_ROUTE)))?;
        socket.attach_filter(&filter::events(PROTOCOL))?;
        socket.set_nonblocking(true)?;
        bind(socket.as_raw_fd(), &NetlinkAddr::new(0, GROUPS))?;
        Ok(Events { socket, room: vec![0; 64 * 1024] })
    }

    pub fn fd(&self) -> RawFd {
        self.socket.as_raw_fd()
    }

    /// The changes that came, once there are some.
    pub fn came(&mut self) -> Vec<Change> {
        match (&self.socket).read(&mut self.room) {
            Ok(length) => {
                messages(&self.room[..length]).flat_map(|message| change(message.kind, message.body)).collect()
            }
            Err(error) if error.kind() == io::ErrorKind::WouldBlock => Vec::new(),
            Err(_) => vec![Change::Lost],
        }
    }
}

fn change(kind: u16, body: &[u8]) -> Vec<Change> {
    match kind {
        RTM_NEWLINK => Link::read(body).map(Change::Link).into_iter().collect(),
        RTM_DELLINK => Link::read(body).map(|link| Change::Gone(link.index)).into_iter().collect(),
        RTM_NEWADDR => Address::read(body).map(|address| of_address(&address)).unwrap_or_default(),
        // one with a lifetime that another host has is gone at once
        RTM_DELADDR => match Address::read(body) {
            Some(address) if address.flags & IFA_F_DADFAILED != 0 => of_address(&address),
            _ => vec![Change::Rows],
        },
        RTM_DELROUTE => vec![Change::Rows],
        _ => Vec::new(),
    }
}

fn of_address(address: &Address) -> Vec<Change> {
    match address.net.address {
        IpAddr::V6(found) if address.flags & IFA_F_DADFAILED != 0 => {
            vec![Change::Duplicate { index: address.index, address: found }]
        }
        // a change by another may have cleared the mark of one
        IpAddr::V6(_) => vec![Change::Rows],
        IpAddr::V4(found) => vec![Change::Address4 { index: address.index, address: found }, Change::Rows],
    }
}
