//! The frames of an interface: a packet socket that hears and sends, and sockets that keep the ports of a client.

use crate::filter;
use crate::frames::{fill_checksum, FRAME_MOST};
use nix::ifaddrs::getifaddrs;
use nix::sys::socket::{bind, LinkAddr};
use socket2::{Domain, Protocol, SockAddr, Socket, Type};
use std::io::{self, Read};
use std::net::{Ipv4Addr, Ipv6Addr, SocketAddr};
use std::os::unix::io::{AsRawFd, RawFd};

/// linux/if_ether.h: frames of each kind.
const ETH_P_ALL: u16 = 3;
const CLIENT_PORT4: u16 = 68;
const CLIENT_PORT6: u16 = 546;
/// One byte more than the longest frame, so that a longer one is told from it.
const ROOM: usize = FRAME_MOST + 1;

/// A frame that was asked for.
pub enum Heard {
    Frame(Vec<u8>),
    /// One that is of no use to the daemon.
    Other,
    Nothing,
    /// The interface is down or gone.
    Down,
}

/// The sockets of one interface.
pub struct Packets {
    socket: Socket,
    _silent: Vec<Socket>,
}

impl Packets {
    /// Opens the sockets of an interface. Without an address to compare with, ARP isn't heard.
    pub fn open(name: &str) -> io::Result<Packets> {
        // such a socket hears all interfaces until it is bound: a filter that drops all keeps their frames away
        let every = i32::from(ETH_P_ALL.to_be());
        let socket = Socket::new(Domain::PACKET, Type::RAW, Some(Protocol::from(every)))?;
        socket.attach_filter(&filter::nothing())?;
        socket.set_nonblocking(true)?;
        // an address without a protocol leaves the socket's own as it is
        bind(socket.as_raw_fd(), &link_address(name)?)?;
        let mut room = [0; 1];
        while (&socket).read(&mut room).is_ok() {}
        let silent = [silent(name, Domain::IPV4), silent(name, Domain::IPV6)];
        let packets = Packets { socket, _silent: silent.into_iter().flatten().collect() };
        packets.hear(&[])?;
        Ok(packets)
    }

    /// Hears DHCP, and ARP that names one of these addresses.
    pub fn hear(&self, addresses: &[Ipv4Addr]) -> io::Result<()> {
        self.socket.attach_filter(&filter::heard(addresses))
    }

    pub fn fd(&self) -> RawFd {
        self.socket.as_raw_fd()
    }

    pub fn next(&self) -> Heard {
        let mut frame = vec![0; ROOM];
        match (&self.socket).read(&mut frame) {
            Ok(length) if length <= FRAME_MOST => {
                frame.truncate(length);
                fill_checksum(&mut frame);
                Heard::Frame(frame)
            }
            Ok(_) => Heard::Other,
            Err(error) if error.kind() == io::ErrorKind::WouldBlock => Heard::Nothing,
            Err(error) if error.kind() == io::ErrorKind::Interrupted => Heard::Other,
            Err(_) => Heard::Down,
        }
    }

    pub fn send(&self, frame: &[u8]) -> io::Result<()> {
        self.socket.send(frame).map(drop)
    }
}

/// The address of an interface for a packet socket.
fn link_address(name: &str) -> io::Result<LinkAddr> {
    let of_link = |found: nix::ifaddrs::InterfaceAddress| {
        found.address.filter(|_| found.interface_name == name).and_then(|address| address.as_link_addr().copied())
    };
    getifaddrs()?.find_map(of_link).ok_or_else(|| io::ErrorKind::NotFound.into())
}

/// A socket that keeps a client's port and hears nothing, so that the kernel tells no server that nobody is there. Where
/// another program has the port, or there is no IPv6, it isn't needed.
fn silent(name: &str, domain: Domain) -> Option<Socket> {
    let socket = Socket::new(domain, Type::DGRAM, None).ok()?;
    socket.attach_filter(&filter::nothing()).ok()?;
    socket.set_reuse_address(true).ok()?;
    socket.bind_device(Some(name.as_bytes())).ok()?;
    let address = if domain == Domain::IPV6 {
        socket.set_only_v6(true).ok()?;
        SocketAddr::from((Ipv6Addr::UNSPECIFIED, CLIENT_PORT6))
    } else {
        SocketAddr::from((Ipv4Addr::UNSPECIFIED, CLIENT_PORT4))
    };
    socket.bind(&SockAddr::from(address)).ok()?;
    Some(socket)
}
