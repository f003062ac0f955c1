//! What is asked of the kernel: its interfaces, addresses and routes, and changes of them, each in one message.

use super::message::{attributes, messages, u16_at, u32_at, Message, Writing};
use crate::leases::Lifetimes;
use crate::rows::{width, Net, Route, Way};
use nix::sys::socket::{bind, NetlinkAddr};
use socket2::{Domain, Protocol, Socket, Type};
use std::io::{self, Read};
use std::net::{IpAddr, Ipv4Addr};
use std::os::unix::io::AsRawFd;
use std::time::Duration;

// linux/netlink.h
const NLM_F_REQUEST: u16 = 0x1;
const NLM_F_ACK: u16 = 0x4;
const NLM_F_DUMP: u16 = 0x300;
const NLM_F_REPLACE: u16 = 0x100;
const NLM_F_EXCL: u16 = 0x200;
const NLM_F_CREATE: u16 = 0x400;
const NLMSG_ERROR: u16 = 2;
const NLMSG_DONE: u16 = 3;
// linux/rtnetlink.h
const RTM_NEWLINK: u16 = 16;
const RTM_GETLINK: u16 = 18;
const RTM_NEWADDR: u16 = 20;
const RTM_DELADDR: u16 = 21;
const RTM_GETADDR: u16 = 22;
const RTM_NEWROUTE: u16 = 24;
const RTM_DELROUTE: u16 = 25;
const RTM_GETROUTE: u16 = 26;
const RTN_UNICAST: u8 = 1;
const RTN_UNREACHABLE: u8 = 7;
const RT_TABLE_MAIN: u8 = 254;
const RT_SCOPE_UNIVERSE: u8 = 0;
const RT_SCOPE_LINK: u8 = 253;
const RT_SCOPE_NOWHERE: u8 = 255;
const RTM_F_CLONED: u32 = 0x200;
const RTA_DST: u16 = 1;
const RTA_OIF: u16 = 4;
const RTA_GATEWAY: u16 = 5;
const RTA_PRIORITY: u16 = 6;
const RTA_PREFSRC: u16 = 7;
const RTA_MULTIPATH: u16 = 9;
const RTA_TABLE: u16 = 15;
const RTA_VIA: u16 = 18;
const RTA_EXPIRES: u16 = 23;
// linux/if_addr.h
const IFA_ADDRESS: u16 = 1;
const IFA_LOCAL: u16 = 2;
const IFA_BROADCAST: u16 = 4;
const IFA_CACHEINFO: u16 = 6;
const IFA_FLAGS: u16 = 8;
const IFA_PROTO: u16 = 11;
const IFA_F_NOPREFIXROUTE: u32 = 0x200;
const IFA_F_PERMANENT: u32 = 0x80;
pub const IFA_F_DADFAILED: u32 = 0x08;
// linux/if_link.h, linux/if.h, linux/if_arp.h
const IFLA_ADDRESS: u16 = 1;
const IFLA_IFNAME: u16 = 3;
const IFLA_MTU: u16 = 4;
const IFF_UP: u32 = 0x1;
const IFF_RUNNING: u32 = 0x40;
const ARPHRD_ETHER: u16 = 1;

/// linux/rtnetlink.h, RTPROT_DHCP: routes and addresses with this protocol are those of a DHCP client.
pub const PROTOCOL: u8 = 16;

const LINK_HEAD: usize = 16;
const ADDRESS_HEAD: usize = 8;
const ROUTE_HEAD: usize = 12;
/// How long the kernel may take to answer.
const PATIENCE: Duration = Duration::from_secs(5);
const ROOM: usize = 64 * 1024;

/// The family's number (linux/socket.h).
fn family(address: IpAddr) -> u8 {
    (if address.is_ipv4() { libc::AF_INET } else { libc::AF_INET6 }) as u8
}

fn octets(address: IpAddr) -> Vec<u8> {
    match address {
        IpAddr::V4(address) => address.octets().to_vec(),
        IpAddr::V6(address) => address.octets().to_vec(),
    }
}

fn address_of(value: &[u8]) -> Option<IpAddr> {
    match value.len() {
        4 => <[u8; 4]>::try_from(value).ok().map(IpAddr::from),
        16 => <[u8; 16]>::try_from(value).ok().map(IpAddr::from),
        _ => None,
    }
}

/// An interface of the host.
#[derive(Clone, Debug, PartialEq, Eq)]
pub struct Link {
    pub index: u32,
    pub name: String,
    pub flags: u32,
    pub is_ethernet: bool,
    pub hardware: Option<[u8; 6]>,
    pub mtu: u32,
}

impl Link {
    pub fn has_carrier(&self) -> bool {
        self.flags & IFF_UP != 0 && self.flags & IFF_RUNNING != 0
    }

    pub fn is_up(&self) -> bool {
        self.flags & IFF_UP != 0
    }

    /// Reads the body of a message of an interface, but for one of a bridge's port.
    pub fn read(body: &[u8]) -> Option<Link> {
        if *body.first()? != 0 {
            return None;
        }
        let mut link = Link {
            index: u32_at(body, 4)?,
            name: String::new(),
            flags: u32_at(body, 8)?,
            is_ethernet: u16_at(body, 2)? == ARPHRD_ETHER,
            hardware: None,
            mtu: 0,
        };
        for (kind, value) in attributes(body, LINK_HEAD) {
            match kind {
                IFLA_IFNAME => link.name = String::from_utf8_lossy(value).trim_end_matches('\0').to_string(),
                IFLA_ADDRESS => link.hardware = value.try_into().ok(),
                IFLA_MTU => link.mtu = u32_at(value, 0)?,
                _ => {}
            }
        }
        Some(link)
    }
}

/// An address of an interface.
#[derive(Clone, Copy, Debug, PartialEq, Eq)]
pub struct Address {
    pub index: u32,
    pub net: Net,
    pub flags: u32,
    pub protocol: u8,
    /// It is one end of a line with a peer.
    pub has_peer: bool,
    pub valid: u32,
}

impl Address {
    pub fn is_for_ever(&self) -> bool {
        self.flags & IFA_F_PERMANENT != 0
    }

    pub fn read(body: &[u8]) -> Option<Address> {
        let (length, low_flags) = (*body.get(1)?, *body.get(2)?);
        let (mut address, mut local, mut valid) = (None, None, Lifetimes::FOR_EVER);
        let (mut flags, mut protocol) = (u32::from(low_flags), 0);
        for (kind, value) in attributes(body, ADDRESS_HEAD) {
            match kind {
                IFA_ADDRESS => address = address_of(value),
                IFA_LOCAL => local = address_of(value),
                IFA_FLAGS => flags = u32_at(value, 0)?,
                IFA_PROTO => protocol = *value.first()?,
                IFA_CACHEINFO => valid = u32_at(value, 4)?,
                _ => {}
            }
        }
        let net = Net { address: local.or(address)?, length };
        let has_peer = local.is_some() && local != address;
        Some(Address { index: u32_at(body, 4)?, net, flags, protocol, has_peer, valid })
    }
}

/// A route that a DHCP client made in the main table; of one that rejects the interface isn't told.
#[derive(Clone, Copy, Debug, PartialEq, Eq)]
pub struct OwnRoute {
    pub index: u32,
    pub route: Route,
}

impl OwnRoute {
    fn read(body: &[u8]) -> Option<OwnRoute> {
        let (family, length, tos) = (*body.first()?, *body.get(1)?, *body.get(3)?);
        let (protocol, kind) = (*body.get(5)?, *body.get(7)?);
        let any = if i32::from(family) == libc::AF_INET { IpAddr::from([0; 4]) } else { IpAddr::from([0; 16]) };
        let (mut table, mut index, mut metric) = (u32::from(*body.get(4)?), 0, 0);
        let (mut address, mut gateway, mut is_other) = (any, None, false);
        for (kind, value) in attributes(body, ROUTE_HEAD) {
            match kind {
                RTA_DST => address = address_of(value)?,
                RTA_OIF => index = u32_at(value, 0)?,
                RTA_GATEWAY => gateway = Some(address_of(value)?),
                RTA_PRIORITY => metric = u32_at(value, 0)?,
                RTA_TABLE => table = u32_at(value, 0)?,
                RTA_MULTIPATH | RTA_VIA => is_other = true,
                _ => {}
            }
        }
        is_other |= protocol != PROTOCOL || tos != 0 || table != u32::from(RT_TABLE_MAIN);
        is_other |= u32_at(body, 8)? & RTM_F_CLONED != 0;
        let way = match (kind, gateway) {
            (RTN_UNREACHABLE, _) => Way::Reject,
            (RTN_UNICAST, Some(gateway)) => Way::Via(gateway),
            (RTN_UNICAST, None) => Way::Link,
            _ => return None,
        };
        let route = Route { net: Net { address, length }, way, metric };
        if is_other {
            None
        } else {
            Some(OwnRoute { index, route })
        }
    }
}

/// The kernel, asked and answering.
pub struct Kernel {
    socket: Socket,
    sequence: u32,
    room: Vec<u8>,
}

impl Kernel {
    pub fn open() -> io::Result<Kernel> {
        let socket = Socket::new(Domain::from(libc::AF_NETLINK), Type::RAW, Some(Protocol::from(libc::NETLINK_ROUTE)))?;
        bind(socket.as_raw_fd(), &NetlinkAddr::new(0, 0))?;
        socket.set_read_timeout(Some(PATIENCE))?;
        Ok(Kernel { socket, sequence: 0, room: vec![0; ROOM] })
    }

    /// Sends a message and calls `each` with those that answer it, up to the last.
    fn ask(&mut self, kind: u16, flags: u16, message: Told, mut each: impl FnMut(Message)) -> io::Result<()> {
        self.sequence = self.sequence.wrapping_add(1);
        let writing = Writing::new(kind, NLM_F_REQUEST | flags, self.sequence, &message.body);
        let bytes =
            message.attributes.iter().fold(writing, |writing, (kind, value)| writing.attribute(*kind, value)).bytes();
        self.socket.send(&bytes)?;
        loop {
            let length = (&self.socket).read(&mut self.room)?;
            for answer in messages(&self.room[..length]).filter(|answer| answer.sequence == self.sequence) {
                match answer.kind {
                    NLMSG_DONE => return Ok(()),
                    NLMSG_ERROR => return outcome(answer.body),
                    _ => each(answer),
                }
            }
        }
    }

    pub fn links(&mut self) -> io::Result<Vec<Link>> {
        let mut links = Vec::new();
        let all = Told { body: vec![0; LINK_HEAD], attributes: vec![] };
        self.ask(RTM_GETLINK, NLM_F_DUMP, all, |answer| links.extend(Link::read(answer.body)))?;
        Ok(links)
    }

    pub fn addresses(&mut self) -> io::Result<Vec<Address>> {
        let mut addresses = Vec::new();
        let all = Told { body: vec![0; ADDRESS_HEAD], attributes: vec![] };
        self.ask(RTM_GETADDR, NLM_F_DUMP, all, |answer| addresses.extend(Address::read(answer.body)))?;
        Ok(addresses)
    }

    pub fn own_routes(&mut self) -> io::Result<Vec<OwnRoute>> {
        let mut routes = Vec::new();
        for family in [libc::AF_INET, libc::AF_INET6] {
            let mut body = vec![0; ROUTE_HEAD];
            body[0] = family as u8;
            let all = Told { body, attributes: vec![] };
            self.ask(RTM_GETROUTE, NLM_F_DUMP, all, |answer| routes.extend(OwnRoute::read(answer.body)))?;
        }
        Ok(routes)
    }

    /// Adds an address with the mark of a DHCP client and without a route to its network, or sets its lifetimes.
    pub fn put_address(&mut self, put: Put, index: u32, net: Net, lifetimes: Lifetimes) -> io::Result<()> {
        self.ask(RTM_NEWADDR, put.flags(), address_told(index, net, lifetimes), |_| ())
    }

    pub fn remove_address(&mut self, index: u32, net: Net) -> io::Result<()> {
        let value = octets(net.address);
        let attributes = vec![(IFA_LOCAL, value.clone()), (IFA_ADDRESS, value)];
        let told = Told { body: address_head(index, net), attributes };
        self.ask(RTM_DELADDR, NLM_F_ACK, told, |_| ())
    }

    /// Adds a route, or sets what is said of it, for so many seconds.
    pub fn put_route(&mut self, put: Put, index: u32, route: &Route, more: RouteMore) -> io::Result<()> {
        self.ask(RTM_NEWROUTE, put.flags(), route_told(index, route, more), |_| ())
    }

    pub fn remove_route(&mut self, index: u32, route: &Route) -> io::Result<()> {
        let mut told = route_told(index, route, RouteMore::default());
        told.body[6] = RT_SCOPE_NOWHERE;
        self.ask(RTM_DELROUTE, NLM_F_ACK, told, |_| ())
    }

    pub fn set_up(&mut self, index: u32) -> io::Result<()> {
        let mut body = vec![0; LINK_HEAD];
        body[4..8].copy_from_slice(&index.to_ne_bytes());
        body[8..12].copy_from_slice(&IFF_UP.to_ne_bytes());
        body[12..16].copy_from_slice(&IFF_UP.to_ne_bytes());
        self.ask(RTM_NEWLINK, NLM_F_ACK, Told { body, attributes: vec![] }, |_| ())
    }

    pub fn set_mtu(&mut self, index: u32, mtu: u32) -> io::Result<()> {
        let mut body = vec![0; LINK_HEAD];
        body[4..8].copy_from_slice(&index.to_ne_bytes());
        let attributes = vec![(IFLA_MTU, mtu.to_ne_bytes().to_vec())];
        self.ask(RTM_NEWLINK, NLM_F_ACK, Told { body, attributes }, |_| ())
    }
}

/// Whether something is to be new, or may be there.
#[derive(Clone, Copy)]
pub enum Put {
    New,
    Anew,
}

impl Put {
    fn flags(self) -> u16 {
        match self {
            Put::New => NLM_F_ACK | NLM_F_CREATE | NLM_F_EXCL,
            Put::Anew => NLM_F_ACK | NLM_F_CREATE | NLM_F_REPLACE,
        }
    }
}

/// What else is said of a route.
#[derive(Clone, Copy, Default)]
pub struct RouteMore {
    pub source: Option<IpAddr>,
    /// In so many seconds the kernel ends it; of IPv6 alone.
    pub expires: Option<u32>,
}

/// What a message says behind its kind.
struct Told {
    body: Vec<u8>,
    attributes: Vec<(u16, Vec<u8>)>,
}

fn outcome(body: &[u8]) -> io::Result<()> {
    match u32_at(body, 0).map(|code| code as i32) {
        Some(0) => Ok(()),
        Some(code) => Err(io::Error::from_raw_os_error(code.wrapping_neg())),
        None => Err(io::ErrorKind::InvalidData.into()),
    }
}

/// RFC 3927, section 2.6.2: addresses of this network are for the link alone.
fn is_link_local(address: IpAddr) -> bool {
    matches!(address, IpAddr::V4(address) if address.is_link_local())
}

fn address_head(index: u32, net: Net) -> Vec<u8> {
    let scope = if is_link_local(net.address) { RT_SCOPE_LINK } else { RT_SCOPE_UNIVERSE };
    let mut body = vec![family(net.address), net.length, 0, scope];
    body.extend_from_slice(&index.to_ne_bytes());
    body
}

fn address_told(index: u32, net: Net, lifetimes: Lifetimes) -> Told {
    let value = octets(net.address);
    let mut attributes = vec![(IFA_LOCAL, value.clone()), (IFA_ADDRESS, value)];
    if let Some(broadcast) = broadcast(net) {
        attributes.push((IFA_BROADCAST, broadcast.octets().to_vec()));
    }
    attributes.push((IFA_FLAGS, IFA_F_NOPREFIXROUTE.to_ne_bytes().to_vec()));
    attributes.push((IFA_PROTO, vec![PROTOCOL]));
    let times = [lifetimes.preferred, lifetimes.valid, 0, 0];
    attributes.push((IFA_CACHEINFO, times.iter().flat_map(|number| number.to_ne_bytes()).collect()));
    Told { body: address_head(index, net), attributes }
}

/// The broadcast address of a network of IPv4 that has one.
fn broadcast(net: Net) -> Option<Ipv4Addr> {
    match net.address {
        IpAddr::V4(address) if net.length < 31 => {
            let host = u32::MAX.checked_shr(u32::from(net.length)).unwrap_or(0);
            Some(Ipv4Addr::from(u32::from(address) | host))
        }
        _ => None,
    }
}

fn route_told(index: u32, route: &Route, more: RouteMore) -> Told {
    let address = route.net.address;
    let (kind, scope) = match route.way {
        Way::Reject => (RTN_UNREACHABLE, RT_SCOPE_UNIVERSE),
        Way::Link if width(address) == 32 => (RTN_UNICAST, RT_SCOPE_LINK),
        Way::Link | Way::Via(_) => (RTN_UNICAST, RT_SCOPE_UNIVERSE),
    };
    let head = [family(address), route.net.length, 0, 0, RT_TABLE_MAIN, PROTOCOL, scope, kind, 0, 0, 0, 0];
    let mut attributes = vec![(RTA_PRIORITY, route.metric.to_ne_bytes().to_vec())];
    if route.net.length > 0 {
        attributes.push((RTA_DST, octets(address)));
    }
    if route.way != Way::Reject {
        attributes.push((RTA_OIF, index.to_ne_bytes().to_vec()));
    }
    if let Way::Via(gateway) = route.way {
        attributes.push((RTA_GATEWAY, octets(gateway)));
    }
    if let Some(source) = more.source {
        attributes.push((RTA_PREFSRC, octets(source)));
    }
    if let Some(expires) = more.expires {
        attributes.push((RTA_EXPIRES, expires.to_ne_bytes().to_vec()));
    }
    Told { body: head.to_vec(), attributes }
}

#[cfg(test)]
mod tests {
    use super::*;
    use crate::rows::{Entry, Row};

    fn route_in(text: &str) -> Route {
        match text.parse::<Row>().unwrap().entry {
            Entry::Route(route) => route,
            Entry::Address(_) => panic!("{text}"),
        }
    }

    fn net_in(text: &str) -> Net {
        text.parse().unwrap()
    }

    fn written(told: Told) -> Vec<u8> {
        let writing = Writing::new(0, 0, 0, &told.body);
        told.attributes.iter().fold(writing, |writing, (kind, value)| writing.attribute(*kind, value)).bytes()[16..]
            .to_vec()
    }

    #[test]
    fn a_route_that_is_written_is_read() {
        for text in [
            "route 1 10.77.0.0/24 metric 1001",
            "route 1 0.0.0.0/0 via 10.77.0.1 metric 0",
            "route 1 ::/0 via fe80::1 metric 1001",
            "route 1 2001:db8:100::/56 metric 7",
        ] {
            let route = route_in(text);
            let more = RouteMore { source: None, expires: Some(7) };
            assert_eq!(
                OwnRoute::read(&written(route_told(5, &route, more))),
                Some(OwnRoute { index: 5, route }),
                "{text}"
            );
        }
        let route = route_in("route 1 10.66.0.0/16 reject metric 1001");
        let read = OwnRoute::read(&written(route_told(5, &route, RouteMore::default())));
        assert_eq!(read, Some(OwnRoute { index: 0, route }));
    }

    #[test]
    fn routes_of_others_are_passed_over() {
        let route = route_in("route 1 10.77.0.0/24 metric 1001");
        for (place, other) in [(3, 8), (4, 100), (5, 4), (7, 5)] {
            let mut body = written(route_told(5, &route, RouteMore::default()));
            body[place] = other;
            assert_eq!(OwnRoute::read(&body), None, "{place}");
        }
    }

    #[test]
    fn an_address_that_is_written_is_read() {
        for (text, broadcast_at) in
            [("10.77.0.50/24", Some("10.77.0.255")), ("10.77.0.50/31", None), ("2001:db8::1/64", None)]
        {
            let net = net_in(text);
            let read = Address::read(&written(address_told(3, net, Lifetimes { preferred: 5, valid: 9 }))).unwrap();
            assert_eq!((read.index, read.net, read.protocol, read.valid), (3, net, PROTOCOL, 9));
            assert!(!read.has_peer && read.flags == IFA_F_NOPREFIXROUTE);
            assert_eq!(broadcast(net), broadcast_at.map(|text| text.parse().unwrap()));
        }
    }

    #[test]
    fn messages_cut_short_are_none() {
        let net = net_in("10.77.0.50/24");
        let body = written(address_told(3, net, Lifetimes::NONE));
        for length in 0..12 {
            assert_eq!(Address::read(&body[..length]), None);
            assert_eq!(OwnRoute::read(&body[..length.min(11)]), None);
            assert_eq!(Link::read(&body[..length.min(11)]), None);
        }
    }
}
