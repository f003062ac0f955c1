//! Rows of the host's tables, as the daemon writes them (docs/FORMATS.md).

use std::fmt;
use std::net::{IpAddr, Ipv4Addr, Ipv6Addr};
use std::str::FromStr;

/// How many interfaces the daemon has at most.
pub const PLACES_MOST: usize = 64;

/// An address with the length of its network.
#[derive(Clone, Copy, Debug, PartialEq, Eq)]
pub struct Net {
    pub address: IpAddr,
    pub length: u8,
}

/// How a route leads to its destination.
#[derive(Clone, Copy, Debug, PartialEq, Eq)]
pub enum Way {
    Link,
    Via(IpAddr),
    Reject,
}

#[derive(Clone, Copy, Debug, PartialEq, Eq)]
pub struct Route {
    pub net: Net,
    pub way: Way,
    pub metric: u32,
}

/// What a row says of its interface.
#[derive(Clone, Copy, Debug, PartialEq, Eq)]
pub enum Entry {
    Address(Net),
    Route(Route),
}

/// A row, of the interface with this number, from 1.
#[derive(Clone, Copy, Debug, PartialEq, Eq)]
pub struct Row {
    pub place: usize,
    pub entry: Entry,
}

/// A text that is no row.
#[derive(Debug, PartialEq, Eq)]
pub struct BadRow;

/// The number of bits of an address's family.
pub fn width(address: IpAddr) -> u8 {
    if address.is_ipv4() {
        32
    } else {
        128
    }
}

fn bits(address: IpAddr) -> u128 {
    match address {
        IpAddr::V4(address) => u128::from(u32::from(address)),
        IpAddr::V6(address) => u128::from(address),
    }
}

impl Net {
    /// Whether an address lies in the network.
    pub fn contains(&self, address: IpAddr) -> bool {
        let rest = u32::from(width(address).saturating_sub(self.length));
        let network = |address| bits(address).checked_shr(rest).unwrap_or(0);
        self.address.is_ipv4() == address.is_ipv4() && network(self.address) == network(address)
    }

    fn is_network(&self) -> bool {
        let past = 128 - u32::from(width(self.address) - self.length);
        past == 128 || bits(self.address) << past == 0
    }
}

impl FromStr for Net {
    type Err = BadRow;

    fn from_str(text: &str) -> Result<Net, BadRow> {
        let (address, length) = text.split_once('/').ok_or(BadRow)?;
        let address: IpAddr = address.parse().map_err(|_| BadRow)?;
        let length: u8 = number(length)?;
        if length > width(address) {
            return Err(BadRow);
        }
        Ok(Net { address, length })
    }
}

/// A decimal number without leading zeros and sign.
fn number<N: FromStr>(text: &str) -> Result<N, BadRow> {
    if text.len() > 1 && text.starts_with('0') || !text.bytes().all(|byte| byte.is_ascii_digit()) {
        return Err(BadRow);
    }
    text.parse().map_err(|_| BadRow)
}

impl FromStr for Row {
    type Err = BadRow;

    fn from_str(text: &str) -> Result<Row, BadRow> {
        let words: Vec<&str> = text.split(' ').collect();
        let (place, entry) = match words[..] {
            ["addr", place, net] => (place, Entry::Address(net.parse()?)),
            ["route", place, net, "metric", metric] => (place, route(net, Way::Link, metric)?),
            ["route", place, net, "reject", "metric", metric] => (place, route(net, Way::Reject, metric)?),
            ["route", place, net, "via", gateway, "metric", metric] => {
                (place, route(net, Way::Via(gateway.parse().map_err(|_| BadRow)?), metric)?)
            }
            _ => return Err(BadRow),
        };
        let place = number(place)?;
        if !(1..=PLACES_MOST).contains(&place) {
            return Err(BadRow);
        }
        Ok(Row { place, entry })
    }
}

fn route(net: &str, way: Way, metric: &str) -> Result<Entry, BadRow> {
    let net: Net = net.parse()?;
    let other_family = matches!(way, Way::Via(gateway) if gateway.is_ipv4() != net.address.is_ipv4());
    if other_family || !net.is_network() {
        return Err(BadRow);
    }
    Ok(Entry::Route(Route { net, way, metric: number(metric)? }))
}

/// An address as RFC 5952 says, but without a dotted tail, which the daemon doesn't read.
struct Plain(IpAddr);

impl fmt::Display for Plain {
    fn fmt(&self, out: &mut fmt::Formatter) -> fmt::Result {
        match self.0 {
            IpAddr::V4(address) => write!(out, "{}", Ipv4Addr::from(u32::from(address))),
            IpAddr::V6(address) => plain6(address, out),
        }
    }
}

fn plain6(address: Ipv6Addr, out: &mut fmt::Formatter) -> fmt::Result {
    match address.segments() {
        [0, 0, 0, 0, 0, 0xffff, high, low] => write!(out, "::ffff:{high:x}:{low:x}"),
        [0, 0, 0, 0, 0, 0, high, low] if high != 0 => write!(out, "::{high:x}:{low:x}"),
        _ => write!(out, "{address}"),
    }
}

impl fmt::Display for Net {
    fn fmt(&self, out: &mut fmt::Formatter) -> fmt::Result {
        write!(out, "{}/{}", Plain(self.address), self.length)
    }
}

impl fmt::Display for Entry {
    fn fmt(&self, out: &mut fmt::Formatter) -> fmt::Result {
        match self {
            Entry::Address(net) => write!(out, "{net}"),
            Entry::Route(Route { net, way, metric }) => {
                write!(out, "{net}")?;
                match way {
                    Way::Link => {}
                    Way::Via(gateway) => write!(out, " via {}", Plain(*gateway))?,
                    Way::Reject => write!(out, " reject")?,
                }
                write!(out, " metric {metric}")
            }
        }
    }
}

impl fmt::Display for Row {
    fn fmt(&self, out: &mut fmt::Formatter) -> fmt::Result {
        let kind = match self.entry {
            Entry::Address(_) => "addr",
            Entry::Route(_) => "route",
        };
        write!(out, "{kind} {} {}", self.place, self.entry)
    }
}

#[cfg(test)]
mod tests {
    use super::*;

    #[test]
    fn each_kind_of_row_is_read_and_written() {
        for text in [
            "addr 1 10.77.0.50/24",
            "addr 64 2001:db8:77::50/128",
            "addr 2 ::/0",
            "addr 2 ::ffff:a4d:1/128",
            "addr 2 ::a4d:1/128",
            "route 1 10.77.0.0/24 metric 1001",
            "route 1 0.0.0.0/0 via 10.77.0.1 metric 4294967295",
            "route 3 2001:db8:100::/56 reject metric 0",
            "route 1 ::/0 via fe80::1 metric 1001",
        ] {
            let row: Row = text.parse().unwrap();
            assert_eq!(row.to_string(), text);
        }
    }

    #[test]
    fn what_is_no_row_is_refused() {
        for text in [
            "",
            "addr",
            "addr 0 10.0.0.1/8",
            "addr 65 10.0.0.1/8",
            "addr 01 10.0.0.1/8",
            "addr 1 10.0.0.1",
            "addr 1 10.0.0.1/33",
            "addr 1 10.0.0.1/+8",
            "addr 1 10.0.0.1/8 ",
            "addr  1 10.0.0.1/8",
            "addr 1 ::1/129",
            "route 1 10.0.0.0/8",
            "route 1 10.0.0.1/8 metric 1",
            "route 1 10.0.0.0/8 metric 4294967296",
            "route 1 10.0.0.0/8 via ::1 metric 1",
            "route 1 10.0.0.0/8 via 10.0.0.1 reject metric 1",
        ] {
            assert_eq!(text.parse::<Row>(), Err(BadRow), "{text}");
        }
    }

    #[test]
    fn networks_contain_their_addresses() {
        let contains = |net: &str, address: &str| net.parse::<Net>().unwrap().contains(address.parse().unwrap());
        assert!(contains("10.77.0.0/24", "10.77.0.9") && !contains("10.77.0.0/24", "10.77.1.9"));
        assert!(contains("0.0.0.0/0", "1.2.3.4") && !contains("0.0.0.0/0", "::1"));
        assert!(contains("2001:db8::/56", "2001:db8:0:ff::1") && !contains("2001:db8::/56", "2001:db8:0:100::1"));
        assert!(contains("::/0", "::1") && contains("::1/128", "::1") && !contains("::1/128", "::2"));
    }
}
