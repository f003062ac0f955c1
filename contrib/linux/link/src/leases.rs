//! What the files of leases say of lifetimes (docs/FORMATS.md): until when each address and prefix is granted.

use crate::rows::{Entry, Net, Row, Way};
use std::net::IpAddr;

/// A moment in milliseconds since 1970 on the daemon's clock.
pub type Moment = u64;

/// RFC 2131, section 3.3: a lease without end.
const WITHOUT_END: u64 = 0xffff_ffff;
/// RFC 2132, section 5.1: the option of an interface's MTU.
const OPTION_MTU: &str = "26";

/// Until when something is valid; `None` is for ever.
#[derive(Clone, Copy, Debug, PartialEq, Eq)]
pub struct Until {
    pub preferred: Option<Moment>,
    pub valid: Option<Moment>,
}

/// What is granted: an address for the lease's own interface, or a prefix that other interfaces have shares of.
#[derive(Clone, Copy, Debug, PartialEq, Eq)]
enum Item {
    Address(IpAddr),
    Prefix(Net),
}

/// What a file of a lease says here.
#[derive(Clone, Debug, Default, PartialEq, Eq)]
pub struct Lease {
    pub interface: String,
    pub mtu: Option<u16>,
    items: Vec<(Item, Until)>,
}

impl Lease {
    /// Reads a text of either family; `None` where it is none.
    pub fn read(text: &str) -> Option<Lease> {
        let mut lines = text.lines();
        let begins = lines.next()?;
        let interface = lines.next()?.strip_prefix("interface ")?.to_string();
        let rest: Vec<Vec<&str>> = lines.map(|line| line.split(' ').collect()).collect();
        match (begins, rest.last()?.as_slice()) {
            ("dhcpcd-lease4 1" | "dhcpcd-lease4 2", ["end"]) => lease4(interface, &rest),
            ("dhcpcd-lease6 1" | "dhcpcd-lease6 2", ["end"]) => lease6(interface, &rest),
            _ => None,
        }
    }

    /// The addresses and prefixes that it grants.
    pub fn granted(&self) -> String {
        let text = |(item, _): &(Item, Until)| match item {
            Item::Address(address) => address.to_string(),
            Item::Prefix(prefix) => prefix.to_string(),
        };
        self.items.iter().map(text).collect::<Vec<String>>().join(" ")
    }

    /// Until when a row of an interface with this name may stand, where this lease is what it comes from.
    pub fn until(&self, interface: &str, row: &Row) -> Option<Until> {
        let comes_from = |item: &Item| match (item, row.entry) {
            (Item::Address(address), Entry::Address(net)) => self.interface == interface && *address == net.address,
            (Item::Prefix(prefix), Entry::Address(net)) => prefix.contains(net.address),
            (Item::Prefix(prefix), Entry::Route(route)) => {
                matches!(route.way, Way::Link | Way::Reject)
                    && prefix.contains(route.net.address)
                    && route.net.length >= prefix.length
            }
            _ => false,
        };
        self.items.iter().find(|(item, _)| comes_from(item)).map(|(_, until)| *until)
    }
}

fn value<'a>(lines: &[Vec<&'a str>], name: &str) -> Option<&'a str> {
    lines.iter().find(|line| line.first() == Some(&name)).and_then(|line| line.get(1).copied())
}

fn lease4(interface: String, lines: &[Vec<&str>]) -> Option<Lease> {
    let net: Net = value(lines, "address")?.parse().ok()?;
    let first: Moment = value(lines, "first")?.parse().ok()?;
    let seconds: u64 = value(lines, "lease")?.parse().ok()?;
    let end = if seconds >= WITHOUT_END { None } else { Some(first.checked_add(seconds * 1000)?) };
    let mtu = lines.iter().find_map(|line| match line[..] {
        ["option", OPTION_MTU, hex] => u16::from_str_radix(hex, 16).ok(),
        _ => None,
    });
    let until = Until { preferred: end, valid: end };
    Some(Lease { interface, mtu, items: vec![(Item::Address(net.address), until)] })
}

fn lease6(interface: String, lines: &[Vec<&str>]) -> Option<Lease> {
    let mut items = Vec::new();
    for line in lines {
        match line[..] {
            ["addr", address, preferred, valid] => {
                items.push((Item::Address(address.parse().ok()?), until6(preferred, valid)?));
            }
            ["prefix", prefix, preferred, valid] => {
                items.push((Item::Prefix(prefix.parse().ok()?), until6(preferred, valid)?));
            }
            _ => {}
        }
    }
    Some(Lease { interface, mtu: None, items })
}

fn until6(preferred: &str, valid: &str) -> Option<Until> {
    let moment = |text: &str| match text {
        "never" => Some(None),
        _ => text.parse().ok().map(Some),
    };
    Some(Until { preferred: moment(preferred)?, valid: moment(valid)? })
}

/// Lifetimes as the kernel counts them, in seconds from now.
#[derive(Clone, Copy, Debug, PartialEq, Eq)]
pub struct Lifetimes {
    pub preferred: u32,
    pub valid: u32,
}

impl Lifetimes {
    /// What the kernel takes for no end.
    pub const FOR_EVER: u32 = u32::MAX;
    pub const NONE: Lifetimes = Lifetimes { preferred: Lifetimes::FOR_EVER, valid: Lifetimes::FOR_EVER };
}

/// How much longer than the daemon the kernel keeps what is leased: it ends it only where no daemon does.
pub const SLACK_SECONDS: u64 = 5;

impl Until {
    /// What is left; `None` where it is over. The time that an address of IPv6 is preferred ends as the server says, since
    /// the kernel alone sees to that.
    pub fn left(&self, now: Moment) -> Option<Lifetimes> {
        let seconds = |end: Option<Moment>, slack: u64| match end {
            None => Lifetimes::FOR_EVER,
            Some(end) if end <= now => 0,
            Some(end) => clamped((end - now) / 1000 + u64::from((end - now) % 1000 != 0) + slack),
        };
        let valid = seconds(self.valid, SLACK_SECONDS);
        if valid == 0 {
            return None;
        }
        let slack = if self.preferred == self.valid { SLACK_SECONDS } else { 0 };
        Some(Lifetimes { preferred: seconds(self.preferred, slack).min(valid), valid })
    }
}

fn clamped(seconds: u64) -> u32 {
    u32::try_from(seconds).map_or(Lifetimes::FOR_EVER - 1, |seconds| seconds.min(Lifetimes::FOR_EVER - 1))
}

#[cfg(test)]
mod tests {
    use super::*;

    const FOUR: &str = "dhcpcd-lease4 1\ninterface eth0\naddress 10.0.0.50/24\nserver 10.0.0.1\n\
        servermac 02:00:00:00:00:01\nfirst 1000000\nlease 3600\nt1 1800\nt2 3150\noption 26 05dc\nend\n";
    const SIX: &str = "dhcpcd-lease6 1\ninterface eth0\nserver 0001\nt1 1\nt2 2\nia na 1\n\
        addr 2001:db8::50 5000 9000\nia pd 1\nprefix 2001:db8:0:100::/56 never never\nend\n";

    fn row(text: &str) -> Row {
        text.parse().unwrap()
    }

    #[test]
    fn a_lease_of_ipv4_speaks_of_its_address_on_its_interface() {
        let lease = Lease::read(FOUR).unwrap();
        let end = Some(4_600_000);
        let until = lease.until("eth0", &row("addr 1 10.0.0.50/24"));
        assert_eq!(until, Some(Until { preferred: end, valid: end }));
        assert_eq!(lease.until("eth1", &row("addr 2 10.0.0.50/24")), None);
        assert_eq!(lease.until("eth0", &row("addr 1 10.0.0.51/24")), None);
        assert_eq!(lease.until("eth0", &row("route 1 10.0.0.0/24 metric 1")), None);
        assert_eq!((lease.mtu, lease.granted()), (Some(1500), "10.0.0.50".to_string()));
    }

    #[test]
    fn a_lease_that_tells_its_origin_speaks_likewise() {
        let origin = "interface eth0\nmac 02:00:00:00:00:01\nconfirmed 1000\n";
        for plain in [FOUR, SIX] {
            let text = plain.replacen(" 1\n", " 2\n", 1).replace("interface eth0\n", origin);
            assert_eq!(Lease::read(&text), Lease::read(plain));
            assert!(Lease::read(&text).is_some());
        }
    }

    #[test]
    fn a_lease_without_end_has_none() {
        let lease = Lease::read(&FOUR.replace("lease 3600", "lease 4294967295")).unwrap();
        let until = lease.until("eth0", &row("addr 1 10.0.0.50/24")).unwrap();
        assert_eq!(until.left(u64::MAX), Some(Lifetimes::NONE));
    }

    #[test]
    fn a_prefix_speaks_of_its_shares_and_routes_on_any_interface() {
        let lease = Lease::read(SIX).unwrap();
        let for_ever = Some(Until { preferred: None, valid: None });
        assert_eq!(lease.until("eth1", &row("addr 2 2001:db8:0:101::1/64")), for_ever);
        assert_eq!(lease.until("eth1", &row("route 2 2001:db8:0:101::/64 metric 1002")), for_ever);
        assert_eq!(lease.until("eth0", &row("route 1 2001:db8:0:100::/56 reject metric 1001")), for_ever);
        assert_eq!(lease.until("eth0", &row("route 1 2001:db8::/32 metric 1001")), None);
        assert_eq!(lease.until("eth1", &row("addr 2 2001:db8::50/128")), None);
        assert_eq!(lease.granted(), "2001:db8::50 2001:db8:0:100::/56");
        let until = lease.until("eth0", &row("addr 1 2001:db8::50/128")).unwrap();
        assert_eq!(until, Until { preferred: Some(5000), valid: Some(9000) });
    }

    #[test]
    fn what_is_left_has_slack_but_where_the_kernel_alone_acts() {
        let until = |preferred, valid| Until { preferred: Some(preferred), valid: Some(valid) };
        let left = |preferred, valid| Some(Lifetimes { preferred, valid });
        assert_eq!(until(10_000, 10_000).left(0), left(15, 15));
        assert_eq!(until(5_001, 10_000).left(0), left(6, 15));
        assert_eq!(until(5_000, 10_000).left(5_000), left(0, 10));
        assert_eq!(until(0, 10_000).left(10_000), None);
        assert_eq!(until(u64::MAX, u64::MAX).left(0), left(u32::MAX - 1, u32::MAX - 1));
        assert_eq!(until(90_000, 10_000).left(0), left(15, 15));
    }

    #[test]
    fn other_texts_are_none() {
        for text in ["", "dhcpcd-lease4 1\n", "dhcpcd-lease4 1\ninterface eth0\nend\n", &FOUR.replace("end\n", "")] {
            assert_eq!(Lease::read(text), None, "{text}");
        }
        assert_eq!(Lease::read(&SIX.replace("2001:db8::50", "nothing")), None);
    }
}
