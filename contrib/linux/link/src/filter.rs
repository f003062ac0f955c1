//! What the kernel lets through to a packet socket: classic BPF, written with names to go on at.

use libc::sock_filter;
use std::net::Ipv4Addr;

// linux/filter.h: loads from a place in the frame, from past the header of IPv4, and of what is known about a frame
const LOAD_WORD: u16 = 0x20;
const LOAD_HALF: u16 = 0x28;
const LOAD_BYTE: u16 = 0x30;
const LOAD_HALF_PAST_HEADER: u16 = 0x48;
const HEADER_TO_INDEX: u16 = 0xb1;
const IF_EQUAL: u16 = 0x15;
const IF_ANY_BIT: u16 = 0x45;
const RETURN: u16 = 0x06;
const ABOUT_FRAME: u32 = 0xffff_f000;
const PACKET_TYPE: u32 = ABOUT_FRAME + 4;
const VLAN_TAG: u32 = ABOUT_FRAME + 44;
const VLAN_TAG_PRESENT: u32 = ABOUT_FRAME + 48;

/// linux/if_packet.h: a frame that this host sends.
const OUTGOING: u32 = 4;
/// IEEE 802.1Q: the bits of a tag that name a VLAN. A frame with VLAN 0 has a priority alone.
const VLAN_NUMBER: u32 = 0x0fff;
const ETHERTYPE_IP4: u32 = 0x0800;
const ETHERTYPE_ARP: u32 = 0x0806;
const ETHERTYPE_IP6: u32 = 0x86dd;
const UDP: u32 = 17;
const CLIENT_PORT4: u32 = 68;
const CLIENT_PORT6: u32 = 546;
/// The length of an Ethernet header.
const HEAD: u32 = 14;
/// RFC 791, section 3.1: the place of a fragment, which is 0 for a whole packet.
const FRAGMENT_PLACE: u32 = 0x1fff;
/// RFC 826: where the addresses of sender and target stand in a frame.
const ARP_SENDER: u32 = HEAD + 14;
const ARP_TARGET: u32 = HEAD + 24;
const WHOLE: u32 = 0xffff;

/// How many addresses an ARP frame is compared with at most, so that every place can be reached by a jump of one byte.
pub const ADDRESSES_MOST: usize = 32;

/// Where a filter goes on.
#[derive(Clone, Copy, PartialEq, Eq)]
enum Place {
    Next,
    Tagged,
    Kind,
    Arp,
    NotArp,
    Ip4,
    Ip6,
    Take,
    Drop,
}

/// One line of a filter, and where to go on if its test holds and if not.
struct Line {
    at: Option<Place>,
    code: u16,
    operand: u32,
    yes: Place,
    no: Place,
}

#[derive(Default)]
struct Lines(Vec<Line>);

impl Lines {
    fn at(&mut self, place: Place) -> &mut Lines {
        self.push(Line { at: Some(place), code: 0, operand: 0, yes: Place::Next, no: Place::Next })
    }

    fn push(&mut self, line: Line) -> &mut Lines {
        // a line that only marks a place becomes the one after it
        match self.0.last_mut() {
            Some(last) if last.code == 0 => *last = Line { at: last.at, ..line },
            _ => self.0.push(line),
        }
        self
    }

    fn load(&mut self, code: u16, operand: u32) -> &mut Lines {
        self.push(Line { at: None, code, operand, yes: Place::Next, no: Place::Next })
    }

    fn test(&mut self, code: u16, operand: u32, yes: Place, no: Place) -> &mut Lines {
        self.push(Line { at: None, code, operand, yes, no })
    }

    fn assembled(&self) -> Vec<sock_filter> {
        let skipped = |from: usize, place: Place| match place {
            Place::Next => 0,
            _ => self.0.iter().position(|line| line.at == Some(place)).map_or(0, |to| (to - from - 1) as u8),
        };
        let line = |(from, line): (usize, &Line)| sock_filter {
            code: line.code,
            jt: skipped(from, line.yes),
            jf: skipped(from, line.no),
            k: line.operand,
        };
        self.0.iter().enumerate().map(line).collect()
    }
}

/// The filter of an interface: whole packets of DHCP for a client, of either family, and ARP that names one of these
/// addresses, of more than the first ADDRESSES_MOST any ARP; without a tag or with the tag of VLAN 0; none that this host sent.
pub fn heard(addresses: &[Ipv4Addr]) -> Vec<sock_filter> {
    let mut lines = Lines::default();
    lines
        .load(LOAD_WORD, PACKET_TYPE)
        .test(IF_EQUAL, OUTGOING, Place::Drop, Place::Next)
        .load(LOAD_WORD, VLAN_TAG_PRESENT)
        .test(IF_EQUAL, 0, Place::Kind, Place::Tagged)
        .at(Place::Tagged)
        .load(LOAD_WORD, VLAN_TAG)
        .test(IF_ANY_BIT, VLAN_NUMBER, Place::Drop, Place::Kind)
        .at(Place::Kind)
        .load(LOAD_HALF, 12)
        .test(IF_EQUAL, ETHERTYPE_ARP, Place::Arp, Place::NotArp)
        .at(Place::NotArp)
        .test(IF_EQUAL, ETHERTYPE_IP6, Place::Ip6, Place::Next)
        .test(IF_EQUAL, ETHERTYPE_IP4, Place::Ip4, Place::Drop)
        .at(Place::Ip6)
        .load(LOAD_BYTE, HEAD + 6)
        .test(IF_EQUAL, UDP, Place::Next, Place::Drop)
        .load(LOAD_HALF, HEAD + 40 + 2)
        .test(IF_EQUAL, CLIENT_PORT6, Place::Take, Place::Drop)
        .at(Place::Ip4)
        .load(LOAD_BYTE, HEAD + 9)
        .test(IF_EQUAL, UDP, Place::Next, Place::Drop)
        .load(LOAD_HALF, HEAD + 6)
        .test(IF_ANY_BIT, FRAGMENT_PLACE, Place::Drop, Place::Next)
        .load(HEADER_TO_INDEX, HEAD)
        .load(LOAD_HALF_PAST_HEADER, HEAD + 2)
        .test(IF_EQUAL, CLIENT_PORT4, Place::Take, Place::Drop);
    lines.at(Place::Arp);
    if addresses.len() <= ADDRESSES_MOST {
        for field in [ARP_SENDER, ARP_TARGET] {
            lines.load(LOAD_WORD, field);
            for address in addresses {
                lines.test(IF_EQUAL, u32::from(*address), Place::Take, Place::Next);
            }
        }
        lines.load(RETURN, 0);
    }
    lines.at(Place::Take).load(RETURN, WHOLE).at(Place::Drop).load(RETURN, 0);
    lines.assembled()
}

/// The filter that lets nothing through.
pub fn nothing() -> Vec<sock_filter> {
    vec![sock_filter { code: RETURN, jt: 0, jf: 0, k: 0 }]
}

// linux/rtnetlink.h, in the order of bytes in which a filter loads
const RTM_NEWROUTE: u16 = 24;
const RTM_DELROUTE: u16 = 25;
const NETLINK_KIND: u32 = 4;
const ROUTE_PROTOCOL: u32 = 16 + 5;

/// The filter of the kernel's events: of routes the ends of those with this protocol alone, and all else.
pub fn events(protocol: u8) -> Vec<sock_filter> {
    let loaded = |kind: u16| u32::from(u16::from_be_bytes(kind.to_ne_bytes()));
    let mut lines = Lines::default();
    lines
        .load(LOAD_HALF, NETLINK_KIND)
        .test(IF_EQUAL, loaded(RTM_NEWROUTE), Place::Drop, Place::Next)
        .test(IF_EQUAL, loaded(RTM_DELROUTE), Place::Kind, Place::Take)
        .at(Place::Kind)
        .load(LOAD_BYTE, ROUTE_PROTOCOL)
        .test(IF_EQUAL, u32::from(protocol), Place::Take, Place::Drop)
        .at(Place::Take)
        .load(RETURN, WHOLE)
        .at(Place::Drop)
        .load(RETURN, 0);
    lines.assembled()
}

#[cfg(test)]
mod tests {
    use super::*;

    /// What is known about a frame beside its bytes.
    #[derive(Clone, Copy, Default)]
    struct About {
        outgoing: bool,
        tag: Option<u16>,
    }

    fn load(frame: &[u8], about: About, place: u32, size: usize) -> Option<u32> {
        match place {
            PACKET_TYPE => Some(if about.outgoing { OUTGOING } else { 0 }),
            VLAN_TAG => Some(u32::from(about.tag.unwrap_or(0))),
            VLAN_TAG_PRESENT => Some(u32::from(about.tag.is_some())),
            _ => {
                let bytes = frame.get(place as usize..place as usize + size)?;
                Some(bytes.iter().fold(0, |sum, byte| sum << 8 | u32::from(*byte)))
            }
        }
    }

    /// What a filter takes of a frame, as the kernel runs it.
    fn run(filter: &[sock_filter], frame: &[u8], about: About) -> u32 {
        let (mut at, mut held, mut index) = (0, 0u32, 0u32);
        loop {
            let line = &filter[at];
            let loaded = match line.code {
                LOAD_WORD => load(frame, about, line.k, 4),
                LOAD_HALF => load(frame, about, line.k, 2),
                LOAD_BYTE => load(frame, about, line.k, 1),
                LOAD_HALF_PAST_HEADER => load(frame, about, line.k + index, 2),
                HEADER_TO_INDEX => {
                    index = load(frame, about, line.k, 1).map_or(0, |byte| (byte & 15) * 4);
                    Some(held)
                }
                RETURN => return line.k,
                _ => Some(held),
            };
            match loaded {
                Some(value) => held = value,
                None => return 0,
            }
            at += 1 + match line.code {
                IF_EQUAL => usize::from(if held == line.k { line.jt } else { line.jf }),
                IF_ANY_BIT => usize::from(if held & line.k != 0 { line.jt } else { line.jf }),
                _ => 0,
            };
        }
    }

    fn arp(sender: [u8; 4], target: [u8; 4]) -> Vec<u8> {
        let mut frame = vec![0; 12];
        frame.extend_from_slice(&[8, 6, 0, 1, 8, 0, 6, 4, 0, 1, 2, 0, 0, 0, 0, 1]);
        frame.extend_from_slice(&sender);
        frame.extend_from_slice(&[0; 6]);
        frame.extend_from_slice(&target);
        frame
    }

    fn ip4(words: u8, fragment: u8, port: u8) -> Vec<u8> {
        let mut frame = vec![0; 12];
        frame.extend_from_slice(&[8, 0, 0x40 | words, 0, 0, 0, 0, 0, 0, fragment, 64, 17, 0, 0]);
        frame.resize(14 + 4 * usize::from(words), 0);
        frame.extend_from_slice(&[0, 67, 0, port, 0, 8, 0, 0]);
        frame
    }

    fn ip6(kind: u8, port: [u8; 2]) -> Vec<u8> {
        let mut frame = vec![0; 12];
        frame.extend_from_slice(&[0x86, 0xdd, 0x60, 0, 0, 0, 0, 8, kind, 64]);
        frame.resize(14 + 40, 0);
        frame.extend_from_slice(&[2, 0x23, port[0], port[1], 0, 8, 0, 0]);
        frame
    }

    fn takes(frame: &[u8], about: About) -> bool {
        run(&heard(&[Ipv4Addr::new(10, 0, 0, 5), Ipv4Addr::new(10, 0, 0, 6)]), frame, about) != 0
    }

    #[test]
    fn dhcp_for_a_client_is_taken() {
        let plain = About::default();
        assert!(takes(&ip4(5, 0, 68), plain) && takes(&ip4(15, 0, 68), plain) && takes(&ip6(17, [2, 0x22]), plain));
        assert!(!takes(&ip4(5, 0, 67), plain) && !takes(&ip4(5, 1, 68), plain));
        assert!(!takes(&ip6(17, [2, 0x23]), plain) && !takes(&ip6(58, [2, 0x22]), plain));
        assert!(!takes(&ip4(5, 0, 68)[..35], plain) && !takes(&[], plain));
    }

    #[test]
    fn tags_but_that_of_vlan_0_and_own_frames_are_dropped() {
        let frame = ip4(5, 0, 68);
        let tagged = |tag| About { outgoing: false, tag: Some(tag) };
        assert!(takes(&frame, tagged(0)) && takes(&frame, tagged(0xe000)));
        assert!(!takes(&frame, tagged(1)) && !takes(&frame, tagged(0xe001)));
        assert!(!takes(&frame, About { outgoing: true, tag: None }));
    }

    #[test]
    fn arp_has_to_name_an_address() {
        let plain = About::default();
        assert!(takes(&arp([10, 0, 0, 6], [10, 0, 0, 9]), plain) && takes(&arp([0; 4], [10, 0, 0, 5]), plain));
        assert!(!takes(&arp([10, 0, 0, 7], [10, 0, 0, 9]), plain));
        assert_eq!(run(&heard(&[]), &arp([10, 0, 0, 6], [0; 4]), plain), 0);
    }

    #[test]
    fn with_many_addresses_all_of_arp_is_taken() {
        let many: Vec<_> = (0..=ADDRESSES_MOST as u32).map(Ipv4Addr::from).collect();
        let frame = arp([10, 0, 0, 7], [10, 0, 0, 9]);
        assert_eq!(run(&heard(&many), &frame, About::default()), WHOLE);
        assert_eq!(run(&heard(&many[1..]), &frame, About::default()), 0);
    }

    #[test]
    fn events_of_other_routes_are_dropped() {
        let message = |kind: u16, protocol: u8| {
            let mut bytes = vec![40, 0, 0, 0];
            bytes.extend_from_slice(&kind.to_ne_bytes());
            bytes.resize(16 + 5, 0);
            bytes.push(protocol);
            run(&events(16), &bytes, About::default()) != 0
        };
        assert!(message(RTM_DELROUTE, 16) && message(20, 0));
        assert!(!message(RTM_NEWROUTE, 16) && !message(RTM_NEWROUTE, 186) && !message(RTM_DELROUTE, 2));
    }
}
