//! What the daemon is told and what it says, by datagrams on the loopback (docs/FORMATS.md, "The live devices").

use std::net::Ipv6Addr;

const FRAME: u8 = 1;
const CARRIER: u8 = 2;
const DUPLICATE: u8 = 3;
const RELEASE: u8 = 4;
const REBIND: u8 = 5;
const STOP: u8 = 6;

/// What is told of an interface, by its number from 1, or of all.
#[derive(Clone, Copy, Debug, PartialEq, Eq)]
pub enum Told<'a> {
    Frame(&'a [u8]),
    Carrier { up: bool },
    Duplicate(Ipv6Addr),
    Release,
    Rebind,
}

/// The datagram that tells it.
pub fn datagram(place: usize, told: Told) -> Vec<u8> {
    let of = |kind: u8, rest: &[u8]| [&[kind, place as u8], rest].concat();
    match told {
        Told::Frame(frame) => of(FRAME, frame),
        Told::Carrier { up } => of(CARRIER, &[u8::from(up)]),
        Told::Duplicate(address) => of(DUPLICATE, &address.octets()),
        Told::Release => of(RELEASE, &[]),
        Told::Rebind => of(REBIND, &[]),
    }
}

/// The datagram that tells the daemon to end.
pub fn stop() -> [u8; 2] {
    [STOP, 0]
}

/// The frame that the daemon sends, and the number of the interface.
pub fn sent(datagram: &[u8]) -> Option<(usize, &[u8])> {
    match datagram {
        [FRAME, place, frame @ ..] if *place > 0 && !frame.is_empty() => Some((usize::from(*place), frame)),
        _ => None,
    }
}

#[cfg(test)]
mod tests {
    use super::*;

    #[test]
    fn datagrams_have_kind_and_interface_in_front() {
        assert_eq!(datagram(2, Told::Frame(b"frame")), b"\x01\x02frame");
        assert_eq!(datagram(64, Told::Carrier { up: true }), [2, 64, 1]);
        assert_eq!(datagram(1, Told::Duplicate(Ipv6Addr::LOCALHOST)).len(), 18);
        assert_eq!((datagram(1, Told::Release), datagram(1, Told::Rebind)), (vec![4, 1], vec![5, 1]));
    }

    #[test]
    fn only_frames_are_sent() {
        assert_eq!(sent(b"\x01\x02frame"), Some((2, &b"frame"[..])));
        for other in [&b""[..], b"\x01", b"\x01\x01", b"\x01\x00frame", b"\x02\x01\x01"] {
            assert_eq!(sent(other), None);
        }
    }
}
