//! Ethernet frames: which messages of DHCP leave, which addresses ARP names, and checksums that a card was to fill in.

use std::net::Ipv4Addr;

/// How many bytes a frame has at most that the daemon has room for.
pub const FRAME_MOST: usize = 2048;

const HEAD: usize = 14;
const IP6_HEADER: usize = 40;
const UDP: u8 = 17;
const UDP_HEADER: usize = 8;
/// RFC 2131, section 4.1, and RFC 8415, section 7.2: the ports of servers.
const SERVER_PORT4: u16 = 67;
const SERVER_PORT6: u16 = 547;

/// The two families of addresses.
#[derive(Clone, Copy, Debug, PartialEq, Eq)]
pub enum Family {
    V4,
    V6,
}

fn half(frame: &[u8], place: usize) -> Option<u16> {
    Some(u16::from_be_bytes(frame.get(place..place + 2)?.try_into().ok()?))
}

/// Where the UDP header stands in a frame, and where the addresses of the packet begin and end.
struct Datagram {
    family: Family,
    header: usize,
    ends: std::ops::Range<usize>,
}

fn datagram(frame: &[u8]) -> Option<Datagram> {
    match half(frame, 12)? {
        0x0800 if *frame.get(HEAD + 9)? == UDP => Some(Datagram {
            family: Family::V4,
            header: HEAD + 4 * usize::from(frame.get(HEAD)? & 15),
            ends: HEAD + 12..HEAD + 20,
        }),
        0x86dd if *frame.get(HEAD + 6)? == UDP => {
            Some(Datagram { family: Family::V6, header: HEAD + IP6_HEADER, ends: HEAD + 8..HEAD + IP6_HEADER })
        }
        _ => None,
    }
}

/// The family of a message to a server of DHCP.
pub fn to_server(frame: &[u8]) -> Option<Family> {
    let sent = datagram(frame)?;
    match (sent.family, half(frame, sent.header + 2)?) {
        (Family::V4, SERVER_PORT4) | (Family::V6, SERVER_PORT6) => Some(sent.family),
        _ => None,
    }
}

/// A message to a server that gives an address away.
#[derive(Clone, Copy, Debug, PartialEq, Eq)]
pub enum Message {
    /// Another host has it.
    Decline,
    Release,
}

// RFC 2132, section 9.6, and RFC 8415, section 7.3: kinds of messages
const OPTION_KIND4: u8 = 53;
const DECLINE4: u8 = 4;
const RELEASE4: u8 = 7;
const RELEASE6: u8 = 8;
const DECLINE6: u8 = 9;
/// RFC 2131, section 2, and RFC 2132, sections 2 and 3.1: where options begin in a message, and those without a length.
const OPTIONS4: usize = 240;
const PAD4: u8 = 0;
const END4: u8 = 255;

/// Whether a frame is a message of that kind.
pub fn message(frame: &[u8]) -> Option<Message> {
    let family = to_server(frame)?;
    let content = frame.get(datagram(frame)?.header + UDP_HEADER..)?;
    let kind = match family {
        Family::V4 => kind4(content.get(OPTIONS4..)?)?,
        Family::V6 => *content.first()?,
    };
    match (family, kind) {
        (Family::V4, DECLINE4) | (Family::V6, DECLINE6) => Some(Message::Decline),
        (Family::V4, RELEASE4) | (Family::V6, RELEASE6) => Some(Message::Release),
        _ => None,
    }
}

fn kind4(options: &[u8]) -> Option<u8> {
    let mut rest = options;
    loop {
        match rest {
            [PAD4, others @ ..] => rest = others,
            [END4, ..] => return None,
            [OPTION_KIND4, 1, kind, ..] => return Some(*kind),
            [_, length, others @ ..] => rest = others.get(usize::from(*length)..)?,
            _ => return None,
        }
    }
}

/// The address that a frame of ARP asks for or tells, as its target.
pub fn arp_target(frame: &[u8]) -> Option<Ipv4Addr> {
    if half(frame, 12)? != 0x0806 {
        return None;
    }
    let target: [u8; 4] = frame.get(HEAD + 24..HEAD + 28)?.try_into().ok()?;
    Some(Ipv4Addr::from(target))
}

/// The sum of the Internet checksum (RFC 1071), folded.
fn sum(parts: &[&[u8]]) -> u16 {
    let mut total: u64 = 0;
    for part in parts {
        for pair in part.chunks(2) {
            total += u64::from(pair[0]) << 8 | pair.get(1).map_or(0, |byte| u64::from(*byte));
        }
    }
    while total > 0xffff {
        total = (total & 0xffff) + (total >> 16);
    }
    total as u16
}

/// Fills in a UDP checksum that was left to a device that is none, as veth or virtio do. The kernel leaves the sum of the
/// pseudo header in its place.
pub fn fill_checksum(frame: &mut [u8]) {
    if let Some((place, value)) = wanting_checksum(frame) {
        if let Some(field) = frame.get_mut(place..place + 2) {
            field.copy_from_slice(&value.to_be_bytes());
        }
    }
}

fn wanting_checksum(frame: &[u8]) -> Option<(usize, u16)> {
    let heard = datagram(frame)?;
    let length = half(frame, heard.header + 4)?;
    let whole = frame.get(heard.header..heard.header + usize::from(length))?;
    let written = half(whole, 6)?;
    let content = whole.get(UDP_HEADER..)?;
    let [high, low] = length.to_be_bytes();
    // the pseudo headers of both families have the same sum
    let pseudo: [&[u8]; 2] = [frame.get(heard.ends)?, &[0, UDP, high, low]];
    if written != sum(&pseudo) {
        return None;
    }
    let full = !sum(&[pseudo[0], pseudo[1], &whole[..6], content]);
    Some((heard.header + 6, if full == 0 { 0xffff } else { full }))
}

#[cfg(test)]
mod tests {
    use super::*;

    fn reply(checksum: [u8; 2], content: &[u8]) -> Vec<u8> {
        let mut frame = vec![2; 12];
        let length = (8 + content.len()) as u8;
        frame.extend_from_slice(&[8, 0, 0x45, 0, 0, 20 + length, 0, 0, 0, 0, 64, 17, 0, 0]);
        frame.extend_from_slice(&[10, 77, 0, 1, 10, 77, 0, 100, 0, 67, 0, 68, 0, length, checksum[0], checksum[1]]);
        frame.extend_from_slice(content);
        frame
    }

    /// What the checksum's field has in all, as a receiver sums it up.
    fn receiver_sum(frame: &[u8]) -> u16 {
        let length = &frame[38..40];
        sum(&[&frame[26..34], &[0, 17], length, &frame[34..]])
    }

    #[test]
    fn a_checksum_left_out_is_filled_in() {
        for content in [&b"odd"[..], b"even", b""] {
            let length = (8 + content.len()) as u8;
            let pseudo = sum(&[&[10, 77, 0, 1, 10, 77, 0, 100], &[0, 17, 0, length]]);
            let mut frame = reply(pseudo.to_be_bytes(), content);
            fill_checksum(&mut frame);
            assert_eq!(receiver_sum(&frame), 0xffff, "{content:?}");
            let filled = frame.clone();
            fill_checksum(&mut frame);
            assert_eq!(frame, filled);
        }
    }

    #[test]
    fn other_checksums_and_short_frames_stay() {
        for checksum in [[0, 0], [0x12, 0x34]] {
            let mut frame = reply(checksum, b"even");
            fill_checksum(&mut frame);
            assert_eq!(frame, reply(checksum, b"even"));
        }
        let whole = reply([0, 0], b"even");
        for length in 0..whole.len() {
            fill_checksum(&mut whole[..length].to_vec());
        }
    }

    #[test]
    fn messages_to_servers_are_told_from_others() {
        let mut frame = reply([0, 0], b"");
        assert_eq!(to_server(&frame), None);
        frame[37] = 67;
        assert_eq!(to_server(&frame), Some(Family::V4));
        let mut six = vec![0; 62];
        six[12..14].copy_from_slice(&[0x86, 0xdd]);
        six[20] = UDP;
        six[56..58].copy_from_slice(&547u16.to_be_bytes());
        assert_eq!(to_server(&six), Some(Family::V6));
        assert_eq!(to_server(&six[..57]), None);
    }

    #[test]
    fn declines_and_releases_are_told_from_others() {
        let of_kind = |kind: u8| {
            let mut content = vec![0; OPTIONS4];
            content.extend_from_slice(&[0, 61, 2, 1, 2, 53, 1, kind, 255]);
            let mut frame = reply([0, 0], &[]);
            frame[37] = 67;
            frame.extend_from_slice(&content);
            frame
        };
        assert_eq!(message(&of_kind(4)), Some(Message::Decline));
        assert_eq!(message(&of_kind(7)), Some(Message::Release));
        assert_eq!(message(&of_kind(3)), None);
        let whole = of_kind(4);
        for length in 0..whole.len() - 2 {
            assert_eq!(message(&whole[..length]), None);
        }
    }

    #[test]
    fn the_target_of_arp_is_read() {
        let mut frame = vec![0; 42];
        frame[12..14].copy_from_slice(&[8, 6]);
        frame[38..42].copy_from_slice(&[10, 0, 0, 5]);
        assert_eq!(arp_target(&frame), Some(Ipv4Addr::new(10, 0, 0, 5)));
        assert_eq!(arp_target(&frame[..41]), None);
    }
}
