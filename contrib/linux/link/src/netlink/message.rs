//! How messages of netlink are written and read: each has a length, a kind and flags, and attributes behind its head.

/// linux/netlink.h: the length of a message's head, and of an attribute's.
const HEAD: usize = 16;
const ATTRIBUTE_HEAD: usize = 4;
const NLA_KIND: u16 = 0x3fff;

/// A message that is written.
pub struct Writing(Vec<u8>);

impl Writing {
    /// A message of a kind, with the bytes that stand before its attributes.
    pub fn new(kind: u16, flags: u16, sequence: u32, body: &[u8]) -> Writing {
        let mut bytes = vec![0; 4];
        bytes.extend_from_slice(&kind.to_ne_bytes());
        bytes.extend_from_slice(&flags.to_ne_bytes());
        bytes.extend_from_slice(&sequence.to_ne_bytes());
        bytes.extend_from_slice(&[0; 4]);
        bytes.extend_from_slice(body);
        Writing(bytes)
    }

    pub fn attribute(mut self, kind: u16, value: &[u8]) -> Writing {
        self.0.resize(aligned(self.0.len()), 0);
        self.0.extend_from_slice(&((ATTRIBUTE_HEAD + value.len()) as u16).to_ne_bytes());
        self.0.extend_from_slice(&kind.to_ne_bytes());
        self.0.extend_from_slice(value);
        self
    }

    pub fn bytes(mut self) -> Vec<u8> {
        let length = self.0.len() as u32;
        self.0[..4].copy_from_slice(&length.to_ne_bytes());
        self.0
    }
}

fn aligned(length: usize) -> usize {
    (length + 3) & !3
}

/// A message that came.
pub struct Message<'a> {
    pub kind: u16,
    pub sequence: u32,
    pub body: &'a [u8],
}

/// The messages of a datagram. What has no form ends it.
pub fn messages(datagram: &[u8]) -> impl Iterator<Item = Message<'_>> {
    let mut rest = datagram;
    std::iter::from_fn(move || {
        let length = u32_at(rest, 0)? as usize;
        let body = rest.get(HEAD..length)?;
        let message = Message { kind: u16_at(rest, 4)?, sequence: u32_at(rest, 8)?, body };
        rest = rest.get(aligned(length)..).unwrap_or(&[]);
        Some(message)
    })
}

/// The kinds and values of the attributes behind so many bytes of a message.
pub fn attributes(body: &[u8], head: usize) -> impl Iterator<Item = (u16, &[u8])> {
    let mut rest = body.get(aligned(head)..).unwrap_or(&[]);
    std::iter::from_fn(move || {
        let length = usize::from(u16_at(rest, 0)?);
        let value = rest.get(ATTRIBUTE_HEAD..length)?;
        let kind = u16_at(rest, 2)? & NLA_KIND;
        rest = rest.get(aligned(length)..).unwrap_or(&[]);
        Some((kind, value))
    })
}

pub fn u16_at(bytes: &[u8], place: usize) -> Option<u16> {
    Some(u16::from_ne_bytes(bytes.get(place..place + 2)?.try_into().ok()?))
}

pub fn u32_at(bytes: &[u8], place: usize) -> Option<u32> {
    Some(u32::from_ne_bytes(bytes.get(place..place + 4)?.try_into().ok()?))
}

#[cfg(test)]
mod tests {
    use super::*;

    #[test]
    fn what_is_written_is_read() {
        let bytes = Writing::new(20, 5, 7, &[1, 2, 3, 4, 5, 6, 7, 8])
            .attribute(1, b"odd")
            .attribute(2, &9u32.to_ne_bytes())
            .bytes();
        assert_eq!((bytes.len(), u32_at(&bytes, 0)), (16 + 8 + 8 + 8, Some(40)));
        let both = [bytes.clone(), bytes].concat();
        let read: Vec<_> = messages(&both).collect();
        assert_eq!(read.len(), 2);
        assert_eq!((read[1].kind, read[1].sequence), (20, 7));
        let found: Vec<_> = attributes(read[1].body, 8).collect();
        assert_eq!(found, [(1, &b"odd"[..]), (2, &9u32.to_ne_bytes()[..])]);
    }

    #[test]
    fn what_is_cut_short_ends() {
        let bytes = Writing::new(20, 5, 7, &[0; 8]).attribute(1, b"value").bytes();
        for length in 0..bytes.len() {
            for message in messages(&bytes[..length]) {
                assert!(attributes(message.body, 8).count() <= 1);
            }
        }
        // a length of nothing
        assert_eq!(messages(&[0; 64]).count() + attributes(&[0; 64], 0).count(), 0);
    }
}
