//! UDP datagrams over IPv4 in a capture file (pcap, of either order of octets and either unit of time).

use std::net::{Ipv4Addr, SocketAddrV4};

/// A datagram of a capture.
#[derive(Clone, Debug, PartialEq, Eq)]
pub struct Captured {
    pub time: u32,
    pub from: SocketAddrV4,
    pub to: SocketAddrV4,
    pub payload: Vec<u8>,
    /// Whether the capture has less of it than there was.
    pub is_cut: bool,
}

/// The datagrams of a capture, in its order.
pub struct Capture {
    pub datagrams: Vec<Captured>,
    /// The octet at which the packet begins that isn't there as a whole.
    pub cut: Option<usize>,
}

/// Reads a capture, up to where it is cut off. What is no UDP over IPv4, or a fragment, is passed over.
pub fn read(file: &[u8]) -> Result<Capture, String> {
    let (head, mut rest) = file
        .split_at_checked(24)
        .ok_or("no capture file: it has fewer than 24 octets")?;
    let is_low_first = match head[..4] {
        [0xA1, 0xB2, 0xC3, 0xD4] | [0xA1, 0xB2, 0x3C, 0x4D] => false,
        [0xD4, 0xC3, 0xB2, 0xA1] | [0x4D, 0x3C, 0xB2, 0xA1] => true,
        [0x0A, 0x0D, 0x0D, 0x0A] => {
            return Err("a pcapng capture; turn it into pcap with `editcap -F pcap`".to_owned())
        }
        _ => return Err("no capture file: it begins otherwise".to_owned()),
    };
    let number = |octets: &[u8]| {
        let octets: [u8; 4] = octets.try_into().expect("four octets");
        match is_low_first {
            true => u32::from_le_bytes(octets),
            false => u32::from_be_bytes(octets),
        }
    };
    let link = number(&head[20..24]) & 0x0FFF_FFFF;
    // A packet's time and octets, and what is behind it.
    let packet = |rest| {
        let (head, behind): (&[u8], &[u8]) = <[u8]>::split_at_checked(rest, 16)?;
        let length = usize::try_from(number(&head[8..12])).ok()?;
        let (packet, behind) = behind.split_at_checked(length)?;
        Some((number(&head[..4]), packet, behind))
    };
    let mut datagrams = vec![];
    while !rest.is_empty() {
        let Some((time, packet, behind)) = packet(rest) else {
            let cut = Some(file.len() - rest.len());
            return Ok(Capture { datagrams, cut });
        };
        rest = behind;
        datagrams.extend(network(link, packet)?.and_then(|packet| datagram(packet, time)));
    }
    let cut = None;
    Ok(Capture { datagrams, cut })
}

/// The IPv4 packet within a frame of a kind of link; `None` for another protocol.
fn network(link: u32, frame: &[u8]) -> Result<Option<&[u8]>, String> {
    let after = |length: usize, protocol: usize| {
        let is_ipv4 = frame.get(protocol..protocol + 2) == Some(&[8, 0]);
        is_ipv4.then(|| frame.get(length..)).flatten()
    };
    Ok(match link {
        // Ethernet, with tags of virtual networks.
        1 => {
            let is_tagged =
                |at: &usize| matches!(frame.get(*at..at + 2), Some([0x81, 0] | [0x88, 0xA8]));
            let tags = (12..).step_by(4).take_while(is_tagged).count();
            after(14 + 4 * tags, 12 + 4 * tags)
        }
        0 => frame.get(4..),
        12 | 14 | 101 | 228 => Some(frame),
        113 => after(16, 14),
        276 => after(20, 0),
        _ => {
            return Err(format!(
                "a capture of link type {link}, which isn't read here"
            ))
        }
    })
}

/// The UDP datagram within an IPv4 packet.
fn datagram(packet: &[u8], time: u32) -> Option<Captured> {
    let first = *packet.first()?;
    let head = usize::from(first & 15) * 4;
    let is_fragment = u16::from_be_bytes([*packet.get(6)?, *packet.get(7)?]) & 0x3FFF != 0;
    if first >> 4 != 4 || head < 20 || *packet.get(9)? != 17 || is_fragment {
        return None;
    }
    let address = |at: usize| {
        let octets: [u8; 4] = packet.get(at..at + 4)?.try_into().ok()?;
        Some(Ipv4Addr::from(octets))
    };
    let (source, target) = (address(12)?, address(16)?);
    let (&[a, b, c, d, e, f, _, _], rest) = packet.get(head..)?.split_first_chunk()?;
    let length = usize::from(u16::from_be_bytes([e, f])).checked_sub(8)?;
    Some(Captured {
        time,
        from: SocketAddrV4::new(source, u16::from_be_bytes([a, b])),
        to: SocketAddrV4::new(target, u16::from_be_bytes([c, d])),
        payload: rest[..length.min(rest.len())].to_vec(),
        is_cut: rest.len() < length,
    })
}
