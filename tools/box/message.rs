//! ICMP messages to the sender of a datagram, and how many of them a second.
//!
//! A message goes out by the interface that the datagram came in by, to the link address that it came from, with the label that it came with:
//! no octet of the far domain's label reaches the near side. What is said of a refusal, and the options area of the datagram that says it, the proved
//! library writes. Into "fragmentation needed" (3/4) the MTU is written here, outside the proof, and the checksum made anew.

use crate::frame::{checksum, seal, Datagram, FIXED};
use crate::library::Decision;
use crate::system;
use std::time::Instant;

/// The longest message: eight octets, a header with all options, eight octets of data; around it another header with all options.
pub const LONGEST: usize = 60 + 8 + 60 + 8;
const ICMP: u8 = 1;
const CIPSO: u8 = 134;

/// A bucket that fills with so many a second, and holds as many (RFC 1812, section 4.3.2.8).
pub struct Bucket {
    rate: f64,
    level: f64,
    since: Instant,
}

impl Bucket {
    pub fn new(rate: u32, now: Instant) -> Bucket {
        Bucket { rate: rate.into(), level: rate.into(), since: now }
    }

    /// Takes one out, if there is one.
    pub fn take(&mut self, now: Instant) -> bool {
        self.level = (self.level + now.duration_since(self.since).as_secs_f64() * self.rate).min(self.rate);
        self.since = now;
        let there = self.level >= 1.0;
        self.level -= f64::from(u8::from(there));
        there
    }
}

/// The first option 134 of an area, or nothing: for the lines that the box tells.
pub fn label(area: &[u8]) -> &[u8] {
    let mut at = 0;
    while at < area.len() && area[at] != 0 {
        let length = if area[at] == 1 { 1 } else { area.get(at + 1).map_or(0, |l| usize::from(*l)) };
        if length == 0 || at + length > area.len() || (area[at] != 1 && length < 2) {
            return &[];
        }
        if area[at] == CIPSO {
            return &area[at..at + length];
        }
        at += length;
    }
    &[]
}

/// The MTU that a sender is told: what it may send so that the datagram, grown by its new options, still fits.
pub fn room(leaving_mtu: usize, arriving: &[u8], leaving: &[u8]) -> u16 {
    leaving_mtu.saturating_sub(leaving.len().saturating_sub(arriving.len())).min(65535) as u16
}

/// The datagram that tells the sender of a refusal, as the library has it. Answers its length, or 0 where nothing is to be sent.
pub fn refused(datagram: &Datagram, d: &Decision, own: u32, out: &mut [u8]) -> usize {
    told([d.number, d.kind, d.code, d.pointer], 0, datagram, own, out)
}

/// "Fragmentation needed" (RFC 1191, section 4): as a refusal for want of room is told, with the MTU in the two octets that it has for that.
pub fn too_long(datagram: &Datagram, mtu: u16, own: u32, out: &mut [u8]) -> usize {
    told([18, 3, 4, 0], mtu, datagram, own, out)
}

fn told(refusal: [u8; 4], mtu: u16, datagram: &Datagram, own: u32, out: &mut [u8]) -> usize {
    let (mut message, mut area) = ([0; 76], [0; 40]);
    let (length, options) = system::build_message(refusal, datagram.header, datagram.payload, &mut message, &mut area);
    let message = &mut message[..length];
    if length == 0 {
        return 0;
    }
    if mtu > 0 {
        message[2..4].copy_from_slice(&[0, 0]);
        message[6..8].copy_from_slice(&mtu.to_be_bytes());
        let sum = checksum(message);
        message[2..4].copy_from_slice(&sum.to_be_bytes());
    }
    carry(message, &area[..options], own, datagram.source(), out)
}

/// The datagram that carries a message: from the box's own address, with the options area that it must have.
pub fn carry(message: &[u8], area: &[u8], own: u32, to: u32, out: &mut [u8]) -> usize {
    let header = FIXED + area.len();
    let whole = &mut out[..header + message.len()];
    whole[..FIXED].copy_from_slice(&[0, 0xc0, 0, 0, 0, 0, 0, 0, 64, ICMP, 0, 0, 0, 0, 0, 0, 0, 0, 0, 0]);
    whole[12..16].copy_from_slice(&own.to_be_bytes());
    whole[16..20].copy_from_slice(&to.to_be_bytes());
    whole[FIXED..header].copy_from_slice(area);
    whole[header..].copy_from_slice(message);
    seal(whole, header);
    whole.len()
}
