//! An Ethernet frame with an IPv4 datagram: taken apart, its facts stated, and put together anew with another options area.
//! Every octet is read through a slice whose length was tested, so that a damaged frame is a `Fault` and never a crash.

/// Octets of the headers: Ethernet's, a VLAN tag's, IPv4's without options.
pub const ETHERNET: usize = 14;
pub const TAG: usize = 4;
pub const FIXED: usize = 20;
pub const IPV4: u16 = 0x0800;
pub const ARP: u16 = 0x0806;
const VLAN: u16 = 0x8100;
/// The types that begin a tag: VLAN, a provider's, and what older equipment took for that.
const TAGS: [u16; 3] = [VLAN, 0x88a8, 0x9100];

macro_rules! faults {
    ($($name:ident $words:literal)*) => {
        /// Why a frame is dropped without a number.
        #[derive(Clone, Copy, Debug, PartialEq, Eq)]
        pub enum Fault {
            $($name),*
        }
        /// The words of each, in its place.
        pub const FAULTS: &[&str] = &[$($words),*];
    };
}

faults! {
    Short "frame cut short"
    Joined "longer than the arriving interface's MTU: receive offload joins frames"
    OtherHost "for another host's link address"
    Tagged "VLAN tag where the interface has none"
    OtherVlan "not of the interface's VLAN"
    OtherType "neither IPv4 nor ARP"
    Arp "ARP that is damaged or not of this network"
    Unready "transport checksum left to the sender's interface, which did not write it"
    Version "not IP version 4"
    HeaderLength "header length too small or past the frame"
    TotalLength "total length too small or past the frame"
    Checksum "wrong header checksum"
    OwnAddress "for the box's own address"
    NoRoute "no route to the destination"
    Group "broadcast or multicast, which does not leave"
    TimeToLive "time to live run out"
    Mtu "longer than the leaving interface's MTU"
    Unanswered "next hop does not answer ARP"
    Unsent "not taken by the leaving interface"
    Overrun "lost before it was looked at: too many waited"
}

/// A VLAN tag: its type, and its control field, whose low 12 bits name the VLAN.
#[derive(Clone, Copy, Debug, Default, PartialEq, Eq)]
pub struct Tag {
    pub kind: u16,
    pub control: u16,
}

/// What the kernel says of a frame beside its octets: a tag that it has taken off, a checksum that is yet to be written, an end cut off.
#[derive(Clone, Copy, Debug, Default)]
pub struct Seen {
    pub tag: Option<Tag>,
    pub unready: bool,
    pub cut: bool,
}

/// A network: an address and how many of its leading bits name the network.
#[derive(Clone, Copy, Debug, PartialEq, Eq)]
pub struct Network {
    pub address: u32,
    pub bits: u32,
}

impl Network {
    pub fn host_bits(self) -> u32 {
        u32::MAX.checked_shr(self.bits).unwrap_or(0)
    }

    pub fn has(self, address: u32) -> bool {
        (address ^ self.address) & !self.host_bits() == 0
    }

    /// The network's own broadcast address. A network of one or two addresses has none.
    pub fn broadcast(self, address: u32) -> bool {
        self.bits < 31 && self.has(address) && address & self.host_bits() == self.host_bits()
    }

    /// Its lowest address, which is no host's.
    pub fn lowest(self, address: u32) -> bool {
        self.bits < 31 && self.has(address) && address & self.host_bits() == 0
    }
}

/// The facts of docs/RULES.md that silence a report, in the order of the library.
#[derive(Clone, Copy, Debug, Default, PartialEq, Eq)]
pub struct Facts {
    pub error: bool,
    pub group: bool,
    pub link: bool,
    pub fragment: bool,
    pub source: bool,
}

impl Facts {
    pub fn silence(self) -> bool {
        self.error || self.group || self.link || self.fragment || self.source
    }
}

/// A frame that is for this interface.
#[derive(Clone, Copy, Debug)]
pub struct Link<'a> {
    pub from: [u8; 6],
    pub group: bool,
    pub kind: u16,
    pub carried: &'a [u8],
}

/// The parts of a datagram that was found whole.
#[derive(Clone, Copy, Debug)]
pub struct Datagram<'a> {
    pub header: &'a [u8],
    pub payload: &'a [u8],
    pub facts: Facts,
    pub from: [u8; 6],
}

impl<'a> Datagram<'a> {
    pub fn area(&self) -> &'a [u8] {
        &self.header[FIXED..]
    }

    pub fn source(&self) -> u32 {
        four(self.header, 12)
    }

    pub fn target(&self) -> u32 {
        four(self.header, 16)
    }

    pub fn must_stay_whole(&self) -> bool {
        self.header[6] & 0x40 != 0
    }
}

pub fn two(octets: &[u8], at: usize) -> u16 {
    u16::from_be_bytes([octets[at], octets[at + 1]])
}

pub fn four(octets: &[u8], at: usize) -> u32 {
    u32::from_be_bytes([octets[at], octets[at + 1], octets[at + 2], octets[at + 3]])
}

/// The sum of RFC 1071, which is 0 over octets that carry their own checksum.
pub fn checksum(octets: &[u8]) -> u16 {
    let mut sum: u32 = octets.chunks(2).map(|c| u32::from(c[0]) << 8 | u32::from(*c.get(1).unwrap_or(&0))).sum();
    while sum > 0xffff {
        sum = (sum & 0xffff) + (sum >> 16);
    }
    !(sum as u16)
}

/// Takes the link's header off: an IPv4 or ARP frame to `own` or to a group, untagged or of the VLAN that the interface is told.
pub fn link<'a>(frame: &'a [u8], seen: Seen, own: &[u8; 6], vlan: Option<u16>) -> Result<Link<'a>, Fault> {
    if frame.len() < ETHERNET {
        return Err(Fault::Short);
    }
    let group = frame[0] & 1 == 1;
    if !group && frame[..6] != own[..] {
        return Err(Fault::OtherHost);
    }
    // the kernel takes off the outermost tag alone, and not every one
    let inside = seen.tag.is_none() && TAGS.contains(&two(frame, 12));
    let start = if inside { ETHERNET + TAG } else { ETHERNET };
    if frame.len() < start {
        return Err(Fault::Short);
    }
    let tag = if inside { Some(Tag { kind: two(frame, 12), control: two(frame, 14) }) } else { seen.tag };
    match (tag, vlan) {
        (Some(_), None) => return Err(Fault::Tagged),
        (tag, Some(id)) if !tag.is_some_and(|t| t.kind == VLAN && t.control & 0xfff == id) => return Err(Fault::OtherVlan),
        _ => (),
    }
    let kind = two(frame, start - 2);
    if TAGS.contains(&kind) {
        return Err(Fault::Tagged);
    }
    if kind != IPV4 && kind != ARP {
        return Err(Fault::OtherType);
    }
    let mut from = [0; 6];
    from.copy_from_slice(&frame[6..12]);
    Ok(Link { from, group, kind, carried: &frame[start..] })
}

/// Takes a datagram apart. `networks` are those of all interfaces, for their broadcast addresses; `mtu` is the arriving interface's.
pub fn parse<'a>(link: &Link<'a>, seen: Seen, mtu: usize, networks: &[Network]) -> Result<Datagram<'a>, Fault> {
    let octets = link.carried;
    if octets.len() < FIXED {
        return Err(Fault::Short);
    }
    if octets[0] >> 4 != 4 {
        return Err(Fault::Version);
    }
    let length = usize::from(octets[0] & 15) * 4;
    if length < FIXED || length > octets.len() {
        return Err(Fault::HeaderLength);
    }
    let total = usize::from(two(octets, 2));
    if total < length || (total > octets.len() && !seen.cut) {
        return Err(Fault::TotalLength);
    }
    if seen.cut || total > mtu {
        return Err(Fault::Joined);
    }
    if checksum(&octets[..length]) != 0 {
        return Err(Fault::Checksum);
    }
    if seen.unready {
        return Err(Fault::Unready);
    }
    let (header, payload) = octets[..total].split_at(length);
    Ok(Datagram { header, payload, facts: state(link.group, header, payload, networks), from: link.from })
}

/// The five facts. An ICMP datagram without a type is taken for an error message.
fn state(link: bool, header: &[u8], payload: &[u8], networks: &[Network]) -> Facts {
    let (source, target) = (four(header, 12), four(header, 16));
    let fragment = two(header, 6) & 0x1fff != 0;
    let kind = payload.first().copied().unwrap_or(3);
    Facts {
        error: header[9] == 1 && !fragment && matches!(kind, 3 | 4 | 5 | 11 | 12),
        group: target >> 28 == 14 || target == u32::MAX || networks.iter().any(|n| n.broadcast(target)),
        link,
        fragment,
        source: matches!(source >> 24, 0 | 127 | 224..=255) || networks.iter().any(|n| n.broadcast(source) || n.lowest(source)),
    }
}

/// Writes the link's header. Answers its length.
pub fn put_link(to: &[u8; 6], own: &[u8; 6], vlan: Option<u16>, kind: u16, out: &mut [u8]) -> usize {
    out[..6].copy_from_slice(to);
    out[6..12].copy_from_slice(own);
    let start = if vlan.is_some() { ETHERNET + TAG } else { ETHERNET };
    if let Some(id) = vlan {
        out[12..14].copy_from_slice(&VLAN.to_be_bytes());
        out[14..16].copy_from_slice(&id.to_be_bytes());
    }
    out[start - 2..start].copy_from_slice(&kind.to_be_bytes());
    start
}

/// Writes length and checksum into a datagram that is whole but for them, and the length of its header.
pub fn seal(octets: &mut [u8], header: usize) {
    octets[0] = 0x40 | (header / 4) as u8;
    let total = octets.len() as u16;
    octets[2..4].copy_from_slice(&total.to_be_bytes());
    octets[10..12].copy_from_slice(&[0, 0]);
    let sum = checksum(&octets[..header]);
    octets[10..12].copy_from_slice(&sum.to_be_bytes());
}

/// Puts the leaving datagram together in `out`: the fixed header with length, time to live and checksum made anew, the leaving area, the
/// payload. Answers its length.
pub fn rebuild(datagram: &Datagram, area: &[u8], mtu: usize, out: &mut [u8]) -> Result<usize, Fault> {
    let header = FIXED + area.len();
    let total = header + datagram.payload.len();
    if datagram.header[8] <= 1 {
        return Err(Fault::TimeToLive);
    }
    if total > mtu || total > out.len() {
        return Err(Fault::Mtu);
    }
    out[..FIXED].copy_from_slice(&datagram.header[..FIXED]);
    out[FIXED..header].copy_from_slice(area);
    out[header..total].copy_from_slice(datagram.payload);
    out[8] -= 1;
    seal(&mut out[..total], header);
    Ok(total)
}
