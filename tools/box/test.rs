//! Tests of the box without an interface: frames that are whole, frames that are damaged, a million of random octets, the library's answers,
//! and each part that the box has beside it. `tools/box/test` runs them.

#![deny(unsafe_code)]
#![allow(dead_code)]

mod frame;
mod kernel;
mod library;
mod message;
mod neighbours;
mod options;
mod output;
mod routes;
#[allow(unsafe_code)]
mod system;

use frame::{checksum, four, link, put_link, rebuild, two, Datagram, Facts, Fault, Link, Network, Seen, Tag, ARP, ETHERNET, FIXED, IPV4};
use library::SLOT;
use neighbours::{Neighbours, Waiting, EVERYONE};
use routes::{Place, Routes, Way};
use std::time::{Duration, Instant};

/// The box's networks, by its own addresses on them; and its link address.
const NEAR: Network = Network { address: 0xc000_0201, bits: 24 };
const FAR: Network = Network { address: 0xc633_6401, bits: 24 };
const OWN: [u8; 6] = [2, 0, 0, 0, 0, 1];
const OTHER: [u8; 6] = [2, 0, 0, 0, 0, 11];
const HOST: u32 = 0xc000_020a;
const NONE: Seen = Seen { tag: None, unready: false, cut: false };
/// Tag 2, level 3, category 0, in domain 5; and what the sample's records make of it.
const OPTION: [u8; 12] = [0x86, 12, 0, 0, 0, 5, 2, 6, 0, 3, 0, 0];
const LEAVING: [u8; 12] = [0x86, 12, 0, 0, 0, 9, 2, 6, 0, 4, 3, 0xe8];

/// A frame of a datagram from 192.0.2.10 to 198.51.100.10.
fn made(area: &[u8], payload: &[u8]) -> Vec<u8> {
    let header = FIXED + area.len();
    let mut frame = vec![2, 0, 0, 0, 0, 1, 2, 0, 0, 0, 0, 10, 8, 0];
    frame.extend([0x40 | (header / 4) as u8, 0, 0, 0, 0, 0, 0, 0, 64, 17, 0, 0, 192, 0, 2, 10, 198, 51, 100, 10]);
    frame.extend(area);
    frame.extend(payload);
    let total = (header + payload.len()) as u16;
    frame[ETHERNET + 2..ETHERNET + 4].copy_from_slice(&total.to_be_bytes());
    signed(frame)
}

/// The same frame with its header checksum made anew, as far as the header goes.
fn signed(mut frame: Vec<u8>) -> Vec<u8> {
    let header = (usize::from(frame[ETHERNET] & 15) * 4).clamp(FIXED, frame.len() - ETHERNET);
    frame[ETHERNET + 10..ETHERNET + 12].copy_from_slice(&[0, 0]);
    let sum = checksum(&frame[ETHERNET..ETHERNET + header]);
    frame[ETHERNET + 10..ETHERNET + 12].copy_from_slice(&sum.to_be_bytes());
    frame
}

/// What the box does with a frame that holds a datagram, on an interface without a VLAN.
fn parse(frame: &[u8]) -> Result<Datagram<'_>, Fault> {
    let link = link(frame, NONE, &OWN, None)?;
    assert_eq!(link.kind, IPV4);
    frame::parse(&link, NONE, 1500, &[NEAR, FAR])
}

fn fault(frame: &[u8]) -> Option<Fault> {
    parse(frame).err()
}

/// A leaving frame, as the box puts it together.
fn leaving(d: &Datagram, area: &[u8], mtu: usize, out: &mut [u8]) -> Result<usize, Fault> {
    let start = put_link(&OWN, &OTHER, None, IPV4, out);
    rebuild(d, area, mtu, &mut out[start..]).map(|n| start + n)
}

fn facts(change: impl Fn(&mut Vec<u8>)) -> Facts {
    let mut frame = made(&OPTION, &[8; 8]);
    change(&mut frame);
    parse(&signed(frame)).unwrap().facts
}

#[test]
fn a_whole_frame_is_cut_where_its_header_says() {
    let mut frame = made(&OPTION, b"payload");
    frame.extend([0; 9]); // what Ethernet adds to a short frame
    let d = parse(&frame).unwrap();
    assert_eq!((d.area(), d.payload, d.facts), (&OPTION[..], &b"payload"[..], Facts::default()));
}

#[test]
fn a_frame_cut_short_at_any_length_is_a_fault() {
    let frame = made(&OPTION, b"payload");
    for n in 0..frame.len() {
        assert!(fault(&frame[..n]).is_some(), "{n}");
    }
}

#[test]
fn lengths_past_the_frame_or_too_small_are_faults() {
    for header in 0..16u8 {
        let mut frame = made(&OPTION, &[]);
        frame[ETHERNET] = 0x40 | header;
        let found = fault(&signed(frame));
        let expected = match header {
            0..=4 | 9..=15 => Some(Fault::HeaderLength),
            _ => None,
        };
        assert_eq!(found, expected, "{header}");
    }
    for total in 0..=65535u16 {
        let mut frame = made(&OPTION, b"payload");
        frame[ETHERNET + 2..ETHERNET + 4].copy_from_slice(&total.to_be_bytes());
        let expected = if (32..=39).contains(&total) { None } else { Some(Fault::TotalLength) };
        assert_eq!(fault(&signed(frame)), expected, "{total}");
    }
}

#[test]
fn other_versions_types_and_checksums_are_faults() {
    let frame = made(&OPTION, b"payload");
    for (at, octet, expected) in [(12, 0x86, Fault::OtherType), (14, 0x68, Fault::Version), (14 + 8, 65, Fault::Checksum)] {
        let mut other = frame.clone();
        other[at] = octet;
        assert_eq!(fault(&other), Some(expected));
    }
}

#[test]
fn each_fact_is_stated() {
    let none = Facts::default();
    let at = ETHERNET;
    assert_eq!(facts(|_| ()), none);
    for kind in 0..=255u8 {
        let expected = Facts { error: [3, 4, 5, 11, 12].contains(&kind), ..none };
        assert_eq!(facts(|f| (f[at + 9], f[at + 32]) = (1, kind)), expected, "{kind}");
    }
    let target = |a: [u8; 4]| facts(|f| f[at + 16..at + 20].copy_from_slice(&a));
    for group in [[224, 0, 0, 1], [239, 255, 255, 255], [255; 4], [198, 51, 100, 255], [192, 0, 2, 255]] {
        assert_eq!(target(group), Facts { group: true, ..none });
    }
    assert_eq!(target([198, 51, 101, 255]), none);
    let source = |a: [u8; 4]| facts(|f| f[at + 12..at + 16].copy_from_slice(&a));
    for many in [[0; 4], [127, 0, 0, 1], [224, 0, 0, 1], [255; 4], [192, 0, 2, 255], [192, 0, 2, 0]] {
        assert_eq!(source(many), Facts { source: true, ..none });
    }
    assert_eq!(facts(|f| f[0] = 255), Facts { link: true, ..none });
    assert_eq!(facts(|f| f[at + 7] = 1), Facts { fragment: true, ..none });
    assert_eq!(facts(|f| f[at + 6] = 0x20), none); // the first fragment
}

#[test]
fn what_is_made_anew_is_whole() {
    let frame = made(&OPTION, b"payload");
    let d = parse(&frame).unwrap();
    let mut out = [0; 2048];
    for size in (0..=40).step_by(4) {
        let area = vec![1; size];
        let n = leaving(&d, &area, 1500, &mut out).unwrap();
        assert_eq!(n, ETHERNET + FIXED + size + 7);
        let again = parse(&out[..n]).unwrap();
        assert_eq!((again.area(), again.payload, again.header[8]), (&area[..], &b"payload"[..], 63));
        assert_eq!((&out[..6], &out[6..12], &again.header[12..20]), (&OWN[..], &OTHER[..], &d.header[12..20]));
    }
}

#[test]
fn mtu_and_time_to_live_are_kept() {
    let frame = made(&[], &[0; 100]);
    let d = parse(&frame).unwrap();
    let mut out = [0; 2048];
    assert!(rebuild(&d, &[1; 40], 160, &mut out).is_ok());
    assert_eq!(rebuild(&d, &[1; 40], 159, &mut out), Err(Fault::Mtu));
    assert_eq!(rebuild(&d, &[1; 40], 1500, &mut out[..159]), Err(Fault::Mtu));
    for (ttl, left) in [(0, None), (1, None), (2, Some(1)), (255, Some(254))] {
        let mut header = d.header.to_vec();
        header[8] = ttl;
        let made = rebuild(&Datagram { header: &header, ..d }, &[], 1500, &mut out);
        assert_eq!(made.ok().map(|_| out[8]), left, "{ttl}");
    }
    // a frame that is longer than the arriving interface's MTU was joined of several
    let frame = made(&[], &[0; 1481]);
    assert_eq!(fault(&frame), Some(Fault::Joined));
    assert_eq!(fault(&made(&[], &[0; 1480])), None);
}

#[test]
fn only_frames_for_the_box_are_looked_at() {
    let good = made(&OPTION, b"payload");
    for first in 0..=255u8 {
        let mut frame = good.clone();
        frame[0] = first;
        let expected = if first == 2 || first & 1 == 1 { None } else { Some(Fault::OtherHost) };
        assert_eq!(fault(&frame), expected, "{first}");
        assert!(expected.is_some() || parse(&frame).unwrap().facts.link == (first & 1 == 1));
    }
    for at in 0..6 {
        let mut frame = good.clone();
        frame[at] ^= 2;
        assert_eq!(fault(&frame), Some(Fault::OtherHost), "{at}");
    }
    let mut off = NONE;
    off.unready = true;
    let link = link(&good, off, &OWN, None).unwrap();
    assert_eq!(frame::parse(&link, off, 1500, &[NEAR, FAR]).unwrap_err(), Fault::Unready);
    let cut = Seen { cut: true, ..NONE };
    assert_eq!(frame::parse(&link, cut, 1500, &[NEAR, FAR]).unwrap_err(), Fault::Joined);
}

/// A frame with a tag in it.
fn tagged(kind: u16, control: u16, frame: &[u8]) -> Vec<u8> {
    let mut out = frame[..12].to_vec();
    out.extend(kind.to_be_bytes());
    out.extend(control.to_be_bytes());
    out.extend(&frame[12..]);
    out
}

#[test]
fn every_tag_is_seen_wherever_it_stands() {
    let good = made(&OPTION, b"payload");
    for kind in [0x8100u16, 0x88a8, 0x9100] {
        for control in 0..=65535u16 {
            let inside = tagged(kind, control, &good);
            let aside = Seen { tag: Some(Tag { kind, control }), ..NONE };
            let right = kind == 0x8100 && control & 0xfff == 7;
            for (frame, seen) in [(&inside, NONE), (&good, aside)] {
                assert_eq!(link(frame, seen, &OWN, None).err(), Some(Fault::Tagged), "{kind:x} {control:x}");
                let told = link(frame, seen, &OWN, Some(7)).map(|l| l.carried);
                assert_eq!(told, if right { Ok(&good[ETHERNET..]) } else { Err(Fault::OtherVlan) }, "{kind:x} {control:x}");
            }
            // a second tag inside the first
            assert_eq!(
                link(&inside, Seen { tag: Some(Tag { kind: 0x8100, control: 7 }), ..NONE }, &OWN, Some(7)).err(),
                Some(Fault::Tagged)
            );
        }
    }
    assert_eq!(link(&good, NONE, &OWN, Some(7)).err(), Some(Fault::OtherVlan));
    assert_eq!(link(&tagged(0x8100, 7, &good)[..17], NONE, &OWN, Some(7)).err(), Some(Fault::Short));
    let mut out = [0; 64];
    assert_eq!(put_link(&OWN, &OTHER, Some(7), IPV4, &mut out), 18);
    assert_eq!(out[..18], [2, 0, 0, 0, 0, 1, 2, 0, 0, 0, 0, 11, 0x81, 0, 0, 7, 8, 0]);
}

#[test]
fn every_type_is_told_apart() {
    for kind in 0..=65535u16 {
        let mut frame = made(&OPTION, b"payload");
        frame[12..14].copy_from_slice(&kind.to_be_bytes());
        let expected = match kind {
            IPV4 | ARP => None,
            0x8100 | 0x88a8 | 0x9100 => Some(Fault::Tagged),
            _ => Some(Fault::OtherType),
        };
        assert_eq!(link(&frame, NONE, &OWN, None).err(), expected, "{kind:x}");
    }
}

/// A record of the library, decided with the gateway file that the repository ships.
fn decided(file: &[u8], ports: (usize, usize), facts: Facts, area: &[u8]) -> [u8; SLOT] {
    let (mut record, mut slot) = ([0; SLOT], [0xee; SLOT]);
    library::put_record(facts, area, &mut record);
    assert_eq!(system::forward(file, ports.0, ports.1, &record, &mut slot), 1);
    slot
}

#[test]
fn the_library_decides_by_the_file() {
    let file = std::fs::read("crates/sample/data/gateway.bin").unwrap();
    let slot = decided(&file, (0, 1), Facts::default(), &OPTION);
    let d = library::decision(&slot);
    assert_eq!((d.number, d.area), (0, &LEAVING[..]));
    let number = |file: &[u8], ports, area: &[u8]| decided(file, ports, Facts::default(), area)[..4].to_vec();
    assert_eq!(number(&file, (0, 1), &[]), [6, 12, 1, 134]);
    assert_eq!(decided(&file, (0, 1), Facts { link: true, ..Facts::default() }, &[])[..4], [6, 0, 0, 0]);
    assert_eq!(number(&file, (1, 0), &LEAVING), [16, 3, 9, 0]); // no table for that way
    assert_eq!(number(&file, (0, 2), &OPTION), [2, 0, 0, 0]); // no such port
    assert_eq!(number(&file, (0, usize::MAX), &OPTION), [2, 0, 0, 0]);
    assert_eq!(number(&file[..88], (0, 1), &OPTION), [2, 0, 0, 0]); // a refused file
    assert_eq!(number(&file, (0, 0), &OPTION), [0, 0, 0, 0]); // equal domains: no table is read
}

#[test]
fn slots_past_the_last_record_stay() {
    let file = std::fs::read("crates/sample/data/gateway.bin").unwrap();
    let mut records = [0; 3 * SLOT];
    for record in records.chunks_mut(SLOT) {
        library::put_record(Facts::default(), &OPTION, record);
    }
    for (input, output, count) in [(0, 192, 0), (63, 192, 0), (64, 192, 1), (191, 192, 2), (192, 191, 2), (192, 192, 3)] {
        let mut slots = [0xee; 3 * SLOT];
        assert_eq!(system::forward(&file, 0, 1, &records[..input], &mut slots[..output]), count);
        for (i, slot) in slots.chunks(SLOT).enumerate() {
            assert_eq!(slot[0] == 0, i < count, "{input} {output} {i}");
            assert!(i < count || slot.iter().all(|o| *o == 0xee));
        }
    }
}

/// A generator of no merit but that it is the same every time.
struct Random(u64);

impl Random {
    fn next(&mut self) -> u64 {
        self.0 ^= self.0 << 13;
        self.0 ^= self.0 >> 7;
        self.0 ^= self.0 << 17;
        self.0
    }
}

/// A frame for the million: octets at random; a good frame with a few octets changed; the same, signed anew; an area at random; a good frame
/// of any length up to 1,600; an ARP packet with a few octets changed. Every third has a tag somewhere.
fn any_frame(round: u32, random: &mut Random) -> (Vec<u8>, Seen) {
    let mut frame = made(&OPTION, &[0; 24]);
    let harm = |frame: &mut Vec<u8>, random: &mut Random| {
        for _ in 0..=random.next() % 4 {
            let at = random.next() as usize % frame.len();
            frame[at] = random.next() as u8;
        }
    };
    match round % 6 {
        0 => frame = (0..random.next() % 120).map(|_| random.next() as u8).collect(),
        1 => harm(&mut frame, random),
        2 => {
            harm(&mut frame, random);
            frame = signed(frame);
        }
        3 => frame = made(&(0..4 * (random.next() % 11)).map(|_| random.next() as u8 % 8).collect::<Vec<u8>>(), &[0; 24]),
        4 => {
            frame = made(&OPTION, &vec![0; random.next() as usize % 1560]);
            frame.truncate(frame.len() - random.next() as usize % 2);
        }
        _ => {
            frame = arp(1, HOST, NEAR.address);
            if random.next() % 2 == 0 {
                harm(&mut frame, random);
            }
        }
    }
    let tag = Tag { kind: [0x8100, 0x8100, 0x88a8, 0x9100][random.next() as usize % 4], control: 6 + random.next() as u16 % 3 };
    let mut seen = NONE;
    match (round / 6) % 6 {
        0 if frame.len() >= 12 => frame = tagged(tag.kind, tag.control, &frame),
        1 => seen.tag = Some(tag),
        _ => (),
    }
    (frame, seen)
}

/// What the box does with a frame, but for sockets: answers whether it held a whole datagram, and whether that passed.
fn whole_way(file: &[u8], frame: &[u8], seen: Seen, vlan: Option<u16>, neighbours: &mut Neighbours, now: Instant) -> (bool, bool) {
    let Ok(link) = link(frame, seen, &OWN, vlan) else { return (false, false) };
    if link.kind == ARP {
        neighbours.hear(link.carried, &OWN, now);
        return (false, false);
    }
    let Ok(d) = frame::parse(&link, seen, 1500, &[NEAR, FAR]) else { return (false, false) };
    let slot = decided(file, (0, 1), d.facts, d.area());
    let decision = library::decision(&slot);
    let mut out = [0; 2048];
    if decision.number != 0 {
        let n = if decision.kind == 0 { 0 } else { message::refused(&d, &decision, NEAR.address, &mut out) };
        assert!(n == 0 || (checksum(&out[..usize::from(out[0] & 15) * 4]) == 0 && usize::from(two(&out, 2)) == n));
        return (true, false);
    }
    match leaving(&d, decision.area, 1500, &mut out) {
        Ok(n) => assert!(parse(&out[..n]).is_ok()),
        Err(_) => {
            let n = message::too_long(&d, message::room(1500, d.area(), decision.area), NEAR.address, &mut out);
            assert!(n <= message::LONGEST && checksum(&out[..usize::from(out[0] & 15) * 4]) == 0);
        }
    }
    (true, true)
}

#[test]
fn a_million_frames_do_no_harm() {
    let file = std::fs::read("crates/sample/data/gateway.bin").unwrap();
    let (now, mut neighbours) = (Instant::now(), Neighbours::new(NEAR.address, NEAR));
    let (mut random, mut whole, mut passed) = (Random(21), 0, 0);
    for round in 0..1_000_000 {
        let (frame, seen) = any_frame(round, &mut random);
        let vlan = (random.next() % 2 == 0).then_some(7);
        let found = whole_way(&file, &frame, seen, vlan, &mut neighbours, now);
        whole += u32::from(found.0);
        passed += u32::from(found.1);
    }
    println!("{whole} of 1,000,000 frames held a whole datagram, {passed} passed");
    assert!(whole > 100_000 && passed > 10_000);
}

/// A frame with an ARP packet from `source`, whose link address is `OTHER`.
fn arp(operation: u8, source: u32, target: u32) -> Vec<u8> {
    let mut frame = vec![255, 255, 255, 255, 255, 255, 2, 0, 0, 0, 0, 11, 8, 6, 0, 1, 8, 0, 6, 4, 0, operation];
    frame.extend(OTHER);
    frame.extend(source.to_be_bytes());
    frame.extend([0; 6]);
    frame.extend(target.to_be_bytes());
    frame
}

fn heard(n: &mut Neighbours, frame: &[u8], now: Instant) -> Option<neighbours::Heard> {
    let link: Link = link(frame, NONE, &OWN, None).unwrap();
    n.hear(link.carried, &OWN, now)
}

#[test]
fn arp_is_answered_for_the_box_alone() {
    let (now, mut n) = (Instant::now(), Neighbours::new(NEAR.address, NEAR));
    let reply = heard(&mut n, &arp(1, HOST, NEAR.address), now).unwrap().reply.unwrap();
    assert_eq!(reply[..8], [0, 1, 8, 0, 6, 4, 0, 2]);
    assert_eq!((&reply[8..14], four(&reply, 14), &reply[18..24], four(&reply, 24)), (&OWN[..], NEAR.address, &OTHER[..], HOST));
    assert!(heard(&mut n, &arp(1, HOST, HOST + 1), now).unwrap().reply.is_none()); // for another
    assert!(heard(&mut n, &arp(2, HOST, NEAR.address), now).unwrap().reply.is_none()); // an answer
    assert!(heard(&mut n, &arp(1, 0, NEAR.address), now).unwrap().reply.is_some()); // a host tries whether the address is in use
    for wrong in [
        arp(3, HOST, NEAR.address),
        arp(1, NEAR.address, NEAR.address),
        arp(1, FAR.address + 9, NEAR.address),
        arp(1, 0xc000_02ff, NEAR.address),
    ] {
        assert!(heard(&mut n, &wrong, now).is_none());
    }
    let whole = arp(1, HOST, NEAR.address);
    for length in ETHERNET..whole.len() {
        assert!(heard(&mut n, &whole[..length], now).is_none(), "{length}");
    }
}

#[test]
fn hosts_are_asked_for_and_forgotten() {
    let (begin, mut n) = (Instant::now(), Neighbours::new(NEAR.address, NEAR));
    let at = |seconds| begin + Duration::from_secs(seconds);
    let waiting = |octet| Waiting { from: 0, datagram: vec![octet] };
    let known = n.find(HOST, begin).unwrap();
    assert_eq!((known.link, known.ask), (None, Some(EVERYONE)));
    assert_eq!(n.find(HOST, begin).unwrap().ask, None); // once a second
    assert!((1..=4).all(|i| n.keep(HOST, waiting(i)).is_none()));
    assert_eq!(n.keep(HOST, waiting(5)).unwrap().datagram, [1]); // the oldest gives way
    assert_eq!(n.tick(at(1)).1, [HOST]);
    let question = n.question(&OWN, HOST);
    assert_eq!((two(&question, 6), four(&question, 24)), (1, HOST));
    let freed = heard(&mut n, &arp(2, HOST, NEAR.address), at(1)).unwrap().freed;
    assert_eq!(freed.iter().map(|w| w.datagram[0]).collect::<Vec<_>>(), [2, 3, 4, 5]);
    let known = n.find(HOST, at(60)).unwrap();
    assert_eq!((known.link, known.ask), (Some(OTHER), None));
    // after a minute it is asked again, and forgotten where it no longer answers
    for second in 61..64 {
        assert_eq!(n.find(HOST, at(second)).unwrap().ask, Some(OTHER), "{second}");
        assert!(second == 63 || n.tick(at(second)).0.is_empty());
    }
    n.tick(at(64));
    assert_eq!(n.find(HOST, at(64)).unwrap().link, None);
    n.keep(HOST, waiting(9));
    n.find(HOST, at(65));
    n.find(HOST, at(66));
    assert_eq!(n.tick(at(67)).0.len(), 1); // nobody answers: what waited is given up
    assert!((0..1024).all(|i| n.find(i, at(70)).is_some()));
    assert!(n.find(5000, at(70)).is_none()); // no more than so many
}

fn places() -> Vec<Place> {
    [(0, NEAR), (2, FAR)].map(|(number, network)| Place { number, network, own: network.address }).to_vec()
}

#[test]
fn the_longest_prefix_decides() {
    let text = "# a comment\nroute 0.0.0.0/0 port 2 via 198.51.100.9\nroute 10.0.0.0/8 port 0\nroute 10.1.0.0/16 port 2 # longer\nroute 10.1.2.3/32 port 0 via 192.0.2.7\n";
    let routes = Routes::read(text, &places()).unwrap();
    let find = |a: [u8; 4]| routes.find(u32::from_be_bytes(a)).map(|w| (w.port, w.via.map(u32::to_be_bytes)));
    assert_eq!(find([192, 0, 2, 99]), Some((0, None)));
    assert_eq!(find([198, 51, 100, 10]), Some((1, None)));
    assert_eq!(find([10, 9, 9, 9]), Some((0, None)));
    assert_eq!(find([10, 1, 2, 4]), Some((1, None)));
    assert_eq!(find([10, 1, 2, 3]), Some((0, Some([192, 0, 2, 7]))));
    assert_eq!(find([8, 8, 8, 8]), Some((1, Some([198, 51, 100, 9]))));
    let bare = Routes::read("", &places()).unwrap();
    assert_eq!(bare.find(0x0a00_0001), None);
    // against every route one by one
    let (mut random, mut text, mut list) = (Random(5), String::new(), Vec::<(Network, Way)>::new());
    for _ in 0..200 {
        let bits = random.next() as u32 % 33;
        let address = (0xc0a8_0000 | random.next() as u32 & 0xffff) & !Network { address: 0, bits }.host_bits();
        let (prefix, port) = (Network { address, bits }, random.next() as usize % 2);
        if list.iter().all(|r| r.0 != prefix) {
            text += &format!("route {}/{bits} port {}\n", std::net::Ipv4Addr::from(address), places()[port].number);
            list.push((prefix, Way { port, via: None }));
        }
    }
    let routes = Routes::read(&text, &places()).unwrap();
    for _ in 0..20_000 {
        let target = 0xc0a8_0000 | random.next() as u32 & 0xffff;
        let best = list.iter().filter(|r| r.0.has(target)).max_by_key(|r| r.0.bits).map(|r| r.1);
        assert_eq!(routes.find(target), best);
    }
}

#[test]
fn a_bad_route_is_told_with_its_line() {
    for (line, words) in [
        ("rout 10.0.0.0/8 port 0", "expected"),
        ("route 10.0.0.0 port 0", "no /LENGTH"),
        ("route 10.0.0.0/33 port 0", "from 0 to 32"),
        ("route 10.0.0.1/8 port 0", "past its length"),
        ("route 10.0.0/8 port 0", "no IPv4 address"),
        ("route 10.0.0.0/8 port 1", "no port"),
        ("route 10.0.0.0/8 port 0 via 198.51.100.9", "no other host's address"),
        ("route 10.0.0.0/8 port 0 via 192.0.2.1", "no other host's address"),
        ("route 192.0.2.0/24 port 0", "a second route"),
        ("neighbour 192.0.2.9 port 0 link 03:00:00:00:00:01", "no host's link address"),
        ("neighbour 192.0.2.9 port 0 link 2:0:0:0:0:1", "no host's link address"),
        ("neighbour 192.0.2.255 port 0 link 02:00:00:00:00:01", "no other host's address"),
    ] {
        let why = Routes::read(&format!("\n{line}\n"), &places()).unwrap_err();
        assert!(why.starts_with("line 2: ") && why.contains(words), "{line}: {why}");
    }
    let routes = Routes::read("neighbour 192.0.2.9 port 0 link 02:00:00:00:00:09", &places()).unwrap();
    assert_eq!(routes.fixed.get(&(0, 0xc000_0209)), Some(&[2, 0, 0, 0, 0, 9]));
    let many: String = (0..=routes::MOST).map(|i| format!("route 10.{}.{}.0/24 port 0\n", i / 256, i % 256)).collect();
    assert!(Routes::read(&many, &places()).unwrap_err().contains("more than 1024"));
}

#[test]
fn each_wrong_option_has_its_word() {
    let good = "file --port 0 left 192.0.2.1/24 --port 1 right 198.51.100.1/24";
    let read = |text: &str| options::read(&text.split_whitespace().map(String::from).collect::<Vec<_>>());
    let s = read(&format!("{good} --vlan 1 7 --lines 5 --messages 0 --every 3 --json --all --alone --at-once 1 --metrics m --routes r"))
        .unwrap();
    assert_eq!((s.ports[1].vlan, s.lines, s.messages, s.every, s.at_once), (Some(7), 5, 0, Some(Duration::from_secs(3)), 1));
    for (more, words) in [
        ("--evry 3", "\"--evry\" is no option"),
        ("--every", "needs 1 words"),
        ("--every x", "\"x\" is no number of seconds from 1 to 86400"),
        ("--every -3", "is no number of seconds"),
        ("--every +3", "is no number of seconds"),
        ("--every 0", "from 1 to 86400"),
        ("--lines 0", "from 1 to 100000"),
        ("--messages 100001", "from 0 to 100000"),
        ("--at-once 257", "from 1 to 256"),
        ("--every 3 --every 4", "given twice"),
        ("--all --quiet", "exclude each other"),
        ("another", "one word too many"),
        ("--vlan 1 0", "is no VLAN from 1 to 4094"),
        ("--vlan 3 7", "no --port 3"),
        ("--vlan 1 7 --vlan 1 8", "given twice"),
        ("--port 0 third 203.0.113.1/24", "port 0 is given twice"),
        ("--port 2 left 203.0.113.1/24", "interface left is given twice"),
        ("--port 2 third 192.0.2.2/24", "networks of ports 0 and 2 overlap"),
        ("--port 2 third 192.0.2.2/16", "overlap"),
        ("--port 16 third 203.0.113.1/24", "is no port number from 0 to 15"),
        ("--port x third 203.0.113.1/24", "\"x\" is no port number"),
        ("--port 2 ../third 203.0.113.1/24", "no name of an interface"),
        ("--port 2 third 203.0.113.1", "no /LENGTH"),
        ("--port 2 third 203.0.113.255/24", "no address of one host"),
        ("--port 2 third 203.0.113.0/24", "no address of one host"),
        ("--port 2 third 203.0.113.1/33", "from 0 to 32"),
        ("--port 2 third 203.0.113/24", "no IPv4 address"),
    ] {
        let why = read(&format!("{good} {more}")).unwrap_err();
        assert!(why.contains(words), "{more}: {why}");
    }
    for (text, words) in
        [("", "gateway file is missing"), ("file", "two or more"), ("file --port 0 left 192.0.2.1/24", "1 ports are given")]
    {
        assert!(read(text).unwrap_err().contains(words), "{text}");
    }
}

#[test]
fn a_bucket_holds_what_it_is_told() {
    let begin = Instant::now();
    let mut bucket = message::Bucket::new(3, begin);
    let taken = |b: &mut message::Bucket, at: Duration| (0..10).filter(|_| b.take(begin + at)).count();
    assert_eq!(taken(&mut bucket, Duration::ZERO), 3);
    assert_eq!(taken(&mut bucket, Duration::from_millis(400)), 1);
    assert_eq!(taken(&mut bucket, Duration::from_secs(60)), 3);
    assert_eq!(taken(&mut message::Bucket::new(0, begin), Duration::from_secs(60)), 0);
}

#[test]
fn a_refusal_is_told_with_the_near_label() {
    let file = std::fs::read("crates/sample/data/gateway.bin").unwrap();
    let mut out = [0; 256];
    let mut told = |area: &[u8]| {
        let frame = made(area, &[7; 100]);
        let d = parse(&frame).unwrap();
        let slot = decided(&file, (0, 1), d.facts, area);
        let n = message::refused(&d, &library::decision(&slot), NEAR.address, &mut out);
        let header = if n == 0 { 0 } else { usize::from(out[0] & 15) * 4 };
        assert!(n == 0 || (checksum(&out[..header]), checksum(&out[header..n]), four(&out, 16)) == (0, 0, HOST));
        assert!(n == 0 || out[header + 8..n] == [d.header, &[7; 8]].concat());
        (n > 0).then(|| (slot[0], out[FIXED..header].to_vec(), out[header..header + 2].to_vec(), out[header + 4]))
    };
    let high = [0x86, 10, 0, 0, 0, 5, 1, 4, 0, 6, 0, 0];
    assert_eq!(told(&[]), Some((6, vec![], vec![12, 1], 134)));
    assert_eq!(told(&[&[0x94, 4, 0, 0], &high[..]].concat()), Some((14, high.to_vec(), vec![3, 9], 0)));
    assert_eq!(told(&[0x86, 10, 0, 0, 0, 5, 1, 4, 0, 2, 0, 0]).map(|t| t.0), Some(16));
    assert_eq!(told(&[0x86, 10, 0, 0, 0, 9, 1, 4, 0, 3, 0, 0]), None); // 8
    assert_eq!(told(&[0x86, 10, 0, 0, 0, 5, 1, 4, 1, 3, 0, 0]), None); // 11
    assert_eq!(told(&OPTION), None); // passed
}

#[test]
fn fragmentation_needed_has_the_near_label_and_room() {
    let area = [&[0x94, 4, 0, 0], &OPTION[..]].concat();
    let frame = made(&area, &[7; 100]);
    let d = parse(&frame).unwrap();
    let mut out = [0; 256];
    let n = message::too_long(&d, message::room(1500, &area, &[0; 20]), NEAR.address, &mut out);
    let header = FIXED + OPTION.len();
    assert_eq!((usize::from(two(&out, 2)), checksum(&out[..header]), checksum(&out[header..n])), (n, 0, 0));
    assert_eq!((out[9], four(&out, 12), four(&out, 16), &out[FIXED..header]), (1, NEAR.address, HOST, &OPTION[..]));
    assert_eq!((&out[header..header + 2], two(&out, header + 6)), (&[3u8, 4][..], 1496));
    assert_eq!(out[header + 8..n], [d.header, &[7; 8]].concat());
    assert_eq!(message::room(1500, &[0; 16], &[0; 12]), 1500); // one that shrinks
    assert_eq!(
        (message::label(&[1, 1, 1, 0, 0x86, 4, 0, 0]), message::label(&[7, 9, 0]), message::label(&[7])),
        (&[][..], &[][..], &[][..])
    );
    assert_eq!(message::label(&[1, 7, 3, 0, 0x86, 3, 9]), [0x86, 3, 9]);
}

#[test]
fn the_words_are_those_of_the_rules() {
    let rules = std::fs::read_to_string("docs/RULES.md").unwrap();
    let table = rules.split("| No. | Name |").nth(1).unwrap().lines().skip(2);
    let rows: Vec<Vec<&str>> = table.take_while(|l| l.starts_with('|')).map(|l| l.split('|').map(str::trim).collect()).collect();
    assert!(rows.len() >= 19);
    for row in rows {
        assert_eq!(library::words(row[1].parse().unwrap()), row[2], "number {}", row[1]);
    }
}
