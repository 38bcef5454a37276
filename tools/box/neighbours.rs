//! The link addresses of the hosts on one interface: asked and answered as RFC 826 has it, within the bounds of RFC 1122, section 2.3.2.

use crate::frame::{four, two, Network, IPV4};
use std::collections::HashMap;
use std::time::{Duration, Instant};

/// Octets of an ARP packet for IPv4 over Ethernet.
pub const PACKET: usize = 28;
pub const EVERYONE: [u8; 6] = [255; 6];
/// At most so many hosts are known or asked for, and so many datagrams wait for each.
const HOSTS: usize = 1024;
const WAITING: usize = 4;
/// A host is asked again after so long, at most once a second, and given up after so many questions.
const FRESH: Duration = Duration::from_secs(60);
const AGAIN: Duration = Duration::from_secs(1);
const QUESTIONS: u32 = 3;

/// A leaving datagram that waits for its next hop, and the place of the port that it came in by.
#[derive(Debug)]
pub struct Waiting {
    pub from: usize,
    pub datagram: Vec<u8>,
}

#[derive(Debug)]
struct Host {
    link: Option<[u8; 6]>,
    heard: Instant,
    asked: Option<Instant>,
    questions: u32,
    waiting: Vec<Waiting>,
}

/// What is known of an address.
#[derive(Debug, PartialEq, Eq)]
pub struct Known {
    pub link: Option<[u8; 6]>,
    /// whom to send a question to, if it is time for one
    pub ask: Option<[u8; 6]>,
}

/// What an ARP packet leads to: a reply, and datagrams that waited for its sender.
#[derive(Debug, Default)]
pub struct Heard {
    pub reply: Option<[u8; PACKET]>,
    pub freed: Vec<Waiting>,
    pub link: [u8; 6],
}

#[derive(Debug)]
pub struct Neighbours {
    own: u32,
    network: Network,
    hosts: HashMap<u32, Host>,
}

impl Neighbours {
    pub fn new(own: u32, network: Network) -> Neighbours {
        Neighbours { own, network, hosts: HashMap::new() }
    }

    /// The link address of a host on this network, and whether to ask for it. None where no more hosts can be asked for.
    pub fn find(&mut self, address: u32, now: Instant) -> Option<Known> {
        if self.hosts.len() >= HOSTS && !self.hosts.contains_key(&address) {
            return None;
        }
        let new = || Host { link: None, heard: now, asked: None, questions: 0, waiting: Vec::new() };
        let host = self.hosts.entry(address).or_insert_with(new);
        let due = host.link.is_none() || now.duration_since(host.heard) >= FRESH;
        let ask = due && host.asked.is_none_or(|a| now.duration_since(a) >= AGAIN);
        if ask {
            (host.asked, host.questions) = (Some(now), host.questions + 1);
        }
        // a host that was known is asked by itself, others are looked for among all
        Some(Known { link: host.link, ask: ask.then(|| host.link.unwrap_or(EVERYONE)) })
    }

    /// Keeps a datagram until its next hop answers; the oldest gives way, and is handed back.
    pub fn keep(&mut self, address: u32, new: Waiting) -> Option<Waiting> {
        let Some(host) = self.hosts.get_mut(&address) else { return Some(new) };
        host.waiting.push(new);
        (host.waiting.len() > WAITING).then(|| host.waiting.remove(0))
    }

    /// Forgets hosts that did not answer, or were not spoken to for long. Answers the datagrams that waited for them, and whom to ask again.
    pub fn tick(&mut self, now: Instant) -> (Vec<Waiting>, Vec<u32>) {
        let (mut lost, mut again) = (Vec::new(), Vec::new());
        self.hosts.retain(|address, host| {
            let late = host.asked.is_some_and(|a| now.duration_since(a) >= AGAIN);
            let silent = host.questions >= QUESTIONS && late;
            let old = host.questions == 0 && now.duration_since(host.heard) >= 2 * FRESH;
            if silent || old {
                lost.append(&mut host.waiting);
            } else if late && !host.waiting.is_empty() {
                again.push(*address);
            }
            !silent && !old
        });
        (lost, again)
    }

    /// A question for an address.
    pub fn question(&self, link: &[u8; 6], address: u32) -> [u8; PACKET] {
        packet(1, (link, self.own), (&[0; 6], address))
    }

    /// Takes an ARP packet: RFC 826's algorithm. None where it is damaged or not about this network.
    pub fn hear(&mut self, octets: &[u8], link: &[u8; 6], now: Instant) -> Option<Heard> {
        if octets.len() < PACKET || octets[..6] != [0, 1, (IPV4 >> 8) as u8, IPV4 as u8, 6, 4] {
            return None;
        }
        let mut from = [0; 6];
        from.copy_from_slice(&octets[8..14]);
        let (operation, source, target) = (two(octets, 6), four(octets, 14), four(octets, 24));
        let probe = source == 0; // a host that tries whether an address is in use (RFC 5227)
        let known = self.hosts.contains_key(&source);
        let near = self.network.has(source) && !self.network.broadcast(source) && !self.network.lowest(source);
        if !matches!(operation, 1 | 2) || from[0] & 1 == 1 || from == [0; 6] || source == self.own || !(near || known || probe) {
            return None;
        }
        let mut heard = Heard { link: from, ..Heard::default() };
        let mine = target == self.own;
        if !probe && (known || (mine && self.hosts.len() < HOSTS)) {
            let new = Host { link: Some(from), heard: now, asked: None, questions: 0, waiting: Vec::new() };
            heard.freed = self.hosts.insert(source, new).map_or(Vec::new(), |old| old.waiting);
        }
        if mine && operation == 1 {
            heard.reply = Some(packet(2, (link, self.own), (&from, source)));
        }
        Some(heard)
    }
}

fn packet(operation: u8, from: (&[u8; 6], u32), to: (&[u8; 6], u32)) -> [u8; PACKET] {
    let mut out = [0; PACKET];
    out[..8].copy_from_slice(&[0, 1, (IPV4 >> 8) as u8, IPV4 as u8, 6, 4, 0, operation]);
    for (at, (link, address)) in [(8, from), (18, to)] {
        out[at..at + 6].copy_from_slice(link);
        out[at + 6..at + 10].copy_from_slice(&address.to_be_bytes());
    }
    out
}
