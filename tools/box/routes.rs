//! Routes and fixed neighbours, from a text file; and which port a destination leaves by.
//!
//! The longest prefix is chosen here, in Rust. The proved library chooses it too (`route_decide`), but its call for Rust takes two ports: so a
//! destination without a route is dropped before the decision and has no number 22. docs/DECISIONS.md says what is to come.

use crate::frame::Network;
use std::collections::HashMap;
use std::net::Ipv4Addr;

/// As many as the library's plan takes.
pub const MOST: usize = 1024;

/// How a destination is reached: the place of its port, and the next hop where it is not on the port's own network.
#[derive(Clone, Copy, Debug, PartialEq, Eq)]
pub struct Way {
    pub port: usize,
    pub via: Option<u32>,
}

/// The ports' numbers, networks and own addresses, as routes are held against them.
#[derive(Clone, Copy, Debug)]
pub struct Place {
    pub number: usize,
    pub network: Network,
    pub own: u32,
}

#[derive(Debug)]
pub struct Routes {
    /// by prefix length, sorted by prefix
    lengths: [Vec<(u32, Way)>; 33],
    /// link addresses that are not asked for, by the place of the port and the address
    pub fixed: HashMap<(usize, u32), [u8; 6]>,
}

impl Routes {
    /// The way of the longest prefix that the destination has.
    pub fn find(&self, target: u32) -> Option<Way> {
        (0..=32u32).rev().zip(self.lengths.iter().rev()).filter(|(_, list)| !list.is_empty()).find_map(|(bits, list)| {
            let prefix = target & !Network { address: 0, bits }.host_bits();
            list.binary_search_by_key(&prefix, |r| r.0).ok().map(|at| list[at].1)
        })
    }

    fn add(&mut self, prefix: Network, way: Way) -> Result<(), String> {
        let list = &mut self.lengths[prefix.bits as usize];
        match list.binary_search_by_key(&prefix.address, |r| r.0) {
            Ok(_) => Err(format!("a second route for {}/{}", Ipv4Addr::from(prefix.address), prefix.bits)),
            Err(at) => {
                list.insert(at, (prefix.address, way));
                Ok(())
            }
        }
    }

    /// Each port's own network, and what the text says. A mistake is told with its line's number.
    pub fn read(text: &str, places: &[Place]) -> Result<Routes, String> {
        let mut routes = Routes { lengths: [const { Vec::new() }; 33], fixed: HashMap::new() };
        for (port, place) in places.iter().enumerate() {
            let address = place.network.address & !place.network.host_bits();
            routes.add(Network { address, ..place.network }, Way { port, via: None })?;
        }
        for (at, line) in text.lines().enumerate() {
            routes.line(line.split('#').next().unwrap_or(""), places).map_err(|why| format!("line {}: {why}", at + 1))?;
            if routes.lengths.iter().map(Vec::len).sum::<usize>() > MOST || routes.fixed.len() > MOST {
                return Err(format!("line {}: more than {MOST} routes or neighbours", at + 1));
            }
        }
        Ok(routes)
    }

    fn line(&mut self, line: &str, places: &[Place]) -> Result<(), String> {
        let port = |word: &str| {
            let found = word.parse().ok().and_then(|n: usize| places.iter().position(|p| p.number == n));
            found.ok_or(format!("\"{word}\" is no port that the box has an interface for"))
        };
        match line.split_whitespace().collect::<Vec<_>>()[..] {
            [] => Ok(()),
            ["route", prefix, "port", number] => self.add(read_prefix(prefix)?, Way { port: port(number)?, via: None }),
            ["route", prefix, "port", number, "via", hop] => {
                let way = Way { port: port(number)?, via: Some(read_address(hop)?) };
                on_link(hop, way.via, &places[way.port])?;
                self.add(read_prefix(prefix)?, way)
            }
            ["neighbour", address, "port", number, "link", link] => {
                let (at, known) = (port(number)?, read_address(address)?);
                on_link(address, Some(known), &places[at])?;
                match self.fixed.insert((at, known), read_link(link)?) {
                    Some(_) => Err(format!("a second link address for {address}")),
                    None => Ok(()),
                }
            }
            _ => {
                Err("expected \"route PREFIX/LENGTH port NUMBER [via ADDRESS]\" or \"neighbour ADDRESS port NUMBER link LINKADDRESS\""
                    .into())
            }
        }
    }
}

fn on_link(word: &str, address: Option<u32>, place: &Place) -> Result<(), String> {
    let network = place.network;
    if address.is_some_and(|a| network.has(a) && a != place.own && !network.broadcast(a) && !network.lowest(a)) {
        return Ok(());
    }
    Err(format!("{word} is no other host's address on port {}'s network", place.number))
}

pub fn read_address(word: &str) -> Result<u32, String> {
    word.parse::<Ipv4Addr>().map(u32::from).map_err(|_| format!("\"{word}\" is no IPv4 address, as 192.0.2.1"))
}

/// An address and a number of bits.
pub fn read_network(word: &str) -> Result<Network, String> {
    let (address, bits) = word.split_once('/').ok_or(format!("\"{word}\" has no /LENGTH, as 192.0.2.1/24"))?;
    let address = read_address(address)?;
    let bits = bits.parse().ok().filter(|b| *b <= 32).ok_or(format!("\"{bits}\" is no prefix length from 0 to 32"))?;
    Ok(Network { address, bits })
}

fn read_prefix(word: &str) -> Result<Network, String> {
    let network = read_network(word)?;
    if network.address & network.host_bits() != 0 {
        return Err(format!("{word} has a bit set past its length"));
    }
    Ok(network)
}

/// A host's link address: six octets in hex, none of them a group's.
pub fn read_link(word: &str) -> Result<[u8; 6], String> {
    let octet = |o: &str| (o.len() == 2).then(|| u8::from_str_radix(o, 16).ok()).flatten();
    let octets: Option<Vec<u8>> = word.split(':').map(octet).collect();
    let link: Option<[u8; 6]> = octets.and_then(|o| o.try_into().ok());
    link.filter(|l| l[0] & 1 == 0 && *l != [0; 6]).ok_or(format!("\"{word}\" is no host's link address, as 02:00:00:00:02:0a"))
}
