//! What the box's own kernel has to say of an interface: its link address and MTU, and the ways on which the kernel itself would carry
//! datagrams past the decision.

use crate::routes::read_link;
use std::fs::{read_to_string, write};
use std::path::Path;

pub struct Link {
    pub own: [u8; 6],
    pub mtu: usize,
    pub up: bool,
}

fn known(name: &str, what: &str) -> Option<String> {
    read_to_string(format!("/sys/class/net/{name}/{what}")).ok().map(|text| text.trim().to_string())
}

/// Link address and MTU of the interface with this index.
pub fn link(name: &str, index: u32) -> Result<Link, String> {
    let told = |what| known(name, what).ok_or(format!("{name}: /sys/class/net/{name}/{what} cannot be read"));
    if told("ifindex")? != index.to_string() {
        return Err(format!("{name}: /sys shows the interfaces of another network namespace"));
    }
    if told("type")? != "1" {
        return Err(format!("{name} is no Ethernet interface"));
    }
    let mtu = told("mtu")?.parse().ok().filter(|m| (68..=65535).contains(m)).ok_or(format!("{name}: its MTU is not from 68 to 65535"))?;
    let flags = u32::from_str_radix(told("flags")?.trim_start_matches("0x"), 16).unwrap_or(0);
    Ok(Link { own: read_link(&told("address")?)?, mtu, up: flags & 1 == 1 })
}

fn switch(path: &str) -> bool {
    read_to_string(format!("/proc/sys/net/{path}")).is_ok_and(|text| text.trim() != "0")
}

/// The ways past the box that are open, in words, each with the switch that closes it, if a switch does.
fn ways(name: &str) -> Vec<(String, Option<(String, &'static str)>)> {
    let conf = |family: &str, what: &str| format!("{family}/conf/{name}/{what}");
    let (v4, v6, mpls) = (conf("ipv4", "forwarding"), conf("ipv6", "disable_ipv6"), conf("mpls", "input"));
    let there = |path: &str| Path::new(&format!("/proc/sys/net/{path}")).exists();
    let v6_forwards = switch("ipv6/conf/all/forwarding") || switch(&conf("ipv6", "force_forwarding"));
    let every = [
        (!there(&v4), format!("whether the kernel forwards what comes in by {name} is unknown: /proc/sys/net/{v4} is missing"), None),
        (
            switch(&v4),
            format!("the kernel forwards IPv4 that comes in by {name} (net.ipv4.conf.{name}.forwarding is not 0)"),
            Some((v4.clone(), "0")),
        ),
        (
            v6_forwards && there(&v6) && !switch(&v6),
            format!("the kernel forwards IPv6 that comes in by {name} (net.ipv6.conf.all.forwarding is not 0)"),
            Some((v6.clone(), "1")),
        ),
        (
            switch(&mpls),
            format!("the kernel forwards MPLS that comes in by {name} (net.mpls.conf.{name}.input is not 0)"),
            Some((mpls.clone(), "0")),
        ),
        (switch(&conf("ipv4", "mc_forwarding")), format!("a multicast router runs on {name} (mc_forwarding is not 0)"), None),
        (
            Path::new(&format!("/sys/class/net/{name}/master")).exists(),
            format!("{name} belongs to a bridge, a bond or a virtual router, which carries frames by itself"),
            None,
        ),
    ];
    every.into_iter().filter(|way| way.0).map(|(_, words, close)| (words, close)).collect()
}

/// The ways past the box that are open, in words. With `alone` those that a switch closes are closed, and told in `closed`.
pub fn open_ways(name: &str, alone: bool, closed: &mut Vec<String>) -> Vec<String> {
    let mut open = Vec::new();
    for (words, close) in ways(name) {
        match close {
            Some((path, value)) if alone && write(format!("/proc/sys/net/{path}"), value).is_ok() => closed.push(words + ": switched off"),
            _ => open.push(words),
        }
    }
    open
}

/// Whether the kernel has a route by the interface, or an IPv6 address on it: it would answer there for itself.
pub fn speaks(name: &str) -> bool {
    let names = |file: &str, at: usize| -> Vec<String> {
        let text = read_to_string(file).unwrap_or_default();
        text.lines().filter_map(|line| line.split_whitespace().nth(at).map(String::from)).collect()
    };
    names("/proc/net/route", 0).iter().chain(&names("/proc/net/if_inet6", 5)).any(|n| n == name)
}
