//! The command line. Each mistake has its word: what was given, and what was expected.

use crate::frame::Network;
use crate::routes::{read_network, Place};
use std::time::Duration;

pub const USAGE: &str = "box GATEWAYFILE --port NUMBER INTERFACE ADDRESS/LENGTH --port NUMBER INTERFACE ADDRESS/LENGTH ... [options]

  --port NUMBER INTERFACE ADDRESS/LENGTH
                     a port of the gateway file (from 0), its interface, and the box's own address with the length of its network; two or more
  --vlan NUMBER ID   this port's frames are those of VLAN ID (1 to 4094), and no others; without it, untagged ones and no others
  --routes FILE      lines \"route PREFIX/LENGTH port NUMBER [via ADDRESS]\" and \"neighbour ADDRESS port NUMBER link LINKADDRESS\";
                     each port's own network is a route already
  --alone            switch off what the kernel would itself forward of these interfaces; without it the box then does not start
  --all, --quiet     tell datagrams that pass too, or none
  --json             tell each as one JSON object a line
  --lines N          at most N such lines a second (1 to 100000; 200 where it is not said); the others are counted
  --messages N       at most N ICMP messages a second, and N at once after a pause (0 to 100000; 100 where it is not said)
  --metrics FILE     write the counters there once a second, in Prometheus' text form
  --every SECONDS    tell the counters so often (1 to 86400)
  --at-once N        take at most N frames at once (1 to 256; 256 where it is not said)
  --times            measure the processor time of each part of the work

SIGUSR1 tells the counters; SIGHUP reads gateway file and routes again, and keeps the old ones where the new are refused; SIGTERM and SIGINT
tell the counters and end the box.";

/// What is told of each datagram.
#[derive(Clone, Copy, Debug, Default, PartialEq, Eq)]
pub enum Tell {
    Nothing,
    #[default]
    Drops,
    All,
}

#[derive(Clone, Debug)]
pub struct PortWords {
    pub place: Place,
    pub interface: String,
    pub vlan: Option<u16>,
}

#[derive(Clone, Debug, Default)]
pub struct Settings {
    pub file: String,
    pub routes: Option<String>,
    pub ports: Vec<PortWords>,
    pub alone: bool,
    pub tell: Tell,
    pub json: bool,
    pub lines: u32,
    pub messages: u32,
    pub metrics: Option<String>,
    pub every: Option<Duration>,
    pub at_once: usize,
    pub times: bool,
}

fn number(word: &str, what: &str, low: u32, high: u32) -> Result<u32, String> {
    let digits = !word.is_empty() && word.bytes().all(|b| b.is_ascii_digit());
    word.parse().ok().filter(|n| digits && (low..=high).contains(n)).ok_or(format!("\"{word}\" is no {what} from {low} to {high}"))
}

fn read_port(words: &[String]) -> Result<PortWords, String> {
    let place = number(&words[0], "port number", 0, 15)? as usize;
    let name = &words[1];
    if name.is_empty() || name.len() > 15 || name.contains('/') || name.starts_with('.') {
        return Err(format!("\"{name}\" is no name of an interface"));
    }
    let network: Network = read_network(&words[2])?;
    let own = network.address;
    if network.broadcast(own) || network.lowest(own) || matches!(own >> 24, 0 | 127 | 224..) || network.bits < 8 {
        return Err(format!("\"{}\" is no address of one host on a network, as 192.0.2.1/24", words[2]));
    }
    Ok(PortWords { place: Place { number: place, network, own }, interface: name.clone(), vlan: None })
}

/// Holds a further port against those before it.
fn beside(ports: &[PortWords], new: &PortWords) -> Result<(), String> {
    for old in ports {
        let (a, b) = (old.place, new.place);
        if a.number == b.number {
            return Err(format!("port {} is given twice", a.number));
        }
        if old.interface == new.interface {
            return Err(format!("interface {} is given twice", old.interface));
        }
        if a.network.has(b.own) || b.network.has(a.own) {
            return Err(format!("the networks of ports {} and {} overlap", a.number, b.number));
        }
    }
    Ok(())
}

pub fn read(words: &[String]) -> Result<Settings, String> {
    let mut file = None;
    let mut s = Settings { lines: 200, messages: 100, at_once: 256, ..Settings::default() };
    let (mut vlans, mut said) = (Vec::new(), Vec::<&str>::new());
    let mut at = 0;
    while at < words.len() {
        let word = words[at].as_str();
        let takes = match word {
            "--port" => 3,
            "--vlan" => 2,
            "--routes" | "--lines" | "--messages" | "--metrics" | "--every" | "--at-once" => 1,
            "--alone" | "--all" | "--quiet" | "--json" | "--times" => 0,
            _ if word.starts_with('-') => return Err(format!("\"{word}\" is no option of the box")),
            _ => {
                if let Some(old) = file.replace(word.to_string()) {
                    return Err(format!("\"{word}\" is one word too many: the gateway file is {old}"));
                }
                at += 1;
                continue;
            }
        };
        let rest = words.get(at + 1..at + 1 + takes).ok_or(format!("{word} needs {takes} words behind it"))?;
        if said.contains(&word) && takes < 2 {
            return Err(format!("{word} is given twice"));
        }
        said.push(word);
        set(&mut s, word, rest, &mut vlans).map_err(|why| format!("{word}: {why}"))?;
        at += 1 + takes;
    }
    s.file = file.ok_or("the gateway file is missing")?;
    if s.ports.len() < 2 {
        return Err(format!("{} ports are given; a gateway has two or more", s.ports.len()));
    }
    for (place, id) in vlans {
        let port = s.ports.iter_mut().find(|p| p.place.number == place).ok_or(format!("--vlan: there is no --port {place}"))?;
        if port.vlan.replace(id).is_some() {
            return Err(format!("--vlan: port {place} is given twice"));
        }
    }
    Ok(s)
}

fn set(s: &mut Settings, word: &str, rest: &[String], vlans: &mut Vec<(usize, u16)>) -> Result<(), String> {
    match word {
        "--port" => {
            let port = read_port(rest)?;
            beside(&s.ports, &port)?;
            s.ports.push(port);
        }
        "--vlan" => vlans.push((number(&rest[0], "port number", 0, 15)? as usize, number(&rest[1], "VLAN", 1, 4094)? as u16)),
        "--routes" => s.routes = Some(rest[0].clone()),
        "--lines" => s.lines = number(&rest[0], "number of lines", 1, 100_000)?,
        "--messages" => s.messages = number(&rest[0], "number of messages", 0, 100_000)?,
        "--metrics" => s.metrics = Some(rest[0].clone()),
        "--every" => s.every = Some(Duration::from_secs(number(&rest[0], "number of seconds", 1, 86_400)?.into())),
        "--at-once" => s.at_once = number(&rest[0], "number of frames", 1, 256)? as usize,
        "--alone" => s.alone = true,
        "--json" => s.json = true,
        "--times" => s.times = true,
        _ if s.tell != Tell::Drops => return Err("--all and --quiet exclude each other".into()),
        "--all" => s.tell = Tell::All,
        _ => s.tell = Tell::Nothing,
    }
    Ok(())
}
