//! A label gateway between the networks of two or more interfaces. The proved library decides; this program takes frames in, states what it
//! sees of them, and sends on what the library passes with the options area that the library wrote.
//!
//! What this program is trusted with:
//!   - that a frame which is not for the box, tagged for another VLAN or damaged is dropped, and a whole one is cut into header, options area
//!     and payload where the header says (frame.rs, `link` and `parse`);
//!   - that the five facts are stated as the frame and the header have them (frame.rs, `state`);
//!   - that the destination's port is the one of its longest prefix (routes.rs, `find`): the proved plan for routes has no call for Rust yet;
//!   - that the file, the two ports' numbers and the areas reach the library, and each decision its own datagram (below, `turn` and `pass`);
//!   - that nothing leaves by a port but what the library answered 0 to for that port, with the leaving area in the place of the old one, the
//!     time to live one less, and length and checksum made anew (frame.rs, `rebuild`); ARP packets (neighbours.rs); and ICMP messages to the
//!     sender of a datagram, by the port that it came in by, with the message and the options area that the library wrote (message.rs; the MTU
//!     of 3/4 is written there);
//!   - that the kernel's own forwarding is off when the box starts, and told of when it is switched on later (kernel.rs).
//!
//! What can pass a datagram on wrongly stands in frame.rs, library.rs, routes.rs and, below, `turn`, `sort`, `pass` and `leave`. The rest can stop the
//! traffic, or tell something wrong, and no more: but for kernel.rs, which sees to it that there is no way past the box.
//!
//! The library's calls need up to 224 KB of stack: they are made on a thread with 4 MB, whatever the limit of the shell is.

#![deny(unsafe_code)]

mod frame;
mod kernel;
mod library;
mod message;
mod neighbours;
mod options;
mod output;
mod routes;
#[allow(unsafe_code)]
mod system;

use frame::{Datagram, Fault, Network, Seen};
use library::SLOT;
use neighbours::{Neighbours, Waiting};
use options::{PortWords, Settings};
use output::Output;
use routes::{Routes, Way};
use std::io::Read;
use std::sync::mpsc::{channel, Receiver};
use std::time::{Duration, Instant};
use system::{Frames, Interface};

const STACK: usize = 4 << 20;
const SECOND: Duration = Duration::from_secs(1);
/// Octets before the datagram in a leaving frame: Ethernet's header and room for a tag.
const BEFORE: usize = frame::ETHERNET + frame::TAG;
/// More octets than the longest gateway file or routes file has.
const LONGEST_FILE: u64 = 1 << 20;

/// What SIGHUP puts another in the place of.
struct Plan {
    file: Vec<u8>,
    routes: Routes,
}

fn read_file(name: &str) -> Result<Vec<u8>, String> {
    let told = |e: std::io::Error| format!("{name}: {e}");
    if !std::fs::metadata(name).map_err(told)?.is_file() {
        return Err(format!("{name} is no regular file"));
    }
    let mut octets = Vec::new();
    std::fs::File::open(name).map_err(told)?.take(LONGEST_FILE).read_to_end(&mut octets).map_err(told)?;
    Ok(octets)
}

/// Reads the gateway file and the routes, and holds both against the ports.
fn load(settings: &Settings) -> Result<Plan, String> {
    let name = &settings.file;
    let file = read_file(name)?;
    // 2 is answered to every datagram where the file is refused or has no port of that number
    let unsound = |from: usize, to: usize| {
        let mut slot = [0; SLOT];
        system::forward(&file, from, to, &[0; SLOT], &mut slot) != 1 || library::decision(&slot).number == 2
    };
    let numbers: Vec<usize> = settings.ports.iter().map(|p| p.place.number).collect();
    let missing: Vec<String> = numbers.iter().filter(|n| unsound(**n, **n)).map(usize::to_string).collect();
    if missing.len() == numbers.len() {
        return Err(format!("gateway file {name} is refused: tools/gateway-file file-to-text says at which octet"));
    }
    if !missing.is_empty() {
        return Err(format!("gateway file {name} has no port {}", missing.join(" and no port ")));
    }
    if numbers.iter().any(|from| numbers.iter().any(|to| unsound(*from, *to))) {
        return Err(format!("gateway file {name} has a pair of ports that the library finds unsound"));
    }
    let places: Vec<_> = settings.ports.iter().map(|p| p.place).collect();
    let routes = match &settings.routes {
        None => Routes::read("", &places)?,
        Some(name) => {
            let text = String::from_utf8(read_file(name)?).map_err(|_| format!("routes file {name} is no text"))?;
            Routes::read(&text, &places).map_err(|why| format!("routes file {name}: {why}"))?
        }
    };
    Ok(Plan { file, routes })
}

/// An interface that is there.
struct Live {
    interface: Interface,
    link: kernel::Link,
}

fn open(name: &str) -> Result<Live, String> {
    let interface = system::open(name).map_err(|e| format!("{name}: {e}"))?;
    let link = kernel::link(name, interface.index)?;
    Ok(Live { interface, link })
}

struct Port {
    words: PortWords,
    live: Option<Live>,
    neighbours: Neighbours,
}

/// The buffers of one turn.
struct Buffers {
    taken: Frames,
    made: Frames,
    records: Vec<u8>,
    slots: Vec<u8>,
    mtu: usize,
}

impl Buffers {
    fn new(count: usize, mtu: usize) -> Buffers {
        let frames = || Frames::new(count, BEFORE + mtu);
        Buffers { taken: frames(), made: frames(), records: vec![0; count * SLOT], slots: vec![0; count * SLOT], mtu }
    }
}

/// A frame that came in: a datagram with the way that it would leave, nothing more to do (ARP), or a fault, with the datagram if it was whole.
type Sorted<'a> = Result<Option<(Datagram<'a>, Way)>, (Fault, Option<Datagram<'a>>)>;

struct Gateway {
    settings: Settings,
    plan: Plan,
    ports: Vec<Port>,
    networks: Vec<Network>,
    output: Output,
    messages: message::Bucket,
    single: Frames,
    open_ways: Vec<String>,
}

impl Gateway {
    /// Takes what waits at a port, decides it, sends what passes. Answers whether there was anything.
    fn turn(&mut self, from: usize, b: &mut Buffers) -> bool {
        let times = self.settings.times;
        let clock = || if times { system::processor_time() } else { Duration::ZERO };
        let begun = clock();
        let Some(live) = &self.ports[from].live else { return false };
        // an interface that is down or gone is told of by `look_around`
        let n = live.interface.receive(&mut b.taken, self.settings.at_once).unwrap_or(0);
        if n == 0 {
            return false;
        }
        let now = Instant::now();
        let mut leaving: Vec<Vec<(Datagram, Way)>> = vec![Vec::new(); self.ports.len()];
        for i in 0..n {
            match self.sort(from, b.taken.frame(i), b.taken.seen(i), now) {
                Ok(Some((datagram, way))) => leaving[way.port].push((datagram, way)),
                Ok(None) => (),
                Err((fault, datagram)) => self.output.fault(now, from, fault, 1, datagram.as_ref()),
            }
        }
        self.output.counters.taking += clock() - begun;
        for (to, datagrams) in leaving.iter().enumerate().filter(|l| !l.1.is_empty()) {
            let asked = clock();
            let size = datagrams.len() * SLOT;
            for ((datagram, _), record) in datagrams.iter().zip(b.records.chunks_mut(SLOT)) {
                library::put_record(datagram.facts, datagram.area(), record);
            }
            let (arriving, leaving) = (self.ports[from].words.place.number, self.ports[to].words.place.number);
            let decided = system::forward(&self.plan.file, arriving, leaving, &b.records[..size], &mut b.slots[..size]);
            let answered = clock();
            self.pass(from, to, datagrams, &b.slots[..decided * SLOT], &mut b.made, now);
            self.output.counters.deciding += answered - asked;
            self.output.counters.sending += clock() - answered;
        }
        self.output.counters.turns += 1;
        true
    }

    fn sort<'a>(&mut self, from: usize, frame: &'a [u8], seen: Seen, now: Instant) -> Sorted<'a> {
        let port = &self.ports[from];
        let Some(live) = &port.live else { return Ok(None) };
        let link = frame::link(frame, seen, &live.link.own, port.words.vlan).map_err(|f| (f, None))?;
        if link.kind == frame::ARP {
            return if self.hear(from, link.carried, now) { Ok(None) } else { Err((Fault::Arp, None)) };
        }
        let datagram = frame::parse(&link, seen, live.link.mtu, &self.networks).map_err(|f| (f, None))?;
        let target = datagram.target();
        if self.networks.iter().any(|n| n.address == target) {
            return Err((Fault::OwnAddress, Some(datagram)));
        }
        match self.plan.routes.find(target) {
            // a directed broadcast has a way, and gets a number; a group has none
            Some(way) if !matches!(target >> 28, 14 | 15) => Ok(Some((datagram, way))),
            _ => Err((if datagram.facts.group { Fault::Group } else { Fault::NoRoute }, Some(datagram))),
        }
    }

    /// Sends on the datagrams that the library answered 0 to.
    fn pass(&mut self, from: usize, to: usize, datagrams: &[(Datagram, Way)], slots: &[u8], made: &mut Frames, now: Instant) {
        let mut count = 0;
        for ((datagram, way), slot) in datagrams.iter().zip(slots.chunks(SLOT)) {
            let decision = library::decision(slot);
            self.output.counters.direction(from, to).numbers[usize::from(decision.number)] += 1;
            if decision.number != 0 {
                self.output.decision(now, from, to, datagram, &decision);
                if decision.kind != 0 {
                    self.tell_sender(from, datagram, now, |own, out| message::refused(datagram, &decision, own, out));
                }
                continue;
            }
            match self.leave(from, datagram, *way, decision.area, made.room(count), now) {
                Ok(length) => {
                    self.output.decision(now, from, to, datagram, &decision);
                    if let Some(length) = length {
                        made.lengths[count] = length;
                        count += 1;
                    }
                }
                Err(fault) => {
                    self.output.fault(now, from, fault, 1, Some(datagram));
                    let mtu = self.ports[to].live.as_ref().map_or(0, |l| l.link.mtu);
                    if fault == Fault::Mtu && datagram.must_stay_whole() {
                        let room = message::room(mtu, datagram.area(), decision.area);
                        self.tell_sender(from, datagram, now, |own, out| message::too_long(datagram, room, own, out));
                    }
                }
            }
        }
        let went = self.ports[to].live.as_ref().map_or(0, |l| l.interface.send(made, count).iter().filter(|w| **w).count());
        self.output.counters.direction(from, to).sent += went as u64;
        self.output.fault(now, from, Fault::Unsent, count - went, None);
    }

    /// Makes the leaving frame in `out`. Answers its length, or nothing where it waits for its next hop's link address.
    fn leave(&mut self, from: usize, d: &Datagram, way: Way, area: &[u8], out: &mut [u8], now: Instant) -> Result<Option<usize>, Fault> {
        // RFC 1812, sections 5.3.4 and 5.3.5: what came to all on a link, or is for all on one, is not sent on
        if d.facts.group || d.facts.link {
            return Err(Fault::Group);
        }
        let port = &self.ports[way.port];
        let live = port.live.as_ref().ok_or(Fault::Unsent)?;
        let start = frame::put_link(&[0; 6], &live.link.own, port.words.vlan, frame::IPV4, out);
        let length = start + frame::rebuild(d, area, live.link.mtu, &mut out[start..])?;
        let hop = way.via.unwrap_or(d.target());
        match self.resolve(way.port, hop, now)? {
            Some(link) => {
                out[..6].copy_from_slice(&link);
                Ok(Some(length))
            }
            None => {
                let over = self.ports[way.port].neighbours.keep(hop, Waiting { from, datagram: out[start..length].to_vec() });
                if let Some(over) = over {
                    self.output.fault(now, over.from, Fault::Unanswered, 1, None);
                }
                Ok(None)
            }
        }
    }

    /// The link address of a next hop, which is asked for where it is not known.
    fn resolve(&mut self, to: usize, hop: u32, now: Instant) -> Result<Option<[u8; 6]>, Fault> {
        if let Some(link) = self.plan.routes.fixed.get(&(to, hop)) {
            return Ok(Some(*link));
        }
        let known = self.ports[to].neighbours.find(hop, now).ok_or(Fault::Unanswered)?;
        if let (Some(whom), Some(live)) = (known.ask, &self.ports[to].live) {
            let question = self.ports[to].neighbours.question(&live.link.own, hop);
            self.send_one(to, &whom, frame::ARP, |out| put(&question, out));
        }
        Ok(known.link)
    }

    /// An ARP packet: answered where it asks for the box, and what waited for its sender leaves. Answers whether it was a sound one.
    fn hear(&mut self, at: usize, octets: &[u8], now: Instant) -> bool {
        let port = &mut self.ports[at];
        let Some(live) = &port.live else { return true };
        let Some(heard) = port.neighbours.hear(octets, &live.link.own, now) else { return false };
        if let Some(reply) = heard.reply {
            self.send_one(at, &heard.link, frame::ARP, |out| put(&reply, out));
        }
        for waiting in heard.freed {
            let went = self.send_one(at, &heard.link, frame::IPV4, |out| put(&waiting.datagram, out));
            self.output.counters.direction(waiting.from, at).sent += u64::from(went);
            self.output.fault(now, waiting.from, Fault::Unsent, usize::from(!went), None);
        }
        true
    }

    /// Sends one frame that `make` writes the inside of.
    fn send_one(&mut self, at: usize, to: &[u8; 6], kind: u16, make: impl FnOnce(&mut [u8]) -> usize) -> bool {
        let port = &self.ports[at];
        let Some(live) = &port.live else { return false };
        let out = self.single.room(0);
        let start = frame::put_link(to, &live.link.own, port.words.vlan, kind, out);
        self.single.lengths[0] = start + make(&mut out[start..]);
        live.interface.send(&mut self.single, 1) == [true]
    }

    /// An ICMP message to the sender of a datagram, if there is one to send and the bucket has room.
    fn tell_sender(&mut self, from: usize, datagram: &Datagram, now: Instant, make: impl FnOnce(u32, &mut [u8]) -> usize) {
        if datagram.facts.silence() || datagram.from[0] & 1 == 1 {
            return;
        }
        let mut out = [0; message::LONGEST];
        let length = make(self.ports[from].words.place.own, &mut out);
        if length == 0 {
            return;
        }
        if !self.messages.take(now) {
            self.output.counters.messages_held += 1;
            return;
        }
        let went = self.send_one(from, &datagram.from, frame::IPV4, |room| put(&out[..length], room));
        self.output.counters.messages += u64::from(went);
    }

    /// Once a second: what became of the interfaces, of the kernel's switches and of the hosts that were asked for.
    fn look_around(&mut self, now: Instant) {
        for at in 0..self.ports.len() {
            self.look_at_interface(at, now);
            let (lost, again) = self.ports[at].neighbours.tick(now);
            for waiting in lost {
                self.output.fault(now, waiting.from, Fault::Unanswered, 1, None);
            }
            for hop in again {
                let _ = self.resolve(at, hop, now);
            }
        }
        let (mut open, mut closed) = (Vec::new(), Vec::new());
        for port in self.ports.iter().filter(|p| p.live.is_some()) {
            open.append(&mut kernel::open_ways(&port.words.interface, self.settings.alone, &mut closed));
        }
        closed.iter().for_each(|words| self.output.say("ALONE", words));
        if open != self.open_ways {
            open.iter().for_each(|words| self.output.say("WARNING", words));
            self.output.counters.open = !open.is_empty();
            self.open_ways = open;
        }
        self.output.tick();
    }

    fn look_at_interface(&mut self, at: usize, now: Instant) {
        let port = &mut self.ports[at];
        let name = &port.words.interface;
        let before = port.live.as_ref().map(|l| l.link.up);
        let overrun = port.live.as_ref().map_or(0, |l| l.interface.overrun());
        match &mut port.live {
            Some(live) => match kernel::link(name, live.interface.index) {
                Ok(link) => live.link = link,
                Err(_) => port.live = None,
            },
            None => port.live = open(name).ok(),
        }
        let words = match (before, port.live.as_ref().map(|l| l.link.up)) {
            (old, new) if old == new => "",
            (_, None) => "went away: the box waits for one of its name",
            (_, Some(false)) => "is down",
            (_, Some(true)) => "is up",
        };
        if !words.is_empty() {
            self.output.say("INTERFACE", &format!("{name} {words}"));
        }
        self.output.fault(now, at, Fault::Overrun, overrun as usize, None);
    }

    fn longest_mtu(&self) -> usize {
        self.ports.iter().filter_map(|p| p.live.as_ref()).map(|l| l.link.mtu).max().unwrap_or(0).max(message::LONGEST)
    }

    /// The loop. Ends on SIGTERM or SIGINT.
    fn run(&mut self) {
        let (mut told, mut looked) = (Instant::now(), Instant::now());
        let mut buffers = Buffers::new(self.settings.at_once, self.longest_mtu());
        let mut loading: Option<Receiver<Result<Plan, String>>> = None;
        self.output.say("READY", "");
        while !system::asked(&system::END) {
            let mut busy = false;
            for at in 0..self.ports.len() {
                busy |= self.turn(at, &mut buffers);
            }
            let now = Instant::now();
            if system::asked(&system::TELL) || self.settings.every.is_some_and(|e| now - told >= e) {
                self.output.tell_counters();
                told = now;
            }
            if now - looked >= SECOND {
                self.look_around(now);
                looked = now;
                if self.longest_mtu() > buffers.mtu {
                    buffers = Buffers::new(self.settings.at_once, self.longest_mtu());
                    self.single = Frames::new(1, BEFORE + buffers.mtu);
                }
            }
            if system::asked(&system::RELOAD) {
                loading = Some(load_aside(&self.settings));
            }
            if let Some(loaded) = loading.as_ref().and_then(|l| l.try_recv().ok()) {
                self.reload(loaded);
                loading = None;
            }
            if !busy {
                let live = self.ports.iter().filter_map(|p| p.live.as_ref().map(|l| &l.interface));
                system::wait(live, if loading.is_some() { 5 } else { 100 });
            }
        }
        self.output.end();
    }

    fn reload(&mut self, loaded: Result<Plan, String>) {
        self.output.counters.reloads[usize::from(loaded.is_err())] += 1;
        match loaded {
            Ok(plan) => {
                self.plan = plan;
                self.output.say("RELOADED", &self.settings.file);
            }
            Err(why) => self.output.say("REFUSED", &format!("{why}; the old ones stay")),
        }
    }
}

/// Copies octets to the beginning of `out`. Answers how many.
fn put(octets: &[u8], out: &mut [u8]) -> usize {
    out[..octets.len()].copy_from_slice(octets);
    octets.len()
}

/// Loads on a thread of its own, so that a slow disk does not stop the traffic.
fn load_aside(settings: &Settings) -> Receiver<Result<Plan, String>> {
    let (sender, receiver) = channel();
    let settings = settings.clone();
    let _ = std::thread::Builder::new().stack_size(STACK).spawn(move || drop(sender.send(load(&settings))));
    receiver
}

/// Everything is checked before the first frame is taken.
fn start(settings: Settings) -> Result<Gateway, String> {
    let plan = load(&settings)?;
    let mut output = Output::new(&settings)?;
    let mut ports: Vec<Port> = Vec::new();
    for words in &settings.ports {
        let name = &words.interface;
        let live = open(name)?;
        if let Some(other) = ports.iter().find(|p| p.live.as_ref().is_some_and(|l| l.interface.index == live.interface.index)) {
            return Err(format!("{name} and {} are one interface", other.words.interface));
        }
        let mut closed = Vec::new();
        let open = kernel::open_ways(name, settings.alone, &mut closed);
        closed.iter().for_each(|words| output.say("ALONE", words));
        if !open.is_empty() {
            let help = if settings.alone { "" } else { "; --alone switches off what a switch can" };
            return Err(format!("datagrams would go past the box: {}{help} (docs/LIVE.md, \"What must be off\")", open.join("; ")));
        }
        if kernel::speaks(name) {
            output.say("WARNING", &format!("the kernel has an address or a route on {name}: it answers there for itself"));
        }
        let neighbours = Neighbours::new(words.place.own, words.place.network);
        ports.push(Port { words: words.clone(), live: Some(live), neighbours });
    }
    let messages = message::Bucket::new(settings.messages, Instant::now());
    let networks = ports.iter().map(|p| p.words.place.network).collect();
    let mut gateway = Gateway { settings, plan, ports, networks, output, messages, single: Frames::new(1, 0), open_ways: Vec::new() };
    gateway.single = Frames::new(1, BEFORE + gateway.longest_mtu());
    Ok(gateway)
}

fn main() {
    let words: Vec<String> = std::env::args().skip(1).collect();
    if words.iter().any(|w| w == "--help") {
        println!("{}", options::USAGE);
        return;
    }
    if words.iter().any(|w| w == "--version") {
        println!("Inglebreek {}", include_str!("../../VERSION").trim());
        return;
    }
    let end = |why: &str| -> ! {
        eprintln!("box: {why}");
        std::process::exit(2)
    };
    let settings = options::read(&words).unwrap_or_else(|why| end(&format!("{why}\nbox --help tells the options")));
    system::listen_to_signals();
    let traffic = std::thread::Builder::new().stack_size(STACK).spawn(|| start(settings).map(|mut gateway| gateway.run()));
    match traffic.map(|t| t.join()) {
        Ok(Ok(Ok(()))) => (),
        Ok(Ok(Err(why))) => end(&why),
        Ok(Err(_)) => end("stopped by a fault of its own"),
        Err(e) => end(&format!("no thread for the traffic: {e}")),
    }
}
