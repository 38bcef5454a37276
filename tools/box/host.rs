//! What tools/live runs on the hosts: ordinary UDP and TCP sockets whose IP options the host's own kernel validates, a packet socket for
//! frames that no kernel would send, what the kernel tells of ICMP messages, and a flood for measuring. The box needs none of it.

#![deny(unsafe_code)]

#[allow(unsafe_code)]
mod host_system;

use host_system::{
    checksums, packet_socket, raw_socket, send_frame, set, stream, take, IP_OPTIONS, IP_RECVERR, IP_RECVOPTS, IP_TTL, MSG_ERRQUEUE,
};
use std::io::{Error, Read, Result, Write};
use std::net::{TcpListener, UdpSocket};
use std::time::{Duration, Instant};

const USAGE: &str = "host send ADDRESS:PORT OPTIONS OCTETS [TTL]   one UDP datagram with these IP options in hex, or - for none
host raw INTERFACE FRAME                     one frame, in hex
host receive ADDRESS:PORT                    a line for each datagram: source, IP options, octets of payload
host messages                                a line for each ICMP message: source, IP options, type, code, the word behind the checksum
host watch                                   a line for each frame, in hex, of any interface
host ask ADDRESS:PORT OPTIONS OCTETS         one datagram, and what the kernel reports to its socket: errno, ICMP type, code, word; or none
host serve ADDRESS:PORT                      takes one TCP connection, and tells how many octets came
host transfer ADDRESS:PORT OPTIONS OCTETS    so many octets over TCP with these IP options
host flood ADDRESS:PORT OPTIONS OCTETS SECONDS  datagrams as fast as they go
host count ADDRESS:PORT SECONDS              how many datagrams come
host checksums INTERFACE                     let the kernel write the checksums itself, as on a real wire";

fn unhex(text: &str) -> Vec<u8> {
    (0..text.len() / 2).filter_map(|i| u8::from_str_radix(&text[2 * i..2 * i + 2], 16).ok()).collect()
}

/// A socket whose datagrams have these options. The kernel refuses an option 134 that its CIPSO engine finds wrong.
fn sender(options: &str) -> Result<UdpSocket> {
    let s = UdpSocket::bind("0.0.0.0:0")?;
    if options != "-" {
        set(&s, IP_OPTIONS, &unhex(options))?;
    }
    Ok(s)
}

fn send(to: &str, options: &str, octets: &str, ttl: Option<&String>) -> Result<()> {
    let s = sender(options)?;
    if let Some(ttl) = ttl {
        set(&s, IP_TTL, &ttl.parse::<u32>().unwrap_or(64).to_ne_bytes())?;
    }
    s.send_to(&vec![b'x'; octets.parse().unwrap_or(8)], to)?;
    Ok(())
}

fn hex(octets: &[u8]) -> String {
    let text: String = octets.iter().map(|o| format!("{o:02x}")).collect();
    if text.is_empty() {
        "-".into()
    } else {
        text
    }
}

fn receive(at: &str) -> Result<()> {
    let s = UdpSocket::bind(at)?;
    set(&s, IP_RECVOPTS, &1u32.to_ne_bytes())?;
    println!("READY");
    loop {
        let (octets, name, options) = take(&s, 0)?;
        println!("{}.{}.{}.{} {} {}", name[4], name[5], name[6], name[7], hex(&options), octets.len());
        std::io::stdout().flush()?;
    }
}

fn messages() -> Result<()> {
    let s = raw_socket(1)?;
    println!("READY");
    loop {
        let (octets, _, _) = take(&s, 0)?;
        let header = usize::from(octets[0] & 15) * 4;
        let (source, options, icmp) = (&octets[12..16], &octets[20..header], &octets[header..]);
        let word = u32::from_be_bytes([icmp[4], icmp[5], icmp[6], icmp[7]]);
        println!("{}.{}.{}.{} {} {} {} {word}", source[0], source[1], source[2], source[3], hex(options), icmp[0], icmp[1]);
        std::io::stdout().flush()?;
    }
}

fn watch() -> Result<()> {
    let s = packet_socket(3)?;
    println!("READY");
    loop {
        println!("{}", hex(&take(&s, 0)?.0));
        std::io::stdout().flush()?;
    }
}

/// What the kernel reports is `struct sock_extended_err`: errno, origin, type, code, info.
fn ask(to: &str, options: &str, octets: &str) -> Result<()> {
    let s = sender(options)?;
    set(&s, IP_RECVERR, &1u32.to_ne_bytes())?;
    s.send_to(&vec![b'x'; octets.parse().unwrap_or(8)], to)?;
    let end = Instant::now() + Duration::from_millis(400);
    while Instant::now() < end {
        if let Ok((_, _, said)) = take(&s, MSG_ERRQUEUE) {
            let four = |at: usize| u32::from_ne_bytes([said[at], said[at + 1], said[at + 2], said[at + 3]]);
            println!("errno {} type {} code {} word {}", four(0), said[5], said[6], four(8));
            return Ok(());
        }
        std::thread::sleep(Duration::from_millis(5));
    }
    println!("none");
    Ok(())
}

fn serve(at: &str) -> Result<()> {
    let listener = TcpListener::bind(at)?;
    println!("READY");
    let (mut connection, _) = listener.accept()?;
    connection.set_read_timeout(Some(Duration::from_secs(8)))?;
    let (mut count, mut octets) = (0, vec![0; 65536]);
    let end = loop {
        match connection.read(&mut octets) {
            Ok(0) => break "all".to_string(),
            Ok(n) => count += n,
            Err(e) => break e.to_string(),
        }
    };
    println!("received {count}: {end}");
    Ok(())
}

fn transfer(to: &str, options: &str, octets: &str) -> Result<()> {
    let to = to.parse().map_err(|_| Error::other("no address and port"))?;
    let (begun, mut connection) = (Instant::now(), stream(to, &unhex(options), 6)?);
    connection.set_read_timeout(Some(Duration::from_secs(6)))?;
    connection.write_all(&vec![b'x'; octets.parse().unwrap_or(0)])?;
    connection.shutdown(std::net::Shutdown::Write)?;
    let _ = connection.read(&mut [0])?;
    println!("sent {octets} in {:.2} s", begun.elapsed().as_secs_f64());
    Ok(())
}

fn flood(to: &str, options: &str, octets: &str, seconds: f64) -> Result<()> {
    let s = sender(options)?;
    s.connect(to)?;
    let payload = vec![b'x'; octets.parse().unwrap_or(18)];
    let (end, mut sent) = (Instant::now() + Duration::from_secs_f64(seconds), 0u64);
    while Instant::now() < end {
        for _ in 0..256 {
            sent += u64::from(s.send(&payload).is_ok());
        }
    }
    println!("sent {sent}, {:.0} a second", sent as f64 / seconds);
    Ok(())
}

fn count(at: &str, seconds: f64) -> Result<()> {
    let s = UdpSocket::bind(at)?;
    s.set_read_timeout(Some(Duration::from_millis(100)))?;
    let (end, mut came, mut octets) = (Instant::now() + Duration::from_secs_f64(seconds), 0u64, [0u8; 2048]);
    while Instant::now() < end {
        came += u64::from(s.recv(&mut octets).is_ok());
    }
    println!("received {came}");
    Ok(())
}

fn main() {
    let words: Vec<String> = std::env::args().skip(1).collect();
    let all: Vec<&str> = words.iter().map(String::as_str).collect();
    let done = match all.as_slice() {
        ["send", to, options, octets, ..] => send(to, options, octets, words.get(4)),
        ["raw", interface, frame] => send_frame(interface, &unhex(frame)),
        ["receive", at] => receive(at),
        ["messages"] => messages(),
        ["watch"] => watch(),
        ["ask", to, options, octets] => ask(to, options, octets),
        ["serve", at] => serve(at),
        ["transfer", to, options, octets] => transfer(to, options, octets),
        ["flood", to, options, octets, seconds] => flood(to, options, octets, seconds.parse().unwrap_or(1.0)),
        ["count", at, seconds] => count(at, seconds.parse().unwrap_or(1.0)),
        ["checksums", interface] => checksums(interface),
        _ => {
            eprintln!("{USAGE}");
            std::process::exit(2)
        }
    };
    if let Err(e) = done {
        eprintln!("{}: {e}", all[0]);
        std::process::exit(1);
    }
}
