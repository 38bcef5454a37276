//! The calls of the hosts' program that are not Rust's, each behind a small safe function. The box needs none of it.

use std::ffi::{c_int, c_void, CString};
use std::io::{Error, Result};
use std::net::{SocketAddrV4, TcpStream};
use std::os::fd::{AsRawFd, FromRawFd, OwnedFd};

const IP: c_int = 0;
pub const IP_TTL: c_int = 2;
pub const IP_OPTIONS: c_int = 4;
pub const IP_RECVOPTS: c_int = 6;
pub const IP_RECVERR: c_int = 11;
pub const MSG_ERRQUEUE: c_int = 0x2000;
const SOL_SOCKET: c_int = 1;
const SO_SNDTIMEO: c_int = 21;
const AF_INET: c_int = 2;
const AF_PACKET: c_int = 17;
const SOCK_STREAM: c_int = 1;
const SOCK_DGRAM: c_int = 2;
const SOCK_RAW: c_int = 3;
const SIOCETHTOOL: u64 = 0x8946;
const ETHTOOL_STXCSUM: u32 = 0x17;

#[repr(C)]
struct Piece {
    base: *mut c_void,
    length: usize,
}

/// `struct msghdr`.
#[repr(C)]
struct Message {
    name: *mut c_void,
    name_length: u32,
    pieces: *mut Piece,
    piece_count: usize,
    control: *mut c_void,
    control_length: usize,
    flags: c_int,
}

#[repr(C)]
#[derive(Default)]
struct LinkAddress {
    family: u16,
    protocol: u16,
    index: c_int,
    hardware: u16,
    kind: u8,
    length: u8,
    address: [u8; 8],
}

extern "C" {
    fn setsockopt(socket: c_int, level: c_int, name: c_int, value: *const c_void, length: u32) -> c_int;
    fn recvmsg(socket: c_int, message: *mut Message, flags: c_int) -> isize;
    fn socket(domain: c_int, kind: c_int, protocol: c_int) -> c_int;
    fn connect(socket: c_int, address: *const c_void, size: u32) -> c_int;
    fn sendto(socket: c_int, octets: *const c_void, length: usize, flags: c_int, address: *const LinkAddress, size: u32) -> isize;
    fn if_nametoindex(name: *const std::ffi::c_char) -> u32;
    fn ioctl(socket: c_int, request: u64, argument: *mut c_void) -> c_int;
}

fn done(answer: c_int) -> Result<()> {
    if answer < 0 {
        Err(Error::last_os_error())
    } else {
        Ok(())
    }
}

fn new(domain: c_int, kind: c_int, protocol: c_int) -> Result<OwnedFd> {
    let socket = unsafe { socket(domain, kind, protocol) };
    done(socket)?;
    Ok(unsafe { OwnedFd::from_raw_fd(socket) })
}

/// A socket for every frame of a type, 3 for all.
pub fn packet_socket(kind: u16) -> Result<OwnedFd> {
    new(AF_PACKET, SOCK_RAW, c_int::from(kind.to_be()))
}

/// A socket for every IPv4 datagram of a protocol.
pub fn raw_socket(protocol: c_int) -> Result<OwnedFd> {
    new(AF_INET, SOCK_RAW, protocol)
}

fn set_at(s: &impl AsRawFd, level: c_int, name: c_int, value: &[u8]) -> Result<()> {
    done(unsafe { setsockopt(s.as_raw_fd(), level, name, value.as_ptr().cast(), value.len() as u32) })
}

/// Sets an option of IP.
pub fn set(s: &impl AsRawFd, name: c_int, value: &[u8]) -> Result<()> {
    set_at(s, IP, name, value)
}

pub fn send_frame(interface: &str, octets: &[u8]) -> Result<()> {
    let name = CString::new(interface)?;
    let index = unsafe { if_nametoindex(name.as_ptr()) } as c_int;
    let address = LinkAddress { family: AF_PACKET as u16, index, length: 6, ..Default::default() };
    let (s, size) = (new(AF_PACKET, SOCK_RAW, 0)?, std::mem::size_of::<LinkAddress>() as u32);
    done(unsafe { sendto(s.as_raw_fd(), octets.as_ptr().cast(), octets.len(), 0, &address, size) } as c_int)
}

/// One call of `recvmsg`: the octets that came, the sender, and the first control message.
pub fn take(s: &impl AsRawFd, flags: c_int) -> Result<(Vec<u8>, [u8; 16], Vec<u8>)> {
    let (mut octets, mut control, mut name) = ([0u8; 2048], [0u64; 32], [0u8; 16]);
    let mut piece = Piece { base: octets.as_mut_ptr().cast(), length: octets.len() };
    let mut m = Message {
        name: name.as_mut_ptr().cast(),
        name_length: 16,
        pieces: &mut piece,
        piece_count: 1,
        control: control.as_mut_ptr().cast(),
        control_length: 256,
        flags: 0,
    };
    let n = unsafe { recvmsg(s.as_raw_fd(), &mut m, flags) };
    done(n as c_int)?;
    // its length in 8 octets, level and type in 4 each, then what it says
    let whole = if m.control_length >= 16 { (control[0] as usize).clamp(16, 256) } else { 16 };
    let all: Vec<u8> = control.iter().flat_map(|w| w.to_ne_bytes()).collect();
    Ok((octets[..n as usize].to_vec(), name, all[16..whole].to_vec()))
}

/// A TCP connection whose segments have these IP options from the first one on; at most so many seconds are waited for it.
pub fn stream(to: SocketAddrV4, options: &[u8], seconds: i64) -> Result<TcpStream> {
    let s = new(AF_INET, SOCK_STREAM, 0)?;
    set(&s, IP_OPTIONS, options)?;
    set_at(&s, SOL_SOCKET, SO_SNDTIMEO, &[seconds.to_ne_bytes(), [0; 8]].concat())?;
    let mut name = [0u8; 16];
    name[..2].copy_from_slice(&(AF_INET as u16).to_ne_bytes());
    name[2..4].copy_from_slice(&to.port().to_be_bytes());
    name[4..8].copy_from_slice(&to.ip().octets());
    done(unsafe { connect(s.as_raw_fd(), name.as_ptr().cast(), 16) })?;
    Ok(TcpStream::from(s))
}

/// Lets the kernel write checksums itself: a pair of virtual interfaces leaves them unwritten where it may, which no wire does.
pub fn checksums(interface: &str) -> Result<()> {
    let mut off: [u32; 2] = [ETHTOOL_STXCSUM, 0];
    let mut request = [0u8; 40];
    request[..interface.len().min(15)].copy_from_slice(&interface.as_bytes()[..interface.len().min(15)]);
    request[16..24].copy_from_slice(&(off.as_mut_ptr() as u64).to_ne_bytes());
    let s = new(AF_INET, SOCK_DGRAM, 0)?;
    done(unsafe { ioctl(s.as_raw_fd(), SIOCETHTOOL, request.as_mut_ptr().cast()) })
}
