//! The calls that are not Rust's: C's functions for packet sockets, waiting, signals and clocks, and the proved library's. Each stands behind
//! a small safe function, and no other file has `unsafe` (main.rs denies it).
//!
//! The library's functions have an equation for every input, and ask nothing of their caller but that what is lent does not overlap: the
//! borrows see to that. A call needs up to 224 KB of stack.

use crate::frame::{Seen, Tag};
use std::ffi::{c_int, c_void, CString};
use std::io::{Error, ErrorKind, Result};
use std::sync::atomic::{AtomicBool, Ordering};
use std::time::Duration;

const AF_PACKET: c_int = 17;
const SOCK_RAW: c_int = 3;
const SOCK_CLOEXEC: c_int = 0x80000;
const EVERY_TYPE: u16 = 3;
const MSG_DONTWAIT: c_int = 0x40;
const POLLIN: i16 = 1;
const SIGHUP: c_int = 1;
const SIGINT: c_int = 2;
const SIGUSR1: c_int = 10;
const SIGTERM: c_int = 15;
const SOL_SOCKET: c_int = 1;
const SO_RCVBUFFORCE: c_int = 33;
const SOL_PACKET: c_int = 263;
const PACKET_STATISTICS: c_int = 6;
const PACKET_AUXDATA: c_int = 8;
const PACKET_IGNORE_OUTGOING: c_int = 23;
const CHECKSUM_NOT_READY: u32 = 1 << 3;
const TAG_THERE: u32 = 1 << 4;
const CLOCK_THREAD_CPUTIME_ID: c_int = 3;

/// A link-layer address of C, `struct sockaddr_ll`.
#[repr(C)]
#[derive(Default)]
struct LinkAddress {
    family: u16,
    protocol: u16,
    index: c_int,
    hardware: u16,
    kind: u8,
    length: u8,
    address: [u8; 8],
}

#[repr(C)]
#[derive(Clone, Copy)]
struct Piece {
    base: *mut c_void,
    length: usize,
}

/// `struct mmsghdr`: a message, and how many octets came or went.
#[repr(C)]
#[derive(Clone, Copy)]
struct Message {
    name: *mut c_void,
    name_length: u32,
    pieces: *mut Piece,
    piece_count: usize,
    control: *mut c_void,
    control_length: usize,
    flags: c_int,
    gap: u32,
    length: u32,
}

/// What the kernel puts beside a frame: `struct cmsghdr` with `struct tpacket_auxdata`.
#[repr(C, align(8))]
#[derive(Clone, Copy, Default)]
struct Beside {
    length: usize,
    level: c_int,
    kind: c_int,
    status: u32,
    whole: u32,
    taken: u32,
    places: [u16; 2],
    tag: u16,
    tag_kind: u16,
    gap: u32,
}

#[repr(C)]
struct Poll {
    socket: c_int,
    events: i16,
    found: i16,
}

extern "C" {
    fn socket(domain: c_int, kind: c_int, protocol: c_int) -> c_int;
    fn close(socket: c_int) -> c_int;
    fn bind(socket: c_int, address: *const LinkAddress, length: u32) -> c_int;
    fn setsockopt(socket: c_int, level: c_int, name: c_int, value: *const c_void, length: u32) -> c_int;
    fn getsockopt(socket: c_int, level: c_int, name: c_int, value: *mut c_void, length: *mut u32) -> c_int;
    fn if_nametoindex(name: *const std::ffi::c_char) -> u32;
    fn recvmmsg(socket: c_int, messages: *mut Message, count: u32, flags: c_int, timeout: *mut c_void) -> c_int;
    fn sendmmsg(socket: c_int, messages: *mut Message, count: u32, flags: c_int) -> c_int;
    fn poll(sockets: *mut Poll, count: u64, timeout: c_int) -> c_int;
    fn signal(number: c_int, handler: extern "C" fn(c_int)) -> usize;
    fn clock_gettime(clock: c_int, time: *mut [i64; 2]) -> c_int;

    // crates/export_batch/src/lib.rt
    fn inglebreek_forward_batch(
        file: *const u8,
        file_len: usize,
        arriving: usize,
        leaving: usize,
        input: *const u8,
        input_len: usize,
        output: *mut u8,
        output_len: usize,
    ) -> usize;

    // crates/export_message/src/lib.rt
    fn inglebreek_build_message(
        number: u8,
        kind: u8,
        code: u8,
        pointer: u8,
        header: *const u8,
        header_len: usize,
        payload: *const u8,
        payload_len: usize,
        message: *mut u8,
        message_len: usize,
        options: *mut u8,
        options_len: usize,
        message_count: *mut usize,
        options_count: *mut usize,
    ) -> u8;
}

/// Decides the records of `input`, from one port of the gateway file to another. Answers how many.
pub fn forward(file: &[u8], arriving: usize, leaving: usize, input: &[u8], output: &mut [u8]) -> usize {
    let (lent, room) = (output.as_mut_ptr(), output.len());
    unsafe { inglebreek_forward_batch(file.as_ptr(), file.len(), arriving, leaving, input.as_ptr(), input.len(), lent, room) }
}

/// Builds the ICMP message about a refusal (number, type, code, pointer), and the options area of the datagram that carries it. Answers how many
/// octets of each there are, both 0 where nothing is to be sent.
pub fn build_message(refusal: [u8; 4], header: &[u8], payload: &[u8], message: &mut [u8], options: &mut [u8]) -> (usize, usize) {
    let ([number, kind, code, pointer], mut counts) = (refusal, (0, 0));
    let (lent, room, area, area_room) = (message.as_mut_ptr(), message.len(), options.as_mut_ptr(), options.len());
    let (asked, asked_len, data, data_len) = (header.as_ptr(), header.len(), payload.as_ptr(), payload.len());
    let answer = unsafe {
        inglebreek_build_message(
            number,
            kind,
            code,
            pointer,
            asked,
            asked_len,
            data,
            data_len,
            lent,
            room,
            area,
            area_room,
            &mut counts.0,
            &mut counts.1,
        )
    };
    if answer == 0 {
        counts
    } else {
        (0, 0)
    }
}

/// Many frames in buffers of one size, with the length of each and what the kernel said of it.
pub struct Frames {
    size: usize,
    octets: Vec<u8>,
    beside: Vec<Beside>,
    pub lengths: Vec<usize>,
}

impl Frames {
    pub fn new(count: usize, size: usize) -> Frames {
        Frames { size, octets: vec![0; count * size], beside: vec![Beside::default(); count], lengths: vec![0; count] }
    }

    pub fn frame(&self, i: usize) -> &[u8] {
        &self.octets[i * self.size..i * self.size + self.lengths[i]]
    }

    pub fn room(&mut self, i: usize) -> &mut [u8] {
        &mut self.octets[i * self.size..(i + 1) * self.size]
    }

    pub fn seen(&self, i: usize) -> Seen {
        let b = &self.beside[i];
        let told = b.length >= 36 && b.level == SOL_PACKET && b.kind == PACKET_AUXDATA;
        if !told {
            return Seen { tag: Some(Tag::default()), ..Seen::default() }; // where the kernel says nothing, a tag is supposed
        }
        Seen {
            tag: (b.status & TAG_THERE != 0).then_some(Tag { kind: b.tag_kind, control: b.tag }),
            unready: b.status & CHECKSUM_NOT_READY != 0,
            cut: b.whole as usize > self.size,
        }
    }

    /// Calls `f` with a message for each of the first `count` buffers, whole ones to take frames in, or of the frames' lengths.
    fn messages<T>(&mut self, count: usize, taking: bool, f: impl FnOnce(&mut [Message]) -> T) -> T {
        let mut pieces: Vec<Piece> = (self.octets.chunks_mut(self.size).zip(&self.lengths).take(count))
            .map(|(room, length)| Piece { base: room.as_mut_ptr().cast(), length: if taking { room.len() } else { *length } })
            .collect();
        let empty: Message = unsafe { std::mem::zeroed() }; // pointers to nothing, lengths of 0
        let mut messages: Vec<Message> = pieces.iter_mut().map(|p| Message { pieces: p, piece_count: 1, ..empty }).collect();
        if taking {
            for (message, beside) in messages.iter_mut().zip(&mut self.beside) {
                *beside = Beside::default();
                (message.control, message.control_length) = ((beside as *mut Beside).cast(), std::mem::size_of::<Beside>());
            }
        }
        f(&mut messages)
    }
}

/// A packet socket of one interface, which takes every frame that comes in by it.
pub struct Interface {
    socket: c_int,
    pub index: u32,
}

impl Drop for Interface {
    fn drop(&mut self) {
        unsafe { close(self.socket) };
    }
}

/// A socket for every type of frame: one for IPv4 alone is handed tagged frames after the kernel has forgotten the tag.
pub fn open(name: &str) -> Result<Interface> {
    let text = CString::new(name)?;
    let index = unsafe { if_nametoindex(text.as_ptr()) };
    if index == 0 {
        return Err(Error::last_os_error());
    }
    let socket = unsafe { socket(AF_PACKET, SOCK_RAW | SOCK_CLOEXEC, 0) };
    if socket < 0 {
        return Err(Error::last_os_error());
    }
    let interface = Interface { socket, index };
    let set = |level, option, value: c_int| unsafe { setsockopt(socket, level, option, (&value as *const c_int).cast(), 4) };
    set(SOL_SOCKET, SO_RCVBUFFORCE, 8 << 20);
    let address = LinkAddress { family: AF_PACKET as u16, protocol: EVERY_TYPE.to_be(), index: index as c_int, ..Default::default() };
    let told = set(SOL_PACKET, PACKET_AUXDATA, 1) == 0 && set(SOL_PACKET, PACKET_IGNORE_OUTGOING, 1) == 0;
    if !told || unsafe { bind(socket, &address, std::mem::size_of::<LinkAddress>() as u32) } != 0 {
        return Err(Error::last_os_error());
    }
    Ok(interface)
}

impl Interface {
    /// Takes the frames that wait, at most `most` and as many as there are buffers. A longer frame is cut at its buffer's end.
    pub fn receive(&self, frames: &mut Frames, most: usize) -> Result<usize> {
        let size = frames.size;
        let count = frames.lengths.len().min(most);
        let came: Result<Vec<usize>> = frames.messages(count, true, |messages| {
            let n = unsafe { recvmmsg(self.socket, messages.as_mut_ptr(), messages.len() as u32, MSG_DONTWAIT, std::ptr::null_mut()) };
            if n < 0 {
                return Err(Error::last_os_error());
            }
            Ok(messages.iter().take(n as usize).map(|m| (m.length as usize).min(size)).collect())
        });
        match came {
            Ok(lengths) => {
                frames.lengths[..lengths.len()].copy_from_slice(&lengths);
                Ok(lengths.len())
            }
            Err(e) if matches!(e.kind(), ErrorKind::WouldBlock | ErrorKind::Interrupted) => Ok(0),
            Err(e) => Err(e),
        }
    }

    /// Sends the first `count` frames without waiting. Tells of each whether it went: one that the interface does not take is left out,
    /// and so are all behind one for which there is no room.
    pub fn send(&self, frames: &mut Frames, count: usize) -> Vec<bool> {
        frames.messages(count, false, |messages| {
            let mut went = Vec::with_capacity(count);
            while went.len() < count {
                let rest = &mut messages[went.len()..];
                let n = unsafe { sendmmsg(self.socket, rest.as_mut_ptr(), rest.len() as u32, MSG_DONTWAIT) };
                let full = n < 0 && Error::last_os_error().kind() == ErrorKind::WouldBlock;
                went.resize(went.len() + n.max(0) as usize, true);
                let refused = if full { count } else { count.min(went.len() + usize::from(n < 1)) };
                went.resize(refused, false);
            }
            went
        })
    }

    /// How many frames the kernel has dropped since the last question, because they were not taken in time.
    pub fn overrun(&self) -> u64 {
        let (mut counts, mut length) = ([0u32; 2], 8u32);
        match unsafe { getsockopt(self.socket, SOL_PACKET, PACKET_STATISTICS, counts.as_mut_ptr().cast(), &mut length) } {
            0 => counts[1].into(),
            _ => 0,
        }
    }
}

/// Waits for a frame on any of the interfaces, at most so many milliseconds; a signal ends it too.
pub fn wait<'a>(interfaces: impl Iterator<Item = &'a Interface>, milliseconds: i32) {
    let mut sockets: Vec<Poll> = interfaces.map(|i| Poll { socket: i.socket, events: POLLIN, found: 0 }).collect();
    unsafe { poll(sockets.as_mut_ptr(), sockets.len() as u64, milliseconds) };
}

/// The processor time of this thread so far, with what the kernel did for it.
pub fn processor_time() -> Duration {
    let mut time = [0; 2];
    unsafe { clock_gettime(CLOCK_THREAD_CPUTIME_ID, &mut time) };
    Duration::new(time[0] as u64, time[1] as u32)
}

/// What signals ask for: counters (SIGUSR1), the files anew (SIGHUP), the end.
pub static TELL: AtomicBool = AtomicBool::new(false);
pub static RELOAD: AtomicBool = AtomicBool::new(false);
pub static END: AtomicBool = AtomicBool::new(false);

extern "C" fn signalled(number: c_int) {
    let mark = match number {
        SIGUSR1 => &TELL,
        SIGHUP => &RELOAD,
        _ => &END,
    };
    mark.store(true, Ordering::Relaxed);
}

pub fn listen_to_signals() {
    for number in [SIGUSR1, SIGHUP, SIGINT, SIGTERM] {
        unsafe { signal(number, signalled) };
    }
}

/// Whether it was asked for since the last question.
pub fn asked(mark: &AtomicBool) -> bool {
    mark.swap(false, Ordering::Relaxed)
}
