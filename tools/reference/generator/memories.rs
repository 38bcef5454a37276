// Memories of destinations: cases of several calls.

use crate::cases::Case;
use crate::decision::HEADER_OCTETS;
use crate::memory::{Call, MemoryRecord, MAX_DESTINATIONS};
use crate::messages::{message_of, Report, CHECKSUM_AT, HEADER_AT, QUOTED_DATA};

use super::messages::sign;
use super::random::Random;
use super::Made;

/// Where RFC 791 has the addresses of a header.
const SOURCE_AT: usize = 12;
const DESTINATION_AT: usize = 16;

/// `count` different addresses; 0 and the ends of what there is are among them now and then.
fn addresses(random: &mut Random, count: usize) -> Vec<u32> {
    let mut list: Vec<u32> = Vec::new();
    let base = random.next() as u32;
    while list.len() < count {
        let address = match random.below(12) {
            0 => random.pick(&[0, 1, u32::MAX, 0x0a00_0001, 0x8000_0000]),
            // Neighbours, and addresses that differ in one octet.
            1..=5 => base.wrapping_add(random.below(100) as u32),
            6 => base ^ 255 << (8 * random.below(4)),
            _ => random.next() as u32,
        };
        if !list.contains(&address) {
            list.push(address);
        }
    }
    list
}

/// A missing-option message whose quoted header has this destination.
fn missing_option(random: &mut Random, destination: u32) -> Vec<u8> {
    let area = 4 * random.pick(&[0, 0, 1, 3, 10]);
    let mut header = random.octets(HEADER_OCTETS + area);
    header[0] = 0x40 | ((HEADER_OCTETS + area) / 4) as u8;
    header[DESTINATION_AT..DESTINATION_AT + 4].copy_from_slice(&destination.to_be_bytes());
    let data = random.below(QUOTED_DATA + 1);
    message_of(&Report { icmp_type: 12, icmp_code: 1, pointer: 134 }, &header, &random.octets(data))
}

/// A message that is 25: another report, or one that does not read.
fn other_message(random: &mut Random, destination: u32) -> Vec<u8> {
    let mut message = missing_option(random, destination);
    match random.below(9) {
        0 => message[1] = random.pick(&[0, 2]),
        1 => message[4] = random.pick(&[130, 133, 135, 0]),
        2 => (message[0], message[1], message[4]) = (3, random.pick(&[1, 9, 10]), 0),
        3 => message[0] = random.pick(&[3, 11, 0]),
        4 => message[5 + random.below(3)] = 1,
        5 => message[HEADER_AT] = 0x44,
        6 => message.truncate(random.below(HEADER_AT + HEADER_OCTETS)),
        7 => {
            let last = message.len() - 1;
            message[last] ^= 1;
            return message;
        }
        _ => {
            message[CHECKSUM_AT] ^= 128;
            return message;
        }
    }
    sign(&mut message);
    message
}

/// A call about an address that is likely to be known, or one that is likely not to be.
fn random_call(random: &mut Random, known: &[u32], others: &[u32]) -> Call {
    let address = if random.chance(1, 2) && !known.is_empty() { random.pick(known) } else { random.pick(others) };
    match random.below(12) {
        0..=4 => Call::Note(address),
        5 | 6 => Call::Ask(address),
        7 | 8 => Call::Forget(address),
        9 => Call::Message(missing_option(random, address)),
        10 => Call::Message(other_message(random, address)),
        _ if random.chance(1, 4) => Call::Clear,
        _ => Call::Ask(address),
    }
}

fn made(memory: MemoryRecord, calls: Vec<Call>) -> Made {
    Made::Case(Case::Memory(Box::new(memory), calls))
}

/// Memories of any size with a few calls each.
pub fn memory_calls(random: &mut Random, turn: usize, _number: u8) -> Made {
    let size = [0, 1, 2, 5, 62, 63, 64, 64, 30][turn % 9];
    let all = addresses(random, size + 4);
    let (known, others) = all.split_at(size);
    let count = random.between(1, 12);
    let calls = (0..count).map(|_| random_call(random, known, others)).collect();
    made(MemoryRecord::of(known), calls)
}

/// One call on a memory of 63 or 64 addresses: of its oldest, its newest, one between, or another.
pub fn memory_one_call(random: &mut Random, turn: usize, _number: u8) -> Made {
    let size = [64, 63, 1, 64, 0, 64][turn % 6];
    let all = addresses(random, size + 1);
    let place = [0, size.saturating_sub(1), size / 2, size, 1, random.below(size + 1)][turn / 6 % 6].min(size);
    let address = all[place];
    let call = match turn / 36 % 4 {
        0 => Call::Note(address),
        1 => Call::Forget(address),
        2 => Call::Message(missing_option(random, address)),
        _ => Call::Ask(address),
    };
    made(MemoryRecord::of(&all[..size]), vec![call, Call::Ask(all[0]), Call::Ask(address)])
}

/// From clear: 63, 64, 65 and more addresses are noted, some of them twice, and all are asked for.
pub fn memory_filled(random: &mut Random, turn: usize, _number: u8) -> Made {
    let noted = [63, 64, 65, 66, 128, 70][turn % 6];
    let all = addresses(random, noted + 2);
    let mut calls = vec![Call::Clear; turn % 2];
    for (place, address) in all[..noted].iter().enumerate() {
        calls.push(if random.chance(1, 10) { Call::Message(missing_option(random, *address)) } else { Call::Note(*address) });
        // An early address is noted once more, or forgotten.
        if random.chance(1, 12) {
            let early = all[random.below(place + 1)];
            calls.push(if random.chance(2, 3) { Call::Note(early) } else { Call::Forget(early) });
        }
    }
    for _ in 0..random.between(1, 8) {
        calls.push(random_call(random, &all[..noted], &all[noted..]));
    }
    let start = if turn % 2 == 1 { ill_formed(random, turn) } else { MemoryRecord::CLEAR };
    made(start, calls)
}

/// A memory that stands for no list: its count is over 64, an address stands twice, or a place past the count is not 0.
fn ill_formed(random: &mut Random, turn: usize) -> MemoryRecord {
    let size = [1, 2, 40, 63, 64, 64][turn / 6 % 6];
    let mut memory = MemoryRecord::of(&addresses(random, size));
    let place = random.below(size);
    match turn % 6 {
        0 => memory.count = random.pick(&[65, 66, 128, 255]),
        // The count is over 64 with every place in use.
        1 => {
            memory = MemoryRecord::of(&addresses(random, MAX_DESTINATIONS));
            memory.count = 65;
        }
        2 if size > 1 => memory.places[(place + 1 + random.below(size - 1)) % size] = memory.places[place],
        3 if size > 1 => memory.places[size - 1] = memory.places[size - 2],
        // The count is one too small.
        4 => {
            memory.places[size - 1] = memory.places[size - 1].max(1);
            memory.count -= 1;
        }
        _ if size < MAX_DESTINATIONS => memory.places[random.pick(&[size, MAX_DESTINATIONS - 1])] = random.pick(&[1, u32::MAX, 1 << 24]),
        _ => memory.places[0] = memory.places[size - 1],
    }
    memory
}

/// "A memory that stands for no such list is first 2, unchanged, save to clear."
pub fn memory_ill_formed(random: &mut Random, turn: usize, _number: u8) -> Made {
    let memory = ill_formed(random, turn);
    let others = addresses(random, 3);
    let address = memory.places[0];
    let mut calls = vec![match turn / 3 % 5 {
        0 => Call::Note(others[0]),
        1 => Call::Ask(address),
        2 => Call::Forget(address),
        // 2 comes before 25.
        3 => Call::Message(other_message(random, address)),
        _ => Call::Message(missing_option(random, others[0])),
    }];
    for _ in 0..random.below(4) {
        calls.push(random_call(random, &memory.places[..3], &others));
    }
    made(memory, calls)
}

/// Messages that are 25, on memories that they leave alone.
pub fn memory_other_message(random: &mut Random, turn: usize, _number: u8) -> Made {
    let size = [0, 1, 63, 64][turn % 4];
    let all = addresses(random, size + 1);
    let address = all[random.below(size + 1)];
    let calls = vec![Call::Message(other_message(random, address)), Call::Ask(address)];
    made(MemoryRecord::of(&all[..size]), calls)
}

/// A message's source and destination are both in the memory, so that one taken for the other is seen.
pub fn memory_message(random: &mut Random, turn: usize, _number: u8) -> Made {
    let all = addresses(random, [3, 64, 65][turn % 3]);
    let size = all.len() - 1;
    let destination = all[[0, size, 1][turn / 3 % 3]];
    let mut message = missing_option(random, destination);
    let source = HEADER_AT + SOURCE_AT;
    message[source..source + 4].copy_from_slice(&all[1].to_be_bytes());
    sign(&mut message);
    made(MemoryRecord::of(&all[..size]), vec![Call::Message(message), Call::Ask(destination)])
}

/// No calls: what is there is printed.
pub fn memory_alone(random: &mut Random, turn: usize, _number: u8) -> Made {
    if turn % 2 == 1 {
        return made(ill_formed(random, turn / 2), Vec::new());
    }
    let size = [0, 1, 64, 2, 63][turn / 2 % 5];
    made(MemoryRecord::of(&addresses(random, size)), Vec::new())
}
