// The memory of destinations: vectors, and long sequences beside a list of notes with their times.

use crate::cases::line_of;
use crate::entries::Entries;
use crate::generator::Random;
use crate::memory::{Call, MemoryRecord, MAX_DESTINATIONS};

use super::{octets_of, Tally};

fn line(octets: &str) -> String {
    line_of(&octets_of(octets), &Entries::known())
}

fn vectors(tally: &mut Tally) {
    tally.equal("no calls", line("19 00 00"), "0".to_string());
    tally.equal("note twice", line("19 00 00 01 00000005 01 00000005"), "0 NO 0 YES 1 5".to_string());
    tally.equal("a known one becomes newest", line("19 02 02 00000005 00000006 01 00000005"), "0 YES 2 6 5".to_string());
    tally.equal("asking does not", line("19 02 02 00000005 00000006 02 00000005"), "0 YES 2 5 6".to_string());
    tally.equal("forget", line("19 02 02 00000005 00000006 03 00000005 02 00000005 03 00000005"), "0 YES 0 NO 0 NO 1 6".to_string());
    tally.equal("clear", line("19 02 02 00000005 00000006 04 02 00000005"), "0 - 0 NO 0".to_string());
    tally.equal("address 0", line("19 01 00 02 00000000 02 00000001"), "0 YES 0 NO 1 0".to_string());
    tally.equal("a double", line("19 02 02 00000005 00000005 01 00000006 02 00000005"), "2 - 2 - 2 5 5".to_string());
    tally.equal("two of address 0", line("19 02 00 02 00000000"), "2 - 2 0 0".to_string());
    tally.equal("a place past the count", line("19 01 02 00000005 00000006 03 00000005 04"), "2 - 0 - 0".to_string());
    let message = "0c01d4e0860000004500001400000000400600000a0000010a000002";
    tally.equal("a message", line(&format!("19 00 00 05 001c {}", message)), "0 NO 1 167772162".to_string());
    let other = "0c01d4e1850000004500001400000000400600000a0000010a000002";
    tally.equal("another pointer", line(&format!("19 00 00 05 001c {}", other)), "25 - 0".to_string());
    tally.equal("no message", line("19 00 00 05 0000"), "25 - 0".to_string());
    tally.equal("2 before 25", line("19 41 00 05 0000"), format!("2 - 65{}", " 0".repeat(64)));
    tally.equal("an unknown call", line("19 00 00 06"), "BROKEN".to_string());
}

/// Beside each address the time of its last note; the oldest goes where a 65th comes.
fn sequences(tally: &mut Tally) {
    let mut random = Random::new(13);
    let (mut memory, mut times): (MemoryRecord, Vec<(usize, u32)>) = (MemoryRecord::CLEAR, Vec::new());
    for time in 0..20_000 {
        let address = random.below(90) as u32;
        let known = times.iter().any(|(_, noted)| *noted == address);
        let call = match random.below(2_000) {
            0 => Call::Clear,
            1..=100 => Call::Forget(address),
            101..=400 => Call::Ask(address),
            _ => Call::Note(address),
        };
        match call {
            Call::Clear => times.clear(),
            Call::Ask(_) => {}
            _ => times.retain(|(_, noted)| *noted != address),
        }
        if call == Call::Note(address) {
            times.push((time, address));
            if times.len() > MAX_DESTINATIONS {
                let oldest = times.iter().min().copied();
                times.retain(|noted| Some(*noted) != oldest);
            }
        }
        let reply = memory.call(&call);
        let expected = if call == Call::Clear { None } else { Some(known) };
        tally.equal("a reply", (reply.number, reply.was_in), (0, expected));
        let mut sorted = times.clone();
        sorted.sort();
        let list: Vec<u32> = sorted.into_iter().map(|(_, address)| address).collect();
        tally.equal("the list", memory.list(), Some(list));
    }
}

pub fn memories(tally: &mut Tally) {
    vectors(tally);
    sequences(tally);
}
