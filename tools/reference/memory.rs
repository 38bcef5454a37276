// The memory of destinations that want labels.
//
// Document 02, wish 13; RFC 1108, section 2.

use crate::decision::{OPTION_MISSING, PARAMETER_PROBLEM};
use crate::messages::{self, Report};
use crate::option::CIPSO;

/// "a memory of up to 64 IPv4 destinations"
pub const MAX_DESTINATIONS: usize = 64;

/// Where RFC 791 has the destination of a header.
const DESTINATION_AT: usize = 16;

/// "A missing-option message (12/1/134)".
const MISSING: Report = Report { icmp_type: PARAMETER_PROBLEM, icmp_code: OPTION_MISSING, pointer: CIPSO };

/// A memory as it is held: places with a count, oldest first.
#[derive(Clone, PartialEq, Eq)]
pub struct MemoryRecord {
    pub count: u8,
    pub places: [u32; MAX_DESTINATIONS],
}

#[derive(Clone, PartialEq, Eq)]
pub enum Call {
    Note(u32),
    Ask(u32),
    Forget(u32),
    Clear,
    Message(Vec<u8>),
}

/// The number of an answer and what it says: "all but clear say whether the address was in it".
#[derive(Clone, Copy, PartialEq, Eq, Debug)]
pub struct Reply {
    pub number: u8,
    pub was_in: Option<bool>,
}

impl MemoryRecord {
    pub const CLEAR: MemoryRecord = MemoryRecord { count: 0, places: [0; MAX_DESTINATIONS] };

    pub fn of(list: &[u32]) -> MemoryRecord {
        let mut record = MemoryRecord { count: list.len() as u8, ..MemoryRecord::CLEAR };
        record.places[..list.len()].copy_from_slice(list);
        record
    }

    /// The places up to the last one that is not zero.
    pub fn needed(&self) -> usize {
        self.places.iter().rposition(|address| *address != 0).map_or(0, |last| last + 1)
    }

    /// The list that the memory stands for: its count is at most 64, no address stands twice and the unused places are 0.
    pub fn list(&self) -> Option<Vec<u32>> {
        if self.count as usize > MAX_DESTINATIONS {
            return None;
        }
        let (used, unused) = self.places.split_at(self.count as usize);
        let twice = used.iter().enumerate().any(|(place, address)| used[place + 1..].contains(address));
        if twice || unused.iter().any(|address| *address != 0) {
            return None;
        }
        Some(used.to_vec())
    }

    /// "A memory that stands for no such list is first 2, unchanged, save to clear."
    pub fn call(&mut self, call: &Call) -> Reply {
        if *call == Call::Clear {
            *self = MemoryRecord::CLEAR;
            return Reply { number: 0, was_in: None };
        }
        let mut list = match self.list() {
            Some(list) => list,
            None => return Reply { number: 2, was_in: None },
        };
        let reply = call_of_list(&mut list, call);
        *self = MemoryRecord::of(&list);
        reply
    }
}

/// The calls on "a plain list ordered by last note".
fn call_of_list(list: &mut Vec<u32>, call: &Call) -> Reply {
    let said = |was_in: bool| Reply { number: 0, was_in: Some(was_in) };
    match call {
        Call::Note(address) => said(note(list, *address)),
        Call::Ask(address) => said(list.contains(address)),
        Call::Forget(address) => said(forget(list, *address)),
        Call::Clear => {
            list.clear();
            Reply { number: 0, was_in: None }
        }
        Call::Message(message) => match wanting_labels(message) {
            Some(destination) => said(note(list, destination)),
            None => Reply { number: 25, was_in: None },
        },
    }
}

/// "Noting a known one makes it newest; noting a new one when full drops the oldest."
fn note(list: &mut Vec<u32>, address: u32) -> bool {
    let known = forget(list, address);
    if list.len() == MAX_DESTINATIONS {
        list.remove(0);
    }
    list.push(address);
    known
}

fn forget(list: &mut Vec<u32>, address: u32) -> bool {
    let known = list.contains(&address);
    list.retain(|noted| *noted != address);
    known
}

/// "A missing-option message (12/1/134), read as in Wish 9, notes the destination in its quoted header; any other is 25." None for 25.
fn wanting_labels(message: &[u8]) -> Option<u32> {
    let parts = messages::read(message)?;
    if parts.report != MISSING {
        return None;
    }
    let header = &parts.header[DESTINATION_AT..DESTINATION_AT + 4];
    Some(u32::from_be_bytes([header[0], header[1], header[2], header[3]]))
}
