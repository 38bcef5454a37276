//! What the proved library is handed and what it answers: records, decisions, and the words of the numbers. system.rs calls it.

use crate::frame::Facts;

pub const SLOT: usize = 64;
const AREA: usize = 8;
const LEAVING: usize = 24;

/// The record of a datagram.
pub fn put_record(facts: Facts, area: &[u8], record: &mut [u8]) {
    record[0] = facts.error.into();
    record[1] = facts.group.into();
    record[2] = facts.link.into();
    record[3] = facts.fragment.into();
    record[4] = facts.source.into();
    record[5] = area.len() as u8;
    record[AREA..AREA + area.len()].copy_from_slice(area);
}

/// A decision as it stands in its slot.
pub struct Decision<'a> {
    pub number: u8,
    pub kind: u8,
    pub code: u8,
    pub pointer: u8,
    pub area: &'a [u8],
}

pub fn decision(slot: &[u8]) -> Decision<'_> {
    let count = usize::from(slot[4]).min(SLOT - LEAVING);
    Decision { number: slot[0], kind: slot[1], code: slot[2], pointer: slot[3], area: &slot[LEAVING..LEAVING + count] }
}

/// What a number means, in the words of docs/RULES.md; tools/box/test holds them against that page.
pub fn words(number: u8) -> &'static str {
    match number {
        0 => "passed",
        1 => "bad size",
        2 => "unsound record",
        3 => "bad option length",
        4 => "security option",
        5 => "second label",
        6 => "label missing",
        7 => "short option",
        8 => "foreign domain",
        9 => "unknown tag",
        10 => "bad tag length",
        11 => "alignment not zero",
        12 => "bad category",
        13 => "octets after the tag",
        14 => "outside the arriving range",
        15 => "outside the host's range",
        16 => "no number in the far domain",
        17 => "outside the leaving range",
        18 => "no spelling or no room",
        19 => "bad option 130",
        20 => "option 130 missing",
        21 => "outside the 130 range",
        22 => "no route",
        23 => "slack spelling",
        _ => "a number that this box has no words for",
    }
}
