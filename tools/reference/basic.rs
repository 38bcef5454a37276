// One Basic Security option (130), and what a port permits of it.
//
// Document 02, wish 3; RFC 1108, section 2.

use std::collections::BTreeSet;

use crate::option::LENGTH_AT;

pub const BASIC_SECURITY: u8 = 130;

/// Offsets from the option's first octet: "level octet, then at most two protection authority flag octets".
const LEVEL_AT: usize = 2;
const FLAGS_AT: usize = 3;
/// The longest option, and the least output that is written to: "writing gives 1 first for an output under 5".
pub const MAX_BASIC_OCTETS: usize = 5;

/// "The four levels are Unclassified 10101011, Confidential 10010110, Secret 01011010 and Top Secret 00111101, in a short fixed list
/// with their order".
pub const LEVELS: [u8; 4] = [0b1010_1011, 0b1001_0110, 0b0101_1010, 0b0011_1101];

/// The place of a level in the list; none for "anything else".
pub fn rank(level: u8) -> Option<usize> {
    LEVELS.iter().position(|listed| *listed == level)
}

/// "flag fields of 14 flags": the seven flags of the first octet times 128, plus the seven flags of the second.
pub const MAX_FLAGS: u16 = 16_383;
const OCTET_FLAGS: u16 = 128;

/// What an option 130 says.
#[derive(Clone, Copy, PartialEq, Eq, Debug)]
pub struct Marking {
    pub level: u8,
    pub flags: u16,
}

/// "the low bit of each says whether another follows": true where it says so in every octet but the last.
fn follow_on(flag_octets: &[u8]) -> bool {
    flag_octets.iter().enumerate().all(|(place, octet)| (octet & 1 == 1) == (place + 1 < flag_octets.len()))
}

/// The seven flags of a flag octet, 0 where it is left out: "final octets without flags [...] mean the same".
fn seven_flags(option: &[u8], at: usize) -> u16 {
    option.get(at).map_or(0, |octet| (octet >> 1) as u16)
}

/// Reads an option 130 whose length octet gives its length. None where it is bad: 19.
pub fn read(option: &[u8]) -> Option<Marking> {
    if option.len() < FLAGS_AT || option.len() > MAX_BASIC_OCTETS {
        return None;
    }
    let level = option[LEVEL_AT];
    if rank(level).is_none() || !follow_on(&option[FLAGS_AT..]) {
        return None;
    }
    Some(Marking { level, flags: seven_flags(option, FLAGS_AT) * OCTET_FLAGS + seven_flags(option, FLAGS_AT + 1) })
}

/// Read alone it is "bad (19, asked alone too)" also where it does not begin with 130 or fill its buffer.
pub fn read_alone(octets: &[u8]) -> Option<Marking> {
    let begins = octets.first() == Some(&BASIC_SECURITY);
    let fills = octets.get(LENGTH_AT).map(|length| *length as usize) == Some(octets.len());
    if !begins || !fills {
        return None;
    }
    read(octets)
}

/// The option with no final octet without flags: "the writer leaves out final octets without flags".
fn write(marking: &Marking) -> Vec<u8> {
    let (first, second) = ((marking.flags / OCTET_FLAGS) as u8, (marking.flags % OCTET_FLAGS) as u8);
    let flag_octets = match (first, second) {
        (0, 0) => vec![],
        (_, 0) => vec![first << 1],
        _ => vec![first << 1 | 1, second << 1],
    };
    let mut option = vec![BASIC_SECURITY, (FLAGS_AT + flag_octets.len()) as u8, marking.level];
    option.extend(flag_octets);
    option
}

/// "anything else is bad (19, asked alone too; writing gives 1 first for an output under 5)". The number and the count; the octets past
/// the count stay.
pub fn write_alone(marking: &Marking, output: &mut [u8]) -> (u8, usize) {
    if output.len() < MAX_BASIC_OCTETS {
        return (1, 0);
    }
    if rank(marking.level).is_none() || marking.flags > MAX_FLAGS {
        return (19, 0);
    }
    let option = write(marking);
    output[..option.len()].copy_from_slice(&option);
    (0, option.len())
}

/// "a set of up to 256 permitted flag fields"
pub const MAX_FLAG_FIELDS: usize = 256;

/// One way, receiving or sending: "highest and lowest level and a set of up to 256 permitted flag fields".
#[derive(Clone, PartialEq, Eq)]
pub struct WayRecord {
    pub lowest: u8,
    pub highest: u8,
    pub count: u16,
    pub places: [u16; MAX_FLAG_FIELDS],
}

/// The fields of a port record for option 130: "A port record may switch this on, with [these] for each way."
#[derive(Clone, PartialEq, Eq)]
pub struct BasicRecord {
    pub on: bool,
    pub receiving: WayRecord,
    pub sending: WayRecord,
}

/// What one sound way permits. The levels are places in the list.
pub struct Permitted {
    lowest: usize,
    highest: usize,
    flags: BTreeSet<u16>,
}

/// What a sound port that has switched it on permits.
pub struct Basic {
    pub receiving: Permitted,
    pub sending: Permitted,
}

impl WayRecord {
    pub const ALL_ZERO: WayRecord = WayRecord { lowest: 0, highest: 0, count: 0, places: [0; MAX_FLAG_FIELDS] };

    /// The places up to the last one that is not zero.
    pub fn needed(&self) -> usize {
        self.places.iter().rposition(|field| *field != 0).map_or(0, |last| last + 1)
    }

    /// "the levels are of the four and lowest ≤ highest each way, [...] each set's count is at most 256 and its unused places 0, and
    /// nothing else of these fields".
    fn sound(&self) -> Option<Permitted> {
        let (lowest, highest, count) = (rank(self.lowest)?, rank(self.highest)?, self.count as usize);
        if lowest > highest || count > MAX_FLAG_FIELDS {
            return None;
        }
        let (used, unused) = self.places.split_at(count);
        if unused.iter().any(|field| *field != 0) {
            return None;
        }
        Some(Permitted { lowest, highest, flags: used.iter().copied().collect() })
    }
}

impl BasicRecord {
    pub const OFF: BasicRecord = BasicRecord { on: false, receiving: WayRecord::ALL_ZERO, sending: WayRecord::ALL_ZERO };

    /// The outer none where the fields are unsound, the inner none where the option is switched off: "switched off, they are all 0".
    pub fn sound(&self) -> Option<Option<Basic>> {
        if self.on {
            Some(Some(Basic { receiving: self.receiving.sound()?, sending: self.sending.sound()? }))
        } else if *self == BasicRecord::OFF {
            Some(None)
        } else {
            None
        }
    }
}

impl Permitted {
    fn permits(&self, marking: &Marking) -> bool {
        let level_fits = rank(marking.level).map_or(false, |rank| self.lowest <= rank && rank <= self.highest);
        level_fits && self.flags.contains(&marking.flags)
    }
}

/// Whether a datagram passes one way of a port, of which none is permitted where the port has it switched off. 21 is "level or flags out
/// of range at either port", and "a 130 toward a port without it, or none toward one with it".
pub fn passes(way: Option<&Permitted>, marking: Option<&Marking>) -> bool {
    match (way, marking) {
        (Some(permitted), Some(marking)) => permitted.permits(marking),
        (None, None) => true,
        _ => false,
    }
}
