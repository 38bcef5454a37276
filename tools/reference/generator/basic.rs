// The Basic Security option: markings, options that mean them, what a port permits, and cases of the option alone.

use crate::basic::{BasicRecord, Marking, WayRecord, BASIC_SECURITY, LEVELS, MAX_FLAGS, MAX_FLAG_FIELDS};
use crate::cases::{Case, Output};
use crate::records::PortRecord;

use super::random::Random;
use super::Made;

fn random_flags(random: &mut Random) -> u16 {
    match random.below(6) {
        0 | 1 => 0,
        2 => 1 << random.below(14),
        3 => random.pick(&[1, 64, 127, 128, 129, 8192, 16_256, MAX_FLAGS - 1, MAX_FLAGS]),
        _ => random.below(MAX_FLAGS as usize + 1) as u16,
    }
}

pub fn random_marking(random: &mut Random) -> Marking {
    Marking { level: random.pick(&LEVELS), flags: random_flags(random) }
}

fn option_with(level: u8, flag_octets: &[u8]) -> Vec<u8> {
    let mut option = vec![BASIC_SECURITY, 3 + flag_octets.len() as u8, level];
    option.extend(flag_octets);
    option
}

/// A valid option that means the marking: final octets without flags may be there.
pub fn basic_option(random: &mut Random, marking: &Marking) -> Vec<u8> {
    let (first, second) = ((marking.flags >> 7) as u8, (marking.flags & 127) as u8);
    let least = if second != 0 {
        2
    } else if first != 0 {
        1
    } else {
        0
    };
    let count = if random.chance(2, 3) { least } else { random.between(least, 2) };
    let flag_octets = [first << 1 | if count == 2 { 1 } else { 0 }, second << 1];
    option_with(marking.level, &flag_octets[..count])
}

/// An octet that is none of the four levels: near one of them, reserved by RFC 1108, or any.
fn no_level(random: &mut Random) -> u8 {
    loop {
        let octet = match random.below(4) {
            0 => random.pick(&LEVELS) ^ 1 << random.below(8),
            1 => random.pick(&[0b0000_0001, 0b0110_0110, 0b1100_1100, 0b1111_0001, 0, 1, 2, 3, 255]),
            2 => random.pick(&LEVELS).reverse_bits(),
            _ => random.octet(),
        };
        if !LEVELS.contains(&octet) {
            return octet;
        }
    }
}

/// Ways in which an option 130 is bad.
pub const BAD_OPTIONS: usize = 10;

/// A bad option of the type 130 whose length octet gives its length.
pub fn bad_option(random: &mut Random, way: usize) -> Vec<u8> {
    let marking = random_marking(random);
    let flags = |random: &mut Random, low: u8| random.octet() & 254 | low;
    let level = marking.level;
    match way % BAD_OPTIONS {
        0 | 1 => {
            let level = no_level(random);
            basic_option(random, &Marking { level, ..marking })
        }
        2 => vec![BASIC_SECURITY, 2],
        // The low bit says that another octet follows.
        3 => option_with(level, &[flags(random, 1)]),
        4 => option_with(level, &[flags(random, 1), flags(random, 1)]),
        // It says that none does.
        5 => option_with(level, &[flags(random, 0), flags(random, 0)]),
        6 => option_with(level, &[flags(random, 0), flags(random, 1)]),
        // Over two flag octets.
        7 => option_with(level, &[flags(random, 1), flags(random, 1), flags(random, 0)]),
        8 => option_with(level, &[flags(random, 1), flags(random, 0), flags(random, 0)]),
        _ => {
            let count = random.between(3, 8);
            let octets: Vec<u8> = (0..count).map(|place| flags(random, if place + 1 < count { 1 } else { 0 })).collect();
            option_with(level, &octets)
        }
    }
}

fn place_of(level: u8) -> usize {
    LEVELS.iter().position(|listed| *listed == level).expect("a marking has one of the four levels")
}

/// Flag fields that are not the given one: near it, above it, below it, with a bit over its 14, or any.
fn other_field(random: &mut Random, flags: u16) -> u16 {
    loop {
        let field = match random.below(7) {
            0 => flags ^ 1 << random.below(14),
            1 => flags | 1 << random.below(14),
            2 => flags & !(1 << random.below(14)),
            3 => flags | 0x4000,
            4 => flags | 0x8000,
            5 => random.pick(&[0, MAX_FLAGS, MAX_FLAGS + 1, 65_535]),
            _ => random_flags(random),
        };
        if field != flags {
            return field;
        }
    }
}

fn way_of(lowest: usize, highest: usize, fields: &[u16]) -> WayRecord {
    let mut way = WayRecord { lowest: LEVELS[lowest], highest: LEVELS[highest], count: fields.len() as u16, ..WayRecord::ALL_ZERO };
    way.places[..fields.len()].copy_from_slice(fields);
    way
}

/// A sound way that permits the marking. Full sets make large cases and are rare.
pub fn way_around(random: &mut Random, marking: &Marking) -> WayRecord {
    let place = place_of(marking.level);
    let (lowest, highest) = (random.between(0, place), random.between(place, 3));
    let count = match random.below(40) {
        0 => MAX_FLAG_FIELDS,
        1 => MAX_FLAG_FIELDS - 1,
        2..=20 => 1,
        _ => random.between(2, 5),
    };
    let mut fields: Vec<u16> = (0..count).map(|_| other_field(random, marking.flags)).collect();
    let member = random.pick(&[0, count - 1, random.clone().below(count)]);
    fields[member] = marking.flags;
    way_of(lowest, highest, &fields)
}

/// Ways in which a port does not permit a marking.
pub const FORBIDDING: usize = 7;

/// A sound way that does not permit the marking, or one that permits it where the chosen kind does not apply.
pub fn way_against(random: &mut Random, marking: &Marking, kind: usize) -> WayRecord {
    let mut way = way_around(random, marking);
    let place = place_of(marking.level);
    match kind % FORBIDDING {
        0 if place < 3 => {
            way.lowest = LEVELS[random.between(place + 1, 3)];
            way.highest = LEVELS[random.between(place_of(way.lowest), 3)];
        }
        1 if place > 0 => {
            way.highest = LEVELS[random.between(0, place - 1)];
            way.lowest = LEVELS[random.between(0, place_of(way.highest))];
        }
        // No fields at all: the unused places, which are 0, are no members.
        2 => way = way_of(0, 3, &[]),
        3 => {
            let field = if marking.flags == 0 { random.between(1, 65_535) as u16 } else { 0 };
            way = way_of(0, 3, &[field]);
        }
        // Fields that have all its flags and more, or fewer, or bits over the 14.
        4 => {
            let more = [marking.flags | 1 << random.below(14), MAX_FLAGS, marking.flags | 0x4000, marking.flags | 0x8000];
            let fewer = [marking.flags & !(1 << random.below(14)), 0];
            let fields: Vec<u16> = more.iter().chain(&fewer).copied().filter(|field| *field != marking.flags).collect();
            way = way_of(0, 3, &fields);
        }
        _ => {
            let count = if random.chance(1, 12) { MAX_FLAG_FIELDS } else { random.between(1, 4) };
            let fields: Vec<u16> = (0..count).map(|_| other_field(random, marking.flags)).collect();
            way = way_of(0, 3, &fields);
        }
    }
    way
}

/// Any sound way.
pub fn any_way(random: &mut Random) -> WayRecord {
    let marking = random_marking(random);
    let kind = random.below(2 * FORBIDDING);
    if kind < FORBIDDING {
        way_against(random, &marking, kind)
    } else {
        way_around(random, &marking)
    }
}

/// Switches the option on, with sound ways.
pub fn switch_on(port: &mut PortRecord, receiving: WayRecord, sending: WayRecord) {
    port.basic = BasicRecord { on: true, receiving, sending };
}

/// Clauses of one way that is switched on.
const WAY_CLAUSES: usize = 11;
/// Fields of one way that are not 0 though it is switched off.
const OFF_CLAUSES: usize = 5;
/// Clauses of a port's fields for option 130.
pub const BASIC_CLAUSES: usize = 2 * (WAY_CLAUSES + OFF_CLAUSES) + 1;

/// Breaks one clause of the fields of a port for option 130.
pub fn break_basic(random: &mut Random, port: &mut PortRecord, clause: usize) {
    let clause = clause % BASIC_CLAUSES;
    if clause == BASIC_CLAUSES - 1 {
        // All that a port with the option on has, but off.
        let (receiving, sending) = (any_way(random), any_way(random));
        port.basic = BasicRecord { on: false, receiving, sending };
        return;
    }
    let (clause, sending) = (clause / 2, clause % 2 == 1);
    if clause < WAY_CLAUSES {
        if !port.basic.on {
            let (receiving, sending) = (any_way(random), any_way(random));
            switch_on(port, receiving, sending);
        }
        break_way(random, if sending { &mut port.basic.sending } else { &mut port.basic.receiving }, clause);
        return;
    }
    port.basic = BasicRecord::OFF;
    let way = if sending { &mut port.basic.sending } else { &mut port.basic.receiving };
    match clause - WAY_CLAUSES {
        0 => way.lowest = random.pick(&[1, LEVELS[0], LEVELS[3]]),
        1 => way.highest = random.pick(&[1, LEVELS[0], LEVELS[3]]),
        2 => way.count = random.pick(&[1, 256, 257, 0x100, 65_535]),
        3 => way.places[0] = random.between(1, 65_535) as u16,
        _ => way.places[MAX_FLAG_FIELDS - 1] = random.between(1, 65_535) as u16,
    }
}

fn break_way(random: &mut Random, way: &mut WayRecord, clause: usize) {
    if way.count == 0 || way.count as usize >= MAX_FLAG_FIELDS {
        *way = way_of(0, 3, &[0, 5, 0]);
    }
    let count = way.count as usize;
    let nonzero = random.between(1, 65_535) as u16;
    match clause {
        // "the levels are of the four"
        0 => way.lowest = 0,
        1 => way.lowest = no_level(random),
        2 => way.highest = 0,
        3 => way.highest = no_level(random),
        // "lowest ≤ highest": neighbours, and any two.
        4 => {
            let place = random.between(0, 2);
            (way.lowest, way.highest) = (LEVELS[place + 1], LEVELS[place]);
        }
        5 => {
            let place = random.between(1, 3);
            (way.lowest, way.highest) = (LEVELS[place], LEVELS[random.below(place)]);
        }
        // "each set's count is at most 256": every place that there is may be in use.
        6 => {
            way.count = 257;
            way.places.fill(nonzero);
        }
        7 => way.count = random.pick(&[257, 258, 511, 512, 65_535]),
        // "its unused places 0"
        8 => way.places[count] = nonzero,
        9 => way.places[MAX_FLAG_FIELDS - 1] = nonzero,
        _ => {
            way.places[count - 1] = nonzero;
            way.count -= 1;
        }
    }
}

// Cases of the option alone.

pub fn basic_read(random: &mut Random, turn: usize, _number: u8) -> Made {
    let marking = Marking { level: LEVELS[turn % 4], ..random_marking(random) };
    Made::Case(Case::ReadBasic(basic_option(random, &marking)))
}

pub fn basic_bad(random: &mut Random, turn: usize, _number: u8) -> Made {
    let marking = random_marking(random);
    let mut option = basic_option(random, &marking);
    match turn % (BAD_OPTIONS + 8) {
        0 => option.clear(),
        1 => option.truncate(1),
        2 => option[0] = random.pick(&[0, 1, 129, 131, 133, 134]),
        // It does not fill its buffer.
        3 => option[1] += 1,
        4 => option[1] -= 1,
        5 => option.push(0),
        6 => option.insert(0, 1),
        7 => {
            let length = random.below(256);
            option.resize(length, 0);
            if length > 1 {
                option[1] = length as u8;
            }
        }
        way => option = bad_option(random, way - 8),
    }
    Made::Case(Case::ReadBasic(option))
}

pub fn basic_changed(random: &mut Random, _turn: usize, _number: u8) -> Made {
    let marking = random_marking(random);
    let mut option = basic_option(random, &marking);
    super::faults::mutate(random, &mut option);
    Made::Case(Case::ReadBasic(option))
}

fn basic_output(random: &mut Random, turn: usize) -> Output {
    let length = match turn % 4 {
        0 | 1 => 5,
        2 => 6,
        _ => random.pick(&[7, 8, 40, 100, 512]),
    };
    Output { length, fill: random.pick(&[0, 0x55, 0xaa, 0xff, 0x82]) }
}

pub fn basic_written(random: &mut Random, turn: usize, _number: u8) -> Made {
    let marking = Marking { level: LEVELS[turn / 4 % 4], ..random_marking(random) };
    Made::Case(Case::WriteBasic(marking, basic_output(random, turn)))
}

/// 1 comes before 19.
pub fn basic_written_short(random: &mut Random, turn: usize, _number: u8) -> Made {
    let mut marking = random_marking(random);
    if turn % 3 == 0 {
        marking.level = no_level(random);
    }
    Made::Case(Case::WriteBasic(marking, Output { length: [4, 3, 0, 4, 2, 1][turn % 6], fill: random.octet() }))
}

pub fn basic_not_written(random: &mut Random, turn: usize, _number: u8) -> Made {
    let mut marking = random_marking(random);
    if turn % 2 == 0 {
        marking.level = no_level(random);
    }
    if turn % 2 == 1 || turn % 3 == 0 {
        marking.flags = random.pick(&[MAX_FLAGS + 1, MAX_FLAGS + 2, marking.flags | 0x4000, marking.flags | 0x8000, 65_535]);
    }
    Made::Case(Case::WriteBasic(marking, basic_output(random, turn)))
}
