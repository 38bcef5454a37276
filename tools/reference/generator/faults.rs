// Ways to spoil an area and its options.

use crate::label::HeldLabel;
use crate::option::{ALIGNMENT_AT, BITMAP, CIPSO, DOMAIN_AT, ENUMERATED, LENGTH_AT, MAX_OCTETS, RANGES, TAG_LENGTH_AT, TAG_TYPE_AT};
use crate::records::PortRecord;

use super::drafts::*;
use super::random::Random;
use super::sets::*;
use super::spellings::*;

/// Makes an area too long or not a multiple of 4.
pub fn wrong_size(random: &mut Random, area: &mut Vec<u8>) {
    let length = match random.below(5) {
        0 => random.between(41, 255),
        1 => 4 * random.between(11, 63),
        2 => random.pick(&[37, 38, 39, 41, 42, 43, 44]),
        _ => area.len() + random.between(1, 3),
    };
    area.resize(length, random.pick(&[0, 1]));
}

/// Makes one of the refusals 3, 4 and 5 likely.
pub fn break_walk(random: &mut Random, datagram: &mut Datagram, number: u8) {
    let any_type = |random: &mut Random| random.pick(&[2u8, 7, 68, 128, 129, 130, 133, 134, 137, 255]);
    match number {
        3 => match random.below(5) {
            // The length octet is missing.
            0 => datagram.tail = vec![any_type(random)],
            // The length octet is under 2.
            1 => insert_option(random, datagram, |random| vec![any_type(random), random.below(2) as u8]),
            2 => datagram.tail = vec![any_type(random), random.below(2) as u8],
            // It runs past the area: by one, or by far.
            3 => {
                let length = random.between(2, 6);
                datagram.tail = vec![any_type(random), length as u8 + 1];
                datagram.tail.extend(random.octets(length - 2));
            }
            _ => datagram.tail = vec![any_type(random), random.pick(&[30, 40, 41, 128, 255])],
        },
        4 => insert_option(random, datagram, |random| {
            let length = random.pick(&[2, 3, 4, 11]);
            let mut option = vec![random.pick(&[130, 133]), length as u8];
            option.extend(random.octets(length - 2));
            option
        }),
        _ => {
            if datagram.cipso.is_none() {
                insert_option(random, datagram, |random| short_or_valid(random));
            }
            insert_option(random, datagram, |random| short_or_valid(random));
        }
    }
}

/// A second option 134 is refused whatever it holds.
pub fn short_or_valid(random: &mut Random) -> Vec<u8> {
    if random.chance(1, 2) {
        let length = random.between(2, 6);
        let mut option = vec![CIPSO, length as u8];
        option.extend(random.octets(length - 2));
        option
    } else {
        option_with(random_domain(random), BITMAP, random_level(random), &[])
    }
}

/// Puts one more option at any place. Kept options give way where the area would be over 40 octets.
pub fn insert_option(random: &mut Random, datagram: &mut Datagram, make: impl Fn(&mut Random) -> Vec<u8>) {
    let option = make(random);
    let total = |datagram: &Datagram| datagram.options.iter().map(Vec::len).sum::<usize>() + datagram.tail.len();
    while total(datagram) + option.len() > MAX_OCTETS {
        let kept: Vec<usize> = (0..datagram.options.len()).filter(|index| Some(*index) != datagram.cipso).collect();
        let gone = match kept.last() {
            Some(index) => *index,
            None => break,
        };
        datagram.options.remove(gone);
        datagram.cipso = datagram.cipso.map(|index| if gone < index { index - 1 } else { index });
    }
    let place = random.below(datagram.options.len() + 1);
    datagram.options.insert(place, option);
    datagram.cipso = datagram.cipso.map(|index| if place <= index { index + 1 } else { index });
}

/// "label required, none there"
pub fn drop_label(datagram: &mut Datagram, port: &mut PortRecord) {
    if let Some(index) = datagram.cipso.take() {
        datagram.options.remove(index);
    }
    port.required = true;
    port.assigned = HeldLabel::ALL_ZERO;
}

/// Replaces the CIPSO option by one that means the label, if there is one.
pub fn relabel(random: &mut Random, datagram: &mut Datagram, label: &HeldLabel) {
    let option = match label.label().and_then(|label| random_spelling(random, &label)) {
        Some(option) => option,
        None => return,
    };
    match datagram.cipso {
        Some(index) => datagram.options[index] = option,
        None => {
            datagram.options.insert(0, option);
            datagram.cipso = Some(0);
        }
    }
}

/// Changes a valid option so that one of 7 to 13 is likely. For 8 the domain becomes 0 or, with `foreign`, another one.
pub fn break_option(random: &mut Random, option: &mut Vec<u8>, number: u8, foreign: bool) {
    let domain = u32::from_be_bytes([option[DOMAIN_AT], option[DOMAIN_AT + 1], option[DOMAIN_AT + 2], option[DOMAIN_AT + 3]]);
    match number {
        7 => {
            let length = random.between(2, 9);
            option.truncate(length);
            option[LENGTH_AT] = length as u8;
        }
        8 => {
            let wrong = if foreign && random.chance(2, 3) { other_domain(random, domain) } else { 0 };
            option[DOMAIN_AT..TAG_TYPE_AT].copy_from_slice(&wrong.to_be_bytes());
        }
        9 => option[TAG_TYPE_AT] = random.pick(&[0, 3, 4, 6, 7, 126, 127, 128, 129, 130, 133, 134, 255]),
        10 => break_tag_length(random, option, domain),
        11 => option[ALIGNMENT_AT] = random.pick(&[1, 2, 128, 255]),
        12 => *option = option_with_bad_category(random, domain),
        _ => {
            let second_tag = vec![random.pick(&[BITMAP, ENUMERATED, RANGES]), 4, 0, random.octet()];
            let extra = if random.chance(1, 3) {
                second_tag
            } else {
                let count = random.pick(&[1, 1, 2, 3, 4, 10]);
                let fill = random.pick(&[0, 0, 1, 255]);
                vec![fill; count]
            };
            option.extend(extra);
            option[LENGTH_AT] = option.len() as u8;
        }
    }
}

pub fn break_tag_length(random: &mut Random, option: &mut Vec<u8>, domain: u32) {
    match random.below(5) {
        // Too short for any tag.
        0 => option[TAG_LENGTH_AT] = random.below(4) as u8,
        // Just over what the option has left, and far over it.
        1 => option[TAG_LENGTH_AT] = option[TAG_LENGTH_AT].wrapping_add(random.between(1, 2) as u8),
        2 => option[TAG_LENGTH_AT] = random.pick(&[35, 36, 38, 64, 128, 254, 255]),
        // An odd length in tags 2 and 5, well inside the option.
        3 => {
            let tag = random.pick(&[ENUMERATED, RANGES]);
            let count = 2 * random.between(0, 14) + 1;
            let octets: Vec<u8> = (1..=count).map(|octet| 200 - octet as u8).collect();
            *option = option_with(domain, tag, random_level(random), &octets);
        }
        // Tag 5 with 33 and 34 octets: the eighth top.
        _ => {
            let mut octets = Vec::new();
            for pair in 0..7u16 {
                octets.extend((1000 - 20 * pair).to_be_bytes());
                octets.extend((990 - 20 * pair).to_be_bytes());
            }
            octets.extend([0, 5]);
            octets.truncate(random.between(29, 30));
            *option = option_with(domain, RANGES, random_level(random), &octets);
        }
    }
}

/// An option of over 40 octets, which only a buffer can hold: all is good but the tag's length, which is just over its limit.
pub fn long_option(random: &mut Random, domain: u32, tag: u8) -> Vec<u8> {
    let level = random_level(random);
    match tag {
        BITMAP => option_with(domain, tag, level, &[0; 31]),
        ENUMERATED => {
            let octets: Vec<u8> = (1..=16u16).flat_map(|number| number.to_be_bytes()).collect();
            option_with(domain, tag, level, &octets)
        }
        _ => {
            let octets: Vec<u8> = (1..=16u16).rev().flat_map(|number| (10 * number).to_be_bytes()).collect();
            option_with(domain, RANGES, level, &octets)
        }
    }
}

/// A tag 2 or 5 with one bad number or pair among good ones, at any place.
pub fn option_with_bad_category(random: &mut Random, domain: u32) -> Vec<u8> {
    let level = random_level(random);
    if random.chance(1, 2) {
        let count = random.pick(&[1, 2, 3, 5, 14, 15]);
        let mut numbers: Vec<u16> = (0..count).map(|index| 10 + 7 * index as u16 + random.below(6) as u16).collect();
        let bad = random.below(count);
        numbers[bad] = match random.below(4) {
            _ if bad == 0 => 65_535,
            0 => numbers[bad - 1],
            1 => numbers[bad - 1] - 1,
            2 => random.below(numbers[bad - 1] as usize + 1) as u16,
            _ => 65_535,
        };
        let octets: Vec<u8> = numbers.iter().flat_map(|number| number.to_be_bytes()).collect();
        option_with(domain, ENUMERATED, level, &octets)
    } else {
        let count = random.pick(&[1, 2, 3, 6, 7]);
        // From the top down: 1000-991, 980-971, and so on.
        let mut pairs: Vec<[u16; 2]> = (0..count as u16).map(|index| [1000 - 20 * index, 991 - 20 * index]).collect();
        let bad = random.below(count);
        match random.below(7) {
            0 => pairs[bad][1] = pairs[bad][0] + 1,
            1 => pairs[bad][1] = 65_535,
            2 => pairs[bad] = [65_535, 65_535],
            3 if bad > 0 => pairs[bad][0] = pairs[bad - 1][1],
            4 if bad > 0 => pairs[bad][0] = pairs[bad - 1][1] + 1,
            5 if bad > 0 => {
                // After a bottom of 0 every further pair is bad.
                pairs[bad - 1][1] = 0;
                pairs[bad] = [0, 0];
            }
            _ => pairs[bad][0] = 65_535,
        }
        let mut octets: Vec<u8> = pairs.iter().flatten().flat_map(|number| number.to_be_bytes()).collect();
        if random.chance(1, 3) {
            // The last bottom is left out, and the pair may be good again.
            octets.truncate(octets.len() - 2);
        }
        option_with(domain, RANGES, level, &octets)
    }
}

/// Changes one octet: by one bit, by one, or to anything.
pub fn mutate(random: &mut Random, octets: &mut [u8]) {
    if octets.is_empty() {
        return;
    }
    let place = random.below(octets.len());
    octets[place] = match random.below(5) {
        0 => octets[place] ^ 1 << random.below(8),
        1 => octets[place].wrapping_add(1),
        2 => octets[place].wrapping_sub(1),
        3 => random.pick(&[0, 1, 2, 5, 10, 40, 130, 133, 134, 255]),
        _ => random.octet(),
    };
}

/// Changes an octet or two, or takes four octets away or puts four in.
pub fn change_area(random: &mut Random, turn: usize, area: &mut Vec<u8>) {
    match turn % 8 {
        0 => area.truncate(area.len().saturating_sub(4)),
        1 => {
            let octets = random.octets(4);
            let place = random.below(area.len() + 1);
            area.splice(place..place, octets);
        }
        2 => {
            mutate(random, area);
            mutate(random, area);
        }
        _ => mutate(random, area),
    }
}

/// An area of exactly `length` octets: random, or pieces of options one after the other.
pub fn area_of_length(random: &mut Random, length: usize) -> Vec<u8> {
    let mut area = Vec::new();
    while area.len() < length {
        match random.below(6) {
            0 => {
                let count = random.between(1, 6);
                area.extend(random.octets(count));
            }
            1 => area.push(1),
            2 => area.extend(random_option(random)),
            _ => {
                let size = random.between(2, 8);
                area.extend(kept_option(random, size));
            }
        }
    }
    area.truncate(length);
    area
}

/// A number over the given one now and then, else the given one.
pub fn later_number(random: &mut Random, number: u8, highest: u8) -> u8 {
    if number < highest && random.chance(1, 3) {
        random.between(number as usize + 1, highest as usize) as u8
    } else {
        number
    }
}

/// Two or three refusals, in an order in which they can be made one after the other: what replaces the option or the label comes
/// before what spoils it, and records are spoiled last.
pub fn several_numbers(random: &mut Random, highest: u8) -> Vec<u8> {
    let mut numbers: Vec<u8> = (0..random.between(2, 3)).map(|_| random.between(2, highest as usize) as u8).collect();
    numbers.sort_by_key(|number| match number {
        12 | 14 => (0, *number),
        2 => (2, 2),
        _ => (1, *number),
    });
    numbers.dedup();
    numbers
}
