// Cases of one option read alone.

use crate::cases::Case;
use crate::option::TAGS;

use super::faults::*;
use super::random::Random;
use super::sets::*;
use super::spellings::*;
use super::Made;

pub fn read_valid(random: &mut Random, turn: usize, _number: u8) -> Made {
    if turn % 10 == 0 {
        let label = random_label(random, 5, Shape::Alternating).label().expect("a shape is well formed");
        return Made::Case(Case::Read(random_spelling(random, &label).expect("it has a spelling")));
    }
    Made::Case(Case::Read(random_option(random)))
}

pub fn read_unfilled(random: &mut Random, turn: usize, _number: u8) -> Made {
    let mut option = random_option(random);
    match turn % 9 {
        0 => option.clear(),
        1 => option.truncate(1),
        2 => option[0] = random.pick(&[0, 1, 7, 130, 133, 135]),
        3 => option[1] = option[1].wrapping_add(1),
        4 => option[1] -= 1,
        5 => option[1] = random.below(2) as u8,
        // A longer buffer is 3, not 13.
        6 => option.push(0),
        7 => option.truncate(2),
        _ => option.insert(0, 1),
    }
    Made::Case(Case::Read(option))
}

pub fn read_broken(random: &mut Random, turn: usize, number: u8) -> Made {
    let mut option = random_option(random);
    if number == 10 && turn % 4 == 0 {
        let domain = random_domain(random);
        return Made::Case(Case::Read(long_option(random, domain, TAGS[turn / 4 % 3])));
    }
    // A later fault must not hide this one.
    let later = later_number(random, number, 13);
    if later > number && later != 13 {
        break_option(random, &mut option, later, false);
    }
    break_option(random, &mut option, number, false);
    if later == 13 && number > 7 && number < 13 {
        break_option(random, &mut option, later, false);
    }
    Made::Case(Case::Read(option))
}

/// Buffers of every length, changed options, and options with several faults.
pub fn read_changed(random: &mut Random, turn: usize, _number: u8) -> Made {
    if turn % 3 == 0 {
        let length = random.below(256);
        let mut octets = random_option(random);
        octets.resize(length, random.octet());
        if length > 1 {
            octets[1] = length as u8;
        }
        if length > 44 && random.chance(1, 2) {
            // Tag lengths over their limits that still fit the option.
            octets[7] = random.between(33, 38) as u8;
        }
        return Made::Case(Case::Read(octets));
    }
    let mut option = random_option(random);
    if turn % 3 == 1 {
        mutate(random, &mut option);
    } else {
        for _ in 0..random.between(2, 3) {
            let number = random.between(8, 13) as u8;
            break_option(random, &mut option, number, false);
        }
    }
    Made::Case(Case::Read(option))
}
