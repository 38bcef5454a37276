// Every valid option that means a label, not only the shortest.

use crate::label::{Label, Run, BITMAP_CATEGORIES};
use crate::option::{spell, BITMAP, CIPSO, ENUMERATED, PLAIN_SPELLINGS, TAGS};

use super::random::Random;
use super::sets::*;

/// A valid option that means the label, if there is one: any tag that has one, with trailing zero octets, touching pairs and a
/// bottom 0 written out or left out.
pub fn random_spelling(random: &mut Random, label: &Label) -> Option<Vec<u8>> {
    spell(label, PLAIN_SPELLINGS)?;
    loop {
        let tag = random.pick(&TAGS);
        let octets = match tag {
            BITMAP => spelling_bitmap(random, label),
            ENUMERATED => spelling_list(label),
            _ => spelling_pairs(random, label),
        };
        if let Some(octets) = octets {
            return Some(option_with(label.domain, tag, label.level, &octets));
        }
    }
}

/// An option of any tag type, with any octets after its level.
pub fn option_with(domain: u32, tag: u8, level: u8, octets: &[u8]) -> Vec<u8> {
    let mut option = vec![CIPSO, 10 + octets.len() as u8];
    option.extend(domain.to_be_bytes());
    option.extend([tag, 4 + octets.len() as u8, 0, level]);
    option.extend(octets);
    option
}

pub fn spelling_bitmap(random: &mut Random, label: &Label) -> Option<Vec<u8>> {
    let least = match label.categories.highest() {
        None => 0,
        Some(highest) if highest < BITMAP_CATEGORIES => highest as usize / 8 + 1,
        Some(_) => return None,
    };
    // 10 octets are the draft's "optimized tag 1 format".
    let length = match random.below(6) {
        0 => 10,
        1 => 30,
        2 => least + 1,
        3 => random.between(least, 30),
        _ => least,
    };
    let mut octets = vec![0; length.clamp(least, 30)];
    for category in label.categories.iter() {
        octets[category as usize / 8] |= 0x80 >> (category % 8);
    }
    Some(octets)
}

pub fn spelling_list(label: &Label) -> Option<Vec<u8>> {
    if label.categories.len() > 15 {
        return None;
    }
    Some(label.categories.iter().flat_map(|category| category.to_be_bytes()).collect())
}

pub fn spelling_pairs(random: &mut Random, label: &Label) -> Option<Vec<u8>> {
    let mut pairs = label.categories.runs();
    if pairs.len() > 7 {
        return None;
    }
    while pairs.len() < 7 && random.chance(1, 3) {
        let index = random.below(pairs.len().max(1));
        let pair = match pairs.get(index) {
            Some(pair) if pair.low < pair.high => *pair,
            _ => continue,
        };
        let parted = random.between(pair.low as usize, pair.high as usize - 1) as u16;
        pairs[index].high = parted;
        pairs.insert(index + 1, Run { low: parted + 1, high: pair.high });
    }
    let left_out = random.chance(1, 2);
    let mut octets = Vec::new();
    for pair in pairs.iter().rev() {
        octets.extend(pair.high.to_be_bytes());
        if pair.low != 0 || !left_out {
            octets.extend(pair.low.to_be_bytes());
        }
    }
    Some(octets)
}

/// A valid option with a domain that is not 0.
pub fn random_option(random: &mut Random) -> Vec<u8> {
    loop {
        let (domain, shape) = (random_domain(random), random_shape(random));
        let label = random_label(random, domain, shape).label().expect("a shape is well formed");
        if let Some(option) = random_spelling(random, &label) {
            return option;
        }
    }
}
