// Strict ports: spellings that are slack, and such as are nearly so.

use crate::cases::{Case, DeliverCase, ForwardCase};
use crate::option::{BITMAP, ENUMERATED, MAX_OCTETS, RANGES};

use super::boxes::boxed_forward;
use super::drafts::*;
use super::random::Random;
use super::sets::*;
use super::spellings::option_with;
use super::wide::{wide_delivered, wide_forwarded};
use super::Made;

/// A bitmap of that many octets whose last one is 0, or isn't.
fn bitmap(random: &mut Random, length: usize, trailing_zero: bool) -> Vec<u8> {
    let mut octets = random.octets(length);
    if let Some(last) = octets.last_mut() {
        *last = if trailing_zero { 0 } else { random.pick(&[1, 128, 255]) };
    }
    if random.chance(1, 4) && length > 1 {
        octets[length - 2] = 0;
    }
    octets
}

/// Pairs from the top down, which do not touch; the last bottom is written out and is not 0.
fn pairs(random: &mut Random, count: usize) -> Vec<[u16; 2]> {
    let mut next = 65_534 - random.below(3) as u16;
    let mut pairs = Vec::new();
    for _ in 0..count {
        let bottom = next - random.below(500) as u16;
        pairs.push([next, bottom]);
        next = bottom - random.between(2, 500) as u16;
    }
    pairs
}

fn octets_of(pairs: &[[u16; 2]]) -> Vec<u8> {
    pairs.iter().flatten().flat_map(|number| number.to_be_bytes()).collect()
}

/// Ways in which an option is slack.
const SLACK: usize = 8;

fn slack_option(random: &mut Random, domain: u32, way: usize) -> Vec<u8> {
    let level = random_level(random);
    let count = random.between(1, 7);
    match way % SLACK {
        // "a tag 1 bitmap with a trailing zero octet, unless it has exactly ten octets"
        0 => option_with(domain, BITMAP, level, &[0]),
        1 => {
            let length = random.pick(&[9, 11, 30, 2, 8, 20]);
            option_with(domain, BITMAP, level, &bitmap(random, length, true))
        }
        2 => {
            let length = random.pick(&[9, 11, 29, 30, 1, 5]);
            option_with(domain, BITMAP, level, &vec![0; length])
        }
        // "touching tag 5 pairs": the first two, the last two, any.
        3 | 4 => {
            let mut made = pairs(random, count.max(2));
            let last = made.len() - 1;
            let second = [1, last, random.between(1, last)][random.below(3)];
            made[second][0] = made[second - 1][1] - 1;
            let mut octets = octets_of(&made);
            if random.chance(1, 3) {
                octets.truncate(octets.len() - 2);
            }
            option_with(domain, RANGES, level, &octets)
        }
        // "a last bottom of 0 written out": of the only pair too.
        5 => {
            let top = random.pick(&[0, 1, 239, 65_534]);
            option_with(domain, RANGES, level, &octets_of(&[[top, 0]]))
        }
        6 => {
            let mut made = pairs(random, count);
            made[count - 1][1] = 0;
            option_with(domain, RANGES, level, &octets_of(&made))
        }
        _ => {
            let high = random.between(1, 500) as u16;
            let low = random.below(high as usize) as u16;
            option_with(domain, RANGES, level, &octets_of(&[[high, low + 1], [low, 0]]))
        }
    }
}

/// Ways in which an option is nearly slack.
const NEAR: usize = 11;

fn tight_option(random: &mut Random, domain: u32, way: usize) -> Vec<u8> {
    let level = random_level(random);
    let count = random.between(1, 7);
    match way % NEAR {
        // Ten octets, with zeros at their end and of zeros alone.
        0 => option_with(domain, BITMAP, level, &bitmap(random, 10, true)),
        1 => option_with(domain, BITMAP, level, &[0; 10]),
        2 => {
            let length = random.pick(&[1, 9, 10, 11, 30]);
            option_with(domain, BITMAP, level, &bitmap(random, length, false))
        }
        // Nothing in a tag.
        3 => option_with(domain, random.pick(&[BITMAP, ENUMERATED, RANGES]), level, &[]),
        // A list of neighbours that ends with octets of 0.
        4 => option_with(domain, ENUMERATED, level, &[0, 0, 0, 1, 0, 2, 1, 0][..2 * random.between(1, 4)].to_vec()),
        // Pairs that are just apart.
        5 => {
            let mut made = pairs(random, count.max(2));
            made[1][0] = made[0][1] - 2;
            option_with(domain, RANGES, level, &octets_of(&made))
        }
        // The last bottom left out, also where a top of 0 stands alone.
        6 => {
            let mut octets = octets_of(&pairs(random, count));
            octets.truncate(octets.len() - 2);
            option_with(domain, RANGES, level, &octets)
        }
        7 => option_with(domain, RANGES, level, &[0, 0]),
        // Slack, and bad too: 12 comes before 23.
        8 => {
            let mut made = pairs(random, count.max(3));
            let last = made.len() - 1;
            made[1][0] = made[0][1] - 1;
            made[last] = [100, random.pick(&[101, 200, 65_535])];
            option_with(domain, RANGES, level, &octets_of(&made))
        }
        9 => option_with(domain, RANGES, level, &octets_of(&[[random.pick(&[5, 65_535]), 9], [8, 0]])),
        // A last bottom of 1, and one that ends with an octet of 0.
        _ => {
            let mut made = pairs(random, count);
            made[count - 1][1] = random.pick(&[1, 256]);
            option_with(domain, RANGES, level, &octets_of(&made))
        }
    }
}

/// An area with this option among others.
fn area_with(random: &mut Random, option: Vec<u8>) -> Vec<u8> {
    let kept = kept_options(random, MAX_OCTETS - option.len().min(MAX_OCTETS));
    datagram_of(random, Some(option), kept).area(random)
}

/// A slack option, alone or with a fault behind it (13) that comes later.
pub fn slack_area(random: &mut Random, domain: u32, turn: usize) -> Vec<u8> {
    loop {
        let mut option = slack_option(random, domain, turn);
        if turn % 5 == 4 && option.len() < MAX_OCTETS {
            option.push(random.pick(&[0, 1, 255]));
            option[1] += 1;
        }
        let area = area_with(random, option);
        if area.len() <= MAX_OCTETS {
            return area;
        }
    }
}

fn tight_area(random: &mut Random, domain: u32, turn: usize) -> Vec<u8> {
    loop {
        let option = tight_option(random, domain, turn);
        let area = area_with(random, option);
        if area.len() <= MAX_OCTETS {
            return area;
        }
    }
}

fn a_forward(random: &mut Random, turn: usize) -> ForwardCase {
    match wide_forwarded(random, turn, 0) {
        Made::Case(Case::Forward(case)) => *case,
        _ => unreachable!("it makes such cases alone"),
    }
}

fn a_delivery(random: &mut Random, turn: usize) -> DeliverCase {
    match wide_delivered(random, turn, 0) {
        Made::Case(Case::Deliver(case)) => *case,
        _ => unreachable!("it makes such cases alone"),
    }
}

pub fn strict_forward_slack(random: &mut Random, turn: usize, _number: u8) -> Made {
    let mut case = a_forward(random, turn);
    case.arriving.strict = true;
    case.leaving.strict = random.chance(1, 2);
    case.area = slack_area(random, case.arriving.domain, turn);
    Made::Case(Case::Forward(Box::new(case)))
}

/// Slack options at a port that is not strict, and nearly slack ones at one that is.
pub fn strict_forward_near(random: &mut Random, turn: usize, _number: u8) -> Made {
    let mut case = a_forward(random, turn);
    case.arriving.strict = turn % 3 != 0;
    case.leaving.strict = turn % 3 == 0;
    let domain = case.arriving.domain;
    case.area =
        if case.arriving.strict { tight_area(random, domain, turn / 3 * 2 + turn % 3 - 1) } else { slack_area(random, domain, turn / 3) };
    Made::Case(Case::Forward(Box::new(case)))
}

/// What a strict port forwards.
pub fn strict_forwarded(random: &mut Random, turn: usize, _number: u8) -> Made {
    let mut case = a_forward(random, turn);
    (case.arriving.strict, case.leaving.strict) = (true, turn % 2 == 0);
    Made::Case(Case::Forward(Box::new(case)))
}

pub fn strict_deliver_slack(random: &mut Random, turn: usize, _number: u8) -> Made {
    let mut case = a_delivery(random, turn);
    case.port.strict = true;
    case.area = slack_area(random, case.port.domain, turn);
    Made::Case(Case::Deliver(Box::new(case)))
}

pub fn strict_delivered(random: &mut Random, turn: usize, _number: u8) -> Made {
    let mut case = a_delivery(random, turn);
    case.port.strict = true;
    Made::Case(Case::Deliver(Box::new(case)))
}

pub fn strict_box_slack(random: &mut Random, turn: usize, _number: u8) -> Made {
    let mut case = boxed_forward(random, turn);
    let port = &mut case.records.ports[case.arriving as usize];
    port.strict = true;
    case.area = slack_area(random, port.domain, turn);
    Made::Case(Case::InBox(Box::new(case)))
}

/// Marks ports strict now and then.
pub fn strict_some(random: &mut Random) -> bool {
    random.chance(1, 5)
}
