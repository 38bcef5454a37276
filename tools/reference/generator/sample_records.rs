// Records for the sample program, from a count and a seed.

use std::collections::BTreeMap;
use std::io::{self, Write};

use crate::label::{HeldLabel, Run};
use crate::option::MAX_OCTETS;
use crate::sample::{arriving, Sample};

use super::drafts::*;
use super::faults::*;
use super::random::Random;
use super::ranges::outside;
use super::sets::*;
use super::spellings::*;
use super::{report, verdict, TRIES};

/// What can occur in the sample: its records are sound, so there is no 2; its leaving range is everything, so there is no 17.
const ANSWERS: [&str; 16] = ["FORWARD", "1", "3", "4", "5", "6", "7", "8", "9", "10", "11", "12", "13", "14", "16", "18"];

/// A datagram of domain 5 that the sample is likely to forward, and its label.
fn good_datagram(random: &mut Random) -> (Datagram, HeldLabel) {
    loop {
        let shape = random.pick(&[Shape::Empty, Shape::One, Shape::List, Shape::Bitmap, Shape::Ranges, Shape::Tie]);
        let runs: Vec<Run> = random_runs(random, shape)
            .into_iter()
            .filter(|run| run.low <= 300)
            .map(|run| Run { low: run.low, high: run.high.min(300) })
            .collect();
        let label = held(5, random.pick(&[1, 3, 5]), &runs);
        let meant = label.label().expect("a part of a shape is well formed");
        let option = match random_spelling(random, &meant) {
            Some(option) => option,
            None => continue,
        };
        let room = (MAX_OCTETS - option.len()).min(8);
        let mut kept = Vec::new();
        if room >= 2 && random.chance(1, 3) {
            let length = random.between(2, room);
            kept.push(kept_option(random, length));
        }
        return (datagram_of(random, Some(option), kept), label);
    }
}

/// An area for which the wanted number is likely; 0 stands for FORWARD.
fn area_for(random: &mut Random, number: u8) -> Vec<u8> {
    let (mut datagram, label) = good_datagram(random);
    match number {
        1 => {
            let mut area = datagram.area(random);
            wrong_size(random, &mut area);
            return area;
        }
        3..=5 => break_walk(random, &mut datagram, number),
        6 => {
            if let Some(index) = datagram.cipso.take() {
                datagram.options.remove(index);
            }
        }
        7..=13 => {
            if let Some(index) = datagram.cipso {
                break_option(random, &mut datagram.options[index], number, true);
            }
        }
        14 => {
            let label = outside(random, &label, &arriving().lowest, &arriving().highest);
            relabel(random, &mut datagram, &label);
        }
        16 => {
            let label = HeldLabel { level: random.pick(&[2, 4]), ..label };
            relabel(random, &mut datagram, &label);
        }
        18 if random.chance(1, 2) => {
            // Over 15 categories in over 7 runs, some of which go over 1000.
            let last = random.between(70, 200) as u16;
            let runs: Vec<Run> = (20..=last).step_by(3).map(|low| Run { low, high: low }).collect();
            relabel(random, &mut datagram, &held(5, 3, &runs));
        }
        18 => {
            let used: usize = datagram.options.iter().map(Vec::len).sum();
            if used + 2 <= MAX_OCTETS {
                datagram.options.push(kept_option(random, MAX_OCTETS - used));
            }
        }
        _ => {}
    }
    datagram.area(random)
}

/// FORWARD, or the number after DROP.
fn answer_of(line: &str) -> &str {
    let mut words = line.split(' ');
    match words.next() {
        Some("DROP") => words.next().unwrap_or(""),
        word => word.unwrap_or(""),
    }
}

/// Writes `count` records, the last one cut short, and prints how often each answer is hit. False where one is hit too seldom.
pub fn records(count: usize, seed: u64, output: &mut impl Write) -> io::Result<bool> {
    let mut random = Random::new(seed);
    let sample = Sample::new();
    let mut hits: BTreeMap<String, usize> = BTreeMap::new();
    let mut turn = 0;
    for number in 1..count {
        // Some areas are of any length, some are good ones with one octet changed; the others go through the answers.
        let area = if number % 8 == 1 {
            let length = random.below(256);
            area_of_length(&mut random, length)
        } else if number % 4 == 3 {
            let mut area = good_datagram(&mut random).0.area(&mut random);
            change_area(&mut random, number / 4, &mut area);
            area
        } else {
            turn += 1;
            area_with_answer(&mut random, &sample, ANSWERS[turn % ANSWERS.len()])
        };
        *hits.entry(answer_of(&sample.line_of(&area)).to_string()).or_insert(0) += 1;
        output.write_all(&[area.len() as u8])?;
        output.write_all(&area)?;
    }
    if count > 0 {
        let length = random.between(1, 255);
        let octets = random.octets(length - 1);
        output.write_all(&[length as u8])?;
        output.write_all(&octets)?;
    }
    let mut enough = true;
    print!("sample    ");
    for answer in ANSWERS {
        enough &= report(answer, *hits.get(answer).unwrap_or(&0));
    }
    println!();
    println!("{} records, the last one cut short", count);
    Ok(verdict(enough, count))
}

fn area_with_answer(random: &mut Random, sample: &Sample, wanted: &str) -> Vec<u8> {
    let number = wanted.parse().unwrap_or(0);
    for _ in 0..TRIES {
        let area = area_for(random, number);
        if area.len() <= 255 && answer_of(&sample.line_of(&area)) == wanted {
            return area;
        }
    }
    panic!("the sample does not reach {}", wanted);
}
