// Records for the inspector, and the file that they are made for.

use std::collections::BTreeMap;
use std::io::{self, Write};

use crate::cases::{Case, ForwardCase};
use crate::file::{file_of, SetRecord, Version, MAX_PORTS, MAX_TABLES, VERSIONS};
use crate::inspect::{Inspector, Record};
use crate::label::HeldLabel;
use crate::records::{PortRecord, TableRecord};

use super::basic::{basic_option, random_marking};
use super::drafts::*;
use super::faults::*;
use super::forward::forwarded;
use super::long_tables::lengthen;
use super::random::Random;
use super::spellings::random_spelling;
use super::strict::slack_area;
use super::tables::Order;
use super::wide::wide_forwarded;
use super::{report, verdict, Made};

/// Records of every length up to this one are among those that are made.
const LONGEST: usize = 300;

/// Datagrams that are likely to be forwarded between the ports of a set: each with the numbers of its ports and its area.
struct Traffic {
    set: SetRecord,
    good: Vec<(u8, u8, Vec<u8>)>,
}

fn a_forward(random: &mut Random, turn: usize, version: &Version) -> ForwardCase {
    loop {
        let made = if version.later_fields { wide_forwarded(random, turn, 0) } else { forwarded(random, turn, 0) };
        if let Made::Case(Case::Forward(case)) = made {
            if case.arriving.sound().is_some() && case.leaving.sound().is_some() && case.table.sound().is_some() {
                return *case;
            }
        }
    }
}

/// A set that the version can say, of at most 16 ports and 8 tables.
fn traffic(random: &mut Random, version: &Version) -> Traffic {
    let (mut ports, mut tables, mut good): (Vec<PortRecord>, Vec<TableRecord>, Vec<(u8, u8, Vec<u8>)>) = Default::default();
    for turn in 0..MAX_PORTS / 2 {
        let mut case = a_forward(random, turn, version);
        case.arriving.strict = version.mark && turn % 2 == 0;
        case.leaving.strict = version.mark && turn % 3 == 0;
        good.push((ports.len() as u8, ports.len() as u8 + 1, case.area));
        let (from, to) = (case.arriving.domain, case.leaving.domain);
        let first = tables.iter().all(|table| (table.from, table.to) != (from, to));
        if from != to && (case.table.from, case.table.to) == (from, to) && tables.len() < MAX_TABLES {
            if version.later_fields && turn % 3 == 0 {
                lengthen(random, &mut case.table, 256, 1024, Order::Scattered);
            }
            // A second table for a pair of domains is never read.
            if first || turn % 2 == 0 {
                tables.push(case.table);
            }
        }
        ports.extend([case.arriving, case.leaving]);
    }
    Traffic { set: SetRecord::of(&ports, &tables), good }
}

/// An option that means the lowest or highest label of a port, if there is one.
fn own_option(random: &mut Random, port: &PortRecord) -> Option<Vec<u8>> {
    let label: HeldLabel = random.pick(&[port.lowest.clone(), port.highest.clone()]);
    random_spelling(random, &label.label()?)
}

/// An area for a port, of the kind that the turn says.
fn random_area(random: &mut Random, port: &PortRecord, good: &[u8], turn: usize) -> Vec<u8> {
    let mut area = good.to_vec();
    let option = own_option(random, port);
    let mut datagram = datagram_of(random, option, Vec::new());
    match turn % 16 {
        0..=5 => return area,
        6 | 7 => {
            change_area(random, turn / 16, &mut area);
            return area;
        }
        8 => {
            let length = random.between(0, 44);
            return area_of_length(random, length);
        }
        9 => {
            wrong_size(random, &mut area);
            return area;
        }
        10 => return slack_area(random, port.domain, turn / 16),
        11 => break_walk(random, &mut datagram, [3, 4, 5][turn / 16 % 3]),
        12 | 13 => {
            if let Some(index) = datagram.cipso {
                break_option(random, &mut datagram.options[index], 7 + (turn / 16 % 7) as u8, true);
            }
        }
        14 => datagram = datagram_of(random, None, Vec::new()),
        _ => {}
    }
    if port.basic.on && random.chance(2, 3) {
        insert_option(random, &mut datagram, |random| {
            let marking = random_marking(random);
            basic_option(random, &marking)
        });
    }
    datagram.area(random)
}

/// A record that agrees.
fn agreeing(random: &mut Random, traffic: &Traffic, inspector: &Inspector, turn: usize) -> Record {
    let (arriving, leaving, good) = random.pick(&traffic.good);
    let count = traffic.set.port_count as usize;
    let leaving = if random.chance(1, 8) { random.below(count) as u8 } else { leaving };
    let mut area = random_area(random, &traffic.set.ports[arriving as usize], &good, turn);
    area.truncate(255);
    let facts = match turn / 3 % 8 {
        alone @ 0..=4 if turn % 3 == 0 => std::array::from_fn(|place| (place == alone) as u8),
        _ => [0; 5],
    };
    let mut record = Record { arriving, leaving, facts, area, claim: [0; 4], leaving_area: Vec::new() };
    if let Some(outcome) = inspector.outcome(&record) {
        (record.claim, record.leaving_area) = (outcome.decision, outcome.leaving_area);
    }
    record
}

/// One place of the claim is wrong: each of the decision and the length in turn.
fn claim_wrongly(random: &mut Random, record: &mut Record, turn: usize) {
    let place = turn % 7;
    match place {
        0..=3 => record.claim[place] = record.claim[place].wrapping_add(random.pick(&[1, 255, 128])),
        4 => {
            record.leaving_area.pop();
        }
        5 => record.leaving_area.push(random.pick(&[0, 1, 134])),
        _ => record.leaving_area.resize(random.pick(&[1, 4, 40, 41, 255]), 0),
    }
}

/// Every octet of a leaving area is wrong in turn, and now and then a second one.
fn write_wrongly(random: &mut Random, record: &mut Record, turn: usize) {
    let length = record.leaving_area.len();
    if length == 0 {
        return;
    }
    record.leaving_area[turn % length] ^= 1 << random.below(8);
    if turn % 8 == 7 {
        record.leaving_area[random.below(length)] ^= 1;
    }
}

/// Several claims are wrong at once: the first of them is told.
fn claim_several(random: &mut Random, record: &mut Record) {
    for _ in 0..2 {
        let turn = random.below(7);
        claim_wrongly(random, record, turn);
    }
}

/// The octets of a record in which one field makes it broken.
fn broken_record(random: &mut Random, record: &Record, ports: usize, turn: usize) -> Vec<u8> {
    let mut octets = record.octets();
    let claim_at = 9 + record.area.len();
    match turn % 14 {
        0 => octets[0] = random.pick(&[0, 2, 3, 255]),
        1 => octets[1] = random.pick(&[ports as u8, ports as u8 + 1, 255]),
        2 => octets[2] = random.pick(&[ports as u8, ports as u8 + 1, 255]),
        place @ 3..=7 => octets[place] = random.pick(&[2, 255, 128]),
        8 => octets[8] = octets[8].wrapping_add(random.pick(&[1, 255])),
        9 => octets[claim_at + 4] = octets[claim_at + 4].wrapping_add(random.pick(&[1, 255])),
        10 => octets.push(0),
        11 => {
            octets.pop();
        }
        // Cut at every octet.
        _ => octets.truncate(turn / 14 % octets.len()),
    }
    octets
}

/// A record of exactly that many octets: as it comes, or with an area that makes it so long.
fn record_of_length(random: &mut Random, record: &mut Record, inspector: &Inspector, length: usize, turn: usize) -> Vec<u8> {
    let least = record.octets().len() - record.area.len();
    if turn % 2 == 0 && length >= least && length - least <= 255 {
        record.area = area_of_length(random, length - least);
        if turn % 4 == 0 {
            let outcome = inspector.outcome(record);
            record.claim = outcome.map_or([0; 4], |outcome| outcome.decision);
        }
        return record.octets();
    }
    let mut octets = record.octets();
    octets.resize(length, random.pick(&[0, 1, 255]));
    octets
}

/// Writes records and the file that they are made for. The turn goes through the ways to be wrong; the last record is cut off.
pub fn recorded(count: usize, seed: u64, version: usize, records: &mut impl Write) -> io::Result<(bool, Vec<u8>)> {
    let version = &VERSIONS[version];
    let mut random = Random::new(seed);
    let traffic = traffic(&mut random, version);
    let inspector = Inspector::of_set(&traffic.set);
    let mut hits: BTreeMap<String, usize> = BTreeMap::new();
    let mut numbers: BTreeMap<u8, usize> = BTreeMap::new();
    let mut used = [0; 6];
    for number in 1..=count {
        let kind = number % used.len();
        let turn = used[kind];
        used[kind] += 1;
        let mut record = agreeing(&mut random, &traffic, &inspector, number);
        *numbers.entry(record.claim[0]).or_insert(0) += 1;
        let octets = match kind {
            0 | 1 => record.octets(),
            2 => {
                claim_wrongly(&mut random, &mut record, turn);
                if turn % 9 == 8 {
                    claim_several(&mut random, &mut record);
                }
                record.octets()
            }
            3 => {
                // One that is forwarded, if one is found soon.
                for other in 0..30 {
                    if record.leaving_area.is_empty() {
                        record = agreeing(&mut random, &traffic, &inspector, 16 * turn + other % 6);
                    }
                }
                write_wrongly(&mut random, &mut record, turn);
                record.octets()
            }
            4 => broken_record(&mut random, &record, traffic.set.port_count as usize, turn),
            _ => record_of_length(&mut random, &mut record, &inspector, turn % (LONGEST + 1), turn / (LONGEST + 1) + turn),
        };
        let line = inspector.line_of(&octets);
        *hits.entry(line).or_insert(0) += 1;
        let lead = (octets.len() as u16).to_be_bytes();
        if number == count {
            // One octet of the length, the length alone, or all but the last octet.
            let whole = [&lead[..], &octets].concat();
            records.write_all(&whole[..[1, 2, whole.len().max(3) - 1][seed as usize % 3].min(whole.len())])?;
            break;
        }
        records.write_all(&lead)?;
        records.write_all(&octets)?;
    }
    let mut enough = true;
    for line in ["AGREES", "BROKEN", "DIFFERS 0", "DIFFERS 1", "DIFFERS 2", "DIFFERS 3", "DIFFERS 4", "DIFFERS 5"] {
        enough &= report(line, *hits.get(line).unwrap_or(&0));
    }
    println!();
    numbers.iter().for_each(|(number, hits)| {
        report(&number.to_string(), *hits);
    });
    println!();
    Ok((verdict(enough, count), file_of(&traffic.set, version)))
}
