// Files for the sample program: the one that says what document 01's sample says, and variants of it.

use crate::file::{file_of, SetRecord, FIRST, MAX_PORTS, VERSIONS, VERSION_AT};
use crate::label::HeldLabel;
use crate::sample;

use super::basic::{any_way, switch_on};
use super::files::*;
use super::long_tables::lengthen;
use super::random::Random;
use super::sets::*;
use super::tables::{lose_level, Order};

/// Ways to change the sample's file.
pub const VARIANTS: usize = 16;

pub fn sample_set() -> SetRecord {
    SetRecord::of(&[sample::arriving(), sample::leaving()], &[sample::table()])
}

/// Later fields for the first two ports, and a long table.
fn say_more(random: &mut Random, set: &mut SetRecord, number: usize) {
    match number {
        4 => set.ports[1].spellings = random.pick(&[1, 2, 4, 8]),
        6 => {
            set.ports[1].unlabelled = true;
            set.ports[1].default = HeldLabel::empty(set.ports[1].domain, 4);
        }
        7 => lengthen(random, &mut set.tables[0], 256, 1024, Order::Scattered),
        8 => {
            for port in &mut set.ports[..2] {
                let (receiving, sending) = (any_way(random), any_way(random));
                switch_on(port, receiving, sending);
            }
        }
        9 => lengthen(random, &mut set.tables[0], 17, 65, Order::Reversed),
        _ => {}
    }
}

pub fn variant(number: usize, seed: u64) -> Vec<u8> {
    let mut random = Random::new(seed);
    let (arriving, leaving, table) = (sample::arriving(), sample::leaving(), sample::table());
    let mut set = sample_set();
    match number % VARIANTS {
        0 => {}
        // Missing records.
        1 => set = SetRecord::of(&[arriving, leaving], &[]),
        2 => set = SetRecord::of(&[arriving], &[table]),
        3 => set = SetRecord::of(&[], &[table]),
        4 => set = SetRecord::of(&[arriving.clone(), arriving], &[]),
        // Other records, and records behind those that are used.
        5 => set.tables[0].to = 8,
        6 => {
            let mut foreign = table.clone();
            foreign.from = 6;
            set = SetRecord::of(&[arriving, leaving], &[foreign, table]);
        }
        7 => {
            let more = rich_set(&mut random, &FIRST);
            let ports = [&[arriving, leaving], &more.ports[..more.port_count as usize]].concat();
            let tables = [&[table], &more.tables[..more.table_count as usize]].concat();
            set = SetRecord::of(&ports, &tables);
        }
        8 => {
            let mut ports = vec![leaving; MAX_PORTS];
            ports[0] = arriving;
            set = SetRecord::of(&ports, &[table]);
        }
        9 => set.ports[1].highest = held(9, random.between(0, 255) as u8, &random_runs(&mut random, Shape::Ranges)),
        10 => {
            set.ports[0].required = false;
            set.ports[0].assigned = HeldLabel { level: 3, ..set.ports[0].highest.clone() };
        }
        11 => lose_level(&mut set.tables[0], random.pick(&[1, 3, 5])),
        _ => {}
    }
    // The same in every version; the later ones can say more.
    let version = VERSIONS[number / VARIANTS % VERSIONS.len()];
    if version.later_fields {
        say_more(&mut random, &mut set, number % VARIANTS);
    }
    if version.mark && [0, 5, 7, 11].contains(&(number % VARIANTS)) {
        set.ports[0].strict = true;
    }
    let mut octets = file_of(&set, &version);
    match number % VARIANTS {
        // Files that are refused.
        12 => {
            let mut layout = Layout::of(&set, &version);
            // Some fields are not in this file.
            while layout.octets == octets {
                let name = random.pick(&ruled(&version));
                layout.break_rule(&mut random, name);
            }
            octets = layout.octets;
        }
        13 => octets[VERSION_AT] = random.pick(&[0, 4, 5, 255]),
        14 => octets.truncate(random.below(octets.len())),
        // Octets behind the file, few or more than a buffer is likely to hold.
        15 => {
            let limit = version.max_file;
            let more = random.pick(&[1, limit - octets.len(), limit, 65_536, 65_536 + octets.len()]);
            octets.resize(octets.len() + more, 0);
        }
        _ => {}
    }
    octets
}
