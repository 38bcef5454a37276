// Generates cases with their expected lines from a count and a seed.
//
// A cycle of slots is gone through again and again. A slot makes cases of one kind; where it wants a certain answer, it tries until
// the reference gives that answer. So every number of every entry is hit often, whatever the seed. Slots for unsound records and
// ill-formed labels take the clauses in turn.
//
//   labels, reading, bitmaps, files, reverse, forward, deliver, wide, boxes, messages, memories, broken     cases of one kind each
//   sets, spellings, ranges, tables, drafts, basic     good parts of cases
//   unsound, faults                             ways to spoil them
//   sample_records                              records for the sample program
//   recorded                                    records for the inspector

mod basic;
mod bitmaps;
mod boxes;
mod broken;
mod deliver;
mod drafts;
mod faults;
mod files;
mod forward;
mod labels;
mod long_tables;
mod memories;
mod messages;
mod random;
mod ranges;
mod reading;
pub mod recorded;
mod reverse;
pub mod sample_files;
pub mod sample_records;
mod sets;
mod spellings;
mod strict;
mod tables;
mod unsound;
mod wide;

use std::collections::BTreeMap;
use std::io::{self, Write};

use crate::cases::{
    encode, line_of, Case, BITMAP, BROKEN, BUILD_MESSAGE, CONTAINS, DELIVER, DELIVER_FACTS, DELIVER_WIDE, FORWARD, FORWARD_FACTS,
    FORWARD_WIDE, IN_BOX, MEMORY, READ, READ_AND_WRITE, READ_BASIC, READ_FILE, READ_MESSAGE, RENUMBER, RENUMBER_WIDE, REVERSE, SPELL,
    SPELL_PERMITTED, WITHIN, WRITE_BASIC, WRITE_FILE,
};
use crate::decision::Facts;
use crate::entries::Entries;

use basic::*;
use bitmaps::*;
use boxes::*;
use broken::*;
use deliver::*;
use files::*;
use forward::*;
use labels::*;
use long_tables::*;
use memories::*;
use messages::*;
use reading::*;
use reverse::*;
use strict::*;
use wide::*;

pub use files::{agree, break_range, largest_set, rich_set, ruled, set_of_length, sound_set, Layout};
pub use labels::{label_near_limits, random_label_and_table};
pub use random::Random;
pub use spellings::random_option;

/// With this many cases or more, and enough for the slots of all entries, every answer is hit at least `LEAST_HITS` times.
const COUNT_WITH_ALL: usize = 2000;
const LEAST_HITS: usize = 20;
/// A slot that does not reach its answer in this many tries is a mistake in the generator.
pub const TRIES: usize = 20_000;

/// The numbers that each entry can give.
const FORWARD_ANSWERS: &[&str] = &["0", "1", "2", "3", "4", "5", "6", "7", "8", "9", "10", "11", "12", "13", "14", "16", "17", "18"];
const DELIVER_ANSWERS: &[&str] = &["0", "1", "2", "3", "4", "5", "6", "7", "8", "9", "10", "11", "12", "13", "14", "15"];
const WIDE_FORWARD_ANSWERS: &[&str] =
    &["0", "1", "2", "3", "4", "5", "6", "7", "8", "9", "10", "11", "12", "13", "14", "16", "17", "18", "19", "20", "21", "23"];
const BOX_ANSWERS: &[&str] =
    &["0", "1", "2", "3", "4", "5", "6", "7", "8", "9", "10", "11", "12", "13", "14", "16", "17", "18", "19", "20", "21", "22", "23"];
const WIDE_DELIVER_ANSWERS: &[&str] =
    &["0", "1", "2", "3", "4", "5", "6", "7", "8", "9", "10", "11", "12", "13", "14", "15", "19", "20", "21", "23"];
const ANSWERS: &[(u8, &str, &[&str])] = &[
    (CONTAINS, "contains", &["YES", "NO"]),
    (WITHIN, "within", &["YES", "NO"]),
    (RENUMBER, "renumber", &["0", "2", "16", "18"]),
    (SPELL, "spell", &["0", "1", "2", "18"]),
    (READ, "read", &["0", "3", "7", "8", "9", "10", "11", "12", "13"]),
    (FORWARD, "forward", FORWARD_ANSWERS),
    (DELIVER, "deliver", DELIVER_ANSWERS),
    (FORWARD_FACTS, "forward", FORWARD_ANSWERS),
    (DELIVER_FACTS, "deliver", DELIVER_ANSWERS),
    (READ_FILE, "read a file", &["ACCEPTED", "REFUSED", "VERSION", "ROOM"]),
    (READ_AND_WRITE, "read and write", &["0", "1", "REFUSED", "VERSION", "ROOM"]),
    (WRITE_FILE, "write a file", &["0", "1", "2", "NAMED"]),
    (READ_BASIC, "read 130", &["0", "19"]),
    (WRITE_BASIC, "write 130", &["0", "1", "19"]),
    (FORWARD_WIDE, "forward", WIDE_FORWARD_ANSWERS),
    (DELIVER_WIDE, "deliver", WIDE_DELIVER_ANSWERS),
    (SPELL_PERMITTED, "spell", &["0", "1", "2", "18"]),
    (IN_BOX, "in a box", BOX_ANSWERS),
    (RENUMBER_WIDE, "renumber", &["0", "2", "16", "18"]),
    (BUILD_MESSAGE, "build a message", &["0", "2", "24"]),
    (READ_MESSAGE, "read a message", &["0", "25"]),
    (REVERSE, "reverse", &["0", "2", "24"]),
    (BITMAP, "bitmap", &["0", "10"]),
    (MEMORY, "memory", &["0", "2", "25"]),
];

enum Made {
    Case(Case),
    Octets(Vec<u8>),
}

/// How a slot makes its case: from the random numbers, from how often the slot was used, and from the number it wants.
type Maker = fn(&mut Random, usize, u8) -> Made;

fn octets_of(made: Made, spare: usize) -> Vec<u8> {
    match made {
        Made::Case(case) => encode(&case, spare),
        Made::Octets(octets) => octets,
    }
}

enum Make {
    By(Maker),
    Broken,
}

struct Slot {
    /// None for a slot that is there whatever is built.
    entry: Option<u8>,
    copies: usize,
    /// The first word of the line, or none where any will do.
    wanted: Option<&'static str>,
    number: u8,
    make: Make,
}

fn slot(entry: u8, copies: usize, wanted: &'static str, make: Maker) -> Slot {
    Slot { entry: Some(entry), copies, wanted: Some(wanted), number: wanted.parse().unwrap_or(0), make: Make::By(make) }
}

fn free_slot(entry: u8, copies: usize, make: Maker) -> Slot {
    Slot { entry: Some(entry), copies, wanted: None, number: 0, make: Make::By(make) }
}

fn broken_slot(copies: usize) -> Slot {
    Slot { entry: None, copies, wanted: Some(BROKEN), number: 0, make: Make::Broken }
}

fn all_slots() -> Vec<Slot> {
    vec![
        slot(CONTAINS, 1, "YES", contains_yes),
        slot(CONTAINS, 1, "NO", contains_no),
        slot(WITHIN, 1, "YES", within_yes),
        slot(WITHIN, 1, "NO", within_no),
        slot(RENUMBER, 1, "0", renumbered),
        slot(RENUMBER, 1, "16", renumber_no_number),
        slot(RENUMBER, 1, "18", renumber_over_large),
        slot(SPELL, 3, "0", spelled),
        slot(SPELL, 1, "1", spell_short_output),
        slot(SPELL, 1, "2", spell_ill_formed),
        slot(SPELL, 1, "18", spell_none),
        slot(READ, 3, "0", read_valid),
        slot(READ, 1, "3", read_unfilled),
        slot(READ, 1, "7", read_broken),
        slot(READ, 1, "8", read_broken),
        slot(READ, 1, "9", read_broken),
        slot(READ, 1, "10", read_broken),
        slot(READ, 1, "11", read_broken),
        slot(READ, 2, "12", read_broken),
        slot(READ, 1, "13", read_broken),
        slot(FORWARD, 4, "0", forwarded),
        slot(FORWARD, 1, "1", forward_wrong_size),
        slot(FORWARD, 1, "3", forward_broken),
        slot(FORWARD, 1, "4", forward_broken),
        slot(FORWARD, 1, "5", forward_broken),
        slot(FORWARD, 1, "6", forward_broken),
        slot(FORWARD, 1, "7", forward_broken),
        slot(FORWARD, 1, "8", forward_broken),
        slot(FORWARD, 1, "9", forward_broken),
        slot(FORWARD, 1, "10", forward_broken),
        slot(FORWARD, 1, "11", forward_broken),
        slot(FORWARD, 1, "12", forward_broken),
        slot(FORWARD, 1, "13", forward_broken),
        slot(FORWARD, 1, "14", forward_broken),
        slot(FORWARD, 1, "16", forward_broken),
        slot(FORWARD, 1, "17", forward_broken),
        slot(FORWARD, 1, "18", forward_broken),
        slot(FORWARD, 1, "17", forward_over_large_outside),
        slot(FORWARD, 1, "18", forward_over_large_inside),
        slot(FORWARD, 1, "0", forward_full),
        slot(FORWARD, 1, "18", forward_over_full),
        slot(DELIVER, 2, "0", delivered),
        slot(DELIVER, 1, "1", deliver_wrong_size),
        slot(DELIVER, 1, "3", deliver_broken),
        slot(DELIVER, 1, "4", deliver_broken),
        slot(DELIVER, 1, "5", deliver_broken),
        slot(DELIVER, 1, "6", deliver_broken),
        slot(DELIVER, 1, "7", deliver_broken),
        slot(DELIVER, 1, "8", deliver_broken),
        slot(DELIVER, 1, "9", deliver_broken),
        slot(DELIVER, 1, "10", deliver_broken),
        slot(DELIVER, 1, "11", deliver_broken),
        slot(DELIVER, 1, "12", deliver_broken),
        slot(DELIVER, 1, "13", deliver_broken),
        slot(DELIVER, 1, "14", deliver_broken),
        slot(DELIVER, 1, "15", deliver_broken),
        broken_slot(3),
        slot(CONTAINS, 1, "NO", contains_ill_formed),
        slot(WITHIN, 1, "NO", within_ill_formed),
        slot(RENUMBER, 2, "2", renumber_unsound),
        slot(FORWARD, 7, "2", forward_unsound),
        slot(DELIVER, 5, "2", deliver_unsound),
        free_slot(READ, 2, read_changed),
        free_slot(FORWARD, 3, forward_changed),
        free_slot(FORWARD, 3, forward_several),
        free_slot(FORWARD, 1, forward_any_length),
        free_slot(DELIVER, 2, deliver_changed),
        free_slot(DELIVER, 1, deliver_several),
        slot(FORWARD_FACTS, 2, "0", forwarded),
        slot(FORWARD_FACTS, 1, "1", forward_wrong_size),
        slot(FORWARD_FACTS, 1, "2", forward_unsound),
        slot(FORWARD_FACTS, 1, "3", forward_broken),
        slot(FORWARD_FACTS, 1, "4", forward_broken),
        slot(FORWARD_FACTS, 1, "5", forward_broken),
        slot(FORWARD_FACTS, 1, "6", forward_broken),
        slot(FORWARD_FACTS, 1, "7", forward_broken),
        slot(FORWARD_FACTS, 1, "8", forward_broken),
        slot(FORWARD_FACTS, 1, "9", forward_broken),
        slot(FORWARD_FACTS, 1, "10", forward_broken),
        slot(FORWARD_FACTS, 1, "11", forward_broken),
        slot(FORWARD_FACTS, 1, "12", forward_broken),
        slot(FORWARD_FACTS, 1, "13", forward_broken),
        slot(FORWARD_FACTS, 1, "14", forward_broken),
        slot(FORWARD_FACTS, 1, "16", forward_broken),
        slot(FORWARD_FACTS, 1, "17", forward_broken),
        slot(FORWARD_FACTS, 1, "18", forward_broken),
        slot(DELIVER_FACTS, 2, "0", delivered),
        slot(DELIVER_FACTS, 1, "1", deliver_wrong_size),
        slot(DELIVER_FACTS, 1, "2", deliver_unsound),
        slot(DELIVER_FACTS, 1, "3", deliver_broken),
        slot(DELIVER_FACTS, 1, "4", deliver_broken),
        slot(DELIVER_FACTS, 1, "5", deliver_broken),
        slot(DELIVER_FACTS, 1, "6", deliver_broken),
        slot(DELIVER_FACTS, 1, "7", deliver_broken),
        slot(DELIVER_FACTS, 1, "8", deliver_broken),
        slot(DELIVER_FACTS, 1, "9", deliver_broken),
        slot(DELIVER_FACTS, 1, "10", deliver_broken),
        slot(DELIVER_FACTS, 1, "11", deliver_broken),
        slot(DELIVER_FACTS, 1, "12", deliver_broken),
        slot(DELIVER_FACTS, 1, "13", deliver_broken),
        slot(DELIVER_FACTS, 1, "14", deliver_broken),
        slot(DELIVER_FACTS, 1, "15", deliver_broken),
        slot(READ_FILE, 4, "ACCEPTED", file_accepted),
        slot(READ_FILE, 5, "REFUSED", file_rule_broken),
        slot(READ_FILE, 2, "REFUSED", file_rules_broken),
        slot(READ_FILE, 1, "REFUSED", file_range_broken),
        slot(READ_FILE, 4, "REFUSED", file_cut),
        slot(READ_FILE, 2, "REFUSED", file_length_wrong),
        slot(READ_FILE, 1, "ROOM", file_room),
        free_slot(READ_FILE, 1, file_about_room),
        slot(READ_FILE, 1, "VERSION", file_version),
        free_slot(READ_FILE, 2, file_changed),
        slot(READ_AND_WRITE, 2, "0", file_written),
        slot(READ_AND_WRITE, 1, "ROOM", file_not_written_room),
        free_slot(READ_AND_WRITE, 1, file_changed_and_written),
        slot(READ_AND_WRITE, 1, "1", file_written_short),
        slot(READ_AND_WRITE, 1, "REFUSED", file_not_written),
        slot(READ_AND_WRITE, 1, "VERSION", file_not_written_version),
        slot(WRITE_FILE, 2, "0", set_written),
        slot(WRITE_FILE, 1, "1", set_written_short),
        slot(WRITE_FILE, 3, "2", set_unsound),
        slot(WRITE_FILE, 1, "NAMED", set_named),
        slot(RENUMBER_WIDE, 3, "0", long_renumbered),
        slot(RENUMBER_WIDE, 1, "16", long_no_number),
        slot(RENUMBER_WIDE, 1, "18", long_over_large),
        slot(RENUMBER_WIDE, 3, "2", long_unsound),
        slot(FORWARD_WIDE, 1, "0", long_forwarded),
        slot(FORWARD_WIDE, 1, "2", long_forward_unsound),
        slot(IN_BOX, 1, "0", long_box_forwarded),
        slot(IN_BOX, 1, "2", long_box_unsound),
        slot(FORWARD_WIDE, 2, "23", strict_forward_slack),
        slot(FORWARD_WIDE, 1, "0", strict_forwarded),
        free_slot(FORWARD_WIDE, 2, strict_forward_near),
        slot(DELIVER_WIDE, 1, "23", strict_deliver_slack),
        slot(DELIVER_WIDE, 1, "0", strict_delivered),
        slot(IN_BOX, 1, "23", strict_box_slack),
        slot(BUILD_MESSAGE, 4, "0", message_built),
        slot(BUILD_MESSAGE, 1, "0", message_built_checksum_zero),
        slot(BUILD_MESSAGE, 2, "2", message_unsound),
        slot(BUILD_MESSAGE, 3, "0", message_not_sent),
        slot(BUILD_MESSAGE, 2, "24", message_short_output),
        free_slot(BUILD_MESSAGE, 3, message_two_reasons),
        free_slot(BUILD_MESSAGE, 1, message_changed),
        slot(READ_MESSAGE, 3, "0", message_read),
        slot(READ_MESSAGE, 2, "25", message_octet_changed),
        slot(READ_MESSAGE, 3, "25", message_field_changed),
        free_slot(READ_MESSAGE, 3, message_cut),
        slot(REVERSE, 2, "0", reversed),
        slot(REVERSE, 2, "2", reverse_unsound),
        slot(REVERSE, 1, "24", reverse_short_room),
        slot(BITMAP, 3, "0", bitmap_read),
        slot(BITMAP, 1, "10", bitmap_long),
        free_slot(MEMORY, 4, memory_calls),
        slot(MEMORY, 3, "0", memory_one_call),
        slot(MEMORY, 2, "0", memory_filled),
        slot(MEMORY, 2, "2", memory_ill_formed),
        slot(MEMORY, 1, "25", memory_other_message),
        slot(MEMORY, 1, "0", memory_message),
        free_slot(MEMORY, 1, memory_alone),
        slot(READ_BASIC, 2, "0", basic_read),
        slot(READ_BASIC, 2, "19", basic_bad),
        free_slot(READ_BASIC, 1, basic_changed),
        slot(WRITE_BASIC, 2, "0", basic_written),
        slot(WRITE_BASIC, 1, "1", basic_written_short),
        slot(WRITE_BASIC, 1, "19", basic_not_written),
        slot(FORWARD_WIDE, 3, "0", wide_forwarded),
        slot(FORWARD_WIDE, 1, "0", wide_forward_full),
        slot(FORWARD_WIDE, 1, "18", wide_forward_over_full),
        slot(FORWARD_WIDE, 2, "0", wide_forward_permitted),
        slot(FORWARD_WIDE, 2, "18", wide_forward_not_permitted),
        slot(FORWARD_WIDE, 2, "0", wide_forward_default),
        slot(FORWARD_WIDE, 2, "17", wide_forward_other_default),
        slot(FORWARD_WIDE, 1, "17", wide_forward_over_large_default),
        slot(FORWARD_WIDE, 2, "2", wide_forward_unsound_default),
        slot(DELIVER_WIDE, 1, "2", wide_deliver_unsound_default),
        slot(IN_BOX, 4, "0", box_forwarded),
        slot(IN_BOX, 1, "0", box_same_port),
        slot(IN_BOX, 1, "1", box_wrong_size),
        slot(IN_BOX, 3, "2", box_unsound),
        slot(IN_BOX, 1, "3", box_broken),
        slot(IN_BOX, 1, "4", box_broken),
        slot(IN_BOX, 1, "5", box_broken),
        slot(IN_BOX, 1, "6", box_broken),
        slot(IN_BOX, 1, "7", box_broken),
        slot(IN_BOX, 1, "8", box_broken),
        slot(IN_BOX, 1, "9", box_broken),
        slot(IN_BOX, 1, "10", box_broken),
        slot(IN_BOX, 1, "11", box_broken),
        slot(IN_BOX, 1, "12", box_broken),
        slot(IN_BOX, 1, "13", box_broken),
        slot(IN_BOX, 1, "19", box_broken),
        slot(IN_BOX, 1, "20", box_broken),
        slot(IN_BOX, 2, "21", box_broken),
        slot(IN_BOX, 1, "21", box_no_route_21),
        slot(IN_BOX, 2, "14", box_broken),
        slot(IN_BOX, 3, "22", box_no_route),
        slot(IN_BOX, 2, "16", box_no_number),
        slot(IN_BOX, 1, "17", box_broken),
        slot(IN_BOX, 1, "17", box_other_default),
        slot(IN_BOX, 1, "18", box_no_room),
        free_slot(IN_BOX, 1, box_changed),
        free_slot(IN_BOX, 2, box_several),
        slot(SPELL_PERMITTED, 5, "0", spelled_permitted),
        slot(SPELL_PERMITTED, 1, "1", spell_permitted_short),
        slot(SPELL_PERMITTED, 1, "2", spell_permitted_ill_formed),
        slot(SPELL_PERMITTED, 3, "18", spell_not_permitted),
        slot(SPELL_PERMITTED, 2, "0", spelled_tie),
        slot(FORWARD_WIDE, 1, "1", wide_forward_wrong_size),
        slot(FORWARD_WIDE, 3, "2", wide_forward_unsound),
        slot(FORWARD_WIDE, 1, "3", wide_forward_broken),
        slot(FORWARD_WIDE, 1, "4", wide_forward_broken),
        slot(FORWARD_WIDE, 1, "5", wide_forward_broken),
        slot(FORWARD_WIDE, 1, "6", wide_forward_broken),
        slot(FORWARD_WIDE, 1, "7", wide_forward_broken),
        slot(FORWARD_WIDE, 1, "8", wide_forward_broken),
        slot(FORWARD_WIDE, 1, "9", wide_forward_broken),
        slot(FORWARD_WIDE, 1, "10", wide_forward_broken),
        slot(FORWARD_WIDE, 1, "11", wide_forward_broken),
        slot(FORWARD_WIDE, 1, "12", wide_forward_broken),
        slot(FORWARD_WIDE, 1, "13", wide_forward_broken),
        slot(FORWARD_WIDE, 2, "19", wide_forward_broken),
        slot(FORWARD_WIDE, 1, "20", wide_forward_broken),
        slot(FORWARD_WIDE, 4, "21", wide_forward_broken),
        slot(FORWARD_WIDE, 1, "14", wide_forward_broken),
        slot(FORWARD_WIDE, 1, "16", wide_forward_broken),
        slot(FORWARD_WIDE, 1, "17", wide_forward_broken),
        free_slot(FORWARD_WIDE, 2, wide_forward_changed),
        free_slot(FORWARD_WIDE, 3, wide_forward_several),
        slot(DELIVER_WIDE, 2, "0", wide_delivered),
        slot(DELIVER_WIDE, 1, "1", wide_deliver_wrong_size),
        slot(DELIVER_WIDE, 2, "2", wide_deliver_unsound),
        slot(DELIVER_WIDE, 1, "3", wide_deliver_broken),
        slot(DELIVER_WIDE, 1, "4", wide_deliver_broken),
        slot(DELIVER_WIDE, 1, "5", wide_deliver_broken),
        slot(DELIVER_WIDE, 1, "6", wide_deliver_broken),
        slot(DELIVER_WIDE, 1, "7", wide_deliver_broken),
        slot(DELIVER_WIDE, 1, "8", wide_deliver_broken),
        slot(DELIVER_WIDE, 1, "9", wide_deliver_broken),
        slot(DELIVER_WIDE, 1, "10", wide_deliver_broken),
        slot(DELIVER_WIDE, 1, "11", wide_deliver_broken),
        slot(DELIVER_WIDE, 1, "12", wide_deliver_broken),
        slot(DELIVER_WIDE, 1, "13", wide_deliver_broken),
        slot(DELIVER_WIDE, 2, "19", wide_deliver_broken),
        slot(DELIVER_WIDE, 1, "20", wide_deliver_broken),
        slot(DELIVER_WIDE, 2, "21", wide_deliver_broken),
        slot(DELIVER_WIDE, 1, "14", wide_deliver_broken),
        slot(DELIVER_WIDE, 1, "15", wide_deliver_broken),
        free_slot(DELIVER_WIDE, 1, wide_deliver_changed),
        free_slot(DELIVER_WIDE, 1, wide_deliver_several),
    ]
}

/// The case with facts in place of the mark, where the slot is for such a case: none, each alone, and any.
fn with_facts(made: Made, entry: Option<u8>, random: &mut Random, turn: usize) -> Made {
    let facts = |random: &mut Random| {
        Facts::in_order(match turn % 8 {
            0 | 1 => [false; 5],
            7 => [(); 5].map(|_| random.chance(1, 2)),
            alone => std::array::from_fn(|place| place + 2 == alone),
        })
    };
    match (made, entry) {
        (Made::Case(Case::Forward(mut case)), Some(FORWARD_FACTS)) => {
            case.facts = facts(random);
            Made::Case(Case::ForwardFacts(case))
        }
        (Made::Case(Case::Deliver(mut case)), Some(DELIVER_FACTS)) => {
            case.facts = facts(random);
            Made::Case(Case::DeliverFacts(case))
        }
        (Made::Case(Case::InBox(mut case)), _) => {
            case.facts = facts(random);
            case.records.tables.iter_mut().for_each(|table| lengthen_some(random, table));
            case.records.ports.iter_mut().for_each(|port| port.strict |= port.domain != 0 && strict_some(random));
            Made::Case(Case::InBox(case))
        }
        (Made::Case(Case::Forward(mut case)), Some(FORWARD_WIDE)) => {
            case.facts = facts(random);
            lengthen_some(random, &mut case.table);
            case.arriving.strict |= strict_some(random);
            case.leaving.strict |= strict_some(random);
            Made::Case(Case::ForwardWide(case))
        }
        (Made::Case(Case::Deliver(mut case)), Some(DELIVER_WIDE)) => {
            case.facts = facts(random);
            case.port.strict |= strict_some(random);
            Made::Case(Case::DeliverWide(case))
        }
        (made, _) => made,
    }
}

/// Makes cases one after the other.
pub struct Generator {
    random: Random,
    entries: Entries,
    slots: Vec<Slot>,
    /// The slots in the order of the cycle, and how often each was used.
    cycle: Vec<usize>,
    used: Vec<usize>,
    made: usize,
}

impl Generator {
    pub fn new(seed: u64, entries: &Entries) -> Generator {
        let slots: Vec<Slot> = all_slots().into_iter().filter(|slot| slot.entry.map_or(true, |entry| entries.has(entry))).collect();
        let mut cycle = Vec::new();
        for copy in 0..slots.iter().map(|slot| slot.copies).max().unwrap_or(0) {
            cycle.extend((0..slots.len()).filter(|index| copy < slots[*index].copies));
        }
        let used = vec![0; slots.len()];
        Generator { random: Random::new(seed), entries: entries.clone(), slots, cycle, used, made: 0 }
    }

    /// The octets of the next case, after its length, and its line.
    pub fn next(&mut self) -> (Vec<u8>, String) {
        let index = self.cycle[self.made % self.cycle.len()];
        let slot = &self.slots[index];
        let turn = self.used[index];
        self.made += 1;
        self.used[index] += 1;
        for _ in 0..TRIES {
            let spare = if self.random.chance(1, 20) { self.random.between(1, 3) } else { 0 };
            let made = match slot.make {
                Make::By(make) => make(&mut self.random, turn, slot.number),
                Make::Broken => broken(&mut self.random, turn, &self.entries),
            };
            let octets = octets_of(with_facts(made, slot.entry, &mut self.random, turn), spare);
            let line = line_of(&octets, &self.entries);
            if slot.wanted.map_or(true, |wanted| first_word(&line) == wanted) {
                return (octets, line);
            }
        }
        panic!("slot {} ({:?} {:?}) does not reach its answer at turn {}", index, slot.entry, slot.wanted, turn);
    }
}

fn first_word(line: &str) -> &str {
    line.split(' ').next().unwrap_or("")
}

/// Writes `count` cases and their lines and prints how often each answer was hit. False where one was hit too seldom.
pub fn cases(count: usize, seed: u64, entries: &Entries, cases: &mut impl Write, lines: &mut impl Write) -> io::Result<bool> {
    let mut generator = Generator::new(seed, entries);
    let mut hits: BTreeMap<(u8, String), usize> = BTreeMap::new();
    let mut octet_count = 0;
    for number in 1..=count {
        if number == count {
            let octets = cut_off(&mut generator.random, entries);
            cases.write_all(&octets)?;
            writeln!(lines, "{}", BROKEN)?;
            octet_count += octets.len();
            *hits.entry((0, BROKEN.to_string())).or_insert(0) += 1;
            break;
        }
        let (octets, line) = generator.next();
        cases.write_all(&(octets.len() as u16).to_be_bytes())?;
        cases.write_all(&octets)?;
        writeln!(lines, "{}", line)?;
        octet_count += 2 + octets.len();
        let entry = if line == BROKEN { 0 } else { octets[0] };
        *hits.entry((entry, first_word(&line).to_string())).or_insert(0) += 1;
    }
    let mut enough = true;
    for (entry, name, answers) in ANSWERS.iter().filter(|(entry, _, _)| entries.has(*entry)) {
        print!("{} {:<8}", entry, name);
        for answer in answers.iter() {
            enough &= report(answer, *hits.get(&(*entry, answer.to_string())).unwrap_or(&0));
        }
        println!();
    }
    print!("{:<10}", "");
    enough &= report(BROKEN, *hits.get(&(0, BROKEN.to_string())).unwrap_or(&0));
    println!();
    println!("{} cases, {} octets", count, octet_count);
    let needed = COUNT_WITH_ALL.max(LEAST_HITS * generator.cycle.len());
    if count < needed {
        println!("the hits are not checked: that takes {} cases", needed);
        return Ok(true);
    }
    Ok(verdict(enough, count))
}

/// Prints one answer with its hits; true where they are enough.
pub fn report(answer: &str, hits: usize) -> bool {
    print!("  {}: {}", answer, hits);
    hits >= LEAST_HITS
}

pub fn verdict(enough: bool, count: usize) -> bool {
    if !enough && count >= COUNT_WITH_ALL {
        println!("an answer was hit fewer than {} times", LEAST_HITS);
        return false;
    }
    true
}
