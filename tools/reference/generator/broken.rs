// Cases that don't parse.

use crate::basic::{Marking, LEVELS, MAX_FLAG_FIELDS};
use crate::cases::{
    encode, Case, Encoder, MessageCase, Output, BITMAP, BUILD_MESSAGE, CONTAINS, DELIVER, DELIVER_FACTS, DELIVER_WIDE, FORWARD,
    FORWARD_FACTS, FORWARD_WIDE, IN_BOX, MAX_OUTPUT, MAX_ROOM, MEMORY, READ, READ_AND_WRITE, READ_BASIC, READ_FILE, READ_MESSAGE, RENUMBER,
    RENUMBER_WIDE, REVERSE, SPELL, SPELL_PERMITTED, WITHIN, WRITE_BASIC, WRITE_FILE,
};
use crate::entries::{Entries, BASIC_GROUP, DEFAULT_GROUP, GROUPS, SPELLINGS_GROUP, STRICT_GROUP};
use crate::file::{SetRecord, FIRST};
use crate::label::HeldLabel;
use crate::messages::Report;
use crate::records::{MAX_LEVEL_PAIRS, MAX_ROWS};

use super::basic::{basic_read, basic_written};
use super::bitmaps::bitmap_read;
use super::boxes::{box_forwarded, boxed, Size};
use super::deliver::delivered;
use super::drafts::*;
use super::files::{file_rule_broken, file_written, rich_set, set_written};
use super::forward::forwarded;
use super::labels::{contains_yes, renumbered, spelled, spelled_permitted, within_yes};
use super::long_tables::long_renumbered;
use super::memories::memory_calls;
use super::messages::{message_built, message_read};
use super::random::Random;
use super::reading::read_valid;
use super::reverse::reversed;
use super::wide::{wide_delivered, wide_forwarded};
use super::{octets_of, with_facts, Made, Maker};

/// A maker of good cases for each entry.
const GOOD: &[(u8, Maker)] = &[
    (CONTAINS, contains_yes),
    (WITHIN, within_yes),
    (RENUMBER, renumbered),
    (SPELL, spelled),
    (READ, read_valid),
    (FORWARD, forwarded),
    (DELIVER, delivered),
    (FORWARD_FACTS, forwarded),
    (DELIVER_FACTS, delivered),
    (READ_FILE, file_rule_broken),
    (READ_AND_WRITE, file_written),
    (WRITE_FILE, set_written),
    (READ_BASIC, basic_read),
    (WRITE_BASIC, basic_written),
    (FORWARD_WIDE, wide_forwarded),
    (DELIVER_WIDE, wide_delivered),
    (SPELL_PERMITTED, spelled_permitted),
    (IN_BOX, box_forwarded),
    (RENUMBER_WIDE, long_renumbered),
    (BUILD_MESSAGE, message_built),
    (READ_MESSAGE, message_read),
    (REVERSE, reversed),
    (BITMAP, bitmap_read),
    (MEMORY, memory_calls),
];

/// The octets of a good case of any entry.
pub fn any_case(random: &mut Random, entries: &Entries) -> Vec<u8> {
    let good: Vec<(u8, Maker)> = GOOD.iter().copied().filter(|(entry, _)| entries.has(*entry)).collect();
    let (entry, make) = random.pick(&good);
    octets_of(with_facts(make(random, 3, 0), Some(entry), random, 7), 0)
}

/// Ways in which cases of the later entries are broken.
type Way = fn(&mut Random, usize) -> Vec<u8>;
const LATER_WAYS: &[(u8, Way)] = &[
    (FORWARD_FACTS, bad_fact_forward),
    (DELIVER_FACTS, bad_fact_deliver),
    (WRITE_FILE, bad_group),
    (WRITE_FILE, stored_set),
    (RENUMBER_WIDE, long_wide_table),
    (BUILD_MESSAGE, long_message_outputs),
    (REVERSE, long_room),
    (MEMORY, bad_memory),
    (WRITE_BASIC, long_basic_output),
    (FORWARD_WIDE, bad_wide_forward),
    (FORWARD_WIDE, bad_strict),
    (DELIVER_WIDE, bad_wide_deliver),
    (SPELL_PERMITTED, bad_spellings),
    (IN_BOX, long_lists),
    (IN_BOX, bad_fact_box),
];

/// More than 64 stored addresses, or a call that is unknown or cut off; what stands before it is good.
fn bad_memory(random: &mut Random, round: usize) -> Vec<u8> {
    if round % 3 == 0 {
        let stored = [65, 66, 255, 128][round / 3 % 4];
        return [&[MEMORY, 0, stored][..], &vec![0; 4 * stored as usize]].concat();
    }
    let mut octets = vec![MEMORY, 1, 1, 0, 0, 0, 5];
    octets.extend([1, 0, 0, 0, 9, 4]);
    let call = if round % 3 == 1 { [0, 6, 255, 128][round / 3 % 4] } else { [1, 2, 3, 5][round / 3 % 4] };
    octets.push(call);
    if round % 3 == 1 {
        octets.extend([0, 0, 0, 9]);
    } else {
        // A message says more octets than there are.
        let count = if call == 5 { 2 } else { 3 };
        octets.extend(vec![1; count]);
        octets.truncate(octets.len() - random.below(2));
    }
    octets
}

/// One of a message's two outputs is over its limit.
fn long_message_outputs(_random: &mut Random, round: usize) -> Vec<u8> {
    let over = |way: usize| Output { length: if round % 2 == way { [MAX_OUTPUT + 1, 65_535][round / 2 % 2] } else { 40 }, fill: 0 };
    let report = Report { icmp_type: 12, icmp_code: 1, pointer: 134 };
    let header = [&[0x45][..], &[0; 19]].concat();
    let case = MessageCase { number: 6, report, header, data: Vec::new(), message_output: over(0), options_output: over(1) };
    encode(&Case::BuildMessage(case), 0)
}

/// More than 64 ports, 8 tables or 256 routes, though all octets are there.
fn long_lists(_random: &mut Random, round: usize) -> Vec<u8> {
    let over = |way: usize, limit: usize| if round % 3 == way { limit + 1 + round / 3 % 2 } else { 1 };
    let (ports, tables, routes) = (over(0, 64), over(1, 8), over(2, 256));
    let mut octets = vec![IN_BOX, ports as u8];
    octets.extend(vec![0; ports * (4 + 3 * 7 + 1 + 1)]);
    octets.push(tables as u8);
    octets.extend(vec![0; tables * 16]);
    octets.extend((routes as u16).to_be_bytes());
    octets.extend(vec![0; routes * 10]);
    octets.extend([0; 1 + 4 + 5 + 1]);
    octets.extend([0, 40, 0]);
    octets
}

fn bad_fact_box(random: &mut Random, round: usize) -> Vec<u8> {
    let case = forward_draft(random, &ANY).finish(random);
    let after = 1 + case.area.len() + 3;
    let mut octets = encode(&Case::InBox(Box::new(boxed(random, case, Size::Small))), 0);
    let fact = octets.len() - after - 1 - round % 5;
    octets[fact] = [2, 255, 3, 128][round % 4];
    octets
}

/// Spellings over 15.
fn bad_spellings(_random: &mut Random, round: usize) -> Vec<u8> {
    let set = [16, 255, 17, 29, 128][round % 5];
    encode(&Case::SpellPermitted(HeldLabel::empty(5, 3), set, Output { length: 40, fill: 0 }), 0)
}

/// An output over its limit, and one that is cut off.
fn long_basic_output(_random: &mut Random, round: usize) -> Vec<u8> {
    let length = [MAX_OUTPUT + 1, 65_535][round % 2];
    encode(&Case::WriteBasic(Marking { level: LEVELS[0], flags: 0 }, Output { length, fill: 0 }), 0)
}

/// The octets of a port's group 1 in which one field does not parse: `on`, or one of the two `stored`.
fn bad_basic_group(round: usize) -> Vec<u8> {
    let over = |way: usize| if round % 3 == way { MAX_FLAG_FIELDS + 1 + round / 3 % 2 } else { 0 };
    let mut octets = vec![BASIC_GROUP, if round % 3 == 0 { [2, 255, 128][round / 3 % 3] } else { 0 }];
    for stored in [over(1), over(2)] {
        octets.extend([0, 0, 0, 0]);
        octets.extend((stored as u16).to_be_bytes());
        octets.extend(vec![0; 2 * stored]);
    }
    octets
}

/// A port's groups in a case that is good otherwise: bad ones, or a group that is not built.
fn spoil_groups(octets: &mut Vec<u8>, groups_at: usize, round: usize) {
    if round % 5 == 4 {
        let mut groups = vec![SPELLINGS_GROUP, [16, 255, 29, 128][round / 5 % 4]];
        // `unlabelled` or `strict` is neither 0 nor 1.
        if round % 3 == 0 {
            groups = vec![DEFAULT_GROUP, [2, 255, 3, 128][round / 5 % 4], 0, 0, 0, 0, 0, 0, 0];
        } else if round % 3 == 1 {
            groups = vec![STRICT_GROUP, [2, 255, 3, 128][round / 5 % 4]];
        }
        octets.splice(groups_at..groups_at + 1, groups);
    } else if round % 5 == 3 {
        let groups = [2, 4, 8, 16, 32, 64, 128, 255];
        octets[groups_at] = groups.iter().copied().cycle().skip(round / 5).find(|groups| groups & !GROUPS != 0).unwrap_or(255);
    } else {
        octets.splice(groups_at..groups_at + 1, bad_basic_group(round / 5 * 3 + round % 5));
    }
}

/// The mark of the arriving or the leaving port is neither 0 nor 1.
fn bad_strict(random: &mut Random, round: usize) -> Vec<u8> {
    let mut case = forward_draft(random, &ANY).finish(random);
    case.arriving.strict = true;
    let mut before = Encoder { octets: vec![FORWARD_WIDE], spare: 0 };
    before.wide_port(&case.arriving);
    if round % 2 == 1 {
        case.leaving.strict = true;
        before.wide_port(&case.leaving);
    }
    let mut octets = encode(&Case::ForwardWide(Box::new(case)), 0);
    octets[before.octets.len() - 1] = [2, 255, 3, 128][round % 4];
    octets
}

/// The arriving or the leaving port of a forward has bad groups, or a fact is bad.
fn bad_wide_forward(random: &mut Random, round: usize) -> Vec<u8> {
    let case = forward_draft(random, &ANY).finish(random);
    let mut before = Encoder { octets: vec![FORWARD_WIDE], spare: 0 };
    before.wide_port(&case.arriving);
    if round % 2 == 1 {
        before.wide_port(&case.leaving);
    }
    let after = 1 + case.area.len() + 3;
    let mut octets = encode(&Case::ForwardWide(Box::new(case)), 0);
    if round % 6 == 5 {
        let fact = octets.len() - after - 1 - round / 6 % 5;
        octets[fact] = [2, 255, 3, 128][round / 6 % 4];
    } else {
        spoil_groups(&mut octets, before.octets.len() - 1, round / 2);
    }
    octets
}

fn bad_wide_deliver(random: &mut Random, round: usize) -> Vec<u8> {
    let case = deliver_draft(random, &ANY).finish(random);
    let mut before = Encoder { octets: vec![DELIVER_WIDE], spare: 0 };
    before.wide_port(&case.port);
    let after = 1 + case.area.len();
    let mut octets = encode(&Case::DeliverWide(Box::new(case)), 0);
    if round % 6 == 5 {
        let fact = octets.len() - after - 1 - round / 6 % 5;
        octets[fact] = [2, 255, 3, 128][round / 6 % 4];
    } else {
        spoil_groups(&mut octets, before.octets.len() - 1, round);
    }
    octets
}

/// One of the five facts is neither 0 nor 1.
fn bad_fact_forward(random: &mut Random, round: usize) -> Vec<u8> {
    let case = forward_draft(random, &ANY).finish(random);
    let after = 1 + case.area.len() + 3;
    let mut octets = encode(&Case::ForwardFacts(Box::new(case)), 0);
    let fact = octets.len() - after - 1 - round % 5;
    octets[fact] = [2, 255, 3, 128][round % 4];
    octets
}

fn bad_fact_deliver(random: &mut Random, round: usize) -> Vec<u8> {
    let case = deliver_draft(random, &ANY).finish(random);
    let after = 1 + case.area.len();
    let mut octets = encode(&Case::DeliverFacts(Box::new(case)), 0);
    let fact = octets.len() - after - 1 - round % 5;
    octets[fact] = [2, 255, 3, 128][round % 4];
    octets
}

/// Bad groups of port fields, and those that are not there yet, in the first or the last port.
fn bad_group(random: &mut Random, round: usize) -> Vec<u8> {
    let mut set = rich_set(random, &FIRST);
    (set.table_count, set.tables) = (0, SetRecord::empty().tables);
    let port = set.ports[0].clone();
    let mut octets = encode(&Case::WriteFile(Box::new(set), Output { length: 40, fill: 0 }), 0);
    let group = if round % 2 == 0 {
        let mut first = Encoder { octets: Vec::new(), spare: 0 };
        first.port(&port);
        3 + first.octets.len()
    } else {
        octets.len() - 6
    };
    spoil_groups(&mut octets, group, round / 2);
    octets
}

/// A set with that many stored ports, tables, level pairs and rows, each over its limit in turn, though all octets are there.
fn stored_set(_random: &mut Random, round: usize) -> Vec<u8> {
    let over = |way: usize, limit: usize| if round % 4 == way { limit + 1 + round / 4 % 2 } else { 1 };
    let (ports, tables, pairs, rows) = (over(0, 16), over(1, 8), over(2, MAX_LEVEL_PAIRS), over(3, MAX_ROWS));
    let mut octets = vec![WRITE_FILE, 0, ports as u8];
    octets.extend(vec![0; ports * (4 + 3 * 7 + 1 + 1)]);
    octets.extend([0, tables as u8]);
    for _ in 0..tables {
        octets.extend(vec![0; 10]);
        octets.extend((pairs as u16).to_be_bytes());
        octets.extend(vec![0; 2 * pairs + 2]);
        octets.extend((rows as u16).to_be_bytes());
        octets.extend(vec![0; 6 * rows]);
    }
    octets.extend([0, 40, 0]);
    octets
}

/// Room for more than 1024 rows, and tables with too much stored or lent.
fn long_room(_random: &mut Random, round: usize) -> Vec<u8> {
    let over = |way: usize, limit: usize| if round % 3 == way { limit + 1 } else { 0 };
    let (pairs, rows, room) = (over(1, MAX_LEVEL_PAIRS), over(2, MAX_ROWS), over(0, [MAX_ROOM, 65_534, MAX_ROOM + 1][round / 3 % 3]));
    let mut octets = vec![REVERSE];
    octets.extend(wide_table_of(pairs, rows));
    octets.extend((room as u16).to_be_bytes());
    octets
}

/// A wide table with that many level pairs stored and rows lent.
fn wide_table_of(pairs: usize, rows: usize) -> Vec<u8> {
    let mut octets = vec![0, 0, 0, 5, 0, 0, 0, 9, 0, 0];
    octets.extend((pairs as u16).to_be_bytes());
    octets.extend(vec![0; 2 * pairs + 2]);
    octets.extend((rows as u16).to_be_bytes());
    octets.extend(vec![0; 6 * rows]);
    octets
}

/// A wide table with 257 level pairs stored or 1,025 rows lent, though all octets are there.
fn long_wide_table(_random: &mut Random, round: usize) -> Vec<u8> {
    let more = 1 + round / 2 % 2;
    let (pairs, rows) = if round % 2 == 0 { (MAX_LEVEL_PAIRS + more, 0) } else { (0, MAX_ROWS + more) };
    [&[RENUMBER_WIDE, 0, 0, 0, 5, 3, 0, 0][..], &wide_table_of(pairs, rows)].concat()
}

/// A label with `stored` places, as an entry 1; over 120 it doesn't parse, though all octets are there.
pub fn stored_runs(stored: usize) -> Vec<u8> {
    let mut octets = vec![CONTAINS, 0, 0, 0, 5, 3, 1, stored as u8];
    octets.extend(vec![0; 4 * stored + 2]);
    octets
}

/// A renumbering with that many stored level pairs and rows.
pub fn stored_table(levels: usize, rows: usize) -> Vec<u8> {
    let mut octets = vec![RENUMBER, 0, 0, 0, 5, 3, 0, 0];
    octets.extend([0, 0, 0, 5, 0, 0, 0, 9, 0, levels as u8]);
    octets.extend(vec![0; 2 * levels]);
    octets.extend([0, 0, rows as u8]);
    octets.extend(vec![0; 6 * rows]);
    octets
}

pub fn broken(random: &mut Random, turn: usize, entries: &Entries) -> Made {
    let later: Vec<Way> = LATER_WAYS.iter().filter(|(entry, _)| entries.has(*entry)).map(|(_, way)| *way).collect();
    let mut octets = any_case(random, entries);
    let ways = 16 + later.len();
    let (kind, round) = (turn % ways, turn / ways);
    match kind {
        // No entry octet; an unknown one; nothing but one.
        0 => octets.clear(),
        1 => {
            let unknown = [0, 8, 255, 9, 128][round % 5];
            octets[0] = if entries.has(unknown) { 23 } else { unknown };
        }
        2 => octets.truncate(1),
        // A field is cut off.
        3 => octets.truncate(octets.len() - 1),
        4 | 5 => octets.truncate(random.between(1, octets.len() - 1)),
        // Octets are left over.
        6 => octets.push(0),
        7 => {
            let count = random.between(2, 9);
            octets.extend(random.octets(count));
        }
        // `stored` is over its limit.
        8 => octets = stored_runs([121, 255, 122, 128][round % 4]),
        9 => octets = stored_table([17, 255, 18][round % 3], random.below(3)),
        10 => octets = stored_table(random.below(3), [65, 255, 66][round % 3]),
        // `required` is neither 0 nor 1: it stands before the assigned label of the arriving or the leaving port.
        11 => {
            let case = forward_draft(random, &ANY).finish(random);
            let leaving = round % 2 == 1;
            let mut before = Encoder { octets: vec![FORWARD], spare: 0 };
            before.port(&case.arriving);
            if leaving {
                before.port(&case.leaving);
            }
            let mut assigned = Encoder { octets: Vec::new(), spare: 0 };
            assigned.label(if leaving { &case.leaving.assigned } else { &case.arriving.assigned });
            let flag = before.octets.len() - assigned.octets.len() - 1;
            octets = encode(&Case::Forward(Box::new(case)), 0);
            octets[flag] = [2, 255, 3, 128][round % 4];
        }
        // `mark` is neither 0 nor 1.
        12 => {
            let case = forward_draft(random, &ANY).finish(random);
            let after = 1 + case.area.len() + 3;
            octets = encode(&Case::Forward(Box::new(case)), 0);
            let mark = octets.len() - after - 1;
            octets[mark] = [2, 255, 3, 128][round % 4];
        }
        13 => {
            let case = deliver_draft(random, &ANY).finish(random);
            let after = 1 + case.area.len();
            octets = encode(&Case::Deliver(Box::new(case)), 0);
            let mark = octets.len() - after - 1;
            octets[mark] = [2, 255, 3, 128][round % 4];
        }
        // An output over its limit.
        14 => {
            let length = [MAX_OUTPUT + 1, 65_535, MAX_OUTPUT + 2][round % 3];
            octets = encode(&Case::Spell(HeldLabel::empty(5, 3), Output { length, fill: 0 }), 0);
        }
        16.. => octets = later[kind - 16](random, round),
        // Longer than any case of the first entries that parses; once the longest there can be.
        _ => {
            let length = if round == 0 { 65_535 } else { random.between(3700, 4200) };
            octets.resize(length, 0);
        }
    }
    Made::Octets(octets)
}

/// What stands at the very end: a length cut off, or one that runs past the end of input.
pub fn cut_off(random: &mut Random, entries: &Entries) -> Vec<u8> {
    let octets = any_case(random, entries);
    let length = (octets.len() as u16).to_be_bytes();
    match random.below(4) {
        0 => length[..1].to_vec(),
        1 => length.to_vec(),
        2 => [&length[..], &octets[..octets.len() - 1]].concat(),
        _ => [&[255, 255], &octets[..]].concat(),
    }
}
