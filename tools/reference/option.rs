// One CIPSO option: reading and spelling.
//
// Document 01, "Option and tags"; the draft, section 3.

use crate::categories::Categories;
use crate::label::{HeldLabel, Label, Run, BITMAP_CATEGORIES, HIGHEST_CATEGORY};

/// "Type 134, length octet (whole option), domain (4 octets, big-endian), one tag."
pub const CIPSO: u8 = 134;
/// "at most 40 octets", for one option as for all options of a header.
pub const MAX_OCTETS: usize = 40;

/// Offsets of the fields from the option's first octet. "Tag: type, length (whole tag), alignment octet 0, level, categories."
pub const LENGTH_AT: usize = 1;
pub const DOMAIN_AT: usize = 2;
pub const TAG_TYPE_AT: usize = 6;
pub const TAG_LENGTH_AT: usize = 7;
pub const ALIGNMENT_AT: usize = 8;
pub const LEVEL_AT: usize = 9;
pub const CATEGORIES_AT: usize = 10;

/// The octets of a tag before its categories.
const TAG_HEAD: usize = CATEGORIES_AT - TAG_TYPE_AT;

/// The tags, in the order that settles equal lengths: "equal lengths go to tag 1, then 2, then 5".
pub const BITMAP: u8 = 1;
pub const ENUMERATED: u8 = 2;
pub const RANGES: u8 = 5;
pub const TAGS: [u8; 3] = [BITMAP, ENUMERATED, RANGES];

/// A refusal with its place, counted from the first octet of what was read.
#[derive(Clone, Copy, PartialEq, Eq, Debug)]
pub struct Fault {
    pub number: u8,
    pub offset: usize,
}

pub fn fault<T>(number: u8, offset: usize) -> Result<T, Fault> {
    Err(Fault { number, offset })
}

fn number_at(octets: &[u8], at: usize) -> u16 {
    u16::from_be_bytes([octets[at], octets[at + 1]])
}

/// The column "Valid tag lengths".
fn tag_length_valid(tag: u8, length: u8) -> bool {
    match tag {
        BITMAP => (4..=34).contains(&length),
        ENUMERATED => (4..=34).contains(&length) && length % 2 == 0,
        RANGES => (4..=32).contains(&length) && length % 2 == 0,
        _ => false,
    }
}

/// Tag 1: "bitmap; category 0 is the top bit of the first octet, 15 the bottom bit of the second; trailing zero octets are accepted".
fn read_bitmap(octets: &[u8]) -> Categories {
    let mut categories = Categories::none();
    for category in 0..octets.len() * 8 {
        let top_bit_first = 7 - category % 8;
        if octets[category / 8] >> top_bit_first & 1 == 1 {
            categories.insert(category as u16);
        }
    }
    categories
}

/// Tag 2: "up to 15 two-octet numbers, strictly ascending (house: no repeats), none 65535". The error is the offset of the first bad one.
fn read_enumerated(octets: &[u8]) -> Result<Categories, usize> {
    let mut categories = Categories::none();
    let mut previous: Option<u16> = None;
    for at in (0..octets.len()).step_by(2) {
        let number = number_at(octets, at);
        let ascending = previous.map_or(true, |before| before < number);
        if number > HIGHEST_CATEGORY || !ascending {
            return Err(at);
        }
        categories.insert(number);
        previous = Some(number);
    }
    Ok(categories)
}

/// Tag 5: "up to 7 pairs, top then bottom, top ≥ bottom, none 65535; each next top below the previous bottom; touching pairs are
/// valid; the last bottom may be left out and is then 0". The error is the offset of the first bad pair.
fn read_ranges(octets: &[u8]) -> Result<Categories, usize> {
    let mut categories = Categories::none();
    let mut previous_bottom: Option<u16> = None;
    for at in (0..octets.len()).step_by(4) {
        let top = number_at(octets, at);
        let bottom = if at + 2 < octets.len() { number_at(octets, at + 2) } else { 0 };
        let descending = previous_bottom.map_or(true, |before| top < before);
        if top > HIGHEST_CATEGORY || bottom > HIGHEST_CATEGORY || top < bottom || !descending {
            return Err(at);
        }
        categories.insert_run(bottom, top);
        previous_bottom = Some(bottom);
    }
    Ok(categories)
}

/// Document 02, wish 10: "a tag 1 bitmap with a trailing zero octet, unless it has exactly ten octets, touching tag 5 pairs, and a last
/// bottom of 0 written out". Asked of the categories of a tag that passes 12.
fn slack(tag: u8, octets: &[u8]) -> bool {
    match tag {
        BITMAP => octets.last() == Some(&0) && octets.len() != TEN_OCTETS,
        RANGES => {
            let numbers: Vec<u16> = (0..octets.len()).step_by(2).map(|at| number_at(octets, at)).collect();
            // Tops stand at even places, bottoms at odd ones.
            let touching = (2..numbers.len()).step_by(2).any(|top| numbers[top] + 1 == numbers[top - 1]);
            let bottom_of_0 = numbers.len() % 2 == 0 && numbers.last() == Some(&0);
            touching || bottom_of_0
        }
        _ => false,
    }
}

/// Checks 7 to 13 and 23 on one option whose length octet gives its length. `domain_fits` is what 8 asks of the domain, and 23 is tested
/// where the port is strict.
pub fn read(option: &[u8], domain_fits: impl Fn(u32) -> bool, strict: bool) -> Result<Label, Fault> {
    // 7: "option 134 shorter than 10", at its length octet.
    if option.len() < CATEGORIES_AT {
        return fault(7, LENGTH_AT);
    }
    // 8: "domain 0, or not the port's", at the domain field.
    let domain = u32::from_be_bytes([option[DOMAIN_AT], option[DOMAIN_AT + 1], option[DOMAIN_AT + 2], option[DOMAIN_AT + 3]]);
    if !domain_fits(domain) {
        return fault(8, DOMAIN_AT);
    }
    // 9: "tag type not 1, 2 or 5", at the tag type.
    let tag = option[TAG_TYPE_AT];
    if !TAGS.contains(&tag) {
        return fault(9, TAG_TYPE_AT);
    }
    // 10: "tag length not valid for its type, or more than option length − 6", at the tag length.
    let tag_length = option[TAG_LENGTH_AT];
    if !tag_length_valid(tag, tag_length) || tag_length as usize > option.len() - TAG_TYPE_AT {
        return fault(10, TAG_LENGTH_AT);
    }
    // 11: "alignment octet not 0", at that octet.
    if option[ALIGNMENT_AT] != 0 {
        return fault(11, ALIGNMENT_AT);
    }
    // 12: "bad category or pair", at the first octet of the first bad one.
    let tag_end = TAG_TYPE_AT + tag_length as usize;
    let octets = &option[CATEGORIES_AT..tag_end];
    let reading = match tag {
        BITMAP => Ok(read_bitmap(octets)),
        ENUMERATED => read_enumerated(octets),
        _ => read_ranges(octets),
    };
    let categories = match reading {
        Ok(categories) => categories,
        Err(at) => return fault(12, CATEGORIES_AT + at),
    };
    // 23: "tested right after 12, pointer at the tag's first category octet".
    if strict && slack(tag, octets) {
        return fault(23, CATEGORIES_AT);
    }
    // 13: "octets after the tag", at the first of them.
    if tag_end < option.len() {
        return fault(13, tag_end);
    }
    Ok(Label { domain, level: option[LEVEL_AT], categories })
}

/// "One option read alone must begin with 134 and fill its buffer, else 3; then 7 to 13, pointers from its own start, 8 for domain 0 only."
pub fn read_alone(octets: &[u8]) -> Result<Label, Fault> {
    let begins = octets.first() == Some(&CIPSO);
    let fills = octets.get(LENGTH_AT).map(|length| *length as usize) == Some(octets.len());
    if !begins || !fills {
        return fault(3, 0);
    }
    read(octets, |domain| domain != 0, false)
}

/// "An option is valid when it has the form above, one tag that keeps to the table, length 6 plus its tag's length, and at most 40 octets."
/// Its domain is free. Asked of an option whose length octet gives its length.
pub fn valid(option: &[u8]) -> bool {
    read(option, |_| true, false).is_ok()
}

/// The longest bitmap of tag 1.
const BITMAP_OCTETS: usize = BITMAP_CATEGORIES as usize / 8;

/// Document 02, wish 12: the runs of a bitmap alone, "over 30 octets: 10".
pub fn read_bitmap_alone(octets: &[u8]) -> (u8, Vec<Run>) {
    if octets.len() > BITMAP_OCTETS {
        return (10, Vec::new());
    }
    (0, read_bitmap(octets).runs())
}

fn assemble(label: &Label, tag: u8, categories: &[u8]) -> Vec<u8> {
    let mut option = vec![CIPSO, (CATEGORIES_AT + categories.len()) as u8];
    option.extend(label.domain.to_be_bytes());
    option.extend([tag, (TAG_HEAD + categories.len()) as u8, 0, label.level]);
    option.extend(categories);
    option
}

/// Tag 1 with that many bitmap octets, which have room for every category.
fn assemble_bitmap(label: &Label, length: usize) -> Vec<u8> {
    let mut octets = vec![0; length];
    for category in label.categories.iter() {
        octets[category as usize / 8] |= 0x80 >> (category % 8);
    }
    assemble(label, BITMAP, &octets)
}

/// The bitmap octets up to the highest category's.
fn bitmap_octets(label: &Label) -> usize {
    label.categories.highest().map_or(0, |highest| highest as usize / 8 + 1)
}

/// Tag 1 without trailing zero octets; none where a category is over 239.
fn spell_bitmap(label: &Label) -> Option<Vec<u8>> {
    let length = bitmap_octets(label);
    if length > BITMAP_OCTETS {
        return None;
    }
    Some(assemble_bitmap(label, length))
}

/// "tag 1 with exactly ten bitmap octets"
const TEN_OCTETS: usize = 10;

/// Tag 1 in its ten-octet form; none where a category is over 79.
fn spell_ten_octets(label: &Label) -> Option<Vec<u8>> {
    if bitmap_octets(label) > TEN_OCTETS {
        return None;
    }
    Some(assemble_bitmap(label, TEN_OCTETS))
}

/// Tag 2; none where there are over 15 categories.
fn spell_enumerated(label: &Label) -> Option<Vec<u8>> {
    if label.categories.len() > 15 {
        return None;
    }
    let octets: Vec<u8> = label.categories.iter().flat_map(|category| category.to_be_bytes()).collect();
    Some(assemble(label, ENUMERATED, &octets))
}

/// Tag 5 with one pair for each run and a last bottom of 0 left out; none where there are over 7 runs.
fn spell_ranges(label: &Label) -> Option<Vec<u8>> {
    let runs: Vec<Run> = label.categories.runs();
    if runs.len() > 7 {
        return None;
    }
    let mut octets = Vec::new();
    for run in runs.iter().rev() {
        octets.extend(run.high.to_be_bytes());
        if run.low != 0 {
            octets.extend(run.low.to_be_bytes());
        }
    }
    Some(assemble(label, RANGES, &octets))
}

/// Document 02, wish 5: "the set of permitted spellings: tag 1 shortest, tag 1 with exactly ten bitmap octets, tag 2, tag 5". A set is the
/// sum of its members.
pub const SHORTEST_BITMAP: u8 = 1;
pub const TEN_OCTET_BITMAP: u8 = 2;
pub const LISTED: u8 = 4;
pub const PAIRED: u8 = 8;
pub const ALL_SPELLINGS: u8 = 15;
/// "With tags 1, 2 and 5 permitted and no ten-octet form, 01's cases stand."
pub const PLAIN_SPELLINGS: u8 = SHORTEST_BITMAP + LISTED + PAIRED;

/// "shortest among the permitted ones, ties in the order just listed": every permitted spelling is tried, and of equal lengths the first
/// stands. None "exactly if no permitted one means the label".
pub fn spell(label: &Label, permitted: u8) -> Option<Vec<u8>> {
    let spellings: [(u8, fn(&Label) -> Option<Vec<u8>>); 4] =
        [(SHORTEST_BITMAP, spell_bitmap), (TEN_OCTET_BITMAP, spell_ten_octets), (LISTED, spell_enumerated), (PAIRED, spell_ranges)];
    let in_set = spellings.iter().filter(|(member, _)| permitted & member != 0);
    in_set.filter_map(|(_, spelling)| spelling(label)).min_by_key(|option| option.len())
}

/// "Spelling gives 1 for an output under 40, then 2, then 18; done, it writes the option, zeros from there up to octet 39, leaves
/// octets from 40 on, and returns the length." A refusal comes with "count 0" and writes nothing. 18 is given "exactly if no permitted one
/// means the label", so for an empty set always.
pub fn spell_alone(held: &HeldLabel, permitted: u8, output: &mut [u8]) -> (u8, usize) {
    if output.len() < MAX_OCTETS {
        return (1, 0);
    }
    let label = match held.label() {
        Some(label) => label,
        None => return (2, 0),
    };
    match spell(&label, permitted) {
        None => (18, 0),
        Some(option) => {
            output[..MAX_OCTETS].fill(0);
            output[..option.len()].copy_from_slice(&option);
            (0, option.len())
        }
    }
}
