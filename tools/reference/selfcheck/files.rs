// The house file: vectors, and what must hold of generated files.

use crate::cases::{hex, line_of};
use crate::entries::Entries;
use crate::file::{file_of, read, write, Refusal, SetRecord, Unwritten, Version, FIRST, SECOND, VERSIONS, WRITTEN};
use crate::generator::{agree, break_range, largest_set, rich_set, ruled, set_of_length, sound_set, Layout, Random};
use crate::records::{PortRecord, TableRecord, MAX_ROWS};
use crate::sample;

use super::{octets_of, Tally, FILL};

/// The file that says the same as document 01's sample.
const SAMPLE_FILE: &str = "00 84 01 02
    00000005  00000005 01 00  00000005 05 01 0000 012c  01  00000000 00 00
    00000009  00000009 00 00  00000009 ff 01 0000 fffe  01  00000000 00 00
    01
    00000005 00000009  0003 0102 0304 0506  0002 0000 0063 03e8  0064 012c 0000";

/// The same as a file of version 3, which is the one that is written: not strict.
fn third_file() -> Vec<u8> {
    let mut octets =
        octets_without_breaks(&SECOND_FILE.replacen("02 02", "03 02", 1).replace("0d  00  00000000 00 00", "0d  00  00000000 00 00  00"));
    agree(&mut octets);
    octets
}

/// The same as a file of version 2: no Basic Security, tags 1, 2 and 5, labelled hosts.
const SECOND_FILE: &str = "00 ac 02 02
    00000005  00000005 01 00  00000005 05 01 0000 012c  01  00000000 00 00  00  00 00 0000  00 00 0000  0d  00  00000000 00 00
    00000009  00000009 00 00  00000009 ff 01 0000 fffe  01  00000000 00 00  00  00 00 0000  00 00 0000  0d  00  00000000 00 00
    01
    00000005 00000009  0003 0102 0304 0506  0002 0000 0063 03e8  0064 012c 0000";

fn octets_without_breaks(text: &str) -> Vec<u8> {
    let words: Vec<&str> = text.split_whitespace().collect();
    octets_of(&words.concat())
}

/// Room for the rows of every sound file.
const ALL_ROWS: usize = 8 * MAX_ROWS;

/// The place that is blamed, or none where the file is accepted.
fn place(octets: &[u8]) -> Option<usize> {
    match read(octets, ALL_ROWS) {
        Ok(_) => None,
        Err(Refusal::Place(place)) => Some(place),
        Err(Refusal::Version(_) | Refusal::Room) => Some(usize::MAX),
    }
}

fn line(entry: u8, octets: &[u8], rest: &str) -> String {
    let mut case = vec![entry];
    case.extend((octets.len() as u16).to_be_bytes());
    case.extend(octets);
    case.extend(octets_of(rest));
    line_of(&case, &Entries::known())
}

fn vectors(tally: &mut Tally) {
    let mut sample = octets_without_breaks(SAMPLE_FILE);
    agree(&mut sample);
    let set = SetRecord::of(&[sample::arriving(), sample::leaving()], &[sample::table()]);
    tally.equal("the sample's file", hex(&file_of(&set, &FIRST)), hex(&sample));
    tally.equal("the sample's set", read(&sample, 2).ok().as_ref() == Some(&set), true);
    tally.equal("room for its two rows", read(&sample, 1).err(), Some(Refusal::Room));
    tally.equal("entry 10", line(10, &sample, ""), "ACCEPTED 2 1".to_string());
    let mut second = octets_without_breaks(SECOND_FILE);
    agree(&mut second);
    tally.equal("the sample's file, version 2", hex(&file_of(&set, &SECOND)), hex(&second));
    tally.equal("the sample's set, version 2", read(&second, 2).ok() == Some(set), true);
    let third = third_file();
    tally.equal("the sample's file, version 3", read(&third, 2).ok() == read(&second, 2).ok(), true);
    let written = format!("0 {} {}{}", third.len(), hex(&third), hex(&[FILL; 2]));
    for file in [&sample, &second, &third] {
        tally.equal("entry 11", line(11, file, &format!("{:04x} ee", third.len() + 2)), written.clone());
    }
    let short = format!("1 0 {}", "ee".repeat(third.len() - 1));
    tally.equal("entry 11, one octet short", line(11, &sample, &format!("{:04x} ee", third.len() - 1)), short);
    tally.equal("entry 11, no output", line(11, &sample, "0000 ee"), "1 0 -".to_string());

    tally.equal("the empty set", line(10, &octets_of("0005 01 00 00"), ""), "ACCEPTED 0 0".to_string());
    tally.equal("no octets", line(10, &[], ""), "REFUSED 0".to_string());
    tally.equal("one octet", line(10, &[1], ""), "REFUSED 0".to_string());
    tally.equal("a length alone", line(10, &octets_of("0002"), ""), "REFUSED 2".to_string());
    tally.equal("no port count", line(10, &octets_of("0003 01"), ""), "REFUSED 3".to_string());
    tally.equal("no table count", line(10, &octets_of("0004 01 00"), ""), "REFUSED 4".to_string());
    tally.equal("an octet after the last table", line(10, &octets_of("0006 01 00 00 00"), ""), "REFUSED 5".to_string());
    tally.equal("a length too small", line(10, &octets_of("0004 01 00 00"), ""), "REFUSED 0".to_string());
    tally.equal("version 0", line(10, &octets_of("0003 00"), ""), "VERSION 0".to_string());
    tally.equal("version 2", line(10, &octets_of("0005 02 00 00"), ""), "ACCEPTED 0 0".to_string());
    tally.equal("version 3", line(10, &octets_of("0005 03 00 00"), ""), "ACCEPTED 0 0".to_string());
    tally.equal("version 4", line(10, &octets_of("0005 04 ff ff"), ""), "VERSION 4".to_string());
    tally.equal("a wrong length before the version", line(10, &octets_of("0006 04 00 00"), ""), "REFUSED 0".to_string());
    tally.equal("17 ports", line(10, &octets_of("0005 01 11 00"), ""), "REFUSED 3".to_string());
    tally.equal("9 tables", line(10, &octets_of("0005 01 00 09"), ""), "REFUSED 4".to_string());
    tally.equal("entry 10, octets left over", line(10, &octets_of("0005 01 00 00"), "00"), "BROKEN".to_string());

    for (file, limit) in [(&sample, 32_768), (&second, 61_440), (&third, 61_440)] {
        let mut long = file.clone();
        long.resize(limit, 0);
        agree(&mut long);
        tally.equal("as long as can be", place(&long), Some(file.len()));
        long.push(0);
        agree(&mut long);
        tally.equal("one octet over the limit", place(&long), Some(0));
        long[2] = 4;
        tally.equal("version 4 over the limit", line(10, &long, ""), "VERSION 4".to_string());
    }

    // Entry 12: no ports, no tables; then a place past the count; then a table of one row with nothing lent, which is sound.
    let write_line = |case: &str| line_of(&octets_without_breaks(case), &Entries::known());
    tally.equal("entry 12, nothing", write_line("0c 00 00 00 00 0006 ee"), "0 5 0005030000ee".to_string());
    tally.equal("entry 12, a port too many", write_line("0c 01 00 00 00 0006 ee"), format!("2 0 {}", "ee".repeat(6)));
    let zero_port = format!("{} {} 00 {} 00", "00000000", "00000000000000".repeat(2), "00000000000000");
    // Without its group a stored port permits tags 1, 2 and 5, and is not all zero.
    let plain = write_line(&format!("0c 00 01 {} 00 00 0005 ee", zero_port));
    tally.equal("entry 12, a stored port without spellings", plain, "2 0 eeeeeeeeee".to_string());
    let all_zero = write_line(&format!("0c 00 01 {}02 00 00 00 0005 ee", &zero_port[..zero_port.len() - 2]));
    tally.equal("entry 12, a stored zero port", all_zero, "0 5 0005030000".to_string());
    let other_port = format!("{} {} 01 {} 00", "00000000", "00000000000000".repeat(2), "00000000000000");
    let unused = write_line(&format!("0c 00 01 {} 00 00 0005 ee", other_port));
    tally.equal("entry 12, a place past the count", unused, "2 0 eeeeeeeeee".to_string());
    tally.equal(
        "entry 12, a group",
        write_line(&format!("0c 00 01 {}10 00 00 0005 ee", &zero_port[..zero_port.len() - 2])),
        "BROKEN".to_string(),
    );
    let table = write_line("0c 00 00 01 01 00000005 00000009 0000 0000 0001 0000 0005 ee");
    tally.equal("entry 12, no row lent", table, "2 0 eeeeeeeeee".to_string());
    let table = write_line("0c 00 00 01 01 00000005 00000009 0000 0000 0001 0001 000000000000 0018 ee");
    tally.equal("entry 12, a row of zeros", table, "0 23 001703000100000005000000090000000100000000000".to_string() + "0ee");
    let past = write_line("0c 00 00 00 01 00000000 00000000 0000 0000 0000 0001 000000000000 0005 ee");
    tally.equal("entry 12, a row lent past the count", past, "2 0 eeeeeeeeee".to_string());
    tally.equal(
        "entry 12, 257 stored pairs",
        write_line(&format!("0c 00 00 01 01 00000005 00000009 0000 0101 {} 0000 0000 0018 ee", "0000".repeat(257))),
        "BROKEN".to_string(),
    );
    let wide = write_line("0c 00 00 01 01 00000005 00000009 0100 0000 0000 0000 0005 ee");
    tally.equal("entry 12, 256 pairs of zeros", wide, "2 0 eeeeeeeeee".to_string());
}

/// "a set has one file per version that can say it", "and what the writer wrote the reader gives back."
fn written_and_read(tally: &mut Tally, set: &SetRecord, version: &Version) {
    let said = file_of(set, version);
    tally.equal("sound", set.sound(), true);
    tally.equal("laid out by fields", Layout::of(set, version).octets == said, true);
    tally.equal("read as it was said", read(&said, ALL_ROWS).ok().as_ref() == Some(set), true);
    let file = file_of(set, &WRITTEN);
    for room in [file.len() - 1, file.len(), file.len() + 7] {
        let mut output = vec![FILL; room];
        let expected = if room < file.len() { Err(Unwritten::Short) } else { Ok(file.len()) };
        tally.equal("writer", write(set, &mut output), expected);
        let count = expected.unwrap_or(0);
        let (written, rest) = output.split_at(count);
        tally.equal("written", (written == &file[..count], rest.iter().all(|octet| *octet == FILL)), (true, true));
    }
    tally.equal("read back", read(&file, ALL_ROWS).ok().as_ref() == Some(set), true);
}

/// A file cut anywhere blames the first octet of the field that is cut; a longer one the first octet too many.
fn cut_everywhere(tally: &mut Tally, set: &SetRecord, version: &Version) {
    let layout = Layout::of(set, version);
    for field in &layout.fields {
        for length in field.at..field.at + field.width {
            let mut octets = layout.octets[..length].to_vec();
            agree(&mut octets);
            tally.equal("cut", place(&octets), Some(field.at));
        }
    }
    let mut longer = layout.octets.clone();
    longer.push(0);
    agree(&mut longer);
    tally.equal("longer", place(&longer), Some(layout.octets.len()));
}

/// One broken field is blamed; of two, the first.
fn broken_rules(tally: &mut Tally, random: &mut Random, version: &Version) {
    for name in ruled(version) {
        let mut layout = Layout::of(&rich_set(random, version), version);
        let first = layout.break_rule(random, name);
        tally.equal(name, (first.is_some(), place(&layout.octets)), (true, first));
        for other in ruled(version) {
            let mut both = layout.clone();
            let second = both.break_rule(random, other);
            tally.equal(&format!("{} and {}", name, other), place(&both.octets), first.min(second.or(first)));
        }
    }
    for turn in 0..12 {
        let mut set = rich_set(random, version);
        let port = random.below(set.port_count as usize);
        let name = break_range(random, &mut set.ports[port], turn);
        let layout = Layout::of(&set, version);
        let blamed = layout
            .fields
            .iter()
            .filter(|field| field.name == "port domain")
            .nth(port)
            .and_then(|domain| layout.fields.iter().find(|field| field.at > domain.at && field.name == name).map(|field| field.at));
        tally.equal(name, (blamed.is_some(), place(&layout.octets)), (true, blamed));
    }
}

/// Every octet of a file changed to every other: what is accepted is a sound set with just this file.
fn changed_octets(tally: &mut Tally, set: &SetRecord, version: &Version) {
    let file = file_of(set, version);
    for at in 0..file.len() {
        for change in 1..=255 {
            let mut octets = file.clone();
            octets[at] ^= change;
            if let Ok(read) = read(&octets, ALL_ROWS) {
                tally.equal("changed", (read.sound(), file_of(&read, version) == octets, read != *set), (true, true, true));
            }
        }
    }
}

pub fn files(tally: &mut Tally) {
    vectors(tally);
    let mut random = Random::new(31);
    for version in &VERSIONS {
        for turn in 0..100 {
            let set = sound_set(&mut random, turn, version);
            written_and_read(tally, &set, version);
            if file_of(&set, version).len() < 1000 {
                cut_everywhere(tally, &set, version);
            }
        }
        for _ in 0..20 {
            broken_rules(tally, &mut random, version);
        }
        for _ in 0..2 {
            let set = rich_set(&mut random, version);
            changed_octets(tally, &set, version);
        }
    }
    let largest = largest_set(&mut random);
    written_and_read(tally, &largest, &FIRST);
    cut_everywhere(tally, &largest, &FIRST);
    for length in [61_439, 61_440] {
        let longest = set_of_length(&mut random, length);
        tally.equal("the longest file", file_of(&longest, &WRITTEN).len(), length);
        written_and_read(tally, &longest, &WRITTEN);
    }
    let longer = set_of_length(&mut random, 61_441);
    tally.equal("a set that is too long", (longer.sound(), file_of(&longer, &WRITTEN).len()), (true, 61_441));
    tally.equal("it is refused by name", write(&longer, &mut [0; 65_535]), Err(Unwritten::Named));
    tally.equal("before 1", write(&longer, &mut []), Err(Unwritten::Named));
    let second = file_of(&longer, &SECOND);
    tally.equal("a file of version 2 says it", (second.len(), read(&second, ALL_ROWS).ok() == Some(longer)), (61_425, true));
    let unused = SetRecord { table_count: 0, ..SetRecord::of(&[], &[sample::table()]) };
    tally.equal("a table past the count", write(&unused, &mut [0; 500]), Err(Unwritten::Unsound));
    let zero = SetRecord::of(&[PortRecord::ALL_ZERO], &[TableRecord::ALL_ZERO]);
    tally.equal("all-zero places within the count", write(&zero, &mut [0; 500]), Err(Unwritten::Unsound));
}
