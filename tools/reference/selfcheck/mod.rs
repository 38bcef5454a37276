// Checks of the reference itself: document 01's "Numbers to try", its sample lines, and the points that are easy to misread.

mod basic;
mod boxes;
mod files;
mod inspected;
mod memories;
mod messages;
mod permitted;
mod renumbering;
mod strict;

use crate::cases::{self, hex};
use crate::decision::{deliver, forward, Decision, Facts};
use crate::entries::Entries;
use crate::generator::sample_files::{variant, VARIANTS};
use crate::generator::{random_option, Random};
use crate::label::{HeldLabel, Label, Run, HIGHEST_CATEGORY};
use crate::option::{read_alone, read_bitmap_alone, spell, spell_alone, CIPSO, PLAIN_SPELLINGS};
use crate::records::{renumber_alone, HostRecord, PortRecord, Row, TableRecord};
use crate::sample;

/// What outputs hold before a call.
const FILL: u8 = 0xee;

struct Tally {
    passed: usize,
    failed: usize,
}

impl Tally {
    fn equal<T: PartialEq + std::fmt::Debug>(&mut self, what: &str, found: T, expected: T) {
        if found == expected {
            self.passed += 1;
        } else {
            self.failed += 1;
            println!("{}: found {:?}, expected {:?}", what, found, expected);
        }
    }
}

/// A label of domain 5, level 3 with the given runs.
fn held(runs: &[(u16, u16)]) -> HeldLabel {
    let mut label = HeldLabel { count: runs.len() as u8, ..HeldLabel::empty(5, 3) };
    for (place, (low, high)) in runs.iter().enumerate() {
        label.places[place] = Run { low: *low, high: *high };
    }
    label
}

fn singles(numbers: impl Iterator<Item = u16>) -> HeldLabel {
    let runs: Vec<(u16, u16)> = numbers.map(|number| (number, number)).collect();
    held(&runs)
}

/// The number that spelling a label gives, and the output of 41 octets that it leaves, in hex.
fn spelled(label: &HeldLabel) -> (u8, String) {
    let mut output = [FILL; 41];
    let (number, _) = spell_alone(label, PLAIN_SPELLINGS, &mut output);
    (number, hex(&output))
}

/// The output of 41 octets with an option written into it: zeros up to octet 39, then what was there.
fn output_with(option: &[u8]) -> String {
    let mut output = [0; 41];
    output[..option.len()].copy_from_slice(option);
    output[40] = FILL;
    hex(&output)
}

fn octets_of(text: &str) -> Vec<u8> {
    let digits: Vec<u8> = text.bytes().filter(|digit| *digit != b' ').collect();
    digits.chunks(2).map(|pair| u8::from_str_radix(std::str::from_utf8(pair).unwrap(), 16).unwrap()).collect()
}

/// The option of domain 5 with these octets of tag.
fn option_of(tag: &str) -> Vec<u8> {
    let tag = octets_of(tag);
    let mut option = vec![CIPSO, 6 + tag.len() as u8, 0, 0, 0, 5];
    option.extend(tag);
    option
}

/// "P1 no categories" to "P11": label, number, option.
fn numbers_to_try(tally: &mut Tally) {
    let table: Vec<(&str, HeldLabel, u8, String)> = vec![
        ("P1", held(&[]), 0, "01040003".into()),
        ("P2", held(&[(15, 15)]), 0, "010600030001".into()),
        ("P3", held(&[(16, 16)]), 0, "020600030010".into()),
        ("P4", held(&[(0, 15)]), 0, "01060003ffff".into()),
        ("P5", held(&[(0, 16)]), 0, "050600030010".into()),
        ("P6", held(&[(1000, 1001)]), 0, "0208000303e803e9".into()),
        ("P7", held(&[(0, HIGHEST_CATEGORY)]), 0, "05060003fffe".into()),
        ("P8", singles((240..=268).step_by(2)), 0, {
            let numbers: String = (240..=268u16).step_by(2).map(|number| format!("{:04x}", number)).collect();
            format!("02220003{}", numbers)
        }),
        ("P9", singles((240..=270).step_by(2)), 18, String::new()),
        ("P10", singles((1..=239).step_by(2)), 0, format!("01220003{}", "55".repeat(30))),
        ("P11", held(&[(297, 300)]), 0, "05080003012c0129".into()),
    ];
    for (name, label, number, tag) in table {
        if number != 0 {
            tally.equal(name, spelled(&label), (number, hex(&[FILL; 41])));
            continue;
        }
        let option = option_of(&tag);
        tally.equal(name, spelled(&label), (0, output_with(&option)));
        let read_back = read_alone(&option).ok().and_then(|label| label.held());
        tally.equal(&format!("{} read back", name), read_back == Some(label), true);
    }
    let pairs = read_alone(&option_of("050c0003 012c012b 012a0129")).ok().and_then(|label| label.held());
    tally.equal("P11 pairs 300-299, 298-297", pairs == Some(held(&[(297, 300)])), true);
}

fn sample_line(area: &str) -> String {
    sample::Sample::new().line_of(&octets_of(area))
}

fn sample_lines(tally: &mut Tally) {
    let mut output = Vec::new();
    sample::run(&mut &octets_of("0c 860c00000005020600030000 00")[..], &mut output, Some(&sample::Sample::new())).unwrap();
    let expected = "FORWARD 12 860c000000090206000403e8\nDROP 6 12 1 134\n";
    tally.equal("the two sample lines", String::from_utf8(output).unwrap(), expected.to_string());

    tally.equal("level 2 in the sample", sample_line("860a 00000005 01040002 0000"), "DROP 16 3 9 0".to_string());
    tally.equal("domain 0 in a first option", sample_line("860a 00000000 01040003 0000"), "DROP 8 12 0 22".to_string());
    tally.equal("domain 0 after one type 1 octet", sample_line("01 860a 00000000 01040003 00"), "DROP 8 12 0 23".to_string());
    let padded = sample_line("860a 00000005 01040003 0101");
    tally.equal("padding is part of the count", padded, "FORWARD 12 860a00000009010400040000".to_string());
    tally.equal("an area of 41 octets", sample_line(&"01".repeat(41)), "DROP 1 0 0 0".to_string());

    let run = |input: &str| {
        let mut output = Vec::new();
        sample::run(&mut &octets_of(input)[..], &mut output, Some(&sample::Sample::new())).unwrap();
        String::from_utf8(output).unwrap()
    };
    tally.equal("no records", run(""), String::new());
    tally.equal("a cut record", run("00 04 0101"), "DROP 6 12 1 134\nBROKEN\n".to_string());
}

/// Wish 1: the sample of a file.
fn sample_files(tally: &mut Tally) {
    let lines = |file: &[u8]| {
        let mut output = Vec::new();
        let sample = sample::Sample::of_file(file);
        sample::run(&mut &octets_of("0c 860c00000005020600030000 00")[..], &mut output, sample.as_ref()).unwrap();
        String::from_utf8(output).unwrap()
    };
    let forward = "FORWARD 12 860c000000090206000403e8\nDROP 6 12 1 134\n";
    let broken = "BROKEN\n";
    let no_number = "DROP 16 3 9 0\nDROP 6 12 1 134\n";
    // The variants by their numbers: no table is 16, fewer than two ports and every refused file is one line.
    let expected = [
        forward,
        no_number,
        broken,
        broken,
        "FORWARD 12 860b00000005010500038000\nDROP 6 12 1 134\n",
        no_number,
        no_number,
        forward,
        forward,
    ];
    for (number, expected) in expected.iter().enumerate() {
        tally.equal(&format!("sample file {}", number), lines(&variant(number, 3)), expected.to_string());
    }
    // The same file of version 2, and with a long table in it.
    for number in [VARIANTS, VARIANTS + 7] {
        tally.equal(&format!("sample file {}", number), lines(&variant(number, 3)), expected[0].to_string());
    }
    for number in (12..VARIANTS).chain(VARIANTS + 12..2 * VARIANTS) {
        for seed in 0..20 {
            tally.equal(&format!("sample file {}", number), lines(&variant(number, seed)), broken.to_string());
        }
    }
    let own = variant(10, 1);
    let line = sample::Sample::of_file(&own).map(|sample| sample.line_of(&[]));
    tally.equal("the assigned label of a file", line, Some("FORWARD 16 861000000009050a0004044b03e800c8".to_string()));
}

/// A port without a required label whose range is everything in its domain.
fn open_port(domain: u32, assigned: HeldLabel) -> PortRecord {
    let mut highest = HeldLabel { count: 1, ..HeldLabel::empty(domain, 255) };
    highest.places[0] = Run { low: 0, high: HIGHEST_CATEGORY };
    PortRecord { domain, lowest: HeldLabel::empty(domain, 0), highest, required: false, assigned, ..PortRecord::PLAIN }
}

/// One kept option of `length` octets, padded with type 0.
fn area_with_kept(length: usize) -> Vec<u8> {
    let mut area = vec![0; (length + 3) / 4 * 4];
    area[0] = 7;
    area[1] = length as u8;
    area
}

fn forwarded(decision: &Decision) -> (u8, u8, u8, u8, usize) {
    (decision.number, decision.icmp_type, decision.icmp_code, decision.pointer, decision.count)
}

/// "No label, assigned empty label, one kept option of 30 octets: 40, forwarded. Of 31: 18."
fn room(tally: &mut Tally) {
    let port = open_port(5, HeldLabel::empty(5, 3));
    let mut output = [FILL; 48];
    let decision = forward(&port, &port, &TableRecord::ALL_ZERO, &Facts::NONE, &area_with_kept(30), &mut output);
    tally.equal("kept option of 30 octets", forwarded(&decision), (0, 0, 0, 0, 40));
    tally.equal("octets from 40 on", output[40..].to_vec(), vec![FILL; 8]);
    let mut output = [FILL; 48];
    let decision = forward(&port, &port, &TableRecord::ALL_ZERO, &Facts::NONE, &area_with_kept(31), &mut output);
    tally.equal("kept option of 31 octets", forwarded(&decision), (18, 3, 9, 0, 0));
    tally.equal("a refusal writes nothing", output.to_vec(), vec![FILL; 48]);
    let decision = forward(&port, &port, &TableRecord::ALL_ZERO, &Facts::marked(true), &area_with_kept(31), &mut output);
    tally.equal("a datagram marked as ICMP", forwarded(&decision), (18, 0, 0, 0, 0));
}

/// "An over-large renumbered set is 18 unless 17 applies".
fn over_large(tally: &mut Tally) {
    // 0, 1, 3, 5 .. 239 has 120 runs; the table parts 0 from 1, which makes 121.
    let mut runs = vec![(0, 1)];
    runs.extend((3..=239).step_by(2).map(|number| (number, number)));
    let label = held(&runs);
    tally.equal("120 runs are well formed", label.well_formed(), true);
    let mut table = TableRecord { from: 5, to: 9, level_count: 1, row_count: 2, ..TableRecord::ALL_ZERO };
    table.levels[0] = [3, 4];
    table.rows = vec![Row { low: 0, high: 0, target_low: 0 }, Row { low: 1, high: 239, target_low: 2 }];
    let (number, renumbered) = renumber_alone(&label, &table);
    tally.equal("121 runs alone", (number, renumbered == HeldLabel::ALL_ZERO), (18, true));

    let arriving = open_port(5, label);
    let mut leaving = open_port(9, HeldLabel::empty(9, 0));
    let decision = forward(&arriving, &leaving, &table, &Facts::NONE, &[], &mut [0; 40]);
    tally.equal("121 runs inside the leaving range", decision.number, 18);
    // The last of them, 240, is outside.
    leaving.highest.places[0].high = 239;
    let decision = forward(&arriving, &leaving, &table, &Facts::NONE, &[], &mut [0; 40]);
    tally.equal("121 runs outside the leaving range", decision.number, 17);
}

fn reading(tally: &mut Tally) {
    let number_and_pointer = |octets: &[u8]| match read_alone(octets) {
        Ok(_) => (0, 0),
        Err(fault) => (fault.number, fault.offset),
    };
    let with = |tag: &str| number_and_pointer(&option_of(tag));
    tally.equal("empty buffer", number_and_pointer(&[]), (3, 0));
    tally.equal("lone type octet", number_and_pointer(&[134]), (3, 0));
    tally.equal("another type", number_and_pointer(&octets_of("820a 00000005 01040003")), (3, 0));
    tally.equal("longer than its length", number_and_pointer(&octets_of("860a 00000005 01040003 00")), (3, 0));
    tally.equal("length 2", number_and_pointer(&[134, 2]), (7, 1));
    tally.equal("length 9", number_and_pointer(&octets_of("8609 00000005 010400")), (7, 1));
    tally.equal("domain 0", number_and_pointer(&octets_of("860a 00000000 01040003")), (8, 2));
    tally.equal("tag type 4", with("04040003"), (9, 6));
    tally.equal("tag 1 of 34 octets", with(&format!("01220003{}", "00".repeat(30))), (0, 0));
    tally.equal("tag 1 of 35 octets", with(&format!("01230003{}", "00".repeat(31))), (10, 7));
    tally.equal("tag 2 of 5 octets", with("0205000300"), (10, 7));
    tally.equal("tag 5 of 34 octets", with(&format!("05220003{}", "00".repeat(30))), (10, 7));
    tally.equal("tag longer than its option", with("010500ff"), (10, 7));
    tally.equal("alignment octet before a bad category", with("02060103ffff"), (11, 8));
    tally.equal("tag 2 with 65535", with("02080003 0001 ffff"), (12, 12));
    tally.equal("tag 2 with a repeat", with("02080003 0001 0001"), (12, 12));
    tally.equal("tag 5 with top below bottom", with("05080003 0001 0002"), (12, 10));
    tally.equal("tag 5 with overlapping pairs", with("050c0003 0009 0005 0005 0001"), (12, 14));
    tally.equal("tag 5 with touching pairs", with("050c0003 0009 0005 0004 0001"), (0, 0));
    tally.equal("tag 5 after a bottom of 0", with("050a0003 0009 0000 0000"), (12, 14));
    tally.equal("a second tag", with("01040003 01040003"), (13, 10));
    tally.equal("octets after a bad category", with("0206 0003 ffff 00"), (12, 10));
}

fn labels(tally: &mut Tally) {
    let label = held(&[(3, 5), (7, 7)]);
    tally.equal("covered", (label.contains(3), label.contains(5), label.contains(7)), (true, true, true));
    tally.equal("not covered", (label.contains(0), label.contains(2), label.contains(6), label.contains(8)), (false, false, false, false));
    let mut touching = held(&[(3, 5), (6, 7)]);
    tally.equal("touching runs are ill-formed", (touching.well_formed(), touching.contains(4)), (false, false));
    touching.places[1] = Run { low: 7, high: 7 };
    tally.equal("one set, one form", touching == label, true);
    tally.equal("empty label of domain 0", HeldLabel::empty(0, 7) == HeldLabel::ALL_ZERO, true);
    tally.equal("the empty label is within", held(&[]).within(&label), true);
    tally.equal("an ill-formed label is within nothing", HeldLabel::ALL_ZERO.within(&label), false);
    let other = HeldLabel { level: 9, ..held(&[(3, 4)]) };
    tally.equal("incomparable labels", (label.within(&other), other.within(&label)), (false, false));
}

fn deliveries(tally: &mut Tally) {
    let assigned = held(&[(2, 4)]);
    let port = open_port(5, assigned.clone());
    let host = HostRecord { lowest: HeldLabel::empty(5, 0), highest: assigned.clone() };
    let decision = deliver(&port, &host, &Facts::NONE, &[]);
    tally.equal("the assigned label is delivered", (forwarded(&decision), decision.label == assigned), ((0, 0, 0, 0, 0), true));
    let narrow = HostRecord { highest: HeldLabel::empty(5, 255), ..host };
    tally.equal("outside the host's range", forwarded(&deliver(&port, &narrow, &Facts::NONE, &[])), (15, 3, 10, 0, 0));
    let foreign = HostRecord { lowest: HeldLabel::empty(6, 0), highest: HeldLabel::empty(6, 255) };
    tally.equal("a host of a foreign domain", forwarded(&deliver(&port, &foreign, &Facts::NONE, &[])), (2, 0, 0, 0, 0));
    tally.equal("1 comes before 2", forwarded(&deliver(&port, &foreign, &Facts::NONE, &[134])), (1, 0, 0, 0, 0));
}

/// Wish 2: "any of them silences. Numbers and the order of checks stay."
fn silences(tally: &mut Tally) {
    let port = open_port(5, HeldLabel::empty(5, 3));
    let host = HostRecord { lowest: HeldLabel::empty(5, 4), highest: HeldLabel::empty(5, 4) };
    for pattern in 0..32usize {
        let facts = Facts::in_order(std::array::from_fn(|place| pattern >> place & 1 == 1));
        let report = |number, icmp_type, code| if pattern == 0 { (number, icmp_type, code, 0, 0) } else { (number, 0, 0, 0, 0) };
        let decision = forward(&port, &port, &TableRecord::ALL_ZERO, &facts, &area_with_kept(31), &mut [0; 40]);
        tally.equal("facts of a forward", forwarded(&decision), report(18, 3, 9));
        tally.equal("facts of a deliver", forwarded(&deliver(&port, &host, &facts, &[])), report(15, 3, 10));
        let decision = forward(&port, &port, &TableRecord::ALL_ZERO, &facts, &[], &mut [0; 40]);
        tally.equal("facts of a datagram that is forwarded", forwarded(&decision), (0, 0, 0, 0, 12));
    }
    let line = |octets: &str| cases::line_of(&octets_of(octets), &Entries::known());
    // Domain 5, lowest level 0, highest level 9, nothing required, assigned level 3; a host of level 4 alone; no area.
    let port = "00000005 00000005000000 00000005090000 00 00000005030000";
    let host = "00000005040000 00000005040000";
    tally.equal("entry 7, no mark", line(&format!("07 {} {} 00 00", port, host)), "15 3 10 0 0 0 0 0".to_string());
    tally.equal("entry 9, no fact", line(&format!("09 {} {} 0000000000 00", port, host)), "15 3 10 0 0 0 0 0".to_string());
    tally.equal("entry 9, the last fact", line(&format!("09 {} {} 0000000001 00", port, host)), "15 0 0 0 0 0 0 0".to_string());
    tally.equal("entry 9, a fact of 2", line(&format!("09 {} {} 0000020000 00", port, host)), "BROKEN".to_string());
    tally.equal("entry 9, four facts", line(&format!("09 {} {} 00000000 00", port, host)), "BROKEN".to_string());
    tally.equal("entry 9 where it is not built", cases::line_of(&[9], &Entries::named("1-7").unwrap()), "BROKEN".to_string());
    let forward = format!("{} {} 00000000 00000000 0000 000000", port, port);
    let line = line(&format!("08 {} 0100000000 04 82020000 0028 ee", forward));
    tally.equal("entry 8, the first fact", line, format!("4 0 0 0 0 0 0 0 {}", "ee".repeat(40)));
}

/// Wish 12: the runs of bitmaps, against a bit-by-bit reading of single categories.
fn bitmaps(tally: &mut Tally) {
    let line = |octets: &str| cases::line_of(&octets_of(octets), &Entries::known());
    tally.equal("no octets", line("18 00"), "0 0".to_string());
    tally.equal("category 0 is the top bit", line("18 01 80"), "0 1 0 0".to_string());
    tally.equal("category 15 is the bottom bit of the second", line("18 02 0001"), "0 1 15 15".to_string());
    tally.equal("a run across octets", line("18 03 01ff80"), "0 1 7 16".to_string());
    tally.equal("runs that end at a border", line("18 02 ff7f"), "0 2 0 7 9 15".to_string());
    tally.equal("trailing zero octets", line("18 03 a00000"), "0 2 0 0 2 2".to_string());
    tally.equal("30 full octets", line(&format!("18 1e {}", "ff".repeat(30))), "0 1 0 239".to_string());
    tally.equal("31 octets", line(&format!("18 1f {}", "00".repeat(31))), "10 0".to_string());
    tally.equal("255 octets", line(&format!("18 ff {}", "01".repeat(255))), "10 0".to_string());
    tally.equal("octets left over", line("18 01 8000"), "BROKEN".to_string());
    let mut random = Random::new(12);
    for turn in 0..256 * 30 {
        let length = random.between(0, 30);
        let mut octets = random.octets(length);
        if turn / 256 < length {
            octets[turn / 256] = (turn % 256) as u8;
        }
        let (number, runs) = read_bitmap_alone(&octets);
        let covered = |category: usize| runs.iter().any(|run| run.low as usize <= category && category <= run.high as usize);
        let same =
            (0..240).all(|category| covered(category) == octets.get(category / 8).map_or(false, |octet| octet << category % 8 & 0x80 != 0));
        let parted = runs.windows(2).all(|two| two[0].high + 2 <= two[1].low);
        tally.equal(&hex(&octets), (number, same, parted), (0, true, true));
    }
}

fn walks(tally: &mut Tally) {
    let line = |area: &str| sample_line(area);
    tally.equal("a short first 134 and a second", line("8602 8602"), "DROP 5 12 0 22".to_string());
    tally.equal("a lone 130 in the last octet", line("01010182"), "DROP 3 12 0 23".to_string());
    tally.equal("130 before a bad length", line("8202 0700"), "DROP 4 12 0 20".to_string());
    tally.equal("a bad length before 130", line("0700 8202"), "DROP 3 12 0 20".to_string());
    tally.equal("what follows type 0", line("860a 00000005 01040003 0082"), "FORWARD 12 860a00000009010400040000".to_string());
    let kept = line("8002 860a 00000005 01040003 8102 0000");
    tally.equal("128 and 129 are kept", kept, "FORWARD 16 860a0000000901040004800281020000".to_string());
}

fn parsing(tally: &mut Tally) {
    let run = |input: &str| {
        let mut output = Vec::new();
        cases::run(&mut &octets_of(input)[..], &mut output, &Entries::known()).unwrap();
        String::from_utf8(output).unwrap()
    };
    tally.equal("empty input", run(""), String::new());
    tally.equal("no entry octet, then a case", run("0000 000a 01 00000005 03 01 00 0000"), "BROKEN\nYES\n".to_string());
    tally.equal("a lone octet", run("00"), "BROKEN\n".to_string());
    tally.equal("a length past the end", run("0009 01"), "BROKEN\n".to_string());
    tally.equal("an unknown entry", run("0001 17"), "BROKEN\n".to_string());
    tally.equal("no output", run("000b 04 00000005 03 00 00 0000 ee"), "1 0 -\n".to_string());
}

/// Demand 3 on generated options: each gives a label whose spelling reads back, is no longer and is the first of equal lengths.
fn spellings(tally: &mut Tally) {
    let mut random = Random::new(1);
    for _ in 0..2000 {
        let option = random_option(&mut random);
        let label: Label = match read_alone(&option) {
            Ok(label) => label,
            Err(fault) => {
                tally.equal(&hex(&option), fault.number, 0);
                continue;
            }
        };
        let shortest = spell(&label, PLAIN_SPELLINGS).expect("a label that was read has a spelling");
        let read_back = read_alone(&shortest).ok();
        let tag = |option: &[u8]| option[6];
        let settled = shortest.len() < option.len() || (shortest.len() == option.len() && tag(&shortest) <= tag(&option));
        tally.equal(&hex(&option), (read_back == Some(label), settled), (true, true));
    }
}

pub fn run() -> bool {
    let mut tally = Tally { passed: 0, failed: 0 };
    numbers_to_try(&mut tally);
    sample_lines(&mut tally);
    sample_files(&mut tally);
    room(&mut tally);
    over_large(&mut tally);
    reading(&mut tally);
    labels(&mut tally);
    deliveries(&mut tally);
    silences(&mut tally);
    bitmaps(&mut tally);
    files::files(&mut tally);
    basic::basic(&mut tally);
    permitted::permitted(&mut tally);
    boxes::boxes(&mut tally);
    messages::messages(&mut tally);
    memories::memories(&mut tally);
    strict::strict_ports(&mut tally);
    inspected::inspected(&mut tally);
    renumbering::renumbering(&mut tally);
    walks(&mut tally);
    parsing(&mut tally);
    spellings(&mut tally);
    println!("{} passed, {} failed", tally.passed, tally.failed);
    tally.failed == 0
}
