// ICMP messages: vectors made by hand, every octet of a message changed, and every length of one.

use crate::cases::line_of;
use crate::entries::Entries;
use crate::messages::{build, read, Report};

use super::{octets_of, Tally, FILL};

fn line(octets: &str) -> String {
    line_of(&octets_of(octets), &Entries::known())
}

/// A header of 20 octets, without options: version 4, from 10.0.0.1 to 10.0.0.2.
const PLAIN: &str = "45000014 00000000 40060000 0a000001 0a000002";
/// A header with an option 134 of 10 octets, which has no categories.
const LABELLED: &str = "48000020 00000000 40060000 0a000001 0a000002 860a00000005010400030000";

fn build_line(report: &str, header: &str, data: &str, outputs: &str) -> String {
    let (header, data) = (header.replace(' ', ""), data.replace(' ', ""));
    line(&format!("14 {} {:02x}{} {:04x}{} {}", report, header.len() / 2, header, data.len() / 2, data, outputs))
}

fn build_vectors(tally: &mut Tally) {
    // 0c01 + 8600 + 4500 + 0014 + 4006 + 0a00 + 0001 + 0a00 + 0002 = 12b1e, so 2b1f, and d4e0 is left to ffff.
    let message = "0c01d4e0860000004500001400000000400600000a0000010a000002";
    tally.equal("no option 134", build_line("06 0c0186", PLAIN, "", "001c ee 0000 ee"), format!("0 28 0 {} -", message));
    tally.equal("room past it", build_line("06 0c0186", PLAIN, "", "001e ee 0002 dd"), format!("0 28 0 {}eeee dddd", message));
    let option = "860a00000005010400030000";
    // 0309 + 4800 + 0020 + 4006 + 0a00 + 0001 + 0a00 + 0002 + 860a + 0005 + 0104 + 0003, and the data.
    let sum = |extra: u32| {
        let words = [0x0309, 0x4800, 0x0020, 0x4006, 0x0a00, 0x0001, 0x0a00, 0x0002, 0x860a, 0x0005, 0x0104, 0x0003u32];
        let total = words.iter().sum::<u32>() + extra;
        0xffff - (total / 0x10000 + total % 0x10000)
    };
    let with_sum = |extra: u32| format!("0309{:04x}00000000{}", sum(extra), LABELLED.replace(' ', ""));
    tally.equal("an option 134", build_line("0e 030900", LABELLED, "", "0028 ee 000c ee"), format!("0 40 12 {} {}", with_sum(0), option));
    tally.equal(
        "an odd count of data octets",
        build_line("0e 030900", LABELLED, "11 22 33", "002b ee 000c ee"),
        format!("0 43 12 {}112233 {}", with_sum(0x1122 + 0x3300), option),
    );
    tally.equal(
        "nine data octets",
        build_line("0e 030900", LABELLED, "010203040506070809", "0030 ee 000c ee"),
        format!("0 48 12 {}0102030405060708 {}", with_sum(0x0102 + 0x0304 + 0x0506 + 0x0708), option),
    );
    tally.equal("24 for the message", build_line("06 0c0186", PLAIN, "", "001b ee 0000 ee"), format!("24 0 0 {} -", "ee".repeat(27)));
    tally.equal(
        "24 for the options",
        build_line("0e 030900", LABELLED, "", "0028 ee 000b ee"),
        format!("24 0 0 {} {}", "ee".repeat(40), "ee".repeat(11)),
    );
}

/// The number and counts for a report and a header.
fn counts(number: u8, report: (u8, u8, u8), header: &str) -> (u8, usize, usize) {
    let (icmp_type, icmp_code, pointer) = report;
    let (mut message, mut options) = ([FILL; 80], [FILL; 44]);
    let report = Report { icmp_type, icmp_code, pointer };
    build(number, &report, &octets_of(header), &[], &mut message, &mut options)
}

fn with_options(options: &str) -> String {
    let length = octets_of(options).len();
    format!("4{:x}{}{}", 5 + length / 4, &PLAIN.replace(' ', "")[2..], options)
}

fn decisions(tally: &mut Tally) {
    for number in 0..=255 {
        let silent = matches!(number, 3..=5 | 7..=13 | 23);
        let expected = if silent { (0, 0, 0) } else { (0, 28, 0) };
        tally.equal("which numbers are sent", counts(number, (12, 1, 134), PLAIN), expected);
        tally.equal("a silent report", counts(number, (0, 0, 0), PLAIN), (0, 0, 0));
        tally.equal("type 3 with a pointer", counts(number, (3, 9, 1), PLAIN), (2, 0, 0));
        tally.equal(
            "a type that isn't silent",
            counts(6, (number, 1, 0), PLAIN),
            if [3, 12].contains(&number) { (0, 28, 0) } else { (2, 0, 0) },
        );
        tally.equal("a header without its first octet", counts(number, (12, 1, 134), ""), (2, 0, 0));
    }
    let sent = |options: &str| counts(6, (12, 1, 134), &with_options(options));
    tally.equal("options 130 and 133 are passed over", sent("8203ab 8502 8502 01"), (0, 36, 0));
    tally.equal("a second 130", sent("8203ab 8203ab 0000"), (0, 0, 0));
    tally.equal("a second 134", sent("860a00000005010400030101 860a00000005010400030000"), (0, 0, 0));
    tally.equal("an option that runs over", sent("01010107"), (0, 0, 0));
    tally.equal("domain 0 is valid in form", sent("860a00000000010400030000"), (0, 40, 12));
    tally.equal("a tag of another type", sent("860a00000005030400030000"), (0, 0, 0));
    tally.equal("octets after the tag", sent("860b0000000501040003 0000"), (0, 0, 0));
    tally.equal("what is behind type 0", sent("00860286"), (0, 32, 0));
    for length in 0..=15usize {
        let header = format!("4{:x}{}", length, "00".repeat((4 * length).max(1) - 1));
        let expected = if length >= 5 { (0, 8 + 4 * length, 0) } else { (2, 0, 0) };
        tally.equal("a header of each length", counts(6, (12, 1, 134), &header), expected);
    }
}

fn reading(tally: &mut Tally) {
    let message = octets_of("0c01d4e0860000004500001400000000400600000a0000010a000002");
    let text = "450000140000000040060000 0a0000010a000002".replace(' ', "");
    tally.equal("read back", line("15 001c 0c01d4e086000000450000140000000040060000 0a0000010a000002"), format!("0 12 1 134 {} -", text));
    for place in 0..message.len() {
        for other in 1..=255u8 {
            let mut changed = message.clone();
            changed[place] ^= other;
            tally.equal("one octet changed", read(&changed).is_some(), false);
        }
        tally.equal("cut", read(&message[..place]).is_some(), false);
    }
    // The identification makes the checksum 0.
    let zero = octets_of("0c01000086000000 45000014 d4e00000 40060000 0a000001 0a000002");
    tally.equal("a checksum of 0", read(&zero).is_some(), true);
    let mut ones = zero.clone();
    ones[2..4].fill(255);
    tally.equal("a checksum of ones", read(&ones).is_some(), false);
    tally.equal("nothing", line("15 0000"), "25".to_string());
}

pub fn messages(tally: &mut Tally) {
    build_vectors(tally);
    decisions(tally);
    reading(tally);
}
