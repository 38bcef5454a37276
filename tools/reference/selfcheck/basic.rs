// The Basic Security option alone over all its octets, and vectors of wide ports.

use crate::basic::{read_alone, write_alone, Marking, BASIC_SECURITY, LEVELS, MAX_FLAGS};
use crate::cases::line_of;
use crate::entries::Entries;

use super::{octets_of, Tally, FILL};

fn line(octets: &str) -> String {
    line_of(&octets_of(octets), &Entries::known())
}

/// What is written reads back, no other option that means the same is shorter, and every other level octet is bad.
fn option_alone(tally: &mut Tally) {
    for level in 0..=255 {
        let found = read_alone(&[BASIC_SECURITY, 3, level]);
        let expected = if LEVELS.contains(&level) { Some(Marking { level, flags: 0 }) } else { None };
        tally.equal("a level alone", found, expected);
    }
    for flags in 0..=MAX_FLAGS + 2 {
        let marking = Marking { level: LEVELS[flags as usize % 4], flags };
        let mut output = [FILL; 6];
        let (number, count) = write_alone(&marking, &mut output);
        let least = if flags > MAX_FLAGS {
            0
        } else if flags == 0 {
            3
        } else if flags % 128 == 0 {
            4
        } else {
            5
        };
        tally.equal("written", (number, count), (if flags > MAX_FLAGS { 19 } else { 0 }, least));
        tally.equal("octets past the count", output[count..].iter().all(|octet| *octet == FILL), true);
        if number == 0 {
            tally.equal("read back", read_alone(&output[..count]), Some(marking));
        }
    }
    for first in 0..=255u8 {
        let level = LEVELS[1];
        let one = read_alone(&[BASIC_SECURITY, 4, level, first]);
        let flags = (first / 2) as u16 * 128;
        tally.equal("one flag octet", one, if first % 2 == 0 { Some(Marking { level, flags }) } else { None });
        for second in 0..=255u8 {
            let two = read_alone(&[BASIC_SECURITY, 5, level, first, second]);
            let flags = flags + (second / 2) as u16;
            tally.equal("two flag octets", two, if first % 2 == 1 && second % 2 == 0 { Some(Marking { level, flags }) } else { None });
        }
    }
    tally.equal("three flag octets", line("0d 06 8206ab010100"), "19 0 0".to_string());
    tally.equal("no level", line("0d 02 8202"), "19 0 0".to_string());
    tally.equal("no octets", line("0d 00"), "19 0 0".to_string());
    tally.equal("another type", line("0d 03 8303ab"), "19 0 0".to_string());
    tally.equal("a buffer that is longer", line("0d 04 8203ab00"), "19 0 0".to_string());
    tally.equal("a flag octet without flags", line("0d 04 82045a00"), "0 90 0".to_string());
    tally.equal("both flag octets", line("0d 05 82053d81fe"), "0 61 8319".to_string());
    tally.equal("entry 14, no flags", line("0e ab 0000 0006 ee"), "0 3 8203abeeeeee".to_string());
    tally.equal("entry 14, flags of the second octet", line("0e 96 0001 0005 ee"), "0 5 8205960102".to_string());
    tally.equal("entry 14, flags of the first octet", line("0e 96 0080 0005 ee"), "0 4 82049602ee".to_string());
    tally.equal("entry 14, 1 before 19", line("0e 00 0000 0004 ee"), "1 0 eeeeeeee".to_string());
    tally.equal("entry 14, no level", line("0e 00 0000 0005 ee"), "19 0 eeeeeeeeee".to_string());
    tally.equal("entry 14, 16384", line("0e ab 4000 0005 ee"), "19 0 eeeeeeeeee".to_string());
}

/// Domain 5, lowest level 0, highest level 9, nothing required, assigned level 3.
const PORT: &str = "00000005 00000005000000 00000005090000 00 00000005030000";
const NO_TABLE: &str = "00000000 00000000 0000 0000 0000 0000";
const HOST: &str = "00000005000000 00000005090000";
const QUIET: &str = "0000000000";

/// Groups of a port: off, and on with receiving and sending.
const OFF: &str = "00";

fn on(receiving: &str, sending: &str) -> String {
    format!("01 01 {} {}", receiving, sending)
}

/// Levels and fields of one way.
const SECRET_0: &str = "965a 0001 0001 0000";
const ALL_0_AND_128: &str = "ab3d 0002 0002 0000 0080";

fn forward(arriving: &str, leaving: &str, area: &str) -> String {
    let length = octets_of(area).len();
    let line = line(&format!("0f {} {} {} {} {} {} {:02x} {} 0028 ee", PORT, arriving, PORT, leaving, NO_TABLE, QUIET, length, area));
    let words: Vec<&str> = line.split(' ').collect();
    if words[0] == "0" {
        let count: usize = words[4].parse().unwrap();
        format!("0 {}", &words[words.len() - 1][..2 * count])
    } else if words[0] == "BROKEN" {
        line
    } else {
        words[..4].join(" ")
    }
}

fn deliver(port: &str, facts: &str, area: &str) -> String {
    let length = octets_of(area).len();
    let line = line(&format!("10 {} {} {} {} {:02x} {}", PORT, port, HOST, facts, length, area));
    line.split(' ').take(4).collect::<Vec<&str>>().join(" ")
}

fn wide_ports(tally: &mut Tally) {
    let secret = on(SECRET_0, SECRET_0);
    let open = on(ALL_0_AND_128, ALL_0_AND_128);
    let mut check = |what: &str, found: String, expected: &str| tally.equal(what, found, expected.to_string());
    let option = "860a00000005010400 03";
    check("both on", forward(&open, &secret, "82035a01"), "0 860a000000050104000382035a000000");
    check("both off", forward(OFF, OFF, ""), "0 860a00000005010400030000");
    check("130 where it is off", forward(OFF, OFF, "01 82035a"), "4 12 0 21");
    check("130 where it is on at the leaving port alone", forward(OFF, &open, "01 82035a"), "4 12 0 21");
    check("none toward a port with it", forward(OFF, &open, ""), "21 3 9 0");
    check("130 toward a port without it", forward(&open, OFF, "82035a01"), "21 3 9 0");
    check("missing", forward(&open, &open, ""), "20 12 1 130");
    check("missing before 21", forward(&open, OFF, ""), "20 12 1 130");
    check("bad", forward(&open, OFF, "01 8204 5a01 000000"), "19 12 0 21");
    check("bad level", forward(&open, &open, "8203 0001"), "19 12 0 20");
    check("a second one", forward(&open, &open, "8203 ab 8203 ab 0000"), "5 12 0 23");
    check("a second one that is cut", forward(&open, &open, "8203 ab 82"), "3 12 0 23");
    check("6 and 7 to 13 come before", forward(&open, &open, "8602 8203 00 000000"), "7 12 0 21");
    check("level over the highest", forward(&open, &secret, "8203 3d01"), "21 3 9 0");
    check("level below the lowest", forward(&secret, &open, "8203 ab01"), "21 3 9 0");
    check("flags not in the set", forward(&open, &secret, "8204 5a02"), "21 3 9 0");
    check("flags without a set", forward(&on("ab3d 0000 0000", ALL_0_AND_128), &open, "8203 5a01"), "21 3 9 0");
    check("a field over 14 flags", forward(&on("ab3d 0001 0001 4000", ALL_0_AND_128), &open, "8203 5a01"), "21 3 9 0");
    let kept = forward(&open, &open, &format!("82055a 01 00 01 {} 0703 00 00", option));
    check("it is kept as it came", kept, "0 860a000000050104000382055a01000703000000");
    check("21 before 14", forward(&open, &secret, "8203 3d 860a 00000005 0104 00 0a 000000"), "21 3 9 0");
    check("lowest over highest", forward(&on("5a96 0000 0000", SECRET_0), OFF, "ff"), "1 0 0 0");
    check("lowest over highest", forward(&on("5a96 0000 0000", SECRET_0), OFF, ""), "2 0 0 0");
    check("no levels", forward(OFF, &on(SECRET_0, "0000 0000 0000"), ""), "2 0 0 0");
    check("a count of 257", forward(OFF, &on(SECRET_0, "ab3d 0101 0000"), ""), "2 0 0 0");
    check("a count of 256", forward(OFF, &on(SECRET_0, "ab3d 0100 0000"), ""), "21 3 9 0");
    check("a place that is not used", forward(OFF, &on(SECRET_0, "ab3d 0000 0001 0001"), ""), "2 0 0 0");
    check("off, and not 0", forward("01 00 000000000000 000000000001 0001", OFF, ""), "2 0 0 0");
    check("off, and all 0", forward("01 00 000000000000 000000000001 0000", OFF, ""), "0 860a00000005010400030000");
    check("257 stored fields", forward(&on("ab3d 0000 0101", SECRET_0), OFF, ""), "BROKEN");
    check("on is 2", forward("01 02 000000000000 000000000000", OFF, ""), "BROKEN");
    check("delivered", deliver(&secret, QUIET, "8203 5a01"), "0 0 0 0");
    check("out of range at a host", deliver(&secret, QUIET, "8203 3d01"), "21 3 10 0");
    check("out of range, silenced", deliver(&secret, "0000000001", "8203 3d01"), "21 0 0 0");
    check("missing at a host", deliver(&secret, QUIET, ""), "20 12 1 130");
    check("bad at a host", deliver(&secret, QUIET, "01 8202 00"), "19 12 0 21");
    let named = format!("0c 01 01 {} {} 00 00 0000 ee", PORT, secret);
    check("a port that version 1 cannot say, with no output", line(&named), "1 0 -");
    let unsound = format!("0c 01 01 {} {} 00 00 0000 ee", PORT, on("5a96 0000 0000", SECRET_0));
    check("2 before 1", line(&unsound), "2 0 -");
}

/// Wish 6: a leaving port with the default label of level 3 and no categories.
fn default_labels(tally: &mut Tally) {
    let unlabelled = "04 01 00000005030000";
    let mut check = |what: &str, found: String, expected: &str| tally.equal(what, found, expected.to_string());
    check("an empty area", forward(OFF, unlabelled, ""), "0 ");
    check("no option 134 leaves", forward(OFF, unlabelled, "860a00000005 01040003 0101"), "0 ");
    check("kept options leave", forward(OFF, unlabelled, "0703 00 860a00000005 01040003 8802 00"), "0 0703008802000000");
    check("another spelling of the label", forward(OFF, unlabelled, "860b00000005 0105000300 00"), "0 ");
    check("another level", forward(OFF, unlabelled, "860a00000005 01040004 0000"), "17 3 9 0");
    check("a category fewer", forward(OFF, "04 01 00000005030101 00000000", ""), "2 0 0 0");
    check("out of range", forward(OFF, "04 01 000000050a0000", ""), "2 0 0 0");
    check("out of range at the arriving port", forward("04 01 000000050a0000", OFF, ""), "2 0 0 0");
    check("of another domain", forward(OFF, "04 01 00000006030000", ""), "2 0 0 0");
    check("no default label", forward(OFF, "04 01 00000000000000", ""), "2 0 0 0");
    check("a default label on a labelled port", forward(OFF, "04 00 00000005030000", ""), "2 0 0 0");
    check("all zero on a labelled port", forward(OFF, "04 00 00000000000000", ""), "0 860a00000005010400030000");
    check("the arriving port's default label", forward("04 01 00000005040000", OFF, ""), "0 860a00000005010400030000");
    check("unlabelled is 2", forward(OFF, "04 02 00000005030000", ""), "BROKEN");
    let both = format!("05 01 {} {} 01 00000005030000", SECRET_0, SECRET_0);
    check("the option 130 is kept", forward(&both, &both, "82035a01"), "0 82035a00");
    check("21 before 17", forward(OFF, &both, "860a00000005 01040004 0000"), "21 3 9 0");
    check("no spelling is permitted", forward(OFF, "06 00 01 00000005030000", ""), "2 0 0 0");
    check("entry 12", line(&format!("0c 01 01 {} {} 00 00 0000 ee", PORT, unlabelled)), "1 0 -");
    let whole = format!("0f {} 00 {} {} {} {} 00 0029 ee", PORT, PORT, unlabelled, NO_TABLE, QUIET);
    check("the whole line", line(&whole), &format!("0 0 0 0 0 5 3 0 {}ee", "00".repeat(40)));
}

pub fn basic(tally: &mut Tally) {
    option_alone(tally);
    wide_ports(tally);
    default_labels(tally);
}
