// Strict ports: vectors, and that the slack spellings are those that are none of the four permitted ones of their own label.

use crate::cases::line_of;
use crate::entries::Entries;
use crate::generator::{random_option, Random};
use crate::option::{read, spell, LISTED, PAIRED, SHORTEST_BITMAP, TEN_OCTET_BITMAP};

use super::{octets_of, option_of, Tally};

/// The number and pointer of an option read at a strict port of its domain.
fn strict(option: &[u8]) -> (u8, usize) {
    match read(option, |_| true, true) {
        Ok(_) => (0, 0),
        Err(fault) => (fault.number, fault.offset),
    }
}

fn vectors(tally: &mut Tally) {
    let mut check = |what: &str, tag: &str, expected: (u8, usize)| tally.equal(what, strict(&option_of(tag)), expected);
    check("no categories", "01040003", (0, 0));
    check("a trailing zero octet", "0105000300", (23, 10));
    check("a trailing zero octet behind others", "010600038000", (23, 10));
    check("ten octets of zeros", "010e000300000000000000000000", (0, 0));
    check("nine octets", "010d0003ff0000000000000000", (23, 10));
    check("eleven octets", "010f0003ff00000000000000000000", (23, 10));
    check("a list of 0", "020600030000", (0, 0));
    check("pairs that touch", "050c00030009000800070006", (23, 10));
    check("pairs that are one apart", "050c00030009000800060005", (0, 0));
    check("pairs that touch, the last bottom left out", "050a0003000900080007", (23, 10));
    check("a bottom of 0 written out", "0508000300050000", (23, 10));
    check("a bottom of 0 left out", "050600030005", (0, 0));
    check("a top of 0 alone", "050600030000", (0, 0));
    check("12 before 23", "050c000300090008000700ff", (12, 14));
    check("a pair 0 to 0", "0508000300000000", (23, 10));
    let mut longer = option_of("010600038000");
    longer.push(0);
    longer[1] += 1;
    tally.equal("23 before 13", strict(&longer), (23, 10));
}

/// At ports: the arriving one's mark decides, and older groups read as not strict.
fn at_ports(tally: &mut Tally) {
    let port = "00000005 00000005000000 00000005ff0101 0000fffe 01 00000000000000";
    let forward = |arriving: &str, leaving: &str| {
        let table = "00000000 00000000 0000 0000 0000 0000";
        let area = "10 01010101 860b000000050105000300 00";
        let case = format!("0f {} {} {} {} {} 0000000000 {} 0028 ee", port, arriving, port, leaving, table, area);
        line_of(&octets_of(&case), &Entries::known()).split(' ').take(4).collect::<Vec<_>>().join(" ")
    };
    tally.equal("not strict", forward("00", "00"), "0 0 0 0".to_string());
    tally.equal("the group says not strict", forward("08 00", "00"), "0 0 0 0".to_string());
    tally.equal("a strict arriving port", forward("08 01", "00"), "23 12 0 34".to_string());
    tally.equal("a strict leaving port", forward("00", "08 01"), "0 0 0 0".to_string());
    tally.equal("strict is 2", forward("08 02", "00"), "BROKEN".to_string());
    tally.equal("a group that is not built", forward("10 01", "00"), "BROKEN".to_string());
    let deliver = format!("10 {} 08 01 00000005000000 00000005ff01010000fffe 0000000000 0c 860b000000050105000300 00", port);
    tally.equal("at a host", line_of(&octets_of(&deliver), &Entries::known()), "23 12 0 30 0 0 0 0".to_string());
}

fn spellings(tally: &mut Tally) {
    let mut random = Random::new(23);
    let mut slack = 0;
    for _ in 0..20_000 {
        let option = random_option(&mut random);
        let label = read(&option, |_| true, false).expect("a random option is valid");
        let permitted = [SHORTEST_BITMAP, TEN_OCTET_BITMAP, LISTED, PAIRED];
        let is_one = permitted.iter().any(|one| spell(&label, *one).as_ref() == Some(&option));
        let found = strict(&option);
        slack += (found.0 == 23) as usize;
        tally.equal("slack", found, if is_one { (0, 0) } else { (23, 10) });
    }
    tally.equal("many are slack, and many are not", slack > 2000 && slack < 18_000, true);
}

pub fn strict_ports(tally: &mut Tally) {
    vectors(tally);
    at_ports(tally);
    spellings(tally);
}
