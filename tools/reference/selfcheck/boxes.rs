// Wish 7: vectors of a box of many ports, and the two-port decision for the chosen pair.

use crate::cases::{line_of, parse, Case};
use crate::decision::{forward, forward_in_box};
use crate::entries::Entries;
use crate::generator::Generator;

use super::{octets_of, Tally};

/// A port of the domain with level 0 to 9, nothing required, assigned level 3.
fn port(domain: u8) -> String {
    format!("000000{0:02x} 000000{0:02x}000000 000000{0:02x}090000 00 000000{0:02x}030000 00", domain)
}

/// The first words of the line for ports of domains 5, 5, 9 and 9; the datagram has no options and goes to 10.0.0.1.
fn line_for(ports: &[String], tables: &[&str], routes: &[&str], arriving: u8, area: &str) -> String {
    let (area_length, route_count) = (octets_of(area).len(), routes.len());
    let octets = format!(
        "12 {:02x} {} {:02x} {} {:04x} {} {:02x} 0a000001 0000000000 {:02x} {} 0028 ee",
        ports.len(),
        ports.concat(),
        tables.len(),
        tables.concat(),
        route_count,
        routes.concat(),
        arriving,
        area_length,
        area
    );
    let line = line_of(&octets_of(&octets), &Entries::known());
    let words: Vec<&str> = line.split(' ').collect();
    match words[0] {
        "0" => format!("0 {}", words[5..8].join(" ")),
        "BROKEN" => line,
        _ => words[..4].join(" "),
    }
}

fn vectors(tally: &mut Tally) {
    let ports = [port(5), port(5), port(9), port(9)];
    let mut check = |what: &str, found: String, expected: &str| tally.equal(what, found, expected.to_string());
    let decide = |tables: &[&str], routes: &[&str]| line_for(&ports, tables, routes, 0, "");
    let table = "00000005 00000009 0001 0001 0304 0000 0000";
    let second = "00000005 00000009 0001 0001 0305 0000 0000";
    let empty = "00000005 00000009 0000 0000 0000 0000";
    let back = "00000009 00000005 0001 0001 0306 0000 0000";
    // Prefixes: all, 10/8 to port 1 of domain 5, 10.0.0.0/31 and 10.0.0.1/32 to ports of domain 9.
    let (all, net, pair, host) =
        ("00000000 00 01 00000005", "0a000000 08 01 00000005", "0a000000 1f 02 00000009", "0a000001 20 03 00000009");
    check("no route", decide(&[], &[]), "22 3 0 0");
    check("no route that matches", decide(&[], &["0b000000 08 01 00000005", "0a000000 20 01 00000005"]), "22 3 0 0");
    check("length 0 matches everything", decide(&[], &[all]), "0 5 3 0");
    check("the port that it came in by", decide(&[], &["00000000 00 00 00000005"]), "0 5 3 0");
    check("the longest decides", decide(&[table], &[all, net, pair]), "0 9 4 0");
    check("the longest decides, in any order", decide(&[table], &[pair, net, all]), "0 9 4 0");
    check("length 32", decide(&[], &[net, host, pair]), "16 3 9 0");
    check("no table for the pair", decide(&[back], &[host]), "16 3 9 0");
    check("the first table for the pair", decide(&[back, table, second], &[host]), "0 9 4 0");
    check("the first table without a number", decide(&[back, empty, second], &[host]), "16 3 9 0");
    check("no table is needed", decide(&[empty], &[net]), "0 5 3 0");
    check("equal prefixes of one length", decide(&[], &[net, "0a000000 08 00 00000005"]), "2 0 0 0");
    check("equal prefixes of two lengths", decide(&[], &[net, "0a000000 09 00 00000005"]), "0 5 3 0");
    check("a length of 33", decide(&[], &[net, "0b000000 21 00 00000005"]), "2 0 0 0");
    check("a bit past the length", decide(&[], &[net, "0b000001 1f 00 00000005"]), "2 0 0 0");
    check("a bit past the length 0", decide(&[], &[net, "80000000 00 00 00000005"]), "2 0 0 0");
    check("a port that is not there", decide(&[], &[net, "0b000000 20 04 00000005"]), "2 0 0 0");
    check("a domain that is not its port's", decide(&[], &[net, "0b000000 20 00 00000009"]), "2 0 0 0");
    check("an unread table that is unsound", decide(&["00000005 00000000 0000 0000 0000 0000"], &[net]), "2 0 0 0");
    check("an arriving port that is not there", line_for(&ports, &[], &[net], 4, ""), "2 0 0 0");
    check("1 comes before 2", line_for(&ports, &[], &[net], 4, "01"), "1 0 0 0");
    check("no ports", line_for(&[], &[], &[], 0, ""), "2 0 0 0");
    let mut unsound = ports.clone();
    unsound[3] = port(0);
    check("an unread port that is unsound", line_for(&unsound, &[], &[net], 0, ""), "2 0 0 0");
    check("14 comes before 22", line_for(&ports, &[], &[], 0, "860a00000005 0104000a 0000"), "14 3 9 0");
    check("9 tables", decide(&[table; 9], &[net]), "BROKEN");
    check("65 ports", line_for(&vec![port(5); 65], &[], &[], 0, ""), "BROKEN");
    check("64 ports", line_for(&vec![port(5); 64], &[], &["00000000 00 3f 00000005"], 63, ""), "0 5 3 0");
}

/// With a route the decision is that of two ports; the route is looked for from the longest length down.
fn chosen_pair(tally: &mut Tally) {
    let entries = Entries::named("18").expect("it is known");
    let mut generator = Generator::new(77, &entries);
    for _ in 0..3000 {
        let (octets, _) = generator.next();
        let case = match parse(&octets, &entries) {
            Some(Case::InBox(case)) => case,
            _ => continue,
        };
        let records = &case.records;
        let mut output = vec![case.output.fill; case.output.length];
        let found = forward_in_box(records, case.arriving, case.destination, &case.facts, &case.area, &mut output);
        if records.sound(case.arriving).is_none() {
            tally.equal("an unsound set", found.number <= 2 && found.number > 0, true);
            continue;
        }
        let leads = |length: u8, prefix: u32| length == 0 || prefix >> (32 - length) == case.destination >> (32 - length);
        let route =
            (0..=32).rev().find_map(|length| records.routes.iter().find(|route| route.length == length && leads(length, route.prefix)));
        let route = match route {
            Some(route) => route,
            None => {
                tally.equal("no route", found.number > 0 && ![15, 16, 17, 18].contains(&found.number), true);
                continue;
            }
        };
        let (arriving, leaving) = (&records.ports[case.arriving as usize], &records.ports[route.port as usize]);
        let table = records.tables.iter().find(|table| table.from == arriving.domain && table.to == leaving.domain);
        let mut alone = vec![case.output.fill; case.output.length];
        let expected = forward(arriving, leaving, table, &case.facts, &case.area, &mut alone);
        let words = |number: u8, count: usize, pointer: u8, octets: Vec<u8>| (number, count, pointer, octets);
        tally.equal(
            "the chosen pair",
            words(found.number, found.count, found.pointer, output),
            words(expected.number, expected.count, expected.pointer, alone),
        );
        tally.equal("the label of the chosen pair", found.label == expected.label, true);
    }
}

pub fn boxes(tally: &mut Tally) {
    vectors(tally);
    chosen_pair(tally);
}
