// Cases of a box of many ports: a forward between two of them, with bystanders, other tables and other routes.

use crate::cases::{BoxCase, Case, ForwardCase};
use crate::label::HeldLabel;
use crate::records::{PortRecord, TableRecord};
use crate::routes::{first_bits, BoxRecord, Route, MAX_BOX_PORTS, MAX_BOX_TABLES, MAX_ROUTES};

use super::basic::*;
use super::files::small_table;
use super::random::Random;
use super::ranges::*;
use super::sets::*;
use super::tables::*;
use super::unsound::*;
use super::wide::*;
use super::Made;

/// A small port that a datagram has nothing to do with, often of one of the given domains.
fn bystander(random: &mut Random, domains: &[u32]) -> PortRecord {
    let domain = if random.chance(2, 3) { random.pick(domains) } else { random_domain(random) };
    let label = HeldLabel::empty(domain, random_level(random));
    let mut port = port_around(random, &label, false, false);
    if random.chance(1, 4) {
        port.spellings = any_spellings(random);
        let (receiving, sending) = (any_way(random), any_way(random));
        switch_on(&mut port, receiving, sending);
    }
    port
}

fn random_address(random: &mut Random) -> u32 {
    match random.below(8) {
        0 => random.pick(&[0, 1, 0x7fff_ffff, 0x8000_0000, u32::MAX - 1, u32::MAX]),
        _ => random.next() as u32,
    }
}

fn route_of(prefix: u32, length: u8, port: usize, ports: &[PortRecord]) -> Route {
    Route { prefix: first_bits(prefix, length), length, port: port as u8, domain: ports[port].domain }
}

/// Adds a route where no other has its prefix and length.
fn add_route(routes: &mut Vec<Route>, route: Route) {
    if routes.iter().all(|other| (other.prefix, other.length) != (route.prefix, route.length)) {
        routes.push(route);
    }
}

/// The address with one bit changed that a prefix of this length, which is not 0, has: often the last of them.
fn beside(random: &mut Random, address: u32, length: u8) -> u32 {
    let bit = if random.chance(1, 2) { length as usize } else { random.between(1, length as usize) };
    address ^ 1 << (32 - bit)
}

fn random_length(random: &mut Random) -> u8 {
    if random.chance(1, 2) {
        random.pick(&[0, 1, 8, 16, 24, 30, 31, 32])
    } else {
        random.below(33) as u8
    }
}

/// Routes of which the longest that matches leads to the given port; shorter ones lead elsewhere, and longer ones do not match.
fn routes_to(random: &mut Random, destination: u32, leaving: usize, ports: &[PortRecord], others: usize) -> Vec<Route> {
    let length = random_length(random);
    let mut routes = vec![route_of(destination, length, leaving, ports)];
    for _ in 0..others {
        let port = random.below(ports.len());
        let route = match random.below(4) {
            0 | 1 if length > 0 => route_of(destination, random.below(length as usize) as u8, port, ports),
            2 if length < 32 => {
                let longer = random.between(length as usize + 1, 32) as u8;
                route_of(beside(random, destination, longer), longer, port, ports)
            }
            _ => {
                let other = random.between(1, 32) as u8;
                let address = if random.chance(1, 2) { beside(random, destination, other) } else { random_address(random) };
                let route = route_of(address, other, port, ports);
                if route.prefix == first_bits(destination, other) {
                    continue;
                }
                route
            }
        };
        add_route(&mut routes, route);
    }
    random.shuffle(&mut routes);
    routes
}

fn matching(routes: &mut Vec<Route>, destination: u32, keep: bool) {
    routes.retain(|route| (first_bits(destination, route.length) == route.prefix) == keep);
}

/// Tables of which the first for the two domains is the given one; others stand before and behind it.
fn tables_with(random: &mut Random, table: &TableRecord, from: u32, to: u32) -> Vec<TableRecord> {
    let other = other_domain(random, to);
    let empty = |from: u32, to: u32| table_of(from, to, &[], &[]);
    let mut tables = Vec::new();
    if random.chance(1, 3) {
        tables.push(empty(to, from));
    }
    if random.chance(1, 3) {
        tables.push(if random.chance(1, 2) { empty(from, other) } else { empty(other, to) });
    }
    if from != to {
        tables.push(table.clone());
        // A second one for the pair has no number for anything, or other numbers.
        if random.chance(1, 2) {
            let mut second = table.clone();
            (second.from, second.to) = (from, to);
            for pair in &mut second.levels[..table.level_count.min(16) as usize] {
                pair[1] ^= 1;
            }
            tables.push(if second.sound().is_some() && random.chance(1, 2) { second } else { empty(from, to) });
        }
    } else if random.chance(1, 4) {
        // Equal domains: no table is read.
        tables.push(empty(from, to));
    }
    if random.chance(1, 6) {
        tables.push(small_table(random));
    }
    tables
}

/// The forward as one in a box. The fields that it had alone decide as before, where the route is found.
pub fn boxed(random: &mut Random, case: ForwardCase, size: Size) -> BoxCase {
    let domains = [case.arriving.domain.max(1), case.leaving.domain.max(1)];
    let (others, other_routes) = match size {
        Size::Small => (random.below(3), random.below(5)),
        Size::WithBystander => (random.between(1, 3), random.between(1, 5)),
        Size::Full => (MAX_BOX_PORTS - 2, MAX_ROUTES),
    };
    let mut ports: Vec<PortRecord> = (0..others).map(|_| bystander(random, &domains)).collect();
    let arriving = random.below(ports.len() + 1);
    ports.insert(arriving, case.arriving.clone());
    let leaving = random.below(ports.len() + 1);
    ports.insert(leaving, case.leaving.clone());
    let arriving = if leaving <= arriving { arriving + 1 } else { arriving };
    let destination = random_address(random);
    let mut routes = routes_to(random, destination, leaving, &ports, other_routes);
    while size == Size::Full && routes.len() < MAX_ROUTES {
        let length = random.between(20, 32) as u8;
        let route = route_of(random.next() as u32, length, random.clone().below(ports.len()), &ports);
        if route.prefix != first_bits(destination, length) {
            add_route(&mut routes, route);
        }
    }
    let mut tables = tables_with(random, &case.table, case.arriving.domain, case.leaving.domain);
    while size == Size::Full && tables.len() < MAX_BOX_TABLES {
        tables.push(small_table(random));
    }
    BoxCase {
        records: BoxRecord { ports, tables, routes },
        arriving: arriving as u8,
        destination,
        facts: case.facts,
        area: case.area,
        output: case.output,
    }
}

#[derive(Clone, Copy, PartialEq, Eq)]
pub enum Size {
    Small,
    /// At least one port and one route that the datagram has nothing to do with.
    WithBystander,
    /// 64 ports, 8 tables and 256 routes.
    Full,
}

fn made(case: BoxCase) -> Made {
    Made::Case(Case::InBox(Box::new(case)))
}

/// What a maker of forwards makes, in a box.
fn box_of(random: &mut Random, maker: fn(&mut Random, usize, u8) -> Made, turn: usize, number: u8, size: Size) -> BoxCase {
    match maker(random, turn, number) {
        Made::Case(Case::Forward(case)) => boxed(random, *case, size),
        _ => unreachable!("it makes forwards alone"),
    }
}

/// A box in which a datagram is likely to be forwarded.
pub fn boxed_forward(random: &mut Random, turn: usize) -> BoxCase {
    box_of(random, wide_forwarded, turn, 0, Size::Small)
}

pub fn box_forwarded(random: &mut Random, turn: usize, _number: u8) -> Made {
    let maker = [wide_forwarded, wide_forwarded, wide_forward_permitted, wide_forward_default, wide_forwarded][turn % 5];
    let size = if turn % 40 == 7 { Size::Full } else { Size::Small };
    made(box_of(random, maker, turn / 5, 0, size))
}

/// Leaves by the port that it came in by.
pub fn box_same_port(random: &mut Random, turn: usize, _number: u8) -> Made {
    let mut case = box_of(random, wide_forwarded, turn, 0, Size::Small);
    let (arriving, destination) = (case.arriving as usize, case.destination);
    matching(&mut case.records.routes, destination, false);
    let length = random_length(random);
    let route = route_of(destination, length, arriving, &case.records.ports);
    case.records.routes.push(route);
    made(case)
}

pub fn box_wrong_size(random: &mut Random, turn: usize, number: u8) -> Made {
    let mut case = box_of(random, wide_forward_wrong_size, turn, number, Size::Small);
    if turn % 3 == 0 {
        case.arriving = 255;
    }
    made(case)
}

/// One refusal from 3 to 17 or 19 to 21. What comes before 22 is given with and without a route, save 21.
pub fn box_broken(random: &mut Random, turn: usize, number: u8) -> Made {
    let mut case = box_of(random, wide_forward_broken, turn, number, Size::Small);
    if turn % 3 == 2 && number != 17 && number != 21 {
        let destination = case.destination;
        matching(&mut case.records.routes, destination, false);
    }
    made(case)
}

/// The arriving port alone is tested where there is no route.
pub fn box_no_route_21(random: &mut Random, turn: usize, _number: u8) -> Made {
    let mut case = box_of(random, wide_forward_broken, [0, 3, 8, 11][turn % 4] + turn / 4 * 16, 21, Size::Small);
    let destination = case.destination;
    matching(&mut case.records.routes, destination, false);
    made(case)
}

pub fn box_no_room(random: &mut Random, turn: usize, number: u8) -> Made {
    let maker = [wide_forward_over_full, wide_forward_not_permitted][turn % 2];
    made(box_of(random, maker, turn, number, Size::Small))
}

pub fn box_other_default(random: &mut Random, turn: usize, number: u8) -> Made {
    made(box_of(random, wide_forward_other_default, turn, number, Size::Small))
}

/// No matching route, with what is tested later broken too: 21 at the port that a route would lead to, 16 to 18.
pub fn box_no_route(random: &mut Random, turn: usize, _number: u8) -> Made {
    let mut case = match turn % 5 {
        // One of the two ports has no option 130.
        0 => box_of(random, wide_forward_broken, 1 + turn / 5 % 2, 21, Size::WithBystander),
        1 => box_of(random, wide_forward_broken, turn, 16, Size::WithBystander),
        2 => box_of(random, wide_forward_broken, turn, 17, Size::Small),
        3 => box_of(random, wide_forward_not_permitted, turn, 18, Size::WithBystander),
        _ => box_of(random, wide_forwarded, turn, 0, Size::WithBystander),
    };
    let destination = case.destination;
    matching(&mut case.records.routes, destination, false);
    match turn % 4 {
        0 => case.records.routes.clear(),
        // Longer prefixes that differ in their last bit.
        1 | 2 => {
            let port = random.below(case.records.ports.len());
            let length = random.pick(&[1, 24, 31, 32, 32]);
            let address = destination ^ 1 << (32 - length as u32);
            let route = route_of(address, length, port, &case.records.ports);
            add_route(&mut case.records.routes, route);
        }
        _ => {}
    }
    made(case)
}

/// No table for the pair of domains; one for the other direction, or for one of the two, does not count. The first for the pair decides.
pub fn box_no_number(random: &mut Random, turn: usize, number: u8) -> Made {
    let mut case = box_of(random, wide_forward_broken, turn, number, Size::Small);
    if turn % 3 == 0 {
        return made(case);
    }
    case = box_of(random, wide_forwarded, turn, 0, Size::Small);
    let from = case.records.ports[case.arriving as usize].domain;
    let tables = &mut case.records.tables;
    match turn % 6 {
        1 => tables.clear(),
        2 | 4 => {
            // The first has no number, the second has them all.
            let to = tables.iter().find(|table| table.from == from && table.level_count > 0).map(|table| table.to);
            if let Some(to) = to {
                tables.insert(0, table_of(from, to, &[], &[]));
                tables.truncate(MAX_BOX_TABLES);
            }
        }
        _ => {
            for table in tables.iter_mut().filter(|table| table.from == from) {
                std::mem::swap(&mut table.from, &mut table.to);
            }
        }
    }
    made(case)
}

/// Clauses of a set of ports, tables and routes.
const SET_CLAUSES: usize = 22;
/// Of the clauses of a port and of its default label, those that any port can break.
const PORT_RULES: [usize; 13] = [11, 5, 0, 12, 1, 2, 7, 3, 15, 4, 8, 13, 16];
const DEFAULT_RULES: [usize; 10] = [6, 3, 0, 7, 1, 2, 8, 9, 10, 11];

/// A port that the datagram does not read: neither the arriving one nor one with a matching route, if there is one.
fn unread_port(case: &BoxCase) -> usize {
    let routes = &case.records.routes;
    let chosen = routes.iter().filter(|route| first_bits(case.destination, route.length) == route.prefix).max_by_key(|route| route.length);
    let read = [case.arriving, chosen.map_or(case.arriving, |route| route.port)];
    (0..case.records.ports.len()).rev().find(|port| !read.contains(&(*port as u8))).unwrap_or(case.arriving as usize)
}

pub fn box_unsound(random: &mut Random, turn: usize, _number: u8) -> Made {
    let mut case = box_of(random, wide_forwarded, turn, 0, Size::WithBystander);
    let (clause, round) = (turn % SET_CLAUSES, turn / SET_CLAUSES);
    let unread = unread_port(&case);
    let destination = case.destination;
    let arriving = case.arriving as usize;
    let BoxRecord { ports, tables, routes } = &mut case.records;
    let count = ports.len();
    let route = random.below(routes.len());
    match clause {
        // "An unsound record (read or not)"
        0 => break_port(random, &mut ports[unread], round * 7 % (3 * ILL_FORMED)),
        1 => break_port(random, &mut ports[unread], 3 * ILL_FORMED + PORT_RULES[round % PORT_RULES.len()]),
        2 => break_basic(random, &mut ports[unread], round * 5 + 3),
        3 => ports[unread].spellings = 0,
        4 => break_default(random, &mut ports[unread], ILL_FORMED + DEFAULT_RULES[round % DEFAULT_RULES.len()]),
        5 => {
            let mut table = small_table(random);
            break_table(random, &mut table, round * 4);
            tables.truncate(MAX_BOX_TABLES - 1);
            tables.push(table);
        }
        6 => {
            let mut table = small_table(random);
            break_table(random, &mut table, round * 4 + 1);
            tables.insert(0, table);
            tables.truncate(MAX_BOX_TABLES);
        }
        7 => break_port(random, &mut ports[arriving], 3 * ILL_FORMED + PORT_RULES[round % PORT_RULES.len()]),
        8 => ports[unread] = PortRecord::ALL_ZERO,
        // "two equal prefixes of one length": to one port or to another, matching or not.
        9 => {
            let same = routes[route];
            routes.push(same);
        }
        10 => {
            let (prefix, length) = (routes[route].prefix, routes[route].length);
            let other = route_of(prefix, length, unread, ports);
            routes.insert(0, other);
        }
        // "a length over 32"
        11 => routes[route].length = [33, 255, 64, 128][round % 4],
        12 => {
            let port = random.below(count);
            routes.push(Route {
                prefix: [0, u32::MAX][round % 2],
                length: [33, 34][round / 2 % 2],
                port: port as u8,
                domain: ports[port].domain,
            });
        }
        // "set bits past the length", in a route that would match and in others: the bit next to the length, and the last one.
        13 => {
            let length = random.between(1, 31) as u8;
            let prefix = first_bits(destination, length) | [1, 1 << (31 - length)][round % 2];
            let mut route = route_of(prefix, length, arriving, ports);
            route.prefix = prefix;
            routes.push(route);
        }
        14 => {
            let length = random.between(1, 31) as u8;
            let prefix = beside(random, destination, length);
            let mut route = route_of(prefix, length, arriving, ports);
            route.prefix = first_bits(prefix, length) | [1 << (31 - length), 1][round % 2];
            routes.push(route);
        }
        15 => {
            let mut route = route_of(0, 0, arriving, ports);
            route.prefix = [1, 1 << 31, u32::MAX, destination | 1][round % 4];
            routes.retain(|other| other.length > 0);
            routes.push(route);
        }
        // "a port not in the list (the arriving one too)"
        16 => routes[route].port = count as u8,
        17 => routes[route].port = [255, 64, 128][round % 3],
        18 => case.arriving = count as u8,
        19 => case.arriving = [255, 64, 63][round % 3],
        // No ports at all.
        20 if round % 2 == 0 => {
            *ports = Vec::new();
            *routes = Vec::new();
            case.arriving = 0;
        }
        // "a domain other than its port's"
        20 => {
            let domain = routes[route].domain;
            routes[route].domain = other_domain(random, domain);
        }
        _ => {
            let domain = routes[route].domain;
            routes[route].domain = if round % 2 == 0 { 0 } else { domain.wrapping_add(1) };
        }
    }
    made(case)
}

/// Good areas changed in one octet, in a box.
pub fn box_changed(random: &mut Random, turn: usize, number: u8) -> Made {
    made(box_of(random, wide_forward_changed, turn, number, Size::Small))
}

/// Two or three refusals at once, with and without a route.
pub fn box_several(random: &mut Random, turn: usize, number: u8) -> Made {
    let mut case = box_of(random, wide_forward_several, turn, number, Size::Small);
    if turn % 3 == 0 {
        let destination = case.destination;
        matching(&mut case.records.routes, destination, false);
    }
    made(case)
}
