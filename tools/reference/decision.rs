// The two jobs: forward and deliver.
//
// Document 01, "The order of checks, and each number". "The lowest number wins": the checks stand in the order of their numbers, save that
// document 02 adds "numbers 19, 20 and 21 after 13, in that order", 22 "after 15" and 23 "right after 12".

use crate::area::{build, size_fits, walk, Walk};
use crate::basic::{self, Marking, BASIC_SECURITY};
use crate::label::{HeldLabel, Label};
use crate::option::{fault, read, spell, Fault, CIPSO, MAX_OCTETS};
use crate::records::{HostRecord, Port, PortRecord, Table, TableRecord};
use crate::routes::BoxRecord;

/// "Pointers count from the header's start: 20 plus the offset in the area."
pub const HEADER_OCTETS: usize = 20;
/// "Gateway code is 9, host code 10."
const GATEWAY_CODE: u8 = 9;
const HOST_CODE: u8 = 10;
/// "No matching route is 22, 3/0/0".
const NO_ROUTE_CODE: u8 = 0;

pub const PARAMETER_PROBLEM: u8 = 12;
pub const UNREACHABLE: u8 = 3;
/// Code of a parameter problem where an option is missing; the pointer is then the missing type.
pub const OPTION_MISSING: u8 = 1;

/// What the caller states of a datagram. Document 02, wish 2: "no error goes out about an ICMP error message, a broadcast or multicast
/// destination, a link-layer broadcast, a fragment other than the first, or a source that isn't one host".
#[derive(Clone, Copy, PartialEq, Eq)]
pub struct Facts {
    pub icmp_error: bool,
    pub broadcast_destination: bool,
    pub link_broadcast: bool,
    pub later_fragment: bool,
    pub source_not_one_host: bool,
}

impl Facts {
    pub const NONE: Facts = Facts::in_order([false; 5]);

    /// The five in document 02's order.
    pub const fn in_order(facts: [bool; 5]) -> Facts {
        let [icmp_error, broadcast_destination, link_broadcast, later_fragment, source_not_one_host] = facts;
        Facts { icmp_error, broadcast_destination, link_broadcast, later_fragment, source_not_one_host }
    }

    /// Document 01's mark is the first fact.
    pub fn marked(mark: bool) -> Facts {
        Facts { icmp_error: mark, ..Facts::NONE }
    }

    pub fn listed(&self) -> [bool; 5] {
        [self.icmp_error, self.broadcast_destination, self.link_broadcast, self.later_fragment, self.source_not_one_host]
    }

    /// "any of them silences"
    pub fn silence(&self) -> bool {
        self.icmp_error || self.broadcast_destination || self.link_broadcast || self.later_fragment || self.source_not_one_host
    }
}

pub struct Decision {
    pub number: u8,
    pub icmp_type: u8,
    pub icmp_code: u8,
    pub pointer: u8,
    pub count: usize,
    pub label: HeldLabel,
}

/// A refusal whose place is not in the area.
fn refuse<T>(number: u8) -> Result<T, Fault> {
    Err(Fault { number, offset: 0 })
}

/// The column "Type / code / pointer".
fn report_of(fault: Fault, job_code: u8) -> (u8, u8, u8) {
    match fault.number {
        3..=5 | 7..=13 | 19 | 23 => (PARAMETER_PROBLEM, 0, (HEADER_OCTETS + fault.offset) as u8),
        6 => (PARAMETER_PROBLEM, OPTION_MISSING, CIPSO),
        20 => (PARAMETER_PROBLEM, OPTION_MISSING, BASIC_SECURITY),
        14..=18 | 21 => (UNREACHABLE, job_code, 0),
        22 => (UNREACHABLE, NO_ROUTE_CODE, 0),
        _ => (0, 0, 0),
    }
}

/// "If the datagram is marked as ICMP, the number stays and the report is silent. A refusal [...] returns count 0 and an all-zero label".
/// The mark is since wish 2 any of five facts.
fn refused(fault: Fault, job_code: u8, facts: &Facts) -> Decision {
    let (icmp_type, icmp_code, pointer) = if facts.silence() { (0, 0, 0) } else { report_of(fault, job_code) };
    Decision { number: fault.number, icmp_type, icmp_code, pointer, count: 0, label: HeldLabel::ALL_ZERO }
}

fn done(label: HeldLabel, count: usize) -> Decision {
    Decision { number: 0, icmp_type: 0, icmp_code: 0, pointer: 0, count, label }
}

/// What arrives at a port.
struct Arrival<'a> {
    /// "its own, or the port's if it has none and none is required"
    label: Label,
    /// What the option 130 says, where the port has it switched on.
    marking: Option<Marking>,
    met: Walk<'a>,
}

/// Checks 3 to 13, 23, 19 and 20 on an area of a fitting size at a sound port.
fn arrive<'a>(area: &'a [u8], port: &Port) -> Result<Arrival<'a>, Fault> {
    // 3 to 5.
    let met = walk(area, port.basic.is_some())?;
    let label = match (met.cipso, &port.assigned) {
        // 6: "label required, none there".
        (None, None) => return refuse(6),
        (None, Some(assigned)) => assigned.clone(),
        // 7 to 13, 8 for a domain that is "not the port's" too, and 23 at a strict port.
        (Some((at, option)), _) => match read(option, |domain| domain == port.domain, port.strict) {
            Ok(label) => label,
            Err(fault) => return Err(Fault { number: fault.number, offset: at + fault.offset }),
        },
    };
    let marking = match (&port.basic, met.basic) {
        (None, _) => None,
        // 20: "missing where it has".
        (Some(_), None) => return refuse(20),
        // 19: "bad, 12/0/its type octet".
        (Some(_), Some((at, option))) => match basic::read(option) {
            Some(marking) => Some(marking),
            None => return fault(19, at),
        },
    };
    Ok(Arrival { label, marking, met })
}

/// The label for the leaving port. "With equal port domains the table isn't read and the label stays." None for 16: "table's domains aren't
/// the two ports', or a level or category has no number"; wish 1: "no table where one is read"; wish 7: "no table for differing domains".
fn leaving_label(label: Label, arriving: &Port, leaving: &Port, table: Option<&Table>) -> Option<Label> {
    if arriving.domain == leaving.domain {
        return Some(label);
    }
    let table = table?;
    if table.from != arriving.domain || table.to != leaving.domain {
        return None;
    }
    table.renumber(&label)
}

/// Checks 3 to 22 between sound records: the leaving label and the leaving area, or the first refusal. There is no leaving port where no
/// route matches, and the table is read where the domains differ.
fn cross(arriving: &Port, leaving: Option<&Port>, table: Option<&Table>, area: &[u8]) -> Result<(Label, Vec<u8>), Fault> {
    // 3 to 13, 19 and 20.
    let Arrival { label, marking, met } = arrive(area, arriving)?;
    // 21: "level or flags out of range at either port". "without a route, 21 tests the arriving port only".
    if !arriving.receives(marking.as_ref()) || !leaving.map_or(true, |leaving| leaving.sends(marking.as_ref())) {
        return refuse(21);
    }
    // 14: "outside the arriving port's range".
    if !arriving.in_range(&label) {
        return refuse(14);
    }
    // 22: "No matching route".
    let leaving = match leaving {
        Some(leaving) => leaving,
        None => return refuse(22),
    };
    // 16.
    let label = match leaving_label(label, arriving, leaving, table) {
        Some(label) => label,
        None => return refuse(16),
    };
    // Wish 6: "forwarded exactly when its renumbered label equals the default label; otherwise 17. No option 134 is written [...]; the
    // kept options always fit, so 18 isn't given". A set of over 120 runs equals no label.
    if let Some(default) = &leaving.default {
        if label != *default {
            return refuse(17);
        }
        let octets = build(&[], &met.kept).expect("the kept options of 40 octets have at most 40");
        return Ok((label, octets));
    }
    // 17: "forward: outside the leaving port's range". The whole set is tested, also where it has over 120 runs.
    if !leaving.in_range(&label) {
        return refuse(17);
    }
    // 18: "no valid option means the label, or the options exceed 40 octets". A set of over 120 runs has no valid option. Wish 5: of the
    // options only those that the leaving port permits.
    let option = match spell(&label, leaving.spellings) {
        Some(option) => option,
        None => return refuse(18),
    };
    match build(&option, &met.kept) {
        Some(octets) => Ok((label, octets)),
        None => refuse(18),
    }
}

/// Check 1 of a forward: "area over 40 octets or not a multiple of 4; on forward, output under 40 octets".
fn forward_sizes_fit(area: &[u8], output_length: usize) -> bool {
    size_fits(area) && output_length >= MAX_OCTETS
}

/// The decision between two ports.
fn decide_forward(
    arriving: &PortRecord,
    leaving: &PortRecord,
    table: Option<&TableRecord>,
    area: &[u8],
    output_length: usize,
) -> Result<(Label, Vec<u8>), Fault> {
    // 1.
    if !forward_sizes_fit(area, output_length) {
        return refuse(1);
    }
    // 2: "a record that is read is unsound". "Forward reads both ports, and the table when their domains differ".
    let (arriving, leaving) = match (arriving.sound(), leaving.sound()) {
        (Some(arriving), Some(leaving)) => (arriving, leaving),
        _ => return refuse(2),
    };
    let domains_differ = arriving.domain != leaving.domain;
    let table = match table {
        Some(table) if domains_differ => match table.sound() {
            Some(table) => Some(table),
            None => return refuse(2),
        },
        _ => None,
    };
    // 3 to 18.
    cross(&arriving, Some(&leaving), table.as_ref(), area)
}

/// The decision in a box: "each decision equals the two-port decision for the chosen pair, with the first table for that pair of domains".
fn decide_in_box(
    records: &BoxRecord,
    arriving: u8,
    destination: u32,
    area: &[u8],
    output_length: usize,
) -> Result<(Label, Vec<u8>), Fault> {
    // 1 comes first, as for two ports.
    if !forward_sizes_fit(area, output_length) {
        return refuse(1);
    }
    // 2: every record is read.
    let sound = match records.sound(arriving) {
        Some(sound) => sound,
        None => return refuse(2),
    };
    let arriving = &sound.ports[arriving as usize];
    let leaving = sound.leaving(destination);
    let table = leaving.and_then(|leaving| sound.table(arriving.domain, leaving.domain));
    // 3 to 22.
    cross(arriving, leaving, table, area)
}

/// "forward (gateway, two ports)". "Octets from the count to 39 are 0, octets from 40 on are unchanged." A refusal writes nothing.
pub fn forward<'a>(
    arriving: &PortRecord,
    leaving: &PortRecord,
    table: impl Into<Option<&'a TableRecord>>,
    facts: &Facts,
    area: &[u8],
    output: &mut [u8],
) -> Decision {
    let decision = decide_forward(arriving, leaving, table.into(), area, output.len());
    carry_out(decision, facts, output)
}

/// The gateway's job in a box of many ports.
pub fn forward_in_box(records: &BoxRecord, arriving: u8, destination: u32, facts: &Facts, area: &[u8], output: &mut [u8]) -> Decision {
    let decision = decide_in_box(records, arriving, destination, area, output.len());
    carry_out(decision, facts, output)
}

fn carry_out(decision: Result<(Label, Vec<u8>), Fault>, facts: &Facts, output: &mut [u8]) -> Decision {
    match decision {
        Err(fault) => refused(fault, GATEWAY_CODE, facts),
        Ok((label, octets)) => {
            output[..MAX_OCTETS].fill(0);
            output[..octets.len()].copy_from_slice(&octets);
            let held = label.held().expect("a label that has a spelling or is a port's has at most 120 runs");
            done(held, octets.len())
        }
    }
}

/// The delivered label, or the first refusal.
fn decide_deliver(port: &PortRecord, host: &HostRecord, area: &[u8]) -> Result<Label, Fault> {
    // 1: "area over 40 octets or not a multiple of 4".
    if !size_fits(area) {
        return refuse(1);
    }
    // 2: "deliver reads its port and the host".
    let port = match port.sound() {
        Some(port) => port,
        None => return refuse(2),
    };
    let host = match host.sound(port.domain) {
        Some(host) => host,
        None => return refuse(2),
    };
    // 3 to 13, 19 and 20.
    let Arrival { label, marking, .. } = arrive(area, &port)?;
    // 21, at the one port.
    if !port.receives(marking.as_ref()) {
        return refuse(21);
    }
    // 14: "outside the arriving port's range".
    if !port.in_range(&label) {
        return refuse(14);
    }
    // 15: "deliver: outside the host's range".
    if !host.in_range(&label) {
        return refuse(15);
    }
    Ok(label)
}

/// "deliver (host, one port and a host range; nothing is built)". "a delivery returns its label and count 0".
pub fn deliver(port: &PortRecord, host: &HostRecord, facts: &Facts, area: &[u8]) -> Decision {
    match decide_deliver(port, host, area) {
        Err(fault) => refused(fault, HOST_CODE, facts),
        Ok(label) => {
            let held = label.held().expect("a label that was read or assigned has at most 120 runs");
            done(held, 0)
        }
    }
}
