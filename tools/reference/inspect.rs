// The inspector of recorded traffic.
//
// Document 02, wish 14. A record is a two-octet length of the rest, then single octets:
//
//   version (1), arriving port, leaving port, the five facts (0 or 1), n, n octets of arriving area, claimed number, type, code and pointer,
//   m, m octets of leaving area

use std::io::{self, Read, Write};

use crate::cases::{next_case, Next, BROKEN};
use crate::decision::{forward, Facts};
use crate::file::{self, SetRecord, MAX_TABLES};
use crate::option::MAX_OCTETS;
use crate::records::{PortRecord, TableRecord, MAX_ROWS};

/// "version 1"
const VERSION: u8 = 1;

/// The places of a difference: "0 to 3 the decision, 4 the leaving length, 5 on its octets".
const LENGTH_PLACE: usize = 4;
const OCTETS_PLACE: usize = 5;

/// One recorded case.
pub struct Record {
    pub arriving: u8,
    pub leaving: u8,
    pub facts: [u8; 5],
    pub area: Vec<u8>,
    /// Claimed number, type, code and pointer.
    pub claim: [u8; 4],
    pub leaving_area: Vec<u8>,
}

impl Record {
    /// The octets after the length.
    pub fn octets(&self) -> Vec<u8> {
        let mut octets = vec![VERSION, self.arriving, self.leaving];
        octets.extend(self.facts);
        octets.push(self.area.len() as u8);
        octets.extend(&self.area);
        octets.extend(self.claim);
        octets.push(self.leaving_area.len() as u8);
        octets.extend(&self.leaving_area);
        octets
    }

    /// The record that the octets after a length mean: none where its version is not 1, a fact is neither 0 nor 1, or its fields do not
    /// fill it exactly.
    pub fn parse(octets: &[u8]) -> Option<Record> {
        let head: &[u8; 8] = octets.get(..8)?.try_into().ok()?;
        let [version, arriving, leaving, facts @ ..] = *head;
        if version != VERSION || facts.iter().any(|fact| *fact > 1) {
            return None;
        }
        let (area, rest) = led_by_length(&octets[8..])?;
        let claim: [u8; 4] = rest.get(..4)?.try_into().ok()?;
        let (leaving_area, rest) = led_by_length(&rest[4..])?;
        if !rest.is_empty() {
            return None;
        }
        Some(Record { arriving, leaving, facts, area: area.to_vec(), claim, leaving_area: leaving_area.to_vec() })
    }
}

/// "each area led by its length": the area and what is behind it.
fn led_by_length(octets: &[u8]) -> Option<(&[u8], &[u8])> {
    let length = *octets.first()? as usize;
    let area = octets.get(1..1 + length)?;
    Some((area, &octets[1 + length..]))
}

/// What the box does with a datagram: number, type, code and pointer, and the leaving area, which a refusal has none of.
pub struct Outcome {
    pub decision: [u8; 4],
    pub leaving_area: Vec<u8>,
}

pub struct Inspector {
    ports: Vec<PortRecord>,
    tables: Vec<TableRecord>,
}

impl Inspector {
    /// None for a file that is refused.
    pub fn of_file(octets: &[u8]) -> Option<Inspector> {
        file::read(octets, MAX_TABLES * MAX_ROWS).ok().map(|set| Inspector::of_set(&set))
    }

    pub fn of_set(set: &SetRecord) -> Inspector {
        let (ports, tables) = (&set.ports[..set.port_count as usize], &set.tables[..set.table_count as usize]);
        Inspector { ports: ports.to_vec(), tables: tables.to_vec() }
    }

    /// None where "a port [is] not in the file". "The table is chosen as in Wish 7": "the first table for that pair of domains".
    pub fn outcome(&self, record: &Record) -> Option<Outcome> {
        let (arriving, leaving) = (self.ports.get(record.arriving as usize)?, self.ports.get(record.leaving as usize)?);
        let table = self.tables.iter().find(|table| table.from == arriving.domain && table.to == leaving.domain);
        let facts = Facts::in_order(record.facts.map(|fact| fact == 1));
        let mut output = [0; MAX_OCTETS];
        let decision = forward(arriving, leaving, table, &facts, &record.area, &mut output);
        Some(Outcome {
            decision: [decision.number, decision.icmp_type, decision.icmp_code, decision.pointer],
            leaving_area: output[..decision.count].to_vec(),
        })
    }

    /// "It prints for each `AGREES`, or `DIFFERS` and the first place that differs". "A record that doesn't parse (a port not in the file
    /// too) prints `BROKEN`".
    pub fn line_of(&self, octets: &[u8]) -> String {
        let difference = Record::parse(octets).and_then(|record| Some(first_difference(&self.outcome(&record)?, &record)));
        match difference {
            None => BROKEN.to_string(),
            Some(None) => "AGREES".to_string(),
            Some(Some(place)) => format!("DIFFERS {}", place),
        }
    }
}

fn first_difference(outcome: &Outcome, record: &Record) -> Option<usize> {
    if let Some(place) = (0..4).find(|place| outcome.decision[*place] != record.claim[*place]) {
        return Some(place);
    }
    if outcome.leaving_area.len() != record.leaving_area.len() {
        return Some(LENGTH_PLACE);
    }
    let octet = (0..record.leaving_area.len()).find(|octet| outcome.leaving_area[*octet] != record.leaving_area[*octet])?;
    Some(OCTETS_PLACE + octet)
}

/// "A missing or refused file is one `BROKEN` line." A record that is cut off "prints it and ends".
pub fn run(input: &mut impl Read, output: &mut impl Write, inspector: Option<&Inspector>) -> io::Result<()> {
    let inspector = match inspector {
        Some(inspector) => inspector,
        None => return writeln!(output, "{}", BROKEN),
    };
    loop {
        // A record has the lead of a case: the length of the rest in two octets.
        match next_case(input)? {
            Next::Whole(octets) => writeln!(output, "{}", inspector.line_of(&octets))?,
            Next::CutOff(_) => return writeln!(output, "{}", BROKEN),
            Next::End => return Ok(()),
        }
    }
}
