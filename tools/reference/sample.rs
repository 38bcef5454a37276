// The sample program's job.
//
// Document 01, "The sample program".

use std::io::{self, Read, Write};

use crate::cases::{hex, read_up_to, BROKEN};
use crate::decision::{forward, Facts};
use crate::file;
use crate::label::{HeldLabel, Run, HIGHEST_CATEGORY};
use crate::option::MAX_OCTETS;
use crate::records::{PortRecord, Row, TableRecord, MAX_ROWS};

/// The label of a domain and level with the categories 0 to `highest`.
fn label_up_to(domain: u32, level: u8, highest: u16) -> HeldLabel {
    let mut label = HeldLabel { count: 1, ..HeldLabel::empty(domain, level) };
    label.places[0] = Run { low: 0, high: highest };
    label
}

/// "both ports require labels"
fn port(lowest: HeldLabel, highest: HeldLabel) -> PortRecord {
    PortRecord { domain: lowest.domain, lowest, highest, required: true, assigned: HeldLabel::ALL_ZERO, ..PortRecord::PLAIN }
}

/// "Arriving: domain 5, level 1 with no categories to level 5 with 0..300."
pub fn arriving() -> PortRecord {
    port(HeldLabel::empty(5, 1), label_up_to(5, 5, 300))
}

/// "Leaving: domain 9, level 0 with none to level 255 with all."
pub fn leaving() -> PortRecord {
    port(HeldLabel::empty(9, 0), label_up_to(9, 255, HIGHEST_CATEGORY))
}

/// "Table: levels 1→2, 3→4, 5→6; rows 0..99→1000, 100..300→0."
pub fn table() -> TableRecord {
    let mut table = TableRecord { from: 5, to: 9, level_count: 3, row_count: 2, ..TableRecord::ALL_ZERO };
    table.levels[..3].copy_from_slice(&[[1, 2], [3, 4], [5, 6]]);
    table.rows = vec![Row { low: 0, high: 99, target_low: 1000 }, Row { low: 100, high: 300, target_low: 0 }];
    table
}

pub struct Sample {
    arriving: PortRecord,
    leaving: PortRecord,
    table: Option<TableRecord>,
}

impl Sample {
    pub fn new() -> Sample {
        Sample { arriving: arriving(), leaving: leaving(), table: Some(table()) }
    }

    /// Wish 1: "uses the first two ports and first table of a file". None for one that is "refused or under two ports". Every sound file
    /// is read: room is lent for the rows of all tables.
    pub fn of_file(octets: &[u8]) -> Option<Sample> {
        let set = file::read(octets, file::MAX_TABLES * MAX_ROWS).ok()?;
        if set.port_count < 2 {
            return None;
        }
        let table = if set.table_count > 0 { Some(set.tables[0].clone()) } else { None };
        Some(Sample { arriving: set.ports[0].clone(), leaving: set.ports[1].clone(), table })
    }

    /// "The job is forward, no datagram is marked as ICMP". "Each record gives one line, each word a fixed string."
    pub fn line_of(&self, area: &[u8]) -> String {
        let mut output = [0; MAX_OCTETS];
        let decision = forward(&self.arriving, &self.leaving, self.table.as_ref(), &Facts::NONE, area, &mut output);
        if decision.number == 0 {
            // An empty area has no octets to print.
            format!("FORWARD {} {}", decision.count, hex(&output[..decision.count])).trim_end().to_string()
        } else {
            format!("DROP {} {} {} {}", decision.number, decision.icmp_type, decision.icmp_code, decision.pointer)
        }
    }
}

/// One record of the input: "one octet n, then n octets of area".
pub enum Next {
    Whole(Vec<u8>),
    /// What there is of a record that is cut short, with its length.
    CutOff(Vec<u8>),
    End,
}

pub fn next_record(input: &mut impl Read) -> io::Result<Next> {
    let mut lead = read_up_to(input, 1)?;
    if lead.is_empty() {
        return Ok(Next::End);
    }
    let length = lead[0] as usize;
    let area = read_up_to(input, length)?;
    if area.len() < length {
        lead.extend(area);
        return Ok(Next::CutOff(lead));
    }
    Ok(Next::Whole(area))
}

/// "A record cut short gives `BROKEN` and ends." So does a file without a sample, whatever the input.
pub fn run(input: &mut impl Read, output: &mut impl Write, sample: Option<&Sample>) -> io::Result<()> {
    let sample = match sample {
        Some(sample) => sample,
        None => return writeln!(output, "{}", BROKEN),
    };
    loop {
        match next_record(input)? {
            Next::Whole(area) => writeln!(output, "{}", sample.line_of(&area))?,
            Next::CutOff(_) => return writeln!(output, "{}", BROKEN),
            Next::End => return Ok(()),
        }
    }
}
