// Cases: one call of one entry each, read from octets and answered in one line.
//
// The input is a sequence of cases, each led by its length in two octets, then one octet for the entry. Every number is big-endian.
// A case that doesn't parse gives BROKEN and the next is read; one cut off gives it and ends.
//
//   1 contains   label, category (2)                                        YES or NO
//   2 within     label, label                                               YES or NO
//   3 renumber   label, table                                               number, label
//   4 spell      label, output                                              number, count, output
//   5 read       n (1), n octets                                            number, pointer, label
//   6 forward    port, port, table, mark (1), n (1), n octets, output       number, type, code, pointer, count, label, output
//   7 deliver    port, host, mark (1), n (1), n octets                      number, type, code, pointer, count, label
//   8 forward    as 6 with facts for the mark                               as 6
//   9 deliver    as 7 with facts for the mark                               as 7
//   10 read a file      n (2), n octets                                     ACCEPTED and the numbers of ports and tables, REFUSED and the
//                                                                           place, VERSION and the version octet, or ROOM where it has
//                                                                           over 2048 rows
//   11 read and write   n (2), n octets, output                             as 10 where it is not accepted; else number, count, output
//   12 write a file     port count (1), stored (1, at most 16), that many wide ports, table count (1), stored (1, at most 8),
//                       that many wide tables, output                       number or NAMED, count, output
//   13 read 130    n (1), n octets                                          number, level octet, flag field
//   14 write 130   level octet (1), flag field (2), output                  number, count, output
//   15 forward     wide port, wide port, wide table, facts, n (1), n octets, output     as 6
//   16 deliver     wide port, host, facts, n (1), n octets                  as 7
//   17 spell       label, spellings (1), output                             as 4
//   18 in a box    ports (1, at most 64), that many wide ports, tables (1, at most 8), that many wide tables, routes (2, at most 256),
//                  that many routes, arriving port (1), destination (4), facts, n (1), n octets, output       as 6
//   19 renumber    label, wide table                                         as 3
//   20 build a message  number (1), type (1), code (1), pointer (1), n (1), n octets of header, m (2), m octets of data, output, output
//                                                                           number, message count, options count, output, output
//   21 read a message   n (2), n octets                                     25; or 0, type, code, pointer, header and data in hex
//   22 reverse          wide table, room (2, at most 1024 rows)             number, from, to, pair count, each pair, row count, each row
//   24 bitmap    n (1), n octets                                            number, count, low and high of each run
//   25 memory    count (1), stored (1, at most 64), that many addresses (4), then calls: 1 note, 2 ask, 3 forget (each with an
//                address, 4), 4 clear, 5 message (n (2), n octets)          for each call its number and YES, NO or -; then the
//                                                                           count and the addresses, at most 64
//
//   label    domain (4), level (1), count (1), stored (1, at most 120), that many runs of low (2) and high (2)
//   port     domain (4), lowest label, highest label, required (1), assigned label
//   host     lowest label, highest label
//   table    from (4), to (4), level pair count (1), stored (1, at most 16), that many pairs (1 + 1),
//            row count (2), stored (1, at most 64), that many rows of low (2), high (2), target low (2)
//   mark     0 or 1, the first of the facts; the others are 0
//   facts    five octets, each 0 or 1, in document 02's order
//   wide port     a port, then one octet of groups, then the groups that are there; a group whose bit is 0 has document 01's values
//                 1 Basic Security: on (1), then for receiving and for sending: lowest level (1), highest level (1), count (2),
//                   stored (2, at most 256), that many flag fields (2 each)
//                 2 spellings (1, at most 15): 1 tag 1 shortest, 2 tag 1 with ten bitmap octets, 4 tag 2, 8 tag 5
//                 4 default label: unlabelled (1), label
//                 8 strict (1)
//   wide table    from (4), to (4), level pair count (2), stored (2, at most 256), that many pairs (1 + 1),
//                 row count (2), lent (2, at most 1024), that many rows of low (2), high (2), target low (2)
//   route    prefix (4), length (1), port (1), domain (4)
//   output   length (2, at most 512, in entries 11 and 12 at most 65535), the octet that fills it (1)
//
// Places that are not stored are 0. The rows of a table are lent as counted, with those past the count that are not zero; those of a wide
// table as they are there. Counts are free: a count over its limit is what the entries must refuse.

use std::io::{self, Read, Write};

use crate::basic::{self, BasicRecord, Marking, WayRecord, MAX_FLAG_FIELDS};
use crate::decision::{deliver, forward, forward_in_box, Decision, Facts};
use crate::entries::{Entries, BASIC_GROUP, DEFAULT_GROUP, GROUPS, SPELLINGS_GROUP, STRICT_GROUP};
use crate::file::{self, Refusal, SetRecord, Unwritten, MAX_PORTS, MAX_TABLES};
use crate::label::{HeldLabel, Run, MAX_RUNS};
use crate::memory::{Call, MemoryRecord, MAX_DESTINATIONS};
use crate::messages::{self, Report};
use crate::option::{read_alone, read_bitmap_alone, spell_alone, ALL_SPELLINGS, PLAIN_SPELLINGS};
use crate::records::{
    renumber_alone, reverse, HostRecord, PortRecord, Row, TableRecord, FIRST_LEVEL_PAIRS, FIRST_ROWS, MAX_LEVEL_PAIRS, MAX_ROWS,
};
use crate::routes::{BoxRecord, Route, MAX_BOX_PORTS, MAX_BOX_TABLES, MAX_ROUTES};

pub const CONTAINS: u8 = 1;
pub const WITHIN: u8 = 2;
pub const RENUMBER: u8 = 3;
pub const SPELL: u8 = 4;
pub const READ: u8 = 5;
pub const FORWARD: u8 = 6;
pub const DELIVER: u8 = 7;
pub const FORWARD_FACTS: u8 = 8;
pub const DELIVER_FACTS: u8 = 9;
pub const READ_FILE: u8 = 10;
pub const READ_AND_WRITE: u8 = 11;
pub const WRITE_FILE: u8 = 12;
pub const READ_BASIC: u8 = 13;
pub const WRITE_BASIC: u8 = 14;
pub const FORWARD_WIDE: u8 = 15;
pub const DELIVER_WIDE: u8 = 16;
pub const SPELL_PERMITTED: u8 = 17;
pub const IN_BOX: u8 = 18;
pub const RENUMBER_WIDE: u8 = 19;
pub const BUILD_MESSAGE: u8 = 20;
pub const READ_MESSAGE: u8 = 21;
pub const REVERSE: u8 = 22;
pub const BITMAP: u8 = 24;
pub const MEMORY: u8 = 25;

/// The calls of a memory.
pub const NOTE: u8 = 1;
pub const ASK: u8 = 2;
pub const FORGET: u8 = 3;
pub const CLEAR: u8 = 4;
pub const MESSAGE: u8 = 5;

pub const MAX_OUTPUT: usize = 512;
pub const MAX_FILE_OUTPUT: usize = 65_535;
/// The most rows that are lent for a reverse table.
pub const MAX_ROOM: usize = 1024;
/// The rows that are lent for a file.
pub const FILE_ROOM: usize = 2048;
pub const BROKEN: &str = "BROKEN";

#[derive(Clone, Copy)]
pub struct Output {
    pub length: usize,
    pub fill: u8,
}

#[derive(Clone)]
pub struct ForwardCase {
    pub arriving: PortRecord,
    pub leaving: PortRecord,
    pub table: TableRecord,
    pub facts: Facts,
    pub area: Vec<u8>,
    pub output: Output,
}

#[derive(Clone)]
pub struct DeliverCase {
    pub port: PortRecord,
    pub host: HostRecord,
    pub facts: Facts,
    pub area: Vec<u8>,
}

#[derive(Clone)]
pub struct BoxCase {
    pub records: BoxRecord,
    pub arriving: u8,
    pub destination: u32,
    pub facts: Facts,
    pub area: Vec<u8>,
    pub output: Output,
}

#[derive(Clone)]
pub struct MessageCase {
    pub number: u8,
    pub report: Report,
    pub header: Vec<u8>,
    pub data: Vec<u8>,
    pub message_output: Output,
    pub options_output: Output,
}

#[derive(Clone)]
pub enum Case {
    Contains(HeldLabel, u16),
    Within(HeldLabel, HeldLabel),
    Renumber(HeldLabel, TableRecord),
    Spell(HeldLabel, Output),
    Read(Vec<u8>),
    Forward(Box<ForwardCase>),
    Deliver(Box<DeliverCase>),
    ForwardFacts(Box<ForwardCase>),
    DeliverFacts(Box<DeliverCase>),
    ReadFile(Vec<u8>),
    ReadAndWrite(Vec<u8>, Output),
    WriteFile(Box<SetRecord>, Output),
    ReadBasic(Vec<u8>),
    WriteBasic(Marking, Output),
    ForwardWide(Box<ForwardCase>),
    DeliverWide(Box<DeliverCase>),
    SpellPermitted(HeldLabel, u8, Output),
    InBox(Box<BoxCase>),
    RenumberWide(HeldLabel, TableRecord),
    BuildMessage(MessageCase),
    ReadMessage(Vec<u8>),
    Reverse(TableRecord, usize),
    Bitmap(Vec<u8>),
    Memory(Box<MemoryRecord>, Vec<Call>),
}

/// Takes fields from the front of a case. None where a field is cut off or a number is over its limit.
struct Fields<'a> {
    rest: &'a [u8],
}

impl<'a> Fields<'a> {
    fn octets(&mut self, count: usize) -> Option<&'a [u8]> {
        if count > self.rest.len() {
            return None;
        }
        let (taken, rest) = self.rest.split_at(count);
        self.rest = rest;
        Some(taken)
    }

    fn one(&mut self) -> Option<u8> {
        self.octets(1).map(|octets| octets[0])
    }

    fn two(&mut self) -> Option<u16> {
        self.octets(2).map(|octets| u16::from_be_bytes([octets[0], octets[1]]))
    }

    fn four(&mut self) -> Option<u32> {
        self.octets(4).map(|octets| u32::from_be_bytes([octets[0], octets[1], octets[2], octets[3]]))
    }

    fn stored(&mut self, limit: usize) -> Option<usize> {
        self.one().map(|stored| stored as usize).filter(|stored| *stored <= limit)
    }

    fn flag(&mut self) -> Option<bool> {
        match self.one()? {
            0 => Some(false),
            1 => Some(true),
            _ => None,
        }
    }

    fn mark(&mut self) -> Option<Facts> {
        self.flag().map(Facts::marked)
    }

    fn facts(&mut self) -> Option<Facts> {
        Some(Facts::in_order([self.flag()?, self.flag()?, self.flag()?, self.flag()?, self.flag()?]))
    }

    fn counted_octets(&mut self) -> Option<Vec<u8>> {
        let count = self.one()? as usize;
        self.octets(count).map(|octets| octets.to_vec())
    }

    fn label(&mut self) -> Option<HeldLabel> {
        let (domain, level, count) = (self.four()?, self.one()?, self.one()?);
        let mut label = HeldLabel { domain, level, count, ..HeldLabel::ALL_ZERO };
        for place in 0..self.stored(MAX_RUNS)? {
            label.places[place] = Run { low: self.two()?, high: self.two()? };
        }
        Some(label)
    }

    fn port(&mut self) -> Option<PortRecord> {
        Some(PortRecord {
            domain: self.four()?,
            lowest: self.label()?,
            highest: self.label()?,
            required: self.flag()?,
            assigned: self.label()?,
            ..PortRecord::PLAIN
        })
    }

    fn host(&mut self) -> Option<HostRecord> {
        Some(HostRecord { lowest: self.label()?, highest: self.label()? })
    }

    fn table(&mut self) -> Option<TableRecord> {
        let mut table = TableRecord { from: self.four()?, to: self.four()?, ..TableRecord::ALL_ZERO };
        table.level_count = self.one()? as u16;
        for place in 0..self.stored(FIRST_LEVEL_PAIRS)? {
            table.levels[place] = [self.one()?, self.one()?];
        }
        table.row_count = self.two()?;
        let stored = self.stored(FIRST_ROWS)?;
        table.rows = self.several(stored, Fields::row)?;
        // "a table's rows are lent as counted (stored rows past the count that are not zero are lent too, so that it is unsound as before)"
        let lent = table.rows_needed().max(MAX_ROWS.min(table.row_count as usize));
        table.rows.resize(lent, Row::ZERO);
        Some(table)
    }

    fn row(&mut self) -> Option<Row> {
        Some(Row { low: self.two()?, high: self.two()?, target_low: self.two()? })
    }

    fn output(&mut self) -> Option<Output> {
        self.output_up_to(MAX_OUTPUT)
    }

    fn output_up_to(&mut self, limit: usize) -> Option<Output> {
        let length = self.two()? as usize;
        if length > limit {
            return None;
        }
        Some(Output { length, fill: self.one()? })
    }

    fn long_octets(&mut self) -> Option<Vec<u8>> {
        let count = self.two()? as usize;
        self.octets(count).map(|octets| octets.to_vec())
    }

    /// "A group that is not built yet doesn't parse."
    fn wide_port(&mut self) -> Option<PortRecord> {
        let mut port = self.port()?;
        let groups = self.one()?;
        if groups & !GROUPS != 0 {
            return None;
        }
        if groups & BASIC_GROUP != 0 {
            port.basic = BasicRecord { on: self.flag()?, receiving: self.way()?, sending: self.way()? };
        }
        if groups & SPELLINGS_GROUP != 0 {
            port.spellings = self.spellings()?;
        }
        if groups & DEFAULT_GROUP != 0 {
            port.unlabelled = self.flag()?;
            port.default = self.label()?;
        }
        if groups & STRICT_GROUP != 0 {
            port.strict = self.flag()?;
        }
        Some(port)
    }

    fn spellings(&mut self) -> Option<u8> {
        self.one().filter(|spellings| *spellings <= ALL_SPELLINGS)
    }

    fn way(&mut self) -> Option<WayRecord> {
        let mut way = WayRecord { lowest: self.one()?, highest: self.one()?, count: self.two()?, ..WayRecord::ALL_ZERO };
        for place in 0..self.long_stored(MAX_FLAG_FIELDS)? {
            way.places[place] = self.two()?;
        }
        Some(way)
    }

    fn long_stored(&mut self, limit: usize) -> Option<usize> {
        self.two().map(|stored| stored as usize).filter(|stored| *stored <= limit)
    }

    fn wide_table(&mut self) -> Option<TableRecord> {
        let mut table = TableRecord { from: self.four()?, to: self.four()?, ..TableRecord::ALL_ZERO };
        table.level_count = self.two()?;
        for place in 0..self.long_stored(MAX_LEVEL_PAIRS)? {
            table.levels[place] = [self.one()?, self.one()?];
        }
        table.row_count = self.two()?;
        let lent = self.long_stored(MAX_ROWS)?;
        table.rows = self.several(lent, Fields::row)?;
        Some(table)
    }

    fn set(&mut self) -> Option<SetRecord> {
        let mut set = SetRecord { port_count: self.one()?, ..SetRecord::empty() };
        for place in 0..self.stored(MAX_PORTS)? {
            set.ports[place] = self.wide_port()?;
        }
        set.table_count = self.one()?;
        for place in 0..self.stored(MAX_TABLES)? {
            set.tables[place] = self.wide_table()?;
        }
        Some(set)
    }

    fn forward(&mut self, facts: impl Fn(&mut Self) -> Option<Facts>) -> Option<ForwardCase> {
        Some(ForwardCase {
            arriving: self.port()?,
            leaving: self.port()?,
            table: self.table()?,
            facts: facts(self)?,
            area: self.counted_octets()?,
            output: self.output()?,
        })
    }

    fn deliver(&mut self, facts: impl Fn(&mut Self) -> Option<Facts>) -> Option<DeliverCase> {
        Some(DeliverCase { port: self.port()?, host: self.host()?, facts: facts(self)?, area: self.counted_octets()? })
    }

    fn forward_wide(&mut self) -> Option<ForwardCase> {
        Some(ForwardCase {
            arriving: self.wide_port()?,
            leaving: self.wide_port()?,
            table: self.wide_table()?,
            facts: self.facts()?,
            area: self.counted_octets()?,
            output: self.output()?,
        })
    }

    fn route(&mut self) -> Option<Route> {
        Some(Route { prefix: self.four()?, length: self.one()?, port: self.one()?, domain: self.four()? })
    }

    fn several<T>(&mut self, count: usize, take: impl Fn(&mut Self) -> Option<T>) -> Option<Vec<T>> {
        (0..count).map(|_| take(self)).collect()
    }

    fn in_box(&mut self) -> Option<BoxCase> {
        let ports = self.stored(MAX_BOX_PORTS)?;
        let ports = self.several(ports, Fields::wide_port)?;
        let tables = self.stored(MAX_BOX_TABLES)?;
        let tables = self.several(tables, Fields::wide_table)?;
        let routes = self.long_stored(MAX_ROUTES)?;
        let routes = self.several(routes, Fields::route)?;
        Some(BoxCase {
            records: BoxRecord { ports, tables, routes },
            arriving: self.one()?,
            destination: self.four()?,
            facts: self.facts()?,
            area: self.counted_octets()?,
            output: self.output()?,
        })
    }

    fn message(&mut self) -> Option<MessageCase> {
        Some(MessageCase {
            number: self.one()?,
            report: Report { icmp_type: self.one()?, icmp_code: self.one()?, pointer: self.one()? },
            header: self.counted_octets()?,
            data: self.long_octets()?,
            message_output: self.output()?,
            options_output: self.output()?,
        })
    }

    fn memory(&mut self) -> Option<MemoryRecord> {
        let mut memory = MemoryRecord { count: self.one()?, ..MemoryRecord::CLEAR };
        for place in 0..self.stored(MAX_DESTINATIONS)? {
            memory.places[place] = self.four()?;
        }
        Some(memory)
    }

    /// Calls up to the end of the case.
    fn calls(&mut self) -> Option<Vec<Call>> {
        let mut calls = Vec::new();
        while !self.rest.is_empty() {
            calls.push(match self.one()? {
                NOTE => Call::Note(self.four()?),
                ASK => Call::Ask(self.four()?),
                FORGET => Call::Forget(self.four()?),
                CLEAR => Call::Clear,
                MESSAGE => Call::Message(self.long_octets()?),
                _ => return None,
            });
        }
        Some(calls)
    }

    fn deliver_wide(&mut self) -> Option<DeliverCase> {
        Some(DeliverCase { port: self.wide_port()?, host: self.host()?, facts: self.facts()?, area: self.counted_octets()? })
    }
}

/// The case that the octets after a length mean, or none where they don't parse or their entry is not among the given ones.
pub fn parse(octets: &[u8], entries: &Entries) -> Option<Case> {
    let mut fields = Fields { rest: octets };
    let entry = fields.one()?;
    if !entries.has(entry) {
        return None;
    }
    let case = match entry {
        CONTAINS => Case::Contains(fields.label()?, fields.two()?),
        WITHIN => Case::Within(fields.label()?, fields.label()?),
        RENUMBER => Case::Renumber(fields.label()?, fields.table()?),
        SPELL => Case::Spell(fields.label()?, fields.output()?),
        READ => Case::Read(fields.counted_octets()?),
        FORWARD => Case::Forward(Box::new(fields.forward(Fields::mark)?)),
        DELIVER => Case::Deliver(Box::new(fields.deliver(Fields::mark)?)),
        FORWARD_FACTS => Case::ForwardFacts(Box::new(fields.forward(Fields::facts)?)),
        DELIVER_FACTS => Case::DeliverFacts(Box::new(fields.deliver(Fields::facts)?)),
        READ_FILE => Case::ReadFile(fields.long_octets()?),
        READ_AND_WRITE => Case::ReadAndWrite(fields.long_octets()?, fields.output_up_to(MAX_FILE_OUTPUT)?),
        WRITE_FILE => Case::WriteFile(Box::new(fields.set()?), fields.output_up_to(MAX_FILE_OUTPUT)?),
        READ_BASIC => Case::ReadBasic(fields.counted_octets()?),
        WRITE_BASIC => Case::WriteBasic(Marking { level: fields.one()?, flags: fields.two()? }, fields.output()?),
        FORWARD_WIDE => Case::ForwardWide(Box::new(fields.forward_wide()?)),
        DELIVER_WIDE => Case::DeliverWide(Box::new(fields.deliver_wide()?)),
        SPELL_PERMITTED => Case::SpellPermitted(fields.label()?, fields.spellings()?, fields.output()?),
        IN_BOX => Case::InBox(Box::new(fields.in_box()?)),
        RENUMBER_WIDE => Case::RenumberWide(fields.label()?, fields.wide_table()?),
        BUILD_MESSAGE => Case::BuildMessage(fields.message()?),
        READ_MESSAGE => Case::ReadMessage(fields.long_octets()?),
        REVERSE => Case::Reverse(fields.wide_table()?, fields.long_stored(MAX_ROOM)?),
        BITMAP => Case::Bitmap(fields.counted_octets()?),
        MEMORY => Case::Memory(Box::new(fields.memory()?), fields.calls()?),
        _ => return None,
    };
    if fields.rest.is_empty() {
        Some(case)
    } else {
        None
    }
}

/// Writes cases. `spare` is a number of unused places that are stored as zeros though they need not be.
pub struct Encoder {
    pub octets: Vec<u8>,
    pub spare: usize,
}

impl Encoder {
    fn two(&mut self, number: u16) {
        self.octets.extend(number.to_be_bytes());
    }

    fn four(&mut self, number: u32) {
        self.octets.extend(number.to_be_bytes());
    }

    fn stored(&self, needed: usize, limit: usize) -> usize {
        (needed + self.spare).min(limit)
    }

    pub fn label(&mut self, label: &HeldLabel) {
        let needed = label.places.iter().rposition(|run| *run != Run::ZERO).map_or(0, |last| last + 1);
        let stored = self.stored(needed, MAX_RUNS);
        self.four(label.domain);
        self.octets.extend([label.level, label.count, stored as u8]);
        for run in &label.places[..stored] {
            self.two(run.low);
            self.two(run.high);
        }
    }

    pub fn port(&mut self, port: &PortRecord) {
        self.four(port.domain);
        self.label(&port.lowest);
        self.label(&port.highest);
        self.octets.push(port.required as u8);
        self.label(&port.assigned);
    }

    fn host(&mut self, host: &HostRecord) {
        self.label(&host.lowest);
        self.label(&host.highest);
    }

    fn table(&mut self, table: &TableRecord) {
        self.four(table.from);
        self.four(table.to);
        let stored = self.stored(table.pairs_needed(), FIRST_LEVEL_PAIRS);
        self.octets.extend([table.level_count as u8, stored as u8]);
        for pair in &table.levels[..stored] {
            self.octets.extend(pair);
        }
        let stored = self.stored(table.rows_needed(), FIRST_ROWS);
        self.two(table.row_count);
        self.octets.push(stored as u8);
        let mut rows = table.rows.clone();
        rows.resize(stored, Row::ZERO);
        self.rows(&rows);
    }

    fn counted_octets(&mut self, octets: &[u8]) {
        self.octets.push(octets.len() as u8);
        self.octets.extend(octets);
    }

    fn output(&mut self, output: Output) {
        self.two(output.length as u16);
        self.octets.push(output.fill);
    }

    fn long_octets(&mut self, octets: &[u8]) {
        self.two(octets.len() as u16);
        self.octets.extend(octets);
    }

    /// A group that says what document 01 says is there only with `spare`.
    pub fn wide_port(&mut self, port: &PortRecord) {
        self.port(port);
        let basic = self.spare > 0 || port.basic != PortRecord::PLAIN.basic;
        let spellings = self.spare > 0 || port.spellings != PortRecord::PLAIN.spellings;
        let default = self.spare > 0 || port.unlabelled || port.default != PortRecord::PLAIN.default;
        let strict = self.spare > 0 || port.strict;
        let groups = [(basic, BASIC_GROUP), (spellings, SPELLINGS_GROUP), (default, DEFAULT_GROUP), (strict, STRICT_GROUP)];
        self.octets.push(groups.iter().filter(|(there, _)| *there).map(|(_, group)| group).sum());
        if basic {
            self.octets.push(port.basic.on as u8);
            self.way(&port.basic.receiving);
            self.way(&port.basic.sending);
        }
        if spellings {
            self.octets.push(port.spellings);
        }
        if default {
            self.octets.push(port.unlabelled as u8);
            self.label(&port.default);
        }
        if strict {
            self.octets.push(port.strict as u8);
        }
    }

    fn way(&mut self, way: &WayRecord) {
        let stored = self.stored(way.needed(), MAX_FLAG_FIELDS);
        self.octets.extend([way.lowest, way.highest]);
        self.two(way.count);
        self.two(stored as u16);
        for field in &way.places[..stored] {
            self.two(*field);
        }
    }

    fn wide_table(&mut self, table: &TableRecord) {
        self.four(table.from);
        self.four(table.to);
        let pairs = self.stored(table.pairs_needed(), MAX_LEVEL_PAIRS);
        self.two(table.level_count);
        self.two(pairs as u16);
        self.octets.extend(table.levels[..pairs].concat());
        self.two(table.row_count);
        self.two(table.rows.len() as u16);
        self.rows(&table.rows);
    }

    fn rows(&mut self, rows: &[Row]) {
        for row in rows {
            self.two(row.low);
            self.two(row.high);
            self.two(row.target_low);
        }
    }

    fn set(&mut self, set: &SetRecord) {
        let needed = set.ports.iter().rposition(|port| *port != PortRecord::ALL_ZERO).map_or(0, |last| last + 1);
        let stored = self.stored(needed, MAX_PORTS);
        self.octets.extend([set.port_count, stored as u8]);
        for port in &set.ports[..stored] {
            self.wide_port(port);
        }
        let needed = set.tables.iter().rposition(|table| *table != TableRecord::ALL_ZERO).map_or(0, |last| last + 1);
        let stored = self.stored(needed, MAX_TABLES);
        self.octets.extend([set.table_count, stored as u8]);
        for table in &set.tables[..stored] {
            self.wide_table(table);
        }
    }

    fn flags(&mut self, flags: &[bool]) {
        self.octets.extend(flags.iter().map(|flag| *flag as u8));
    }

    fn forward(&mut self, case: &ForwardCase, facts: &[bool]) {
        self.port(&case.arriving);
        self.port(&case.leaving);
        self.table(&case.table);
        self.flags(facts);
        self.counted_octets(&case.area);
        self.output(case.output);
    }

    fn deliver(&mut self, case: &DeliverCase, facts: &[bool]) {
        self.port(&case.port);
        self.host(&case.host);
        self.flags(facts);
        self.counted_octets(&case.area);
    }

    fn forward_wide(&mut self, case: &ForwardCase) {
        self.wide_port(&case.arriving);
        self.wide_port(&case.leaving);
        self.wide_table(&case.table);
        self.flags(&case.facts.listed());
        self.counted_octets(&case.area);
        self.output(case.output);
    }

    pub fn in_box(&mut self, case: &BoxCase) {
        let BoxRecord { ports, tables, routes } = &case.records;
        self.octets.push(ports.len() as u8);
        for port in ports {
            self.wide_port(port);
        }
        self.octets.push(tables.len() as u8);
        for table in tables {
            self.wide_table(table);
        }
        self.two(routes.len() as u16);
        for route in routes {
            self.four(route.prefix);
            self.octets.extend([route.length, route.port]);
            self.four(route.domain);
        }
        self.octets.push(case.arriving);
        self.four(case.destination);
        self.flags(&case.facts.listed());
        self.counted_octets(&case.area);
        self.output(case.output);
    }

    fn memory(&mut self, memory: &MemoryRecord) {
        let stored = self.stored(memory.needed(), MAX_DESTINATIONS);
        self.octets.extend([memory.count, stored as u8]);
        for address in &memory.places[..stored] {
            self.four(*address);
        }
    }

    fn call(&mut self, call: &Call) {
        let (kind, address) = match call {
            Call::Note(address) => (NOTE, *address),
            Call::Ask(address) => (ASK, *address),
            Call::Forget(address) => (FORGET, *address),
            Call::Clear => return self.octets.push(CLEAR),
            Call::Message(message) => {
                self.octets.push(MESSAGE);
                return self.long_octets(message);
            }
        };
        self.octets.push(kind);
        self.four(address);
    }

    fn deliver_wide(&mut self, case: &DeliverCase) {
        self.wide_port(&case.port);
        self.host(&case.host);
        self.flags(&case.facts.listed());
        self.counted_octets(&case.area);
    }
}

/// The octets of a case after its length: `parse` gives the case back.
pub fn encode(case: &Case, spare: usize) -> Vec<u8> {
    let mut encoder = Encoder { octets: Vec::new(), spare };
    match case {
        Case::Contains(label, category) => {
            encoder.octets.push(CONTAINS);
            encoder.label(label);
            encoder.two(*category);
        }
        Case::Within(label, bound) => {
            encoder.octets.push(WITHIN);
            encoder.label(label);
            encoder.label(bound);
        }
        Case::Renumber(label, table) => {
            encoder.octets.push(RENUMBER);
            encoder.label(label);
            encoder.table(table);
        }
        Case::Spell(label, output) => {
            encoder.octets.push(SPELL);
            encoder.label(label);
            encoder.output(*output);
        }
        Case::Read(octets) => {
            encoder.octets.push(READ);
            encoder.counted_octets(octets);
        }
        Case::Forward(case) => {
            encoder.octets.push(FORWARD);
            encoder.forward(case, &case.facts.listed()[..1]);
        }
        Case::Deliver(case) => {
            encoder.octets.push(DELIVER);
            encoder.deliver(case, &case.facts.listed()[..1]);
        }
        Case::ForwardFacts(case) => {
            encoder.octets.push(FORWARD_FACTS);
            encoder.forward(case, &case.facts.listed());
        }
        Case::DeliverFacts(case) => {
            encoder.octets.push(DELIVER_FACTS);
            encoder.deliver(case, &case.facts.listed());
        }
        Case::ReadFile(octets) => {
            encoder.octets.push(READ_FILE);
            encoder.long_octets(octets);
        }
        Case::ReadAndWrite(octets, output) => {
            encoder.octets.push(READ_AND_WRITE);
            encoder.long_octets(octets);
            encoder.output(*output);
        }
        Case::WriteFile(set, output) => {
            encoder.octets.push(WRITE_FILE);
            encoder.set(set);
            encoder.output(*output);
        }
        Case::ReadBasic(octets) => {
            encoder.octets.push(READ_BASIC);
            encoder.counted_octets(octets);
        }
        Case::WriteBasic(marking, output) => {
            encoder.octets.extend([WRITE_BASIC, marking.level]);
            encoder.two(marking.flags);
            encoder.output(*output);
        }
        Case::ForwardWide(case) => {
            encoder.octets.push(FORWARD_WIDE);
            encoder.forward_wide(case);
        }
        Case::DeliverWide(case) => {
            encoder.octets.push(DELIVER_WIDE);
            encoder.deliver_wide(case);
        }
        Case::SpellPermitted(label, spellings, output) => {
            encoder.octets.push(SPELL_PERMITTED);
            encoder.label(label);
            encoder.octets.push(*spellings);
            encoder.output(*output);
        }
        Case::InBox(case) => {
            encoder.octets.push(IN_BOX);
            encoder.in_box(case);
        }
        Case::RenumberWide(label, table) => {
            encoder.octets.push(RENUMBER_WIDE);
            encoder.label(label);
            encoder.wide_table(table);
        }
        Case::BuildMessage(case) => {
            let Report { icmp_type, icmp_code, pointer } = case.report;
            encoder.octets.extend([BUILD_MESSAGE, case.number, icmp_type, icmp_code, pointer]);
            encoder.counted_octets(&case.header);
            encoder.long_octets(&case.data);
            encoder.output(case.message_output);
            encoder.output(case.options_output);
        }
        Case::ReadMessage(octets) => {
            encoder.octets.push(READ_MESSAGE);
            encoder.long_octets(octets);
        }
        Case::Reverse(table, room) => {
            encoder.octets.push(REVERSE);
            encoder.wide_table(table);
            encoder.two(*room as u16);
        }
        Case::Bitmap(octets) => {
            encoder.octets.push(BITMAP);
            encoder.counted_octets(octets);
        }
        Case::Memory(memory, calls) => {
            encoder.octets.push(MEMORY);
            encoder.memory(memory);
            for call in calls {
                encoder.call(call);
            }
        }
    }
    encoder.octets
}

/// A line of words parted by one blank; numbers are decimal.
pub struct Line {
    pub text: String,
}

impl Line {
    pub fn new() -> Line {
        Line { text: String::new() }
    }

    pub fn word(&mut self, word: &str) {
        if !self.text.is_empty() {
            self.text.push(' ');
        }
        self.text.push_str(word);
    }

    pub fn number(&mut self, number: usize) {
        self.word(&number.to_string());
    }

    /// "a label is its domain, level, count and then low and high of each of the first `count` runs (no more than 120)"
    pub fn label(&mut self, label: &HeldLabel) {
        self.number(label.domain as usize);
        self.number(label.level as usize);
        self.number(label.count as usize);
        self.runs(&label.places[..MAX_RUNS.min(label.count as usize)]);
    }

    pub fn runs(&mut self, runs: &[Run]) {
        for run in runs {
            self.number(run.low as usize);
            self.number(run.high as usize);
        }
    }

    /// "an output is all its octets in lower-case hex, after a refusal too, or `-` where it has none"
    pub fn output(&mut self, output: &[u8]) {
        if output.is_empty() {
            self.word("-");
        } else {
            self.word(&hex(output));
        }
    }

    fn table(&mut self, table: &TableRecord) {
        self.number(table.from as usize);
        self.number(table.to as usize);
        self.number(table.level_count as usize);
        for level in table.levels[..table.level_count as usize].iter().flatten() {
            self.number(*level as usize);
        }
        self.number(table.row_count as usize);
        for row in &table.rows {
            self.number(row.low as usize);
            self.number(row.high as usize);
            self.number(row.target_low as usize);
        }
    }

    fn refusal(&mut self, refusal: Refusal) {
        match refusal {
            Refusal::Place(place) => {
                self.word("REFUSED");
                self.number(place);
            }
            Refusal::Version(version) => {
                self.word("VERSION");
                self.number(version as usize);
            }
            Refusal::Room => self.word("ROOM"),
        }
    }

    /// What the writer of files answers, and the output that it leaves.
    fn written(&mut self, set: &SetRecord, output: Output) {
        let mut octets = vec![output.fill; output.length];
        let count = match file::write(set, &mut octets) {
            Ok(count) => {
                self.number(0);
                count
            }
            Err(refusal) => {
                self.unwritten(refusal);
                0
            }
        };
        self.number(count);
        self.output(&octets);
    }

    pub fn unwritten(&mut self, refusal: Unwritten) {
        match refusal {
            Unwritten::Unsound => self.number(2),
            Unwritten::Named => self.word("NAMED"),
            Unwritten::Short => self.number(1),
        }
    }

    fn spelled(&mut self, label: &HeldLabel, permitted: u8, output: Output) {
        let mut octets = vec![output.fill; output.length];
        let (number, count) = spell_alone(label, permitted, &mut octets);
        self.number(number as usize);
        self.number(count);
        self.output(&octets);
    }

    fn decision(&mut self, decision: &Decision) {
        self.number(decision.number as usize);
        self.number(decision.icmp_type as usize);
        self.number(decision.icmp_code as usize);
        self.number(decision.pointer as usize);
        self.number(decision.count);
        self.label(&decision.label);
    }
}

pub fn hex(octets: &[u8]) -> String {
    const DIGITS: &[u8; 16] = b"0123456789abcdef";
    let mut text = String::with_capacity(2 * octets.len());
    for octet in octets {
        text.push(DIGITS[(octet >> 4) as usize] as char);
        text.push(DIGITS[(octet & 15) as usize] as char);
    }
    text
}

fn yes_or_no(answer: bool) -> &'static str {
    if answer {
        "YES"
    } else {
        "NO"
    }
}

/// The line that answers a case.
pub fn answer(case: &Case) -> String {
    let mut line = Line::new();
    match case {
        Case::Contains(label, category) => line.word(yes_or_no(label.contains(*category))),
        Case::Within(label, bound) => line.word(yes_or_no(label.within(bound))),
        Case::Renumber(label, table) | Case::RenumberWide(label, table) => {
            let (number, renumbered) = renumber_alone(label, table);
            line.number(number as usize);
            line.label(&renumbered);
        }
        Case::Spell(label, output) => line.spelled(label, PLAIN_SPELLINGS, *output),
        Case::SpellPermitted(label, spellings, output) => line.spelled(label, *spellings, *output),
        Case::Read(octets) => {
            let (number, pointer, held) = match read_alone(octets) {
                Ok(label) => (0, 0, label.held().expect("a valid option means at most 120 runs")),
                Err(fault) => (fault.number, fault.offset, HeldLabel::ALL_ZERO),
            };
            line.number(number as usize);
            line.number(pointer);
            line.label(&held);
        }
        Case::Forward(case) | Case::ForwardFacts(case) | Case::ForwardWide(case) => {
            let mut octets = vec![case.output.fill; case.output.length];
            let decision = forward(&case.arriving, &case.leaving, &case.table, &case.facts, &case.area, &mut octets);
            line.decision(&decision);
            line.output(&octets);
        }
        Case::InBox(case) => {
            let mut octets = vec![case.output.fill; case.output.length];
            let decision = forward_in_box(&case.records, case.arriving, case.destination, &case.facts, &case.area, &mut octets);
            line.decision(&decision);
            line.output(&octets);
        }
        Case::Deliver(case) | Case::DeliverFacts(case) | Case::DeliverWide(case) => {
            let decision = deliver(&case.port, &case.host, &case.facts, &case.area);
            line.decision(&decision);
        }
        Case::ReadFile(octets) => match file::read(octets, FILE_ROOM) {
            Ok(set) => {
                line.word("ACCEPTED");
                line.number(set.port_count as usize);
                line.number(set.table_count as usize);
            }
            Err(refusal) => line.refusal(refusal),
        },
        Case::ReadAndWrite(octets, output) => match file::read(octets, FILE_ROOM) {
            Ok(set) => line.written(&set, *output),
            Err(refusal) => line.refusal(refusal),
        },
        Case::WriteFile(set, output) => line.written(set, *output),
        Case::ReadBasic(octets) => {
            let (number, marking) = match basic::read_alone(octets) {
                Some(marking) => (0, marking),
                None => (19, Marking { level: 0, flags: 0 }),
            };
            line.number(number);
            line.number(marking.level as usize);
            line.number(marking.flags as usize);
        }
        Case::WriteBasic(marking, output) => {
            let mut octets = vec![output.fill; output.length];
            let (number, count) = basic::write_alone(marking, &mut octets);
            line.number(number as usize);
            line.number(count);
            line.output(&octets);
        }
        Case::BuildMessage(case) => {
            let octets = |output: Output| vec![output.fill; output.length];
            let (mut message, mut options) = (octets(case.message_output), octets(case.options_output));
            let (number, message_count, options_count) =
                messages::build(case.number, &case.report, &case.header, &case.data, &mut message, &mut options);
            line.number(number as usize);
            line.number(message_count);
            line.number(options_count);
            line.output(&message);
            line.output(&options);
        }
        Case::ReadMessage(octets) => match messages::read(octets) {
            None => line.number(25),
            Some(parts) => {
                line.number(0);
                line.number(parts.report.icmp_type as usize);
                line.number(parts.report.icmp_code as usize);
                line.number(parts.report.pointer as usize);
                line.output(&parts.header);
                line.output(&parts.data);
            }
        },
        Case::Reverse(table, room) => {
            let (number, reversed) = match reverse(table, *room) {
                Ok(reversed) => (0, reversed),
                Err(number) => (number, TableRecord::ALL_ZERO),
            };
            line.number(number as usize);
            line.table(&reversed);
        }
        Case::Bitmap(octets) => {
            let (number, runs) = read_bitmap_alone(octets);
            line.number(number as usize);
            line.number(runs.len());
            line.runs(&runs);
        }
        Case::Memory(memory, calls) => {
            let mut memory = memory.clone();
            for call in calls {
                let reply = memory.call(call);
                line.number(reply.number as usize);
                line.word(reply.was_in.map_or("-", yes_or_no));
            }
            line.number(memory.count as usize);
            for address in &memory.places[..MAX_DESTINATIONS.min(memory.count as usize)] {
                line.number(*address as usize);
            }
        }
    }
    line.text
}

/// The line for the octets after a length.
pub fn line_of(octets: &[u8], entries: &Entries) -> String {
    match parse(octets, entries) {
        Some(case) => answer(&case),
        None => BROKEN.to_string(),
    }
}

/// One case of the input.
pub enum Next {
    /// The octets after the length.
    Whole(Vec<u8>),
    /// The length is cut off or runs past the end of input. What there is of the case, with its length.
    CutOff(Vec<u8>),
    /// The end of input where a case would begin.
    End,
}

/// Reads up to `count` octets: fewer only at the end of input.
pub fn read_up_to(input: &mut impl Read, count: usize) -> io::Result<Vec<u8>> {
    let mut octets = Vec::with_capacity(count);
    input.take(count as u64).read_to_end(&mut octets)?;
    Ok(octets)
}

pub fn next_case(input: &mut impl Read) -> io::Result<Next> {
    let mut lead = read_up_to(input, 2)?;
    if lead.is_empty() {
        return Ok(Next::End);
    }
    if lead.len() < 2 {
        return Ok(Next::CutOff(lead));
    }
    let length = u16::from_be_bytes([lead[0], lead[1]]) as usize;
    let octets = read_up_to(input, length)?;
    if octets.len() < length {
        lead.extend(octets);
        return Ok(Next::CutOff(lead));
    }
    Ok(Next::Whole(octets))
}

/// Answers every case of the input with one line.
pub fn run(input: &mut impl Read, output: &mut impl Write, entries: &Entries) -> io::Result<()> {
    loop {
        match next_case(input)? {
            Next::Whole(octets) => writeln!(output, "{}", line_of(&octets, entries))?,
            Next::CutOff(_) => return writeln!(output, "{}", BROKEN),
            Next::End => return Ok(()),
        }
    }
}
