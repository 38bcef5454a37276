// The house file: ports and tables as octets.
//
// Document 02, wishes 1, 8 and 10. Every number is big-endian, every list is led by its count.
//
//   file     length of the whole file (2), version (1), port count (1), ports, table count (1), tables
//   label    domain (4), level (1), run count (1), low (2) and high (2) of each run
//   port     domain (4), lowest label, highest label, required (1: 0 or 1), assigned label; from version 2 on also: Basic Security on
//            (1: 0 or 1); receiving: lowest level (1), highest level (1), count (2), flag fields (2 each); sending: the same four;
//            permitted spellings (1); unlabelled (1: 0 or 1); default label; from version 3 on also: strict (1: 0 or 1)
//   table    from (4), to (4), pair count (2), each pair (1 + 1), row count (2), low (2), high (2) and target low (2) of each row

use crate::basic::{rank, BasicRecord, WayRecord, MAX_FLAG_FIELDS};
use crate::label::{HeldLabel, Run, HIGHEST_CATEGORY, MAX_RUNS};
use crate::option::ALL_SPELLINGS;
use crate::records::{PortRecord, Row, TableRecord, FIRST_LEVEL_PAIRS, FIRST_ROWS, MAX_LEVEL_PAIRS, MAX_ROWS};

/// "At most 16 ports, 8 tables".
pub const MAX_PORTS: usize = 16;
pub const MAX_TABLES: usize = 8;
/// Where the version octet stands.
pub const VERSION_AT: usize = 2;

/// What one version of the file can say.
#[derive(Clone, Copy, PartialEq, Eq)]
pub struct Version {
    pub octet: u8,
    pub max_file: usize,
    pub max_pairs: usize,
    pub max_rows: usize,
    /// "with the port fields added since"
    pub later_fields: bool,
    /// "carries the mark"
    pub mark: bool,
}

/// "one version octet (1)", "32 KiB". "version 1 files still read under their old limits".
pub const FIRST: Version =
    Version { octet: 1, max_file: 32 * 1024, max_pairs: FIRST_LEVEL_PAIRS, max_rows: FIRST_ROWS, later_fields: false, mark: false };
/// Wish 8: "version 2, at most 60 KiB, with the port fields added since".
pub const SECOND: Version =
    Version { octet: 2, max_file: 60 * 1024, max_pairs: MAX_LEVEL_PAIRS, max_rows: MAX_ROWS, later_fields: true, mark: false };
/// Wish 10: "File version 3, otherwise as version 2 and now the one written, carries the mark".
pub const THIRD: Version = Version { octet: 3, mark: true, ..SECOND };
pub const VERSIONS: [Version; 3] = [FIRST, SECOND, THIRD];
pub const WRITTEN: Version = THIRD;

/// Ports and tables as they are held: 16 and 8 places with a count each.
#[derive(Clone, PartialEq, Eq)]
pub struct SetRecord {
    pub port_count: u8,
    pub ports: Vec<PortRecord>,
    pub table_count: u8,
    pub tables: Vec<TableRecord>,
}

/// Why a file is refused.
#[derive(Clone, Copy, PartialEq, Eq, Debug)]
pub enum Refusal {
    /// "the first octet of the first bad field"
    Place(usize),
    /// "An unknown version is refused by name."
    Version(u8),
    /// Wish 8: "so is a sound file whose rows outgrow their lent room".
    Room,
}

impl SetRecord {
    pub fn empty() -> SetRecord {
        SetRecord {
            port_count: 0,
            ports: vec![PortRecord::ALL_ZERO; MAX_PORTS],
            table_count: 0,
            tables: vec![TableRecord::ALL_ZERO; MAX_TABLES],
        }
    }

    pub fn of(ports: &[PortRecord], tables: &[TableRecord]) -> SetRecord {
        let mut set = SetRecord { port_count: ports.len() as u8, table_count: tables.len() as u8, ..SetRecord::empty() };
        set.ports[..ports.len()].clone_from_slice(ports);
        set.tables[..tables.len()].clone_from_slice(tables);
        set
    }

    /// The counts keep to their limits, every record in use is sound, and every other place is all zero.
    pub fn sound(&self) -> bool {
        let (port_count, table_count) = (self.port_count as usize, self.table_count as usize);
        if port_count > MAX_PORTS || table_count > MAX_TABLES {
            return false;
        }
        self.ports[..port_count].iter().all(|port| port.sound().is_some())
            && self.ports[port_count..].iter().all(|port| *port == PortRecord::ALL_ZERO)
            && self.tables[..table_count].iter().all(|table| table.sound().is_some())
            && self.tables[table_count..].iter().all(|table| *table == TableRecord::ALL_ZERO)
    }
}

/// Takes fields from the front of a file.
struct Reader<'a> {
    octets: &'a [u8],
    at: usize,
}

fn any(_: u32) -> bool {
    true
}

impl<'a> Reader<'a> {
    /// The next field, which has a rule of its own. A field that is cut off, or whose rule is broken, is blamed at its first octet.
    fn field(&mut self, width: usize, rule: impl Fn(u32) -> bool) -> Result<u32, Refusal> {
        let place = self.at;
        let octets = self.octets.get(place..place + width).ok_or(Refusal::Place(place))?;
        let number = octets.iter().fold(0, |number, octet| number << 8 | *octet as u32);
        if !rule(number) {
            return Err(Refusal::Place(place));
        }
        self.at += width;
        Ok(number)
    }

    /// A label of the given domain whose runs are "ascending, low ≤ high ≤ 65534, each low at least 2 above the previous high".
    fn label(&mut self, port_domain: u32) -> Result<HeldLabel, Refusal> {
        let domain = self.field(4, |domain| domain == port_domain)?;
        let level = self.field(1, any)? as u8;
        let count = self.field(1, |count| count <= MAX_RUNS as u32)? as u8;
        let mut label = HeldLabel { domain, level, count, ..HeldLabel::ALL_ZERO };
        let mut least = 0;
        for place in 0..count as usize {
            let low = self.field(2, |low| low >= least)?;
            let high = self.field(2, |high| low <= high && high <= HIGHEST_CATEGORY as u32)?;
            label.places[place] = Run { low: low as u16, high: high as u16 };
            least = high + 2;
        }
        Ok(label)
    }

    /// "if it is required, the assigned label is all zero"; "on other ports" the default label too.
    fn no_label(&mut self) -> Result<HeldLabel, Refusal> {
        for width in [4, 1, 1] {
            self.field(width, |number| number == 0)?;
        }
        Ok(HeldLabel::ALL_ZERO)
    }

    /// Rules over a whole label are tested when it has been read, and blame its first octet.
    fn port(&mut self, version: &Version) -> Result<PortRecord, Refusal> {
        let domain = self.field(4, |domain| domain != 0)?;
        let lowest = self.label(domain)?;
        let highest_at = self.at;
        let highest = self.label(domain)?;
        if !lowest.within(&highest) {
            return Err(Refusal::Place(highest_at));
        }
        let required = self.field(1, |required| required <= 1)? == 1;
        let assigned_at = self.at;
        let assigned = if required { self.no_label()? } else { self.label(domain)? };
        if !required && !(lowest.within(&assigned) && assigned.within(&highest)) {
            return Err(Refusal::Place(assigned_at));
        }
        // "Version 1 files read later port fields as 01 had them".
        let mut port = PortRecord { domain, lowest, highest, required, assigned, ..PortRecord::PLAIN };
        if version.later_fields {
            self.later_fields(&mut port)?;
        }
        // "older files read as not strict"
        if version.mark {
            port.strict = self.field(1, |strict| strict <= 1)? == 1;
        }
        Ok(port)
    }

    /// The port fields of wishes 3, 5 and 6.
    fn later_fields(&mut self, port: &mut PortRecord) -> Result<(), Refusal> {
        let on = self.field(1, |on| on <= 1)? == 1;
        port.basic = BasicRecord { on, receiving: self.way(on)?, sending: self.way(on)? };
        port.spellings = self.field(1, |spellings| spellings >= 1 && spellings <= ALL_SPELLINGS as u32)? as u8;
        port.unlabelled = self.field(1, |unlabelled| unlabelled <= 1)? == 1;
        let default_at = self.at;
        port.default = if port.unlabelled { self.label(port.domain)? } else { self.no_label()? };
        if port.unlabelled && !(port.lowest.within(&port.default) && port.default.within(&port.highest)) {
            return Err(Refusal::Place(default_at));
        }
        Ok(())
    }

    /// "the levels are of the four and lowest ≤ highest each way, [...] each set's count is at most 256"; "switched off, they are all 0".
    fn way(&mut self, on: bool) -> Result<WayRecord, Refusal> {
        if !on {
            for width in [1, 1, 2] {
                self.field(width, |number| number == 0)?;
            }
            return Ok(WayRecord::ALL_ZERO);
        }
        let lowest = self.field(1, |level| rank(level as u8).is_some())? as u8;
        let not_below = |level: u32| match (rank(lowest), rank(level as u8)) {
            (Some(low), Some(high)) => low <= high,
            _ => false,
        };
        let highest = self.field(1, not_below)? as u8;
        let count = self.field(2, |count| count <= MAX_FLAG_FIELDS as u32)? as u16;
        let mut way = WayRecord { lowest, highest, count, ..WayRecord::ALL_ZERO };
        for place in 0..count as usize {
            way.places[place] = self.field(2, any)? as u16;
        }
        Ok(way)
    }

    fn table(&mut self, version: &Version) -> Result<TableRecord, Refusal> {
        let from = self.field(4, |domain| domain != 0)?;
        let to = self.field(4, |domain| domain != 0)?;
        let mut table = TableRecord { from, to, ..TableRecord::ALL_ZERO };
        table.level_count = self.field(2, |count| count <= version.max_pairs as u32)? as u16;
        // "strictly rising on both sides"
        let mut least = [0, 0];
        for place in 0..table.level_count as usize {
            for side in 0..2 {
                let level = self.field(1, |level| level >= least[side])?;
                table.levels[place][side] = level as u8;
                least[side] = level + 1;
            }
        }
        table.row_count = self.field(2, |count| count <= version.max_rows as u32)? as u16;
        for _ in 0..table.row_count {
            let row = self.row(&table.rows)?;
            table.rows.push(row);
        }
        Ok(table)
    }

    /// "each row has low ≤ high, sources are ascending and disjoint, targets are disjoint, all ends ≤ 65534"
    fn row(&mut self, before: &[Row]) -> Result<Row, Refusal> {
        let highest = HIGHEST_CATEGORY as u32;
        let low = self.field(2, |low| before.last().map_or(true, |row| (row.high as u32) < low))?;
        let high = self.field(2, |high| low <= high && high <= highest)?;
        let target_low = self.field(2, |target_low| {
            let target_high = target_low + (high - low);
            let apart = |row: &Row| row.target_high() < target_low || target_high < row.target_low as u32;
            target_high <= highest && before.iter().all(apart)
        })?;
        Ok(Row { low: low as u16, high: high as u16, target_low: target_low as u16 })
    }
}

/// "A file is accepted exactly when its length agrees, then its version is known, then every record is sound; a refusal names the
/// first octet of the first bad field (a cut-off one and octets after the last table count)." `room` is how many rows are lent for those of
/// all tables.
pub fn read(octets: &[u8], room: usize) -> Result<SetRecord, Refusal> {
    let mut reader = Reader { octets, at: 0 };
    reader.field(2, |length| length as usize == octets.len())?;
    let octet = reader.field(1, any)? as u8;
    let version = match VERSIONS.iter().find(|version| version.octet == octet) {
        Some(version) => version,
        None => return Err(Refusal::Version(octet)),
    };
    if octets.len() > version.max_file {
        return Err(Refusal::Place(0));
    }
    let mut set = SetRecord::empty();
    set.port_count = reader.field(1, |count| count <= MAX_PORTS as u32)? as u8;
    for place in 0..set.port_count as usize {
        set.ports[place] = reader.port(version)?;
    }
    set.table_count = reader.field(1, |count| count <= MAX_TABLES as u32)? as u8;
    for place in 0..set.table_count as usize {
        set.tables[place] = reader.table(version)?;
    }
    if reader.at < octets.len() {
        return Err(Refusal::Place(reader.at));
    }
    let rows: usize = set.tables.iter().map(|table| table.rows.len()).sum();
    if rows > room {
        return Err(Refusal::Room);
    }
    Ok(set)
}

fn label_octets(label: &HeldLabel) -> Vec<u8> {
    let mut octets = label.domain.to_be_bytes().to_vec();
    octets.extend([label.level, label.count]);
    for run in &label.places[..label.count as usize] {
        octets.extend(run.low.to_be_bytes());
        octets.extend(run.high.to_be_bytes());
    }
    octets
}

fn port_octets(port: &PortRecord, version: &Version) -> Vec<u8> {
    let mut octets = port.domain.to_be_bytes().to_vec();
    octets.extend(label_octets(&port.lowest));
    octets.extend(label_octets(&port.highest));
    octets.push(port.required as u8);
    octets.extend(label_octets(&port.assigned));
    if version.later_fields {
        octets.push(port.basic.on as u8);
        octets.extend(way_octets(&port.basic.receiving));
        octets.extend(way_octets(&port.basic.sending));
        octets.extend([port.spellings, port.unlabelled as u8]);
        octets.extend(label_octets(&port.default));
    }
    if version.mark {
        octets.push(port.strict as u8);
    }
    octets
}

fn way_octets(way: &WayRecord) -> Vec<u8> {
    let mut octets = vec![way.lowest, way.highest];
    octets.extend(way.count.to_be_bytes());
    octets.extend(way.places[..way.count as usize].iter().flat_map(|field| field.to_be_bytes()));
    octets
}

fn table_octets(table: &TableRecord) -> Vec<u8> {
    let mut octets = [table.from.to_be_bytes(), table.to.to_be_bytes()].concat();
    octets.extend(table.level_count.to_be_bytes());
    octets.extend(table.levels[..table.level_count as usize].concat());
    octets.extend(table.row_count.to_be_bytes());
    for row in &table.rows {
        for number in [row.low, row.high, row.target_low] {
            octets.extend(number.to_be_bytes());
        }
    }
    octets
}

/// "a set has one file per version that can say it"
pub fn file_of(set: &SetRecord, version: &Version) -> Vec<u8> {
    let mut octets = vec![0, 0, version.octet, set.port_count];
    octets.extend(set.ports[..set.port_count as usize].iter().flat_map(|port| port_octets(port, version)));
    octets.push(set.table_count);
    octets.extend(set.tables[..set.table_count as usize].iter().flat_map(table_octets));
    let length = octets.len() as u16;
    octets[..2].copy_from_slice(&length.to_be_bytes());
    octets
}

/// Why a set is not written.
#[derive(Clone, Copy, PartialEq, Eq, Debug)]
pub enum Unwritten {
    /// 2.
    Unsound,
    /// Wish 8: "A set that would be longer is refused by name after 2".
    Named,
    /// 1.
    Short,
}

/// "The writer gives 2 for an unsound set, then 1 for too short an output; like every call added later, it keeps lent room past what
/// it writes." The count.
pub fn write(set: &SetRecord, output: &mut [u8]) -> Result<usize, Unwritten> {
    if !set.sound() {
        return Err(Unwritten::Unsound);
    }
    let file = file_of(set, &WRITTEN);
    if file.len() > WRITTEN.max_file {
        return Err(Unwritten::Named);
    }
    if output.len() < file.len() {
        return Err(Unwritten::Short);
    }
    output[..file.len()].copy_from_slice(&file);
    Ok(file.len())
}
