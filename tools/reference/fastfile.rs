// The house file, written for speed: what is sound is read in one pass, and only a refusal looks field by field for the first bad one.

use super::basic::{rank, Basic, Way, MAX_FLAG_FIELDS, NO_RANK};
use super::boxes::part;
use super::{rows_apart, Label, Port, Row, Run, Table, ALL_SPELLINGS, MAX_LEVEL_PAIRS, MAX_ROWS, MAX_RUNS, NO_CATEGORY, NO_RUN};

pub const MAX_PORTS: usize = 16;
pub const MAX_TABLES: usize = 8;
/// The numbers of the rows of the most tables.
pub const MAX_NUMBERS: usize = MAX_TABLES * 3 * MAX_ROWS;

/// The limits of a version, whether it has the port fields added since document 01, and the strict mark.
struct Version {
    max_file: usize,
    max_pairs: usize,
    max_rows: usize,
    later_fields: bool,
    strict: bool,
}

const FIRST: Version = Version { max_file: 32 * 1024, max_pairs: 16, max_rows: 64, later_fields: false, strict: false };
const SECOND: Version = Version { max_file: 60 * 1024, max_pairs: MAX_LEVEL_PAIRS, max_rows: MAX_ROWS, later_fields: true, strict: false };
const THIRD: Version = Version { strict: true, ..SECOND };
/// The version octet that the writer writes.
const WRITTEN: u8 = 3;

#[derive(Clone)]
pub struct Set {
    pub port_count: u8,
    pub ports: [Port; MAX_PORTS],
    pub table_count: u8,
    pub tables: [Table; MAX_TABLES],
}

impl Set {
    pub const EMPTY: Set = Set { port_count: 0, ports: [Port::ALL_ZERO; MAX_PORTS], table_count: 0, tables: [Table::ALL_ZERO; MAX_TABLES] };

    /// Counts, records in use, and places that are not. The rows are lent one behind the other, and none is left over.
    fn sound(&self, rows: &[u16]) -> bool {
        let (port_count, table_count) = (self.port_count as usize, self.table_count as usize);
        if port_count > MAX_PORTS || table_count > MAX_TABLES {
            return false;
        }
        let mut left = rows;
        for table in &self.tables[..table_count] {
            match part(table, left) {
                Some((own, rest)) if table.sound(own) => left = rest,
                _ => return false,
            }
        }
        left.is_empty()
            && self.ports[..port_count].iter().all(Port::sound)
            && self.ports[port_count..].iter().all(Port::is_all_zero)
            && self.tables[table_count..].iter().all(Table::is_all_zero)
    }

    /// The length of the file. Asked of sound sets.
    fn length(&self) -> usize {
        let label = |label: &Label| 6 + 4 * label.count as usize;
        let ways = |basic: &Basic| 8 + 2 * (basic.receiving.count + basic.sending.count) as usize;
        let port =
            |port: &Port| 9 + label(&port.lowest) + label(&port.highest) + label(&port.assigned) + ways(&port.basic) + label(&port.default);
        let table = |table: &Table| 12 + 2 * table.level_count as usize + 6 * table.row_count as usize;
        let ports: usize = self.ports[..self.port_count as usize].iter().map(port).sum();
        let tables: usize = self.tables[..self.table_count as usize].iter().map(table).sum();
        5 + ports + tables
    }
}

#[derive(Clone, Copy, PartialEq, Eq, Debug)]
pub enum Refusal {
    /// The first octet of the first bad field.
    Place(usize),
    Version(u8),
    /// The rows outgrow their room.
    Room,
}

struct Reader<'a> {
    octets: &'a [u8],
    at: usize,
}

impl Reader<'_> {
    #[inline]
    fn field<const N: usize>(&mut self) -> Result<[u8; N], Refusal> {
        let field = self.octets[self.at..].first_chunk::<N>().ok_or(Refusal::Place(self.at))?;
        self.at += N;
        Ok(*field)
    }

    #[inline]
    fn two(&mut self) -> Result<u16, Refusal> {
        self.field().map(u16::from_be_bytes)
    }

    /// Blames the field of `width` octets that was just read.
    fn blame<T>(&self, width: usize) -> Result<T, Refusal> {
        Err(Refusal::Place(self.at - width))
    }

    fn count(&mut self, limit: usize) -> Result<u8, Refusal> {
        let [count] = self.field()?;
        if count as usize > limit {
            return self.blame(1);
        }
        Ok(count)
    }

    fn domain(&mut self, fits: impl Fn(u32) -> bool) -> Result<u32, Refusal> {
        let domain = u32::from_be_bytes(self.field()?);
        if !fits(domain) {
            return self.blame(4);
        }
        Ok(domain)
    }

    fn label(&mut self, port_domain: u32, label: &mut Label) -> Result<(), Refusal> {
        label.domain = self.domain(|domain| domain == port_domain)?;
        [label.level] = self.field()?;
        label.count = self.count(MAX_RUNS)?;
        let count = label.count as usize;
        let octets = match self.octets.get(self.at..self.at + 4 * count) {
            Some(octets) => octets,
            None => return self.bad_run(count),
        };
        // As in a label's form: a difference below 0 sets the top bit, and the last high alone is held against the limit.
        let (mut below_zero, mut least) = (0, 0);
        let (used, unused) = label.runs.split_at_mut(count);
        for (run, octets) in used.iter_mut().zip(octets.chunks_exact(4)) {
            let (low, high) = (u16::from_be_bytes([octets[0], octets[1]]), u16::from_be_bytes([octets[2], octets[3]]));
            *run = Run { low, high };
            let (low, high) = (low as u32, high as u32);
            below_zero |= high.wrapping_sub(low) | low.wrapping_sub(least);
            least = high + 2;
        }
        if below_zero >> 31 != 0 || least > NO_CATEGORY as u32 + 1 {
            return self.bad_run(count);
        }
        unused.fill(NO_RUN);
        self.at += 4 * count;
        Ok(())
    }

    /// A label that must be all zero.
    fn no_label(&mut self, label: &mut Label) -> Result<(), Refusal> {
        self.domain(|domain| domain == 0)?;
        self.count(0)?;
        self.count(0)?;
        *label = Label::ALL_ZERO;
        Ok(())
    }

    /// The first bad field of runs of which one is bad.
    #[cold]
    fn bad_run(&mut self, count: usize) -> Result<(), Refusal> {
        let mut least = 0;
        for _ in 0..count {
            let low = self.two()?;
            if (low as u32) < least {
                return self.blame(2);
            }
            let high = self.two()?;
            if high < low || high == NO_CATEGORY {
                return self.blame(2);
            }
            least = high as u32 + 2;
        }
        Ok(())
    }

    fn flag(&mut self) -> Result<bool, Refusal> {
        Ok(self.count(1)? == 1)
    }

    fn port(&mut self, version: &Version, port: &mut Port) -> Result<(), Refusal> {
        port.domain = self.domain(|domain| domain != 0)?;
        self.label(port.domain, &mut port.lowest)?;
        let highest_at = self.at;
        self.label(port.domain, &mut port.highest)?;
        if !port.ordered() {
            return Err(Refusal::Place(highest_at));
        }
        port.required = self.flag()?;
        let assigned_at = self.at;
        if port.required {
            self.no_label(&mut port.assigned)?;
        } else {
            self.label(port.domain, &mut port.assigned)?;
            if !port.assigned_in_range() {
                return Err(Refusal::Place(assigned_at));
            }
        }
        port.strict = false;
        if version.later_fields {
            self.later_fields(port)?;
            if version.strict {
                port.strict = self.flag()?;
            }
            return Ok(());
        }
        port.basic = Basic::OFF;
        port.spellings = Port::PLAIN.spellings;
        port.unlabelled = false;
        port.default = Label::ALL_ZERO;
        Ok(())
    }

    fn later_fields(&mut self, port: &mut Port) -> Result<(), Refusal> {
        port.basic.on = self.flag()?;
        self.way(port.basic.on, &mut port.basic.receiving)?;
        self.way(port.basic.on, &mut port.basic.sending)?;
        [port.spellings] = self.field()?;
        if port.spellings == 0 || port.spellings > ALL_SPELLINGS {
            return self.blame(1);
        }
        port.unlabelled = self.flag()?;
        let default_at = self.at;
        if !port.unlabelled {
            return self.no_label(&mut port.default);
        }
        self.label(port.domain, &mut port.default)?;
        if !port.default_in_range() {
            return Err(Refusal::Place(default_at));
        }
        Ok(())
    }

    fn way(&mut self, on: bool, way: &mut Way) -> Result<(), Refusal> {
        if !on {
            self.count(0)?;
            self.count(0)?;
            self.long_count(0)?;
            *way = Way::ALL_ZERO;
            return Ok(());
        }
        [way.lowest] = self.field()?;
        if rank(way.lowest) == NO_RANK {
            return self.blame(1);
        }
        [way.highest] = self.field()?;
        if rank(way.highest) == NO_RANK || rank(way.highest) < rank(way.lowest) {
            return self.blame(1);
        }
        way.count = self.long_count(MAX_FLAG_FIELDS)?;
        let count = way.count as usize;
        read_numbers(self.numbers(count)?, &mut way.fields[..count]);
        way.fields[count..].fill(0);
        Ok(())
    }

    /// So many numbers of two octets; where there are fewer the first that is cut off is blamed.
    fn numbers(&mut self, count: usize) -> Result<&[u8], Refusal> {
        let left = &self.octets[self.at..];
        match left.get(..2 * count) {
            Some(octets) => {
                self.at += 2 * count;
                Ok(octets)
            }
            None => Err(Refusal::Place(self.at + left.len() / 2 * 2)),
        }
    }

    /// The rows are looked at in a working list.
    fn table(&mut self, version: &Version, table: &mut Table, work: &mut [u16; 3 * MAX_ROWS]) -> Result<(), Refusal> {
        table.from = self.domain(|domain| domain != 0)?;
        table.to = self.domain(|domain| domain != 0)?;
        table.level_count = self.long_count(version.max_pairs)?;
        let (levels, unused) = table.levels.split_at_mut(table.level_count as usize);
        let mut least = [0, 0];
        for pair in levels {
            for side in 0..2 {
                let [level] = self.field()?;
                if (level as u32) < least[side] {
                    return self.blame(1);
                }
                pair[side] = level;
                least[side] = level as u32 + 1;
            }
        }
        unused.fill([0, 0]);
        table.row_count = self.long_count(version.max_rows)?;
        let count = table.row_count as usize;
        let octets = match self.octets.get(self.at..self.at + 6 * count) {
            Some(octets) => octets,
            None => return self.bad_row(count),
        };
        let numbers = &mut work[..3 * count];
        read_numbers(octets, numbers);
        if !rows_apart(numbers.as_chunks().0) {
            return self.bad_row(count);
        }
        self.at += 6 * count;
        Ok(())
    }

    fn long_count(&mut self, limit: usize) -> Result<u16, Refusal> {
        let count = self.two()?;
        if count as usize > limit {
            return self.blame(2);
        }
        Ok(count)
    }

    /// The first bad field of rows of which one is bad.
    #[cold]
    fn bad_row(&mut self, count: usize) -> Result<(), Refusal> {
        let rows_at = self.at;
        let (mut rows, mut read) = ([[0; 3]; MAX_ROWS], 0);
        let outcome = self.rows(&mut rows[..count], &mut read);
        // A target that meets one before it comes before every field behind it.
        match first_meeting(&rows[..read]) {
            Some(row) => Err(Refusal::Place(rows_at + 6 * row + 4)),
            None => outcome,
        }
    }

    /// All rules of rows but the one that their targets do not meet.
    fn rows(&mut self, rows: &mut [Row], read: &mut usize) -> Result<(), Refusal> {
        let mut least = 0;
        for row in rows {
            let low = self.two()?;
            if (low as u32) < least {
                return self.blame(2);
            }
            let high = self.two()?;
            if high < low || high == NO_CATEGORY {
                return self.blame(2);
            }
            let target = self.two()?;
            if target as u32 + (high - low) as u32 >= NO_CATEGORY as u32 {
                return self.blame(2);
            }
            *row = [low, high, target];
            *read += 1;
            least = high as u32 + 1;
        }
        Ok(())
    }
}

fn read_numbers(octets: &[u8], numbers: &mut [u16]) {
    for (number, octets) in numbers.iter_mut().zip(octets.as_chunks::<2>().0) {
        *number = u16::from_be_bytes(*octets);
    }
}

/// The first row whose target meets that of a row before it, found by halves. The rows keep all other rules.
fn first_meeting(rows: &[Row]) -> Option<usize> {
    if rows_apart(rows) {
        return None;
    }
    let (mut apart, mut meeting) = (0, rows.len());
    while apart + 1 < meeting {
        let middle = (apart + meeting) / 2;
        if rows_apart(&rows[..middle]) {
            apart = middle;
        } else {
            meeting = middle;
        }
    }
    Some(apart)
}

/// Reads a file into a set, and its rows into lent room; gives how many numbers of it are used. After a refusal the room is as it was, and
/// the set says nothing.
pub fn read_file(octets: &[u8], set: &mut Set, room: &mut [u16]) -> Result<usize, Refusal> {
    let mut reader = Reader { octets, at: 0 };
    if reader.two()? as usize != octets.len() {
        return Err(Refusal::Place(0));
    }
    let [version] = reader.field()?;
    let version = match version {
        1 => &FIRST,
        2 => &SECOND,
        3 => &THIRD,
        _ => return Err(Refusal::Version(version)),
    };
    if octets.len() > version.max_file {
        return Err(Refusal::Place(0));
    }
    set.port_count = reader.count(MAX_PORTS)?;
    let (ports, unused) = set.ports.split_at_mut(set.port_count as usize);
    for port in ports {
        reader.port(version, port)?;
    }
    unused.fill(Port::ALL_ZERO);
    set.table_count = reader.count(MAX_TABLES)?;
    let (tables, unused) = set.tables.split_at_mut(set.table_count as usize);
    let mut work = [0; 3 * MAX_ROWS];
    let mut ends = [0; MAX_TABLES];
    for (table, end) in tables.iter_mut().zip(&mut ends) {
        reader.table(version, table, &mut work)?;
        *end = reader.at;
    }
    unused.fill(Table::ALL_ZERO);
    if reader.at < octets.len() {
        return Err(Refusal::Place(reader.at));
    }
    let used = tables.iter().map(|table| 3 * table.row_count as usize).sum();
    let mut room = room.get_mut(..used).ok_or(Refusal::Room)?;
    // All is good: the rows are read once more, into the room.
    for (table, end) in tables.iter().zip(ends) {
        let count = 3 * table.row_count as usize;
        let (own, rest) = room.split_at_mut(count);
        read_numbers(&octets[end - 2 * count..end], own);
        room = rest;
    }
    Ok(used)
}

struct Writer<'a> {
    octets: &'a mut [u8],
    at: usize,
}

impl Writer<'_> {
    #[inline]
    fn field<const N: usize>(&mut self, field: [u8; N]) {
        self.octets[self.at..self.at + N].copy_from_slice(&field);
        self.at += N;
    }

    fn label(&mut self, label: &Label) {
        self.field(label.domain.to_be_bytes());
        self.field([label.level, label.count]);
        let end = self.at + 4 * label.count as usize;
        for (octets, run) in self.octets[self.at..end].chunks_exact_mut(4).zip(&label.runs) {
            octets[..2].copy_from_slice(&run.low.to_be_bytes());
            octets[2..].copy_from_slice(&run.high.to_be_bytes());
        }
        self.at = end;
    }

    fn numbers(&mut self, numbers: &[u16]) {
        let end = self.at + 2 * numbers.len();
        for (octets, number) in self.octets[self.at..end].as_chunks_mut::<2>().0.iter_mut().zip(numbers) {
            *octets = number.to_be_bytes();
        }
        self.at = end;
    }

    fn way(&mut self, way: &Way) {
        self.field([way.lowest, way.highest]);
        self.field(way.count.to_be_bytes());
        self.numbers(&way.fields[..way.count as usize]);
    }

    fn port(&mut self, port: &Port) {
        self.field(port.domain.to_be_bytes());
        self.label(&port.lowest);
        self.label(&port.highest);
        self.field([port.required as u8]);
        self.label(&port.assigned);
        self.field([port.basic.on as u8]);
        self.way(&port.basic.receiving);
        self.way(&port.basic.sending);
        self.field([port.spellings, port.unlabelled as u8]);
        self.label(&port.default);
        self.field([port.strict as u8]);
    }

    fn table(&mut self, table: &Table, rows: &[u16]) {
        self.field(table.from.to_be_bytes());
        self.field(table.to.to_be_bytes());
        self.field(table.level_count.to_be_bytes());
        let levels = table.levels[..table.level_count as usize].as_flattened();
        self.octets[self.at..self.at + levels.len()].copy_from_slice(levels);
        self.at += levels.len();
        self.field(table.row_count.to_be_bytes());
        self.numbers(rows);
    }
}

/// Stands for a refusal by name.
pub const NAMED: u8 = u8::MAX;

/// Writes the file of a set, whose rows are lent one behind the other: its length, or 2, `NAMED` or 1.
pub fn write_file(set: &Set, rows: &[u16], output: &mut [u8]) -> Result<usize, u8> {
    if !set.sound(rows) {
        return Err(2);
    }
    let length = set.length();
    if length > SECOND.max_file {
        return Err(NAMED);
    }
    let octets = output.get_mut(..length).ok_or(1)?;
    let mut writer = Writer { octets, at: 0 };
    writer.field((length as u16).to_be_bytes());
    writer.field([WRITTEN, set.port_count]);
    for port in &set.ports[..set.port_count as usize] {
        writer.port(port);
    }
    writer.field([set.table_count]);
    let mut left = rows;
    for table in &set.tables[..set.table_count as usize] {
        let (own, rest) = left.split_at(3 * table.row_count as usize);
        writer.table(table, own);
        left = rest;
    }
    Ok(length)
}
