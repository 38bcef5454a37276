// Port, host and renumbering table: the records as they come, and what they say where they are sound.
//
// Document 01, "Records".

use crate::basic::{self, Basic, BasicRecord, Marking};
use crate::categories::Categories;
use crate::label::{HeldLabel, Label, HIGHEST_CATEGORY};
use crate::option::{ALL_SPELLINGS, PLAIN_SPELLINGS};

/// Document 02, wish 8: "Raise the table to 1,024 rows, lent by the caller (not as many as counted: 2), and level pairs to 256."
pub const MAX_LEVEL_PAIRS: usize = 256;
pub const MAX_ROWS: usize = 1024;
/// Document 01: "up to 16 level pairs", "up to 64 rows (low, high, target low)".
pub const FIRST_LEVEL_PAIRS: usize = 16;
pub const FIRST_ROWS: usize = 64;

/// "Port: domain, lowest and highest label, whether a label is required, an assigned label." Then the fields of document 02.
#[derive(Clone, PartialEq, Eq)]
pub struct PortRecord {
    pub domain: u32,
    pub lowest: HeldLabel,
    pub highest: HeldLabel,
    pub required: bool,
    pub assigned: HeldLabel,
    /// Wish 3.
    pub basic: BasicRecord,
    /// Wish 5: "the set of permitted spellings", a sum.
    pub spellings: u8,
    /// Wish 6: "A leaving port may face unlabelled hosts with one default label."
    pub unlabelled: bool,
    pub default: HeldLabel,
    /// Wish 10: "A port may be marked strict".
    pub strict: bool,
}

/// What a sound port record says. `assigned` is none where a label is required, `basic` where option 130 is switched off, `default` where
/// the port faces labelled hosts.
pub struct Port {
    pub domain: u32,
    pub lowest: Label,
    pub highest: Label,
    pub assigned: Option<Label>,
    pub basic: Option<Basic>,
    pub spellings: u8,
    pub default: Option<Label>,
    pub strict: bool,
}

impl PortRecord {
    pub const ALL_ZERO: PortRecord = PortRecord {
        domain: 0,
        lowest: HeldLabel::ALL_ZERO,
        highest: HeldLabel::ALL_ZERO,
        required: false,
        assigned: HeldLabel::ALL_ZERO,
        basic: BasicRecord::OFF,
        spellings: 0,
        unlabelled: false,
        default: HeldLabel::ALL_ZERO,
        strict: false,
    };

    /// The later fields "as 01 had them".
    pub const PLAIN: PortRecord = PortRecord { spellings: PLAIN_SPELLINGS, ..PortRecord::ALL_ZERO };

    /// "Sound: nonzero domain, all labels used are well formed and of that domain, lowest ≤ highest. If a label isn't required, the
    /// assigned label is in range; if it is required, the assigned label is all zero." Wish 3: "Sound then also asks" for the fields of
    /// option 130.
    pub fn sound(&self) -> Option<Port> {
        if self.domain == 0 {
            return None;
        }
        let lowest = label_of_domain(&self.lowest, self.domain)?;
        let highest = label_of_domain(&self.highest, self.domain)?;
        if !lowest.within(&highest) {
            return None;
        }
        let assigned = if self.required {
            if self.assigned != HeldLabel::ALL_ZERO {
                return None;
            }
            None
        } else {
            let assigned = label_of_domain(&self.assigned, self.domain)?;
            if !assigned.in_range(&lowest, &highest) {
                return None;
            }
            Some(assigned)
        };
        let basic = self.basic.sound()?;
        // Wish 5: "An empty set makes the record unsound (2)."
        if self.spellings == 0 || self.spellings > ALL_SPELLINGS {
            return None;
        }
        // Wish 6: "The default label must lie in the port's range, and on other ports be all zero, else 2."
        let default = if self.unlabelled {
            let default = label_of_domain(&self.default, self.domain)?;
            if !default.in_range(&lowest, &highest) {
                return None;
            }
            Some(default)
        } else {
            if self.default != HeldLabel::ALL_ZERO {
                return None;
            }
            None
        };
        Some(Port { domain: self.domain, lowest, highest, assigned, basic, spellings: self.spellings, default, strict: self.strict })
    }
}

impl Port {
    pub fn in_range(&self, label: &Label) -> bool {
        label.in_range(&self.lowest, &self.highest)
    }

    /// 21 at the arriving port does not apply.
    pub fn receives(&self, marking: Option<&Marking>) -> bool {
        basic::passes(self.basic.as_ref().map(|basic| &basic.receiving), marking)
    }

    /// 21 at the leaving port does not apply.
    pub fn sends(&self, marking: Option<&Marking>) -> bool {
        basic::passes(self.basic.as_ref().map(|basic| &basic.sending), marking)
    }
}

fn label_of_domain(held: &HeldLabel, domain: u32) -> Option<Label> {
    held.label().filter(|label| label.domain == domain)
}

/// The host's lowest and highest label.
#[derive(Clone, PartialEq, Eq)]
pub struct HostRecord {
    pub lowest: HeldLabel,
    pub highest: HeldLabel,
}

pub struct Host {
    pub lowest: Label,
    pub highest: Label,
}

impl HostRecord {
    /// "Host: lowest ≤ highest, both well formed, in the port's domain. House: the draft's rule that the port range lies inside the
    /// host range isn't tested, so 15 can occur."
    pub fn sound(&self, port_domain: u32) -> Option<Host> {
        let lowest = label_of_domain(&self.lowest, port_domain)?;
        let highest = label_of_domain(&self.highest, port_domain)?;
        if !lowest.within(&highest) {
            return None;
        }
        Some(Host { lowest, highest })
    }
}

impl Host {
    pub fn in_range(&self, label: &Label) -> bool {
        label.in_range(&self.lowest, &self.highest)
    }
}

/// One row of a table: "Category c of a row goes to target low + c − low."
#[derive(Clone, Copy, PartialEq, Eq)]
pub struct Row {
    pub low: u16,
    pub high: u16,
    pub target_low: u16,
}

impl Row {
    pub const ZERO: Row = Row { low: 0, high: 0, target_low: 0 };

    /// Wider than a category, since the record of an unsound table may hold any numbers. Asked only where low ≤ high.
    pub fn target_high(&self) -> u32 {
        self.target_low as u32 + (self.high - self.low) as u32
    }
}

/// "Renumbering table: from and to domain [...]; [...] level pairs, held as an array of two-number arrays [...]; [...] rows". The rows are
/// those that the caller lends.
#[derive(Clone, PartialEq, Eq)]
pub struct TableRecord {
    pub from: u32,
    pub to: u32,
    pub level_count: u16,
    pub levels: [[u8; 2]; MAX_LEVEL_PAIRS],
    pub row_count: u16,
    pub rows: Vec<Row>,
}

/// What a sound table says.
pub struct Table {
    pub from: u32,
    pub to: u32,
    levels: Vec<[u8; 2]>,
    rows: Vec<Row>,
}

impl TableRecord {
    pub const ALL_ZERO: TableRecord =
        TableRecord { from: 0, to: 0, level_count: 0, levels: [[0, 0]; MAX_LEVEL_PAIRS], row_count: 0, rows: Vec::new() };

    /// The places up to the last one that is not zero.
    pub fn pairs_needed(&self) -> usize {
        self.levels.iter().rposition(|pair| *pair != [0, 0]).map_or(0, |last| last + 1)
    }

    pub fn rows_needed(&self) -> usize {
        self.rows.iter().rposition(|row| *row != Row::ZERO).map_or(0, |last| last + 1)
    }

    /// "from and to domain, neither 0; [...] Counts keep to their limits, unused places are 0"; rows "lent by the caller (not as many as
    /// counted: 2)".
    pub fn sound(&self) -> Option<Table> {
        let (level_count, row_count) = (self.level_count as usize, self.row_count as usize);
        if self.from == 0 || self.to == 0 || level_count > MAX_LEVEL_PAIRS || row_count > MAX_ROWS {
            return None;
        }
        let (levels, unused_levels) = self.levels.split_at(level_count);
        let unused_zero = unused_levels.iter().all(|pair| *pair == [0, 0]);
        let lent_as_counted = self.rows.len() == row_count;
        if !unused_zero || !lent_as_counted || !levels_sound(levels) || !rows_sound(&self.rows) {
            return None;
        }
        Some(Table { from: self.from, to: self.to, levels: levels.to_vec(), rows: self.rows.clone() })
    }
}

/// "strictly rising on both sides"
fn levels_sound(levels: &[[u8; 2]]) -> bool {
    levels.windows(2).all(|two| two[0][0] < two[1][0] && two[0][1] < two[1][1])
}

/// "each row has low ≤ high, sources are ascending and disjoint, targets are disjoint, all ends ≤ 65534"
fn rows_sound(rows: &[Row]) -> bool {
    let highest = HIGHEST_CATEGORY as u32;
    let ends = rows.iter().all(|row| row.low <= row.high && row.high as u32 <= highest && row.target_high() <= highest);
    let sources = rows.windows(2).all(|two| two[0].high < two[1].low);
    ends && sources && targets_disjoint(rows)
}

/// Every two rows are held against each other.
fn targets_disjoint(rows: &[Row]) -> bool {
    rows.iter().enumerate().all(|(index, row)| {
        rows[index + 1..].iter().all(|other| row.target_high() < other.target_low as u32 || other.target_high() < row.target_low as u32)
    })
}

impl Table {
    fn level(&self, level: u8) -> Option<u8> {
        self.levels.iter().find(|pair| pair[0] == level).map(|pair| pair[1])
    }

    /// "Category c of a row goes to target low + c − low."
    fn category(&self, category: u16) -> Option<u16> {
        let row = self.rows.iter().find(|row| row.low <= category && category <= row.high)?;
        Some(row.target_low + (category - row.low))
    }

    /// The label with the far domain's numbers; none where "a level or category has no number". The domains are the caller's check.
    pub fn renumber(&self, label: &Label) -> Option<Label> {
        let level = self.level(label.level)?;
        let mut categories = Categories::none();
        for category in label.categories.iter() {
            categories.insert(self.category(category)?);
        }
        Some(Label { domain: self.to, level, categories })
    }
}

/// Document 02, wish 11: "the reverse table, each row turned round: [...] an unsound table is 2, then short lent room 24". The rows are in
/// the order of their new sources. The error is the number.
pub fn reverse(record: &TableRecord, room: usize) -> Result<TableRecord, u8> {
    let table = record.sound().ok_or(2)?;
    if room < table.rows.len() {
        return Err(24);
    }
    let turned = |row: &Row| Row { low: row.target_low, high: row.target_high() as u16, target_low: row.low };
    let mut rows: Vec<Row> = table.rows.iter().map(turned).collect();
    rows.sort_by_key(|row| row.low);
    let mut reversed = TableRecord { from: table.to, to: table.from, ..TableRecord::ALL_ZERO };
    (reversed.level_count, reversed.row_count) = (record.level_count, record.row_count);
    for (place, [source, target]) in table.levels.iter().enumerate() {
        reversed.levels[place] = [*target, *source];
    }
    reversed.rows = rows;
    Ok(reversed)
}

/// "Renumbering gives 2 (for an unsound table too), then 16 (also for a foreign domain), then 18 over 120 runs. [...] These refusals
/// come with an all-zero label".
pub fn renumber_alone(held: &HeldLabel, table: &TableRecord) -> (u8, HeldLabel) {
    let (label, table) = match (held.label(), table.sound()) {
        (Some(label), Some(table)) => (label, table),
        _ => return (2, HeldLabel::ALL_ZERO),
    };
    if label.domain != table.from {
        return (16, HeldLabel::ALL_ZERO);
    }
    match table.renumber(&label) {
        None => (16, HeldLabel::ALL_ZERO),
        Some(renumbered) => match renumbered.held() {
            None => (18, HeldLabel::ALL_ZERO),
            Some(held) => (0, held),
        },
    }
}
