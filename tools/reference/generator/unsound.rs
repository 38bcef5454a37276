// Ill-formed labels and unsound records: each clause broken alone.
//
// A clause is chosen by its number, so that all of them can be gone through in turn.

use crate::label::{HeldLabel, Run, HIGHEST_CATEGORY, MAX_RUNS};
use crate::records::{HostRecord, PortRecord, Row, TableRecord, FIRST_LEVEL_PAIRS, FIRST_ROWS};

use super::random::Random;
use super::ranges::*;
use super::sets::*;

/// Ways in which a label is ill-formed.
pub const ILL_FORMED: usize = 15;

/// Breaks one clause of a well-formed label. Clauses about neighbours need two runs; a label without them gets others first.
pub fn ill_form(random: &mut Random, label: &mut HeldLabel, clause: usize) {
    if label.count < 2 || label.count as usize >= MAX_RUNS {
        let low = random.between(0, 200) as u16;
        *label = held(label.domain.max(1), label.level, &[Run { low, high: low + 2 }, Run { low: low + 5, high: low + 9 }]);
    }
    let count = label.count as usize;
    let second = random.between(1, count - 1);
    match clause % ILL_FORMED {
        0 => label.domain = 0,
        1 => label.count = random.pick(&[121, 122, 128, 255]),
        // Low over high, in a run that keeps to its neighbours otherwise.
        2 => {
            let last = &mut label.places[count - 1];
            last.low = last.high.saturating_add(1);
        }
        3 => label.places[count - 1].high = 65_535,
        4 => label.places[count - 1] = Run { low: 65_535, high: 65_535 },
        5 => label.places.swap(second - 1, second),
        // Touching: the set stays what it was, or grows by the gap.
        6 => label.places[second].low = label.places[second - 1].high + 1,
        7 => label.places[second].low = label.places[second - 1].high,
        8 => label.places[second] = label.places[second - 1],
        // Places that are not used hold something.
        9 => label.places[count].low = random.between(1, 65_535) as u16,
        10 => label.places[count].high = random.between(1, 65_535) as u16,
        11 => label.places[MAX_RUNS - 1].high = 1,
        12 => label.count -= 1,
        // A place that holds zeros is counted.
        13 => label.count += 1,
        _ => label.count = 0,
    }
}

/// Clauses of a port record.
pub const PORT_CLAUSES: usize = 3 * ILL_FORMED + 18;

/// Breaks one clause of a sound port.
pub fn break_port(random: &mut Random, port: &mut PortRecord, clause: usize) {
    let clause = clause % PORT_CLAUSES;
    let part = clause / ILL_FORMED;
    if part < 3 {
        let way = clause % ILL_FORMED;
        match part {
            0 => ill_form(random, &mut port.lowest, way),
            1 => ill_form(random, &mut port.highest, way),
            _ => {
                not_required(port);
                ill_form(random, &mut port.assigned, way);
            }
        }
        return;
    }
    let foreign = other_domain(random, port.domain);
    match clause - 3 * ILL_FORMED {
        0 => port.domain = 0,
        // "all labels used are well formed and of that domain"
        1 => port.domain = foreign,
        2 => port.lowest.domain = foreign,
        3 => port.highest.domain = foreign,
        4 => {
            not_required(port);
            port.assigned.domain = foreign;
        }
        // "lowest ≤ highest"; an assigned label could not be in such a range.
        5 => {
            required_with(port, |_| {});
            port.highest.level = port.highest.level.min(254);
            port.lowest.level = port.highest.level + 1;
        }
        6 => {
            required_with(port, |_| {});
            lack_category(random, &mut port.highest, &port.lowest);
        }
        // "If a label isn't required, the assigned label is in range"
        7 => {
            not_required(port);
            port.lowest.level = port.lowest.level.max(1);
            port.highest.level = port.highest.level.max(1);
            port.assigned.level = port.lowest.level - 1;
        }
        8 => {
            not_required(port);
            port.highest.level = port.highest.level.min(254);
            port.lowest.level = port.lowest.level.min(254);
            port.assigned.level = port.highest.level + 1;
        }
        9 => {
            not_required(port);
            add_category(random, &mut port.assigned, &port.highest);
        }
        10 => {
            not_required(port);
            let lowest = port.lowest.clone();
            lack_category(random, &mut port.assigned, &lowest);
        }
        11 => {
            port.required = false;
            port.assigned = HeldLabel::ALL_ZERO;
        }
        // "if it is required, the assigned label is all zero"
        12 => required_with(port, |assigned| assigned.domain = 1),
        13 => required_with(port, |assigned| assigned.level = 1),
        14 => required_with(port, |assigned| assigned.count = 1),
        15 => required_with(port, |assigned| assigned.places[0].high = 1),
        16 => required_with(port, |assigned| assigned.places[MAX_RUNS - 1].low = 1),
        _ => {
            port.required = true;
            port.assigned = port.lowest.clone();
        }
    }
}

/// Clauses of a port's default label.
pub const DEFAULT_CLAUSES: usize = ILL_FORMED + 12;

/// Breaks one clause of a sound port's default label.
pub fn break_default(random: &mut Random, port: &mut PortRecord, clause: usize) {
    let clause = clause % DEFAULT_CLAUSES;
    port.unlabelled = clause < ILL_FORMED + 6;
    port.default = if port.unlabelled { port.lowest.clone() } else { HeldLabel::ALL_ZERO };
    if clause < ILL_FORMED {
        return ill_form(random, &mut port.default, clause);
    }
    match clause - ILL_FORMED {
        0 => port.default.domain = other_domain(random, port.domain),
        1 => port.default = HeldLabel::ALL_ZERO,
        // "The default label must lie in the port's range"
        2 => {
            required_with(port, |_| {});
            port.highest.level = port.highest.level.max(1);
            port.lowest.level = port.lowest.level.max(1);
            port.default.level = port.lowest.level - 1;
        }
        3 => {
            required_with(port, |_| {});
            port.highest.level = port.highest.level.min(254);
            port.lowest.level = port.lowest.level.min(254);
            port.default.level = port.highest.level + 1;
        }
        4 => add_category(random, &mut port.default, &port.highest),
        5 => {
            let lowest = port.lowest.clone();
            lack_category(random, &mut port.default, &lowest);
        }
        // "and on other ports be all zero"
        6 => port.default = port.lowest.clone(),
        7 => port.default.domain = port.domain,
        8 => port.default.level = 1,
        9 => port.default.count = 1,
        10 => port.default.places[0].high = 1,
        _ => port.default.places[MAX_RUNS - 1].low = 1,
    }
}

pub fn not_required(port: &mut PortRecord) {
    if port.required {
        port.required = false;
        port.assigned = port.lowest.clone();
    }
}

pub fn required_with(port: &mut PortRecord, change: impl Fn(&mut HeldLabel)) {
    port.required = true;
    port.assigned = HeldLabel::ALL_ZERO;
    change(&mut port.assigned);
}

/// Clauses of a host record.
pub const HOST_CLAUSES: usize = 2 * ILL_FORMED + 5;

/// Breaks one clause of a sound host.
pub fn break_host(random: &mut Random, host: &mut HostRecord, clause: usize) {
    let clause = clause % HOST_CLAUSES;
    let way = clause % ILL_FORMED;
    match clause / ILL_FORMED {
        0 => return ill_form(random, &mut host.lowest, way),
        1 => return ill_form(random, &mut host.highest, way),
        _ => {}
    }
    let foreign = other_domain(random, host.lowest.domain);
    match clause - 2 * ILL_FORMED {
        0 => host.lowest.domain = foreign,
        1 => host.highest.domain = foreign,
        2 => {
            host.lowest.domain = foreign;
            host.highest.domain = foreign;
        }
        3 => {
            host.highest.level = host.highest.level.min(254);
            host.lowest.level = host.highest.level + 1;
        }
        _ => lack_category(random, &mut host.highest, &host.lowest),
    }
}

/// Clauses of a table.
pub const TABLE_CLAUSES: usize = 30;

/// Breaks one clause of a sound table. A table without two level pairs and two rows gets others first.
pub fn break_table(random: &mut Random, table: &mut TableRecord, clause: usize) {
    if table.level_count < 2 || table.level_count as usize >= FIRST_LEVEL_PAIRS {
        table.level_count = 2;
        table.levels = TableRecord::ALL_ZERO.levels;
        table.levels[..2].copy_from_slice(&[[3, 4], [200, 201]]);
    }
    if table.row_count < 2 || table.row_count as usize >= FIRST_ROWS {
        table.row_count = 2;
        table.rows = vec![Row { low: 0, high: 99, target_low: 1000 }, Row { low: 100, high: 300, target_low: 0 }];
    }
    let (level_count, row_count) = (table.level_count as usize, table.row_count as usize);
    let pair = random.between(1, level_count - 1);
    let row = random.between(1, row_count - 1);
    let last = row_count - 1;
    match clause % TABLE_CLAUSES {
        // "from and to domain, neither 0"
        0 => table.from = 0,
        1 => table.to = 0,
        // "strictly rising on both sides"
        2 => table.levels[pair][0] = table.levels[pair - 1][0],
        3 => table.levels[pair][1] = table.levels[pair - 1][1],
        4 => {
            let before = table.levels[pair - 1][0];
            table.levels[pair - 1][0] = table.levels[pair][0];
            table.levels[pair][0] = before;
        }
        5 => {
            let before = table.levels[pair - 1][1];
            table.levels[pair - 1][1] = table.levels[pair][1];
            table.levels[pair][1] = before;
        }
        6 => table.levels.swap(pair - 1, pair),
        // "Counts keep to their limits"
        7 => table.level_count = random.pick(&[17, 18, 32, 255]),
        8 => table.row_count = random.pick(&[65, 66, 128, 256, 257, 65_535]),
        // "unused places are 0"
        9 => table.levels[level_count][0] = 1,
        10 => table.levels[level_count][1] = 1,
        11 => table.levels[FIRST_LEVEL_PAIRS - 1][1] = 255,
        12 => table.level_count -= 1,
        // "not as many as counted: 2"
        13 => table.rows.push(Row { low: 1, ..Row::ZERO }),
        14 => table.rows.push(Row { high: 1, ..Row::ZERO }),
        15 => table.rows.push(Row { target_low: 1, ..Row::ZERO }),
        16 => {
            table.rows.resize(FIRST_ROWS - 1, Row::ZERO);
            table.rows.push(Row { target_low: 65_535, ..Row::ZERO });
        }
        17 => table.row_count -= 1,
        // A place that holds zeros is counted.
        18 => table.level_count += 1,
        19 => table.row_count += 1,
        // "each row has low ≤ high"
        20 => {
            table.rows[last].low = table.rows[last].high.saturating_add(1);
        }
        // "sources are ascending and disjoint"
        21 => {
            let width = table.rows[row].high - table.rows[row].low;
            table.rows[row].low = table.rows[row - 1].high;
            table.rows[row].high = table.rows[row].low + width;
        }
        22 => table.rows.swap(row - 1, row),
        // "targets are disjoint"
        23 => table.rows[row].target_low = table.rows[row - 1].target_low,
        24 => {
            let before = table.rows[row - 1];
            table.rows[row].target_low = before.target_low + (before.high - before.low);
        }
        // Rows that are not neighbours: a third one goes where the first goes.
        25 => {
            table.row_count = 3;
            table.rows.truncate(2);
            let low = table.rows[1].high.saturating_add(2).min(HIGHEST_CATEGORY);
            table.rows.push(Row { low, high: low, target_low: table.rows[0].target_low });
        }
        // "all ends ≤ 65534"
        26 => {
            let width = table.rows[last].high - table.rows[last].low;
            table.rows[last].low = 65_535 - width;
            table.rows[last].high = 65_535;
        }
        27 => {
            table.rows[last].low = 65_535;
            table.rows[last].high = 65_535;
        }
        28 => {
            let width = table.rows[last].high - table.rows[last].low;
            table.rows[last].target_low = 65_535 - width;
        }
        // The target's end does not fit 16 bits, where the row is wide enough.
        _ => {
            let width = table.rows[last].high - table.rows[last].low;
            table.rows[last].target_low = 65_535 - width.saturating_sub(1 + random.below(5) as u16);
        }
    }
}
