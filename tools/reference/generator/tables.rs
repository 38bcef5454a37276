// Renumbering tables that have a number for every part of a label, and some that lack one.

use crate::label::{HeldLabel, Run, BITMAP_CATEGORIES, HIGHEST_CATEGORY};
use crate::records::{Row, TableRecord, FIRST_LEVEL_PAIRS, FIRST_ROWS, MAX_LEVEL_PAIRS};

use super::random::Random;
use super::sets::*;

/// Where the targets of a table begin.
#[derive(Clone, Copy, PartialEq, Eq)]
pub enum Targets {
    Anywhere,
    /// From 0 on, close together: the renumbered set often fits a bitmap.
    Small,
    /// Over 239.
    High,
    /// As `Anywhere`, but never touching.
    Parted,
}

/// A sound table that has a number for every part of the label.
pub fn table_for(random: &mut Random, label: &HeldLabel, to: u32, rich: bool, targets: Targets) -> TableRecord {
    if !rich && random.chance(1, 60) {
        return full_table_for(random, label, to, targets);
    }
    let levels = random_levels(random, label.level, rich);
    let sources =
        if runs_of(label).is_empty() && !rich && random.chance(1, 2) { Vec::new() } else { sources_over(random, runs_of(label), rich) };
    let rows = rows_with_targets(random, &sources, targets);
    table_of(label.domain, to, &levels, &rows)
}

/// As `table_for`, with 64 rows.
pub fn full_table_for(random: &mut Random, label: &HeldLabel, to: u32, targets: Targets) -> TableRecord {
    let levels = random_levels(random, label.level, false);
    let rows = rows_with_targets(random, &all_sources(runs_of(label), FIRST_ROWS), targets);
    table_of(label.domain, to, &levels, &rows)
}

/// In which order the targets of a long table stand.
#[derive(Clone, Copy, PartialEq, Eq)]
pub enum Order {
    Ascending,
    Reversed,
    Scattered,
}

/// A sound table with that many level pairs and rows that has a number for every part of the label. The targets do not touch where there is
/// room for that.
pub fn long_table_for(random: &mut Random, label: &HeldLabel, to: u32, pairs: usize, rows: usize, order: Order) -> TableRecord {
    let sources = long_sources(random, runs_of(label), rows);
    let mut places: Vec<usize> = (0..sources.len()).collect();
    match order {
        Order::Ascending => {}
        Order::Reversed => places.reverse(),
        Order::Scattered => random.shuffle(&mut places),
    }
    let taken: usize = sources.iter().map(|run| (run.high - run.low) as usize + 1).sum();
    let free = HIGHEST_CATEGORY as usize + 1 - taken;
    let gap = random.pick(&[0, 1, 2]).min(free / (sources.len() + 1));
    let most = free - gap * sources.len();
    let mut next = if random.chance(1, 4) { most } else { random.below(most + 1).min(300) };
    let mut made: Vec<Row> = sources.iter().map(|run| Row { low: run.low, high: run.high, target_low: 0 }).collect();
    for place in places {
        made[place].target_low = next as u16;
        next += (made[place].high - made[place].low) as usize + 1 + gap;
    }
    let levels = long_levels(random, label.level, pairs);
    table_of(label.domain, to, &levels, &made)
}

/// That many level pairs, with one for the given level if there are any.
pub fn long_levels(random: &mut Random, level: u8, count: usize) -> Vec<[u8; 2]> {
    let all = |random: &mut Random, wanted: Option<u8>| -> Vec<u8> {
        if count < MAX_LEVEL_PAIRS / 2 {
            return ascending_octets(random, count, wanted.filter(|_| count > 0));
        }
        // Of many, it is chosen which are left out.
        let mut left: Vec<u8> = (0..=255).filter(|octet| Some(*octet) != wanted).collect();
        random.shuffle(&mut left);
        left.truncate(MAX_LEVEL_PAIRS - count);
        (0..=255).filter(|octet| !left.contains(octet)).collect()
    };
    let (sources, targets) = (all(random, Some(level)), all(random, None));
    sources.into_iter().zip(targets).map(|(source, target)| [source, target]).collect()
}

/// That many sources that cover the runs: the runs, cut and with others between them.
fn long_sources(random: &mut Random, runs: &[Run], count: usize) -> Vec<Run> {
    let mut sources = runs.to_vec();
    // Cut inside runs first, so that rows part the label; then fill the gaps from the front, and what is behind the last.
    let mut tries = 0;
    while sources.len() < count && tries < 4 * count && !runs.is_empty() {
        tries += 1;
        let index = random.below(sources.len());
        let run = sources[index];
        if run.low < run.high && random.chance(1, 2) {
            let cut = random.between(run.low as usize, run.high as usize - 1) as u16;
            sources[index].high = cut;
            sources.insert(index + 1, Run { low: cut + 1, high: run.high });
        }
    }
    let width = (40_000 / (count + 1)).clamp(1, 40);
    let mut next = 0;
    let mut index = 0;
    while sources.len() < count {
        let end = sources.get(index).map_or(HIGHEST_CATEGORY as usize + 1, |run| run.low as usize);
        let high = next + random.below(width);
        if high < end {
            sources.insert(index, Run { low: next as u16, high: high as u16 });
            next = high + 1;
            index += 1;
        } else if index < sources.len() {
            next = sources[index].high as usize + 1;
            index += 1;
        } else {
            // What is left has no room for more: the widest are cut.
            let widest = (0..sources.len()).max_by_key(|place| sources[*place].high - sources[*place].low).unwrap_or(0);
            let run = sources[widest];
            let cut = run.low + (run.high - run.low) / 2;
            sources[widest].high = cut;
            sources.insert(widest + 1, Run { low: cut + 1, high: run.high });
        }
    }
    sources
}

/// Writes the rows and level pairs into a table.
pub fn table_of(from: u32, to: u32, levels: &[[u8; 2]], rows: &[Row]) -> TableRecord {
    let (level_count, row_count) = (levels.len() as u16, rows.len() as u16);
    let mut table = TableRecord { from, to, level_count, row_count, ..TableRecord::ALL_ZERO };
    table.levels[..levels.len()].copy_from_slice(levels);
    table.rows = rows.to_vec();
    table
}

/// `count` different numbers, ascending, with `wanted` among them if given.
pub fn ascending_octets(random: &mut Random, count: usize, wanted: Option<u8>) -> Vec<u8> {
    let mut numbers: Vec<u8> = wanted.into_iter().collect();
    while numbers.len() < count {
        let number = if random.chance(1, 4) { random.pick(&[0, 1, 254, 255]) } else { random.octet() };
        if !numbers.contains(&number) {
            numbers.push(number);
        }
    }
    numbers.sort();
    numbers
}

/// Level pairs with one for the given level.
pub fn random_levels(random: &mut Random, level: u8, rich: bool) -> Vec<[u8; 2]> {
    let count = match random.below(20) {
        0 => FIRST_LEVEL_PAIRS,
        1..=8 if !rich => 1,
        _ => random.between(2, 4),
    };
    let sources = ascending_octets(random, count, Some(level));
    let targets = ascending_octets(random, count, None);
    sources.into_iter().zip(targets).map(|(source, target)| [source, target]).collect()
}

/// Sources that cover the runs, at most 64.
pub fn sources_over(random: &mut Random, runs: &[Run], rich: bool) -> Vec<Run> {
    let (first, last) = match (runs.first(), runs.last()) {
        (Some(first), Some(last)) => (first.low, last.high),
        _ => {
            let low = edge_category(random);
            (low, low.saturating_add(random.below(40) as u16).min(HIGHEST_CATEGORY))
        }
    };
    let each_run = runs.len() >= 1 && runs.len() <= 8 && random.chance(1, 3);
    if each_run && (!rich || runs.len() >= 2) {
        return runs.to_vec();
    }
    let slack = random.pick(&[0, 1, 50]);
    let low = first.saturating_sub(slack);
    let high = last.saturating_add(slack).min(HIGHEST_CATEGORY);
    let rows = if rich {
        random.between(2, 4)
    } else if random.chance(1, 2) {
        1
    } else {
        random.between(2, 6)
    };
    let mut cuts: Vec<u16> = Vec::new();
    for _ in 1..rows {
        // A cut at c parts c from c + 1. Cuts inside runs part the label.
        let cut = match runs.get(random.below(runs.len().max(1))) {
            Some(run) if random.chance(1, 2) => random.between(run.low as usize, run.high as usize) as u16,
            _ => random.between(low as usize, high as usize) as u16,
        };
        if cut < high {
            cuts.push(cut);
        }
    }
    cuts.sort();
    cuts.dedup();
    let mut sources = Vec::new();
    let mut next = low;
    for cut in cuts {
        sources.push(Run { low: next, high: cut });
        next = cut + 1;
    }
    sources.push(Run { low: next, high });
    sources
}

/// That many sources of one width, which cover the runs.
pub fn all_sources(runs: &[Run], count: usize) -> Vec<Run> {
    let highest = runs.last().map_or(0, |run| run.high as usize);
    let width = highest / count + 1;
    let last = HIGHEST_CATEGORY as usize;
    (0..count).map(|row| Run { low: (row * width) as u16, high: ((row + 1) * width - 1).min(last) as u16 }).collect()
}

/// Gives the sources disjoint targets.
pub fn rows_with_targets(random: &mut Random, sources: &[Run], targets: Targets) -> Vec<Row> {
    let mut order: Vec<usize> = (0..sources.len()).collect();
    if random.chance(1, 2) {
        random.shuffle(&mut order);
    }
    let base = match targets {
        Targets::Small => random.below(8),
        Targets::High => random.between(240, 3000),
        Targets::Anywhere | Targets::Parted => random.pick(&[0, 1, 100, 239, 240, 1000, 30_000]),
    };
    let least_gap = if targets == Targets::Parted { 1 } else { 0 };
    let widest_gap = if targets == Targets::Anywhere { random.pick(&[0, 1, 200]) } else { 2 };
    let mut rows: Vec<Row> = sources.iter().map(|run| Row { low: run.low, high: run.high, target_low: 0 }).collect();
    let mut next = base;
    for index in &order {
        next += random.between(least_gap, widest_gap.max(least_gap));
        let width = (rows[*index].high - rows[*index].low) as usize + 1;
        if next + width > HIGHEST_CATEGORY as usize + 1 {
            // Side by side from 0 on, disjoint sources always have room.
            next = 0;
            for index in &order {
                rows[*index].target_low = next as u16;
                next += (rows[*index].high - rows[*index].low) as usize + 1;
            }
            break;
        }
        rows[*index].target_low = next as u16;
        next += width;
    }
    rows
}

/// Takes the pair of a level out of the table.
pub fn lose_level(table: &mut TableRecord, level: u8) {
    let levels: Vec<[u8; 2]> = table.levels[..table.level_count as usize].iter().copied().filter(|pair| pair[0] != level).collect();
    *table = table_of(table.from, table.to, &levels, &table.rows);
}

/// Makes one row shorter, or takes it out.
pub fn lose_category(random: &mut Random, table: &mut TableRecord, label: &HeldLabel) {
    if table.row_count == 0 || label.count == 0 {
        return;
    }
    let mut rows = table.rows.clone();
    let index = random.below(rows.len());
    let run = random.pick(runs_of(label));
    let row = &mut rows[index];
    match random.below(3) {
        0 if row.low <= run.low && run.low < row.high => {
            // The run's first category falls out at the row's low end.
            row.target_low += run.low + 1 - row.low;
            row.low = run.low + 1;
        }
        1 if row.low < run.high && run.high <= row.high => row.high = run.high - 1,
        _ => {
            rows.remove(index);
        }
    }
    let levels = table.levels[..table.level_count as usize].to_vec();
    *table = table_of(table.from, table.to, &levels, &rows);
}

/// A label of a bitmap and a table that makes a set of over 120 runs of it: `parted` runs of two categories are parted by rows whose
/// targets do not touch, between as many single categories as the bitmap has room for.
pub fn over_large(random: &mut Random, domain: u32, far_domain: u32) -> (HeldLabel, TableRecord) {
    let parted = if random.chance(1, 2) { 1 } else { random.between(1, 8) };
    let alone = (BITMAP_CATEGORIES as usize + 1 - 3 * parted) / 2;
    let mut widths: Vec<u16> = vec![2; parted];
    widths.extend(vec![1; alone]);
    random.shuffle(&mut widths);
    let (mut runs, mut sources) = (Vec::new(), Vec::new());
    let (mut next, mut source_low) = (0, 0);
    for width in widths {
        runs.push(Run { low: next, high: next + width - 1 });
        if width == 2 {
            sources.push(Run { low: source_low, high: next });
            source_low = next + 1;
        }
        next += width + 1;
    }
    sources.push(Run { low: source_low, high: BITMAP_CATEGORIES - 1 });
    let label = held(domain, random_level(random), &runs);
    let levels = random_levels(random, label.level, false);
    let rows = rows_with_targets(random, &sources, Targets::Parted);
    let table = table_of(domain, far_domain, &levels, &rows);
    (label, table)
}

/// As `over_large`, with a label that no option means: up to 120 runs of up to 4 categories, parted by up to 64 rows.
pub fn over_large_held(random: &mut Random, domain: u32, far_domain: u32) -> (HeldLabel, TableRecord) {
    let label = random_label(random, domain, Shape::Many);
    let table = if random.chance(1, 2) {
        full_table_for(random, &label, far_domain, Targets::Parted)
    } else {
        table_for(random, &label, far_domain, false, Targets::Parted)
    };
    (label, table)
}
