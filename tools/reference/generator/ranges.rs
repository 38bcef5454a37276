// Ranges that hold a label, for ports and hosts, and ways to be outside of one.

use crate::label::{HeldLabel, Run, HIGHEST_CATEGORY, MAX_RUNS};
use crate::records::{HostRecord, PortRecord};

use super::random::Random;
use super::sets::*;

/// Lowest and highest label of a sound range that holds the label. `rich` asks for several runs in both.
pub fn range_around(random: &mut Random, label: &HeldLabel, rich: bool) -> (HeldLabel, HeldLabel) {
    let runs = runs_of(label);
    // Ranges that repeat a large label make large cases.
    let plain = runs.len() > 8 && random.chance(9, 10);
    let low_runs = if rich {
        runs.to_vec()
    } else if plain || random.chance(3, 5) {
        Vec::new()
    } else if random.chance(1, 2) {
        runs.to_vec()
    } else {
        shrink(random, runs)
    };
    let high_runs = if rich {
        grow(random, runs)
    } else if plain || random.chance(3, 5) {
        vec![Run { low: 0, high: HIGHEST_CATEGORY }]
    } else if random.chance(1, 2) {
        runs.to_vec()
    } else {
        grow(random, runs)
    };
    let level = label.level as usize;
    let low_level = if random.chance(1, 4) { level } else { random.between(0, level) };
    let high_level = if random.chance(1, 4) { level } else { random.between(level, 255) };
    (held(label.domain, low_level as u8, &low_runs), held(label.domain, high_level as u8, &high_runs))
}

/// A sound port whose range holds the label. With `unlabelled`, the label is the assigned one.
pub fn port_around(random: &mut Random, label: &HeldLabel, rich: bool, unlabelled: bool) -> PortRecord {
    let (lowest, highest) = range_around(random, label, rich);
    let required = !unlabelled && random.chance(1, 2);
    let assigned = if required {
        HeldLabel::ALL_ZERO
    } else if unlabelled {
        label.clone()
    } else if runs_of(label).len() > 8 {
        lowest.clone()
    } else {
        random.pick(&[lowest.clone(), highest.clone(), label.clone()])
    };
    PortRecord { domain: label.domain, lowest, highest, required, assigned, ..PortRecord::PLAIN }
}

pub fn host_around(random: &mut Random, label: &HeldLabel, rich: bool) -> HostRecord {
    let (lowest, highest) = range_around(random, label, rich);
    HostRecord { lowest, highest }
}

/// Takes one category of `needed` away from a well-formed label; where `needed` has none, nothing happens.
pub fn lack_category(random: &mut Random, label: &mut HeldLabel, needed: &HeldLabel) {
    if needed.count == 0 {
        return;
    }
    let run = random.pick(runs_of(needed));
    let category = random.pick(&[run.low, run.high]);
    let mut rest = Vec::new();
    for run in runs_of(label) {
        if run.low <= category && category <= run.high {
            if run.low < category {
                rest.push(Run { low: run.low, high: category - 1 });
            }
            if category < run.high {
                rest.push(Run { low: category + 1, high: run.high });
            }
        } else {
            rest.push(*run);
        }
    }
    if rest.len() <= MAX_RUNS {
        *label = held(label.domain, label.level, &rest);
    }
}

/// Adds one category that `bound` lacks to a well-formed label; where `bound` has all near, nothing happens.
pub fn add_category(random: &mut Random, label: &mut HeldLabel, bound: &HeldLabel) {
    for _ in 0..20 {
        let category = match runs_of(bound).get(random.below(bound.count.max(1) as usize)) {
            Some(run) if random.chance(2, 3) => random.pick(&[run.low.saturating_sub(1), run.high.saturating_add(1)]),
            _ => edge_category(random),
        };
        if category > HIGHEST_CATEGORY || bound.contains(category) {
            continue;
        }
        let more = merge([runs_of(label), &[Run { low: category, high: category }]].concat());
        if more.len() <= MAX_RUNS {
            *label = held(label.domain, label.level, &more);
            return;
        }
    }
}

/// A label of the range's domain that is outside the range, or the same label where the chosen way does not apply.
pub fn outside(random: &mut Random, label: &HeldLabel, lowest: &HeldLabel, highest: &HeldLabel) -> HeldLabel {
    let mut other = label.clone();
    match random.below(5) {
        0 => other.level = highest.level.saturating_add(1),
        1 => other.level = lowest.level.saturating_sub(1),
        2 => add_category(random, &mut other, highest),
        3 => lack_category(random, &mut other, lowest),
        // Incomparable: a lower level with a category too many.
        _ => {
            other.level = lowest.level;
            add_category(random, &mut other, highest);
        }
    }
    other
}

/// Narrows a sound range so that it no longer holds the label, where the chosen way applies.
pub fn narrow(random: &mut Random, lowest: &mut HeldLabel, highest: &mut HeldLabel, label: &HeldLabel) {
    match random.below(5) {
        0 => {
            highest.level = label.level.saturating_sub(1);
            lowest.level = lowest.level.min(highest.level);
        }
        1 => {
            lowest.level = label.level.saturating_add(1);
            highest.level = highest.level.max(lowest.level);
        }
        2 => {
            *lowest = HeldLabel::empty(lowest.domain, lowest.level);
            lack_category(random, highest, label);
        }
        3 => {
            add_category(random, lowest, label);
            let runs = merge([runs_of(lowest), runs_of(highest)].concat());
            if runs.len() <= MAX_RUNS {
                *highest = held(highest.domain, highest.level, &runs);
            }
        }
        _ => {
            // Equal levels, categories beside the label's.
            *lowest = HeldLabel::empty(lowest.domain, label.level);
            let runs = grow(random, &[]);
            *highest = held(highest.domain, label.level, &runs);
        }
    }
}
