// Random sets of categories and labels.
//
// Labels are small most of the time, so that stored cases stay small; large ones come now and then.

use crate::label::{HeldLabel, Run, BITMAP_CATEGORIES, HIGHEST_CATEGORY, MAX_RUNS};

use super::random::Random;

/// Numbers next to a limit of some tag, of a word or of the whole range.
const EDGES: [u16; 24] =
    [0, 1, 7, 8, 15, 16, 63, 64, 127, 128, 238, 239, 240, 241, 255, 256, 300, 1000, 32_767, 32_768, 65_279, 65_280, 65_533, 65_534];

pub fn edge_category(random: &mut Random) -> u16 {
    if random.chance(2, 3) {
        random.pick(&EDGES)
    } else {
        random.below(HIGHEST_CATEGORY as usize + 1) as u16
    }
}

/// The one form of a set: sorted, with touching and overlapping runs made one.
pub fn merge(mut runs: Vec<Run>) -> Vec<Run> {
    runs.sort_by_key(|run| run.low);
    let mut merged: Vec<Run> = Vec::new();
    for run in runs {
        match merged.last_mut() {
            Some(last) if run.low as u32 <= last.high as u32 + 1 => last.high = last.high.max(run.high),
            _ => merged.push(run),
        }
    }
    merged
}

pub fn singles(numbers: impl Iterator<Item = u16>) -> Vec<Run> {
    merge(numbers.map(|number| Run { low: number, high: number }).collect())
}

/// Kinds of sets. `List`, `Bitmap` and `Ranges` are made for tags 2, 1 and 5.
#[derive(Clone, Copy, PartialEq, Eq)]
pub enum Shape {
    Empty,
    One,
    List,
    Bitmap,
    Ranges,
    All,
    /// At or just over a limit: 15 or 16 categories, 7 or 8 runs, a highest category of 239 or 240.
    Limit,
    /// Sets for which two tags have nearly equal lengths.
    Tie,
    /// About the limit of the ten-octet form: a highest category of 79 or 80, or about as long in another form.
    Ten,
    /// Sets without a spelling.
    Unspellable,
    /// Up to 120 runs.
    Many,
    /// Every second bit of the longest bitmap: 120 runs that have a spelling.
    Alternating,
}

pub fn random_shape(random: &mut Random) -> Shape {
    match random.below(100) {
        0..=14 => Shape::Empty,
        15..=27 => Shape::One,
        28..=43 => Shape::List,
        44..=59 => Shape::Bitmap,
        60..=77 => Shape::Ranges,
        78..=80 => Shape::All,
        81..=86 => Shape::Limit,
        87..=96 => Shape::Tie,
        97..=98 => Shape::Unspellable,
        _ => Shape::Many,
    }
}

pub fn random_runs(random: &mut Random, shape: Shape) -> Vec<Run> {
    match shape {
        Shape::Empty => Vec::new(),
        Shape::All => vec![Run { low: 0, high: HIGHEST_CATEGORY }],
        Shape::One => singles(std::iter::once(edge_category(random))),
        Shape::List => {
            let count = random.between(1, 15);
            random_list(random, count)
        }
        Shape::Bitmap => random_bitmap(random),
        Shape::Alternating => singles((random.below(2) as u16..BITMAP_CATEGORIES).step_by(2)),
        Shape::Ranges => {
            let count = random.between(1, 7);
            random_ranges(random, count)
        }
        Shape::Limit => match random.below(6) {
            0 => stepping(random, 240, 15),
            1 => stepping(random, 240, 16),
            2 => wide_runs(random, 7),
            3 => wide_runs(random, 8),
            4 => random_bits(random, 239),
            _ => random_bits(random, 240),
        },
        Shape::Tie => {
            let count = random.between(1, 15);
            if random.chance(1, 2) {
                singles((0..count).map(|_| random.below(16 * count) as u16))
            } else {
                runs_of_about_two(random)
            }
        }
        Shape::Ten => about_ten_octets(random),
        Shape::Unspellable => {
            let count = random.between(16, 24);
            let base = random.between(225, 2000) as u16;
            stepping(random, base, count)
        }
        Shape::Many => {
            let count = if random.chance(1, 2) { MAX_RUNS } else { random.between(30, MAX_RUNS) };
            let mut low = random.below(4) as u16;
            (0..count)
                .map(|_| {
                    let run = Run { low, high: low + random.below(4) as u16 };
                    low = run.high + 2 + random.below(3) as u16;
                    run
                })
                .collect()
        }
    }
}

pub fn random_list(random: &mut Random, count: usize) -> Vec<Run> {
    let limit = random.pick(&[40, 300, 1000, 65_535]);
    let mut numbers: Vec<u16> = (0..count).map(|_| random.below(limit) as u16).collect();
    if random.chance(1, 6) {
        numbers[0] = HIGHEST_CATEGORY;
    }
    singles(numbers.into_iter())
}

/// Runs of two categories each, or one more or fewer: as a list and as pairs they need about the same octets.
pub fn runs_of_about_two(random: &mut Random) -> Vec<Run> {
    let mut low = random.pick(&[0, 0, 1, 230, 1000]);
    let count = random.between(1, 7);
    let mut runs = Vec::new();
    for _ in 0..count {
        let width = random.pick(&[1, 2, 2, 2, 2, 3]);
        runs.push(Run { low, high: low + width - 1 });
        low += width + random.between(1, 60) as u16;
    }
    runs
}

/// Sets about which the ten-octet form and another one are nearly alike.
fn about_ten_octets(random: &mut Random) -> Vec<Run> {
    match random.below(6) {
        0 => {
            let highest = random.pick(&[71, 72, 78, 79, 80, 81, 87, 88]);
            random_bits(random, highest)
        }
        // 4 to 6 categories: as a list 8 to 12 octets.
        1 => {
            let count = random.between(4, 6);
            let highest = random.pick(&[79, 79, 80]);
            let mut numbers = vec![highest];
            while numbers.len() < count {
                let number = random.below(79) as u16;
                if !numbers.contains(&number) {
                    numbers.push(number);
                }
            }
            singles(numbers.into_iter())
        }
        // 2 or 3 runs: as pairs 8 to 12 octets, 6 to 10 with category 0.
        2 | 3 => {
            let mut low = random.pick(&[0, 0, 1, 3]);
            let count = random.between(2, 3);
            let mut runs = Vec::new();
            for _ in 0..count {
                let high = low + random.between(3, 20) as u16;
                runs.push(Run { low, high });
                low = high + random.between(2, 5) as u16;
            }
            if random.chance(1, 2) {
                runs[count - 1].high = random.pick(&[79, 80]);
            }
            runs
        }
        4 => Vec::new(),
        // One run up to the limit, or a category alone at it.
        _ => {
            let high = random.pick(&[79, 80]);
            vec![Run { low: random.pick(&[0, 1, high]), high }]
        }
    }
}

pub fn random_bits(random: &mut Random, highest: u16) -> Vec<Run> {
    let (times, of) = random.pick(&[(1, 2), (1, 8), (7, 8), (1, 30)]);
    let mut numbers = vec![highest];
    numbers.extend((0..highest).filter(|_| random.chance(times, of)));
    singles(numbers.into_iter())
}

pub fn random_bitmap(random: &mut Random) -> Vec<Run> {
    match random.below(12) {
        0 => random_runs(random, Shape::Alternating),
        1 => vec![Run { low: 0, high: BITMAP_CATEGORIES - 1 }],
        // Long maps have many runs, and cases with them are large.
        2 => {
            let highest = random.pick(&[79, 80, 159, 231, 232, 238, 239]);
            random_bits(random, highest)
        }
        _ => {
            let highest = random.between(0, 40) as u16;
            random_bits(random, highest)
        }
    }
}

pub fn random_ranges(random: &mut Random, count: usize) -> Vec<Run> {
    let limit = random.pick(&[100, 1000, 65_535]);
    let mut ends: Vec<u16> = (0..2 * count).map(|_| random.below(limit) as u16).collect();
    ends.sort();
    if random.chance(1, 4) {
        ends[0] = 0;
    }
    if random.chance(1, 8) {
        ends[2 * count - 1] = HIGHEST_CATEGORY;
    }
    merge(ends.chunks(2).map(|pair| Run { low: pair[0], high: pair[1] }).collect())
}

/// `count` single categories, each 2 to 4 above the one before.
pub fn stepping(random: &mut Random, base: u16, count: usize) -> Vec<Run> {
    let mut number = base;
    singles((0..count).map(|_| {
        let this = number;
        number += random.between(2, 4) as u16;
        this
    }))
}

/// `count` runs of at least 3 categories each, the highest over 239.
pub fn wide_runs(random: &mut Random, count: usize) -> Vec<Run> {
    let mut low = if random.chance(1, 2) { 0 } else { random.between(1, 300) as u16 };
    let mut runs = Vec::new();
    for _ in 0..count {
        let high = low + random.between(2, 60) as u16;
        runs.push(Run { low, high });
        low = high + random.between(2, 40) as u16;
    }
    if let Some(last) = runs.last_mut() {
        last.high = last.high.max(240 + random.below(100) as u16);
    }
    runs
}

pub fn rich_runs(random: &mut Random) -> Vec<Run> {
    loop {
        let count = random.between(2, 4);
        let runs = random_ranges(random, count);
        if runs.len() >= 2 {
            return runs;
        }
    }
}

/// The set with one or two more runs.
pub fn grow(random: &mut Random, runs: &[Run]) -> Vec<Run> {
    let mut more = runs.to_vec();
    for _ in 0..random.between(1, 2) {
        let low = edge_category(random);
        let high = low.saturating_add(random.below(30) as u16).min(HIGHEST_CATEGORY);
        more.push(Run { low, high });
    }
    let more = merge(more);
    if more.len() > MAX_RUNS {
        runs.to_vec()
    } else {
        more
    }
}

/// A part of the set: some runs, some of them shorter.
pub fn shrink(random: &mut Random, runs: &[Run]) -> Vec<Run> {
    let mut fewer = Vec::new();
    for run in runs {
        if random.chance(1, 2) {
            let low = random.between(run.low as usize, run.high as usize) as u16;
            let high = random.between(low as usize, run.high as usize) as u16;
            fewer.push(if random.chance(1, 2) { *run } else { Run { low, high } });
        }
    }
    fewer
}

pub fn random_domain(random: &mut Random) -> u32 {
    match random.below(4) {
        0 => random.pick(&[1, 0x100, 0x1_0000, 0x100_0000, 0x8000_0000, u32::MAX]),
        1 => random.next() as u32 | 1,
        _ => random.between(1, 20) as u32,
    }
}

pub fn other_domain(random: &mut Random, domain: u32) -> u32 {
    loop {
        let other = match random.below(3) {
            0 => domain ^ 1 << random.below(32),
            _ => random_domain(random),
        };
        if other != 0 && other != domain {
            return other;
        }
    }
}

pub fn random_level(random: &mut Random) -> u8 {
    if random.chance(1, 4) {
        random.pick(&[0, 1, 127, 128, 254, 255])
    } else {
        random.octet()
    }
}

pub fn held(domain: u32, level: u8, runs: &[Run]) -> HeldLabel {
    let mut label = HeldLabel { count: runs.len() as u8, ..HeldLabel::empty(domain, level) };
    label.places[..runs.len()].copy_from_slice(runs);
    label
}

pub fn runs_of(label: &HeldLabel) -> &[Run] {
    &label.places[..label.count as usize]
}

pub fn random_label(random: &mut Random, domain: u32, shape: Shape) -> HeldLabel {
    let level = random_level(random);
    let runs = random_runs(random, shape);
    held(domain, level, &runs)
}
