// Labels: what they are, how they are held, and how they are compared.
//
// Document 01, "Labels".

use crate::categories::Categories;

/// "at most 120 runs with a count"
pub const MAX_RUNS: usize = 120;
/// The bitmap of tag 1 has 240 places: "the highest category is at most 239".
pub const BITMAP_CATEGORIES: u16 = 240;
/// "a set of categories out of 0 to 65534"
pub const HIGHEST_CATEGORY: u16 = 65_534;

/// "A label is a domain (32 bits, never 0), a level 0 to 255 and a set of categories out of 0 to 65534."
#[derive(Clone, PartialEq, Eq)]
pub struct Label {
    pub domain: u32,
    pub level: u8,
    pub categories: Categories,
}

/// Neighbouring categories from `low` to `high`, both included.
#[derive(Clone, Copy, PartialEq, Eq, Debug)]
pub struct Run {
    pub low: u16,
    pub high: u16,
}

impl Run {
    pub const ZERO: Run = Run { low: 0, high: 0 };
}

/// "A label holds its categories as at most 120 runs with a count". Held, it may be ill-formed: every field is free.
#[derive(Clone, PartialEq, Eq)]
pub struct HeldLabel {
    pub domain: u32,
    pub level: u8,
    pub count: u8,
    pub places: [Run; MAX_RUNS],
}

impl HeldLabel {
    pub const ALL_ZERO: HeldLabel = HeldLabel { domain: 0, level: 0, count: 0, places: [Run::ZERO; MAX_RUNS] };

    /// "There is a ready-made empty label for each domain and level (for domain 0 the all-zero label, which is ill-formed)"
    pub fn empty(domain: u32, level: u8) -> HeldLabel {
        if domain == 0 {
            HeldLabel::ALL_ZERO
        } else {
            HeldLabel { domain, level, ..HeldLabel::ALL_ZERO }
        }
    }

    /// "ascending, low ≤ high ≤ 65534, each low at least 2 above the previous high, unused places 0"; the domain is "never 0".
    pub fn well_formed(&self) -> bool {
        if self.domain == 0 || self.count as usize > MAX_RUNS {
            return false;
        }
        let (used, unused) = self.places.split_at(self.count as usize);
        used.iter().all(|run| run.low <= run.high && run.high <= HIGHEST_CATEGORY)
            && used.windows(2).all(|pair| pair[1].low as u32 >= pair[0].high as u32 + 2)
            && unused.iter().all(|run| *run == Run::ZERO)
    }

    /// The label that a well-formed label holds: "For every category, a label says yes exactly when some run covers it."
    pub fn label(&self) -> Option<Label> {
        if !self.well_formed() {
            return None;
        }
        let mut categories = Categories::none();
        for run in &self.places[..self.count as usize] {
            categories.insert_run(run.low, run.high);
        }
        Some(Label { domain: self.domain, level: self.level, categories })
    }

    /// "Asked alone: on an ill-formed label (domain 0 included) membership and comparing say no."
    pub fn contains(&self, category: u16) -> bool {
        match self.label() {
            Some(label) => label.categories.contains(category),
            None => false,
        }
    }

    /// `self` ≤ `other`, asked alone.
    pub fn within(&self, other: &HeldLabel) -> bool {
        match (self.label(), other.label()) {
            (Some(label), Some(bound)) => label.within(&bound),
            _ => false,
        }
    }
}

impl Label {
    /// "A ≤ B when the domains are equal, the level of A is at most that of B, and A's categories are all in B."
    pub fn within(&self, other: &Label) -> bool {
        self.domain == other.domain && self.level <= other.level && self.categories.is_subset(&other.categories)
    }

    /// "'In range' means min ≤ label ≤ max."
    pub fn in_range(&self, lowest: &Label, highest: &Label) -> bool {
        lowest.within(self) && self.within(highest)
    }

    /// "Thus one set has one form." None where the set has over 120 runs.
    pub fn held(&self) -> Option<HeldLabel> {
        let runs = self.categories.runs();
        if runs.len() > MAX_RUNS {
            return None;
        }
        let mut held = HeldLabel { domain: self.domain, level: self.level, count: runs.len() as u8, ..HeldLabel::ALL_ZERO };
        held.places[..runs.len()].copy_from_slice(&runs);
        Some(held)
    }
}
