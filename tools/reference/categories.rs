// Sets of categories.
//
// Document 01, "Labels": "a set of categories out of 0 to 65534". A set is one bit for each number.

use crate::label::{Run, HIGHEST_CATEGORY};

const WORD_BITS: usize = 64;
const WORDS: usize = 65_536 / WORD_BITS;

#[derive(Clone, PartialEq, Eq)]
pub struct Categories {
    words: Vec<u64>,
}

impl Categories {
    pub fn none() -> Categories {
        Categories { words: vec![0; WORDS] }
    }

    pub fn insert(&mut self, category: u16) {
        assert!(category <= HIGHEST_CATEGORY, "no category has the number 65535");
        let number = category as usize;
        self.words[number / WORD_BITS] |= 1 << (number % WORD_BITS);
    }

    /// Every number from `low` to `high`. Whole words are filled at once, since a run may have 65,535 numbers.
    pub fn insert_run(&mut self, low: u16, high: u16) {
        assert!(high <= HIGHEST_CATEGORY, "no category has the number 65535");
        let (mut number, last) = (low as usize, high as usize);
        while number <= last {
            if number % WORD_BITS == 0 && number + WORD_BITS - 1 <= last {
                self.words[number / WORD_BITS] = u64::MAX;
                number += WORD_BITS;
            } else {
                self.insert(number as u16);
                number += 1;
            }
        }
    }

    pub fn contains(&self, category: u16) -> bool {
        let number = category as usize;
        self.words[number / WORD_BITS] >> (number % WORD_BITS) & 1 == 1
    }

    pub fn is_subset(&self, other: &Categories) -> bool {
        self.words.iter().zip(&other.words).all(|(mine, theirs)| mine & !theirs == 0)
    }

    pub fn len(&self) -> usize {
        self.words.iter().map(|word| word.count_ones() as usize).sum()
    }

    /// The numbers of the set, ascending.
    pub fn iter(&self) -> impl Iterator<Item = u16> + '_ {
        self.words.iter().enumerate().filter(|(_, word)| **word != 0).flat_map(|(index, word)| {
            (0..WORD_BITS).filter(move |bit| word >> bit & 1 == 1).map(move |bit| (index * WORD_BITS + bit) as u16)
        })
    }

    pub fn highest(&self) -> Option<u16> {
        let index = self.words.iter().rposition(|word| *word != 0)?;
        let bit = WORD_BITS - 1 - self.words[index].leading_zeros() as usize;
        Some((index * WORD_BITS + bit) as u16)
    }

    /// The longest runs of neighbouring numbers, ascending: "each low at least 2 above the previous high".
    pub fn runs(&self) -> Vec<Run> {
        let mut runs: Vec<Run> = Vec::new();
        for category in self.iter() {
            match runs.last_mut() {
                Some(run) if run.high + 1 == category => run.high = category,
                _ => runs.push(Run { low: category, high: category }),
            }
        }
        runs
    }
}
