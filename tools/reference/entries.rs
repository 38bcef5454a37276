// Which entries of the program `cases` are built.
//
// The generator makes cases of these entries alone, and the line for every other one is BROKEN.

/// The entries that the box has. Who builds another one adds its number here.
pub const BUILT: &[u8] = &[1, 2, 3, 4, 5, 6, 7, 8, 9, 10, 11, 12, 13, 14, 15, 16, 17, 18, 19, 20, 21, 22, 24, 25];

/// The entries that this program knows.
pub const KNOWN: &[u8] = &[1, 2, 3, 4, 5, 6, 7, 8, 9, 10, 11, 12, 13, 14, 15, 16, 17, 18, 19, 20, 21, 22, 24, 25];

/// The groups of a wide port that are built.
pub const GROUPS: u8 = BASIC_GROUP | SPELLINGS_GROUP | DEFAULT_GROUP | STRICT_GROUP;
pub const BASIC_GROUP: u8 = 1;
pub const SPELLINGS_GROUP: u8 = 2;
pub const DEFAULT_GROUP: u8 = 4;
pub const STRICT_GROUP: u8 = 8;

#[derive(Clone)]
pub struct Entries {
    numbers: Vec<u8>,
}

impl Entries {
    pub fn built() -> Entries {
        Entries { numbers: BUILT.to_vec() }
    }

    pub fn known() -> Entries {
        Entries { numbers: KNOWN.to_vec() }
    }

    /// Numbers and ranges parted by commas, as `1-9,24`. None where one is not known.
    pub fn named(text: &str) -> Option<Entries> {
        let mut numbers = Vec::new();
        for part in text.split(',') {
            let (first, last) = part.split_once('-').unwrap_or((part, part));
            numbers.extend(first.parse::<u8>().ok()?..=last.parse::<u8>().ok()?);
        }
        if numbers.is_empty() || numbers.iter().any(|number| !KNOWN.contains(number)) {
            return None;
        }
        Some(Entries { numbers })
    }

    pub fn has(&self, entry: u8) -> bool {
        self.numbers.contains(&entry)
    }
}
