// The options area: the walk over an arriving one, the building of a leaving one.
//
// Document 01, "The order of checks" and "The leaving area"; document 02, wish 3; RFC 791 for the options.

use crate::basic::BASIC_SECURITY;
use crate::option::{fault, Fault, CIPSO, LENGTH_AT, MAX_OCTETS};

const END_OF_OPTIONS: u8 = 0;
const NO_OPERATION: u8 = 1;
const EXTENDED_SECURITY: u8 = 133;

/// What the walk met.
pub struct Walk<'a> {
    /// The option 134 with its offset in the area.
    pub cipso: Option<(usize, &'a [u8])>,
    /// The option 130 with its offset, where check 4 lets it pass.
    pub basic: Option<(usize, &'a [u8])>,
    /// "each kept option (one the walk meets, not 134, 0 or 1)", in order. Of the 130: "It stays among the kept options, octet for octet."
    pub kept: Vec<&'a [u8]>,
}

/// Check 1 on the area: "over 40 octets or not a multiple of 4".
pub fn size_fits(area: &[u8]) -> bool {
    area.len() <= MAX_OCTETS && area.len() % 4 == 0
}

/// "3, 4 and 5 come from one walk: the earliest option decides, and within it 3, then 4, then 5. Type 0 ends the walk and what
/// follows is ignored; type 1 is one octet." Offsets are those of the option's type octet. `basic_on` says whether the arriving port has
/// switched option 130 on.
pub fn walk(area: &[u8], basic_on: bool) -> Result<Walk<'_>, Fault> {
    // 4 "covers 133, and 130 only where the arriving port hasn't switched it on".
    walk_refusing(area, |option_type| option_type == EXTENDED_SECURITY || option_type == BASIC_SECURITY && !basic_on)
}

/// Wish 9: "the walk, check 4 left out".
pub fn walk_without_4(area: &[u8]) -> Result<Walk<'_>, Fault> {
    walk_refusing(area, |_| false)
}

fn walk_refusing(area: &[u8], refused_by_4: impl Fn(u8) -> bool) -> Result<Walk<'_>, Fault> {
    let mut met = Walk { cipso: None, basic: None, kept: Vec::new() };
    let mut at = 0;
    while at < area.len() {
        let option_type = area[at];
        if option_type == END_OF_OPTIONS {
            break;
        }
        if option_type == NO_OPERATION {
            at += 1;
            continue;
        }
        // 3: "an option's length octet is missing, under 2, or runs past the area".
        let length = match area.get(at + LENGTH_AT) {
            Some(length) => *length as usize,
            None => return fault(3, at),
        };
        if length < 2 || at + length > area.len() {
            return fault(3, at);
        }
        let option = &area[at..at + length];
        match option_type {
            // 4.
            _ if refused_by_4(option_type) => return fault(4, at),
            // 5: "second option 134". "A second 130 is 5".
            CIPSO if met.cipso.is_some() => return fault(5, at),
            BASIC_SECURITY if met.basic.is_some() => return fault(5, at),
            CIPSO => met.cipso = Some((at, option)),
            BASIC_SECURITY => {
                met.basic = Some((at, option));
                met.kept.push(option);
            }
            _ => met.kept.push(option),
        }
        at += length;
    }
    Ok(met)
}

/// "The option in its one spelling comes first. Then each kept option [...] in order [...]. Zeros pad to a multiple of 4".
/// None where "the options exceed 40 octets".
pub fn build(option: &[u8], kept: &[&[u8]]) -> Option<Vec<u8>> {
    let mut octets = option.to_vec();
    for option in kept {
        octets.extend_from_slice(option);
    }
    if octets.len() > MAX_OCTETS {
        return None;
    }
    while octets.len() % 4 != 0 {
        octets.push(0);
    }
    Some(octets)
}
