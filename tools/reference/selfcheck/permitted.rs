// Wish 5: every set of permitted spellings against labels at the limits.

use crate::generator::{label_near_limits, Random};
use crate::label::HeldLabel;
use crate::option::{read_alone, spell, spell_alone, ALL_SPELLINGS, PLAIN_SPELLINGS};

use super::{held, hex, option_of, output_with, singles, Tally, FILL};

/// The number of a spelling and the option, in hex.
fn spelled(label: &HeldLabel, permitted: u8) -> (u8, String) {
    let mut output = [FILL; 41];
    let (number, _) = spell_alone(label, permitted, &mut output);
    (number, hex(&output))
}

fn vectors(tally: &mut Tally) {
    let refused = (18, hex(&[FILL; 41]));
    let written = |tag: &str| (0, output_with(&option_of(tag)));
    let ten = |octets: &str| written(&format!("010e0003{}", octets));
    tally.equal("no categories, ten octets", spelled(&held(&[]), 2), ten("00000000000000000000"));
    tally.equal("no categories, ten octets or a list", spelled(&held(&[]), 6), written("02040003"));
    tally.equal("no categories, a list or pairs", spelled(&held(&[]), 12), written("02040003"));
    tally.equal("no categories, pairs", spelled(&held(&[]), 8), written("05040003"));
    tally.equal("category 79 in ten octets", spelled(&held(&[(79, 79)]), 2), ten("00000000000000000001"));
    tally.equal("category 80 in ten octets", spelled(&held(&[(80, 80)]), 2), refused.clone());
    tally.equal("category 80 in the shortest", spelled(&held(&[(80, 80)]), 3), written("010f0003 0000000000000000000080"));
    // Five categories need ten octets as a list, three runs with category 0 as pairs.
    let five = singles((71..80).step_by(2));
    tally.equal("ten octets and a list tie", spelled(&five, 6), ten("00000000000000000155"));
    tally.equal("a list alone", spelled(&five, 4), written("020e0003 00470049004b004d004f"));
    tally.equal("four categories are shorter as a list", spelled(&singles((73..80).step_by(2)), 6), written("020c0003 0049004b004d004f"));
    let runs = held(&[(0, 3), (8, 11), (16, 19)]);
    tally.equal("ten octets and pairs tie", spelled(&runs, 10), ten("f0f0f000000000000000"));
    tally.equal("the shortest before ten octets", spelled(&runs, 11), written("01070003 f0f0f0"));
    tally.equal("an empty set", spelled(&held(&[]), 0), refused);
    tally.equal("an empty set and an ill-formed label", spell_alone(&HeldLabel::ALL_ZERO, 0, &mut [0; 40]), (2, 0));
    tally.equal("an empty set and a short output", spell_alone(&held(&[]), 0, &mut [0; 39]), (1, 0));
}

/// What a spelling needs: "refused [...] exactly if no permitted one means the label".
fn lengths(label: &HeldLabel) -> [Option<usize>; 4] {
    let runs = &label.places[..label.count as usize];
    let count: usize = runs.iter().map(|run| (run.high - run.low) as usize + 1).sum();
    let octets = runs.last().map_or(0, |run| run.high as usize / 8 + 1);
    let pairs = 4 * runs.len() - if runs.first().map_or(false, |run| run.low == 0) { 2 } else { 0 };
    [(octets <= 30, octets), (octets <= 10, 10), (count <= 15, 2 * count), (runs.len() <= 7, pairs)]
        .map(|(fits, length)| fits.then_some(10 + length))
}

fn all_sets(tally: &mut Tally) {
    let mut random = Random::new(5);
    for turn in 0..4000 {
        let label = label_near_limits(&mut random, turn);
        let meant = label.label().expect("it is well formed");
        for permitted in 0..=ALL_SPELLINGS {
            let wanted: Vec<(usize, usize)> = (0..4)
                .filter(|form| permitted >> form & 1 == 1)
                .filter_map(|form| lengths(&label)[form].map(|length| (length, form)))
                .collect();
            let found = spell(&meant, permitted);
            let best = wanted.iter().min();
            tally.equal("length", found.as_ref().map(Vec::len), best.map(|(length, _)| *length));
            if let (Some(option), Some((_, form))) = (found, best) {
                tally.equal("tag", option[6], [1, 1, 2, 5][*form]);
                tally.equal("read back", read_alone(&option).ok().as_ref() == Some(&meant), true);
            }
        }
        tally.equal(
            "document 01's spelling",
            spell(&meant, PLAIN_SPELLINGS).map(|option| option[6]),
            spell(&meant, PLAIN_SPELLINGS | 2).map(|option| option[6]),
        );
    }
}

pub fn permitted(tally: &mut Tally) {
    vectors(tally);
    all_sets(tally);
}
