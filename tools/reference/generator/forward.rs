// Cases of forward.

use crate::cases::Case;
use crate::decision::{forward, Facts};
use crate::label::{HeldLabel, Run, HIGHEST_CATEGORY};
use crate::option::{spell, MAX_OCTETS};

use super::drafts::*;
use super::faults::*;
use super::random::Random;
use super::ranges::*;
use super::sets::*;
use super::spellings::*;
use super::tables::*;
use super::unsound::*;
use super::Made;

pub fn forward_case(draft: ForwardDraft, random: &mut Random) -> Made {
    Made::Case(Case::Forward(Box::new(draft.finish(random))))
}

pub fn forwards(draft: &ForwardDraft, random: &mut Random) -> bool {
    let case = draft.clone().finish(random);
    let mut output = vec![0; case.output.length];
    forward(&case.arriving, &case.leaving, &case.table, &Facts::NONE, &case.area, &mut output).number == 0
}

/// A forward that is done, with several runs in every label and several rows, so that any clause can be broken alone.
pub fn sound_draft(random: &mut Random, same_domain: Option<bool>) -> ForwardDraft {
    loop {
        let draft = forward_draft(random, &Wish { rich: true, same_domain, ..ANY });
        if forwards(&draft, random) {
            return draft;
        }
    }
}

pub fn forwarded(random: &mut Random, turn: usize, _number: u8) -> Made {
    let wish = match turn % 20 {
        0 | 10 => Wish { labelled: Some(false), ..ANY },
        1 => Wish { rich: true, ..ANY },
        2 => Wish { shape: Some(Shape::Tie), ..ANY },
        3 => Wish { shape: Some(Shape::Limit), same_domain: Some(true), ..ANY },
        4 => Wish { targets: Targets::Anywhere, ..ANY },
        5 => Wish { targets: Targets::Parted, shape: Some(Shape::Ranges), ..ANY },
        6 => Wish { targets: Targets::High, shape: Some(Shape::List), ..ANY },
        7 => Wish { shape: Some(Shape::Alternating), ..ANY },
        _ => ANY,
    };
    let draft = forward_draft(random, &wish);
    forward_case(draft, random)
}

/// Areas and outputs of a wrong size; 1 comes before everything else.
pub fn forward_wrong_size(random: &mut Random, turn: usize, _number: u8) -> Made {
    let mut draft = forward_draft(random, &ANY);
    match turn / 2 % 4 {
        0 => ill_form(random, &mut draft.case.arriving.lowest, turn),
        1 => ill_form(random, &mut draft.case.leaving.highest, turn),
        _ => {}
    }
    let mut case = draft.finish(random);
    if turn % 2 == 0 {
        case.output.length = random.pick(&[0, 1, 20, 39, 39]);
    } else {
        wrong_size(random, &mut case.area);
    }
    Made::Case(Case::Forward(Box::new(case)))
}

pub fn forward_unsound(random: &mut Random, turn: usize, _number: u8) -> Made {
    let clause = turn % (2 * PORT_CLAUSES + TABLE_CLAUSES);
    let in_table = clause >= 2 * PORT_CLAUSES;
    let same_domain = if in_table { Some(false) } else { None };
    let mut draft = sound_draft(random, same_domain);
    // 2 comes before all that the area and the label may have.
    if random.chance(1, 4) {
        let later = random.between(3, 18) as u8;
        break_forward(random, &mut draft, turn, later);
    }
    if in_table {
        break_table(random, &mut draft.case.table, clause - 2 * PORT_CLAUSES);
    } else if clause < PORT_CLAUSES {
        break_port(random, &mut draft.case.arriving, clause);
    } else {
        break_port(random, &mut draft.case.leaving, clause - PORT_CLAUSES);
    }
    forward_case(draft, random)
}

/// Makes one refusal from 2 on likely.
pub fn break_forward(random: &mut Random, draft: &mut ForwardDraft, turn: usize, number: u8) {
    match number {
        2 => match random.below(3) {
            0 => break_port(random, &mut draft.case.arriving, turn),
            1 => break_port(random, &mut draft.case.leaving, turn),
            _ => break_table(random, &mut draft.case.table, turn),
        },
        3..=5 => break_walk(random, &mut draft.datagram, number),
        6 => drop_label(&mut draft.datagram, &mut draft.case.arriving),
        7..=13 => {
            if let Some(index) = draft.datagram.cipso {
                break_option(random, &mut draft.datagram.options[index], number, true);
            }
        }
        14 => {
            let label = outside(random, &draft.label, &draft.case.arriving.lowest, &draft.case.arriving.highest);
            relabel(random, &mut draft.datagram, &label);
        }
        // A table that isn't read may be unsound already.
        16 if draft.case.table.sound().is_none() => {}
        16 => match turn % 7 {
            0 => draft.case.table.from = other_domain(random, draft.case.arriving.domain),
            1 => draft.case.table.to = other_domain(random, draft.case.leaving.domain),
            2 => std::mem::swap(&mut draft.case.table.from, &mut draft.case.table.to),
            3 => lose_level(&mut draft.case.table, draft.label.level),
            _ => lose_category(random, &mut draft.case.table, &draft.label),
        },
        17 => {
            if let Some(label) = &draft.leaving_label {
                let port = &mut draft.case.leaving;
                narrow(random, &mut port.lowest, &mut port.highest, label);
                port.required = true;
                port.assigned = HeldLabel::ALL_ZERO;
            }
        }
        _ => {
            let used: usize = draft.datagram.options.iter().map(Vec::len).sum();
            if used + 2 <= MAX_OCTETS {
                let option = kept_option(random, MAX_OCTETS - used);
                draft.datagram.options.push(option);
            }
        }
    }
}

pub fn forward_broken(random: &mut Random, turn: usize, number: u8) -> Made {
    let wish = match number {
        7..=13 => Wish { labelled: Some(true), ..ANY },
        16 => Wish { same_domain: Some(false), ..ANY },
        18 => match turn % 4 {
            // Without a spelling: renumbered out of the bitmap, or assigned.
            0 => Wish { shape: Some(Shape::Bitmap), targets: Targets::High, same_domain: Some(false), ..ANY },
            1 => Wish { shape: Some(Shape::Unspellable), labelled: Some(false), ..ANY },
            // Too long beside the kept options.
            _ => ANY,
        },
        _ => ANY,
    };
    let mut draft = forward_draft(random, &wish);
    if number != 18 || turn % 4 >= 2 {
        // A later refusal must not hide this one.
        let later = later_number(random, number, 18);
        if later > number && later != 13 {
            break_forward(random, &mut draft, turn, later);
        }
        break_forward(random, &mut draft, turn, number);
        if later == 13 && number > 7 && number < 13 {
            break_forward(random, &mut draft, turn, later);
        }
    }
    forward_case(draft, random)
}

/// A forward of a label whose renumbered set has over 120 runs, with all of the far domain as leaving range.
pub fn over_large_draft(random: &mut Random, turn: usize) -> (ForwardDraft, Vec<Run>) {
    let domain = random_domain(random);
    let far_domain = other_domain(random, domain);
    let unlabelled = turn % 9 == 7;
    let (label, table) = if unlabelled { over_large_held(random, domain, far_domain) } else { over_large(random, domain, far_domain) };
    let meant = label.label().expect("it is well formed");
    let set = table.sound().and_then(|table| table.renumber(&meant)).expect("the table covers the label");
    let pieces = set.categories.runs();
    let all = [Run { low: 0, high: HIGHEST_CATEGORY }];
    let mut leaving = port_around(random, &held(far_domain, set.level, &all), false, false);
    leaving.lowest = HeldLabel::empty(far_domain, leaving.lowest.level);
    leaving.required = true;
    leaving.assigned = HeldLabel::ALL_ZERO;
    let arriving = port_around(random, &label, false, unlabelled);
    let cipso = if unlabelled { None } else { random_spelling(random, &meant) };
    let datagram = datagram_of(random, cipso, Vec::new());
    let mut draft = forward_draft(random, &ANY);
    draft.case.arriving = arriving;
    draft.case.leaving = leaving;
    draft.case.table = table;
    draft.datagram = datagram;
    draft.label = label;
    draft.leaving_label = None;
    (draft, pieces)
}

pub fn forward_over_large_inside(random: &mut Random, turn: usize, _number: u8) -> Made {
    let (mut draft, pieces) = over_large_draft(random, turn);
    let lowest = &mut draft.case.leaving.lowest;
    // The last piece does not fit a label, but it is there: a range that asks for it holds the set.
    match turn % 3 {
        0 => {
            let last = pieces[pieces.len() - 1];
            *lowest = held(lowest.domain, lowest.level, &[last]);
        }
        1 => {
            let chosen = random.pick(&pieces);
            *lowest = held(lowest.domain, lowest.level, &[chosen]);
        }
        _ => {}
    }
    forward_case(draft, random)
}

pub fn forward_over_large_outside(random: &mut Random, turn: usize, _number: u8) -> Made {
    let (mut draft, pieces) = over_large_draft(random, turn);
    let domain = draft.case.leaving.domain;
    let piece = match turn % 3 {
        0 => pieces[pieces.len() - 1],
        1 => pieces[0],
        _ => random.pick(&pieces),
    };
    let port = &mut draft.case.leaving;
    match turn % 4 {
        // One category of the set is not in the highest label.
        0 | 1 => {
            let needed = held(domain, 0, &[Run { low: piece.high, high: piece.high }]);
            lack_category(random, &mut port.highest, &needed);
        }
        // One category of the lowest label is not in the set: the one after a piece.
        2 => port.lowest = held(domain, port.lowest.level, &[Run { low: piece.high + 1, high: piece.high + 1 }]),
        _ => {
            let new_level = draft.case.table.levels.iter().find(|pair| pair[0] == draft.label.level).map_or(0, |pair| pair[1]);
            if random.chance(1, 2) && new_level > 0 {
                port.highest.level = new_level - 1;
                port.lowest.level = 0;
            } else {
                port.lowest.level = new_level.saturating_add(1);
                port.highest.level = 255;
            }
        }
    }
    forward_case(draft, random)
}

/// Kept options that leave `over` octets too few for the spelled option: 0 fills the 40 octets exactly.
pub fn fill_up(random: &mut Random, turn: usize, over: usize) -> Made {
    if turn % 6 == 0 {
        // "No label, assigned empty label, one kept option of 30 octets: 40, forwarded. Of 31: 18."
        let wish = Wish { labelled: Some(false), shape: Some(Shape::Empty), ..ANY };
        let mut draft = forward_draft(random, &wish);
        draft.datagram.options = vec![kept_option(random, 30 + over)];
        return forward_case(draft, random);
    }
    loop {
        let mut draft = forward_draft(random, &ANY);
        let option = match draft.leaving_label.as_ref().and_then(|label| spell(&label.label()?, draft.case.leaving.spellings)) {
            Some(option) => option,
            None => continue,
        };
        let room = MAX_OCTETS - option.len() + over;
        let own: Vec<Vec<u8>> = draft.datagram.cipso.map(|index| draft.datagram.options[index].clone()).into_iter().collect();
        if own.iter().map(Vec::len).sum::<usize>() + room > MAX_OCTETS || room < 2 {
            continue;
        }
        let mut kept = Vec::new();
        let mut left = room;
        while left > 0 {
            let length = if left < 4 || random.chance(1, 2) { left } else { random.between(2, left - 2) };
            kept.push(kept_option(random, length));
            left -= length;
        }
        draft.datagram = datagram_of(random, own.into_iter().next(), kept);
        return forward_case(draft, random);
    }
}

pub fn forward_full(random: &mut Random, turn: usize, _number: u8) -> Made {
    fill_up(random, turn, 0)
}

pub fn forward_over_full(random: &mut Random, turn: usize, _number: u8) -> Made {
    fill_up(random, turn, 1)
}

/// Good areas with one octet changed, cut short or made longer by four.
pub fn forward_changed(random: &mut Random, turn: usize, _number: u8) -> Made {
    let mut case = forward_draft(random, &ANY).finish(random);
    change_area(random, turn, &mut case.area);
    Made::Case(Case::Forward(Box::new(case)))
}

/// Two or three refusals at once: the lowest number must win, and in the walk the earliest option.
pub fn forward_several(random: &mut Random, turn: usize, _number: u8) -> Made {
    let mut draft = if random.chance(1, 4) { sound_draft(random, None) } else { forward_draft(random, &ANY) };
    for number in several_numbers(random, 18) {
        let short = draft.datagram.cipso.map_or(true, |index| draft.datagram.options[index].len() < 10);
        if number < 7 || number > 13 || !short {
            break_forward(random, &mut draft, turn, number);
        }
    }
    forward_case(draft, random)
}

/// Areas of 0 to 255 octets that hold pieces of options.
pub fn forward_any_length(random: &mut Random, turn: usize, _number: u8) -> Made {
    let mut case = forward_draft(random, &ANY).finish(random);
    let length = if turn % 2 == 0 { random.below(256) } else { 4 * random.below(11) };
    case.area = area_of_length(random, length);
    Made::Case(Case::Forward(Box::new(case)))
}
