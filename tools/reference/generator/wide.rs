// Forwards and deliveries at wide ports: with the Basic Security option, permitted spellings and default labels.

use crate::basic::{Marking, BASIC_SECURITY};
use crate::cases::Case;
use crate::label::{HeldLabel, Run, HIGHEST_CATEGORY, MAX_RUNS};
use crate::option::{spell, ALL_SPELLINGS, CIPSO, MAX_OCTETS, PLAIN_SPELLINGS};
use crate::records::PortRecord;

use super::basic::*;
use super::deliver::*;
use super::drafts::*;
use super::faults::*;
use super::forward::*;
use super::random::Random;
use super::ranges::*;
use super::sets::*;
use super::tables::Targets;
use super::unsound::*;
use super::Made;

/// The order of the checks from 3 on.
const ORDER: [u8; 18] = [3, 4, 5, 6, 7, 8, 9, 10, 11, 12, 13, 19, 20, 21, 14, 15, 16, 17];

/// A number that is tested after the given one now and then, else the given one.
fn later_check(random: &mut Random, number: u8) -> u8 {
    let later: Vec<u8> = match ORDER.iter().position(|other| *other == number) {
        Some(place) => ORDER[place + 1..].to_vec(),
        None => Vec::new(),
    };
    if !later.is_empty() && random.chance(1, 3) {
        random.pick(&later)
    } else {
        number
    }
}

/// Which of two ports have the option switched on, by turn: mostly both.
fn switched(turn: usize, number: u8) -> (bool, bool) {
    match number {
        // Where 20 and 19 are asked, the arriving port has it on.
        19 | 20 => (true, turn % 3 != 0),
        21 => [(true, true), (true, false), (false, true), (true, true)][turn % 4],
        // A 130 is 4 where the arriving port has it off.
        4 => [(false, false), (true, true), (false, true), (true, false)][turn % 4],
        3..=13 => [(true, true), (false, false), (true, false), (false, true)][turn % 4],
        // Later numbers need a datagram that passes 21.
        _ => [(true, true), (true, true), (true, true), (false, false)][turn % 4],
    }
}

/// The place of the datagram's option 130.
fn basic_place(datagram: &Datagram) -> Option<usize> {
    datagram.options.iter().position(|option| option[0] == BASIC_SECURITY)
}

/// Switches the option on at the ports where it should be, and puts one into the datagram where the arriving port has it.
fn mark(
    random: &mut Random,
    datagram: &mut Datagram,
    arriving: &mut PortRecord,
    leaving: Option<&mut PortRecord>,
    on: (bool, bool),
) -> Marking {
    let marking = random_marking(random);
    if on.0 {
        let sending = any_way(random);
        switch_on(arriving, way_around(random, &marking), sending);
        let option = basic_option(random, &marking);
        insert_option(random, datagram, |_| option.clone());
    }
    if let (true, Some(leaving)) = (on.1, leaving) {
        let receiving = any_way(random);
        switch_on(leaving, receiving, way_around(random, &marking));
    }
    marking
}

struct WideForward {
    draft: ForwardDraft,
    marking: Marking,
}

/// Any set of permitted spellings that is not empty; mostly document 01's.
pub fn any_spellings(random: &mut Random) -> u8 {
    if random.chance(1, 2) {
        PLAIN_SPELLINGS
    } else {
        random.between(1, ALL_SPELLINGS as usize) as u8
    }
}

fn wide_draft(random: &mut Random, wish: &Wish, on: (bool, bool)) -> WideForward {
    let mut draft = forward_draft(random, wish);
    let case = &mut draft.case;
    case.arriving.spellings = any_spellings(random);
    case.leaving.spellings = any_spellings(random);
    // An arriving port's default label decides nothing.
    if random.chance(1, 6) {
        let default = random.pick(&[case.arriving.lowest.clone(), case.arriving.highest.clone(), draft.label.clone()]);
        face_unlabelled(&mut case.arriving, &default);
    }
    if let (Some(label), true) = (&draft.leaving_label, random.chance(1, 10)) {
        face_unlabelled(&mut case.leaving, label);
    }
    let marking = mark(random, &mut draft.datagram, &mut case.arriving, Some(&mut case.leaving), on);
    WideForward { draft, marking }
}

fn remove_option(datagram: &mut Datagram, place: usize) {
    datagram.options.remove(place);
    datagram.cipso = datagram.cipso.map(|index| if place < index { index - 1 } else { index });
}

/// Spoils the option 130 of a datagram, or the walk over it.
fn break_mark(random: &mut Random, datagram: &mut Datagram, turn: usize, number: u8) {
    match (number, basic_place(datagram)) {
        // Cut short: the length runs past the area.
        (3, Some(place)) if turn % 2 == 0 => {
            let mut option = datagram.options[place].clone();
            remove_option(datagram, place);
            option.truncate(random.between(1, option.len() - 1));
            datagram.tail = option;
        }
        // A second one, before or after the 134, good or bad.
        (5, Some(_)) if turn % 4 != 3 => insert_option(random, datagram, |random| {
            let marking = random_marking(random);
            if random.chance(2, 3) {
                basic_option(random, &marking)
            } else {
                bad_option(random, turn)
            }
        }),
        (4, _) if turn % 2 == 0 => insert_option(random, datagram, |random| {
            let marking = random_marking(random);
            basic_option(random, &marking)
        }),
        (3..=5, _) => break_walk(random, datagram, number),
        (19, Some(place)) => {
            let old = datagram.options[place].len();
            let option = bad_option(random, turn);
            let total: usize = datagram.options.iter().map(Vec::len).sum();
            if total - old + option.len() <= MAX_OCTETS {
                datagram.options[place] = option;
            }
        }
        (20, Some(place)) => remove_option(datagram, place),
        _ => {}
    }
}

fn break_wide(random: &mut Random, wide: &mut WideForward, turn: usize, number: u8) {
    match number {
        3..=5 | 19 | 20 => break_mark(random, &mut wide.draft.datagram, turn, number),
        // One port has it, and the other hasn't: all that gets so far is 21.
        21 if wide.draft.case.arriving.basic.on != wide.draft.case.leaving.basic.on => {}
        21 => {
            let case = &mut wide.draft.case;
            let at_leaving = turn / 4 % 2 == 1;
            let way = if at_leaving { &mut case.leaving.basic.sending } else { &mut case.arriving.basic.receiving };
            *way = way_against(random, &wide.marking, turn / 8);
        }
        15 => {}
        _ => break_forward(random, &mut wide.draft, turn, number),
    }
}

pub fn wide_forwarded(random: &mut Random, turn: usize, _number: u8) -> Made {
    let wish = if turn % 5 == 4 { Wish { labelled: Some(false), ..ANY } } else { ANY };
    let wide = wide_draft(random, &wish, switched(turn, 0));
    forward_case(wide.draft, random)
}

pub fn wide_forward_wrong_size(random: &mut Random, turn: usize, _number: u8) -> Made {
    let mut draft = wide_draft(random, &ANY, switched(turn / 2, 21)).draft;
    if turn % 3 == 0 {
        break_basic(random, &mut draft.case.arriving, turn);
    }
    let mut case = draft.finish(random);
    if turn % 2 == 0 {
        case.output.length = random.pick(&[0, 1, 39, 39]);
    } else {
        wrong_size(random, &mut case.area);
    }
    Made::Case(Case::Forward(Box::new(case)))
}

/// What a refusal asks of the draft that is spoiled.
fn wish_for(number: u8) -> Wish {
    match number {
        7..=13 => Wish { labelled: Some(true), ..ANY },
        16 => Wish { same_domain: Some(false), ..ANY },
        _ => ANY,
    }
}

pub fn wide_forward_broken(random: &mut Random, turn: usize, number: u8) -> Made {
    let mut wide = wide_draft(random, &wish_for(number), switched(turn, number));
    let later = later_check(random, number);
    if later != number && later != 13 {
        break_wide(random, &mut wide, turn, later);
    }
    break_wide(random, &mut wide, turn, number);
    forward_case(wide.draft, random)
}

/// Unsound settings of either port. 2 comes before all that the area and the label may have.
pub fn wide_forward_unsound(random: &mut Random, turn: usize, _number: u8) -> Made {
    let mut wide = wide_draft(random, &ANY, switched(turn / 2, 21));
    if random.chance(1, 4) {
        let later = random.pick(&ORDER);
        break_wide(random, &mut wide, turn, later);
    }
    let case = &mut wide.draft.case;
    let port = if turn % 2 == 0 { &mut case.arriving } else { &mut case.leaving };
    let clause = turn / 2 % (BASIC_CLAUSES + 3);
    match clause.checked_sub(BASIC_CLAUSES) {
        None => break_basic(random, port, clause),
        Some(0) => port.spellings = 0,
        Some(_) => break_port(random, port, 3 * ILL_FORMED + turn / 2),
    }
    forward_case(wide.draft, random)
}

/// A port around the label that faces unlabelled hosts, with the label as default.
fn face_unlabelled(port: &mut PortRecord, label: &HeldLabel) {
    port.unlabelled = true;
    port.default = label.clone();
}

/// The unsound default labels of either port.
pub fn wide_forward_unsound_default(random: &mut Random, turn: usize, _number: u8) -> Made {
    let mut wide = wide_draft(random, &Wish { rich: true, ..ANY }, switched(turn, 0));
    let case = &mut wide.draft.case;
    break_default(random, if turn % 2 == 0 { &mut case.arriving } else { &mut case.leaving }, turn / 2);
    forward_case(wide.draft, random)
}

/// Leaves by a port with a default label: equal labels, also one without a spelling; no options, and kept ones that fill the area.
pub fn wide_forward_default(random: &mut Random, turn: usize, _number: u8) -> Made {
    let wish = match turn % 6 {
        // Only an assigned label can have no spelling and arrive.
        0 => Wish { shape: Some(Shape::Unspellable), labelled: Some(false), ..ANY },
        1 => Wish { labelled: Some(false), ..ANY },
        2 => Wish { shape: Some(Shape::Bitmap), targets: Targets::High, same_domain: Some(false), ..ANY },
        3 => Wish { rich: true, ..ANY },
        _ => ANY,
    };
    let mut wide = wide_draft(random, &wish, switched(turn, 0));
    let draft = &mut wide.draft;
    if let Some(label) = &draft.leaving_label {
        face_unlabelled(&mut draft.case.leaving, label);
    }
    match turn % 5 {
        // Nothing but the CIPSO option and the 130, or nothing at all.
        0 | 1 => {
            let cipso = draft.datagram.cipso;
            let mut place = 0;
            draft.datagram.options.retain(|option| {
                place += 1;
                Some(place - 1) == cipso || option[0] == BASIC_SECURITY
            });
            draft.datagram.cipso = draft.datagram.options.iter().position(|option| option[0] == CIPSO);
        }
        // More than a spelled option would leave room for.
        2 | 3 => {
            let used: usize = draft.datagram.options.iter().map(Vec::len).sum();
            if used + 2 <= MAX_OCTETS {
                let option = kept_option(random, MAX_OCTETS - used);
                draft.datagram.options.push(option);
            }
        }
        _ => {}
    }
    forward_case(wide.draft, random)
}

/// Other labels than the default one: by one category, by level, above, below and beside it.
pub fn wide_forward_other_default(random: &mut Random, turn: usize, _number: u8) -> Made {
    let mut wide = wide_draft(random, &wish_for_spelling(turn), switched(turn, 0));
    let case = &mut wide.draft.case;
    let label = match &wide.draft.leaving_label {
        Some(label) => label.clone(),
        None => return forward_case(wide.draft, random),
    };
    let mut other = label.clone();
    match turn % 7 {
        0 => add_category(random, &mut other, &label),
        1 => lack_category(random, &mut other, &label),
        2 => other.level = label.level.wrapping_add(1),
        3 => other.level = label.level.wrapping_sub(1),
        4 => other = HeldLabel::empty(label.domain, label.level),
        5 => other = held(label.domain, label.level, &[Run { low: 0, high: HIGHEST_CATEGORY }]),
        _ => {
            add_category(random, &mut other, &label);
            other.level = random_level(random);
        }
    }
    // Both lie in the port's range.
    case.leaving.lowest = HeldLabel::empty(label.domain, 0);
    case.leaving.highest = held(label.domain, 255, &[Run { low: 0, high: HIGHEST_CATEGORY }]);
    face_unlabelled(&mut case.leaving, &other);
    if turn % 2 == 0 && case.arriving.domain == case.leaving.domain {
        // The arriving port's default label would be the equal one.
        face_unlabelled(&mut case.arriving, &label);
    }
    forward_case(wide.draft, random)
}

/// A set of over 120 runs equals no default label, not even one with its first 120 runs.
pub fn wide_forward_over_large_default(random: &mut Random, turn: usize, _number: u8) -> Made {
    let (mut draft, pieces) = over_large_draft(random, turn);
    let domain = draft.case.leaving.domain;
    let meant = draft.label.label().expect("it is well formed");
    let level = draft.case.table.sound().and_then(|table| table.renumber(&meant)).map_or(0, |set| set.level);
    let kept = pieces.len().min(MAX_RUNS);
    let first = if turn % 3 == 2 { pieces.len() - kept } else { 0 };
    face_unlabelled(&mut draft.case.leaving, &held(domain, level, &pieces[first..first + kept]));
    forward_case(draft, random)
}

/// What permits a spelling of the leaving label, and what does not, at either port. The leaving port's set alone decides.
fn permit(random: &mut Random, wide: &mut WideForward, turn: usize, may: bool) {
    let label = match wide.draft.leaving_label.as_ref().and_then(|label| label.label()) {
        Some(label) => label,
        None => return,
    };
    let sets: Vec<u8> = (1..=ALL_SPELLINGS).collect();
    let (good, bad): (Vec<u8>, Vec<u8>) = sets.into_iter().partition(|set| spell(&label, *set).is_some());
    let (leaving, arriving) = if may { (good, bad) } else { (bad, good) };
    if !leaving.is_empty() {
        wide.draft.case.leaving.spellings = leaving[(turn + random.below(2)) % leaving.len()];
    }
    if !arriving.is_empty() && turn % 4 != 3 {
        wide.draft.case.arriving.spellings = random.pick(&arriving);
    }
}

fn wish_for_spelling(turn: usize) -> Wish {
    let shape = [Some(Shape::Ten), Some(Shape::Limit), Some(Shape::Ten), None][turn % 4];
    Wish { shape, same_domain: if turn % 3 == 0 { None } else { Some(true) }, ..ANY }
}

pub fn wide_forward_permitted(random: &mut Random, turn: usize, _number: u8) -> Made {
    let mut wide = wide_draft(random, &wish_for_spelling(turn), switched(turn, 0));
    permit(random, &mut wide, turn, true);
    forward_case(wide.draft, random)
}

pub fn wide_forward_not_permitted(random: &mut Random, turn: usize, _number: u8) -> Made {
    let mut wide = wide_draft(random, &wish_for_spelling(turn), switched(turn, 0));
    permit(random, &mut wide, turn, false);
    forward_case(wide.draft, random)
}

/// Kept options, the 130 among them, that leave `over` octets too few for the spelled option: 0 fills the 40 octets exactly.
fn wide_fill(random: &mut Random, over: usize) -> Made {
    loop {
        let mut draft = forward_draft(random, &ANY);
        draft.case.leaving.spellings = any_spellings(random);
        let option = match draft.leaving_label.as_ref().and_then(|label| spell(&label.label()?, draft.case.leaving.spellings)) {
            Some(option) => option,
            None => continue,
        };
        // The set decides how much room there is.
        let room = MAX_OCTETS - option.len() + over;
        let own: Vec<Vec<u8>> = draft.datagram.cipso.map(|index| draft.datagram.options[index].clone()).into_iter().collect();
        draft.datagram = datagram_of(random, own.into_iter().next(), Vec::new());
        let case = &mut draft.case;
        mark(random, &mut draft.datagram, &mut case.arriving, Some(&mut case.leaving), (true, true));
        let basic: usize = basic_place(&draft.datagram).map_or(0, |place| draft.datagram.options[place].len());
        let used: usize = draft.datagram.options.iter().map(Vec::len).sum();
        if room < basic + 2 || used + room - basic > MAX_OCTETS {
            continue;
        }
        let mut left = room - basic;
        while left > 0 {
            let length = if left < 4 || random.chance(1, 2) { left } else { random.between(2, left - 2) };
            let option = kept_option(random, length);
            insert_option(random, &mut draft.datagram, |_| option.clone());
            left -= length;
        }
        return forward_case(draft, random);
    }
}

pub fn wide_forward_full(random: &mut Random, _turn: usize, _number: u8) -> Made {
    wide_fill(random, 0)
}

pub fn wide_forward_over_full(random: &mut Random, _turn: usize, _number: u8) -> Made {
    wide_fill(random, 1)
}

/// Good areas with one octet changed, cut short or made longer by four.
pub fn wide_forward_changed(random: &mut Random, turn: usize, _number: u8) -> Made {
    let mut case = wide_draft(random, &ANY, (true, turn % 4 != 3)).draft.finish(random);
    if turn % 3 == 0 {
        // The option 130 itself.
        if let Some(place) = case.area.iter().position(|octet| *octet == BASIC_SECURITY) {
            let end = case.area.len().min(place + 5);
            mutate(random, &mut case.area[place..end]);
        }
    } else {
        change_area(random, turn, &mut case.area);
    }
    Made::Case(Case::Forward(Box::new(case)))
}

/// Two or three refusals at once: the first in the order of checks must win.
pub fn wide_forward_several(random: &mut Random, turn: usize, _number: u8) -> Made {
    let mut wide = wide_draft(random, &ANY, switched(turn, [21, 19, 0][turn / 4 % 3]));
    for number in several_checks(random) {
        let short = wide.draft.datagram.cipso.map_or(true, |index| wide.draft.datagram.options[index].len() < 10);
        if number < 7 || number > 13 || !short {
            break_wide(random, &mut wide, turn + number as usize, number);
        }
    }
    forward_case(wide.draft, random)
}

/// In an order in which they can be made one after the other, as in `several_numbers`; one of them is 19, 20 or 21.
fn several_checks(random: &mut Random) -> Vec<u8> {
    let mut numbers = several_numbers(random, 17);
    let place = random.below(numbers.len() + 1);
    numbers.insert(place, random.pick(&[19, 20, 21]));
    numbers
}

struct WideDeliver {
    draft: DeliverDraft,
    marking: Marking,
}

fn wide_delivery(random: &mut Random, wish: &Wish, on: bool) -> WideDeliver {
    let mut draft = deliver_draft(random, wish);
    draft.case.port.spellings = any_spellings(random);
    if random.chance(1, 6) {
        let default = random.pick(&[draft.case.port.lowest.clone(), draft.case.port.highest.clone(), draft.label.clone()]);
        face_unlabelled(&mut draft.case.port, &default);
    }
    let marking = mark(random, &mut draft.datagram, &mut draft.case.port, None, (on, false));
    WideDeliver { draft, marking }
}

fn break_wide_delivery(random: &mut Random, wide: &mut WideDeliver, turn: usize, number: u8) {
    match number {
        3..=5 | 19 | 20 => break_mark(random, &mut wide.draft.datagram, turn, number),
        21 if wide.draft.case.port.basic.on => wide.draft.case.port.basic.receiving = way_against(random, &wide.marking, turn),
        16.. => {}
        _ => break_deliver(random, &mut wide.draft, turn, number),
    }
}

pub fn wide_delivered(random: &mut Random, turn: usize, _number: u8) -> Made {
    let wish = if turn % 5 == 4 { Wish { labelled: Some(false), ..ANY } } else { ANY };
    let wide = wide_delivery(random, &wish, turn % 4 != 3);
    deliver_case(wide.draft, random)
}

pub fn wide_deliver_wrong_size(random: &mut Random, turn: usize, _number: u8) -> Made {
    let mut draft = wide_delivery(random, &ANY, turn % 2 == 0).draft;
    if turn % 3 == 0 {
        break_basic(random, &mut draft.case.port, turn);
    }
    let mut case = draft.finish(random);
    wrong_size(random, &mut case.area);
    Made::Case(Case::Deliver(Box::new(case)))
}

pub fn wide_deliver_broken(random: &mut Random, turn: usize, number: u8) -> Made {
    let on = number >= 19 || (turn % 2 == 0) != (number == 4);
    let mut wide = wide_delivery(random, &wish_for(number), on);
    let later = later_check(random, number);
    if later != number && later != 13 {
        break_wide_delivery(random, &mut wide, turn, later);
    }
    break_wide_delivery(random, &mut wide, turn, number);
    deliver_case(wide.draft, random)
}

pub fn wide_deliver_unsound(random: &mut Random, turn: usize, _number: u8) -> Made {
    let mut wide = wide_delivery(random, &ANY, turn % 3 != 0);
    if random.chance(1, 4) {
        let later = random.pick(&ORDER[..16]);
        break_wide_delivery(random, &mut wide, turn, later);
    }
    let clause = turn % (BASIC_CLAUSES + 3);
    match clause.checked_sub(BASIC_CLAUSES) {
        None => break_basic(random, &mut wide.draft.case.port, clause),
        Some(0) => wide.draft.case.port.spellings = 0,
        Some(1) => break_port(random, &mut wide.draft.case.port, 3 * ILL_FORMED + turn),
        Some(_) => break_host(random, &mut wide.draft.case.host, turn),
    }
    deliver_case(wide.draft, random)
}

pub fn wide_deliver_unsound_default(random: &mut Random, turn: usize, _number: u8) -> Made {
    let mut wide = wide_delivery(random, &Wish { rich: true, ..ANY }, turn % 2 == 0);
    break_default(random, &mut wide.draft.case.port, turn);
    deliver_case(wide.draft, random)
}

pub fn wide_deliver_changed(random: &mut Random, turn: usize, _number: u8) -> Made {
    let mut case = wide_delivery(random, &ANY, true).draft.finish(random);
    change_area(random, turn, &mut case.area);
    Made::Case(Case::Deliver(Box::new(case)))
}

pub fn wide_deliver_several(random: &mut Random, turn: usize, _number: u8) -> Made {
    let mut wide = wide_delivery(random, &ANY, turn % 4 != 3);
    for number in several_checks(random) {
        let short = wide.draft.datagram.cipso.map_or(true, |index| wide.draft.datagram.options[index].len() < 10);
        if number < 7 || number > 13 || !short {
            break_wide_delivery(random, &mut wide, turn + number as usize, number);
        }
    }
    deliver_case(wide.draft, random)
}
