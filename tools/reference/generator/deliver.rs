// Cases of deliver.

use crate::cases::Case;

use super::drafts::*;
use super::faults::*;
use super::random::Random;
use super::ranges::*;
use super::sets::Shape;
use super::unsound::*;
use super::Made;

pub fn deliver_case(draft: DeliverDraft, random: &mut Random) -> Made {
    Made::Case(Case::Deliver(Box::new(draft.finish(random))))
}

pub fn delivered(random: &mut Random, turn: usize, _number: u8) -> Made {
    let wish = match turn % 20 {
        0 | 5 | 10 | 15 => Wish { labelled: Some(false), ..ANY },
        1 | 11 => Wish { rich: true, ..ANY },
        7 => Wish { shape: Some(Shape::Alternating), ..ANY },
        _ => ANY,
    };
    let draft = deliver_draft(random, &wish);
    deliver_case(draft, random)
}

pub fn deliver_wrong_size(random: &mut Random, turn: usize, _number: u8) -> Made {
    let mut draft = deliver_draft(random, &ANY);
    match turn % 4 {
        0 => ill_form(random, &mut draft.case.port.lowest, turn),
        1 => ill_form(random, &mut draft.case.host.highest, turn),
        _ => {}
    }
    let mut case = draft.finish(random);
    wrong_size(random, &mut case.area);
    Made::Case(Case::Deliver(Box::new(case)))
}

pub fn deliver_unsound(random: &mut Random, turn: usize, _number: u8) -> Made {
    let mut draft = deliver_draft(random, &Wish { rich: true, ..ANY });
    if random.chance(1, 4) {
        let later = random.between(3, 15) as u8;
        break_deliver(random, &mut draft, turn, later);
    }
    let clause = turn % (PORT_CLAUSES + HOST_CLAUSES);
    if clause < PORT_CLAUSES {
        break_port(random, &mut draft.case.port, clause);
    } else {
        break_host(random, &mut draft.case.host, clause - PORT_CLAUSES);
    }
    deliver_case(draft, random)
}

pub fn break_deliver(random: &mut Random, draft: &mut DeliverDraft, turn: usize, number: u8) {
    match number {
        2 if random.chance(1, 2) => break_port(random, &mut draft.case.port, turn),
        2 => break_host(random, &mut draft.case.host, turn),
        3..=5 => break_walk(random, &mut draft.datagram, number),
        6 => drop_label(&mut draft.datagram, &mut draft.case.port),
        7..=13 => {
            if let Some(index) = draft.datagram.cipso {
                break_option(random, &mut draft.datagram.options[index], number, true);
            }
        }
        14 => {
            let label = outside(random, &draft.label, &draft.case.port.lowest, &draft.case.port.highest);
            relabel(random, &mut draft.datagram, &label);
        }
        _ => {
            let host = &mut draft.case.host;
            narrow(random, &mut host.lowest, &mut host.highest, &draft.label);
        }
    }
}

pub fn deliver_broken(random: &mut Random, turn: usize, number: u8) -> Made {
    let labelled = if (7..=13).contains(&number) { Some(true) } else { None };
    let mut draft = deliver_draft(random, &Wish { labelled, ..ANY });
    let later = later_number(random, number, 15);
    if later > number && later != 13 {
        break_deliver(random, &mut draft, turn, later);
    }
    break_deliver(random, &mut draft, turn, number);
    if later == 13 && number > 7 && number < 13 {
        break_deliver(random, &mut draft, turn, later);
    }
    deliver_case(draft, random)
}

pub fn deliver_changed(random: &mut Random, turn: usize, _number: u8) -> Made {
    let mut case = deliver_draft(random, &ANY).finish(random);
    if turn % 10 == 9 {
        let length = random.below(256);
        case.area = area_of_length(random, length);
    } else {
        change_area(random, turn, &mut case.area);
    }
    Made::Case(Case::Deliver(Box::new(case)))
}

pub fn deliver_several(random: &mut Random, turn: usize, _number: u8) -> Made {
    let mut draft = deliver_draft(random, &ANY);
    for number in several_numbers(random, 15) {
        let short = draft.datagram.cipso.map_or(true, |index| draft.datagram.options[index].len() < 10);
        if number < 7 || number > 13 || !short {
            break_deliver(random, &mut draft, turn, number);
        }
    }
    deliver_case(draft, random)
}
