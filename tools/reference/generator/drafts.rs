// Drafts of a forward and a deliver that are likely to be done, before their options are laid out as an area.

use crate::cases::{DeliverCase, ForwardCase, Output};
use crate::decision::Facts;
use crate::label::HeldLabel;
use crate::option::{spell, MAX_OCTETS, PLAIN_SPELLINGS};
use crate::records::{renumber_alone, TableRecord};

use super::random::Random;
use super::ranges::*;
use super::sets::*;
use super::spellings::*;
use super::tables::*;

/// The options of a datagram before they are laid out as an area.
#[derive(Clone)]
pub struct Datagram {
    pub options: Vec<Vec<u8>>,
    /// Which of the options is the CIPSO option.
    pub cipso: Option<usize>,
    /// Octets that must be the last of the area.
    pub tail: Vec<u8>,
}

impl Datagram {
    /// Lays the options out, with type 1 octets between some of them and padding behind them.
    pub fn area(&self, random: &mut Random) -> Vec<u8> {
        let needed = self.options.iter().map(Vec::len).sum::<usize>() + self.tail.len();
        let mut slack = MAX_OCTETS.saturating_sub(needed);
        let mut area = Vec::new();
        for option in &self.options {
            if slack > 0 && random.chance(1, 5) {
                let count = random.between(1, slack.min(3));
                area.extend(vec![1; count]);
                slack -= count;
            }
            area.extend(option);
        }
        if !self.tail.is_empty() {
            while (area.len() + self.tail.len()) % 4 != 0 {
                area.push(1);
            }
            area.extend(&self.tail);
            return area;
        }
        let mut padding = (4 - area.len() % 4) % 4;
        if area.len() + padding + 4 <= MAX_OCTETS && random.chance(1, 6) {
            padding += 4;
        }
        match random.below(4) {
            0 => area.extend(vec![1; padding]),
            // Type 0 ends the walk; what follows is ignored, whatever it is.
            1 => area.extend((0..padding).map(|place| if place == 0 { 0 } else { random.pick(&[0, 1, 7, 130, 133, 134, 255]) })),
            _ => area.extend(vec![0; padding]),
        }
        area
    }
}

/// An option that is neither 0, 1, 130, 133 nor 134, of the given length.
pub fn kept_option(random: &mut Random, length: usize) -> Vec<u8> {
    let option_type = loop {
        let chosen = if random.chance(2, 3) { random.pick(&[2, 7, 68, 128, 129, 131, 132, 135, 137, 148, 255]) } else { random.octet() };
        if ![0, 1, 130, 133, 134].contains(&chosen) {
            break chosen;
        }
    };
    let mut option = vec![option_type, length as u8];
    option.extend(random.octets(length - 2));
    option
}

pub fn kept_options(random: &mut Random, mut room: usize) -> Vec<Vec<u8>> {
    let mut kept = Vec::new();
    for _ in 0..random.pick(&[0, 0, 0, 1, 1, 2, 3]) {
        if room >= 2 {
            let longest = if random.chance(1, 6) { room } else { room.min(8) };
            let length = random.between(2, longest);
            kept.push(kept_option(random, length));
            room -= length;
        }
    }
    kept
}

pub fn datagram_of(random: &mut Random, cipso: Option<Vec<u8>>, kept: Vec<Vec<u8>>) -> Datagram {
    let mut datagram = Datagram { options: kept, cipso: None, tail: Vec::new() };
    if let Some(option) = cipso {
        let place = random.below(datagram.options.len() + 1);
        datagram.options.insert(place, option);
        datagram.cipso = Some(place);
    }
    datagram
}

pub fn random_output(random: &mut Random) -> Output {
    let length = match random.below(60) {
        0 => 512,
        1 => 511,
        2..=5 => 64,
        6..=9 => 44,
        10..=19 => 41,
        _ => 40,
    };
    Output { length, fill: random.pick(&[0, 0x55, 0xaa, 0xff, 0x86]) }
}

/// What a draft should be like; the rest is random.
#[derive(Clone, Copy)]
pub struct Wish {
    /// Several runs in every label, several rows and level pairs in the table.
    pub rich: bool,
    pub labelled: Option<bool>,
    pub same_domain: Option<bool>,
    pub shape: Option<Shape>,
    pub targets: Targets,
}

pub const ANY: Wish = Wish { rich: false, labelled: None, same_domain: None, shape: None, targets: Targets::Small };

pub fn wished_label(random: &mut Random, domain: u32, wish: &Wish) -> HeldLabel {
    if wish.rich {
        let level = random.between(1, 254) as u8;
        let runs = rich_runs(random);
        return held(domain, level, &runs);
    }
    let shape = match wish.shape {
        Some(shape) => shape,
        None => random_shape(random),
    };
    random_label(random, domain, shape)
}

/// A forward before its options are laid out.
#[derive(Clone)]
pub struct ForwardDraft {
    pub case: ForwardCase,
    pub datagram: Datagram,
    /// The label that arrives and the one that leaves, if there is one.
    pub label: HeldLabel,
    pub leaving_label: Option<HeldLabel>,
}

impl ForwardDraft {
    pub fn finish(mut self, random: &mut Random) -> ForwardCase {
        self.case.area = self.datagram.area(random);
        self.case
    }
}

/// A forward that is likely to be done.
pub fn forward_draft(random: &mut Random, wish: &Wish) -> ForwardDraft {
    loop {
        let domain = random_domain(random);
        let same_domain = wish.same_domain.unwrap_or_else(|| random.chance(1, 3));
        let far_domain = if same_domain { domain } else { other_domain(random, domain) };
        let labelled = wish.labelled.unwrap_or_else(|| random.chance(4, 5));
        let label = wished_label(random, domain, wish);
        let spelling = random_spelling(random, &label.label().expect("a wished label is well formed"));
        let cipso = match (labelled, spelling) {
            (false, _) => None,
            (true, Some(option)) => Some(option),
            (true, None) => continue,
        };
        let table = if same_domain && random.chance(2, 3) {
            // It isn't read, and may be anything.
            TableRecord {
                from: random.next() as u32,
                level_count: random.octet() as u16,
                row_count: random.next() as u16,
                ..TableRecord::ALL_ZERO
            }
        } else {
            table_for(random, &label, far_domain, wish.rich, wish.targets)
        };
        let leaving_label = if same_domain {
            Some(label.clone())
        } else {
            match renumber_alone(&label, &table) {
                (0, renumbered) => Some(renumbered),
                _ => None,
            }
        };
        if wish.rich && leaving_label.as_ref().map_or(true, |label| label.count < 2) {
            continue;
        }
        let arriving = port_around(random, &label, wish.rich, !labelled);
        let nearby = leaving_label.clone().unwrap_or_else(|| HeldLabel::empty(far_domain, random_level(random)));
        let leaving = port_around(random, &nearby, wish.rich, false);
        let arriving_length = cipso.as_ref().map_or(0, Vec::len);
        let leaving_length =
            leaving_label.as_ref().and_then(|label| spell(&label.label()?, PLAIN_SPELLINGS)).map_or(10, |option| option.len());
        let kept = kept_options(random, MAX_OCTETS - arriving_length.max(leaving_length));
        let datagram = datagram_of(random, cipso, kept);
        let case = ForwardCase {
            arriving,
            leaving,
            table,
            facts: Facts::marked(random.chance(1, 5)),
            area: Vec::new(),
            output: random_output(random),
        };
        return ForwardDraft { case, datagram, label, leaving_label };
    }
}

/// A deliver before its options are laid out.
#[derive(Clone)]
pub struct DeliverDraft {
    pub case: DeliverCase,
    pub datagram: Datagram,
    pub label: HeldLabel,
}

impl DeliverDraft {
    pub fn finish(mut self, random: &mut Random) -> DeliverCase {
        self.case.area = self.datagram.area(random);
        self.case
    }
}

/// A deliver that is likely to be done.
pub fn deliver_draft(random: &mut Random, wish: &Wish) -> DeliverDraft {
    loop {
        let domain = random_domain(random);
        let labelled = wish.labelled.unwrap_or_else(|| random.chance(4, 5));
        let label = wished_label(random, domain, wish);
        let spelling = random_spelling(random, &label.label().expect("a wished label is well formed"));
        let cipso = match (labelled, spelling) {
            (false, _) => None,
            (true, Some(option)) => Some(option),
            (true, None) => continue,
        };
        let kept = kept_options(random, MAX_OCTETS - cipso.as_ref().map_or(0, Vec::len));
        let datagram = datagram_of(random, cipso, kept);
        let case = DeliverCase {
            port: port_around(random, &label, wish.rich, !labelled),
            host: host_around(random, &label, wish.rich),
            facts: Facts::marked(random.chance(1, 5)),
            area: Vec::new(),
        };
        return DeliverDraft { case, datagram, label };
    }
}
