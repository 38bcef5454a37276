// ICMP messages: cases of building and of reading.

use crate::cases::{Case, MessageCase, Output};
use crate::decision::HEADER_OCTETS;
use crate::messages::{checksum, message_of, Report, CHECKSUM_AT, HEADER_AT, POINTER_AT, QUOTED_DATA, ZEROS_AT};
use crate::option::{DOMAIN_AT, MAX_OCTETS, TAG_TYPE_AT};

use super::drafts::*;
use super::faults::*;
use super::random::Random;
use super::spellings::random_option;
use super::Made;

/// Where RFC 791 has the identification: it may hold anything, so it is what sets a checksum.
const IDENTIFICATION_AT: usize = 4;

// Headers.

/// An option of type 130 or 133 with anything in it.
fn security_option(random: &mut Random, option_type: u8) -> Vec<u8> {
    let length = random.between(2, 6);
    let mut option = vec![option_type, length as u8];
    option.extend(random.octets(length - 2));
    option
}

/// Options with which a message is sent: with an option 134 and without one, with options 130 and 133 among the others.
fn answered_options(random: &mut Random, turn: usize) -> Datagram {
    let kind = turn % 8;
    let cipso = if [0, 3, 6].contains(&kind) { None } else { Some(random_option(random)) };
    let room = MAX_OCTETS - cipso.as_ref().map_or(0, Vec::len);
    let kept = if [0, 1].contains(&kind) { Vec::new() } else { kept_options(random, room) };
    let mut datagram = datagram_of(random, cipso, kept);
    if let (2, Some(index)) = (kind, datagram.cipso) {
        datagram.options[index][DOMAIN_AT..TAG_TYPE_AT].fill(0);
    }
    let security: &[u8] = match kind {
        4 => &[130],
        5 => &[133],
        6 => &[133, 130, 133],
        _ => &[],
    };
    for option_type in security {
        insert_option(random, &mut datagram, |random| security_option(random, *option_type));
    }
    datagram
}

/// Options with which nothing is sent: an option 134 that is not valid, or a walk that meets 3 or 5.
const SILENT_OPTIONS: usize = 10;

fn unanswered_options(random: &mut Random, way: usize) -> Datagram {
    let mut datagram = answered_options(random, 1);
    match way % SILENT_OPTIONS {
        0 => break_walk(random, &mut datagram, 3),
        1 => break_walk(random, &mut datagram, 5),
        2 => {
            insert_option(random, &mut datagram, |random| security_option(random, 130));
            insert_option(random, &mut datagram, |random| security_option(random, 130));
        }
        // A second option 134 that is the same.
        3 => {
            let option = datagram.options[0].clone();
            insert_option(random, &mut datagram, |_| option.clone());
        }
        way => {
            let number = [7, 9, 10, 11, 12, 13][way - 4];
            let index = datagram.cipso.unwrap_or(0);
            break_option(random, &mut datagram.options[index], number, false);
        }
    }
    datagram
}

/// A header with these options.
fn header_with(random: &mut Random, make: impl Fn(&mut Random) -> Datagram) -> Vec<u8> {
    let area = loop {
        let datagram = make(random);
        let area = datagram.area(random);
        if area.len() <= MAX_OCTETS && area.len() % 4 == 0 {
            break area;
        }
    };
    let version = random.pick(&[4, 4, 4, 0, 6, 15]);
    let mut header = vec![version << 4 | (HEADER_OCTETS + area.len()) as u8 / 4];
    header.extend(random.octets(HEADER_OCTETS - 1));
    header.extend(area);
    header
}

/// The data after a header: none, about eight octets, and more.
fn random_data(random: &mut Random, turn: usize) -> Vec<u8> {
    let count = match turn % 8 {
        0 => 0,
        1 => 7,
        2 | 3 => 8,
        4 => 9,
        5 => random.below(8),
        6 => random.between(10, 40),
        _ => random.pick(&[1, 255, 256, 600]),
    };
    random.octets(count)
}

/// Sets the identification of a header so that the message's checksum is 0.
fn with_checksum_zero(report: &Report, header: &mut [u8], data: &[u8]) {
    header[IDENTIFICATION_AT..IDENTIFICATION_AT + 2].fill(0);
    let message = message_of(report, header, data);
    header[IDENTIFICATION_AT..IDENTIFICATION_AT + 2].copy_from_slice(&message[CHECKSUM_AT..POINTER_AT]);
}

/// Reports that can be sent: those that the box gives, and others.
fn random_report(random: &mut Random) -> Report {
    let (icmp_type, icmp_code, pointer) = match random.below(8) {
        0 => (12, 0, random.between(20, 59) as u8),
        1 => (12, 1, 130),
        2 | 3 => (12, 1, 134),
        4 => (3, random.pick(&[9, 10, 0]), 0),
        5 => (3, random.octet(), 0),
        6 => (3, 9, 0),
        _ => (12, random.octet(), random.octet()),
    };
    Report { icmp_type, icmp_code, pointer }
}

/// Numbers for which a message is sent; some of them are not the box's.
const SENT: [u8; 18] = [6, 14, 15, 16, 17, 18, 19, 20, 21, 22, 0, 1, 2, 24, 25, 26, 128, 255];
const NOT_SENT: [u8; 11] = [3, 4, 5, 7, 8, 9, 10, 11, 12, 13, 23];

// Building.

fn output_of(random: &mut Random, length: usize) -> Output {
    Output { length, fill: random.pick(&[0, 0x55, 0xaa, 0xff]) }
}

/// The octets of both outputs that a message needs, whether it is sent or not.
fn needed(case: &MessageCase) -> (usize, usize) {
    (HEADER_AT + case.header.len() + case.data.len().min(QUOTED_DATA), MAX_OCTETS)
}

/// A case in which a message is sent, with outputs that have room.
fn sent_case(random: &mut Random, turn: usize) -> MessageCase {
    let header = header_with(random, |random| answered_options(random, turn));
    let data = random_data(random, turn / 8 + turn);
    let (number, report) = (SENT[turn % SENT.len()], random_report(random));
    let empty = Output { length: 0, fill: 0 };
    let mut case = MessageCase { number, report, header, data, message_output: empty, options_output: empty };
    give_room(random, &mut case, turn);
    case
}

/// Outputs that are just long enough for the message, and longer ones.
fn give_room(random: &mut Random, case: &mut MessageCase, turn: usize) {
    let (message, options) = exact_counts(case).unwrap_or_else(|| needed(case));
    let more = |random: &mut Random, turn: usize| [0, 0, 1, 4, random.between(2, 60)][turn % 5];
    let (message_more, options_more) = (more(random, turn), more(random, turn / 5 + turn));
    case.message_output = output_of(random, message + message_more);
    case.options_output = output_of(random, options + options_more);
}

/// What the reference writes of a case that has room enough.
fn exact_counts(case: &MessageCase) -> Option<(usize, usize)> {
    let (mut message, mut options) = ([0; 512], [0; 512]);
    match crate::messages::build(case.number, &case.report, &case.header, &case.data, &mut message, &mut options) {
        (0, 0, 0) => None,
        (0, message, options) => Some((message, options)),
        _ => None,
    }
}

/// Why a case is 2, why nothing is sent, and why an output is too short: those of each kind, one after the other.
const UNSOUND_REASONS: usize = 9;
const SILENT_REASONS: usize = 4 + SILENT_OPTIONS;
const SHORT_REASONS: usize = 4;
const REASONS: usize = UNSOUND_REASONS + SILENT_REASONS + SHORT_REASONS;

fn spoil(random: &mut Random, case: &mut MessageCase, reason: usize) {
    if reason < UNSOUND_REASONS {
        make_unsound(random, case, reason);
    } else if reason < UNSOUND_REASONS + SILENT_REASONS {
        make_silent(random, case, reason - UNSOUND_REASONS);
    } else {
        make_short(random, case, reason - UNSOUND_REASONS - SILENT_REASONS);
    }
}

fn make_unsound(random: &mut Random, case: &mut MessageCase, reason: usize) {
    match reason {
        // A header that is not as long as it says.
        0 => {
            case.header.pop();
        }
        1 => case.header.push(0),
        2 => {
            let fewer = 4 * random.between(1, 5);
            case.header.truncate(case.header.len().saturating_sub(fewer));
        }
        3 => {
            let more = 4 * random.between(1, 3);
            case.header.extend(random.octets(more));
        }
        // A length field under 5, with a header of four times that length and with any other.
        4 => {
            let field = random.below(5);
            case.header.truncate(4 * field);
            if let Some(first) = case.header.first_mut() {
                *first = *first & 0xf0 | field as u8;
            }
        }
        5 if !case.header.is_empty() => case.header[0] = case.header[0] & 0xf0 | random.below(5) as u8,
        5 => {}
        // Another type that isn't silent, and type 3 with a pointer.
        6 => {
            let (icmp_code, pointer) = random.pick(&[(1, 0), (0, 1), (0, 134), (9, 0), (1, 134), (255, 255)]);
            case.report = Report { icmp_type: 0, icmp_code, pointer };
        }
        7 => case.report.icmp_type = random.pick(&[1, 2, 4, 5, 8, 11, 13, 16, 128, 255]),
        _ => case.report = Report { icmp_type: 3, icmp_code: random.pick(&[0, 9, 10]), pointer: random.pick(&[1, 134, 128, 255]) },
    }
}

fn make_silent(random: &mut Random, case: &mut MessageCase, reason: usize) {
    match reason {
        0 => case.report = Report { icmp_type: 0, icmp_code: 0, pointer: 0 },
        1..=3 => case.number = random.pick(&NOT_SENT),
        reason => {
            case.header = header_with(random, |random| unanswered_options(random, reason - 4));
        }
    }
}

fn make_short(random: &mut Random, case: &mut MessageCase, reason: usize) {
    let (message, options) = exact_counts(case).unwrap_or_else(|| needed(case));
    let short = |random: &mut Random, length: usize| {
        let fewer = random.pick(&[1, 1, 1, 2, 4, length]);
        length.saturating_sub(fewer)
    };
    if reason != 1 {
        case.message_output.length = short(random, message);
    }
    if reason != 0 {
        case.options_output.length = short(random, options);
    }
}

pub fn message_built(random: &mut Random, turn: usize, _number: u8) -> Made {
    Made::Case(Case::BuildMessage(sent_case(random, turn)))
}

/// The checksum comes out 0.
pub fn message_built_checksum_zero(random: &mut Random, turn: usize, _number: u8) -> Made {
    let mut case = sent_case(random, turn);
    with_checksum_zero(&case.report, &mut case.header, &case.data);
    Made::Case(Case::BuildMessage(case))
}

pub fn message_unsound(random: &mut Random, turn: usize, _number: u8) -> Made {
    let mut case = sent_case(random, turn / UNSOUND_REASONS);
    make_unsound(random, &mut case, turn % UNSOUND_REASONS);
    Made::Case(Case::BuildMessage(case))
}

/// Nothing is sent; every number for which none is takes its turn.
pub fn message_not_sent(random: &mut Random, turn: usize, _number: u8) -> Made {
    let (reason, round) = (turn % SILENT_REASONS, turn / SILENT_REASONS);
    let mut case = sent_case(random, turn);
    make_silent(random, &mut case, reason);
    if (1..=3).contains(&reason) {
        case.number = NOT_SENT[(round * 3 + reason) % NOT_SENT.len()];
    }
    Made::Case(Case::BuildMessage(case))
}

pub fn message_short_output(random: &mut Random, turn: usize, _number: u8) -> Made {
    // Without an option 134 the second output is never too short, so the kind is not by turns.
    let kind = random.below(8);
    let mut case = sent_case(random, turn / SHORT_REASONS * 8 + kind);
    make_short(random, &mut case, turn % SHORT_REASONS);
    Made::Case(Case::BuildMessage(case))
}

/// Two reasons at once: "2; then, where nothing is sent [...]; then an output too short".
pub fn message_two_reasons(random: &mut Random, turn: usize, _number: u8) -> Made {
    let mut case = sent_case(random, turn);
    let (first, second) = (random.below(REASONS), random.below(REASONS));
    // What shortens an output comes last, and what changes the options comes before what changes the header's length.
    let order = |reason: &usize| if *reason < UNSOUND_REASONS { *reason + REASONS } else { *reason };
    let mut reasons = [first, second];
    reasons.sort_by_key(order);
    for reason in reasons {
        spoil(random, &mut case, reason);
    }
    if turn % 3 == 0 {
        let reason = random.below(SHORT_REASONS);
        make_short(random, &mut case, reason);
    }
    Made::Case(Case::BuildMessage(case))
}

/// One octet of the header's options changed.
pub fn message_changed(random: &mut Random, turn: usize, _number: u8) -> Made {
    let mut case = sent_case(random, turn);
    let options = case.header.len() - HEADER_OCTETS;
    if options > 0 {
        let place = HEADER_OCTETS + turn % options;
        case.header[place] = if turn % 3 == 0 { random.octet() } else { case.header[place] ^ 1 << random.below(8) };
    }
    Made::Case(Case::BuildMessage(case))
}

// Reading.

fn random_message(random: &mut Random, turn: usize) -> Vec<u8> {
    let datagram = |random: &mut Random| if turn % 4 == 3 { unanswered_options(random, turn / 4) } else { answered_options(random, turn) };
    let (mut header, mut data) = (header_with(random, datagram), random_data(random, turn));
    data.truncate(QUOTED_DATA);
    let report = random_report(random);
    if turn % 7 == 6 {
        with_checksum_zero(&report, &mut header, &data);
    }
    message_of(&report, &header, &data)
}

/// Makes the checksum that of the octets.
pub fn sign(message: &mut [u8]) {
    if message.len() >= POINTER_AT {
        let sum = checksum(message);
        message[CHECKSUM_AT..POINTER_AT].copy_from_slice(&sum);
    }
}

pub fn message_read(random: &mut Random, turn: usize, _number: u8) -> Made {
    Made::Case(Case::ReadMessage(random_message(random, turn)))
}

/// One octet changed, at every place in turn: the checksum no longer fits.
pub fn message_octet_changed(random: &mut Random, turn: usize, _number: u8) -> Made {
    let mut message = random_message(random, turn);
    let place = if turn % 2 == 0 { turn / 2 % message.len() } else { random.below(message.len()) };
    let other = random.between(1, 255) as u8;
    message[place] = if turn % 5 == 0 { message[place] ^ 255 } else { message[place].wrapping_add(other) };
    Made::Case(Case::ReadMessage(message))
}

/// One field changed, with a checksum that fits.
pub fn message_field_changed(random: &mut Random, turn: usize, _number: u8) -> Made {
    let mut message = random_message(random, turn / 12);
    let fields = message[HEADER_AT] & 15;
    match turn % 12 {
        0 => message[0] = random.pick(&[0, 1, 2, 4, 5, 8, 11, 13, 255]),
        1 => (message[0], message[POINTER_AT]) = (3, random.pick(&[1, 134, 255, 20])),
        way @ 2..=4 => message[ZEROS_AT + way - 2] = random.pick(&[1, 128, 255, 134]),
        5 => message[HEADER_AT] = message[HEADER_AT] & 0xf0 | random.below(5) as u8,
        // A header that is longer than what there is, by a little.
        6 => {
            let data = message.len() - HEADER_AT - 4 * fields as usize;
            message[HEADER_AT] = message[HEADER_AT] & 0xf0 | (fields + data as u8 / 4 + 1).min(15);
        }
        // A shorter header leaves more than eight data octets behind it.
        7 => {
            message.resize(HEADER_AT + 4 * fields as usize + QUOTED_DATA, 7);
            message[HEADER_AT] = message[HEADER_AT] & 0xf0 | (fields - 1).max(4);
        }
        // A ninth data octet, and more.
        8 => message.resize(HEADER_AT + 4 * fields as usize + QUOTED_DATA + 1, random.pick(&[0, 1, 255])),
        9 => {
            let count = random.between(1, 400);
            message.resize(HEADER_AT + 4 * fields as usize + QUOTED_DATA + count, 0);
        }
        // A header cut at each of its last octets.
        10 => message.truncate(HEADER_AT + 4 * fields as usize - 1 - turn / 12 % 20),
        _ => message.truncate(turn / 12 * 3 % (HEADER_AT + HEADER_OCTETS)),
    }
    sign(&mut message);
    // ff ff where the checksum comes out 0.
    if turn % 24 == 12 {
        message = checksum_of_ones(random, turn);
    }
    Made::Case(Case::ReadMessage(message))
}

fn checksum_of_ones(random: &mut Random, turn: usize) -> Vec<u8> {
    let (mut header, data) = (header_with(random, |random| answered_options(random, turn)), random.octets(turn / 24 % 9));
    let report = random_report(random);
    with_checksum_zero(&report, &mut header, &data);
    let mut message = message_of(&report, &header, &data);
    message[CHECKSUM_AT..POINTER_AT].fill(255);
    message
}

/// A message cut at every octet, with the checksum that it had and with one that fits.
pub fn message_cut(random: &mut Random, turn: usize, _number: u8) -> Made {
    let mut message = random_message(random, turn);
    let length = if turn % 4 == 3 { message.len() - 1 - turn / 4 % 9 } else { (turn / 2 * 3) % message.len() };
    message.truncate(length);
    if turn % 2 == 1 {
        sign(&mut message);
    }
    Made::Case(Case::ReadMessage(message))
}
