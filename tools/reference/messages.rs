// The ICMP message about a refusal: building and reading.
//
// Document 02, wish 9; RFC 792; RFC 791 for the header; the draft, section 5.4, for the reply's label.

use crate::area::walk_without_4;
use crate::decision::{HEADER_OCTETS, PARAMETER_PROBLEM, UNREACHABLE};
use crate::option::valid;

/// "type, code, checksum, pointer, three zeros, then the offending header and first eight data octets"
pub const CHECKSUM_AT: usize = 2;
pub const POINTER_AT: usize = 4;
pub const ZEROS_AT: usize = 5;
pub const HEADER_AT: usize = 8;
pub const QUOTED_DATA: usize = 8;

/// "A header not four times its length field (at least 5) long": the field is the low half of the first octet.
const LEAST_LENGTH_FIELD: usize = HEADER_OCTETS / 4;

/// A refusal as it is handed in, or as a message says it.
#[derive(Clone, Copy, PartialEq, Eq, Debug)]
pub struct Report {
    pub icmp_type: u8,
    pub icmp_code: u8,
    pub pointer: u8,
}

impl Report {
    /// "'Silent' is type, code and pointer all 0."
    fn silent(&self) -> bool {
        (self.icmp_type, self.icmp_code, self.pointer) == (0, 0, 0)
    }

    /// "type 12, or 3 with pointer 0"
    fn can_be_sent(&self) -> bool {
        self.icmp_type == PARAMETER_PROBLEM || self.icmp_type == UNREACHABLE && self.pointer == 0
    }
}

/// How long a header says it is, where its length field is there and at least 5.
fn header_length(octets: &[u8]) -> Option<usize> {
    let field = (*octets.first()? & 15) as usize;
    if field < LEAST_LENGTH_FIELD {
        return None;
    }
    Some(4 * field)
}

/// RFC 792: "The checksum is the 16-bit ones's complement of the one's complement sum of the ICMP message starting with the ICMP Type.
/// For computing the checksum, the checksum field should be zero. If the total length is odd, the received data is padded with one octet
/// of zeros for computing the checksum."
pub fn checksum(message: &[u8]) -> [u8; 2] {
    let mut octets = message.to_vec();
    octets[CHECKSUM_AT..POINTER_AT].fill(0);
    if octets.len() % 2 == 1 {
        octets.push(0);
    }
    let mut sum = 0u32;
    for pair in octets.chunks(2) {
        sum += u16::from_be_bytes([pair[0], pair[1]]) as u32;
        // A carry out of the 16 bits comes back in at the low end.
        if sum > 0xffff {
            sum -= 0xffff;
        }
    }
    (!(sum as u16)).to_be_bytes()
}

/// The whole message: "the offending header and first eight data octets (or all, if fewer)".
pub fn message_of(report: &Report, header: &[u8], data: &[u8]) -> Vec<u8> {
    let mut message = vec![report.icmp_type, report.icmp_code, 0, 0, report.pointer, 0, 0, 0];
    message.extend(header);
    message.extend(&data[..data.len().min(QUOTED_DATA)]);
    let checksum = checksum(&message);
    message[CHECKSUM_AT..POINTER_AT].copy_from_slice(&checksum);
    message
}

/// "For refusals 3 to 5 and 7 to 13 nothing is sent." Wish 10: "23 (12/0, nothing sent)".
fn never_sent(number: u8) -> bool {
    matches!(number, 3..=5 | 7..=13 | 23)
}

/// The reply's options area: "the header's option 134 copied octet for octet, zeros to a multiple of 4, when it was valid; when it wasn't,
/// or the walk, check 4 left out, meets 3 or 5, no message at all. [...] Any other with no option 134 is answered without one." None for
/// no message at all.
fn reply_options(header: &[u8]) -> Option<Vec<u8>> {
    let met = walk_without_4(&header[HEADER_OCTETS..]).ok()?;
    let mut options = Vec::new();
    if let Some((_, option)) = met.cipso {
        if !valid(option) {
            return None;
        }
        options.extend(option);
    }
    while options.len() % 4 != 0 {
        options.push(0);
    }
    Some(options)
}

/// Builds the message and the reply's options area. The number and the two counts: "A header not four times its length field (at least 5)
/// long, another type not silent, or type 3 with a pointer not 0, is 2; then, where nothing is sent (silent refusals too), both counts are
/// 0; then an output too short is 24. All three leave both untouched." Lent room past what is written stays.
pub fn build(
    number: u8,
    report: &Report,
    header: &[u8],
    data: &[u8],
    message_output: &mut [u8],
    options_output: &mut [u8],
) -> (u8, usize, usize) {
    if header_length(header) != Some(header.len()) {
        return (2, 0, 0);
    }
    if !report.silent() && !report.can_be_sent() {
        return (2, 0, 0);
    }
    if report.silent() || never_sent(number) {
        return (0, 0, 0);
    }
    let options = match reply_options(header) {
        Some(options) => options,
        None => return (0, 0, 0),
    };
    let message = message_of(report, header, data);
    if message_output.len() < message.len() || options_output.len() < options.len() {
        return (24, 0, 0);
    }
    message_output[..message.len()].copy_from_slice(&message);
    options_output[..options.len()].copy_from_slice(&options);
    (0, message.len(), options.len())
}

/// The parts of a message.
#[derive(Clone, PartialEq, Eq, Debug)]
pub struct Parts {
    pub report: Report,
    pub header: Vec<u8>,
    pub data: Vec<u8>,
}

/// "a reader that returns the parts of exactly such messages (type 12, or 3 with pointer 0; the checksum as built, the zeros, a whole
/// header, at most eight data octets) and gives 25 for others." None for 25.
pub fn read(message: &[u8]) -> Option<Parts> {
    let quoted = message.get(HEADER_AT..)?;
    let report = Report { icmp_type: message[0], icmp_code: message[1], pointer: message[POINTER_AT] };
    if !report.can_be_sent() {
        return None;
    }
    if message[CHECKSUM_AT..POINTER_AT] != checksum(message) {
        return None;
    }
    if message[ZEROS_AT..HEADER_AT] != [0, 0, 0] {
        return None;
    }
    let length = header_length(quoted)?;
    let (header, data) = (quoted.get(..length)?, quoted.get(length..)?);
    if data.len() > QUOTED_DATA {
        return None;
    }
    Some(Parts { report, header: header.to_vec(), data: data.to_vec() })
}
