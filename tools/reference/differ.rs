// Shows the first difference between the lines of two programs, with the octets that led to it.

use std::io::{self, BufRead, Read};

use crate::cases::{self, hex};
use crate::sample;

/// The next line without its end, or none at the end of input.
fn next_line(lines: &mut impl BufRead) -> io::Result<Option<String>> {
    let mut line = Vec::new();
    if lines.read_until(b'\n', &mut line)? == 0 {
        return Ok(None);
    }
    match line.last() {
        Some(b'\n') => {
            line.pop();
        }
        _ => line.extend(b" (without an end of line)"),
    }
    Ok(Some(String::from_utf8_lossy(&line).into_owned()))
}

/// Compares line by line; `octets_of_next` gives what the next line answers. True where there is no difference.
fn first_difference(
    what: &str,
    expected: &mut impl BufRead,
    found: &mut impl BufRead,
    mut octets_of_next: impl FnMut() -> io::Result<Option<Vec<u8>>>,
) -> io::Result<bool> {
    let mut number = 0;
    loop {
        let (expected_line, found_line) = (next_line(expected)?, next_line(found)?);
        if expected_line.is_none() && found_line.is_none() {
            println!("{} {}s compared, no difference", number, what);
            return Ok(true);
        }
        number += 1;
        let octets = octets_of_next()?;
        if expected_line != found_line {
            let shown = |line: Option<String>| line.unwrap_or_else(|| "(no line)".to_string());
            println!("{} {} differs", what, number);
            println!("  reference: {}", shown(expected_line));
            println!("  box:       {}", shown(found_line));
            println!("  octets:    {}", octets.map_or("(none)".to_string(), |octets| hex(&octets)));
            return Ok(false);
        }
    }
}

/// The octets shown are those after the case's length; for a case cut off, all that is there.
pub fn cases(input: &mut impl Read, expected: &mut impl BufRead, found: &mut impl BufRead) -> io::Result<bool> {
    led_by_two_octets("case", input, expected, found)
}

/// A recorded case has its length in two octets too.
pub fn inspect(input: &mut impl Read, expected: &mut impl BufRead, found: &mut impl BufRead) -> io::Result<bool> {
    led_by_two_octets("recorded case", input, expected, found)
}

fn led_by_two_octets(what: &str, input: &mut impl Read, expected: &mut impl BufRead, found: &mut impl BufRead) -> io::Result<bool> {
    first_difference(what, expected, found, || {
        Ok(match cases::next_case(input)? {
            cases::Next::Whole(octets) | cases::Next::CutOff(octets) => Some(octets),
            cases::Next::End => None,
        })
    })
}

pub fn sample(input: &mut impl Read, expected: &mut impl BufRead, found: &mut impl BufRead) -> io::Result<bool> {
    first_difference("sample record", expected, found, || {
        Ok(match sample::next_record(input)? {
            sample::Next::Whole(octets) | sample::Next::CutOff(octets) => Some(octets),
            sample::Next::End => None,
        })
    })
}
