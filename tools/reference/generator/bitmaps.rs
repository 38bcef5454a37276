// Cases of bitmaps read alone.

use crate::cases::Case;

use super::random::Random;
use super::Made;

const MAX_OCTETS: usize = 30;

/// Bitmaps of every length up to 30 octets.
pub fn bitmap_read(random: &mut Random, turn: usize, _number: u8) -> Made {
    let round = turn / 6;
    let octets = match turn % 6 {
        // Every octet comes to every place within 256 rounds.
        0 | 1 => (0..MAX_OCTETS).map(|place| (round * 2 + turn % 2 + 37 * place) as u8).collect(),
        // One octet alone, or among full ones.
        2 => {
            let mut octets = vec![random.pick(&[0, 0, 0xff]); random.between(1, MAX_OCTETS)];
            let place = random.below(octets.len());
            octets[place] = random.octet();
            octets
        }
        // Runs that go across the borders of octets: each octet's first and last bits are as a neighbour could want them.
        3 => {
            let length = random.between(2, MAX_OCTETS);
            (0..length).map(|_| random.pick(&[0x00, 0xff, 0x01, 0x80, 0x81, 0x7e, 0xfe, 0x7f, 0xf0, 0x0f])).collect()
        }
        4 => {
            let length = if round % 4 == 0 { round / 4 % (MAX_OCTETS + 1) } else { random.between(0, MAX_OCTETS) };
            random.octets(length)
        }
        // The fullest, the emptiest, and those with the most runs.
        _ => vec![random.pick(&[0x00, 0xff, 0xaa, 0x55]); random.pick(&[0, 1, 29, 30, 30])],
    };
    Made::Case(Case::Bitmap(octets))
}

/// "over 30 octets: 10"
pub fn bitmap_long(random: &mut Random, turn: usize, _number: u8) -> Made {
    let length = match turn % 4 {
        0 => MAX_OCTETS + 1,
        1 => random.pick(&[32, 33, 34, 40, 64, 254, 255]),
        _ => random.between(MAX_OCTETS + 1, 255),
    };
    let octets = if turn % 3 == 0 { vec![0; length] } else { random.octets(length) };
    Made::Case(Case::Bitmap(octets))
}
