// Cases of tables that are turned round.

use crate::cases::{Case, MAX_ROOM};
use crate::records::{Row, TableRecord, FIRST_ROWS};

use super::files::{fullest_table, small_table};
use super::long_tables::*;
use super::random::Random;
use super::sets::*;
use super::tables::*;
use super::unsound::*;
use super::Made;

fn rich_table(random: &mut Random) -> TableRecord {
    loop {
        let label = held(random_domain(random), random_level(random), &rich_runs(random));
        let to = random_domain(random);
        let table = table_for(random, &label, to, true, Targets::Anywhere);
        if table.row_count >= 2 {
            return table;
        }
    }
}

/// Rooms for exactly the rows, for one more, and for the most.
fn room_for(random: &mut Random, turn: usize, rows: usize) -> usize {
    match turn % 4 {
        0 | 1 => rows,
        2 => (rows + 1).min(MAX_ROOM),
        _ => random.pick(&[FIRST_ROWS, MAX_ROOM, MAX_ROOM - 1, 100]).max(rows),
    }
}

pub fn reversed(random: &mut Random, turn: usize, _number: u8) -> Made {
    let table = match turn % 8 {
        0 => fullest_table(random),
        7 => any_long_table(random, turn / 8),
        // No level pairs, no rows, or neither.
        1 => {
            let table = rich_table(random);
            let (pairs, rows) = ([0, table.level_count as usize, 0], [table.row_count as usize, 0, 0]);
            let way = turn / 8 % 3;
            table_of(table.from, table.to, &table.levels[..pairs[way]], &table.rows[..rows[way]])
        }
        // The rows of one category each, at both ends of what there is.
        2 => {
            let rows = [Row { low: 0, high: 0, target_low: 65_534 }, Row { low: 65_534, high: 65_534, target_low: 0 }];
            table_of(random_domain(random), random_domain(random), &[[0, 255]], &rows)
        }
        3 | 4 => rich_table(random),
        _ => small_table(random),
    };
    let room = room_for(random, turn / 8 + turn, table.row_count as usize);
    Made::Case(Case::Reverse(table, room))
}

pub fn reverse_short_room(random: &mut Random, turn: usize, _number: u8) -> Made {
    let table = match turn % 6 {
        0 => fullest_table(random),
        3 => any_long_table(random, turn / 6),
        _ => rich_table(random),
    };
    let rows = table.row_count as usize;
    let room = if turn % 2 == 0 { rows - 1 } else { random.below(rows) };
    Made::Case(Case::Reverse(table, room))
}

/// 2 comes before 24.
pub fn reverse_unsound(random: &mut Random, turn: usize, _number: u8) -> Made {
    let mut table = rich_table(random);
    break_table(random, &mut table, turn);
    if turn % 31 == 30 {
        table.level_count = random.pick(&[256, 257, 258, 65_535]);
    }
    if turn % 7 == 6 {
        table = any_long_table(random, turn);
        break_long_table(random, &mut table, turn / 7);
    }
    let room = random.pick(&[0, 1, 2, FIRST_ROWS, MAX_ROOM]);
    Made::Case(Case::Reverse(table, room))
}
