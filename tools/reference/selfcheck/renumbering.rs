// Wish 11: renumbering keeps order, joining and renumbering may be exchanged, and the reverse table leads back.

use crate::cases::line_of;
use crate::categories::Categories;
use crate::entries::Entries;
use crate::generator::{random_label_and_table, Random};
use crate::label::{HeldLabel, Label, Run};
use crate::records::{renumber_alone, reverse, Row, TableRecord};

use super::{octets_of, Tally};

/// "joining two labels (higher level, all categories of either)"; none over 120 runs. The labels have one domain.
fn join(one: &HeldLabel, other: &HeldLabel) -> Option<HeldLabel> {
    let (one, other) = (one.label()?, other.label()?);
    let mut categories: Categories = one.categories.clone();
    for category in other.categories.iter() {
        categories.insert(category);
    }
    Label { domain: one.domain, level: one.level.max(other.level), categories }.held()
}

fn renumbered(label: &HeldLabel, table: &TableRecord) -> Option<HeldLabel> {
    match renumber_alone(label, table) {
        (0, label) => Some(label),
        _ => None,
    }
}

/// Another label that the table has numbers for: parts of the first one's runs, with other rows' categories.
fn another(random: &mut Random, label: &HeldLabel, table: &TableRecord) -> HeldLabel {
    let mut categories = Categories::none();
    let used = &label.places[..label.count as usize];
    let rows: Vec<Run> = table.rows.iter().map(|row| Run { low: row.low, high: row.high.min(row.low.saturating_add(40)) }).collect();
    for run in used.iter().chain(&rows) {
        match random.below(3) {
            0 => categories.insert_run(run.low, run.high),
            1 => {
                let low = random.between(run.low as usize, run.high as usize) as u16;
                categories.insert_run(low, random.between(low as usize, run.high as usize) as u16);
            }
            _ => {}
        }
    }
    let level = table.levels[random.below(table.level_count as usize)][0];
    Label { domain: label.domain, level, categories }.held().unwrap_or_else(|| HeldLabel { level, ..label.clone() })
}

fn laws(tally: &mut Tally, random: &mut Random, counts: &mut [usize; 3]) {
    let (label, table) = random_label_and_table(random);
    let other = match random.below(4) {
        0 => label.clone(),
        _ => another(random, &label, &table),
    };
    let back = reverse(&table, table.row_count as usize);
    tally.equal("a sound table has a reverse", back.is_ok(), true);
    let back = back.unwrap_or(TableRecord::ALL_ZERO);
    tally.equal("the reverse is sound", back.sound().is_some(), true);
    tally.equal("turned round twice", reverse(&back, back.row_count as usize) == Ok(table.clone()), true);
    for label in [&label, &other] {
        if let Some(out) = renumbered(label, &table) {
            counts[0] += 1;
            tally.equal("out and back", renumbered(&out, &back).as_ref() == Some(label), true);
        }
    }
    if let (Some(one_out), Some(other_out)) = (renumbered(&label, &table), renumbered(&other, &table)) {
        counts[1] += label.within(&other) as usize + other.within(&label) as usize;
        tally.equal("order is kept", label.within(&other), one_out.within(&other_out));
        tally.equal("order is kept the other way", other.within(&label), other_out.within(&one_out));
        if let (Some(joined), Some(joined_out)) = (join(&label, &other), join(&one_out, &other_out)) {
            counts[2] += 1;
            tally.equal("joined and renumbered", renumbered(&joined, &table) == Some(joined_out), true);
        }
    }
}

/// Tables at their limits: every category goes where its row says.
fn long_tables(tally: &mut Tally) {
    let row = |place: u16, target_low: u16| Row { low: 2 * place, high: 2 * place, target_low };
    for (rows, sound) in [(64, true), (65, true), (900, true), (1024, true), (1025, false)] {
        let mut table = TableRecord { from: 1, to: 2, level_count: 256, row_count: rows, ..TableRecord::ALL_ZERO };
        (0..=255).for_each(|level| table.levels[level as usize] = [level, level]);
        for reversed in [false, true] {
            table.rows = (0..rows).map(|place| row(place, if reversed { rows - 1 - place } else { place })).collect();
            tally.equal("a long table", table.sound().is_some(), sound);
            let mut label = HeldLabel { count: 1, ..HeldLabel::empty(1, 255) };
            let last = 2 * (rows - 1);
            label.places[0] = Run { low: last, high: last };
            let mut far = HeldLabel { count: 1, ..HeldLabel::empty(2, 255) };
            let target = if reversed { 0 } else { rows - 1 };
            far.places[0] = Run { low: target, high: target };
            let expected = if sound { (0, far) } else { (2, HeldLabel::ALL_ZERO) };
            tally.equal("its last row", renumber_alone(&label, &table) == expected, true);
            let mut fewer = table.clone();
            fewer.rows.pop();
            tally.equal("one row too few", fewer.sound().is_some(), false);
            let mut double = table.clone();
            double.rows[0].target_low = double.rows[rows as usize - 1].target_low;
            tally.equal("two rows with one target", double.sound().is_some(), false);
        }
        table.level_count = 257;
        tally.equal("257 level pairs", table.sound().is_some(), false);
    }
}

pub fn renumbering(tally: &mut Tally) {
    let line = |octets: &str| line_of(&octets_of(octets), &Entries::known());
    let table = "00000005 00000009 0003 0003 0102 0304 0506 0002 0002 0000 0063 03e8 0064 012c 0000";
    let turned = "0 9 5 3 2 1 4 3 6 5 2 0 200 100 1000 1099 0";
    tally.equal("the sample's table", line(&format!("16 {} 0002", table)), turned.to_string());
    tally.equal("the most room", line(&format!("16 {} 0400", table)), turned.to_string());
    tally.equal("short room", line(&format!("16 {} 0001", table)), "24 0 0 0 0".to_string());
    tally.equal("room over its limit", line(&format!("16 {} 0401", table)), "BROKEN".to_string());
    tally.equal("no rows, no room", line("16 00000001 00000001 0000 0000 0000 0000 0000"), "0 1 1 0 0".to_string());
    tally.equal("an unsound table", line("16 00000001 00000000 0000 0000 0000 0000 0000"), "2 0 0 0 0".to_string());
    tally.equal("2 comes before 24", line("16 00000001 00000000 0000 0000 0001 0000 0000"), "2 0 0 0 0".to_string());
    tally.equal("rows not lent as counted", line("16 00000001 00000002 0000 0000 0001 0000 0001"), "2 0 0 0 0".to_string());
    tally.equal("a row of zeros", line("16 00000001 00000002 0000 0000 0001 0001 000000000000 0001"), "0 2 1 0 1 0 0 0".to_string());
    tally.equal("one row too many", line("16 00000001 00000002 0000 0000 0000 0001 000000000000 0001"), "2 0 0 0 0".to_string());
    // Entry 3 lends its rows as counted, and those past the count that are not zero; entry 19 those that are there.
    let label = "00000001 00 00 00";
    tally.equal("entry 3, a row of zeros", line(&format!("03 {} 00000001 00000002 01 00 0001 00", label)), "0 2 0 0".to_string());
    tally.equal(
        "entry 3, zeros past the count",
        line(&format!("03 {} 00000001 00000002 01 00 0000 01 000000000000", label)),
        "0 2 0 0".to_string(),
    );
    tally.equal(
        "entry 3, others past the count",
        line(&format!("03 {} 00000001 00000002 01 00 0000 02 000000000000 000000000001", label)),
        "2 0 0 0".to_string(),
    );
    tally.equal("entry 19, one row too few", line(&format!("13 {} 00000001 00000002 0001 0000 0001 0000", label)), "2 0 0 0".to_string());
    tally.equal("entry 19", line(&format!("13 {} 00000001 00000002 0001 0000 0001 0001 000000000000", label)), "0 2 0 0".to_string());
    long_tables(tally);

    let mut random = Random::new(11);
    let mut counts = [0; 3];
    for _ in 0..2000 {
        laws(tally, &mut random, &mut counts);
    }
    // A law that is never tried would pass too.
    tally.equal("each law is tried often", counts.iter().all(|count| *count > 500), true);
}
