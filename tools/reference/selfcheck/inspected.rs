// The inspector: vectors beside document 01's sample, and generated records.

use crate::file::{file_of, SetRecord, VERSIONS};
use crate::generator::recorded::recorded;
use crate::inspect::{run, Inspector};
use crate::sample;

use super::{octets_of, Tally};

/// The lines for records that are given without their lengths; what comes last is as it is.
fn lines(inspector: Option<&Inspector>, records: &[&str], last: &str) -> String {
    let mut input = Vec::new();
    for record in records {
        let octets = octets_of(record);
        input.extend((octets.len() as u16).to_be_bytes());
        input.extend(octets);
    }
    input.extend(octets_of(last));
    let mut output = Vec::new();
    run(&mut &input[..], &mut output, inspector).expect("a vector can be written to");
    String::from_utf8(output).expect("lines are text").replace('\n', "; ")
}

fn vectors(tally: &mut Tally) {
    let set = SetRecord::of(&[sample::arriving(), sample::leaving()], &[sample::table()]);
    let inspector = Inspector::of_file(&file_of(&set, &VERSIONS[0]));
    let mut check = |what: &str, record: &str, expected: &str| {
        let found = lines(inspector.as_ref(), &[record], "");
        tally.equal(what, found, format!("{}; ", expected));
    };
    let head = "01 00 01 0000000000";
    let area = "0c 860c00000005020600030000";
    let written = "0c 860c000000090206000403e8";
    check("the sample's first line", &format!("{} {} 00000000 {}", head, area, written), "AGREES");
    check("another number", &format!("{} 00 050c0186 00", head), "DIFFERS 0");
    check("what it is", &format!("{} 00 06 0c 01 86 00", head), "AGREES");
    check("another code", &format!("{} 00 06 0c 00 86 00", head), "DIFFERS 2");
    check("another pointer", &format!("{} 00 06 0c 01 85 00", head), "DIFFERS 3");
    check("an area after a refusal", &format!("{} 00 06 0c 01 86 01 00", head), "DIFFERS 4");
    check("a silenced refusal", "01 00 01 0000000001 00 06 00 00 00 00", "AGREES");
    check("a refusal that is not silenced", "01 00 01 0000000001 00 06 0c 01 86 00", "DIFFERS 1");
    check("the last octet", &format!("{} {} 00000000 0c 860c000000090206000403e9", head, area), "DIFFERS 16");
    check("the first octet", &format!("{} {} 00000000 0c 850c000000090206000403e9", head, area), "DIFFERS 5");
    check("no leaving area", &format!("{} {} 00000000 00", head, area), "DIFFERS 4");
    check("equal domains", "01 00 00 0000000000 0c 860c00000005020600030000 00000000 0c 860b00000005010500038000", "AGREES");
    check("no table that way", "01 01 00 0000000000 0c 860a00000009010400030000 10 03 09 00 00", "AGREES");
    check("version 2", "02 00 01 0000000000 00 00000000 00", "BROKEN");
    check("a port that there is not", "01 00 02 0000000000 00 00000000 00", "BROKEN");
    check("an arriving port that there is not", "01 02 00 0000000000 00 00000000 00", "BROKEN");
    check("a fact of 2", "01 00 01 0000000002 00 00000000 00", "BROKEN");
    check("an octet too many", "01 00 01 0000000000 00 00000000 00 00", "BROKEN");
    check("nothing", "", "BROKEN");
    let good = format!("{} 00 06 0c 01 86 00", head);
    tally.equal("one that is broken, then another", lines(inspector.as_ref(), &["00", &good], ""), "BROKEN; AGREES; ".to_string());
    tally.equal("a length cut off", lines(inspector.as_ref(), &[&good], "00"), "AGREES; BROKEN; ".to_string());
    tally.equal("a record cut off", lines(inspector.as_ref(), &[&good], "0002 01"), "AGREES; BROKEN; ".to_string());
    tally.equal("no records", lines(inspector.as_ref(), &[], ""), "".to_string());
    tally.equal("no file", lines(None, &[&good, &good], ""), "BROKEN; ".to_string());
    tally.equal("a refused file", Inspector::of_file(&[0, 3, 1]).is_none(), true);
}

pub fn inspected(tally: &mut Tally) {
    vectors(tally);
    for version in 0..VERSIONS.len() {
        let mut records = Vec::new();
        let made = recorded(300, version as u64, version, &mut records);
        let file = made.map(|(_, file)| file).unwrap_or_default();
        let inspector = Inspector::of_file(&file);
        tally.equal("the version of a made file", (inspector.is_some(), file.get(2).copied()), (true, Some(version as u8 + 1)));
        let mut output = Vec::new();
        tally.equal("records are read", run(&mut &records[..], &mut output, inspector.as_ref()).is_ok(), true);
        tally.equal("a line for each", output.iter().filter(|octet| **octet == b'\n').count(), 300);
    }
}
