// Holds the fast variant against the plain reference on generated cases of the entries that it has.
//
// The fast variant is for measuring. It decides nothing for strict ports: such cases are passed over.

use crate::basic::WayRecord;
use crate::cases::{hex, parse, Case, Line, Output, FILE_ROOM};
use crate::entries::Entries;
use crate::fast;
use crate::file::SetRecord;
use crate::generator::Generator;
use crate::label::{HeldLabel, Run};
use crate::records::{PortRecord, TableRecord};
use crate::routes::Route;

fn label(held: &HeldLabel) -> fast::Label {
    let runs = held.places.map(|run| fast::Run { low: run.low, high: run.high });
    fast::Label { domain: held.domain, level: held.level, count: held.count, runs }
}

fn held(label: &fast::Label) -> HeldLabel {
    let places = label.runs.map(|run| Run { low: run.low, high: run.high });
    HeldLabel { domain: label.domain, level: label.level, count: label.count, places }
}

fn port(record: &PortRecord) -> fast::Port {
    fast::Port {
        domain: record.domain,
        lowest: label(&record.lowest),
        highest: label(&record.highest),
        required: record.required,
        assigned: label(&record.assigned),
        basic: fast::basic::Basic { on: record.basic.on, receiving: way(&record.basic.receiving), sending: way(&record.basic.sending) },
        spellings: record.spellings,
        unlabelled: record.unlabelled,
        default: label(&record.default),
        strict: record.strict,
    }
}

fn way(record: &WayRecord) -> fast::basic::Way {
    fast::basic::Way { lowest: record.lowest, highest: record.highest, count: record.count, fields: record.places }
}

fn table(record: &TableRecord) -> fast::Table {
    fast::Table { from: record.from, to: record.to, level_count: record.level_count, levels: record.levels, row_count: record.row_count }
}

fn rows(record: &TableRecord) -> Vec<u16> {
    record.rows.iter().flat_map(|row| [row.low, row.high, row.target_low]).collect()
}

/// The rows of all tables, one behind the other. None where those of a table before the last are not as many as counted: then it is not said
/// which table has which.
fn all_rows(records: &[TableRecord]) -> Option<Vec<u16>> {
    let before_last = &records[..records.len().max(1) - 1];
    if before_last.iter().any(|record| record.rows.len() != record.row_count as usize) {
        return None;
    }
    Some(records.iter().flat_map(rows).collect())
}

fn set(record: &SetRecord) -> Option<(fast::file::Set, Vec<u16>)> {
    let mut set = fast::file::Set { port_count: record.port_count, table_count: record.table_count, ..fast::file::Set::EMPTY };
    for (place, record) in set.ports.iter_mut().zip(&record.ports) {
        *place = port(record);
    }
    for (place, record) in set.tables.iter_mut().zip(&record.tables) {
        *place = table(record);
    }
    Some((set, all_rows(&record.tables)?))
}

/// A set and room for rows that were read into before: what was left there must not show.
struct Room {
    set: fast::file::Set,
    rows: Vec<u16>,
}

impl Room {
    /// After a refusal the room must be as it was.
    fn read(&mut self, octets: &[u8]) -> Result<usize, fast::file::Refusal> {
        let before = self.rows.clone();
        let read = fast::file::read_file(octets, &mut self.set, &mut self.rows);
        let kept = read.unwrap_or(0);
        assert!(before[kept..] == self.rows[kept..], "room past the rows is not as it was");
        read
    }
}

fn add_refusal(line: &mut Line, refusal: fast::file::Refusal) {
    match refusal {
        fast::file::Refusal::Place(place) => {
            line.word("REFUSED");
            line.number(place);
        }
        fast::file::Refusal::Version(version) => {
            line.word("VERSION");
            line.number(version as usize);
        }
        fast::file::Refusal::Room => line.word("ROOM"),
    }
}

fn add_written(line: &mut Line, set: &fast::file::Set, rows: &[u16], output: Output) {
    let mut octets = vec![output.fill; output.length];
    let written = fast::file::write_file(set, rows, &mut octets);
    match written {
        Err(fast::file::NAMED) => line.word("NAMED"),
        _ => line.number(written.err().unwrap_or(0) as usize),
    }
    line.number(written.unwrap_or(0));
    line.output(&octets);
}

fn add_spelled(line: &mut Line, spelled: Result<u8, u8>, octets: &[u8]) {
    line.number(spelled.err().unwrap_or(0) as usize);
    line.number(spelled.unwrap_or(0) as usize);
    line.output(octets);
}

/// The line for a label that is returned, whose unused places must be 0 also where the line does not show them.
fn add_label(line: &mut Line, returned: &fast::Label) {
    line.label(&held(returned));
    if *returned != fast::Label::ALL_ZERO && !returned.well_formed() {
        line.word("ill-formed");
    }
}

fn add_decision(line: &mut Line, decision: &fast::Decision) {
    for number in [decision.number, decision.icmp_type, decision.icmp_code, decision.pointer, decision.count] {
        line.number(number as usize);
    }
    add_label(line, &decision.label);
}

fn route(record: &Route) -> fast::boxes::Route {
    fast::boxes::Route { prefix: record.prefix, length: record.length, port: record.port, domain: record.domain }
}

/// The fast variant's line, or none for an entry that it doesn't have.
fn answer(case: &Case, room: &mut Room) -> Option<String> {
    let mut line = Line::new();
    match case {
        Case::Spell(held, output) => {
            let mut octets = vec![output.fill; output.length];
            let spelled = fast::spell_label(&label(held), &mut octets);
            add_spelled(&mut line, spelled, &octets);
        }
        Case::SpellPermitted(held, permitted, output) => {
            let mut octets = vec![output.fill; output.length];
            let spelled = fast::spell_permitted(&label(held), *permitted, &mut octets);
            add_spelled(&mut line, spelled, &octets);
        }
        Case::Read(octets) => {
            let (number, pointer, label) = match fast::read_option(octets) {
                Ok(label) => (0, 0, label),
                Err(refusal) => (refusal.number, refusal.offset, fast::Label::ALL_ZERO),
            };
            line.number(number as usize);
            line.number(pointer as usize);
            add_label(&mut line, &label);
        }
        Case::ForwardWide(case) if case.arriving.strict => return None,
        Case::InBox(case) if case.records.ports.iter().any(|port| port.strict) => return None,
        Case::Forward(case) | Case::ForwardFacts(case) | Case::ForwardWide(case) => {
            let mut octets = vec![case.output.fill; case.output.length];
            let (arriving, leaving, table, rows) = (port(&case.arriving), port(&case.leaving), table(&case.table), rows(&case.table));
            let decision = fast::forward(&arriving, &leaving, &table, &rows, case.facts.silence(), &case.area, &mut octets);
            add_decision(&mut line, &decision);
            line.output(&octets);
        }
        Case::InBox(case) => {
            let mut octets = vec![case.output.fill; case.output.length];
            let ports: Vec<fast::Port> = case.records.ports.iter().map(port).collect();
            let tables: Vec<fast::Table> = case.records.tables.iter().map(table).collect();
            let rows = all_rows(&case.records.tables)?;
            let routes: Vec<fast::boxes::Route> = case.records.routes.iter().map(route).collect();
            let (arriving, destination, silenced) = (case.arriving, case.destination, case.facts.silence());
            let decision =
                fast::boxes::forward_in_box(&ports, &tables, &rows, &routes, arriving, destination, silenced, &case.area, &mut octets);
            add_decision(&mut line, &decision);
            line.output(&octets);
        }
        Case::ReadFile(octets) => match room.read(octets) {
            Ok(_) => {
                line.word("ACCEPTED");
                line.number(room.set.port_count as usize);
                line.number(room.set.table_count as usize);
            }
            Err(refusal) => add_refusal(&mut line, refusal),
        },
        Case::ReadAndWrite(octets, output) => match room.read(octets) {
            Ok(used) => add_written(&mut line, &room.set, &room.rows[..used], *output),
            Err(refusal) => add_refusal(&mut line, refusal),
        },
        Case::WriteFile(record, output) => {
            let (set, rows) = set(record)?;
            add_written(&mut line, &set, &rows, *output);
        }
        Case::ReadBasic(octets) => {
            let marking = fast::basic::read_basic(octets);
            line.number(if marking.is_some() { 0 } else { 19 });
            line.number(marking.map_or(0, |marking| marking.level as usize));
            line.number(marking.map_or(0, |marking| marking.flags as usize));
        }
        Case::WriteBasic(marking, output) => {
            let mut octets = vec![output.fill; output.length];
            let marking = fast::basic::Marking { level: marking.level, flags: marking.flags };
            let (number, count) = match fast::basic::write_basic(marking, &mut octets) {
                Ok(count) => (0, count),
                Err(number) => (number, 0),
            };
            line.number(number as usize);
            line.number(count as usize);
            line.output(&octets);
        }
        Case::Bitmap(octets) => {
            let mut runs = fast::Label::ALL_ZERO.runs;
            match fast::read_bitmap_alone(octets, &mut runs) {
                Ok(count) => {
                    line.number(0);
                    line.number(count as usize);
                    line.runs(&runs[..count as usize].iter().map(|run| Run { low: run.low, high: run.high }).collect::<Vec<_>>());
                }
                Err(number) => {
                    line.number(number as usize);
                    line.number(0);
                }
            }
        }
        _ => return None,
    }
    Some(line.text)
}

/// Goes through `count` generated cases. True where there is no difference.
pub fn run(count: usize, seed: u64) -> bool {
    let entries = Entries::known();
    let mut generator = Generator::new(seed, &entries);
    let mut room = Room { set: fast::file::Set::EMPTY, rows: vec![0; 3 * FILE_ROOM] };
    let mut compared = 0;
    for number in 1..=count {
        let (octets, expected) = generator.next();
        let found = match parse(&octets, &entries).as_ref().and_then(|case| answer(case, &mut room)) {
            Some(line) => line,
            None => continue,
        };
        compared += 1;
        if found != expected {
            println!("case {} differs", number);
            println!("  plain:  {}", expected);
            println!("  fast:   {}", found);
            println!("  octets: {}", hex(&octets));
            return false;
        }
    }
    println!("{} cases, {} of entries that the fast variant has compared, no difference", count, compared);
    true
}
