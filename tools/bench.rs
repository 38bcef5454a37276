// Times the box against the second program's fast variant, in one run and interleaved, on the same inputs, and holds their answers against each
// other first. tools/bench calls it three times:
//   --time FOLDER     compares, times, and writes FOLDER/times: a line for each case with the times of both halves
//   --count           runs each half of each case once, with a call of `count_mark` before it, for a count of instructions
//   --render FOLDER   prints the tables of FOLDER/times and FOLDER/counts, and writes FOLDER/SPEED.md and FOLDER/speed.svg
// With one word more the first two take the cases whose group begins so.
//
// A new row is a `Case` in `cases`; a new kind of work is a variant of `Work` with its two halves and its comparison.

#[allow(dead_code)]
#[path = "reference/fast.rs"]
mod fast;

use std::fmt::Write;
use std::hint::black_box;
use std::rc::Rc;
use std::time::Instant;

// The crate `bench_exports`: one call each, with the whole answer.
extern "C" {
    fn inglebreek_read(octets: *const u8, octets_len: usize, answer: *mut u64, answer_len: usize, runs: *mut u32, runs_len: usize) -> u8;
    fn inglebreek_spell(
        domain: u32,
        level: u8,
        runs: *const u32,
        runs_len: usize,
        out: *mut u8,
        out_len: usize,
        answer: *mut u64,
        answer_len: usize,
    ) -> u8;
    fn inglebreek_forward(
        error: bool,
        group: bool,
        link: bool,
        fragment: bool,
        source: bool,
        area: *const u8,
        area_len: usize,
        out: *mut u8,
        out_len: usize,
        answer: *mut u64,
        answer_len: usize,
        runs: *mut u32,
        runs_len: usize,
    ) -> u8;
}

// The crates `bench_loops` and `bench_parts`: many calls in one, with a digest of fixed places.
extern "C" {
    fn time_read(octets: *const u8, octets_len: usize, size: usize, times: usize) -> usize;
    fn time_spell(octets: *const u8, octets_len: usize, size: usize, out: *mut u8, out_len: usize, times: usize) -> usize;
    fn time_bitmap(octets: *const u8, octets_len: usize, size: usize, times: usize) -> usize;
    fn time_read_file(octets: *const u8, octets_len: usize, times: usize) -> usize;
    fn time_write_file(octets: *const u8, octets_len: usize, out: *mut u8, out_len: usize, times: usize) -> usize;
    fn time_forward(
        lower: u8,
        upper: u8,
        high: u16,
        rows: *const u16,
        rows_len: usize,
        width: usize,
        area: *const u8,
        area_len: usize,
        size: usize,
        out: *mut u8,
        out_len: usize,
        times: usize,
    ) -> usize;
}

/// All cases are gone through so often, so that each is spread over the whole run.
const PASSES: usize = 10;
/// Calls that are timed together, how often that is done in a pass, and how many calls are counted.
#[derive(Clone, Copy)]
struct Rounds {
    calls: usize,
    rounds: usize,
    counted: usize,
}

const SHORT: Rounds = Rounds { calls: 960, rounds: 30, counted: 960 };
/// Dear calls: a file, and a table of many rows that is the same in every call.
const LONG: Rounds = Rounds { calls: 64, rounds: 20, counted: 128 };
/// A new table in every call. Each lot of tables has its own shortest round, and lies a whole pass over the others behind the last time.
const ONCE: Rounds = Rounds { calls: LOT, rounds: 2, counted: 128 };
/// How many tables take turns where each is new, and how many of them are timed together.
const TABLES: usize = 1024;
const LOT: usize = SLOTS;
/// How many options of one kind take turns: one fixed input would be learned by the branch predictor.
const SLOTS: usize = 64;
/// How many labels take turns in spelling.
const LABELS: usize = 8;
const OUTPUT: usize = 48;
/// Room for the largest gateway file.
const FILE_ROOM: usize = 60 * 1024;
const FILL: u8 = 0xee;

// The inputs.

struct Random(u64);

impl Random {
    fn below(&mut self, n: u64) -> u64 {
        self.0 ^= self.0 << 13;
        self.0 ^= self.0 >> 7;
        self.0 ^= self.0 << 17;
        (self.0 >> 11) % n
    }

    /// `count` different numbers from `low` to `high`, ascending, each at least `gap` above the one before.
    fn ascending(&mut self, count: usize, low: u64, high: u64, gap: u64) -> Vec<u16> {
        let room = high - low + 1 - (count as u64 - 1) * gap;
        let mut numbers: Vec<u64> = (0..count).map(|_| self.below(room)).collect();
        numbers.sort_unstable();
        numbers.iter().enumerate().map(|(index, number)| (low + number + index as u64 * gap) as u16).collect()
    }

    fn shuffle<T>(&mut self, list: &mut [T]) {
        for last in (1..list.len()).rev() {
            list.swap(last, self.below(last as u64 + 1) as usize);
        }
    }
}

fn option(tag: u8, slot: usize, categories: &[u8]) -> Vec<u8> {
    let size = categories.len() as u8;
    let mut octets = vec![134, 10 + size, 0, 0, 0, 5, tag, 4 + size, 0, [1, 3, 5][slot % 3]];
    octets.extend_from_slice(categories);
    octets
}

fn bitmap(octets: usize, categories: impl Iterator<Item = u16>) -> Vec<u8> {
    let mut bits = vec![0; octets];
    for category in categories {
        bits[category as usize / 8] |= 128 >> (category % 8);
    }
    bits
}

fn numbers(numbers: &[u16]) -> Vec<u8> {
    numbers.iter().flat_map(|number| number.to_be_bytes()).collect()
}

/// Tops and bottoms from ascending ends: the highest pair first.
fn pairs(mut ends: Vec<u16>) -> Vec<u8> {
    ends.reverse();
    numbers(&ends)
}

struct Input {
    name: String,
    options: Vec<Vec<u8>>,
}

impl Input {
    fn new(name: impl Into<String>, make: impl FnMut(usize) -> Vec<u8>) -> Input {
        Input { name: name.into(), options: (0..SLOTS).map(make).collect() }
    }

    fn size(&self) -> usize {
        self.options[0].len()
    }

    fn joined(&self) -> Vec<u8> {
        self.options.concat()
    }

    fn area_size(&self) -> usize {
        (self.size() + 3) / 4 * 4
    }

    /// Each option as an area of its own, with zeros to a multiple of 4.
    fn areas(&self) -> Vec<u8> {
        let mut areas = Vec::new();
        for option in &self.options {
            areas.extend_from_slice(option);
            areas.resize((areas.len() + 3) / 4 * 4, 0);
        }
        areas
    }
}

/// The shapes of a label.
fn shapes(random: &mut Random) -> Vec<Input> {
    vec![
        Input::new("tag 1, no categories", |slot| option(1, slot, &[])),
        Input::new("tag 1, 10 octets, 12 categories", |slot| {
            let mut set = random.ascending(11, 0, 70, 1);
            set.push(72 + random.below(8) as u16);
            option(1, slot, &bitmap(10, set.into_iter()))
        }),
        every_other_bit("tag 1, 30 octets, every other bit"),
        Input::new("tag 2, 15 numbers", |slot| option(2, slot, &numbers(&random.ascending(15, 0, 300, 1)))),
        Input::new("tag 5, 1 pair", |slot| option(5, slot, &pairs(vec![100 + random.below(50) as u16, 200 + random.below(100) as u16]))),
        Input::new("tag 5, 7 pairs", |slot| {
            let mut ends = random.ascending(6, 1, 98, 2);
            ends.extend(random.ascending(8, 100, 300, 2));
            option(5, slot, &pairs(ends))
        }),
    ]
}

fn every_other_bit(name: &str) -> Input {
    Input::new(name, |slot| option(1, slot, &[[0xaa, 0x55][slot % 2]; 30]))
}

/// Bitmaps alone.
fn bitmaps(random: &mut Random) -> Vec<Input> {
    vec![
        Input::new("10 octets, 12 categories", |_| bitmap(10, random.ascending(12, 0, 79, 1).into_iter())),
        Input::new("30 octets, 12 categories", |_| bitmap(30, random.ascending(12, 0, 239, 1).into_iter())),
        Input::new("30 octets, all zero", |_| vec![0; 30]),
        Input::new("30 octets, all ones", |_| vec![255; 30]),
        Input::new("30 octets, every other bit", |slot| vec![[0xaa, 0x55][slot % 2]; 30]),
        Input::new("30 octets at random", |_| (0..30).map(|_| random.below(256) as u8).collect()),
    ]
}

/// A label of so many runs.
fn label_octets(level: u8, runs: u16) -> Vec<u8> {
    let mut octets = vec![0, 0, 0, 5, level, runs as u8];
    octets.extend((0..runs).flat_map(|run| [4 * run, 4 * run + 1]).flat_map(u16::to_be_bytes));
    octets
}

/// A table of so many level pairs, and rows in scattered order.
fn table_octets(pairs: u16, rows: u16) -> Vec<u8> {
    let mut octets = vec![0, 0, 0, 5, 0, 0, 0, 9];
    octets.extend(pairs.to_be_bytes());
    octets.extend((0..pairs).flat_map(|level| [level as u8; 2]));
    octets.extend(rows.to_be_bytes());
    octets.extend((0..rows).flat_map(|row| [4 * row, 4 * row + 3, 1000 + row * 37 % rows * 4]).flat_map(u16::to_be_bytes));
    octets
}

/// A file of these ports and tables.
fn file_octets(version: u8, ports: &[Vec<u8>], tables: &[Vec<u8>]) -> Vec<u8> {
    let mut file = vec![0, 0, version, ports.len() as u8];
    file.extend(ports.concat());
    file.push(tables.len() as u8);
    file.extend(tables.concat());
    let length = (file.len() as u16).to_be_bytes();
    file[..2].copy_from_slice(&length);
    file
}

/// The largest file of version 1: 16 ports of three labels with 120 runs, 8 tables of 16 level pairs and 64 rows.
fn largest_first() -> Vec<u8> {
    let port = [&[0, 0, 0, 5][..], &label_octets(1, 120), &label_octets(3, 120), &[0], &label_octets(2, 120)].concat();
    file_octets(1, &vec![port; 16], &vec![table_octets(16, 64); 8])
}

/// A port of version 3: three labels of so many runs, and a fourth where its hosts have none; flag fields each way where it reads option 130.
fn later_port(runs: u16, unlabelled: bool, fields: [u16; 2]) -> Vec<u8> {
    let mut port = [&[0, 0, 0, 5][..], &label_octets(1, runs), &label_octets(3, runs), &[0], &label_octets(2, runs)].concat();
    let on = fields != [0, 0];
    port.push(on as u8);
    for count in fields {
        port.extend(if on { [0xab, 0x3d] } else { [0, 0] });
        port.extend(count.to_be_bytes());
        port.extend((0..count).flat_map(u16::to_be_bytes));
    }
    port.extend([13, unlabelled as u8]);
    port.extend(if unlabelled { label_octets(2, runs) } else { vec![0; 6] });
    port.push(0);
    port
}

/// The longest file of version 3 with 16 ports, 61,439 octets, with as many rows as there can be: 8 tables of 256 level pairs and 1,024 rows.
fn largest_of_rows() -> Vec<u8> {
    let mut ports = vec![later_port(0, false, [0, 0]); 16];
    ports[..5].fill(later_port(120, false, [0, 0]));
    ports[15] = later_port(0, false, [117, 0]);
    file_octets(3, &ports, &vec![table_octets(256, 1024); 8])
}

/// As long, with as much in the ports as there can be: four labels of 120 runs and 256 flag fields each way.
fn largest_of_ports() -> Vec<u8> {
    let tables = [table_octets(256, 1024), table_octets(256, 1024), table_octets(163, 0)];
    file_octets(3, &vec![later_port(120, true, [256, 256]); 16], &tables)
}

/// Labels of so many runs for a table that spreads the categories 0 to 239.
fn runs(random: &mut Random, count: usize) -> Input {
    let name = format!("{} run{}", count, if count == 1 { "" } else { "s" });
    match count {
        1 => Input::new(name, |slot| option(5, slot, &pairs(vec![1 + random.below(20) as u16, 200 + random.below(40) as u16]))),
        120 => every_other_bit(&name),
        _ => Input::new(name, |slot| {
            let ends = random.ascending(2 * count, 0, 239, 2);
            option(1, slot, &bitmap(30, ends.chunks(2).flat_map(|run| run[0]..=run[1])))
        }),
    }
}

/// Areas among which the dearest is looked for: a sender chooses nothing else.
fn dear(random: &mut Random) -> Vec<Input> {
    let empty = |slot: usize| option(1, slot, &[]);
    vec![
        Input::new("no categories", empty),
        every_other_bit("every other bit"),
        Input::new("30 octets, one bit of each two", |slot| {
            option(1, slot, &bitmap(30, (0..120).map(|pair| 2 * pair + random.below(2) as u16).collect::<Vec<_>>().into_iter()))
        }),
        Input::new("30 octets at random", |slot| option(1, slot, &(0..30).map(|_| random.below(256) as u8).collect::<Vec<_>>())),
        Input::new("15 numbers", |slot| option(2, slot, &numbers(&random.ascending(15, 0, 239, 1)))),
        Input::new("7 pairs", |slot| option(5, slot, &pairs(random.ascending(14, 1, 239, 2)))),
        Input::new("no categories, 15 kept options of 2 octets", |slot| [empty(slot), [0x94, 2].repeat(15)].concat()),
        Input::new("30 octets of type 1, no categories", |slot| [vec![1; 30], empty(slot)].concat()),
        Input::new("15 octets, every other bit, 7 kept options of 2 octets", |slot| {
            [option(1, slot, &[[0xaa, 0x55][slot % 2]; 15]), [0x94, 2].repeat(7), vec![1]].concat()
        }),
        Input::new("26 octets, every other bit, refused at the last option", |slot| {
            [option(1, slot, &[[0xaa, 0x55][slot % 2]; 26]), vec![134, 2, 0, 0]].concat()
        }),
    ]
}

// The records: the sample's, and tables that spread categories over rows.

struct Records {
    arriving: fast::Port,
    leaving: fast::Port,
    table: fast::Table,
    /// The arriving port's levels and highest category, as `time_forward` takes them.
    lower: u8,
    upper: u8,
    high: u16,
    /// The rows of one table, or of several that take turns, and how many numbers each has.
    rows: Rc<Vec<u16>>,
    width: usize,
}

fn records(lower: u8, upper: u8, high: u16, rows: Rc<Vec<u16>>, width: usize) -> Records {
    let port = |domain: u32, lower: u8, upper: u8, high: u16| {
        let lowest = fast::Label { domain, level: lower, ..fast::Label::ALL_ZERO };
        let mut highest = fast::Label { domain, level: upper, count: 1, ..fast::Label::ALL_ZERO };
        highest.runs[0] = fast::Run { low: 0, high };
        fast::Port { domain, lowest, highest, required: true, assigned: fast::Label::ALL_ZERO, ..fast::Port::PLAIN }
    };
    let mut table = fast::Table { from: 5, to: 9, level_count: 3, row_count: (width / 3) as u16, ..fast::Table::ALL_ZERO };
    table.levels[..3].copy_from_slice(&[[1, 2], [3, 4], [5, 6]]);
    Records { arriving: port(5, lower, upper, high), leaving: port(9, 0, 255, 65534), table, lower, upper, high, rows, width }
}

fn of_one(lower: u8, upper: u8, high: u16, rows: Vec<u16>) -> Records {
    let width = rows.len();
    records(lower, upper, high, Rc::new(rows), width)
}

fn sample_records() -> Records {
    of_one(1, 5, 300, vec![0, 99, 1000, 100, 300, 0])
}

/// A table that spreads the categories 0 to 255 over rows of equal width whose targets come in scattered order. The categories below 240
/// change places among themselves, so that a label that fits a bitmap still does.
fn scattered_records(rows: usize) -> Records {
    let (width, inner) = (256 / rows, rows * 15 / 16);
    let row = |i: usize| {
        let slot = if i < inner { i * 101 % inner } else { i };
        [i * width, i * width + width - 1, slot * width].map(|number| number as u16)
    };
    of_one(0, 255, 65534, (0..rows).flat_map(row).collect())
}

/// How the targets of a table of many rows lie.
#[derive(Clone, Copy)]
enum Order {
    Ascending,
    Scattered,
    Reversed,
    /// Scattered, and some do not touch the next, so that the renumbered categories have many runs.
    Apart,
}

const ORDERS: [Order; 3] = [Order::Ascending, Order::Scattered, Order::Reversed];

impl Order {
    fn name(self) -> &'static str {
        match self {
            Order::Ascending => "ascending",
            Order::Scattered => "scattered",
            Order::Reversed => "reversed",
            Order::Apart => "scattered, apart",
        }
    }
}

/// How many categories a table of many rows spreads: all from 0 on.
fn categories(rows: usize) -> usize {
    (2 * rows).max(256)
}

/// A table of so many rows of all widths. Those below 240 and those above have their targets among themselves.
fn spread(random: &mut Random, rows: usize, order: Order) -> Vec<u16> {
    let all = categories(rows);
    let below = rows * 240 / all;
    let mut numbers = Vec::new();
    for (count, first, end) in [(below, 0, 240), (rows - below, 240, all)] {
        let mut lows = vec![first as u16];
        lows.extend(random.ascending(count - 1, first as u64 + 1, end as u64 - 1, 1));
        let highs: Vec<u16> = lows[1..].iter().map(|low| low - 1).chain([end as u16 - 1]).collect();
        let mut places: Vec<usize> = (0..count).collect();
        match order {
            Order::Ascending => {}
            Order::Reversed => places.reverse(),
            Order::Scattered | Order::Apart => random.shuffle(&mut places),
        }
        let mut targets = vec![0; count];
        let mut next = if matches!(order, Order::Apart) { 2 * first as u16 } else { first as u16 };
        for place in places {
            targets[place] = next;
            next += highs[place] - lows[place] + 1;
            if matches!(order, Order::Apart) {
                next += random.below(2) as u16;
            }
        }
        numbers.extend((0..count).flat_map(|row| [lows[row], highs[row], targets[row]]));
    }
    numbers
}

/// One table, and many of a kind.
fn spread_records(random: &mut Random, rows: usize, order: Order) -> [Rc<Vec<u16>>; 2] {
    let many: Vec<u16> = (0..TABLES).flat_map(|_| spread(random, rows, order)).collect();
    [Rc::new(many[..3 * rows].to_vec()), Rc::new(many)]
}

/// Labels for such a table: one run of all its categories, or so many below 240.
fn spread_runs(random: &mut Random, rows: usize, count: usize) -> Input {
    match count {
        1 => Input::new("1 run", |slot| option(5, slot, &pairs(vec![0, categories(rows) as u16 - 1]))),
        _ => runs(random, count),
    }
}

// The same work in Rust: loops and digests as the crate `bench_loops` has them.

fn mix(total: usize, x: usize) -> usize {
    (total % 65536) * 31 + x % 65536
}

fn label_digest(label: &fast::Label) -> usize {
    let run = label.runs[0];
    let head = mix(mix(label.domain as usize, label.level as usize), label.count as usize);
    mix(mix(head, run.low as usize), run.high as usize)
}

fn next_place(at: usize, size: usize, last: usize) -> usize {
    if last - at < size {
        0
    } else {
        at + size
    }
}

#[inline(never)]
fn rust_read(octets: &[u8], size: usize, times: usize) -> usize {
    let last = octets.len() - size;
    let (mut at, mut total) = (0, 0);
    for _ in 0..times {
        let reading = fast::read_option(black_box(&octets[at..at + size]));
        let digest = match black_box(&reading) {
            Ok(label) => mix(0, label_digest(label)),
            Err(refusal) => mix(mix(refusal.number as usize, refusal.offset as usize), label_digest(&fast::Label::ALL_ZERO)),
        };
        total = mix(total, digest);
        at = next_place(at, size, last);
    }
    total
}

#[inline(never)]
fn rust_bitmap(octets: &[u8], size: usize, times: usize) -> usize {
    let last = octets.len() - size;
    let (mut at, mut total) = (0, 0);
    let mut runs = [fast::Run { low: 0, high: 0 }; 120];
    for _ in 0..times {
        let found = fast::read_bitmap_alone(black_box(&octets[at..at + size]), &mut runs);
        let (number, count) = found.map_or_else(|number| (number, 0), |count| (0, count));
        black_box(&runs);
        total = mix(mix(mix(total, number as usize), count as usize), runs[0].high as usize);
        at = next_place(at, size, last);
    }
    total
}

#[inline(never)]
fn rust_read_file(octets: &[u8], times: usize) -> usize {
    let mut set = fast::file::Set::EMPTY;
    let mut rows = [0; fast::file::MAX_NUMBERS];
    let mut total = 0;
    for _ in 0..times {
        let verdict = match fast::file::read_file(black_box(octets), &mut set, &mut rows) {
            Ok(_) => 0,
            Err(fast::file::Refusal::Place(_)) => 101,
            Err(fast::file::Refusal::Version(_)) => 102,
            Err(fast::file::Refusal::Room) => 103,
        };
        black_box((&set, &rows));
        total = mix(total, verdict);
    }
    total
}

#[inline(never)]
fn rust_write_file(octets: &[u8], times: usize) -> usize {
    let mut set = fast::file::Set::EMPTY;
    let mut rows = [0; fast::file::MAX_NUMBERS];
    let mut file = vec![FILL; FILE_ROOM];
    let used = fast::file::read_file(octets, &mut set, &mut rows).unwrap_or(0);
    let mut total = 0;
    for _ in 0..times {
        let (number, count) = match fast::file::write_file(black_box(&set), black_box(&rows[..used]), &mut file) {
            Ok(count) => (0, count),
            Err(fast::file::NAMED) => (3, 0),
            Err(number) => (number, 0),
        };
        total = mix(mix(total, number as usize), count);
    }
    file_digest(total, &file)
}

/// Of every octet.
fn file_digest(total: usize, file: &[u8]) -> usize {
    file.as_chunks::<8>().0.iter().fold(total, |total, octets| total.wrapping_mul(31).wrapping_add(usize::from_le_bytes(*octets)))
}

#[inline(never)]
fn rust_spell(octets: &[u8], size: usize, out: &mut [u8], times: usize) -> usize {
    let labels: Vec<fast::Label> =
        octets.chunks(size).cycle().take(LABELS).map(|option| fast::read_option(option).unwrap_or(fast::Label::ALL_ZERO)).collect();
    let mut total = 0;
    for i in 0..times {
        let (number, count) = match fast::spell_label(black_box(&labels[i % LABELS]), out) {
            Ok(count) => (0, count),
            Err(number) => (number, 0),
        };
        total = mix(mix(total, number as usize), count as usize);
    }
    total
}

/// The one call of the variant's forward.
#[inline(always)]
fn rust_decision(records: &Records, rows: &[u16], area: &[u8], out: &mut [u8]) -> fast::Decision {
    fast::forward(&records.arriving, &records.leaving, &records.table, rows, false, area, out)
}

#[inline(never)]
fn rust_forward(records: &Records, rows: &[u16], area: &[u8], size: usize, out: &mut [u8], times: usize) -> usize {
    let (last, last_table) = (area.len() - size, rows.len() - records.width);
    let (mut at, mut from, mut total) = (0, 0, 0);
    for _ in 0..times {
        let records = black_box(records);
        let decision = rust_decision(records, black_box(&rows[from..from + records.width]), &area[at..at + size], out);
        let decision = black_box(&decision);
        let digest = mix(mix(decision.number as usize, decision.pointer as usize), decision.count as usize);
        total = mix(total, mix(digest, label_digest(&decision.label)));
        at = next_place(at, size, last);
        from = next_place(from, records.width, last_table);
    }
    total
}

// The cases.

enum Work {
    Read,
    Spell,
    Bitmap,
    ReadFile,
    WriteFile,
    /// The records, and whether they are the sample's.
    Forward(Records, bool),
}

struct Case {
    group: &'static str,
    name: String,
    work: Work,
    octets: Vec<u8>,
    size: usize,
    rounds: Rounds,
}

impl Case {
    fn option(group: &'static str, work: Work, input: &Input) -> Case {
        Case { group, name: input.name.clone(), work, octets: input.joined(), size: input.size(), rounds: SHORT }
    }

    fn area(group: &'static str, name: String, records: Records, sample: bool, input: &Input) -> Case {
        Case { group, name, work: Work::Forward(records, sample), octets: input.areas(), size: input.area_size(), rounds: SHORT }
    }

    /// A table of many rows, the same in every call or a new one.
    fn rows(name: String, rows: Rc<Vec<u16>>, width: usize, input: &Input) -> Case {
        let (group, rounds) = if rows.len() == width { (SEEN_OFTEN, LONG) } else { (SEEN_ONCE, ONCE) };
        Case { rounds, ..Case::area(group, name, records(0, 255, 65534, rows, width), false, input) }
    }

    fn file(name: &str, work: Work, octets: Vec<u8>) -> Case {
        Case { group: "file", name: name.into(), work, size: octets.len(), octets, rounds: LONG }
    }

    /// The rows of all tables, or those of one lot or one table.
    fn rows_of(&self, lot: Option<usize>, size: usize) -> &[u16] {
        match (&self.work, lot) {
            (Work::Forward(records, _), None) => &records.rows,
            (Work::Forward(records, _), Some(lot)) => {
                let numbers = (size * records.width).min(records.rows.len());
                &records.rows[lot * numbers..(lot + 1) * numbers]
            }
            _ => &[],
        }
    }

    fn tables(&self) -> usize {
        match &self.work {
            Work::Forward(records, _) => records.rows.len() / records.width,
            _ => 1,
        }
    }

    fn box_turn(&self, rows: &[u16], octets: &[u8], out: &mut [u8], times: usize) -> usize {
        let (at, n, to, room) = (octets.as_ptr(), octets.len(), out.as_mut_ptr(), out.len());
        // The pointers and lengths are those of slices that do not overlap.
        unsafe {
            match &self.work {
                Work::Read => time_read(at, n, self.size, times),
                Work::Spell => time_spell(at, n, self.size, to, room, times),
                Work::Bitmap => time_bitmap(at, n, self.size, times),
                Work::ReadFile => time_read_file(at, n, times),
                Work::WriteFile => {
                    let mut file = vec![FILL; FILE_ROOM];
                    let total = time_write_file(at, n, file.as_mut_ptr(), file.len(), times);
                    file_digest(total, &file)
                }
                Work::Forward(r, _) => {
                    time_forward(r.lower, r.upper, r.high, rows.as_ptr(), rows.len(), r.width, at, n, self.size, to, room, times)
                }
            }
        }
    }

    fn rust_turn(&self, rows: &[u16], octets: &[u8], out: &mut [u8], times: usize) -> usize {
        match &self.work {
            Work::Read => rust_read(octets, self.size, times),
            Work::Spell => rust_spell(octets, self.size, out, times),
            Work::Bitmap => rust_bitmap(octets, self.size, times),
            Work::ReadFile => rust_read_file(octets, times),
            Work::WriteFile => rust_write_file(octets, times),
            Work::Forward(records, _) => rust_forward(records, rows, octets, self.size, out, times),
        }
    }

    /// Each input alone: the whole answer where the crate `bench_exports` gives it, else the digest and every octet of the output; then the timed loops.
    fn compare(&self) {
        let inputs: Vec<&[u8]> = self.octets.chunks(self.size.max(1)).collect();
        for slot in 0..inputs.len().max(self.tables()) {
            let octets = inputs[slot % inputs.len()];
            let rows = self.rows_of(Some(slot % self.tables()), 1);
            let (ours, theirs) = match &self.work {
                Work::Read => (box_reading(octets), rust_reading(octets)),
                Work::Spell => (box_spelling(octets), rust_spelling(octets)),
                Work::Forward(_, true) => (box_forwarding(octets), rust_forwarding(octets)),
                Work::Bitmap | Work::ReadFile | Work::WriteFile | Work::Forward(_, false) => {
                    (self.alone(rows, octets, Case::box_turn), self.alone(rows, octets, Case::rust_turn))
                }
            };
            self.expect(ours == theirs, &format!("input {}: {:02x?}\n  box:  {}\n  Rust: {}", slot, octets, ours, theirs));
        }
        let (mut ours, mut theirs) = ([FILL; OUTPUT], [FILL; OUTPUT]);
        let (calls, rows) = (self.rounds.calls.max(self.tables()), self.rows_of(None, 0));
        let same = self.box_turn(rows, &self.octets, &mut ours, calls) == self.rust_turn(rows, &self.octets, &mut theirs, calls);
        self.expect(same && ours == theirs, "the digests of the timed loops differ");
    }

    fn alone(&self, rows: &[u16], octets: &[u8], turn: impl Fn(&Case, &[u16], &[u8], &mut [u8], usize) -> usize) -> String {
        let mut out = [FILL; OUTPUT];
        let digest = turn(self, rows, octets, &mut out, 1);
        format!("{} {:02x?}", digest, out)
    }

    fn expect(&self, same: bool, what: &str) {
        if !same {
            println!("{}, {}: the answers differ: {}", self.group, self.name, what);
            std::process::exit(1);
        }
    }

    /// How many of the inputs are forwarded.
    fn forwarded(&self) -> String {
        if !matches!(self.work, Work::Forward(..)) {
            return String::from("–");
        }
        let written = |octets: &&[u8]| {
            let mut out = [FILL; OUTPUT];
            self.box_turn(self.rows_of(None, 0), octets, &mut out, 1);
            out[0] != FILL
        };
        format!("{} of {}", self.octets.chunks(self.size.max(1)).filter(written).count(), SLOTS)
    }
}

/// The cases whose group begins so.
fn cases_of(group: &str) -> Vec<Case> {
    cases().into_iter().filter(|case| case.group.starts_with(group)).collect()
}

fn cases() -> Vec<Case> {
    let mut random = Random(0x9e3779b97f4a7c15);
    let (shapes, dear) = (shapes(&mut random), dear(&mut random));
    // Those of many rows have numbers of their own, so that the others stay as they were.
    let mut later = Random(0x2545f4914f6cdd1d);
    let mut cases: Vec<Case> = shapes.iter().map(|input| Case::option("read", Work::Read, input)).collect();
    cases.extend(shapes.iter().map(|input| Case::option("spell", Work::Spell, input)));
    cases.extend(shapes.iter().map(|input| Case::area("forward", input.name.clone(), sample_records(), true, input)));
    for count in RUNS {
        let input = runs(&mut random, count);
        for rows in ROWS {
            cases.push(Case::area("forward, table", growth_name(rows, count), scattered_records(rows), false, &input));
        }
    }
    cases.extend(bitmaps(&mut random).iter().map(|input| Case::option("bitmap", Work::Bitmap, input)));
    for (name, octets) in
        [("version 1", largest_first()), ("version 3, most rows", largest_of_rows()), ("version 3, most in ports", largest_of_ports())]
    {
        cases.push(Case::file(&format!("{}, read", name), Work::ReadFile, octets.clone()));
        cases.push(Case::file(&format!("{}, written", name), Work::WriteFile, octets));
    }
    for rows in MANY_ROWS {
        for order in ORDERS {
            add_rows(&mut cases, &mut later, rows, order, &MANY_RUNS);
        }
    }
    add_rows(&mut cases, &mut later, fast::MAX_ROWS, Order::Apart, &[1]);
    for input in &dear {
        cases.push(Case::area(DEAR, format!("sample's table: {}", input.name), sample_records(), true, input));
    }
    for input in &dear {
        cases.push(Case::area(DEAR, format!("64 scattered rows: {}", input.name), scattered_records(64), false, input));
    }
    cases
}

/// Labels of so many runs through tables of one kind, seen often and seen once.
fn add_rows(cases: &mut Vec<Case>, random: &mut Random, rows: usize, order: Order, runs: &[usize]) {
    let tables = spread_records(random, rows, order);
    for count in runs {
        let input = spread_runs(random, rows, *count);
        for table in &tables {
            cases.push(Case::rows(many_name(rows, order, *count), table.clone(), 3 * rows, &input));
        }
    }
}

const ROWS: [usize; 4] = [8, 16, 32, 64];
const RUNS: [usize; 5] = [1, 15, 30, 60, 120];
const MANY_ROWS: [usize; 4] = [64, 256, 900, 1024];
const MANY_RUNS: [usize; 3] = [1, 15, 120];
/// The groups of tables of many rows.
const SEEN_OFTEN: &str = "forward, rows seen often";
const SEEN_ONCE: &str = "forward, rows seen once";
/// The group of areas among which the dearest is looked for.
const DEAR: &str = "dearest";

fn growth_name(rows: usize, runs: usize) -> String {
    format!("{} rows, {} run{}", rows, runs, if runs == 1 { "" } else { "s" })
}

fn many_name(rows: usize, order: Order, runs: usize) -> String {
    format!("{}, {}", growth_name(rows, runs), order.name())
}

// Whole answers, as text.

struct Lent {
    answer: [u64; 8],
    runs: [u32; 120],
    out: [u8; OUTPUT],
}

fn lend() -> Lent {
    Lent { answer: [0; 8], runs: [0; 120], out: [FILL; OUTPUT] }
}

fn keys(label: &fast::Label) -> Vec<u32> {
    label.runs[..label.count as usize].iter().map(|run| run.low as u32 * 65536 + run.high as u32).collect()
}

fn label_numbers(label: &fast::Label) -> Vec<u64> {
    vec![label.domain as u64, label.level as u64, label.count as u64]
}

fn whole(numbers: &[u64], runs: &[u32], out: &[u8]) -> String {
    format!("{:?} {:x?} {:02x?}", numbers, runs, out)
}

fn box_reading(octets: &[u8]) -> String {
    let mut lent = lend();
    // The pointers and lengths are those of arrays that do not overlap; so too below.
    unsafe { inglebreek_read(octets.as_ptr(), octets.len(), lent.answer.as_mut_ptr(), 8, lent.runs.as_mut_ptr(), 120) };
    whole(&lent.answer[..5], &lent.runs[..lent.answer[4] as usize], &[])
}

fn rust_reading(octets: &[u8]) -> String {
    let (number, pointer, label) = match fast::read_option(octets) {
        Ok(label) => (0, 0, label),
        Err(refusal) => (refusal.number, refusal.offset, fast::Label::ALL_ZERO),
    };
    whole(&[vec![number as u64, pointer as u64], label_numbers(&label)].concat(), &keys(&label), &[])
}

fn box_spelling(octets: &[u8]) -> String {
    let label = fast::read_option(octets).unwrap_or(fast::Label::ALL_ZERO);
    let (mut lent, keys) = (lend(), keys(&label));
    unsafe {
        inglebreek_spell(label.domain, label.level, keys.as_ptr(), keys.len(), lent.out.as_mut_ptr(), OUTPUT, lent.answer.as_mut_ptr(), 8)
    };
    whole(&lent.answer[..2], &[], &lent.out)
}

fn rust_spelling(octets: &[u8]) -> String {
    let label = fast::read_option(octets).unwrap_or(fast::Label::ALL_ZERO);
    let mut out = [FILL; OUTPUT];
    let (number, count) = match fast::spell_label(&label, &mut out) {
        Ok(count) => (0, count),
        Err(number) => (number, 0),
    };
    whole(&[number as u64, count as u64], &[], &out)
}

fn box_forwarding(area: &[u8]) -> String {
    let mut lent = lend();
    unsafe {
        let (out, answer, runs) = (lent.out.as_mut_ptr(), lent.answer.as_mut_ptr(), lent.runs.as_mut_ptr());
        inglebreek_forward(false, false, false, false, false, area.as_ptr(), area.len(), out, OUTPUT, answer, 8, runs, 120)
    };
    whole(&lent.answer, &lent.runs[..lent.answer[7] as usize], &lent.out)
}

fn rust_forwarding(area: &[u8]) -> String {
    let (records, mut out) = (sample_records(), [FILL; OUTPUT]);
    let d = rust_decision(&records, &records.rows, area, &mut out);
    let numbers = [d.number, d.icmp_type, d.icmp_code, d.pointer, d.count].map(u64::from);
    whole(&[numbers.to_vec(), label_numbers(&d.label)].concat(), &keys(&d.label), &out)
}

// Timing: the shortest of many short rounds, the two halves in turn.

fn shortest(best: &mut f64, calls: usize, work: impl FnOnce() -> usize) {
    let began = Instant::now();
    black_box(work());
    *best = best.min(began.elapsed().as_nanos() as f64 / calls as f64);
}

/// The two halves of a case: the mean over its lots. Which half begins changes from pass to pass.
fn time(cases: &[Case]) -> Vec<(f64, f64)> {
    let lots = |case: &Case| (case.tables() / LOT).max(1);
    let mut timed: Vec<Vec<(f64, f64)>> = cases.iter().map(|case| vec![(f64::MAX, f64::MAX); lots(case)]).collect();
    let mut out = [FILL; OUTPUT];
    for pass in 0..PASSES {
        for (case, timed) in cases.iter().zip(&mut timed) {
            for _ in 0..case.rounds.rounds {
                for (lot, (ours, theirs)) in timed.iter_mut().enumerate() {
                    let (rows, calls) = (case.rows_of(Some(lot), LOT), case.rounds.calls);
                    for half in [pass % 2, 1 - pass % 2] {
                        if half == 0 {
                            shortest(ours, calls, || case.box_turn(rows, &case.octets, &mut out, calls));
                        } else {
                            shortest(theirs, calls, || case.rust_turn(rows, &case.octets, &mut out, calls));
                        }
                    }
                }
            }
        }
    }
    let mean = |lots: &Vec<(f64, f64)>, half: fn(&(f64, f64)) -> f64| lots.iter().map(half).sum::<f64>() / lots.len() as f64;
    timed.iter().map(|lots| (mean(lots, |lot| lot.0), mean(lots, |lot| lot.1))).collect()
}

#[no_mangle]
#[inline(never)]
pub extern "C" fn count_mark(place: usize) -> usize {
    black_box(place)
}

/// Each half once, with a mark before it.
fn count(cases: &[Case]) {
    let mut out = [FILL; OUTPUT];
    for (index, case) in cases.iter().enumerate() {
        let (calls, rows) = (case.rounds.counted, case.rows_of(None, 0));
        count_mark(2 * index);
        black_box(case.box_turn(rows, &case.octets, &mut out, calls));
        count_mark(2 * index + 1);
        black_box(case.rust_turn(rows, &case.octets, &mut out, calls));
        println!("{}|{}|{}", case.group, case.name, calls);
    }
    count_mark(2 * cases.len());
}

// The document.

/// A line of `times` or `counts`: the two halves of a case.
struct Measured {
    group: String,
    name: String,
    ours: f64,
    theirs: f64,
    forwarded: String,
}

impl Measured {
    fn ratio(&self) -> f64 {
        self.ours / self.theirs
    }

    /// Areas and many rows have tables of their own.
    fn in_tables(&self) -> bool {
        ![DEAR, SEEN_OFTEN, SEEN_ONCE].contains(&self.group.as_str())
    }
}

/// The case of a group that has this name.
fn named<'a>(rows: &'a [Measured], group: &str, name: &str) -> Option<&'a Measured> {
    rows.iter().find(|row| row.group == group && row.name == name)
}

/// Tables of many rows, seen often and seen once side by side.
fn many_table(rows: &[Measured], unit: &str) -> String {
    let mut text =
        format!("| Rows, runs, targets | Often: box ({}) | Rust | Box / Rust | Once: box ({}) | Rust | Box / Rust |\n", unit, unit);
    text.push_str("|---|---:|---:|---:|---:|---:|---:|\n");
    for often in rows.iter().filter(|row| row.group == SEEN_OFTEN) {
        let Some(once) = named(rows, SEEN_ONCE, &often.name) else { continue };
        write!(text, "| {} | {:.0} | {:.0} | {:.2} ", often.name, often.ours, often.theirs, often.ratio()).unwrap();
        writeln!(text, "| {:.0} | {:.0} | {:.2} |", once.ours, once.theirs, once.ratio()).unwrap();
    }
    text
}

/// What the dearest sound table costs, and how it grows.
fn many_rows(times: &[Measured]) -> String {
    let ours = |group: &str, name: &str| named(times, group, name).map_or(f64::NAN, |row| row.ours);
    let us = |ns: f64| format!("{:.1} µs", ns / 1000.0);
    let dearest = |group: &str| times.iter().filter(|row| row.group == group).max_by(|a, b| a.ours.total_cmp(&b.ours));
    let (Some(once), Some(often)) = (dearest(SEEN_ONCE), dearest(SEEN_OFTEN)) else { return String::new() };
    let least = ours("forward", "tag 5, 1 pair");
    let growth = |group: &str| {
        let kinds = ORDERS.iter().flat_map(|order| MANY_RUNS.map(|runs| (*order, runs)));
        span(kinds.map(|(order, runs)| ours(group, &many_name(1024, order, runs)) / ours(group, &many_name(64, order, runs))))
    };
    let mut text = wrapped_by("", &format!(
        "Who runs the box chooses the table, a sender the label. Of the sound tables tried the dearest has {}: {} for one datagram where every table \
         is new to the processor (Rust {}), {} times the sample's table and a label of one run ({:.0} ns). Where the table is the same in every call, \
         the dearest has {}: {} (Rust {}). The level pairs are the sample's three.",
        once.name,
        us(once.ours),
        us(once.theirs),
        (once.ours / least).round(),
        least,
        often.name,
        us(often.ours),
        us(often.theirs)
    ));
    text.push('\n');
    text.push_str(&wrapped_by("", &format!(
        "From 64 to 1,024 rows, sixteen times as many, a forward takes {} times as long where the table is seen often, {} where it is seen once: \
         nothing is quadratic.",
        growth(SEEN_OFTEN),
        growth(SEEN_ONCE)
    )));
    text
}

/// None where there is no such file: without valgrind nothing is counted.
fn measured(path: &str) -> Vec<Measured> {
    let text = std::fs::read_to_string(path).unwrap_or_default();
    let line = |line: &str| {
        let field: Vec<&str> = line.split('|').collect();
        let number = |place: usize| field[place].parse().expect("a number");
        Measured {
            group: field[0].into(),
            name: field[1].into(),
            ours: number(2),
            theirs: number(3),
            forwarded: field.get(4).unwrap_or(&"").to_string(),
        }
    };
    text.lines().map(line).collect()
}

fn times_table(times: &[Measured]) -> String {
    let mut text = String::from("| Work | Input | Box (ns) | Rust (ns) | Box / Rust | Forwarded |\n|---|---|---:|---:|---:|---:|\n");
    for row in times.iter().filter(|row| row.in_tables()) {
        writeln!(text, "| {} | {} | {:.0} | {:.0} | {:.2} | {} |", row.group, row.name, row.ours, row.theirs, row.ratio(), row.forwarded)
            .unwrap();
    }
    text
}

fn counts_table(counts: &[Measured]) -> String {
    let mut text = String::from("| Work | Input | Box (instructions) | Rust (instructions) | Box / Rust |\n|---|---|---:|---:|---:|\n");
    for row in counts.iter().filter(|row| row.in_tables()) {
        writeln!(text, "| {} | {} | {:.0} | {:.0} | {:.2} |", row.group, row.name, row.ours, row.theirs, row.ratio()).unwrap();
    }
    text
}

fn dear_table(times: &[Measured]) -> String {
    let mut text = String::from("| Area | Box (ns) | Rust (ns) | Forwarded |\n|---|---:|---:|---:|\n");
    for row in times.iter().filter(|row| row.group == DEAR) {
        writeln!(text, "| {} | {:.0} | {:.0} | {} |", row.name, row.ours, row.theirs, row.forwarded).unwrap();
    }
    text
}

/// The least and the greatest of some figures.
fn span(figures: impl Iterator<Item = f64>) -> String {
    let (least, most) = figures.fold((f64::MAX, f64::MIN), |(least, most), x| (least.min(x), most.max(x)));
    format!("{:.2} to {:.2}", least, most)
}

/// A point of a list in lines of at most 150 characters.
fn wrapped(point: &str) -> String {
    wrapped_by("  ", point)
}

/// Text in such lines, all but the first behind the margin.
fn wrapped_by(margin: &str, point: &str) -> String {
    let mut text = String::new();
    let mut line = String::new();
    for word in point.split_whitespace() {
        if !line.is_empty() && line.chars().count() + 1 + word.chars().count() > 150 {
            text.push_str(&line);
            text.push('\n');
            line = margin.to_string() + word;
            continue;
        }
        if !line.is_empty() {
            line.push(' ');
        }
        line.push_str(word);
    }
    text + &line + "\n"
}

/// How box and Rust stand to each other, by one measure.
fn ratios(rows: &[Measured], measure: &str) -> String {
    let timed = || rows.iter().filter(|row| row.group != DEAR);
    let mut text = format!("- **By {}**, box against Rust:", measure);
    for (index, group) in ["read", "spell", "forward", "forward, table", SEEN_OFTEN, SEEN_ONCE, "bitmap", "file"].iter().enumerate() {
        let sign = if index == 0 { "" } else { ";" };
        write!(text, "{} {} {}", sign, group, span(timed().filter(|row| row.group == *group).map(Measured::ratio))).unwrap();
    }
    let forwards = || timed().filter(|row| row.group.starts_with("forward"));
    let level = forwards().filter(|row| row.ratio() <= 1.0).count();
    write!(
        text,
        ". Of the {} rows of forward {} at most 1.00.",
        forwards().count(),
        if level == 1 { "1 is".into() } else { format!("{} are", level) }
    )
    .unwrap();
    let over: Vec<String> = timed()
        .filter(|row| row.in_tables() && row.ratio() > 1.2)
        .map(|row| format!("{}, {} ({:.2})", row.group, row.name, row.ratio()))
        .collect();
    let many = |group: &str| timed().filter(|row| row.group == group && row.ratio() > 1.2).count();
    match over.len() {
        0 => text.push_str(" No row of the tables below is over 1.20"),
        1 => write!(text, " One row of the tables below is over 1.20: {}", over[0]).unwrap(),
        n => write!(text, " {} rows of the tables below are over 1.20: {}", n, over.join("; ")).unwrap(),
    }
    write!(text, "; of those of many rows {} seen often and {} seen once.", many(SEEN_OFTEN), many(SEEN_ONCE)).unwrap();
    wrapped(&text)
}

fn growth(times: &[Measured]) -> String {
    let ns = |rows: usize, runs: usize| times.iter().find(|row| row.name == growth_name(rows, runs)).map_or(f64::NAN, |row| row.ours);
    let by_rows = span(RUNS.iter().map(|runs| ns(64, *runs) / ns(8, *runs)));
    let by_runs = span(ROWS.iter().map(|rows| ns(*rows, 120) / ns(*rows, 1)));
    let mut text = format!(
        "From 8 to 64 rows, eight times as many, a forward takes {} times as long; from 1 to 120 runs, {} times as long (box, ns):\n\n",
        by_rows, by_runs
    );
    writeln!(text, "| Rows | {} |", RUNS.map(|runs| growth_name(0, runs).replace("0 rows, ", "")).join(" | ")).unwrap();
    writeln!(text, "|---|{}", "---:|".repeat(RUNS.len())).unwrap();
    for rows in ROWS {
        writeln!(text, "| {} | {} |", rows, RUNS.map(|runs| format!("{:.0}", ns(rows, runs))).join(" | ")).unwrap();
    }
    text
}

fn dearest(times: &[Measured]) -> String {
    let mut text = String::new();
    for table in ["sample's table", "64 scattered rows"] {
        let among = || times.iter().filter(|row| row.group == DEAR && row.name.starts_with(table));
        let plain = among().next().map_or(f64::NAN, |row| row.ours);
        let Some(most) = among().max_by(|a, b| a.ours.total_cmp(&b.ours)) else { continue };
        let area = most.name.split(": ").nth(1).unwrap_or("");
        writeln!(
            text,
            "- {}: the dearest area found is \"{}\", {:.0} ns, {:.1} times a label with no categories ({:.0} ns).",
            table,
            area,
            most.ours,
            most.ours / plain,
            plain
        )
        .unwrap();
    }
    text
}

const ABOUT: &str = "# Speed

`tools/bench --record` made this page and the plot: tables, figures and the rows that the text names are those of one run. `tools/bench` alone prints
the tables. It links the box's static libraries (the crates `bench_exports`, `bench_loops` and `bench_parts`) and the second program's fast variant
(`tools/reference/fast.rs`, ordinary Rust over runs, without the heap) into one program and holds their answers against each other first: every input
and every table alone, with every place of the label and every octet of the output, then the timed loops. (Through other tables than the sample's the
output and a digest stand for the label.)

- Each time is that of one call, in the shortest of 300 rounds of 960 calls; of files and of many rows, in the shortest of 200 rounds of 64. Box and
  Rust take turns, round by round, in one run, and all cases are gone through ten times.
- 64 inputs of a kind take turns, so that the branch predictor does not learn one of them; the seed is fixed. Spelling takes 8 labels in turn.
- The loops of the box are in the crates `bench_loops` and `bench_parts` (bitmap and file, which would be second callers in one library), those of
  Rust in `tools/bench.rs`; both run over records built once, with an output of 48 octets. Of every answer the same fixed places go into a number
  that is returned.
- A forward checks both ports and the table on every call, in both. The ports are of the usual kind (a label is required, no option 130 is read, the
  range goes from no categories to one run); between others the box takes 1.4 to 1.9 times the Rust variant's instructions and 1.8 to 2.9 times its
  time, since they are copied. Over 64 rows the box goes the same way between all ports. Where the renumbered label has no spelling, the answer is 18
  and the work up to there is the same; the last column says how many of the inputs are forwarded.
- The table with 8 to 64 rows spreads the categories 0 to 255 over rows of equal width whose targets come in scattered order, those below 240
  among themselves.
- A table of many rows, 64 to 1,024, spreads the first 256 categories, or twice as many as it has rows, over rows of all widths, and those below 240
  have their targets among themselves: ascending, scattered or reversed. A label of one run has all these categories, one of 15 or 120 runs lies below
  240. \"Seen often\" is one table in every call; \"seen once\" is another one in each of 1,024 calls, and the mean over 16 lots of 64, each in its
  shortest of 20 rounds. \"Apart\" are targets that do not all touch, so that the renumbered label has some 500 runs, and is refused by 18.
- Bitmaps are read alone, by the box's table of 256 entries and by the Rust variant's own.
- The largest gateway file of version 1 has 16 ports of three labels with 120 runs each and 8 tables of 64 rows; it is written as version 3. Of those
  of version 3, both of 61,439 octets, one has 8 tables of 256 level pairs and 1,024 scattered rows, and little in its 16 ports; the other has 16 ports
  of four labels with 120 runs and 256 flag fields each way, and two such tables.
- The box is compiled as `rt lib` does it, the Rust variant with `rustc -O`; neither is told of a processor. Instructions are counted by
  callgrind, for one call; copies are made without string instructions, of which it would count every octet.

![box and Rust side by side](speed.svg)
";

fn document(times: &[Measured], counts: &[Measured]) -> String {
    let mut text = format!("{}\n## What the tables say\n\n{}", ABOUT, ratios(times, "time"));
    if !counts.is_empty() {
        text.push_str(&ratios(counts, "instructions"));
    }
    write!(text, "\n## Growth\n\n{}", growth(times)).unwrap();
    write!(text, "\n## What the dearest sound table costs\n\n{}\n{}", many_rows(times), many_table(times, "ns")).unwrap();
    write!(
        text,
        "\n## The dearest datagram\n\nA sender chooses the area alone. Areas of these kinds were tried:\n\n{}\n{}",
        dearest(times),
        dear_table(times)
    )
    .unwrap();
    write!(text, "\n## Times\n\n{}", times_table(times)).unwrap();
    if !counts.is_empty() {
        write!(text, "\n## Instructions\n\n{}\n{}", counts_table(counts), many_table(counts, "instructions")).unwrap();
    }
    text
}

/// A bar for each half of each case; each group has its own scale.
fn plot(times: &[Measured]) -> String {
    let shown: Vec<&Measured> = times.iter().filter(|row| row.in_tables()).collect();
    let mut groups: Vec<&str> = shown.iter().map(|row| row.group.as_str()).collect();
    groups.dedup();
    let height = 60 + shown.len() * 34 + groups.len() * 34;
    let mut svg = format!(
        "<svg xmlns=\"http://www.w3.org/2000/svg\" width=\"900\" height=\"{}\" font-family=\"sans-serif\" font-size=\"12\">\n",
        height
    );
    svg.push_str("<rect width=\"100%\" height=\"100%\" fill=\"white\"/>\n");
    svg.push_str("<rect x=\"290\" y=\"14\" width=\"12\" height=\"12\" fill=\"#1f5fa8\"/><text x=\"308\" y=\"24\">box</text>\n");
    svg.push_str("<rect x=\"350\" y=\"14\" width=\"12\" height=\"12\" fill=\"#e08a2c\"/><text x=\"368\" y=\"24\">Rust</text>\n");
    svg.push_str("<text x=\"420\" y=\"24\">ns for one call; each group has its own scale</text>\n");
    let mut y = 40;
    for group in groups {
        let members = || shown.iter().filter(|row| row.group == group);
        let longest = members().map(|row| row.ours.max(row.theirs)).fold(1.0, f64::max);
        writeln!(svg, "<text x=\"10\" y=\"{}\" font-weight=\"bold\">{}</text>", y + 18, group).unwrap();
        y += 28;
        for row in members() {
            writeln!(svg, "<text x=\"280\" y=\"{}\" text-anchor=\"end\">{}</text>", y + 16, row.name).unwrap();
            let ratio = format!(" ({:.2})", row.ratio());
            for (value, colour, offset, after) in [(row.ours, "#1f5fa8", 0, ratio.as_str()), (row.theirs, "#e08a2c", 13, "")] {
                let width = 480.0 * value / longest;
                writeln!(svg, "<rect x=\"290\" y=\"{}\" width=\"{:.1}\" height=\"12\" fill=\"{}\"/>", y + offset, width, colour).unwrap();
                writeln!(svg, "<text x=\"{:.1}\" y=\"{}\" font-size=\"11\">{:.0}{}</text>", 296.0 + width, y + offset + 10, value, after)
                    .unwrap();
            }
            y += 34;
        }
    }
    svg.push_str("</svg>\n");
    svg
}

fn compare_and_time(folder: &str, cases: &[Case]) {
    cases.iter().for_each(Case::compare);
    let mut text = String::new();
    for (case, (ours, theirs)) in cases.iter().zip(time(cases)) {
        writeln!(text, "{}|{}|{}|{}|{}", case.group, case.name, ours, theirs, case.forwarded()).unwrap();
    }
    std::fs::write(format!("{}/times", folder), text).expect("the times are written");
}

fn render(folder: &str) {
    let (times, counts) = (measured(&format!("{}/times", folder)), measured(&format!("{}/counts", folder)));
    println!("{}\n{}\n{}\n{}", times_table(&times), many_table(&times, "ns"), dear_table(&times), dearest(&times));
    println!("{}\n{}", many_rows(&times), ratios(&times, "time"));
    if !counts.is_empty() {
        println!("{}\n{}\n{}", counts_table(&counts), many_table(&counts, "instructions"), ratios(&counts, "instructions"));
    }
    std::fs::write(format!("{}/SPEED.md", folder), document(&times, &counts)).expect("the page is written");
    std::fs::write(format!("{}/speed.svg", folder), plot(&times)).expect("the plot is written");
}

fn main() {
    let arguments: Vec<String> = std::env::args().skip(1).collect();
    match arguments.iter().map(String::as_str).collect::<Vec<_>>()[..] {
        ["--time", folder] => compare_and_time(folder, &cases()),
        ["--time", folder, group] => compare_and_time(folder, &cases_of(group)),
        ["--count"] => count(&cases()),
        ["--count", group] => count(&cases_of(group)),
        ["--render", folder] => render(folder),
        _ => {
            eprintln!("bench --time FOLDER [GROUP] | --count [GROUP] | --render FOLDER");
            std::process::exit(2);
        }
    }
}
