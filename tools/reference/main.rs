// The reference: a second program for the label gateway, written from documents 01 and 02 alone and meant to be read beside them.
//
//   label, categories     what a label is            option     one CIPSO option
//   records               port, host, table          area       the options area
//   decision              forward and deliver        cases      calls read from octets, answered in lines
//   sample                the sample program's job   fast       the same answers, written for speed
//   file                  the house file             entries    which calls are built
//   basic                 one Basic Security option  routes     a box of many ports
//   messages              ICMP messages              memory     which destinations want labels
//   inspect               the inspector's job
//
// The other files generate cases and compare answers.

mod area;
mod basic;
mod cases;
mod categories;
mod decision;
mod differ;
mod entries;
// It has more than is compared here: a writer of files of version 1.
#[allow(dead_code)]
mod fast;
mod fastcheck;
mod file;
mod generator;
mod inspect;
mod label;
mod memory;
mod messages;
mod option;
mod records;
mod routes;
mod sample;
mod selfcheck;

use entries::Entries;
use std::fs::File;
use std::io::{self, BufReader, BufWriter, Write};
use std::process::ExitCode;

const BUFFER: usize = 1 << 20;

const USAGE: &str = "usage:
  reference cases [ENTRIES]                          cases from standard input, one line each
  reference sample [FILE]                            records from standard input, one line each; FILE has ports and table
  reference sample-file NUMBER SEED FILE             writes a file for the sample: document 01's as number 0, then variants
  reference inspect FILE                             recorded cases from standard input, one line each; FILE has ports and tables
  reference generate-records COUNT SEED VERSION RECORDS FILE   writes recorded cases for inspect and the file of that version for them
  reference built ENTRY                              says by its exit status whether an entry is built
  reference generate COUNT SEED CASES LINES [ENTRIES]   writes cases and their expected lines
  reference sample-records COUNT SEED RECORDS        writes records for the sample
  reference differ-cases CASES EXPECTED FOUND        shows the first difference of two files of lines
  reference differ-sample RECORDS EXPECTED FOUND
  reference differ-inspect RECORDS EXPECTED FOUND
  reference selfcheck                                checks the reference against document 01's numbers
  reference fastcheck COUNT SEED                     compares the fast variant on generated cases
ENTRIES are numbers and ranges as `1-9,24`; without them, those that entries.rs lists as built";

fn reader(path: &str) -> io::Result<BufReader<File>> {
    Ok(BufReader::with_capacity(BUFFER, File::open(path)?))
}

fn writer(path: &str) -> io::Result<BufWriter<File>> {
    Ok(BufWriter::with_capacity(BUFFER, File::create(path)?))
}

/// The entries that an argument names, or those that are built.
fn entries(text: Option<&&str>) -> io::Result<Entries> {
    match text {
        None => Ok(Entries::built()),
        Some(text) => Entries::named(text)
            .ok_or_else(|| io::Error::new(io::ErrorKind::InvalidInput, format!("{}: not a list of known entries", text))),
    }
}

/// True where the work ended well.
fn run(arguments: &[&str]) -> io::Result<bool> {
    let number =
        |text: &str| text.parse::<u64>().map_err(|_| io::Error::new(io::ErrorKind::InvalidInput, format!("{}: not a number", text)));
    match arguments {
        ["cases"] | ["cases", _] | ["sample"] | ["sample", _] => {
            let mut input = BufReader::with_capacity(BUFFER, io::stdin().lock());
            let mut output = BufWriter::with_capacity(BUFFER, io::stdout().lock());
            if arguments[0] == "cases" {
                cases::run(&mut input, &mut output, &entries(arguments.get(1))?)?;
            } else {
                let sample = match arguments.get(1) {
                    None => Some(sample::Sample::new()),
                    // A file that is missing is as one that is refused.
                    Some(path) => std::fs::read(path).ok().and_then(|octets| sample::Sample::of_file(&octets)),
                };
                sample::run(&mut input, &mut output, sample.as_ref())?;
            }
            output.flush()?;
            Ok(true)
        }
        ["inspect", path] => {
            let mut input = BufReader::with_capacity(BUFFER, io::stdin().lock());
            let mut output = BufWriter::with_capacity(BUFFER, io::stdout().lock());
            let inspector = std::fs::read(path).ok().and_then(|octets| inspect::Inspector::of_file(&octets));
            inspect::run(&mut input, &mut output, inspector.as_ref())?;
            output.flush()?;
            Ok(true)
        }
        ["generate-records", count, seed, version, records, path] => {
            let version = (number(version)? as usize).wrapping_sub(1);
            if version >= file::VERSIONS.len() {
                return Err(io::Error::new(io::ErrorKind::InvalidInput, "no such version"));
            }
            let mut records = writer(records)?;
            let (enough, octets) = generator::recorded::recorded(number(count)? as usize, number(seed)?, version, &mut records)?;
            records.flush()?;
            std::fs::write(path, octets)?;
            Ok(enough)
        }
        ["generate", count, seed, cases, lines] | ["generate", count, seed, cases, lines, _] => {
            let entries = entries(arguments.get(5))?;
            let (mut cases, mut lines) = (writer(cases)?, writer(lines)?);
            let enough = generator::cases(number(count)? as usize, number(seed)?, &entries, &mut cases, &mut lines)?;
            cases.flush()?;
            lines.flush()?;
            Ok(enough)
        }
        ["sample-records", count, seed, records] => {
            let mut records = writer(records)?;
            let enough = generator::sample_records::records(number(count)? as usize, number(seed)?, &mut records)?;
            records.flush()?;
            Ok(enough)
        }
        ["sample-file", variant, seed, path] => {
            std::fs::write(path, generator::sample_files::variant(number(variant)? as usize, number(seed)?))?;
            Ok(true)
        }
        ["built", entry] => Ok(number(entry)? < 256 && Entries::built().has(number(entry)? as u8)),
        ["differ-cases", cases, expected, found] => differ::cases(&mut reader(cases)?, &mut reader(expected)?, &mut reader(found)?),
        ["differ-inspect", records, expected, found] => differ::inspect(&mut reader(records)?, &mut reader(expected)?, &mut reader(found)?),
        ["differ-sample", records, expected, found] => differ::sample(&mut reader(records)?, &mut reader(expected)?, &mut reader(found)?),
        ["selfcheck"] => Ok(selfcheck::run()),
        ["fastcheck", count, seed] => Ok(fastcheck::run(number(count)? as usize, number(seed)?)),
        _ => Err(io::Error::new(io::ErrorKind::InvalidInput, USAGE)),
    }
}

fn main() -> ExitCode {
    let arguments: Vec<String> = std::env::args().skip(1).collect();
    let arguments: Vec<&str> = arguments.iter().map(String::as_str).collect();
    match run(&arguments) {
        Ok(true) => ExitCode::SUCCESS,
        Ok(false) => ExitCode::FAILURE,
        Err(error) => {
            eprintln!("{}", error);
            ExitCode::FAILURE
        }
    }
}
