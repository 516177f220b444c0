//! The program `baseline`: see README.md for its subcommands.

mod vectors;

use baseline::{repeated, Description, Fault, Item, Reader, Source, Writer};
use std::fmt::Write as _;
use std::process::ExitCode;
use std::{env, fs};

const USAGE: &str = "usage:
  baseline check FILE
  baseline items DESCRIPTION STREAM
  baseline digest DESCRIPTION STREAM
  baseline count DESCRIPTION STREAM
  baseline pack DESCRIPTION ITEMS LENGTH STREAM
  baseline repeat COUNT DESCRIPTION STREAM [known]
  baseline vectors DIR";

fn main() -> ExitCode {
    let arguments: Vec<String> = env::args().skip(1).collect();
    let words: Vec<&str> = arguments.iter().map(String::as_str).collect();
    let outcome = match words[..] {
        ["check", file] => check(file),
        ["items", description, stream] => items(description, stream),
        ["digest", description, stream] => digest(description, stream),
        ["count", description, stream] => count(description, stream),
        ["pack", description, items, length, stream] => pack(description, items, length, stream),
        ["repeat", count, description, stream] => repeat(count, description, stream, false),
        ["repeat", count, description, stream, "known"] => repeat(count, description, stream, true),
        ["vectors", folder] => vectors::run(folder),
        _ => Err(USAGE.to_string()),
    };
    match outcome {
        Ok(true) => ExitCode::SUCCESS,
        Ok(false) => ExitCode::FAILURE,
        Err(message) => {
            eprintln!("{message}");
            ExitCode::from(2)
        }
    }
}

/// Whether all went well, or what could not be done.
type Outcome = Result<bool, String>;

fn read_file(path: &str) -> Result<Vec<u8>, String> {
    fs::read(path).map_err(|error| format!("{path}: {error}"))
}

fn read_text(path: &str) -> Result<String, String> {
    fs::read_to_string(path).map_err(|error| format!("{path}: {error}"))
}

fn write_file(path: &str, bytes: &[u8]) -> Result<(), String> {
    fs::write(path, bytes).map_err(|error| format!("{path}: {error}"))
}

fn load(path: &str) -> Result<Description, String> {
    Description::new(&read_file(path)?).map_err(|fault| {
        format!(
            "{path}: refused {} {} {}",
            fault.cause, fault.table, fault.record
        )
    })
}

fn whole(bytes: &[u8]) -> Result<Source<'_>, String> {
    Source::whole(bytes).map_err(|refusal| format!("refused {}", refusal.number()))
}

/// Seven numbers, with spaces between.
fn seven(numbers: &[i64; 7]) -> String {
    numbers.map(|number| number.to_string()).join(" ")
}

fn item_text(item: &Item) -> String {
    seven(&item.numbers())
}

fn fault_text(fault: &Fault) -> String {
    let Fault {
        cause,
        line,
        node,
        place,
    } = fault;
    format!("refused {cause} {line} {node} {place}")
}

/// Reads seven numbers.
fn parse_item(line: &str) -> Option<[i64; 7]> {
    let numbers: Result<Vec<i64>, _> = line.split_whitespace().map(str::parse).collect();
    numbers.ok()?.try_into().ok()
}

/// Prints `ok`, or `refused` and the three numbers of the fault.
fn check(file: &str) -> Outcome {
    match Description::new(&read_file(file)?) {
        Ok(_) => println!("ok"),
        Err(fault) => {
            println!("refused {} {} {}", fault.cause, fault.table, fault.record);
            return Ok(false);
        }
    }
    Ok(true)
}

/// Prints the items of a stream, and `end` or the fault.
fn items(description: &str, stream: &str) -> Outcome {
    let description = load(description)?;
    let bytes = read_file(stream)?;
    let mut reader = Reader::new(&description, whole(&bytes)?);
    let mut text = String::new();
    let outcome = loop {
        match reader.next() {
            Ok(Some(item)) => writeln!(text, "{}", item_text(&item)).expect("text grows"),
            outcome => break outcome,
        }
    };
    println!("{text}{}", outcome_text(&outcome.map(|_| ())));
    Ok(outcome.is_ok())
}

fn outcome_text(outcome: &Result<(), Fault>) -> String {
    match outcome {
        Ok(()) => "end".to_string(),
        Err(fault) => fault_text(fault),
    }
}

/// Reads a stream to its end. Gives each item to `see` and answers how many there were.
fn read_all(
    description: &str,
    stream: &str,
    mut see: impl FnMut(&Item),
) -> Result<(u64, Result<(), Fault>), String> {
    let description = load(description)?;
    let bytes = read_file(stream)?;
    let mut reader = Reader::new(&description, whole(&bytes)?);
    let mut count = 0;
    loop {
        match reader.next() {
            Ok(Some(item)) => {
                count += 1;
                see(&item);
            }
            outcome => return Ok((count, outcome.map(|_| ()))),
        }
    }
}

/// Prints how many items there are, a 64-bit FNV-1a digest of all their numbers, and the outcome.
fn digest(description: &str, stream: &str) -> Outcome {
    let mut digest: u64 = 0xCBF2_9CE4_8422_2325;
    let (count, outcome) = read_all(description, stream, |item| {
        digest = item.numbers().into_iter().fold(digest, fnv);
    })?;
    println!("{count} {digest:016x} {}", outcome_text(&outcome));
    Ok(outcome.is_ok())
}

/// Takes the eight bytes of a number, the lowest first, into an FNV-1a digest.
fn fnv(digest: u64, number: i64) -> u64 {
    let bytes = number.to_le_bytes();
    bytes.iter().fold(digest, |digest, byte| {
        (digest ^ u64::from(*byte)).wrapping_mul(0x0000_0100_0000_01B3)
    })
}

/// Prints how many items there are, the sum of all their numbers, and the outcome.
fn count(description: &str, stream: &str) -> Outcome {
    let mut sum: i64 = 0;
    let (count, outcome) = read_all(description, stream, |item| {
        sum = item
            .numbers()
            .iter()
            .fold(sum, |sum, number| sum.wrapping_add(*number));
    })?;
    println!("{count} {sum} {}", outcome_text(&outcome));
    Ok(outcome.is_ok())
}

/// Writes a stream of the items in a file, one a line. A last line `end` is passed over.
fn pack(description: &str, items: &str, length: &str, stream: &str) -> Outcome {
    let description = load(description)?;
    let length: u64 = length
        .parse()
        .map_err(|_| format!("no length in bits: {length}"))?;
    let text = read_text(items)?;
    let mut writer = match Writer::open(&description, length) {
        Ok(writer) => writer,
        Err(refusal) => {
            println!("refused {}", refusal.number());
            return Ok(false);
        }
    };
    let mut buffer = vec![0; length.div_ceil(8) as usize];
    for (number, line) in (1..).zip(text.lines()) {
        if line.is_empty() || line == "end" {
            continue;
        }
        let item = parse_item(line).ok_or_else(|| format!("{items}: line {number} is no item"))?;
        if let Err(refusal) = writer.put(&item, &mut buffer) {
            println!("refused {} at line {number}", refusal.number());
            return Ok(false);
        }
    }
    if let Err((_, refusal)) = writer.finish(&mut buffer) {
        println!("refused {} at the end", refusal.number());
        return Ok(false);
    }
    write_file(stream, &buffer)?;
    println!("ok");
    Ok(true)
}

/// Writes a stream of so many objects and a description for it.
fn repeat(count: &str, description: &str, stream: &str, only_known: bool) -> Outcome {
    let count: usize = count
        .parse()
        .map_err(|_| format!("no number of objects: {count}"))?;
    let made = repeated(count, only_known).ok_or("too many objects")?;
    write_file(description, &made.description)?;
    write_file(stream, &made.stream)?;
    Ok(true)
}
