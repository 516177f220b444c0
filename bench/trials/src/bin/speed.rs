//! Measures the library beside the interpreter and code written by hand: `speed` prints the tables of docs/SPEED.md. It
//! calls itself for single measurements, also under valgrind.

use baseline::{repeated, Random};
use std::process::Command;
use std::time::Instant;
use std::{env, fs};
use trials::describe::describe;
use trials::jobs::{By, Done, Input, Job, Make, Task};

/// Objects of the streams that are timed, 1,200,009 and 1,200,007 items, whole words long.
const TIMED: [(&str, usize); 2] = [("mixed", 400_002), ("known", 300_001)];

/// The two lengths whose difference is counted in instructions.
const COUNTED: [(&str, [usize; 2]); 2] = [("mixed", [20_002, 60_002]), ("known", [20_001, 60_001])];

/// How often a time is taken. The least counts.
const TRIES: usize = 7;

const MAKES: [Make; 4] = [Make::Bytes, Make::Words, Make::Window, Make::Join];

type Outcome<T> = Result<T, String>;

fn main() -> Result<(), String> {
    let words: Vec<String> = env::args().skip(1).collect();
    let words: Vec<&str> = words.iter().map(String::as_str).collect();
    match words[..] {
        [] => tables(),
        ["once", task, by, make, rounds, input] => {
            let job = job(task, by, make).ok_or("no such job")?;
            let input = input_named(job, input)?;
            let rounds = rounds.parse().map_err(|_| "no number of rounds")?;
            let done = measured_job(&job, &input, rounds);
            println!("{} {}", done.many, done.number);
            Ok(())
        }
        ["rss", by, description, stream] => {
            let by = By::named(by).ok_or("nobody of that name")?;
            memory(by, description, stream)
        }
        _ => Err("usage: speed".to_string()),
    }
}

fn job(task: &str, by: &str, make: &str) -> Option<Job> {
    Some(Job {
        task: Task::named(task)?,
        by: By::named(by)?,
        make: Make::named(make)?,
    })
}

/// All that is counted in instructions happens in here.
#[no_mangle]
#[inline(never)]
pub fn measured_job(job: &Job, input: &Input, rounds: u32) -> Done {
    job.run(input, rounds)
}

/// What a job works on: `sample`, `large` (the largest description of some that are made up), `gets`, or `mixed:N` and
/// `known:N` for a stream of so many objects.
fn input_named(job: Job, name: &str) -> Outcome<Input> {
    let file = |name| fs::read(format!("{}/../../docs/{name}", env!("CARGO_MANIFEST_DIR")));
    let sample = file("sample.sdt").map_err(|error| error.to_string())?;
    match name.split_once(':') {
        None if name == "sample" => {
            let stream = file("stream.bin").map_err(|error| error.to_string())?;
            Ok(Input::new(job, sample, stream, true))
        }
        None if name == "large" => Ok(Input::new(job, large(), Vec::new(), true)),
        None if name == "gets" => {
            let stream = (0..1012u32).map(|i| (i * i * 31 + 7 * i) as u8).collect();
            Ok(Input::new(job, sample, stream, true))
        }
        Some((kind, count)) => {
            let count = count.parse().map_err(|_| "no number of objects")?;
            let made = repeated(count, kind == "known").ok_or("too many objects")?;
            Ok(Input::new(job, made.description, made.stream, false))
        }
        _ => Err(format!("no input {name}")),
    }
}

/// The largest of a hundred descriptions that are made up.
fn large() -> Vec<u8> {
    let files = (0..100).map(|seed| describe(&mut Random::new(seed), 60).file());
    files.max_by_key(Vec::len).expect("there are a hundred")
}

/// The least nanoseconds that a job took for one item, get or check.
fn nanoseconds(job: Job, input: &str, rounds: u32) -> Outcome<f64> {
    let input = input_named(job, input)?;
    let mut least = f64::INFINITY;
    for _ in 0..TRIES {
        let before = Instant::now();
        let done = measured_job(&job, &input, rounds);
        let each = before.elapsed().as_nanos() as f64 / done.many as f64;
        least = least.min(each);
    }
    Ok(least)
}

/// How many items and instructions one run under valgrind has.
fn counted(job: Job, input: &str, rounds: u32) -> Outcome<(f64, f64)> {
    let program = env::current_exe().map_err(|error| error.to_string())?;
    let run = Command::new("valgrind")
        .args(["--tool=callgrind", "--callgrind-out-file=/dev/null"])
        .arg("--toggle-collect=measured_job")
        .arg(program)
        .arg("once")
        .args([
            job.task.to_string(),
            job.by.to_string(),
            job.make.to_string(),
        ])
        .args([&rounds.to_string(), input])
        .output()
        .map_err(|error| format!("valgrind: {error}"))?;
    let (told, said) = (
        String::from_utf8_lossy(&run.stdout),
        String::from_utf8_lossy(&run.stderr),
    );
    let many = told.split(' ').next().and_then(|word| word.parse().ok());
    let collected = said
        .lines()
        .find_map(|line| line.split_once("Collected :"))
        .and_then(|(_, number)| number.trim().parse().ok());
    match (many, collected) {
        (Some(many), Some(collected)) => Ok((many, collected)),
        _ => Err(format!("valgrind said: {said}")),
    }
}

/// The instructions of one item, get or check, by the difference of two runs.
fn instructions(job: Job, inputs: [&str; 2], rounds: [u32; 2]) -> Outcome<f64> {
    let (few, less) = counted(job, inputs[0], rounds[0])?;
    let (many, more) = counted(job, inputs[1], rounds[1])?;
    Ok((more - less) / (many - few))
}

/// A row of a table: what, by whom, time and instructions.
fn row(what: &str, job: Job, nanoseconds: f64, instructions: f64) {
    let Job { by, .. } = job;
    println!("| {what} | {by} | {nanoseconds:.1} | {instructions:.1} |");
}

fn head(title: &str, each: &str) {
    println!("\n{title}\n\n| | by | nanoseconds {each} | instructions {each} |\n|---|---|---|---|");
}

/// A job on a long stream.
fn long(what: &str, job: Job, kind: usize) -> Outcome<()> {
    let (name, objects) = TIMED[kind];
    let time = nanoseconds(job, &format!("{name}:{objects}"), 1)?;
    let inputs = COUNTED[kind].1.map(|objects| format!("{name}:{objects}"));
    let count = instructions(job, [&inputs[0], &inputs[1]], [1, 1])?;
    row(&format!("{name}, {what}"), job, time, count);
    Ok(())
}

/// A job that is done over and over on one input.
fn over_and_over(what: &str, job: Job, input: &str, rounds: u32) -> Outcome<()> {
    let time = nanoseconds(job, input, rounds)?;
    let fewer = rounds.div_ceil(20);
    let count = instructions(job, [input, input], [fewer, 3 * fewer])?;
    row(what, job, time, count);
    Ok(())
}

fn tables() -> Outcome<()> {
    readings()?;
    let job = |task, by| Job {
        task,
        by,
        make: Make::Bytes,
    };
    head("Putting the items of a long stream", "per item");
    for by in [By::Library, By::Interpreter] {
        long("bytes", job(Task::Put, by), 1)?;
    }
    head(
        "The sample's stream of nine items, with the check of its description",
        "per item",
    );
    for by in [By::Library, By::Interpreter, By::Hand] {
        over_and_over("sample", job(Task::Read, by), "sample", 20_000)?;
    }
    head("Checking a description file", "per file");
    let large_name = format!("{} bytes, made up", large().len());
    for (what, input, rounds) in [
        ("163 bytes, the sample", "sample", 20_000),
        (&large_name[..], "large", 100),
    ] {
        for by in [By::Library, By::Interpreter] {
            over_and_over(what, job(Task::Check, by), input, rounds)?;
        }
    }
    gets()?;
    memories()
}

/// Readings of both long streams, of `mixed` over all makes of source.
fn readings() -> Outcome<()> {
    let job = |by, make| Job {
        task: Task::Read,
        by,
        make,
    };
    head("Reading a long stream", "per item");
    for (kind, (name, _)) in TIMED.iter().enumerate() {
        for make in MAKES {
            if make == Make::Bytes || *name == "mixed" {
                long(&make.to_string(), job(By::Library, make), kind)?;
            }
        }
        for by in [By::Interpreter, By::Hand] {
            long("bytes", job(by, Make::Bytes), kind)?;
        }
    }
    Ok(())
}

fn gets() -> Outcome<()> {
    let job = |by, make| Job {
        task: Task::Get,
        by,
        make,
    };
    head("Gets at all places of 8000 bits, of all widths", "per get");
    for make in MAKES {
        for by in [By::Library, By::Hand] {
            over_and_over(&make.to_string(), job(by, make), "gets", 1000)?;
        }
    }
    over_and_over("bytes", job(By::Interpreter, Make::Bytes), "gets", 1000)
}

/// Reads a stream from files, and prints the most memory that this process ever had, in kilobytes.
fn memory(by: By, description: &str, stream: &str) -> Outcome<()> {
    let read = |name| fs::read(name).map_err(|error| error.to_string());
    let (description, stream) = (read(description)?, read(stream)?);
    let job = Job {
        task: Task::Read,
        by,
        make: Make::Bytes,
    };
    let input = Input::new(job, description, stream, false);
    let done = measured_job(&job, &input, 1);
    let status = fs::read_to_string("/proc/self/status").map_err(|error| error.to_string())?;
    let most = status
        .lines()
        .find_map(|line| line.strip_prefix("VmHWM:"))
        .ok_or("no VmHWM")?;
    println!("{} {}", most.trim().trim_end_matches(" kB"), done.many);
    Ok(())
}

/// The most memory for streams of 1, 10 and 100 megabytes.
fn memories() -> Outcome<()> {
    println!("\nThe most memory that a process had which reads a stream from a file\n");
    println!("| stream in bytes | items | library, kilobytes | interpreter, kilobytes |\n|---|---|---|---|");
    let folder = env::temp_dir().join(format!("speed-{}", std::process::id()));
    fs::create_dir_all(&folder).map_err(|error| error.to_string())?;
    let (description, stream) = (folder.join("description.sdt"), folder.join("stream.bin"));
    for millions in [1, 10, 100] {
        let made = repeated(millions * 2_000_000 / 7, false).ok_or("too many objects")?;
        fs::write(&description, &made.description).map_err(|error| error.to_string())?;
        fs::write(&stream, &made.stream).map_err(|error| error.to_string())?;
        let mut told = Vec::new();
        for by in [By::Library, By::Interpreter] {
            let program = env::current_exe().map_err(|error| error.to_string())?;
            let run = Command::new(program)
                .args(["rss", &by.to_string()])
                .args([&description, &stream])
                .output()
                .map_err(|error| error.to_string())?;
            told.push(String::from_utf8_lossy(&run.stdout).trim().to_string());
        }
        let parts: Vec<&str> = told.iter().flat_map(|text| text.split(' ')).collect();
        let [library, items, interpreter, _] = parts[..] else {
            return Err(format!("no two answers of memory: {told:?}"));
        };
        println!(
            "| {} | {items} | {library} | {interpreter} |",
            made.stream.len()
        );
    }
    fs::remove_dir_all(&folder).map_err(|error| error.to_string())
}
