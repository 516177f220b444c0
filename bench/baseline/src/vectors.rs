//! Runs files of known answers and prints which cases differ.

use crate::{fault_text, item_text, parse_item, read_text, seven, Outcome};
use baseline::{grown, Description, Item, Reader, Source, Striker, Writer};
use std::path::Path;

/// What a case answers: the text that it should have, made anew.
type Answer = Result<String, String>;

/// Runs all files of a folder. Answers whether all cases agree.
pub fn run(folder: &str) -> Outcome {
    let mut all_agree = true;
    let path = |name: &str| Path::new(folder).join(name).to_string_lossy().into_owned();
    for name in ["check.txt", "grown.txt"] {
        let text = read_text(&path(name))?;
        let answer = if name == "check.txt" {
            check_case
        } else {
            grown_case
        };
        all_agree &= report(
            name,
            text.lines().map(str::trim).filter(|l| !l.is_empty()),
            answer,
        );
    }
    for name in [
        "read.txt",
        "operators.txt",
        "write.txt",
        "refusals.txt",
        "grow.txt",
    ] {
        // the only file that a folder may lack
        if name == "refusals.txt" && !Path::new(&path(name)).exists() {
            continue;
        }
        let text = read_text(&path(name))?;
        let answer = match name {
            "write.txt" | "refusals.txt" => write_case,
            "grow.txt" => grow_case,
            _ => read_case,
        };
        all_agree &= report(
            name,
            text.split("\n\n").map(str::trim).filter(|b| !b.is_empty()),
            answer,
        );
    }
    Ok(all_agree)
}

/// Answers each case and compares the answer with the case's own text.
fn report<'t>(
    name: &str,
    cases: impl Iterator<Item = &'t str>,
    answer: fn(&str) -> Answer,
) -> bool {
    let mut count = 0;
    let mut differing = 0;
    for case in cases {
        count += 1;
        let got = answer(case).unwrap_or_else(|message| message);
        if got != case {
            differing += 1;
            println!("{name}: case {count} differs");
            for (wanted, got) in case
                .lines()
                .zip(got.lines())
                .filter(|(a, b)| a != b)
                .take(1)
            {
                println!("  wanted {wanted}\n  got    {got}");
            }
        }
    }
    println!("{name}: {count} cases, {differing} differ");
    differing == 0 && count > 0
}

/// Bytes in hexadecimal, `-` for none.
fn bytes_of(hex: &str) -> Result<Vec<u8>, String> {
    if hex == "-" {
        return Ok(Vec::new());
    }
    if !hex.len().is_multiple_of(2) || !hex.is_ascii() {
        return Err(format!("no bytes: {hex}"));
    }
    (0..hex.len())
        .step_by(2)
        .map(|at| u8::from_str_radix(&hex[at..at + 2], 16).map_err(|_| format!("no bytes: {hex}")))
        .collect()
}

fn hex_of(bytes: &[u8]) -> String {
    if bytes.is_empty() {
        return "-".to_string();
    }
    bytes.iter().map(|byte| format!("{byte:02x}")).collect()
}

fn description_of(hex: &str) -> Result<Description, String> {
    Description::new(&bytes_of(hex)?).map_err(|fault| format!("the description has {fault:?}"))
}

/// The words of the case's first line that begins with `key`.
fn field<'t>(case: &'t str, key: &str) -> Result<Vec<&'t str>, String> {
    let words = case.lines().map(|line| line.split(' ').collect::<Vec<_>>());
    let mut found = words.filter(|words| words[0] == key);
    found.next().ok_or_else(|| format!("no field {key}"))
}

fn word<'t>(case: &'t str, key: &str, at: usize) -> Result<&'t str, String> {
    field(case, key)?
        .get(at)
        .copied()
        .ok_or_else(|| format!("too few words after {key}"))
}

fn check_case(case: &str) -> Answer {
    let hex = case.split(' ').next().unwrap_or_default();
    Ok(match Description::new(&bytes_of(hex)?) {
        Ok(_) => format!("{hex} ok"),
        Err(f) => format!("{hex} refused {} {} {}", f.cause, f.table, f.record),
    })
}

fn yes_or_no(is_so: bool) -> &'static str {
    if is_so {
        "yes"
    } else {
        "no"
    }
}

fn grown_case(case: &str) -> Answer {
    let words: Vec<&str> = case.split(' ').collect();
    let &[_, older, _, newer, ..] = &words[..] else {
        return Err("too few words".to_string());
    };
    let is_grown = grown(&description_of(older)?, &description_of(newer)?);
    Ok(format!(
        "older {older} newer {newer} grown {}",
        yes_or_no(is_grown)
    ))
}

/// Reads the bits of a case. Gives each item to `see` and answers the outcome with its line of text.
fn read_bits(
    description: &Description,
    case: &str,
    mut see: impl FnMut(Item),
) -> Result<(Option<baseline::Fault>, String), String> {
    let bytes = bytes_of(word(case, "bits", 2)?)?;
    let bits = word(case, "bits", 1)?
        .parse()
        .map_err(|_| "no number of bits")?;
    let source = Source::new(&bytes, bits).map_err(|refusal| format!("{refusal:?}"))?;
    let mut reader = Reader::new(description, source);
    loop {
        match reader.next() {
            Ok(Some(item)) => see(item),
            Ok(None) => return Ok((None, "end".to_string())),
            Err(fault) => return Ok((Some(fault), fault_text(&fault))),
        }
    }
}

/// The first lines of a case, before its answers.
fn head(case: &str, lines: usize) -> Vec<String> {
    case.lines().take(lines).map(str::to_string).collect()
}

fn read_case(case: &str) -> Answer {
    let description = description_of(word(case, "description", 1)?)?;
    let mut answer = head(case, 3);
    let (_, outcome) = read_bits(&description, case, |item| answer.push(item_text(&item)))?;
    answer.push(outcome);
    Ok(answer.join("\n"))
}

fn write_case(case: &str) -> Answer {
    let description = description_of(word(case, "description", 1)?)?;
    let length = word(case, "length", 1)?.parse().map_err(|_| "no length")?;
    let mut buffer = bytes_of(word(case, "buffer", 1)?)?;
    let mut answer = head(case, 4);
    let mut writer = match Writer::open(&description, length) {
        Ok(writer) => Some(writer),
        Err(refusal) => {
            answer.push(format!("open {}", refusal.number()));
            None
        }
    };
    for line in case.lines().skip(4) {
        let Some(mut open) = writer.take() else {
            break;
        };
        if line == "finish" || line.starts_with("finish ") {
            answer.push(match open.finish(&mut buffer) {
                Ok(()) => "finish ok".to_string(),
                Err((back, refusal)) => {
                    writer = Some(back);
                    format!("finish {}", refusal.number())
                }
            });
            continue;
        }
        if let Some(numbers) = put_of(line) {
            let outcome = match open.put(&numbers, &mut buffer) {
                Ok(()) => "ok".to_string(),
                Err(refusal) => refusal.number().to_string(),
            };
            answer.push(format!("put {} {outcome}", seven(&numbers)));
        }
        writer = Some(open);
    }
    if let Some(writer) = writer {
        writer.give_up();
    }
    answer.push(format!("buffer {}", hex_of(&buffer)));
    Ok(answer.join("\n"))
}

/// The numbers of a line `put`, seven numbers and an answer.
fn put_of(line: &str) -> Option<[i64; 7]> {
    parse_item(line.strip_prefix("put ")?.rsplit_once(' ')?.0)
}

fn grow_case(case: &str) -> Answer {
    let older = description_of(word(case, "older", 1)?)?;
    let newer = description_of(word(case, "newer", 1)?)?;
    let mut answer = head(case, 3);
    answer.push(format!("grown {}", yes_or_no(grown(&older, &newer))));
    answer.push(format!("bits {}", field(case, "bits")?[1..].join(" ")));

    let mut striker = Striker::new(&older);
    let mut struck = Vec::new();
    answer.push("reading by the newer:".to_string());
    let (fault, outcome) = read_bits(&newer, case, |item| {
        answer.push(item_text(&item));
        struck.extend(striker.take(item));
    })?;
    answer.push(outcome);
    answer.push("struck:".to_string());
    answer.extend(struck.iter().map(item_text));
    let lacks = fault.is_some_and(|fault| striker.lacks(&fault));
    answer.push(if lacks {
        "the fault lies inside what the older lacks".to_string()
    } else {
        "no fault inside what the older lacks".to_string()
    });

    answer.push("reading by the older:".to_string());
    let (_, outcome) = read_bits(&older, case, |item| answer.push(item_text(&item)))?;
    answer.push(outcome);
    Ok(answer.join("\n"))
}
