//! Compares the library with the interpreter on descriptions, streams and items that are made up: `differential [FIRST
//! COUNT]`, the first seed and how many. Prints what came up how often, and the smallest differences.

use baseline::{invent, Description, Random};
use jilafotra::{check, digest, sum, write, DescriptionFault, Item, Outcome, Source};
use std::collections::BTreeMap;
use std::process::ExitCode;
use trials::damage::{damaged_file, damaged_stream};
use trials::describe::describe;
use trials::draft::Draft;
use trials::pairs;

fn main() -> ExitCode {
    let words: Vec<String> = std::env::args().skip(1).collect();
    let number =
        |i: usize, other: u64| words.get(i).map_or(other, |w| w.parse().expect("a number"));
    let (first, count) = (number(0, 1), number(1, 20_000));
    let mut trial = Trial::default();
    for seed in first..first + count {
        trial.description(seed);
    }
    trial.print();
    if trial.differences.is_empty() {
        ExitCode::SUCCESS
    } else {
        ExitCode::FAILURE
    }
}

/// A description and a stream for it.
struct Pair<'a> {
    seed: u64,
    file: &'a [u8],
    description: &'a Description,
    stream: &'a [u8],
}

impl Pair<'_> {
    fn size(&self) -> usize {
        self.file.len() + self.stream.len()
    }

    fn told(&self) -> String {
        let (file, stream) = (hex(self.file), hex(self.stream));
        format!("seed {}\n  file {file}\n  stream {stream}", self.seed)
    }
}

/// What was compared so far.
#[derive(Default)]
struct Trial {
    /// What came up how often, by a heading and a word.
    counts: BTreeMap<(&'static str, String), u64>,
    /// The smallest case of each kind of difference.
    differences: BTreeMap<&'static str, (usize, String)>,
}

impl Trial {
    fn count(&mut self, heading: &'static str, word: impl ToString) {
        self.add(heading, word, 1);
    }

    fn add(&mut self, heading: &'static str, word: impl ToString, many: u64) {
        *self.counts.entry((heading, word.to_string())).or_default() += many;
    }

    /// Notes a difference, if it is the smallest of its kind.
    fn differs(&mut self, kind: &'static str, size: usize, case: String) {
        self.count("differences", kind);
        let smallest = self
            .differences
            .entry(kind)
            .or_insert((usize::MAX, String::new()));
        if size < smallest.0 {
            *smallest = (size, case);
        }
    }

    fn description(&mut self, seed: u64) {
        let mut random = Random::new(seed);
        let lines = *random.one_of(&[1, 3, 6, 6, 12, 30]);
        let draft = describe(&mut random, lines);
        let is_damaged = random.once_in(3);
        let file = if is_damaged {
            damaged_file(&mut random, &draft)
        } else {
            draft.file()
        };
        let ours = check(&file);
        let theirs = pairs::described(&file);
        self.count("descriptions", checked(&theirs));
        if ours.err() != theirs.as_ref().err().copied() {
            let case = format!("seed {seed}\n  file {}\n  library {ours:?}", hex(&file));
            return self.differs("check", file.len(), case);
        }
        let Ok(description) = theirs else {
            assert!(is_damaged, "seed {seed}: the generator breaks a rule");
            return;
        };
        if !is_damaged {
            self.features(&draft);
        }
        for _ in 0..4 {
            let bytes = *random.one_of(&[0, 3, 20, 60, 200, 600, 600, 5000, 20_000]);
            let bytes = random.below(bytes + 1) + bytes / 2;
            let Some(stream) = invent(&description, bytes, pairs::MOST_ITEMS, random.bits()) else {
                self.count("streams", "too many items");
                continue;
            };
            let damaged = damaged_stream(&mut random, &stream);
            for stream in [&stream, &damaged] {
                let pair = Pair {
                    seed,
                    file: &file,
                    description: &description,
                    stream,
                };
                self.stream(&pair, &mut random);
            }
        }
    }

    /// Counts which kinds of records an accepted description has.
    fn features(&mut self, draft: &Draft) {
        for line in &draft.lines {
            self.count("lines of kind", line[0]);
            if line[0] <= 2 {
                self.add("records", "look-aheads", line[5].into());
                self.add("records", "alignments", (line[4] > 0).into());
                self.add("records", "counted reads", (line[3] > 0).into());
            }
            if line[0] == 5 {
                let counted = ["uses without a count", "counted uses"];
                self.count("records", counted[usize::from(line[2] > 0)]);
                self.add("records", "carries", (line[5] > 0).into());
            }
        }
        for node in &draft.nodes {
            self.count("nodes of operator", node[0]);
        }
        self.add("records", "extensions", draft.extensions.len() as u64);
        self.add("records", "rows", draft.rows.len() as u64);
        for class in &draft.classes {
            let kind = ["plain", "base", "member"][usize::from(class[0])];
            let size = if class[3] > 0 { ", expandable" } else { "" };
            self.count("classes", format!("{kind}{size}"));
        }
    }

    fn stream(&mut self, pair: &Pair, random: &mut Random) {
        let Some(theirs) = pairs::reading(pair.description, pair.stream) else {
            return self.count("streams", "too many items");
        };
        let ending = outcome(theirs.outcome);
        self.count("streams", &ending);
        let items = theirs.items.len() as u64;
        self.add("items handed out by readings that came to", ending, items);
        if self.items(pair, &theirs) {
            self.makes(pair, &theirs, random);
            self.writings(pair, &theirs, random);
        }
    }

    /// Compares the items that both hand out, and their ends. Answers whether they are the same.
    fn items(&mut self, pair: &Pair, theirs: &pairs::Reading) -> bool {
        let items = theirs.items.len();
        let ours = digest(pair.file, pair.stream).expect("both accept it");
        let wanted = (items as u64, theirs.outcome, pairs::digest(&theirs.items));
        let is_same = (ours.items, ours.outcome, ours.fold) == wanted;
        let room = if is_same {
            items + 1
        } else {
            pairs::MOST_ITEMS
        };
        let (table, _) = pairs::library_reading(pair.file, pair.stream, room);
        if is_same {
            if table != theirs.items {
                self.differs("table of items", pair.size(), pair.told());
            }
            return true;
        }
        let both = table.iter().zip(&theirs.items);
        let same = both.take_while(|(a, b)| a == b).count();
        let case = format!(
            "{}\n  after {same} items\n  library {:?} of {}, {:?}\n  interpreter {:?} of {items}, {:?}",
            pair.told(),
            table.get(same),
            ours.items,
            ours.outcome,
            theirs.items.get(same),
            theirs.outcome
        );
        self.differs("reading", pair.size(), case);
        false
    }

    /// Reads the same bits from all makes of source.
    fn makes(&mut self, pair: &Pair, theirs: &pairs::Reading, random: &mut Random) {
        let stream = pair.stream;
        let (front, back) = stream.split_at(random.below(stream.len() as u32 + 1) as usize);
        let first = random.below(20);
        let moved = moved(stream, first, random);
        let window = Source::Window {
            bytes: &moved,
            first,
            count: 8 * stream.len() as u32,
        };
        let words = words(stream);
        let mut sources = vec![
            ("bytes", Source::Bytes(stream)),
            ("join", Source::Join { front, back }),
            ("window", window),
        ];
        if let Some(words) = &words {
            sources.push(("words", Source::Words(words)));
        }
        let wanted = (
            theirs.items.len() as u64,
            theirs.outcome,
            pairs::sum(&theirs.items),
        );
        for (make, source) in sources {
            let ours = sum(pair.file, source).expect("it is accepted");
            self.count("makes of source", make);
            if (ours.items, ours.outcome, ours.fold) != wanted {
                self.differs(make, pair.size(), pair.told());
            }
        }
    }

    /// Writes the items by both, as they are and changed.
    fn writings(&mut self, pair: &Pair, theirs: &pairs::Reading, random: &mut Random) {
        let items = &theirs.items;
        let whole = 8 * pair.stream.len() as u64;
        self.writing(pair, items, (whole, pair.stream.len()), random);
        let changed = changed(random, items);
        let length = match random.below(6) {
            0 => items.last().map_or(0, |item| u64::from(item.place)),
            1 => whole.saturating_sub(u64::from(random.below(20))),
            2 => whole + u64::from(random.below(20)),
            3 if random.once_in(8) => 2_147_483_647 + u64::from(random.below(3)),
            _ => whole,
        };
        let room = match random.below(8) {
            0 => length.div_ceil(8).saturating_sub(1),
            _ => length.div_ceil(8) + u64::from(random.below(2)),
        };
        let room = room.min(100_000) as usize;
        self.writing(pair, &changed, (length, room), random);
    }

    /// Writes items by both, as a stream of so many bits into a buffer of so many bytes.
    fn writing(
        &mut self,
        pair: &Pair,
        items: &[Item],
        (length, room): (u64, usize),
        random: &mut Random,
    ) {
        let before: Vec<u8> = (0..room).map(|_| random.bits() as u8).collect();
        let (mut ours, mut theirs) = (before.clone(), before);
        let our_answer = write(pair.file, items, length, &mut ours).expect("it is accepted");
        let answer = pairs::written(pair.description, items, length, &mut theirs);
        let word = answer
            .refusal
            .map_or("finished".to_string(), |number| number.to_string());
        self.count("writings", &word);
        self.add("items put by writings that came to", &word, answer.items);
        if our_answer != answer || ours != theirs {
            let size = pair.file.len() + 24 * items.len();
            let shown: Vec<[i64; 7]> = items.iter().map(pairs::numbers).collect();
            let case = format!(
                "seed {}\n  file {}\n  length {length}, items {shown:?}\n  library {our_answer:?}\n  interpreter {answer:?}\n  {} and {}",
                pair.seed,
                hex(pair.file),
                hex(&ours),
                hex(&theirs)
            );
            self.differs("writing", size, case);
        }
    }

    fn print(&self) {
        let mut last = "";
        for ((heading, word), many) in &self.counts {
            if *heading != last {
                println!("{heading}");
                last = heading;
            }
            println!("  {word:<24} {many}");
        }
        for (kind, (_, case)) in &self.differences {
            println!("the smallest difference of {kind}: {case}");
        }
        println!("{} kinds of difference", self.differences.len());
    }
}

fn checked(answer: &Result<Description, DescriptionFault>) -> String {
    match answer {
        Ok(_) => "accepted".to_string(),
        Err(fault) => format!("fault {:02}", fault.cause),
    }
}

fn outcome(outcome: Outcome) -> String {
    match outcome {
        Outcome::End => "end".to_string(),
        Outcome::Fault(fault) => format!("fault {}", fault.cause),
        other => format!("{other:?}"),
    }
}

fn hex(bytes: &[u8]) -> String {
    bytes.iter().map(|byte| format!("{byte:02x}")).collect()
}

/// Bytes that hold a stream from bit `first` on, among random bits.
fn moved(stream: &[u8], first: u32, random: &mut Random) -> Vec<u8> {
    let mut bytes: Vec<u8> = (0..stream.len() as u32 + first / 8 + 2)
        .map(|_| random.bits() as u8)
        .collect();
    for (i, byte) in stream.iter().enumerate() {
        for bit in 0..8 {
            let at = first as usize + 8 * i + bit;
            let mask = 0x80 >> (at % 8);
            bytes[at / 8] &= !mask;
            if byte >> (7 - bit) & 1 == 1 {
                bytes[at / 8] |= mask;
            }
        }
    }
    bytes
}

/// The words of a stream, if it is made of whole ones.
fn words(stream: &[u8]) -> Option<Vec<u32>> {
    if !stream.len().is_multiple_of(4) {
        return None;
    }
    let fours = stream.chunks(4);
    Some(
        fours
            .map(|four| u32::from_be_bytes(four.try_into().expect("four bytes")))
            .collect(),
    )
}

/// Items that differ somewhere, perhaps.
fn changed(random: &mut Random, items: &[Item]) -> Vec<Item> {
    let mut items = items.to_vec();
    if items.is_empty() {
        return items;
    }
    let at = random.below(items.len() as u32) as usize;
    match random.below(16) {
        0 => drop(items.remove(at)),
        1 => items.insert(at, items[at]),
        2 => items.truncate(at),
        3 => items.swap(at, 0),
        4..=6 => {}
        _ => change(random, &mut items[at]),
    }
    items
}

/// Changes one number of an item, mostly a little.
fn change(random: &mut Random, item: &mut Item) {
    let by = *random.one_of(&[1, 1, 2, 7, 8, 255, 65_535]);
    let by = if random.once_in(2) { by } else { -by };
    match random.below(10) {
        0 => item.kind = random.below(5) as u16,
        1 => item.line = (i64::from(item.line) + by) as u16,
        2 => item.class = (i64::from(item.class) + by) as u16,
        3 => item.index = (i64::from(item.index) + by) as u16,
        4..=6 => item.value += by,
        7 => item.place = (i64::from(item.place) + by) as u32,
        8 => item.length = (i64::from(item.length) + by) as u32,
        _ => item.value = random.bits() as i64,
    }
}
