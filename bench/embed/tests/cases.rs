//! The kept cases with known answers, over the boundary.

use jilafotra::{check, digest, gets, read, sum, write, Fault, Item, Outcome, Source};

const DATA: &str = concat!(env!("CARGO_MANIFEST_DIR"), "/../../crates/cases/data/");
const DOCS: &str = concat!(env!("CARGO_MANIFEST_DIR"), "/../../docs/");

fn text(name: &str) -> String {
    std::fs::read_to_string(format!("{DATA}{name}")).expect("the cases are there")
}

fn bytes(name: &str) -> Vec<u8> {
    std::fs::read(format!("{DOCS}{name}")).expect("the sample is there")
}

/// Bytes in hexadecimal, where `-` stands for none.
fn hex(text: &str) -> Vec<u8> {
    if text == "-" {
        return Vec::new();
    }
    let pairs = text.as_bytes().chunks(2);
    pairs
        .map(|pair| u8::from_str_radix(std::str::from_utf8(pair).unwrap(), 16).unwrap())
        .collect()
}

fn numbers(words: &[&str]) -> Vec<i64> {
    words.iter().map(|word| word.parse().unwrap()).collect()
}

fn item(words: &[&str]) -> Item {
    let n = numbers(words);
    Item {
        kind: n[0] as u16,
        line: n[1] as u16,
        class: n[2] as u16,
        index: n[3] as u16,
        value: n[4],
        place: n[5] as u32,
        length: n[6] as u32,
    }
}

/// The seven numbers of a `put` as an item, if an item can have them.
fn written_item(words: &[&str]) -> Option<Item> {
    let made = item(words);
    let same = numbers(words)
        == [
            made.kind as i64,
            made.line.into(),
            made.class.into(),
            made.index.into(),
            made.value,
            made.place.into(),
            made.length.into(),
        ];
    same.then_some(made)
}

fn cases(name: &str) -> Vec<Vec<String>> {
    let text = text(name);
    let parts = text.split("\n\n").filter(|part| !part.trim().is_empty());
    parts
        .map(|part| part.trim().lines().map(str::to_string).collect())
        .collect()
}

/// What a line of a case holds after its name.
fn after<'a>(case: &'a [String], name: &str) -> Vec<&'a str> {
    let mut lines = case.iter().map(|line| line.split(' '));
    let mut words = lines
        .find(|words| words.clone().next() == Some(name))
        .unwrap();
    words.next();
    words.collect()
}

#[test]
fn descriptions_are_checked() {
    let text = text("check.txt");
    let mut seen = 0;
    for line in text.lines().filter(|line| !line.is_empty()) {
        let words: Vec<&str> = line.split(' ').collect();
        let answer = check(&hex(words[0]));
        let wanted = match words[1] {
            "refused" => Some(numbers(&words[2..])),
            _ => None,
        };
        let fault = answer.err();
        let fault = fault.map(|f| vec![i64::from(f.cause), i64::from(f.table), f.record as i64]);
        assert_eq!(fault, wanted, "{line}");
        seen += 1;
    }
    assert_eq!(seen, 219);
}

/// A reading's items and its end, as a case has them.
fn told(items: &[Item], outcome: Outcome) -> Vec<String> {
    let mut lines: Vec<String> = items
        .iter()
        .map(|i| {
            format!(
                "{} {} {} {} {} {} {}",
                i.kind, i.line, i.class, i.index, i.value, i.place, i.length
            )
        })
        .collect();
    lines.push(match outcome {
        Outcome::Fault(f) => format!("refused {} {} {} {}", f.cause, f.line, f.node, f.place),
        Outcome::End => "end".to_string(),
        other => format!("{other:?}"),
    });
    lines
}

#[test]
fn streams_of_whole_bytes_are_read() {
    let mut seen = 0;
    for case in cases("read.txt") {
        let description = hex(after(&case, "description")[0]);
        let bits = after(&case, "bits");
        let stream = hex(bits.get(1).unwrap_or(&""));
        if numbers(&bits[..1])[0] != 8 * stream.len() as i64 {
            continue;
        }
        let mut table = vec![Item::default(); 1000];
        let answer = read(&description, &stream, &mut table).unwrap();
        let items = &table[..answer.items as usize];
        assert_eq!(told(items, answer.outcome), case[3..], "{}", case[0]);
        let folded = digest(&description, &stream).unwrap();
        assert_eq!(
            (folded.items, folded.outcome),
            (answer.items, answer.outcome)
        );
        seen += 1;
    }
    assert!(seen > 100, "{seen}");
}

/// The items that a case puts, each with whether it is accepted.
fn puts(case: &[String]) -> Vec<(Option<Item>, bool)> {
    let calls = case.iter().filter_map(|line| line.strip_prefix("put "));
    calls
        .map(|call| {
            let words: Vec<&str> = call.split(' ').collect();
            (written_item(&words[..7]), words[7] == "ok")
        })
        .collect()
}

#[test]
fn items_are_written() {
    let mut seen = 0;
    for case in cases("write.txt") {
        let description = hex(after(&case, "description")[0]);
        let length = numbers(&after(&case, "length"))[0] as u64;
        let accepted = puts(&case).into_iter().filter(|put| put.1);
        let items: Vec<Item> = accepted.map(|put| put.0.unwrap()).collect();
        let mut buffer = hex(after(&case, "buffer")[0]);
        let answer = write(&description, &items, length, &mut buffer).unwrap();
        let finish = case.iter().rfind(|line| line.starts_with("finish "));
        let refusal = match finish.unwrap().as_str() {
            "finish ok" => None,
            other => Some(numbers(&[other.split(' ').nth(1).unwrap()])[0] as u32),
        };
        assert_eq!(answer.items, items.len() as u64, "{}", case[0]);
        assert_eq!(answer.refusal, refusal, "{}", case[0]);
        let left = case.iter().rfind(|line| line.starts_with("buffer "));
        assert_eq!(buffer, hex(&left.unwrap()[7..]), "{}", case[0]);
        seen += 1;
    }
    assert_eq!(seen, 90);
}

#[test]
fn the_first_refused_item_is_told() {
    let mut seen = 0;
    for case in cases("write.txt") {
        let description = hex(after(&case, "description")[0]);
        let length = numbers(&after(&case, "length"))[0] as u64;
        let mut buffer = hex(after(&case, "buffer")[0]);
        let puts = puts(&case);
        let Some(first) = puts.iter().position(|put| !put.1) else {
            continue;
        };
        let Some(items) = puts[..=first]
            .iter()
            .map(|put| put.0)
            .collect::<Option<Vec<_>>>()
        else {
            continue;
        };
        let answer = write(&description, &items, length, &mut buffer).unwrap();
        assert_eq!(
            (answer.items, answer.refusal),
            (first as u64, Some(41)),
            "{}",
            case[0]
        );
        seen += 1;
    }
    assert!(seen > 50, "{seen}");
}

#[test]
fn each_make_of_source_has_the_same_sum() {
    let (description, stream) = (bytes("sample.sdt"), bytes("stream.bin"));
    let words: Vec<u32> = stream
        .chunks(4)
        .map(|four| u32::from_be_bytes(four.try_into().unwrap()))
        .collect();
    let mut moved = vec![0x55];
    moved.extend(&stream);
    moved.push(0x55);
    let (front, back) = stream.split_at(3);
    let whole = sum(&description, Source::Bytes(&stream)).unwrap();
    assert_eq!((whole.items, whole.outcome), (9, Outcome::End));
    let window = Source::Window {
        bytes: &moved,
        first: 8,
        count: 64,
    };
    for source in [Source::Words(&words), window, Source::Join { front, back }] {
        assert_eq!(sum(&description, source), Ok(whole), "{source:?}");
    }
    let outside = Source::Window {
        bytes: &moved,
        first: 17,
        count: 64,
    };
    assert_eq!(
        sum(&description, outside).unwrap().outcome,
        Outcome::NoSource(34)
    );
}

#[test]
fn gets_of_the_same_bits_are_the_same() {
    let bytes: Vec<u8> = (0..1012u32).map(|i| (i * i + 7 * i) as u8).collect();
    let words: Vec<u32> = bytes
        .chunks(4)
        .map(|four| u32::from_be_bytes(four.try_into().unwrap()))
        .collect();
    let (front, back) = bytes.split_at(505);
    let all = gets(Source::Bytes(&bytes), 3);
    assert_ne!(all, 0);
    assert_eq!(all, gets(Source::Words(&words), 3));
    assert_eq!(all, gets(Source::Join { front, back }, 3));
    let window = Source::Window {
        bytes: &bytes,
        first: 0,
        count: 8096,
    };
    assert_eq!(all, gets(window, 3));
}

#[test]
fn a_table_that_is_too_small_is_full() {
    let (description, stream) = (bytes("sample.sdt"), bytes("stream.bin"));
    let mut table = [Item::default(); 4];
    let answer = read(&description, &stream, &mut table).unwrap();
    assert_eq!((answer.items, answer.outcome), (4, Outcome::Full));
    assert_eq!(told(&table, Outcome::End)[3], "1 3 3 0 5 24 3");
    let answer = read(&description, &stream[..1], &mut table).unwrap();
    let fault = Fault {
        cause: 19,
        line: 2,
        node: 0,
        place: 8,
    };
    assert_eq!((answer.items, answer.outcome), (2, Outcome::Fault(fault)));
}

#[test]
fn more_bytes_than_a_source_may_have_are_refused() {
    let (description, bytes) = (bytes("sample.sdt"), vec![0; 268_435_456]);
    let answer = read(&description, &bytes, &mut []).unwrap();
    assert_eq!((answer.items, answer.outcome), (0, Outcome::NoSource(33)));
    let answer = sum(&description, Source::Bytes(&bytes)).unwrap();
    assert_eq!((answer.items, answer.outcome), (0, Outcome::NoSource(33)));
}

#[test]
fn an_item_of_no_kind_is_refused_after_a_short_buffer() {
    let description = bytes("sample.sdt");
    let item = Item {
        kind: 4,
        class: 1,
        ..Item::default()
    };
    let refused = |room| {
        let answer = write(&description, &[item], 56, &mut vec![0; room]);
        answer.unwrap().refusal
    };
    assert_eq!((refused(6), refused(7)), (Some(44), Some(41)));
}
