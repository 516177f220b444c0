//! The answers of the library and of the interpreter, side by side.

use baseline::{Description, Fault, Reader, Source, Writer};
use jilafotra::{DescriptionFault, Item, Outcome, Read, Written};

/// More items than any reading is followed to.
pub const MOST_ITEMS: usize = 100_000;

/// What the interpreter says of a stream: its items, and how it ends.
pub struct Reading {
    pub items: Vec<Item>,
    pub outcome: Outcome,
}

pub fn flat(item: &baseline::Item) -> Item {
    Item {
        kind: item.kind as u16,
        line: item.line,
        class: item.class,
        index: item.index as u16,
        value: item.value,
        place: item.place,
        length: item.length,
    }
}

pub fn numbers(item: &Item) -> [i64; 7] {
    [
        item.kind.into(),
        item.line.into(),
        item.class.into(),
        item.index.into(),
        item.value,
        item.place.into(),
        item.length.into(),
    ]
}

pub fn fault(fault: &Fault) -> Outcome {
    Outcome::Fault(jilafotra::Fault {
        cause: fault.cause.into(),
        line: fault.line.into(),
        node: fault.node.into(),
        place: fault.place,
    })
}

/// The interpreter's check.
pub fn described(file: &[u8]) -> Result<Description, DescriptionFault> {
    Description::new(file).map_err(|fault| DescriptionFault {
        cause: fault.cause.into(),
        table: fault.table.into(),
        record: fault.record.into(),
    })
}

/// The interpreter's reading, if it does not have too many items.
pub fn reading(description: &Description, stream: &[u8]) -> Option<Reading> {
    let mut reader = Reader::new(description, Source::whole(stream).ok()?);
    let mut items = Vec::new();
    loop {
        let outcome = match reader.next() {
            Ok(Some(item)) => {
                items.push(flat(&item));
                if items.len() > MOST_ITEMS {
                    return None;
                }
                continue;
            }
            Ok(None) => Outcome::End,
            Err(found) => fault(&found),
        };
        return Some(Reading { items, outcome });
    }
}

/// The 64-bit FNV-1a digest of all numbers of some items, each as eight bytes, the lowest first.
pub fn digest(items: &[Item]) -> u64 {
    let bytes = items.iter().flat_map(numbers).flat_map(i64::to_le_bytes);
    bytes.fold(0xCBF2_9CE4_8422_2325, |digest, byte| {
        (digest ^ u64::from(byte)).wrapping_mul(0x0000_0100_0000_01B3)
    })
}

/// The sum of all numbers of some items.
pub fn sum(items: &[Item]) -> u64 {
    let numbers = items.iter().flat_map(numbers);
    numbers.fold(0, i64::wrapping_add) as u64
}

/// The interpreter's writing.
pub fn written(
    description: &Description,
    items: &[Item],
    length: u64,
    buffer: &mut [u8],
) -> Written {
    let refused = |items, refusal: baseline::Refusal| Written {
        items,
        refusal: Some(refusal.number().into()),
    };
    let mut writer = match Writer::open(description, length) {
        Ok(writer) => writer,
        Err(refusal) => return refused(0, refusal),
    };
    for (count, item) in (0..).zip(items) {
        if let Err(refusal) = writer.put(&numbers(item), buffer) {
            writer.give_up();
            return refused(count, refusal);
        }
    }
    match writer.finish(buffer) {
        Ok(()) => Written {
            items: items.len() as u64,
            refusal: None,
        },
        Err((writer, refusal)) => {
            writer.give_up();
            refused(items.len() as u64, refusal)
        }
    }
}

/// The library's reading, with all its items.
pub fn library_reading(file: &[u8], stream: &[u8], room: usize) -> (Vec<Item>, Option<Read>) {
    let mut table = vec![Item::default(); room];
    let answer = jilafotra::read(file, stream, &mut table).ok();
    table.truncate(answer.map_or(0, |read| read.items as usize));
    (table, answer)
}
