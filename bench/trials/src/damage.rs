//! Damages descriptions and streams.

use crate::draft::{class, Draft};
use baseline::Random;

/// A file of a description that has perhaps one fault or several.
pub fn damaged_file(random: &mut Random, draft: &Draft) -> Vec<u8> {
    let mut draft = draft.clone();
    for _ in 0..*random.one_of(&[1, 1, 1, 2, 4]) {
        damage(random, &mut draft);
    }
    let mut file = draft.file();
    match random.below(24) {
        0 => file.truncate(random.below(file.len() as u32 + 1) as usize),
        1 => file.push(random.bits() as u8),
        2 => {
            let at = random.below(19.min(file.len() as u32)) as usize;
            file[at] ^= 1 << random.below(8);
        }
        3 => {
            let at = random.below(file.len() as u32) as usize;
            file[at] = random.bits() as u8;
        }
        _ => {}
    }
    file
}

fn damage(random: &mut Random, draft: &mut Draft) {
    match random.below(16) {
        0 => nest_deep(random, draft),
        1 => deepen_nodes(random, draft),
        2 => change_rank(random, draft),
        3 => change_owner(random, draft),
        4..=7 => change_class(random, draft),
        8 => change_extension(random, draft),
        9 => change_map(random, draft),
        10 => draft.top = random.below(draft.classes.len() as u32 + 3) as u16,
        11 => change_use(random, draft),
        _ => change_any(random, draft),
    }
}

/// Another number in a field's place.
fn other(random: &mut Random, number: u16) -> u16 {
    match random.below(6) {
        0 => 0,
        1 => number.wrapping_add(1),
        2 => number.wrapping_sub(1),
        3 => random.bits() as u16,
        _ => random.below(12) as u16,
    }
}

/// One of the records, if there is one.
fn some_record<'a, const N: usize>(
    random: &mut Random,
    table: &'a mut [[u16; N]],
) -> Option<&'a mut [u16; N]> {
    if table.is_empty() {
        return None;
    }
    let at = random.below(table.len() as u32) as usize;
    Some(&mut table[at])
}

fn change_field<const N: usize>(random: &mut Random, table: &mut [[u16; N]]) {
    if let Some(fields) = some_record(random, table) {
        let field = random.below(N as u32) as usize;
        fields[field] = other(random, fields[field]);
    }
}

fn change_any(random: &mut Random, draft: &mut Draft) {
    match random.below(8) {
        0 => change_field(random, &mut draft.classes),
        1 => change_field(random, &mut draft.names),
        2 => change_field(random, &mut draft.extensions),
        3..=4 => change_field(random, &mut draft.lines),
        5 => change_field(random, &mut draft.nodes),
        6 => change_field(random, &mut draft.maps),
        _ => change_field(random, &mut draft.rows),
    }
}

/// Puts whiles around each other before the first class's lines: more blocks than may nest, or just as many.
fn nest_deep(random: &mut Random, draft: &mut Draft) {
    let blocks = random.from_to(7, 9) as u16;
    draft.nodes.push([1, 0, 0]);
    let node = draft.nodes.len() as u16;
    let first = draft.lines.len() as u16 + 1;
    for i in 0..blocks {
        draft.lines.push([7, node, blocks - 1 - i, 1, 0, 0, 0, 0]);
    }
    let owner = draft
        .classes
        .iter_mut()
        .find(|fields| fields[class::LINES] == 0);
    if let Some(fields) = owner {
        fields[class::FIRST_LINE] = first;
        fields[class::LINES] = blocks;
    } else if let Some(fields) = draft.classes.last() {
        let extension = [fields[class::BASE].max(1), first, blocks];
        draft.extensions.push(extension);
    }
}

fn deepen_nodes(random: &mut Random, draft: &mut Draft) {
    draft.nodes.push([1, 0, 1]);
    for _ in 0..random.from_to(6, 9) {
        let last = draft.nodes.len() as u16;
        draft.nodes.push([7, last, 1]);
    }
}

fn change_rank(random: &mut Random, draft: &mut Draft) {
    if let Some(fields) = some_record(random, &mut draft.classes) {
        fields[class::RANK] = random.from_to(1, 16) as u16;
    }
}

fn change_owner(random: &mut Random, draft: &mut Draft) {
    let classes = draft.classes.len() as u32;
    if let Some(owner) = some_record(random, &mut draft.names) {
        owner[0] = random.from_to(1, classes) as u16;
    }
}

/// Changes what the rules of cause 10 speak of.
fn change_class(random: &mut Random, draft: &mut Draft) {
    let field = *random.one_of(&[
        class::KIND,
        class::BASE,
        class::ABSTRACT,
        class::GREATEST,
        class::ID_WIDTH,
        class::FIRST_ID,
        class::LAST_ID,
    ]);
    let classes = draft.classes.len() as u32;
    if let Some(fields) = some_record(random, &mut draft.classes) {
        fields[field] = match field {
            class::KIND => random.below(3) as u16,
            class::BASE => random.below(classes + 1) as u16,
            class::ABSTRACT => random.below(2) as u16,
            class::ID_WIDTH => random.below(17) as u16,
            _ => other(random, fields[field]),
        };
    }
}

fn change_extension(random: &mut Random, draft: &mut Draft) {
    let classes = draft.classes.len() as u32;
    if let Some(fields) = some_record(random, &mut draft.extensions) {
        fields[0] = random.from_to(1, classes) as u16;
    }
}

/// Another width of a map, or another index of a row.
fn change_map(random: &mut Random, draft: &mut Draft) {
    if random.once_in(2) {
        if let Some(fields) = some_record(random, &mut draft.maps) {
            fields[0] = random.from_to(1, 4) as u16;
        }
    } else if let Some(fields) = some_record(random, &mut draft.rows) {
        fields[0] = random.below(6) as u16;
    }
}

fn change_use(random: &mut Random, draft: &mut Draft) {
    let classes = draft.classes.len() as u32;
    let names = draft.names.len() as u32;
    let mut uses = draft.lines.iter_mut().filter(|fields| fields[0] == 5);
    if let Some(fields) = uses.next() {
        match random.below(4) {
            0 => fields[1] = random.from_to(1, classes) as u16,
            1 => fields[3] = other(random, fields[3]),
            2 => fields[4] = other(random, fields[4]),
            _ => {
                fields[5] = random.below(names + 1) as u16;
                fields[6] = random.below(names + 1) as u16;
            }
        }
    }
}

/// A stream that differs somewhere.
pub fn damaged_stream(random: &mut Random, stream: &[u8]) -> Vec<u8> {
    let mut bytes = stream.to_vec();
    let length = bytes.len() as u32;
    match random.below(8) {
        0 => bytes.truncate(random.below(length + 1) as usize),
        1 => bytes.push(0),
        2 => bytes.extend([0, 0x80]),
        _ if length == 0 => bytes.push(random.bits() as u8),
        3 => {
            let at = random.below(length) as usize;
            bytes[at] = random.bits() as u8;
        }
        4 => {
            let at = random.below(length) as usize;
            bytes.remove(at);
        }
        _ => {
            for _ in 0..*random.one_of(&[1, 1, 2, 5]) {
                let at = random.below(length) as usize;
                bytes[at] ^= 1 << random.below(8);
            }
        }
    }
    bytes
}
