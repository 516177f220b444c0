//! A decoder written by hand for the layout of the sample description (docs/FORMAT.md): the upper bound of what a
//! reading by a table could come to. It knows the classes and lines, and looks nothing up.
//!
//! Each item is handed to a closure, so that the loops are plain loops over the bytes.

use jilafotra::{Fault, Item, Outcome};

/// The layout of the sample, or of the longer description that `baseline repeat` makes: line 1 reads eight bits, and so
/// many use lines after it hold so many objects each.
#[derive(Clone, Copy, Debug)]
pub struct Layout {
    pub uses: u16,
    pub least: u32,
    pub most: u32,
}

/// The sample's.
pub const SAMPLE: Layout = Layout {
    uses: 1,
    least: 1,
    most: 255,
};

impl Layout {
    /// That of `baseline repeat`, with so many uses.
    pub fn repeated(uses: u16) -> Layout {
        Layout {
            uses,
            least: 0,
            most: 65_535,
        }
    }
}

/// The greatest size of an object, in bytes.
const GREATEST: u32 = 120;

fn fault(cause: u32, line: u16, place: usize) -> Outcome {
    Outcome::Fault(Fault {
        cause,
        line: line.into(),
        node: 0,
        place: 8 * place as u32,
    })
}

/// Reads a stream to its end. All objects begin and end on byte boundaries, so the place is a number of bytes.
pub fn decode(layout: Layout, stream: &[u8], mut see: impl FnMut(Item)) -> Outcome {
    see(opened(0, 1, 0, 0, 0, 0));
    let Some(first) = stream.first() else {
        return fault(11, 1, 0);
    };
    see(value(1, 1, i64::from(*first), 0, 8));
    let mut at = 1;
    for line in 2..2 + layout.uses {
        let mut count = 0;
        while count < layout.most && at < stream.len() {
            match object(layout, stream, line, count as u16, at, &mut see) {
                Ok(end) => at = end,
                Err(outcome) => return outcome,
            }
            count += 1;
        }
        if count < layout.least {
            return fault(19, line, at);
        }
    }
    see(closed(0, 1, 0, at));
    if at < stream.len() {
        return fault(20, 0, at);
    }
    Outcome::End
}

/// One object of the family. Answers where it ends.
#[inline(always)]
fn object(
    layout: Layout,
    stream: &[u8],
    line: u16,
    index: u16,
    begin: usize,
    see: &mut impl FnMut(Item),
) -> Result<usize, Outcome> {
    let id = stream[begin];
    let (size, content) = size(stream, begin + 1).map_err(|cause| fault(cause, line, begin))?;
    let end = content + size as usize;
    if size > GREATEST {
        return Err(fault(17, line, begin));
    }
    if end > stream.len() {
        return Err(fault(18, line, begin));
    }
    let class = if id == 1 { 3 } else { 0 };
    see(opened(line, class, index, i64::from(id), begin, size));
    if id == 1 {
        if size == 0 {
            return Err(fault(12, layout.uses + 2, content));
        }
        let byte = stream[content];
        let place = 8 * content as u32;
        see(value(layout.uses + 2, 3, i64::from(byte >> 5), place, 3));
        let signed = (byte << 3) as i8 >> 3;
        see(value(layout.uses + 3, 3, i64::from(signed), place + 3, 5));
    }
    see(closed(line, class, index, end));
    Ok(end)
}

/// The size whose bytes begin at a place, and the place after them.
#[inline(always)]
fn size(stream: &[u8], at: usize) -> Result<(u32, usize), u32> {
    let mut size = 0;
    for i in at..at + 4 {
        let byte = *stream.get(i).ok_or(11u32)?;
        size = size << 7 | u32::from(byte & 0x7F);
        if byte < 0x80 {
            return Ok((size, i + 1));
        }
    }
    Err(17)
}

#[inline(always)]
fn opened(line: u16, class: u16, index: u16, id: i64, place: usize, size: u32) -> Item {
    Item {
        kind: 2,
        line,
        class,
        index,
        value: id,
        place: 8 * place as u32,
        length: size,
    }
}

#[inline(always)]
fn closed(line: u16, class: u16, index: u16, place: usize) -> Item {
    Item {
        kind: 3,
        line,
        class,
        index,
        value: 0,
        place: 8 * place as u32,
        length: 0,
    }
}

#[inline(always)]
fn value(line: u16, class: u16, value: i64, place: u32, length: u32) -> Item {
    Item {
        kind: 1,
        line,
        class,
        index: 0,
        value,
        place,
        length,
    }
}

#[cfg(test)]
mod tests {
    use super::*;
    use crate::damage::damaged_stream;
    use crate::pairs::{described, reading};
    use baseline::Random;

    const DESCRIPTION: &[u8] = include_bytes!("../../../docs/sample.sdt");
    const STREAM: &[u8] = include_bytes!("../../../docs/stream.bin");

    #[test]
    fn it_reads_as_the_interpreter_does() {
        let description = described(DESCRIPTION).unwrap();
        let mut random = Random::new(1);
        let mut stream = STREAM.to_vec();
        let mut ended = 0;
        for round in 0..20_000 {
            let mut items = Vec::new();
            let outcome = decode(SAMPLE, &stream, |item| items.push(item));
            let wanted = reading(&description, &stream).unwrap();
            assert_eq!(
                (items, outcome),
                (wanted.items, wanted.outcome),
                "{stream:02x?}"
            );
            ended += u32::from(outcome == Outcome::End);
            if round % 5 == 0 {
                stream = STREAM.repeat(1 + round % 7);
            }
            stream = damaged_stream(&mut random, &stream);
        }
        assert!(ended > 1000, "{ended}");
    }
}
