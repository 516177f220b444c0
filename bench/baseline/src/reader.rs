//! Reading a stream item by item.

use crate::bits::{Input, Source};
use crate::description::Description;
use crate::item::{Fault, Item};
use crate::machine::Machine;

/// A reading of a source by a description.
pub struct Reader<'d, 's> {
    machine: Machine<'d>,
    source: Source<'s>,
}

/// Why a fill stopped.
#[derive(Clone, Copy, Debug, PartialEq, Eq)]
pub enum Filled {
    /// The table is full.
    Full,
    End,
    Fault(Fault),
}

impl<'d, 's> Reader<'d, 's> {
    pub fn new(description: &'d Description, source: Source<'s>) -> Self {
        Reader {
            machine: Machine::new(&description.program, Input::length(&source)),
            source,
        }
    }

    /// The next item, or none after the last, or the fault that ended the reading.
    #[allow(clippy::should_implement_trait)]
    #[inline]
    pub fn next(&mut self) -> Result<Option<Item>, Fault> {
        self.machine.next(&self.source)
    }

    /// Stores the next items in the table. Answers how many, and why it stopped.
    pub fn fill(&mut self, table: &mut [Item]) -> (usize, Filled) {
        for (stored, place) in table.iter_mut().enumerate() {
            match self.next() {
                Ok(Some(item)) => *place = item,
                Ok(None) => return (stored, Filled::End),
                Err(fault) => return (stored, Filled::Fault(fault)),
            }
        }
        (table.len(), Filled::Full)
    }

    /// The place where the bits of the last item end.
    pub fn position(&self) -> u32 {
        self.machine.position()
    }
}

#[cfg(test)]
mod tests {
    use super::*;
    use crate::description::tests::SAMPLE;

    const STREAM: &[u8] = include_bytes!("../../../docs/stream.bin");

    fn read(bytes: &[u8]) -> (Vec<[i64; 7]>, Option<[u32; 4]>) {
        let description = Description::new(SAMPLE).unwrap();
        let mut reader = Reader::new(&description, Source::whole(bytes).unwrap());
        let mut items = Vec::new();
        loop {
            match reader.next() {
                Ok(Some(item)) => items.push(item.numbers()),
                Ok(None) => return (items, None),
                Err(fault) => {
                    assert_eq!(reader.next(), Err(fault));
                    let Fault {
                        cause,
                        line,
                        node,
                        place,
                    } = fault;
                    return (items, Some([cause.into(), line.into(), node.into(), place]));
                }
            }
        }
    }

    #[test]
    fn the_sample_stream() {
        let items = [
            [2, 0, 1, 0, 0, 0, 0],
            [1, 1, 1, 0, 7, 0, 8],
            [2, 2, 3, 0, 1, 8, 1],
            [1, 3, 3, 0, 5, 24, 3],
            [1, 4, 3, 0, 3, 27, 5],
            [3, 2, 3, 0, 0, 32, 0],
            [2, 2, 0, 1, 9, 32, 2],
            [3, 2, 0, 1, 0, 64, 0],
            [3, 0, 1, 0, 0, 64, 0],
        ];
        assert_eq!(read(STREAM), (items.to_vec(), None));
    }

    #[test]
    fn faulty_streams() {
        let fault = |bytes: &[u8]| {
            let (items, fault) = read(bytes);
            (items.len(), fault.unwrap())
        };
        assert_eq!(fault(&[7]), (2, [19, 2, 0, 8]));
        assert_eq!(fault(&[]), (1, [11, 1, 0, 0]));
        assert_eq!(fault(&[7, 1, 0]), (3, [12, 3, 0, 24]));
        assert_eq!(fault(&[7, 1, 0x79]), (2, [17, 2, 0, 8]));
        assert_eq!(fault(&[7, 1, 2, 0xA3]), (2, [18, 2, 0, 8]));
        assert_eq!(fault(&[7, 1]), (2, [11, 2, 0, 8]));
        assert_eq!(fault(&[7, 1, 0x80, 0x80, 0x80]), (2, [11, 2, 0, 8]));
        assert_eq!(fault(&[7, 1, 0x80, 0x80, 0x80, 0x80]), (2, [17, 2, 0, 8]));
    }

    #[test]
    fn a_table_is_filled_up_to_the_end() {
        let description = Description::new(SAMPLE).unwrap();
        let mut reader = Reader::new(&description, Source::whole(STREAM).unwrap());
        let mut table = [Item::default(); 7];
        assert_eq!(reader.fill(&mut []), (0, Filled::Full));
        assert_eq!(reader.position(), 0);
        assert_eq!(reader.fill(&mut table), (7, Filled::Full));
        assert_eq!(reader.position(), 48);
        assert_eq!(reader.fill(&mut table), (2, Filled::End));
        assert_eq!(reader.fill(&mut table), (0, Filled::End));
        assert_eq!(reader.position(), 64);
    }
}
