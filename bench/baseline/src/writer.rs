//! Writing a stream item by item.

use crate::bits::{clear, store, Input};
use crate::description::Description;
use crate::item::{Item, Kind, Refusal};
use crate::machine::Machine;
use crate::tables::line;

/// The most bits that a stream may have.
const MOST_BITS: u64 = 2_147_483_647;

/// A writing of a stream. It ends by an accepted `finish` or by `give_up`.
#[must_use]
pub struct Writer<'d> {
    description: &'d Description,
    machine: Machine<'d>,
    length: u32,
    /// Where the bits written so far end.
    written: u32,
    /// How many objects are open, and whether the top object was ever opened.
    open: u32,
    is_begun: bool,
}

/// The bits on which an item is tried: all are 0 but the item's own.
struct Trial<'i> {
    item: &'i Item,
    own: Own,
    length: u32,
}

/// The bits of an item: the last `width` bits of a number.
#[derive(Clone, Copy)]
struct Own {
    bits: u64,
    width: u32,
}

impl Input for Trial<'_> {
    fn length(&self) -> u32 {
        self.length
    }

    fn get(&self, place: u32, width: u32) -> u32 {
        let from = i64::from(place) - i64::from(self.item.place);
        let after = i64::from(self.own.width) - (from + i64::from(width));
        // The own bits, moved so that those asked for are the last.
        let moved = match after {
            0..=63 => self.own.bits >> after,
            -63..=-1 => self.own.bits << -after,
            _ => 0,
        };
        (moved & ((1 << width) - 1)) as u32
    }

    fn accepts(&self, item: &Item, unread: u32) -> bool {
        item == self.item && unread < 8
    }
}

impl<'d> Writer<'d> {
    /// Begins a stream of so many bits. Refuses with 33 or 42.
    pub fn open(description: &'d Description, length: u64) -> Result<Self, Refusal> {
        if length > MOST_BITS {
            return Err(Refusal::TooLong);
        }
        if description
            .tables
            .lines
            .iter()
            .any(|line| line.is_read() && line.e == 1)
        {
            return Err(Refusal::LooksAhead);
        }
        let length = length as u32;
        Ok(Writer {
            description,
            machine: Machine::new(&description.program, length),
            length,
            written: 0,
            open: 0,
            is_begun: false,
        })
    }

    /// Appends the item with these seven numbers. Refuses with 44 or 41.
    pub fn put(&mut self, numbers: &[i64; 7], buffer: &mut [u8]) -> Result<(), Refusal> {
        self.room(buffer)?;
        let item = Item::from_numbers(numbers)
            .filter(|item| item.class != 0)
            .ok_or(Refusal::Item)?;
        let own = self.own_bits(&item).ok_or(Refusal::Item)?;
        let trial = Trial {
            item: &item,
            own,
            length: self.length,
        };
        let accepted = self.machine.next(&trial).map_err(|_| Refusal::Item)?;
        accepted.ok_or(Refusal::Item)?;
        clear(buffer, self.written, item.place);
        store(buffer, item.place, own.width, own.bits);
        self.written = item.place + own.width;
        match item.kind {
            Kind::Open => {
                self.open += 1;
                self.is_begun = true;
            }
            Kind::Close => self.open -= 1,
            Kind::Value => {}
        }
        Ok(())
    }

    /// Ends the stream and makes the bits left 0. Refuses with 44 or 45 and gives the writing back.
    // A refused writer goes back to where it came from, so a box would gain nothing.
    #[allow(clippy::result_large_err)]
    pub fn finish(self, buffer: &mut [u8]) -> Result<(), (Self, Refusal)> {
        if let Err(refusal) = self.room(buffer) {
            return Err((self, refusal));
        }
        let is_closed = self.is_begun && self.open == 0;
        if !is_closed || self.length - self.written >= 8 {
            return Err((self, Refusal::Unfinished));
        }
        clear(buffer, self.written, self.length);
        Ok(())
    }

    /// Ends the writing and leaves the buffer as it is.
    pub fn give_up(self) {}

    /// Whether the buffer has room for the stream.
    fn room(&self, buffer: &[u8]) -> Result<(), Refusal> {
        if 8 * buffer.len() < self.length as usize {
            return Err(Refusal::ShortBuffer);
        }
        Ok(())
    }

    /// The item's own bits, if it can have any.
    fn own_bits(&self, item: &Item) -> Option<Own> {
        let tables = &self.description.tables;
        let line = match item.line {
            0 => None,
            number => Some(tables.lines.get(usize::from(number) - 1)?),
        };
        match item.kind {
            Kind::Close => Some(Own { bits: 0, width: 0 }),
            Kind::Open => {
                let declared = match line {
                    None => tables.top,
                    Some(line) if line.kind == line::USE => line.a,
                    Some(_) => return None,
                };
                self.head(declared, item)
            }
            Kind::Value => {
                let line = line?;
                if line.kind == line::MAP_READ {
                    let map = self.description.program.map(line.a);
                    return Some(Own {
                        bits: map.index(item.value)?.into(),
                        width: map.index_width,
                    });
                }
                if !line.is_read() || item.length > 32 {
                    return None;
                }
                Some(Own {
                    bits: item.value as u64 & ((1 << item.length) - 1),
                    width: item.length,
                })
            }
        }
    }

    /// The id and size of an object of a class as it is declared, the size in the fewest bytes.
    fn head(&self, declared: u16, open: &Item) -> Option<Own> {
        let declared = self.description.program.declared(declared);
        let mut head = Own {
            bits: open.value as u64 & ((1 << declared.id_width) - 1),
            width: declared.id_width,
        };
        if declared.greatest_size == 0 {
            return Some(head);
        }
        if open.length >> 28 != 0 {
            return None;
        }
        let bytes = (1..4)
            .find(|bytes| open.length >> (7 * bytes) == 0)
            .unwrap_or(4);
        for byte in (0..bytes).rev() {
            let more = u64::from(byte > 0) << 7;
            let part = u64::from(open.length >> (7 * byte) & 0x7F);
            head.bits = head.bits << 8 | more | part;
            head.width += 8;
        }
        Some(head)
    }
}

#[cfg(test)]
mod tests {
    use super::*;
    use crate::description::tests::SAMPLE;

    #[test]
    fn the_sample_is_written() {
        let description = Description::new(SAMPLE).unwrap();
        let mut buffer = [0xFF; 8];
        let mut writer = Writer::open(&description, 56).unwrap();
        let mut put = |numbers| writer.put(&numbers, &mut buffer);
        assert_eq!(put([2, 0, 1, 0, 0, 0, 0]), Ok(()));
        assert_eq!(put([1, 1, 1, 0, 7, 0, 8]), Ok(()));
        assert_eq!(put([2, 2, 3, 0, 1, 8, 121]), Err(Refusal::Item));
        assert_eq!(put([2, 2, 3, 0, 1, 8, 1]), Ok(()));
        assert_eq!(put([1, 3, 3, 0, 5, 24, 3]), Ok(()));
        assert_eq!(put([1, 4, 3, 0, 3, 27, 5]), Ok(()));
        assert_eq!(put([3, 2, 3, 0, 0, 32, 0]), Ok(()));
        assert_eq!(put([2, 2, 0, 1, 9, 32, 2]), Err(Refusal::Item));
        assert_eq!(put([2, 2, 3, 1, 1, 32, 1]), Ok(()));
        assert_eq!(put([1, 3, 3, 0, 7, 48, 3]), Ok(()));
        assert_eq!(put([1, 4, 3, 0, -1, 51, 5]), Ok(()));
        let Err((back, Refusal::Unfinished)) = writer.finish(&mut buffer) else {
            panic!("the top object is open");
        };
        writer = back;
        let mut put = |numbers| writer.put(&numbers, &mut buffer);
        assert_eq!(put([3, 2, 3, 1, 0, 56, 0]), Ok(()));
        assert_eq!(put([3, 0, 1, 0, 0, 56, 0]), Ok(()));
        assert_eq!(put([3, 0, 1, 0, 0, 56, 0]), Err(Refusal::Item));
        assert!(writer.finish(&mut buffer).is_ok());
        assert_eq!(buffer, [7, 1, 1, 0xA3, 1, 1, 0xFF, 0xFF]);
    }

    #[test]
    fn an_object_that_cannot_be_closed() {
        let description = Description::new(SAMPLE).unwrap();
        let mut buffer = [0xFF; 8];
        let mut writer = Writer::open(&description, 56).unwrap();
        let mut put = |numbers| writer.put(&numbers, &mut buffer);
        assert_eq!(put([2, 0, 1, 0, 0, 0, 0]), Ok(()));
        assert_eq!(put([1, 1, 1, 0, 7, 0, 8]), Ok(()));
        assert_eq!(put([2, 2, 3, 0, 1, 8, 2]), Ok(()));
        assert_eq!(put([1, 3, 3, 0, 5, 24, 3]), Ok(()));
        assert_eq!(put([1, 4, 3, 0, 3, 27, 5]), Ok(()));
        assert_eq!(put([3, 2, 3, 0, 0, 40, 0]), Err(Refusal::Item));
        writer.give_up();
        assert_eq!(buffer, [7, 1, 2, 0xA3, 0xFF, 0xFF, 0xFF, 0xFF]);
    }

    #[test]
    fn a_short_buffer() {
        let description = Description::new(SAMPLE).unwrap();
        let mut writer = Writer::open(&description, 56).unwrap();
        let top = [2, 0, 1, 0, 0, 0, 0];
        assert_eq!(writer.put(&top, &mut [0; 6]), Err(Refusal::ShortBuffer));
        assert!(matches!(
            writer.finish(&mut [0; 6]),
            Err((_, Refusal::ShortBuffer))
        ));
    }
}
