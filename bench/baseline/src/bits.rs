//! Bits in memory.

use crate::item::{Item, Refusal};
use crate::program::{Ids, Map};

/// The most bytes that a source may have.
const MOST_BYTES: usize = 268_435_455;

/// What a machine takes its bits from.
pub(crate) trait Input {
    /// How many bits there are.
    fn length(&self) -> u32;

    /// The `width` bits from `place` on, at most 32, all of them within the length.
    fn get(&self, place: u32, width: u32) -> u32;

    /// The bits of an id, which may select one of these classes.
    #[inline]
    fn id(&self, place: u32, width: u32, _ids: &[Ids]) -> u32 {
        self.get(place, width)
    }

    /// The bits of an index of a map.
    #[inline]
    fn index(&self, place: u32, map: &Map) -> u32 {
        self.get(place, map.index_width)
    }

    /// Hears that the size bytes of an object are read next, and how many bits they and the object may have.
    #[inline]
    fn size_follows(&self, _place: u32, _greatest: u32, _room: u32) {}

    /// Whether the item is to be handed out. `unread` bits are passed over before it.
    fn accepts(&self, _item: &Item, _unread: u32) -> bool {
        true
    }

    /// Whether all of the `count` bits from `place` on are 0.
    fn is_zero(&self, mut place: u32, mut count: u32) -> bool {
        while count > 0 {
            let part = count.min(32);
            if self.get(place, part) != 0 {
                return false;
            }
            place += part;
            count -= part;
        }
        true
    }
}

/// The first bits of a slice of bytes, the most significant bit of each byte first.
#[derive(Clone, Copy)]
pub struct Source<'a> {
    bytes: &'a [u8],
    bits: u32,
}

impl<'a> Source<'a> {
    /// The first `bits` bits of the bytes. Refuses with 33 (too many bytes) or 34 (too many bits).
    pub fn new(bytes: &'a [u8], bits: usize) -> Result<Self, Refusal> {
        if bytes.len() > MOST_BYTES {
            Err(Refusal::TooLong)
        } else if bits > 8 * bytes.len() {
            Err(Refusal::NotWithin)
        } else {
            Ok(Source {
                bytes,
                bits: bits as u32,
            })
        }
    }

    /// All bits of the bytes. Refuses with 33.
    pub fn whole(bytes: &'a [u8]) -> Result<Self, Refusal> {
        if bytes.len() > MOST_BYTES {
            return Err(Refusal::TooLong);
        }
        Source::new(bytes, 8 * bytes.len())
    }

    /// How many bits there are.
    pub fn length(&self) -> u32 {
        self.bits
    }

    /// The `width` bits from `place` on as a number. Refuses with 31 or 32.
    pub fn get(&self, place: u32, width: u32) -> Result<u32, Refusal> {
        if width > 32 {
            Err(Refusal::TooWide)
        } else if u64::from(place) + u64::from(width) > u64::from(self.bits) {
            Err(Refusal::PastEnd)
        } else {
            Ok(Input::get(self, place, width))
        }
    }
}

impl Input for Source<'_> {
    fn length(&self) -> u32 {
        self.bits
    }

    #[inline]
    fn get(&self, place: u32, width: u32) -> u32 {
        let byte = (place / 8) as usize;
        let word = match self.bytes.get(byte..byte + 8) {
            Some(eight) => u64::from_be_bytes(eight.try_into().expect("eight bytes")),
            None => last_bytes(&self.bytes[byte..]),
        };
        // Two shifts, so that a width of 0 gives 0.
        ((word << (place % 8)) >> 1 >> (63 - width)) as u32
    }
}

/// Fewer than eight bytes, followed by zeros.
#[cold]
fn last_bytes(bytes: &[u8]) -> u64 {
    let mut eight = [0; 8];
    eight[..bytes.len()].copy_from_slice(bytes);
    u64::from_be_bytes(eight)
}

/// Stores the last `width` bits of `value` from `place` on and leaves all other bits.
pub(crate) fn store(buffer: &mut [u8], mut place: u32, width: u32, value: u64) {
    let mut left = width;
    while left > 0 {
        // What goes into one byte: `part` bits with `behind` bits of the byte after them.
        let room = 8 - place % 8;
        let part = room.min(left);
        let behind = room - part;
        let ones = (1 << part) - 1;
        let bits = value >> (left - part) & ones;
        let byte = &mut buffer[(place / 8) as usize];
        *byte = *byte & !((ones << behind) as u8) | (bits << behind) as u8;
        place += part;
        left -= part;
    }
}

/// Makes the bits from `place` up to `end` 0.
pub(crate) fn clear(buffer: &mut [u8], mut place: u32, end: u32) {
    while place < end {
        let part = (end - place).min(32);
        store(buffer, place, part, 0);
        place += part;
    }
}

#[cfg(test)]
mod tests {
    use super::*;

    #[test]
    fn gets_of_two_bytes() {
        let source = Source::whole(&[0xA3, 0x09]).unwrap();
        assert_eq!(source.get(0, 3), Ok(5));
        assert_eq!(source.get(4, 8), Ok(48));
        assert_eq!(source.get(0, 16), Ok(0xA309));
        assert_eq!(source.get(16, 0), Ok(0));
        assert_eq!(source.get(9, 8), Err(Refusal::PastEnd));
        assert_eq!(source.get(17, 0), Err(Refusal::PastEnd));
        assert_eq!(source.get(100, 40), Err(Refusal::TooWide));
    }

    #[test]
    fn stores_leave_their_neighbours() {
        let mut buffer = [0xFF; 3];
        store(&mut buffer, 4, 12, 0x0A5);
        assert_eq!(buffer, [0xF0, 0xA5, 0xFF]);
        clear(&mut buffer, 1, 3);
        assert_eq!(buffer, [0x90, 0xA5, 0xFF]);
    }
}
