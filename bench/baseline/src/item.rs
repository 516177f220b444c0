//! What readings hand out, and the numbers they and the calls refuse with.

/// The kind of an item.
#[derive(Clone, Copy, Debug, Default, PartialEq, Eq)]
pub enum Kind {
    #[default]
    Value = 1,
    Open = 2,
    Close = 3,
}

/// One item of a stream. `numbers` gives its seven numbers in order.
#[derive(Clone, Copy, Debug, Default, PartialEq, Eq)]
pub struct Item {
    pub kind: Kind,
    pub line: u16,
    pub class: u16,
    pub index: u32,
    pub value: i64,
    pub place: u32,
    pub length: u32,
}

impl Item {
    /// Kind, line, class, index, value, place and length.
    pub fn numbers(&self) -> [i64; 7] {
        [
            self.kind as i64,
            self.line.into(),
            self.class.into(),
            self.index.into(),
            self.value,
            self.place.into(),
            self.length.into(),
        ]
    }

    /// The item with these numbers, if any item can have them.
    pub fn from_numbers(numbers: &[i64; 7]) -> Option<Item> {
        let [kind, line, class, index, value, place, length] = *numbers;
        Some(Item {
            kind: match kind {
                1 => Kind::Value,
                2 => Kind::Open,
                3 => Kind::Close,
                _ => return None,
            },
            line: line.try_into().ok()?,
            class: class.try_into().ok()?,
            index: index.try_into().ok()?,
            value,
            place: place.try_into().ok()?,
            length: length.try_into().ok()?,
        })
    }
}

/// The fault that ends a reading: a cause from 11 to 25 and where it lies.
#[derive(Clone, Copy, Debug, PartialEq, Eq)]
pub struct Fault {
    pub cause: u8,
    pub line: u16,
    pub node: u16,
    pub place: u32,
}

/// Why a call was refused. A refused call changes nothing.
#[derive(Clone, Copy, Debug, PartialEq, Eq)]
pub enum Refusal {
    /// More than 32 bits are asked for.
    TooWide = 31,
    /// Bits past the source's end are asked for.
    PastEnd = 32,
    /// The source or the stream has more bits than allowed.
    TooLong = 33,
    /// The bits are not within the bytes.
    NotWithin = 34,
    /// No reading could hand out the item next.
    Item = 41,
    /// A line of the description looks ahead.
    LooksAhead = 42,
    /// The buffer is shorter than the stream.
    ShortBuffer = 44,
    /// The top object is not closed, or eight or more bits are left.
    Unfinished = 45,
}

impl Refusal {
    pub fn number(self) -> u8 {
        self as u8
    }
}
