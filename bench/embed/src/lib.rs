//! Safe Rust over the static library of the crate `embed`.
//!
//! Nothing compares the declarations in [`exports`] with `crates/embed/src`: who changes one changes the other. The
//! exports require nothing beyond their types, and the functions here pass them slices that are borrowed for the call.

mod exports;

use exports::{CheckAnswer, FaultAnswer, FoldAnswer};

/// One item of a stream, as its seven numbers.
#[derive(Clone, Copy, Debug, Default, PartialEq, Eq)]
#[repr(C)]
pub struct Item {
    pub kind: u16,
    pub line: u16,
    pub class: u16,
    pub index: u16,
    pub value: i64,
    pub place: u32,
    pub length: u32,
}

/// The fault of a description: a cause from 1 to 10, or 90 for want of memory, a table and a record of it.
#[derive(Clone, Copy, Debug, PartialEq, Eq)]
pub struct DescriptionFault {
    pub cause: u32,
    pub table: u32,
    pub record: u64,
}

/// The fault of a reading: a cause from 11 to 25 and where it lies.
#[derive(Clone, Copy, Debug, PartialEq, Eq)]
pub struct Fault {
    pub cause: u32,
    pub line: u32,
    pub node: u32,
    pub place: u32,
}

/// How a reading ended.
#[derive(Clone, Copy, Debug, PartialEq, Eq)]
pub enum Outcome {
    End,
    /// There is no more room in the table.
    Full,
    Fault(Fault),
    /// The bits are no source: the refusal's number, 33 or 34.
    NoSource(u32),
}

/// How many items a reading handed out, and how it ended.
#[derive(Clone, Copy, Debug, PartialEq, Eq)]
pub struct Read {
    pub items: u64,
    pub outcome: Outcome,
}

/// The same, and a number over all items.
#[derive(Clone, Copy, Debug, PartialEq, Eq)]
pub struct Folded {
    pub items: u64,
    pub outcome: Outcome,
    pub fold: u64,
}

/// How many items were put, and the number of the refusal that came then, if one did.
#[derive(Clone, Copy, Debug, PartialEq, Eq)]
pub struct Written {
    pub items: u64,
    pub refusal: Option<u32>,
}

/// Bits in memory.
#[derive(Clone, Copy, Debug)]
pub enum Source<'a> {
    Bytes(&'a [u8]),
    /// Words of 32 bits, the most significant bit of each first.
    Words(&'a [u32]),
    /// So many bits of some bytes, from a place on.
    Window {
        bytes: &'a [u8],
        first: u32,
        count: u32,
    },
    /// Some bytes, and then others.
    Join {
        front: &'a [u8],
        back: &'a [u8],
    },
}

impl CheckAnswer {
    fn accepted(&self) -> Result<(), DescriptionFault> {
        match self.cause {
            0 => Ok(()),
            cause => Err(DescriptionFault {
                cause,
                table: self.table,
                record: self.record,
            }),
        }
    }
}

impl FaultAnswer {
    fn outcome(&self) -> Outcome {
        match self.cause {
            0 => Outcome::End,
            refusal @ 31.. => Outcome::NoSource(refusal),
            cause => Outcome::Fault(Fault {
                cause,
                line: self.line,
                node: self.node,
                place: self.place,
            }),
        }
    }
}

impl FoldAnswer {
    fn folded(&self) -> Result<Folded, DescriptionFault> {
        self.check.accepted()?;
        Ok(Folded {
            items: self.items,
            outcome: self.fault.outcome(),
            fold: self.fold,
        })
    }
}

/// Checks a description file.
pub fn check(description: &[u8]) -> Result<(), DescriptionFault> {
    exports::check(description).accepted()
}

/// Reads a stream by a description file, and stores its first items in a table.
pub fn read(
    description: &[u8],
    stream: &[u8],
    table: &mut [Item],
) -> Result<Read, DescriptionFault> {
    let answer = exports::read(description, stream, table);
    answer.check.accepted()?;
    Ok(Read {
        items: answer.items,
        outcome: if answer.full {
            Outcome::Full
        } else {
            answer.fault.outcome()
        },
    })
}

/// Reads a stream, with the 64-bit FNV-1a digest of all numbers of all items, each as eight bytes, the lowest first.
pub fn digest(description: &[u8], stream: &[u8]) -> Result<Folded, DescriptionFault> {
    exports::digest(description, stream).folded()
}

/// Reads a source, with the sum of all numbers of all items.
pub fn sum(description: &[u8], source: Source) -> Result<Folded, DescriptionFault> {
    exports::sum(description, source).folded()
}

/// Writes items as a stream of `length` bits into a buffer.
pub fn write(
    description: &[u8],
    items: &[Item],
    length: u64,
    buffer: &mut [u8],
) -> Result<Written, DescriptionFault> {
    let answer = exports::write(description, items, length, buffer);
    answer.check.accepted()?;
    Ok(Written {
        items: answer.items,
        refusal: match answer.refusal {
            0 => None,
            refusal => Some(refusal),
        },
    })
}

/// The exclusive or of 8000 gets of a source a round, to measure them; 0 where the bits are no source.
pub fn gets(source: Source, rounds: u32) -> u64 {
    exports::gets(source, rounds)
}
