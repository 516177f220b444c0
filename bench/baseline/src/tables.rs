//! The description file as it stands: mark, version, counts, top class and seven tables.

/// A fault of a description: its cause from 1 to 10, a table and a record of that table.
#[derive(Clone, Copy, Debug, PartialEq, Eq)]
pub struct DescriptionFault {
    pub cause: u8,
    pub table: u8,
    pub record: u16,
}

/// The numbers of the tables. 0 is the file itself or its top class.
pub mod table {
    pub const FILE: u8 = 0;
    pub const CLASSES: u8 = 1;
    pub const NAMES: u8 = 2;
    pub const EXTENSIONS: u8 = 3;
    pub const LINES: u8 = 4;
    pub const NODES: u8 = 5;
    pub const MAPS: u8 = 6;
    pub const ROWS: u8 = 7;
}

/// Records of a table that follow one another.
#[derive(Clone, Copy, Debug, PartialEq, Eq)]
pub struct Stretch {
    pub first: u16,
    pub count: u16,
}

impl Stretch {
    /// The number of the first record, and the one after the last.
    pub fn bounds(self) -> (u32, u32) {
        let first = u32::from(self.first);
        (first, first + u32::from(self.count))
    }

    /// The positions of its records in a table's slice.
    pub fn range(self) -> std::ops::Range<usize> {
        if self.count == 0 {
            return 0..0;
        }
        let first = usize::from(self.first) - 1;
        first..first + usize::from(self.count)
    }
}

pub const PLAIN: u16 = 0;
pub const BASE: u16 = 1;
pub const MEMBER: u16 = 2;

#[derive(Clone, Copy, Debug, PartialEq, Eq)]
pub struct Class {
    pub kind: u16,
    pub base: u16,
    pub is_abstract: u16,
    pub greatest_size: u16,
    pub id_width: u16,
    pub first_id: u16,
    pub last_id: u16,
    pub rank: u16,
    pub lines: Stretch,
}

#[derive(Clone, Copy, Debug, PartialEq, Eq)]
pub struct Extension {
    pub class: u16,
    pub lines: Stretch,
}

/// The kinds of lines.
pub mod line {
    pub const UNSIGNED: u16 = 1;
    pub const SIGNED: u16 = 2;
    pub const ASSIGNMENT: u16 = 3;
    pub const MAP_READ: u16 = 4;
    pub const USE: u16 = 5;
    pub const IF: u16 = 6;
    pub const WHILE: u16 = 7;
}

#[derive(Clone, Copy, Debug, PartialEq, Eq)]
pub struct Line {
    pub kind: u16,
    pub a: u16,
    pub b: u16,
    pub c: u16,
    pub d: u16,
    pub e: u16,
    pub f: u16,
    pub g: u16,
}

impl Line {
    /// The name that the line writes, or 0.
    pub fn written(&self) -> u16 {
        match self.kind {
            line::UNSIGNED | line::SIGNED | line::MAP_READ => self.b,
            line::ASSIGNMENT => self.a,
            line::USE => self.f,
            _ => 0,
        }
    }

    /// The numbers of lines in the two blocks that the line governs.
    pub fn blocks(&self) -> Option<(u32, u32)> {
        match self.kind {
            line::IF => Some((self.b.into(), self.c.into())),
            line::WHILE => Some((self.b.into(), 0)),
            _ => None,
        }
    }

    /// The nodes that the line works out, 0 where there is none.
    pub fn nodes(&self) -> [u16; 4] {
        match self.kind {
            line::UNSIGNED | line::SIGNED => [self.a, self.c, self.f, self.g],
            line::ASSIGNMENT | line::USE => [self.b, 0, 0, 0],
            line::IF | line::WHILE => [self.a, 0, 0, 0],
            _ => [0; 4],
        }
    }

    pub fn is_read(&self) -> bool {
        matches!(self.kind, line::UNSIGNED | line::SIGNED)
    }
}

/// The operators of nodes that have no operands.
pub const CONSTANT: u16 = 1;
pub const NAME: u16 = 2;
pub const SIZE: u16 = 3;

#[derive(Clone, Copy, Debug, PartialEq, Eq)]
pub struct Node {
    pub operator: u16,
    pub a: u16,
    pub b: u16,
}

impl Node {
    /// Whether the node works on two others.
    pub fn is_binary(&self) -> bool {
        self.operator > SIZE
    }
}

#[derive(Clone, Copy, Debug, PartialEq, Eq)]
pub struct Map {
    pub index_width: u16,
    pub rows: Stretch,
}

#[derive(Clone, Copy, Debug, PartialEq, Eq)]
pub struct Row {
    pub index: u16,
    pub high: u16,
    pub low: u16,
}

impl Row {
    pub fn output(&self) -> i32 {
        (u32::from(self.high) << 16 | u32::from(self.low)) as i32
    }
}

/// The tables of a loaded description. Record 1 stands first in each.
#[derive(Debug)]
pub struct Tables {
    pub top: u16,
    pub classes: Vec<Class>,
    /// The owners of the names.
    pub names: Vec<u16>,
    pub extensions: Vec<Extension>,
    pub lines: Vec<Line>,
    pub nodes: Vec<Node>,
    pub maps: Vec<Map>,
    pub rows: Vec<Row>,
}

const HEAD: usize = 21;
const MOST: [u16; 7] = [32, 128, 32, 512, 256, 16, 256];
const WIDTHS: [usize; 7] = [10, 1, 3, 8, 3, 3, 3];

impl Tables {
    /// Decodes the file and finds causes 1 to 4.
    pub fn load(file: &[u8]) -> Result<Tables, DescriptionFault> {
        let fault = |cause| DescriptionFault {
            cause,
            table: table::FILE,
            record: 0,
        };
        let number = |at: usize| {
            file.get(at..at + 2)
                .map(|n| u16::from_be_bytes([n[0], n[1]]))
        };

        if !file.starts_with(b"SDT") {
            return Err(fault(1));
        }
        if number(3) != Some(1) {
            return Err(fault(2));
        }
        let mut counts = [0; 7];
        for (i, count) in counts.iter_mut().enumerate() {
            *count = number(5 + 2 * i).ok_or(fault(3))?;
            if *count > MOST[i] || i == 0 && *count == 0 {
                return Err(fault(3));
            }
        }
        let records = |i: usize| 2 * WIDTHS[i] * usize::from(counts[i]);
        if file.len() != HEAD + (0..7).map(records).sum::<usize>() {
            return Err(fault(4));
        }

        let mut numbers = file[HEAD..]
            .chunks_exact(2)
            .map(|n| u16::from_be_bytes([n[0], n[1]]));
        let mut next = || numbers.next().expect("the length was compared");
        Ok(Tables {
            top: number(19).expect("the length was compared"),
            classes: records_of(counts[0], || Class {
                kind: next(),
                base: next(),
                is_abstract: next(),
                greatest_size: next(),
                id_width: next(),
                first_id: next(),
                last_id: next(),
                rank: next(),
                lines: stretch(&mut next),
            }),
            names: records_of(counts[1], &mut next),
            extensions: records_of(counts[2], || Extension {
                class: next(),
                lines: stretch(&mut next),
            }),
            lines: records_of(counts[3], || Line {
                kind: next(),
                a: next(),
                b: next(),
                c: next(),
                d: next(),
                e: next(),
                f: next(),
                g: next(),
            }),
            nodes: records_of(counts[4], || Node {
                operator: next(),
                a: next(),
                b: next(),
            }),
            maps: records_of(counts[5], || Map {
                index_width: next(),
                rows: stretch(&mut next),
            }),
            rows: records_of(counts[6], || Row {
                index: next(),
                high: next(),
                low: next(),
            }),
        })
    }

    pub fn class(&self, number: u16) -> &Class {
        &self.classes[usize::from(number) - 1]
    }

    pub fn line(&self, number: u32) -> &Line {
        &self.lines[number as usize - 1]
    }

    /// The base that a class belongs to, if it is a member of a family.
    pub fn base(&self, class: &Class) -> Option<&Class> {
        if class.kind != MEMBER || class.base == 0 {
            return None;
        }
        Some(self.class(class.base)).filter(|base| base.kind == BASE)
    }

    /// The greatest size of a plain class or of the class's family; 0 if it is not expandable.
    pub fn greatest_size(&self, class: &Class) -> u16 {
        match class.kind {
            MEMBER => self.base(class).map_or(0, |base| base.greatest_size),
            _ => class.greatest_size,
        }
    }

    /// The classes with their numbers.
    pub fn numbered_classes(&self) -> impl Iterator<Item = (u16, &Class)> {
        (1..).zip(&self.classes)
    }
}

fn records_of<R>(count: u16, mut record: impl FnMut() -> R) -> Vec<R> {
    (0..count).map(|_| record()).collect()
}

fn stretch(next: &mut impl FnMut() -> u16) -> Stretch {
    Stretch {
        first: next(),
        count: next(),
    }
}

/// Whether a number fits in so many bits.
pub fn fits(number: u16, width: u16) -> bool {
    u32::from(number) >> width.min(16) == 0
}
