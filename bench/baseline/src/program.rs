//! The lines of a checked description, decoded once into a flat row of steps.

use crate::tables::{self, line, Class, Node, Stretch, Tables, BASE, MEMBER};

/// The position of a step.
pub type At = u32;

/// Where the program for the outermost frame begins: the top object, then the end.
pub const START: At = 0;
/// The step that closes an object, common to all classes.
pub const CLOSE: At = 2;

/// One step. Steps that hand out an item take bits or close an object; the others are silent.
pub enum Step {
    Top {
        declared: u16,
    },
    End,
    Close,
    /// A read that is done once.
    Read(Read),
    /// Sets out to do a counted read or use.
    Count {
        line: u16,
        count: Operand,
    },
    /// A counted read.
    Elements(Read),
    MapRead {
        line: u16,
        name: u8,
        map: u16,
    },
    Assign {
        line: u16,
        name: u8,
        value: Operand,
    },
    /// A counted use.
    Objects {
        line: u16,
        declared: u16,
        carry: Option<Carry>,
    },
    /// Sets out to do a use without a count.
    BeginRest,
    /// A use without a count.
    Rest {
        line: u16,
        declared: u16,
        least: u32,
        most: u32,
    },
    /// Goes on at the next step if the value is not 0, else at `other`.
    If {
        line: u16,
        value: Operand,
        other: At,
    },
    Jump {
        to: At,
    },
    BeginWhile {
        slot: u16,
    },
    /// Goes on at the next step for another round, or at `after`.
    While {
        line: u16,
        value: Operand,
        most: u32,
        slot: u16,
        after: At,
    },
    /// Aligns before an extension that begins with `line`.
    Extension {
        line: u16,
    },
}

pub struct Read {
    pub line: u16,
    pub is_signed: bool,
    pub looks_ahead: bool,
    /// The name that gets the value, or 0.
    pub name: u8,
    /// 0, or the bits to align to.
    pub alignment: u32,
    pub width: Operand,
    pub lowest: Option<Operand>,
    pub highest: Option<Operand>,
}

/// A value that goes from a used object's name to its user's name after each object.
#[derive(Clone, Copy)]
pub struct Carry {
    pub from: u8,
    pub to: u8,
}

/// Something that has a value.
#[derive(Clone, Copy)]
pub enum Operand {
    Constant(i64),
    Name(u8),
    /// The own object's size.
    Size,
    /// The node of this number.
    Node(u16),
}

#[derive(Clone, Copy)]
pub enum Operator {
    Times,
    Divide,
    Remainder,
    Plus,
    Minus,
    Left,
    Right,
    Less,
    AtMost,
    Greater,
    AtLeast,
    Equal,
    Unequal,
    BitAnd,
    BitOr,
    And,
    Or,
}

impl Operator {
    fn of(node: &Node) -> Operator {
        use Operator::*;
        const IN_ORDER: [Operator; 17] = [
            Times, Divide, Remainder, Plus, Minus, Left, Right, Less, AtMost, Greater, AtLeast,
            Equal, Unequal, BitAnd, BitOr, And, Or,
        ];
        IN_ORDER[usize::from(node.operator) - 4]
    }

    /// The value, or the cause from 21 to 23.
    pub fn apply(self, left: i64, right: i64) -> Result<i64, u8> {
        use Operator::*;
        let value = match self {
            Times => left.checked_mul(right).ok_or(21)?,
            Divide if right == 0 => return Err(22),
            Divide => left / right,
            Remainder if right == 0 => return Err(22),
            Remainder => left % right,
            Plus => left + right,
            Minus => left - right,
            Left | Right if !(0..=31).contains(&right) => return Err(23),
            Left => left << right,
            Right => left >> right,
            Less => (left < right).into(),
            AtMost => (left <= right).into(),
            Greater => (left > right).into(),
            AtLeast => (left >= right).into(),
            Equal => (left == right).into(),
            Unequal => (left != right).into(),
            BitAnd | BitOr if left < 0 || right < 0 => return Err(23),
            BitAnd => left & right,
            BitOr => left | right,
            And => (left != 0 && right != 0).into(),
            Or => (left != 0 || right != 0).into(),
        };
        if (i32::MIN.into()..=u32::MAX.into()).contains(&value) {
            Ok(value)
        } else {
            Err(21)
        }
    }
}

/// A node of operator 4 to 20.
#[derive(Clone, Copy)]
pub struct Binary {
    pub operator: Operator,
    pub left: Operand,
    pub right: Operand,
}

/// How objects of a used class begin.
pub struct Declared {
    pub class: u16,
    /// 0 if the objects are not expandable.
    pub greatest_size: u32,
    /// 0 for a plain class.
    pub id_width: u32,
    pub ids: Vec<Ids>,
}

/// Ids that select a class.
pub struct Ids {
    pub first: u16,
    pub last: u16,
    pub class: u16,
}

/// What objects of a class hold.
#[derive(Default)]
pub struct Content {
    pub entry: At,
    /// The names that are 0 at first.
    pub names: Vec<u8>,
}

pub struct Map {
    pub index_width: u32,
    /// Indices and outputs, by rising index.
    pub rows: Vec<(u16, i32)>,
}

impl Map {
    pub fn output(&self, index: u16) -> Option<i32> {
        let at = self.rows.binary_search_by_key(&index, |row| row.0).ok()?;
        Some(self.rows[at].1)
    }

    /// The lowest index with this output.
    pub fn index(&self, output: i64) -> Option<u16> {
        self.rows
            .iter()
            .find(|row| i64::from(row.1) == output)
            .map(|row| row.0)
    }
}

pub struct Program {
    pub steps: Vec<Step>,
    /// By the number of the node less 1, with `None` for nodes that have a value of their own.
    pub nodes: Vec<Option<Binary>>,
    /// By the number of the class less 1.
    pub declared: Vec<Declared>,
    /// By the number of the class, with class 0 for objects of an unknown id.
    pub contents: Vec<Content>,
    /// By the number of the map less 1.
    pub maps: Vec<Map>,
    /// How many slots for rounds the while steps need.
    pub slots: u16,
}

impl Program {
    /// Decodes the tables of a checked description.
    pub fn new(tables: &Tables) -> Program {
        let (operands, nodes) = decode_nodes(&tables.nodes);
        let mut coder = Coder {
            tables,
            operands,
            steps: vec![
                Step::Top {
                    declared: tables.top,
                },
                Step::End,
                Step::Close,
            ],
            slots: 0,
        };
        let mut contents = vec![Content {
            entry: CLOSE,
            names: Vec::new(),
        }];
        for (number, class) in tables.numbered_classes() {
            contents.push(coder.class(number, class));
        }
        Program {
            steps: coder.steps,
            nodes,
            declared: tables
                .numbered_classes()
                .map(|(n, class)| declared(tables, n, class))
                .collect(),
            contents,
            maps: tables
                .maps
                .iter()
                .map(|map| decode_map(tables, map))
                .collect(),
            slots: coder.slots,
        }
    }

    pub fn declared(&self, class: u16) -> &Declared {
        &self.declared[usize::from(class) - 1]
    }

    pub fn map(&self, map: u16) -> &Map {
        &self.maps[usize::from(map) - 1]
    }
}

fn decode_map(tables: &Tables, map: &tables::Map) -> Map {
    let rows = &tables.rows[map.rows.range()];
    let mut rows: Vec<_> = rows.iter().map(|row| (row.index, row.output())).collect();
    rows.sort_unstable();
    Map {
        index_width: map.index_width.into(),
        rows,
    }
}

fn declared(tables: &Tables, number: u16, class: &Class) -> Declared {
    let has_ids = |&(n, c): &(u16, &Class)| {
        n == number && c.kind == BASE && c.is_abstract == 0 || c.kind == MEMBER && c.base == number
    };
    Declared {
        class: number,
        greatest_size: class.greatest_size.into(),
        id_width: class.id_width.into(),
        ids: tables
            .numbered_classes()
            .filter(has_ids)
            .map(|(class, c)| Ids {
                first: c.first_id,
                last: c.last_id,
                class,
            })
            .collect(),
    }
}

/// Decodes the nodes. Those of constants that have a value become constants themselves.
fn decode_nodes(nodes: &[Node]) -> (Vec<Operand>, Vec<Option<Binary>>) {
    let mut operands: Vec<Operand> = Vec::with_capacity(nodes.len());
    let mut binaries = Vec::with_capacity(nodes.len());
    for (number, node) in (1..).zip(nodes) {
        let mut binary = None;
        operands.push(match node.operator {
            tables::CONSTANT => Operand::Constant(i64::from(node.a) << 16 | i64::from(node.b)),
            tables::NAME => Operand::Name(node.a as u8),
            tables::SIZE => Operand::Size,
            _ => {
                let operator = Operator::of(node);
                let left = operands[usize::from(node.a) - 1];
                let right = operands[usize::from(node.b) - 1];
                binary = Some(Binary {
                    operator,
                    left,
                    right,
                });
                match (left, right) {
                    (Operand::Constant(a), Operand::Constant(b)) => operator
                        .apply(a, b)
                        .map_or(Operand::Node(number), Operand::Constant),
                    _ => Operand::Node(number),
                }
            }
        });
        binaries.push(binary);
    }
    (operands, binaries)
}

/// Turns lines into steps.
struct Coder<'t> {
    tables: &'t Tables,
    operands: Vec<Operand>,
    steps: Vec<Step>,
    slots: u16,
}

impl Coder<'_> {
    fn here(&self) -> At {
        self.steps.len() as At
    }

    fn operand(&self, node: u16) -> Operand {
        self.operands[usize::from(node) - 1]
    }

    fn maybe(&self, node: u16) -> Option<Operand> {
        (node != 0).then(|| self.operand(node))
    }

    /// The lines of the base, of the class and of its extensions, and the close.
    fn class(&mut self, number: u16, class: &Class) -> Content {
        let entry = self.here();
        if let Some(base) = self.tables.base(class) {
            self.stretch(base.lines);
        }
        self.stretch(class.lines);
        for extension in &self.tables.extensions {
            if extension.class == number {
                self.steps.push(Step::Extension {
                    line: extension.lines.first,
                });
                self.stretch(extension.lines);
            }
        }
        self.steps.push(Step::Jump { to: CLOSE });
        let names = (1..).zip(&self.tables.names);
        let own = names.filter(|(_, owner)| **owner == number || **owner == class.base);
        Content {
            entry,
            names: own.map(|(name, _)| name).collect(),
        }
    }

    fn stretch(&mut self, stretch: Stretch) {
        let (first, end) = stretch.bounds();
        self.lines(first, end);
    }

    fn lines(&mut self, first: u32, end: u32) {
        let mut at = first;
        while at < end {
            at = self.line(at);
        }
    }

    /// Turns a line and its blocks into steps. Answers the number of the line after them.
    fn line(&mut self, number: u32) -> u32 {
        let line = *self.tables.line(number);
        match line.kind {
            line::ASSIGNMENT => self.steps.push(Step::Assign {
                line: number as u16,
                name: line.a as u8,
                value: self.operand(line.b),
            }),
            line::MAP_READ => self.steps.push(Step::MapRead {
                line: number as u16,
                name: line.b as u8,
                map: line.a,
            }),
            line::USE => self.use_line(number as u16, &line),
            line::IF => return self.if_line(number, &line),
            line::WHILE => return self.while_line(number, &line),
            _ => self.read(number as u16, &line),
        }
        number + 1
    }

    fn read(&mut self, number: u16, line: &tables::Line) {
        let read = Read {
            line: number,
            is_signed: line.kind == line::SIGNED,
            looks_ahead: line.e == 1,
            name: line.b as u8,
            alignment: line.d.into(),
            width: self.operand(line.a),
            lowest: self.maybe(line.f),
            highest: self.maybe(line.g),
        };
        match self.maybe(line.c) {
            None => self.steps.push(Step::Read(read)),
            Some(count) => {
                self.steps.push(Step::Count {
                    line: number,
                    count,
                });
                self.steps.push(Step::Elements(read));
            }
        }
    }

    fn use_line(&mut self, number: u16, line: &tables::Line) {
        let declared = line.a;
        let steps = match self.maybe(line.b) {
            Some(count) => [
                Step::Count {
                    line: number,
                    count,
                },
                Step::Objects {
                    line: number,
                    declared,
                    carry: (line.e != 0).then_some(Carry {
                        from: line.e as u8,
                        to: line.f as u8,
                    }),
                },
            ],
            None => [
                Step::BeginRest,
                Step::Rest {
                    line: number,
                    declared,
                    least: line.c.into(),
                    most: line.d.into(),
                },
            ],
        };
        self.steps.extend(steps);
    }

    fn if_line(&mut self, number: u32, line: &tables::Line) -> u32 {
        let second = number + 1 + u32::from(line.b);
        let after = second + u32::from(line.c);
        let test = self.here();
        self.steps.push(Step::Jump { to: 0 });
        self.lines(number + 1, second);
        let jump = self.here();
        if second < after {
            self.steps.push(Step::Jump { to: 0 });
        }
        let other = self.here();
        self.lines(second, after);
        if second < after {
            self.steps[jump as usize] = Step::Jump { to: self.here() };
        }
        self.steps[test as usize] = Step::If {
            line: number as u16,
            value: self.operand(line.a),
            other,
        };
        after
    }

    fn while_line(&mut self, number: u32, line: &tables::Line) -> u32 {
        let after = number + 1 + u32::from(line.b);
        let slot = self.slots;
        self.slots += 1;
        self.steps.push(Step::BeginWhile { slot });
        let test = self.here();
        self.steps.push(Step::Jump { to: 0 });
        self.lines(number + 1, after);
        self.steps.push(Step::Jump { to: test });
        self.steps[test as usize] = Step::While {
            line: number as u16,
            value: self.operand(line.a),
            most: line.c.into(),
            slot,
            after: self.here(),
        };
        after
    }
}
