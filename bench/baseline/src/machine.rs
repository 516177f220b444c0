//! The machine that goes through a program's steps over some bits. Readings and writings both run it.

use crate::bits::Input;
use crate::item::{Fault, Item, Kind};
use crate::program::{At, Declared, Map, Operand, Program, Read, Step, CLOSE, START};

/// At most 16 objects are open at once, since ranks fall from user to used.
const MOST_OPEN: usize = 16;

/// An open object, or the frame around the top object.
#[derive(Clone, Copy)]
struct Frame {
    /// The step that comes next in it.
    at: At,
    line: u16,
    class: u16,
    index: u32,
    /// The size in bytes, 0 if it is not expandable.
    size: u32,
    is_expandable: bool,
    window: Window,
    /// How many elements of the counted read or of the use at hand are done, and of how many.
    done: u32,
    count: u32,
}

/// What bits may be taken from.
#[derive(Clone, Copy)]
struct Window {
    end: u32,
    /// The cause when there are too few bits.
    too_few: u8,
}

/// A machine goes on from where it stands only by whole steps. A step that fails changes nothing,
/// so it fails again in the same way when the machine is called again.
pub(crate) struct Machine<'d> {
    program: &'d Program,
    place: u32,
    /// Where the bits of the last item end.
    position: u32,
    /// The innermost frame.
    frame: Frame,
    outer: Vec<Frame>,
    /// The names by their numbers; 0 takes what has no name. No two open objects share a name,
    /// since ranks forbid that an object holds another of its own class or family.
    names: [i64; 256],
    /// The rounds of the while lines, for the same reason one for each.
    rounds: Vec<u32>,
}

impl<'d> Machine<'d> {
    pub fn new(program: &'d Program, length: u32) -> Self {
        Machine {
            program,
            place: 0,
            position: 0,
            frame: Frame {
                at: START,
                line: 0,
                class: 0,
                index: 0,
                size: 0,
                is_expandable: false,
                window: Window {
                    end: length,
                    too_few: 11,
                },
                done: 0,
                count: 0,
            },
            outer: Vec::with_capacity(MOST_OPEN),
            names: [0; 256],
            rounds: vec![0; program.slots.into()],
        }
    }

    /// The place where the bits of the last item end.
    pub fn position(&self) -> u32 {
        self.position
    }

    /// Goes on to the next item or a fault. There is none at the end, and where the input does not
    /// accept the item that comes next.
    #[inline]
    pub fn next<I: Input>(&mut self, input: &I) -> Result<Option<Item>, Fault> {
        let program = self.program;
        loop {
            match &program.steps[self.frame.at as usize] {
                Step::Top { declared } => {
                    if self.frame.done == 0 {
                        return self.open(input, 0, program.declared(*declared));
                    }
                    self.frame.at += 1;
                }
                Step::End => return self.end(input),
                Step::Close => return Ok(self.close(input)),
                Step::Read(read) => return self.element(input, read, 0, 1),
                Step::Count { line, count } => {
                    self.frame.count = self.count(*line, *count)?;
                    self.frame.done = 0;
                    self.frame.at += 1;
                }
                Step::Elements(read) => {
                    if self.frame.done < self.frame.count {
                        return self.element(input, read, self.frame.done, 0);
                    }
                    self.frame.at += 1;
                }
                Step::MapRead { line, name, map } => {
                    return self.by_map(input, *line, *name, program.map(*map));
                }
                Step::Assign { line, name, value } => {
                    self.names[usize::from(*name)] = self.value(*line, *value, self.place)?;
                    self.frame.at += 1;
                }
                Step::Objects {
                    line,
                    declared,
                    carry,
                } => {
                    if let (Some(carry), 1..) = (carry, self.frame.done) {
                        self.names[usize::from(carry.to)] = self.names[usize::from(carry.from)];
                    }
                    if self.frame.done < self.frame.count {
                        return self.open(input, *line, program.declared(*declared));
                    }
                    self.frame.at += 1;
                }
                Step::BeginRest => {
                    self.frame.done = 0;
                    self.frame.at += 1;
                }
                Step::Rest {
                    line,
                    declared,
                    least,
                    most,
                } => {
                    let is_last = self.frame.done == *most
                        || self.place.next_multiple_of(8) >= self.frame.window.end;
                    if !is_last {
                        return self.open(input, *line, program.declared(*declared));
                    }
                    if self.frame.done < *least {
                        return Err(self.fault(19, *line));
                    }
                    self.frame.at += 1;
                }
                Step::If { line, value, other } => {
                    let is_true = self.value(*line, *value, self.place)? != 0;
                    self.frame.at = if is_true { self.frame.at + 1 } else { *other };
                }
                Step::Jump { to } => self.frame.at = *to,
                Step::BeginWhile { slot } => {
                    self.rounds[usize::from(*slot)] = 0;
                    self.frame.at += 1;
                }
                Step::While {
                    line,
                    value,
                    most,
                    slot,
                    after,
                } => {
                    let rounds = self.rounds[usize::from(*slot)];
                    if self.value(*line, *value, self.place)? == 0 {
                        self.frame.at = *after;
                    } else if rounds == *most {
                        return Err(self.fault(25, *line));
                    } else {
                        self.rounds[usize::from(*slot)] = rounds + 1;
                        self.frame.at += 1;
                    }
                }
                Step::Extension { line } => {
                    self.place = self.aligned(input, 8, *line)?;
                    let is_dropped = self.place == self.frame.window.end;
                    self.frame.at = if is_dropped { CLOSE } else { self.frame.at + 1 };
                }
            }
        }
    }

    /// A fault at the current place.
    #[cold]
    fn fault(&self, cause: u8, line: u16) -> Fault {
        Fault {
            cause,
            line,
            node: 0,
            place: self.place,
        }
    }

    /// The place after `count` bits from `place` on, if they are in the window. The cause else.
    #[inline]
    fn after(&self, place: u32, count: u32) -> Result<u32, u8> {
        let window = self.frame.window;
        if count > window.end - place {
            return Err(window.too_few);
        }
        Ok(place + count)
    }

    /// The current place, aligned.
    #[inline]
    fn aligned<I: Input>(&self, input: &I, bits: u32, line: u16) -> Result<u32, Fault> {
        // The multiples are powers of two.
        let skipped = self.place.wrapping_neg() & (bits - 1);
        if skipped == 0 {
            return Ok(self.place);
        }
        let place = self
            .after(self.place, skipped)
            .map_err(|cause| self.fault(cause, line))?;
        if input.is_zero(self.place, skipped) {
            Ok(place)
        } else {
            Err(self.fault(13, line))
        }
    }

    /// One element of a read. After it the frame goes on `steps` further.
    #[inline(always)]
    fn element<I: Input>(
        &mut self,
        input: &I,
        read: &Read,
        index: u32,
        steps: u32,
    ) -> Result<Option<Item>, Fault> {
        let line = read.line;
        let mut place = self.place;
        if read.alignment != 0 {
            place = self.aligned(input, read.alignment, line)?;
        }
        let width = self.value(line, read.width, self.place)?;
        if !(0..=32).contains(&width) {
            return Err(self.fault(24, line));
        }
        let width = width as u32;
        let after = self
            .after(place, width)
            .map_err(|cause| self.fault(cause, line))?;
        let bits = input.get(place, width);
        let value = if read.is_signed {
            signed(bits, width)
        } else {
            bits.into()
        };
        if let Some(lowest) = read.lowest {
            if value < self.value(line, lowest, self.place)? {
                return Err(self.fault(14, line));
            }
        }
        if let Some(highest) = read.highest {
            if value > self.value(line, highest, self.place)? {
                return Err(self.fault(14, line));
            }
        }
        let item = Item {
            kind: Kind::Value,
            line,
            class: self.frame.class,
            index,
            value,
            place,
            length: width,
        };
        if !input.accepts(&item, 0) {
            return Ok(None);
        }
        self.names[usize::from(read.name)] = value;
        self.place = if read.looks_ahead { place } else { after };
        self.position = after;
        self.frame.done = index + 1;
        self.frame.at += steps;
        Ok(Some(item))
    }

    fn by_map<I: Input>(
        &mut self,
        input: &I,
        line: u16,
        name: u8,
        map: &Map,
    ) -> Result<Option<Item>, Fault> {
        let width = map.index_width;
        let after = self
            .after(self.place, width)
            .map_err(|cause| self.fault(cause, line))?;
        let index = input.index(self.place, map) as u16;
        let output = map.output(index).ok_or_else(|| self.fault(15, line))?;
        let item = Item {
            kind: Kind::Value,
            line,
            class: self.frame.class,
            index: 0,
            value: output.into(),
            place: self.place,
            length: width,
        };
        if !input.accepts(&item, 0) {
            return Ok(None);
        }
        self.names[usize::from(name)] = item.value;
        self.place = after;
        self.position = after;
        self.frame.at += 1;
        Ok(Some(item))
    }

    fn count(&self, line: u16, count: Operand) -> Result<u32, Fault> {
        match self.value(line, count, self.place)? {
            count @ 0..=65_535 => Ok(count as u32),
            _ => Err(self.fault(24, line)),
        }
    }

    /// Begins the next object of a use and hands out its open.
    #[inline]
    fn open<I: Input>(
        &mut self,
        input: &I,
        line: u16,
        declared: &Declared,
    ) -> Result<Option<Item>, Fault> {
        let is_expandable = declared.greatest_size > 0;
        let fault = |cause| self.fault(cause, line);
        let begin = if is_expandable {
            self.aligned(input, 8, line)?
        } else {
            self.place
        };
        let mut place = begin;
        let mut id = 0;
        let mut class = declared.class;
        if declared.id_width > 0 {
            place = self.after(begin, declared.id_width).map_err(fault)?;
            id = input.id(begin, declared.id_width, &declared.ids) as u16;
            let known = declared
                .ids
                .iter()
                .find(|ids| (ids.first..=ids.last).contains(&id));
            class = match known {
                Some(ids) => ids.class,
                None if is_expandable => 0,
                None => return Err(fault(16)),
            };
        }
        let mut size = 0;
        let mut window = self.frame.window;
        if is_expandable {
            let room = self.frame.window.end - place;
            input.size_follows(place, declared.greatest_size, room);
            (size, place) = self.size(input, place).map_err(fault)?;
            if size > declared.greatest_size {
                return Err(fault(17));
            }
            if 8 * size > window.end - place {
                return Err(fault(18));
            }
            window = Window {
                end: place + 8 * size,
                too_few: 12,
            };
        }
        let index = self.frame.done;
        let item = Item {
            kind: Kind::Open,
            line,
            class,
            index,
            value: id.into(),
            place: begin,
            length: size,
        };
        if !input.accepts(&item, 0) {
            return Ok(None);
        }
        let content = &self.program.contents[usize::from(class)];
        for name in &content.names {
            self.names[usize::from(*name)] = 0;
        }
        self.frame.done += 1;
        self.outer.push(self.frame);
        self.place = place;
        self.position = place;
        self.frame = Frame {
            at: content.entry,
            line,
            class,
            index,
            size,
            is_expandable,
            window,
            done: 0,
            count: 0,
        };
        Ok(Some(item))
    }

    /// The size that begins at a place, and the place after it.
    #[inline]
    fn size<I: Input>(&self, input: &I, mut place: u32) -> Result<(u32, u32), u8> {
        let mut size = 0;
        for _ in 0..4 {
            let after = self.after(place, 8)?;
            let byte = input.get(place, 8);
            place = after;
            size = size << 7 | byte & 0x7F;
            if byte & 0x80 == 0 {
                return Ok((size, place));
            }
        }
        Err(17)
    }

    /// Closes the innermost object.
    #[inline]
    fn close<I: Input>(&mut self, input: &I) -> Option<Item> {
        let frame = &self.frame;
        let place = if frame.is_expandable {
            frame.window.end
        } else {
            self.place
        };
        let item = Item {
            kind: Kind::Close,
            line: frame.line,
            class: frame.class,
            index: frame.index,
            value: 0,
            place,
            length: 0,
        };
        if !input.accepts(&item, place - self.place) {
            return None;
        }
        self.place = place;
        self.position = place;
        self.frame = self.outer.pop().expect("a close belongs to an open object");
        Some(item)
    }

    fn end<I: Input>(&self, input: &I) -> Result<Option<Item>, Fault> {
        let left = self.frame.window.end - self.place;
        if left >= 8 || !input.is_zero(self.place, left) {
            return Err(self.fault(20, 0));
        }
        Ok(None)
    }

    /// The value of an operand, for a line's step that began at a place.
    #[inline]
    fn value(&self, line: u16, operand: Operand, place: u32) -> Result<i64, Fault> {
        match operand {
            Operand::Constant(value) => Ok(value),
            Operand::Name(name) => Ok(self.names[usize::from(name)]),
            _ => self.node_value(operand).map_err(|(cause, node)| Fault {
                cause,
                line,
                node,
                place,
            }),
        }
    }

    /// The value of an operand, or the cause and the node that failed.
    fn node_value(&self, operand: Operand) -> Result<i64, (u8, u16)> {
        match operand {
            Operand::Constant(value) => Ok(value),
            Operand::Name(name) => Ok(self.names[usize::from(name)]),
            Operand::Size => Ok(self.frame.size.into()),
            Operand::Node(number) => {
                let node = &self.program.nodes[usize::from(number) - 1];
                let node = node.as_ref().expect("other nodes are operands themselves");
                let left = self.node_value(node.left)?;
                let right = self.node_value(node.right)?;
                node.operator
                    .apply(left, right)
                    .map_err(|cause| (cause, number))
            }
        }
    }
}

/// The last `width` bits as a number in two's complement.
#[inline]
fn signed(bits: u32, width: u32) -> i64 {
    if width == 0 {
        return 0;
    }
    let unused = 32 - width;
    i64::from((bits << unused) as i32 >> unused)
}
