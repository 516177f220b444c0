//! Makes up descriptions that keep the rules of docs/FORMAT.md: all kinds of lines, operators and alignments, maps,
//! families, expandable classes, extensions, blocks.

use crate::draft::{class, Draft, MOST_LINES, MOST_NODES};
use baseline::Random;

const PLAIN: u16 = 0;
const BASE: u16 = 1;
const MEMBER: u16 = 2;

/// How many nodes and lines the generator leaves for what it has begun.
const SPARE: usize = 40;

/// A plain class or a family, as its user sees it.
#[derive(Clone)]
struct Unit {
    /// The class, or the family's base.
    class: u16,
    members: Vec<u16>,
    is_expandable: bool,
    /// The highest rank of its classes.
    rank: u16,
}

struct Maker<'r> {
    random: &'r mut Random,
    draft: Draft,
    units: Vec<Unit>,
    may_look_ahead: bool,
    /// Whether readings by the description seldom fail, so that streams get long.
    is_calm: bool,
}

/// Where lines are made: for a class, in blocks so deep.
#[derive(Clone, Copy)]
struct Place {
    class: u16,
    depth: u32,
}

/// What a value is for.
#[derive(Clone, Copy, PartialEq)]
enum Wanted {
    Width,
    Count,
    Any,
}

/// A description of about so many lines a class.
pub fn describe(random: &mut Random, lines: u32) -> Draft {
    let may_look_ahead = random.once_in(3);
    let is_calm = random.once_in(2);
    let mut maker = Maker {
        random,
        draft: Draft {
            version: 1,
            ..Draft::default()
        },
        units: Vec::new(),
        may_look_ahead,
        is_calm,
    };
    maker.maps();
    for _ in 0..maker.random.from_to(1, 6) {
        maker.unit();
    }
    for unit in maker.units.clone() {
        maker.fill(&unit, lines);
    }
    maker.extensions();
    maker.draft.top = maker.units.last().expect("there is a unit").class;
    if is_calm {
        maker.long_top();
    }
    maker.draft
}

impl Maker<'_> {
    fn maps(&mut self) {
        for _ in 0..self.random.below(4) {
            let width = *self.random.one_of(&[1, 2, 2, 3, 3, 4, 16]);
            let all = 1u32 << width;
            let first = self.draft.rows.len() + 1;
            let mut count = 0;
            for index in 0..all.min(12) {
                if !self.random.once_in(8) {
                    let output = self.random.bits();
                    let row = match self.random.below(4) {
                        0 => [index as u16, output as u16, (output >> 16) as u16],
                        1 => [index as u16, 0xFFFF, (output as u16) | 0xFF00],
                        _ => [index as u16, 0, (output & 3) as u16],
                    };
                    let at = first - 1 + self.random.below(count as u32 + 1) as usize;
                    self.draft.rows.insert(at, row);
                    count += 1;
                }
            }
            let first = if count == 0 { 0 } else { first };
            self.draft.maps.push([width, first as u16, count as u16]);
        }
    }

    fn class(&mut self, kind: u16, rank: u16) -> u16 {
        let mut fields = [0; 10];
        fields[class::KIND] = kind;
        fields[class::RANK] = rank;
        self.draft.classes.push(fields);
        let number = self.draft.classes.len() as u16;
        for _ in 0..self.random.below(4) {
            self.draft.names.push([number]);
        }
        number
    }

    /// A plain class or a family, ranking above those made before.
    fn unit(&mut self) {
        let below = self.units.last().map_or(0, |unit| unit.rank);
        let rank = below + 1;
        let greatest = match self.random.below(3) {
            0 => 0,
            1 => self.random.from_to(1, 200) as u16,
            _ => self.random.from_to(200, 65_535) as u16,
        };
        if self.random.once_in(2) {
            let number = self.class(PLAIN, rank);
            self.draft.classes[number as usize - 1][class::GREATEST] = greatest;
            self.units.push(Unit {
                class: number,
                members: Vec::new(),
                is_expandable: greatest > 0,
                rank,
            });
        } else {
            self.family(rank, greatest);
        }
    }

    /// A top class above all others, for a long stream: it is not expandable, and uses many objects.
    fn long_top(&mut self) {
        let rank = self.units.last().map_or(0, |unit| unit.rank) + 1;
        let before = self.draft.lines.len();
        for _ in 0..self.random.from_to(1, 3) {
            let unit = self.random.one_of(&self.units).clone();
            let line = if unit.is_expandable && !self.is_plain(unit.class) {
                let most = *self.random.one_of(&[40, 300, 65_535]);
                [5, unit.class, 0, 0, most, 0, 0, 0]
            } else {
                let count = self.random.from_to(1, 300);
                [5, unit.class, self.constant(count), 0, 0, 0, 0, 0]
            };
            self.draft.lines.push(line);
        }
        let number = self.class(PLAIN, rank);
        let fields = &mut self.draft.classes[number as usize - 1];
        fields[class::FIRST_LINE] = before as u16 + 1;
        fields[class::LINES] = (self.draft.lines.len() - before) as u16;
        self.draft.top = number;
    }

    fn family(&mut self, rank: u16, greatest: u16) {
        let base = self.class(BASE, rank);
        let width = if greatest > 0 {
            *self.random.one_of(&[8, 8, 16])
        } else {
            self.random.from_to(1, 16) as u16
        };
        let is_abstract = self.random.once_in(2);
        let mut next = 0;
        let fields = &mut self.draft.classes[base as usize - 1];
        fields[class::GREATEST] = greatest;
        fields[class::ID_WIDTH] = width;
        fields[class::ABSTRACT] = is_abstract.into();
        if !is_abstract {
            next = self.ids(base, width, next);
        }
        let mut members = Vec::new();
        for _ in 0..self.random.from_to(u32::from(is_abstract), 3) {
            if next >= 1 << width {
                break;
            }
            let rank = rank + self.random.below(2) as u16;
            let member = self.class(MEMBER, rank.min(16));
            self.draft.classes[member as usize - 1][class::BASE] = base;
            next = self.ids(member, width, next);
            members.push(member);
        }
        let rank_of = |n: &u16| self.draft.classes[*n as usize - 1][class::RANK];
        let rank = members.iter().map(rank_of).fold(rank, u16::max);
        self.units.push(Unit {
            class: base,
            members,
            is_expandable: greatest > 0,
            rank,
        });
    }

    /// Gives a class ids from a number on. Answers the next that is free.
    fn ids(&mut self, number: u16, width: u16, from: u32) -> u32 {
        let end = 1u32 << width;
        let first = (from + self.random.below(2)).min(end - 1);
        let last = (first + self.random.below(3)).min(end - 1);
        let fields = &mut self.draft.classes[number as usize - 1];
        fields[class::FIRST_ID] = first as u16;
        fields[class::LAST_ID] = last as u16;
        last + 1
    }

    /// The lines of a unit's classes.
    fn fill(&mut self, unit: &Unit, lines: u32) {
        for number in [unit.class].iter().chain(&unit.members) {
            let first = self.draft.lines.len() + 1;
            let least = if self.random.once_in(8) { 0 } else { lines / 2 };
            let count = self.random.from_to(least, lines);
            let place = Place {
                class: *number,
                depth: 0,
            };
            self.block(place, count);
            let made = self.draft.lines.len() + 1 - first;
            let fields = &mut self.draft.classes[*number as usize - 1];
            fields[class::FIRST_LINE] = if made == 0 { 0 } else { first as u16 };
            fields[class::LINES] = made as u16;
        }
    }

    fn extensions(&mut self) {
        for unit in self.units.clone() {
            if !unit.is_expandable {
                continue;
            }
            let is_plain = self.draft.classes[unit.class as usize - 1][class::KIND] == PLAIN;
            let extended = if is_plain {
                vec![unit.class]
            } else {
                unit.members.clone()
            };
            for number in extended {
                for _ in 0..self.random.below(3) {
                    self.extension(number);
                }
            }
        }
    }

    fn extension(&mut self, number: u16) {
        let first = self.draft.lines.len() + 1;
        let place = Place {
            class: number,
            depth: 0,
        };
        let count = self.random.from_to(1, 3);
        self.block(place, count);
        let made = self.draft.lines.len() + 1 - first;
        if made > 0 && self.draft.extensions.len() < 32 {
            self.draft
                .extensions
                .push([number, first as u16, made as u16]);
        } else {
            self.draft.lines.truncate(first - 1);
        }
    }

    fn has_room(&self) -> bool {
        self.draft.lines.len() + SPARE < MOST_LINES && self.draft.nodes.len() + SPARE < MOST_NODES
    }

    fn block(&mut self, place: Place, count: u32) {
        for _ in 0..count {
            if self.has_room() {
                self.line(place);
            }
        }
    }

    /// The names that a class's lines may take.
    fn names(&self, number: u16) -> Vec<u16> {
        let base = self.draft.classes[number as usize - 1][class::BASE];
        let names = (1..).zip(&self.draft.names);
        names
            .filter(|(_, owner)| owner[0] == number || owner[0] == base)
            .map(|(name, _)| name)
            .collect()
    }

    /// A name to take a value, or 0.
    fn taker(&mut self, place: Place) -> u16 {
        let names = self.names(place.class);
        if names.is_empty() || self.random.once_in(3) {
            return 0;
        }
        *self.random.one_of(&names)
    }

    fn line(&mut self, place: Place) {
        match self.random.below(20) {
            0..=6 => self.read(place),
            7..=8 => self.assignment(place),
            9..=10 => self.map_read(place),
            11..=16 => self.using(place),
            17..=18 if place.depth < 8 => self.branch(place),
            19 if place.depth < 8 => self.rounds(place),
            _ => self.read(place),
        }
    }

    fn read(&mut self, place: Place) {
        let kind = self.random.from_to(1, 2) as u16;
        let width = self.value(place, Wanted::Width);
        let name = self.taker(place);
        let count = match self.random.below(4) {
            0 => self.value(place, Wanted::Count),
            _ => 0,
        };
        let alignment = match self.random.below(4) {
            0 => *self.random.one_of(&[8, 8, 16, 32, 64, 128]),
            _ => 0,
        };
        let ahead = u16::from(self.may_look_ahead && count == 0 && self.random.once_in(6));
        let (lowest, highest) = self.bounds(place);
        self.draft
            .lines
            .push([kind, width, name, count, alignment, ahead, lowest, highest]);
    }

    /// The bounds of a read, mostly none or wide.
    fn bounds(&mut self, place: Place) -> (u16, u16) {
        let kind = self.random.below(24);
        match if self.is_calm { kind.max(3) } else { kind } {
            0 => (self.value(place, Wanted::Any), 0),
            1 => (0, self.value(place, Wanted::Any)),
            2 => (self.constant(1), self.constant(200)),
            3..=4 => (self.negative(), 0),
            5..=6 => (0, self.constant(0xFFFF_FFFF)),
            7 => (self.negative(), self.constant(0x7FFF_FFFF)),
            _ => (0, 0),
        }
    }

    /// A constant below 0, mostly far.
    fn negative(&mut self) -> u16 {
        let size = 1 << *self.random.one_of(&[31, 31, 31, 20, 3]);
        let zero = self.constant(0);
        let size = self.constant(size);
        self.node([8, zero, size])
    }

    fn assignment(&mut self, place: Place) {
        let name = self.taker(place);
        if name == 0 {
            return self.read(place);
        }
        let value = self.value(place, Wanted::Any);
        self.draft.lines.push([3, name, value, 0, 0, 0, 0, 0]);
    }

    fn map_read(&mut self, place: Place) {
        if self.draft.maps.is_empty() {
            return self.read(place);
        }
        let map = self.random.from_to(1, self.draft.maps.len() as u32) as u16;
        let name = self.taker(place);
        self.draft.lines.push([4, map, name, 0, 0, 0, 0, 0]);
    }

    /// A use of a unit that ranks below.
    fn using(&mut self, place: Place) {
        let rank = self.draft.classes[place.class as usize - 1][class::RANK];
        let below: Vec<Unit> = self
            .units
            .iter()
            .filter(|unit| unit.rank < rank)
            .cloned()
            .collect();
        if below.is_empty() {
            return self.read(place);
        }
        let unit = self.random.one_of(&below).clone();
        if unit.is_expandable && !self.is_plain(unit.class) && !self.random.once_in(3) {
            let most = *self.random.one_of(&[1, 2, 3, 5, 255, 65_535]);
            let least = match self.random.below(4) {
                0 => self.random.below(most.min(4) + 1) as u16,
                _ => 0,
            };
            let line = [5, unit.class, 0, least, most as u16, 0, 0, 0];
            self.draft.lines.push(line);
            return;
        }
        let count = self.value(place, Wanted::Count);
        let (carried, receiving) = self.carry(place, &unit);
        self.draft
            .lines
            .push([5, unit.class, count, 0, 0, carried, receiving, 0]);
    }

    fn is_plain(&self, number: u16) -> bool {
        self.draft.classes[number as usize - 1][class::KIND] == PLAIN
    }

    /// A name of the used class and one that takes it, or 0 and 0.
    fn carry(&mut self, place: Place, unit: &Unit) -> (u16, u16) {
        let owned = (1..).zip(&self.draft.names);
        let owned = owned.filter(|(_, owner)| owner[0] == unit.class);
        let carried: Vec<u16> = owned.map(|(name, _)| name).collect();
        let receiving = self.taker(place);
        let may_carry = self.is_plain(unit.class) || !unit.is_expandable;
        if !may_carry || carried.is_empty() || receiving == 0 || self.random.once_in(3) {
            return (0, 0);
        }
        (*self.random.one_of(&carried), receiving)
    }

    /// Makes a block of at most so many lines. Answers how many it has.
    fn inner(&mut self, place: Place, most: u32) -> u16 {
        let before = self.draft.lines.len();
        let count = self.random.below(most + 1);
        let place = Place {
            depth: place.depth + 1,
            ..place
        };
        self.block(place, count);
        (self.draft.lines.len() - before) as u16
    }

    fn branch(&mut self, place: Place) {
        let node = self.value(place, Wanted::Any);
        let at = self.draft.lines.len();
        self.draft.lines.push([6, node, 0, 0, 0, 0, 0, 0]);
        let first = self.inner(place, 3);
        let second = self.inner(place, 2);
        self.draft.lines[at][2] = first;
        self.draft.lines[at][3] = second;
    }

    /// A while on a name that its block mostly lowers by 1.
    fn rounds(&mut self, place: Place) {
        let names = self.names(place.class);
        if names.is_empty() {
            return self.branch(place);
        }
        let name = *self.random.one_of(&names);
        let mut node = self.node([2, name, 0]);
        let value = node;
        if self.is_calm {
            let five = self.constant(5);
            let small = self.node([6, value, five]);
            self.draft.lines.push([3, name, small, 0, 0, 0, 0, 0]);
            let zero = self.constant(0);
            node = self.node([13, value, zero]);
        }
        let at = self.draft.lines.len();
        // Few rounds inside of others, so that no stream takes for ever.
        let all = [1, 2, 5, 40, 300, 65_535];
        let most = match place.depth {
            0 => *self.random.one_of(&all),
            1 => *self.random.one_of(&all[..5]),
            _ => *self.random.one_of(&all[..3]),
        };
        self.draft.lines.push([7, node, 0, most, 0, 0, 0, 0]);
        let before = self.draft.lines.len();
        self.inner(place, 2);
        if !self.random.once_in(6) {
            let one = self.constant(1);
            let less = self.node([8, value, one]);
            self.draft.lines.push([3, name, less, 0, 0, 0, 0, 0]);
        }
        self.draft.lines[at][2] = (self.draft.lines.len() - before) as u16;
    }

    fn node(&mut self, node: [u16; 3]) -> u16 {
        self.draft.nodes.push(node);
        self.draft.nodes.len() as u16
    }

    fn constant(&mut self, value: u32) -> u16 {
        self.node([1, (value >> 16) as u16, value as u16])
    }

    /// The node of a value that mostly serves for what is wanted.
    fn value(&mut self, place: Place, wanted: Wanted) -> u16 {
        let names = self.names(place.class);
        if self.is_calm && wanted != Wanted::Any && !self.random.once_in(12) {
            let most = if wanted == Wanted::Width { 32 } else { 4 };
            let value = self.random.from_to(0, most);
            return self.constant(value);
        }
        match (wanted, self.random.below(12)) {
            (Wanted::Width, 0..=8) => {
                let width = self.random.from_to(0, 32);
                self.constant(width)
            }
            (Wanted::Count, 0..=4) => {
                let count = *self.random.one_of(&[0, 1, 1, 2, 3, 4, 7, 30]);
                self.constant(count)
            }
            (Wanted::Width | Wanted::Count, _) if !names.is_empty() => {
                let name = *self.random.one_of(&names);
                self.tamed(name, wanted)
            }
            (Wanted::Width | Wanted::Count, 11) => self.expression(place, 3),
            (Wanted::Width | Wanted::Count, _) => self.constant(3),
            (Wanted::Any, _) => {
                let depth = *self.random.one_of(&[1, 2, 2, 3, 3, 4, 6]);
                self.expression(place, depth)
            }
        }
    }

    /// A name's value, or one made of it that is likely to serve.
    fn tamed(&mut self, name: u16, wanted: Wanted) -> u16 {
        let value = self.node([2, name, 0]);
        match self.random.below(5) {
            0 => value,
            1 => {
                let mask = if wanted == Wanted::Width { 15 } else { 3 };
                let mask = self.constant(mask);
                self.node([17, value, mask])
            }
            2 => {
                let by = self.constant(5);
                self.node([6, value, by])
            }
            _ => {
                // The square's remainder is not negative, and fails only for large values.
                let square = self.node([4, value, value]);
                let by = self.constant(9);
                self.node([6, square, by])
            }
        }
    }

    /// Any expression at most so deep.
    fn expression(&mut self, place: Place, depth: u32) -> u16 {
        let names = self.names(place.class);
        if depth <= 1 || !self.has_room() || self.random.once_in(5) {
            return match self.random.below(8) {
                0..=3 if !names.is_empty() => {
                    let name = *self.random.one_of(&names);
                    self.node([2, name, 0])
                }
                4 => self.node([3, 0, 0]),
                5 => {
                    let value = self.random.bits() as u32;
                    self.constant(value)
                }
                _ => {
                    let value = self.random.below(10);
                    self.constant(value)
                }
            };
        }
        let left = self.expression(place, depth - 1);
        let right = self.expression(place, depth - 1);
        let operator = if self.is_calm && !self.random.once_in(30) {
            *self.random.one_of(&[11, 12, 13, 14, 15, 16, 19, 20])
        } else {
            self.random.from_to(4, 20) as u16
        };
        self.node([operator, left, right])
    }
}
