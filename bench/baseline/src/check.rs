//! The check of loaded tables: causes 5 to 10.

use crate::tables::*;

/// How deep blocks may nest, and how deep a node may be.
const MOST_DEEP: u32 = 8;

/// Finds the first fault: the smallest cause, then the earliest table, then the earliest record.
pub fn check(tables: &Tables) -> Result<(), DescriptionFault> {
    fields(tables)?;
    let users = users(tables)?;
    depths(tables)?;
    ranks(tables, &users)?;
    names(tables, &users)?;
    together(tables)
}

/// The earliest broken record of those found so far.
#[derive(Default)]
struct Earliest(Option<(u8, u16)>);

impl Earliest {
    fn add(&mut self, table: u8, record: u16) {
        let found = (table, record);
        if self.0.is_none_or(|earliest| found < earliest) {
            self.0 = Some(found);
        }
    }

    fn add_if(&mut self, broken: bool, table: u8, record: u16) {
        if broken {
            self.add(table, record);
        }
    }

    /// Adds each record of a table for which the test holds.
    fn add_all<R>(&mut self, table: u8, records: &[R], broken: impl Fn(u16, &R) -> bool) {
        for (number, record) in (1..).zip(records) {
            self.add_if(broken(number, record), table, number);
        }
    }

    fn or_ok(self, cause: u8) -> Result<(), DescriptionFault> {
        match self.0 {
            None => Ok(()),
            Some((table, record)) => Err(DescriptionFault {
                cause,
                table,
                record,
            }),
        }
    }
}

/// Whether a number is that of one of the records.
fn is_there<R>(number: u16, records: &[R]) -> bool {
    number != 0 && may_be_there(number, records)
}

/// Whether a number is 0 or that of one of the records.
fn may_be_there<R>(number: u16, records: &[R]) -> bool {
    usize::from(number) <= records.len()
}

/// Whether a stretch lies in the table, and has no first record if it is empty.
fn stretch_is_there<R>(stretch: Stretch, records: &[R]) -> bool {
    if stretch.count == 0 {
        return stretch.first == 0;
    }
    stretch.first != 0 && stretch.bounds().1 as usize <= records.len() + 1
}

/// Cause 5: fields outside their values.
fn fields(t: &Tables) -> Result<(), DescriptionFault> {
    let mut earliest = Earliest::default();
    earliest.add_if(!is_there(t.top, &t.classes), table::FILE, 0);
    earliest.add_all(table::CLASSES, &t.classes, |_, class| {
        class.kind > MEMBER
            || class.id_width > 16
            || !(1..=16).contains(&class.rank)
            || class.is_abstract > u16::from(class.kind == BASE)
            || class.kind != MEMBER && class.base != 0
            || !may_be_there(class.base, &t.classes)
            || !stretch_is_there(class.lines, &t.lines)
    });
    earliest.add_all(table::NAMES, &t.names, |_, owner| {
        !is_there(*owner, &t.classes)
    });
    earliest.add_all(table::EXTENSIONS, &t.extensions, |_, extension| {
        !is_there(extension.class, &t.classes)
            || extension.lines.count == 0
            || !stretch_is_there(extension.lines, &t.lines)
    });
    earliest.add_all(table::LINES, &t.lines, |_, line| !line_is_valid(t, line));
    earliest.add_all(table::NODES, &t.nodes, |number, node| {
        !node_is_valid(t, number, node)
    });
    earliest.add_all(table::MAPS, &t.maps, |_, map| {
        !(1..=16).contains(&map.index_width) || !stretch_is_there(map.rows, &t.rows)
    });
    earliest.or_ok(5)
}

fn line_is_valid(t: &Tables, line: &Line) -> bool {
    let Line {
        kind,
        a,
        b,
        c,
        d,
        e,
        f,
        g,
    } = *line;
    let unused = |fields: &[u16]| fields.iter().all(|field| *field == 0);
    match kind {
        line::UNSIGNED | line::SIGNED => {
            is_there(a, &t.nodes)
                && may_be_there(b, &t.names)
                && may_be_there(c, &t.nodes)
                && matches!(d, 0 | 8 | 16 | 32 | 64 | 128)
                && e <= 1
                && may_be_there(f, &t.nodes)
                && may_be_there(g, &t.nodes)
        }
        line::ASSIGNMENT => {
            is_there(a, &t.names) && is_there(b, &t.nodes) && unused(&[c, d, e, f, g])
        }
        line::MAP_READ => {
            is_there(a, &t.maps) && may_be_there(b, &t.names) && unused(&[c, d, e, f, g])
        }
        line::USE => {
            is_there(a, &t.classes)
                && may_be_there(b, &t.nodes)
                && (b == 0 || unused(&[c, d]))
                && may_be_there(e, &t.names)
                && may_be_there(f, &t.names)
                && (e == 0) == (f == 0)
                && g == 0
        }
        line::IF => is_there(a, &t.nodes) && unused(&[d, e, f, g]),
        line::WHILE => is_there(a, &t.nodes) && c != 0 && unused(&[d, e, f, g]),
        _ => false,
    }
}

fn node_is_valid(t: &Tables, number: u16, node: &Node) -> bool {
    let is_earlier = |operand: u16| operand != 0 && operand < number;
    match node.operator {
        CONSTANT => true,
        NAME => is_there(node.a, &t.names) && node.b == 0,
        SIZE => node.a == 0 && node.b == 0,
        4..=20 => is_earlier(node.a) && is_earlier(node.b),
        _ => false,
    }
}

/// Cause 6: lines and their stretches. Answers the class that each line belongs to.
fn users(t: &Tables) -> Result<Vec<u16>, DescriptionFault> {
    let mut earliest = Earliest::default();
    let mut users = vec![0; t.lines.len()];
    for (class, stretch) in stretches(t) {
        for i in stretch.range() {
            earliest.add_if(users[i] != 0, table::LINES, i as u16 + 1);
            users[i] = class;
        }
        let (first, end) = stretch.bounds();
        walk_blocks(t, first, end, 0, &mut |line, _, ends_past| {
            earliest.add_if(ends_past, table::LINES, line as u16);
        });
    }
    earliest.add_all(table::LINES, &users, |_, user| *user == 0);
    earliest.or_ok(6)?;
    Ok(users)
}

/// The stretches of lines of all classes and extensions, each with its class.
fn stretches(t: &Tables) -> impl Iterator<Item = (u16, Stretch)> + '_ {
    let of_classes = t
        .numbered_classes()
        .map(|(number, class)| (number, class.lines));
    of_classes.chain(
        t.extensions
            .iter()
            .map(|extension| (extension.class, extension.lines)),
    )
}

/// Calls `see` for each if and while line of a stretch, with the number of blocks that it stands in
/// and whether its own blocks end past what holds it. Stops a block at the first that does.
fn walk_blocks(t: &Tables, first: u32, end: u32, depth: u32, see: &mut impl FnMut(u32, u32, bool)) {
    let mut at = first;
    while at < end {
        let Some((in_first, in_second)) = t.line(at).blocks() else {
            at += 1;
            continue;
        };
        let second = at + 1 + in_first;
        let after = second + in_second;
        see(at, depth, after > end);
        if after > end {
            return;
        }
        walk_blocks(t, at + 1, second, depth + 1, see);
        walk_blocks(t, second, after, depth + 1, see);
        at = after;
    }
}

/// Cause 7: how deep blocks and nodes are.
fn depths(t: &Tables) -> Result<(), DescriptionFault> {
    let mut earliest = Earliest::default();
    for (_, stretch) in stretches(t) {
        let (first, end) = stretch.bounds();
        walk_blocks(t, first, end, 0, &mut |line, depth, _| {
            earliest.add_if(depth >= MOST_DEEP, table::LINES, line as u16);
        });
    }
    let mut depths: Vec<u32> = Vec::with_capacity(t.nodes.len());
    for node in &t.nodes {
        depths.push(if node.is_binary() {
            1 + depths[usize::from(node.a) - 1].max(depths[usize::from(node.b) - 1])
        } else {
            1
        });
    }
    earliest.add_all(table::NODES, &depths, |_, depth| *depth > MOST_DEEP);
    earliest.or_ok(7)
}

/// Cause 8: ranks of used classes.
fn ranks(t: &Tables, users: &[u16]) -> Result<(), DescriptionFault> {
    let mut earliest = Earliest::default();
    earliest.add_all(table::LINES, &t.lines, |number, line| {
        if line.kind != line::USE {
            return false;
        }
        let user = t.class(users[usize::from(number) - 1]);
        let used = t.class(line.a);
        used.rank >= user.rank
            || used.kind == BASE && members(t, line.a).any(|(_, member)| member.rank >= user.rank)
    });
    earliest.or_ok(8)
}

/// The members of a base with their numbers.
fn members(t: &Tables, base: u16) -> impl Iterator<Item = (u16, &Class)> {
    t.numbered_classes()
        .filter(move |(_, class)| class.kind == MEMBER && class.base == base)
}

/// Cause 9: the owners of names.
fn names(t: &Tables, users: &[u16]) -> Result<(), DescriptionFault> {
    let owner = |name: u16| t.names[usize::from(name) - 1];
    let may_use = |user: u16, name: u16| owner(name) == user || owner(name) == t.class(user).base;
    let mut earliest = Earliest::default();
    for (number, line) in (1..).zip(&t.lines) {
        let user = users[usize::from(number) - 1];
        let written = line.written();
        earliest.add_if(
            written != 0 && !may_use(user, written),
            table::LINES,
            number,
        );
        if line.kind == line::USE && line.e != 0 {
            let used = t.class(line.a);
            let in_expandable_family = used.kind != PLAIN && t.greatest_size(used) > 0;
            let carries_wrongly = owner(line.e) != line.a || in_expandable_family;
            earliest.add_if(carries_wrongly, table::LINES, number);
        }
        for (i, reached) in reached_nodes(t, line).iter().enumerate() {
            let node = &t.nodes[i];
            let wrong = *reached && node.operator == NAME && !may_use(user, node.a);
            earliest.add_if(wrong, table::NODES, i as u16 + 1);
        }
    }
    earliest.or_ok(9)
}

/// Which nodes a line reaches. Operands stand before the nodes that use them.
fn reached_nodes(t: &Tables, line: &Line) -> Vec<bool> {
    let mut reached = vec![false; t.nodes.len()];
    for node in line.nodes() {
        if node != 0 {
            reached[usize::from(node) - 1] = true;
        }
    }
    for i in (0..reached.len()).rev() {
        if reached[i] && t.nodes[i].is_binary() {
            reached[usize::from(t.nodes[i].a) - 1] = true;
            reached[usize::from(t.nodes[i].b) - 1] = true;
        }
    }
    reached
}

/// Cause 10: what does not go together.
fn together(t: &Tables) -> Result<(), DescriptionFault> {
    let mut earliest = Earliest::default();
    earliest.add_if(t.class(t.top).kind == MEMBER, table::FILE, 0);
    for (number, class) in t.numbered_classes() {
        match class.kind {
            PLAIN => {
                let has_ids = class.id_width != 0 || class.first_id != 0 || class.last_id != 0;
                earliest.add_if(has_ids, table::CLASSES, number);
            }
            BASE => check_base(t, number, class, &mut earliest),
            _ => check_member(t, number, class, &mut earliest),
        }
    }
    earliest.add_all(table::EXTENSIONS, &t.extensions, |_, extension| {
        let class = t.class(extension.class);
        class.kind == BASE || t.greatest_size(class) == 0
    });
    earliest.add_all(table::LINES, &t.lines, |_, line| match line.kind {
        line::UNSIGNED | line::SIGNED => line.e != 0 && line.c != 0,
        line::USE => {
            let used = t.class(line.a);
            let is_expandable_base = used.kind == BASE && used.greatest_size > 0;
            let no_range = line.c > line.d || line.d == 0;
            used.kind == MEMBER || line.b == 0 && (!is_expandable_base || no_range)
        }
        _ => false,
    });
    for map in &t.maps {
        let rows = &t.rows[map.rows.range()];
        for (i, row) in rows.iter().enumerate() {
            let is_wide = !fits(row.index, map.index_width);
            let is_again = rows[..i].iter().any(|earlier| earlier.index == row.index);
            earliest.add_if(is_wide || is_again, table::ROWS, map.rows.first + i as u16);
        }
    }
    earliest.or_ok(10)
}

/// A base's width and ids, and the ids of its family.
fn check_base(t: &Tables, number: u16, base: &Class, earliest: &mut Earliest) {
    let is_expandable = base.greatest_size > 0;
    let wrong = base.id_width == 0
        || is_expandable && !matches!(base.id_width, 8 | 16)
        || base.first_id > base.last_id
        || !fits(base.last_id, base.id_width);
    earliest.add_if(wrong, table::CLASSES, number);

    let mut with_ids: Vec<(u16, &Class)> = members(t, number).collect();
    if base.is_abstract == 0 {
        with_ids.push((number, base));
    }
    for (i, (one, a)) in with_ids.iter().enumerate() {
        for (other, b) in &with_ids[..i] {
            let share = a.first_id.max(b.first_id) <= a.last_id.min(b.last_id);
            earliest.add_if(share, table::CLASSES, *one.max(other));
        }
    }
}

fn check_member(t: &Tables, number: u16, member: &Class, earliest: &mut Earliest) {
    let has_own = member.id_width != 0 || member.greatest_size != 0;
    earliest.add_if(has_own, table::CLASSES, number);
    let wrong = match t.base(member) {
        None => true,
        Some(base) => member.first_id > member.last_id || !fits(member.last_id, base.id_width),
    };
    earliest.add_if(wrong, table::CLASSES, number.max(member.base));
}
