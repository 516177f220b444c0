//! Older and newer descriptions of the same streams.

use crate::description::Description;
use crate::item::{Fault, Item, Kind};
use crate::tables::MEMBER;

/// Whether the newer description has grown from the older.
pub fn grown(older: &Description, newer: &Description) -> bool {
    let (old, new) = (&older.tables, &newer.tables);
    let same = old.top == new.top
        && new.classes.starts_with(&old.classes)
        && new.names.starts_with(&old.names)
        && new.extensions.starts_with(&old.extensions)
        && new.lines.starts_with(&old.lines)
        && new.nodes.starts_with(&old.nodes)
        && new.maps.starts_with(&old.maps)
        && new.rows.starts_with(&old.rows);
    if !same {
        return false;
    }
    let joins_old_family = |base: u16| base != 0 && usize::from(base) <= old.classes.len();
    let members_fit = new.classes[old.classes.len()..].iter().all(|class| {
        class.kind != MEMBER || !joins_old_family(class.base) || new.greatest_size(class) > 0
    });
    let lines_fit = new.lines[old.lines.len()..]
        .iter()
        .all(|line| line.written() == 0 || usize::from(line.written()) > old.names.len());
    members_fit && lines_fit
}

/// Strikes from the items of a reading by a newer description what the older knows nothing of.
pub struct Striker {
    old_classes: usize,
    old_lines: usize,
    /// How many objects are open of which all is struck, from the outermost on.
    depth: u32,
    /// Whether the outermost of them keeps its open and close.
    keeps_ends: bool,
}

impl Striker {
    pub fn new(older: &Description) -> Self {
        Striker {
            old_classes: older.tables.classes.len(),
            old_lines: older.tables.lines.len(),
            depth: 0,
            keeps_ends: false,
        }
    }

    /// What is left of the newer's next item.
    pub fn take(&mut self, item: Item) -> Option<Item> {
        let without_class = Some(Item { class: 0, ..item });
        if self.depth > 0 {
            match item.kind {
                Kind::Value => {}
                Kind::Open => self.depth += 1,
                Kind::Close => self.depth -= 1,
            }
            return without_class.filter(|_| self.depth == 0 && self.keeps_ends);
        }
        let is_new_line = self.is_new(item.line);
        if item.kind == Kind::Open {
            let is_new_class = usize::from(item.class) > self.old_classes;
            if is_new_line || is_new_class {
                self.depth = 1;
                self.keeps_ends = !is_new_line;
                return without_class.filter(|_| self.keeps_ends);
            }
        }
        (!is_new_line).then_some(item)
    }

    /// Whether the newer's fault, after the items taken, lies inside what the older lacks.
    pub fn lacks(&self, fault: &Fault) -> bool {
        self.is_new(fault.line) || self.depth > 0
    }

    fn is_new(&self, line: u16) -> bool {
        usize::from(line) > self.old_lines
    }
}

#[cfg(test)]
mod tests {
    use super::*;
    use crate::bits::Source;
    use crate::description::tests::SAMPLE;
    use crate::reader::Reader;

    /// The sample with a new member of family 2, id 9, that reads a byte.
    fn with_member() -> Vec<u8> {
        let mut file = SAMPLE[..81].to_vec();
        file[6] = 4;
        file[12] = 5;
        for number in [2, 2, 0, 0, 0, 9, 9, 1, 5, 1u16] {
            file.extend(number.to_be_bytes());
        }
        file.extend(&SAMPLE[81..145]);
        for number in [1, 1, 0, 0, 0, 0, 0, 0u16] {
            file.extend(number.to_be_bytes());
        }
        file.extend(&SAMPLE[145..]);
        file
    }

    #[test]
    fn a_new_member() {
        let older = Description::new(SAMPLE).unwrap();
        let newer = Description::new(&with_member()).unwrap();
        assert!(grown(&older, &newer));
        assert!(grown(&older, &older));
        assert!(!grown(&newer, &older));

        let bytes = [7, 1, 1, 0xA3, 9, 0];
        let mut reader = Reader::new(&newer, Source::whole(&bytes).unwrap());
        let mut striker = Striker::new(&older);
        let mut left = Vec::new();
        let fault = loop {
            match reader.next() {
                Ok(Some(item)) => left.extend(striker.take(item)),
                Ok(None) => panic!("the object is empty"),
                Err(fault) => break fault,
            }
        };
        assert!(striker.lacks(&fault));
        assert_eq!(left.last().unwrap().numbers(), [2, 2, 0, 1, 9, 32, 0]);
    }
}
