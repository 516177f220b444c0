//! A description as its tables, field by field, so that it can also be damaged, and as a file.

/// The numbers of a description. Record 1 stands first in each table.
#[derive(Clone, Debug, Default)]
pub struct Draft {
    pub version: u16,
    pub top: u16,
    pub classes: Vec<[u16; 10]>,
    pub names: Vec<[u16; 1]>,
    pub extensions: Vec<[u16; 3]>,
    pub lines: Vec<[u16; 8]>,
    pub nodes: Vec<[u16; 3]>,
    pub maps: Vec<[u16; 3]>,
    pub rows: Vec<[u16; 3]>,
}

/// How many records each table may have.
pub const MOST_LINES: usize = 512;
pub const MOST_NODES: usize = 256;

/// The fields of a class that the generator and the damages speak of.
pub mod class {
    pub const KIND: usize = 0;
    pub const BASE: usize = 1;
    pub const ABSTRACT: usize = 2;
    pub const GREATEST: usize = 3;
    pub const ID_WIDTH: usize = 4;
    pub const FIRST_ID: usize = 5;
    pub const LAST_ID: usize = 6;
    pub const RANK: usize = 7;
    pub const FIRST_LINE: usize = 8;
    pub const LINES: usize = 9;
}

impl Draft {
    /// The description file.
    pub fn file(&self) -> Vec<u8> {
        let mut numbers = vec![self.version];
        let counts = [
            self.classes.len(),
            self.names.len(),
            self.extensions.len(),
            self.lines.len(),
            self.nodes.len(),
            self.maps.len(),
            self.rows.len(),
        ];
        numbers.extend(counts.map(|count| count as u16));
        numbers.push(self.top);
        numbers.extend(self.classes.iter().flatten());
        numbers.extend(self.names.iter().flatten());
        numbers.extend(self.extensions.iter().flatten());
        numbers.extend(self.lines.iter().flatten());
        numbers.extend(self.nodes.iter().flatten());
        numbers.extend(self.maps.iter().flatten());
        numbers.extend(self.rows.iter().flatten());
        let mut file = b"SDT".to_vec();
        file.extend(numbers.iter().flat_map(|number| number.to_be_bytes()));
        file
    }
}
