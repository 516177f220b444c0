//! Checked descriptions.

use crate::check::check;
use crate::program::Program;
use crate::tables::{DescriptionFault, Tables};

/// A description that was loaded and checked, with its lines decoded for a machine.
pub struct Description {
    pub(crate) tables: Tables,
    pub(crate) program: Program,
}

impl Description {
    /// Loads and checks a description file.
    pub fn new(file: &[u8]) -> Result<Description, DescriptionFault> {
        let tables = Tables::load(file)?;
        check(&tables)?;
        let program = Program::new(&tables);
        Ok(Description { tables, program })
    }
}

#[cfg(test)]
pub(crate) mod tests {
    use super::*;

    pub const SAMPLE: &[u8] = include_bytes!("../../../docs/sample.sdt");

    /// The fault of the sample with the number at an offset changed.
    fn changed(offset: usize, number: u16) -> (u8, u8, u16) {
        let mut file = SAMPLE.to_vec();
        file[offset..offset + 2].copy_from_slice(&number.to_be_bytes());
        fault(&file)
    }

    fn fault(file: &[u8]) -> (u8, u8, u16) {
        match Description::new(file) {
            Ok(_) => (0, 0, 0),
            Err(fault) => (fault.cause, fault.table, fault.record),
        }
    }

    #[test]
    fn the_sample_is_accepted() {
        assert_eq!(fault(SAMPLE), (0, 0, 0));
    }

    #[test]
    fn changes_to_the_sample() {
        assert_eq!(fault(&SAMPLE[..2]), (1, 0, 0));
        assert_eq!(fault(&SAMPLE[..4]), (2, 0, 0));
        assert_eq!(fault(&SAMPLE[..7]), (3, 0, 0));
        assert_eq!(fault(&SAMPLE[..20]), (4, 0, 0));
        assert_eq!(fault(&SAMPLE[..162]), (4, 0, 0));
        assert_eq!(changed(3, 2), (2, 0, 0));
        assert_eq!(changed(5, 33), (3, 0, 0));
        assert_eq!(changed(5, 0), (3, 0, 0));
        assert_eq!(changed(19, 0), (5, 0, 0));
        assert_eq!(changed(157, 21), (5, 5, 3));
        assert_eq!(changed(39, 1), (6, 4, 2));
        assert_eq!(changed(75, 2), (8, 4, 2));
        assert_eq!(changed(19, 3), (10, 0, 0));
        assert_eq!(changed(49, 4), (10, 1, 2));
        assert_eq!(changed(105, 0), (10, 4, 2));
    }
}
