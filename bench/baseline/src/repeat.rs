//! A long stream of the sample's objects, and a description with room for them.

/// How many objects one use without a count holds at most.
const MOST: usize = 65_535;

/// How many uses there are at most: 512 lines but for three.
const MOST_USES: usize = 509;

/// The sample's objects with their ids and sizes: one of class 3, one of an unknown id.
const KNOWN: &[u8] = &[0x01, 0x01, 0xA3];
const UNKNOWN: &[u8] = &[0x09, 0x02, 0xFF, 0xFF];

/// A description and a stream for it.
pub struct Repeated {
    pub description: Vec<u8>,
    pub stream: Vec<u8>,
}

/// A stream of so many objects, the sample's two in turn or only the known one, and a description for it. There is none
/// where there are too many objects.
pub fn repeated(count: usize, only_known: bool) -> Option<Repeated> {
    let uses = count.div_ceil(MOST).max(1);
    if uses > MOST_USES {
        return None;
    }
    let mut stream = vec![0x07];
    for i in 0..count {
        stream.extend(if i % 2 == 0 || only_known {
            KNOWN
        } else {
            UNKNOWN
        });
    }
    let description = describe(uses as u16);
    Some(Repeated {
        description,
        stream,
    })
}

/// The sample description, but for its use line: there are `uses` of them, one after the other,
/// each for 0 to 65,535 objects.
fn describe(uses: u16) -> Vec<u8> {
    let mut numbers: Vec<u16> = vec![1, 3, 0, 0, uses + 3, 3, 0, 0, 1];
    numbers.extend([0, 0, 0, 0, 0, 0, 0, 2, 1, uses + 1]);
    numbers.extend([1, 0, 1, 120, 8, 0, 0, 1, 0, 0]);
    numbers.extend([2, 2, 0, 0, 0, 1, 1, 1, uses + 2, 2]);
    numbers.extend([1, 1, 0, 0, 0, 0, 0, 0]);
    for _ in 0..uses {
        numbers.extend([5, 2, 0, 0, MOST as u16, 0, 0, 0]);
    }
    numbers.extend([1, 2, 0, 0, 0, 0, 0, 0]);
    numbers.extend([2, 3, 0, 0, 0, 0, 0, 0]);
    numbers.extend([1, 0, 8, 1, 0, 3, 1, 0, 5]);
    let mut file = b"SDT".to_vec();
    file.extend(numbers.iter().flat_map(|number| number.to_be_bytes()));
    file
}

#[cfg(test)]
mod tests {
    use super::*;
    use crate::Description;

    #[test]
    fn the_description_is_accepted() {
        for uses in [1, 2, MOST_USES as u16] {
            assert!(Description::new(&describe(uses)).is_ok());
        }
    }
}
