//! Examples from the documents.

use baseline::{Description, Fault, Reader, Refusal, Source, Writer};

/// The records of the seven tables, one after the other, the top class being class 1.
#[derive(Default)]
struct File<'a> {
    classes: &'a [[u16; 10]],
    names: &'a [[u16; 1]],
    lines: &'a [[u16; 8]],
    nodes: &'a [[u16; 3]],
    maps: &'a [[u16; 3]],
    rows: &'a [[u16; 3]],
}

impl File<'_> {
    fn description(&self) -> Description {
        let mut numbers = vec![1];
        let counts = [
            self.classes.len(),
            self.names.len(),
            0,
            self.lines.len(),
            self.nodes.len(),
            self.maps.len(),
            self.rows.len(),
        ];
        numbers.extend(counts.map(|count| count as u16));
        numbers.push(1);
        numbers.extend(self.classes.iter().flatten());
        numbers.extend(self.names.iter().flatten());
        numbers.extend(self.lines.iter().flatten());
        numbers.extend(self.nodes.iter().flatten());
        numbers.extend(self.maps.iter().flatten());
        numbers.extend(self.rows.iter().flatten());
        let mut file = b"SDT".to_vec();
        file.extend(numbers.iter().flat_map(|number| number.to_be_bytes()));
        Description::new(&file).unwrap()
    }
}

/// A plain class that is not expandable.
fn plain(rank: u16, first: u16, count: u16) -> [u16; 10] {
    [0, 0, 0, 0, 0, 0, 0, rank, first, count]
}

/// All items of a stream, and the fault if there is one.
fn read(description: &Description, bytes: &[u8]) -> (Vec<[i64; 7]>, Option<[u32; 4]>) {
    let mut reader = Reader::new(description, Source::whole(bytes).unwrap());
    let mut items = Vec::new();
    loop {
        match reader.next() {
            Ok(Some(item)) => items.push(item.numbers()),
            Ok(None) => return (items, None),
            Err(Fault {
                cause,
                line,
                node,
                place,
            }) => return (items, Some([cause.into(), line.into(), node.into(), place])),
        }
    }
}

/// The values of the items of kind 1.
fn values(items: &[[i64; 7]]) -> Vec<i64> {
    items
        .iter()
        .filter(|item| item[0] == 1)
        .map(|item| item[4])
        .collect()
}

#[test]
fn a_carried_name() {
    let description = File {
        classes: &[plain(2, 1, 2), plain(1, 3, 1)],
        names: &[[1], [2]],
        lines: &[
            [5, 2, 1, 0, 0, 2, 1, 0],
            [1, 2, 0, 0, 0, 0, 0, 0],
            [1, 3, 2, 0, 0, 0, 0, 0],
        ],
        nodes: &[[1, 0, 2], [2, 1, 0], [1, 0, 8]],
        ..File::default()
    }
    .description();
    let (items, fault) = read(&description, &[0x05, 0x03, 0xE0]);
    assert_eq!(items.len(), 9);
    assert_eq!(items[7], [1, 2, 1, 0, 7, 16, 3]);
    assert_eq!(fault, None);
    let (items, fault) = read(&description, &[0x05, 0x21, 0xE0]);
    assert_eq!(items.len(), 7);
    assert_eq!(fault, Some([24, 2, 0, 16]));
}

#[test]
fn a_while_with_three_rounds() {
    let description = File {
        classes: &[plain(1, 1, 4)],
        names: &[[1]],
        lines: &[
            [1, 1, 1, 0, 0, 0, 0, 0],
            [7, 2, 2, 3, 0, 0, 0, 0],
            [3, 1, 4, 0, 0, 0, 0, 0],
            [1, 1, 0, 0, 0, 0, 0, 0],
        ],
        nodes: &[[1, 0, 8], [2, 1, 0], [1, 0, 1], [8, 2, 3]],
        ..File::default()
    }
    .description();
    let (items, fault) = read(&description, &[3, 10, 11, 12]);
    assert_eq!((values(&items), fault), (vec![3, 10, 11, 12], None));
    let (items, fault) = read(&description, &[4, 10, 11, 12, 13]);
    assert_eq!(values(&items), [4, 10, 11, 12]);
    assert_eq!(fault, Some([25, 2, 0, 32]));
}

/// Three lines: a read, an aligned read and a map.
fn with_map() -> Description {
    File {
        classes: &[plain(1, 1, 3)],
        lines: &[
            [1, 1, 0, 0, 0, 0, 0, 0],
            [1, 1, 0, 0, 8, 0, 0, 0],
            [4, 1, 0, 0, 0, 0, 0, 0],
        ],
        nodes: &[[1, 0, 3]],
        maps: &[[2, 1, 3]],
        rows: &[[2, 0, 5], [1, 0, 5], [0, 0xFFFF, 0xFFF9]],
        ..File::default()
    }
    .description()
}

#[test]
fn alignment_and_a_map() {
    let description = with_map();
    let outcome = |bytes: &[u8]| {
        let (items, fault) = read(&description, bytes);
        (values(&items), fault)
    };
    assert_eq!(outcome(&[0xA0, 0xC8]), (vec![5, 6, 5], None));
    assert_eq!(outcome(&[0xA0, 0xD0]), (vec![5, 6, 5], None));
    assert_eq!(outcome(&[0xA0, 0xC0]), (vec![5, 6, -7], None));
    assert_eq!(outcome(&[0xA0, 0xD8]), (vec![5, 6], Some([15, 3, 0, 11])));
    assert_eq!(outcome(&[0xA8, 0xC8]), (vec![5], Some([13, 2, 0, 3])));
    assert_eq!(
        outcome(&[0xA0, 0xC9]),
        (vec![5, 6, 5], Some([20, 0, 0, 13]))
    );
    assert_eq!(
        outcome(&[0xA0, 0xC8, 0]),
        (vec![5, 6, 5], Some([20, 0, 0, 13]))
    );
}

#[test]
fn the_lowest_index_is_written() {
    let description = with_map();
    let mut buffer = [0xFF; 4];
    let mut writer = Writer::open(&description, 16).unwrap();
    for item in [
        [2, 0, 1, 0, 0, 0, 0],
        [1, 1, 1, 0, 5, 0, 3],
        [1, 2, 1, 0, 6, 8, 3],
        [1, 3, 1, 0, 5, 11, 2],
        [3, 0, 1, 0, 0, 13, 0],
    ] {
        writer.put(&item, &mut buffer).unwrap();
    }
    assert!(writer.finish(&mut buffer).is_ok());
    assert_eq!(buffer, [0xA0, 0xC8, 0xFF, 0xFF]);
    assert!(matches!(
        Writer::open(&description, 1 << 31),
        Err(Refusal::TooLong)
    ));
}

#[test]
fn a_look_ahead() {
    let description = File {
        classes: &[plain(1, 1, 2)],
        names: &[[1]],
        lines: &[[1, 1, 1, 0, 0, 1, 0, 0], [1, 2, 1, 3, 0, 0, 4, 5]],
        nodes: &[[1, 0, 8], [1, 0, 4], [1, 0, 2], [1, 0, 1], [2, 1, 0]],
        ..File::default()
    }
    .description();
    let bytes = [0x5A];
    let mut reader = Reader::new(&description, Source::whole(&bytes).unwrap());
    assert_eq!(
        reader.next().unwrap().unwrap().numbers(),
        [2, 0, 1, 0, 0, 0, 0]
    );
    assert_eq!(
        reader.next().unwrap().unwrap().numbers(),
        [1, 1, 1, 0, 90, 0, 8]
    );
    assert_eq!(reader.position(), 8);
    assert_eq!(
        reader.next().unwrap().unwrap().numbers(),
        [1, 2, 1, 0, 5, 0, 4]
    );
    assert!(matches!(
        Writer::open(&description, 8),
        Err(Refusal::LooksAhead)
    ));
}

#[test]
fn operators() {
    // Operands and value are differences of two constants. The line reads one bit, a 1, if the
    // operator gives the value, and none if not.
    let outcome = |operator: u16, left: i64, right: i64, value: i64| {
        let constant = |number: i64| [1, (number >> 16) as u16, number as u16];
        let difference = |number: i64| [constant(number.max(0)), constant((-number).max(0))];
        let [a, b] = difference(left);
        let [c, d] = difference(right);
        let [e, f] = difference(value);
        let description = File {
            classes: &[plain(1, 1, 1)],
            lines: &[[1, 11, 0, 0, 0, 0, 0, 0]],
            nodes: &[
                a,
                b,
                [8, 1, 2],
                c,
                d,
                [8, 4, 5],
                [operator, 3, 6],
                e,
                f,
                [8, 8, 9],
                [15, 7, 10],
            ],
            ..File::default()
        }
        .description();
        let (items, fault) = read(&description, &[0x80]);
        (values(&items), fault)
    };
    let equal = |operator, left, right, value| {
        assert_eq!(outcome(operator, left, right, value), (vec![1], None));
    };
    equal(5, -7, 2, -3);
    equal(6, -7, 2, -1);
    equal(5, 7, -2, -3);
    equal(6, 7, -2, 1);
    equal(10, -7, 2, -2);
    equal(9, -7, 2, -28);
    equal(9, 1, 31, 2_147_483_648);
    equal(19, 5, 2, 1);
    equal(17, 5, 2, 0);
    let cause = |operator, left, right| outcome(operator, left, right, 0).1;
    assert_eq!(cause(9, 2, 31), Some([21, 1, 7, 0]));
    assert_eq!(cause(9, 0, 32), Some([23, 1, 7, 0]));
    assert_eq!(cause(9, 2, -7), Some([23, 1, 7, 0]));
    assert_eq!(cause(17, -7, 2), Some([23, 1, 7, 0]));
    assert_eq!(cause(7, 4_294_967_295, 1), Some([21, 1, 7, 0]));
    assert_eq!(cause(4, 4_294_967_295, 4_294_967_295), Some([21, 1, 7, 0]));
    assert_eq!(cause(5, 1, 0), Some([22, 1, 7, 0]));
}
