//! Streams that are made up while they are read: random bits wherever the machine asks for some, ids and indices that
//! are there, skipped bits that are 0, and sizes that fit.

use crate::bits::{store, Input};
use crate::description::Description;
use crate::item::{Fault, Item, Kind};
use crate::machine::Machine;
use crate::program::{Ids, Map};
use crate::random::Random;
use std::cell::RefCell;

/// How often a stream is made anew, with the sizes that its objects turned out to need.
const ROUNDS: usize = 12;

/// Bits that come to be when they are asked for.
struct Invention {
    length: u32,
    state: RefCell<State>,
}

struct State {
    bytes: Vec<u8>,
    /// The bits before this place are settled. Those after it are 0.
    known: u32,
    random: Random,
    /// The sizes that objects needed the last time, in the order of their opens.
    sizes: Vec<u32>,
    /// What they need this time, as far as they are closed.
    needed: Vec<u32>,
    /// Which objects are open, by their places in that order.
    open: Vec<usize>,
    is_loose: bool,
}

impl Invention {
    fn new(bytes: u32, seed: u64, sizes: Vec<u32>) -> Invention {
        Invention {
            length: 8 * bytes,
            state: RefCell::new(State {
                bytes: vec![0; bytes as usize],
                known: 0,
                random: Random::new(seed),
                sizes,
                needed: Vec::new(),
                open: Vec::new(),
                is_loose: false,
            }),
        }
    }
}

impl State {
    /// Settles the bits up to a place: random, and small numbers more often than large.
    fn settle(&mut self, place: u32, width: u32) {
        let from = place.max(self.known);
        let end = place + width;
        if from >= end {
            return;
        }
        let mut value = self.random.bits();
        if self.random.once_in(3) {
            let kept = self.random.below(width.min(6) + 1);
            value &= (1 << kept) - 1;
        }
        store(&mut self.bytes, from, end - from, value);
        self.known = end;
    }

    /// Settles bits that are a certain number.
    fn settle_as(&mut self, place: u32, width: u32, value: u64) {
        if place >= self.known {
            store(&mut self.bytes, place, width, value);
            self.known = place + width;
        }
    }

    /// A size for the object that is opened next, which may have at most so many bytes. It draws as many random numbers
    /// where the size is known.
    fn size(&mut self, most: u32) -> u32 {
        let (least, usual) = if self.random.once_in(12) {
            (0, 12)
        } else {
            (20, 150)
        };
        let made_up = self.random.from_to(least, usual);
        let known = self.sizes.get(self.needed.len());
        known.copied().unwrap_or(made_up).min(most)
    }
}

impl Input for Invention {
    fn length(&self) -> u32 {
        self.length
    }

    fn get(&self, place: u32, width: u32) -> u32 {
        let mut state = self.state.borrow_mut();
        state.settle(place, width);
        let mut value = 0;
        for bit in place..place + width {
            let byte = state.bytes[(bit / 8) as usize];
            value = value << 1 | u32::from(byte >> (7 - bit % 8) & 1);
        }
        value
    }

    fn is_zero(&self, place: u32, count: u32) -> bool {
        let mut state = self.state.borrow_mut();
        let from = place.max(state.known);
        state.known = from.max(place + count);
        drop(state);
        (place..place + count).all(|bit| self.get(bit, 1) == 0)
    }

    fn id(&self, place: u32, width: u32, ids: &[Ids]) -> u32 {
        let mut state = self.state.borrow_mut();
        if !ids.is_empty() && !state.random.once_in(16) {
            let ids = &ids[state.random.below(ids.len() as u32) as usize];
            let id = state.random.from_to(ids.first.into(), ids.last.into());
            state.settle_as(place, width, id.into());
        }
        drop(state);
        self.get(place, width)
    }

    fn index(&self, place: u32, map: &Map) -> u32 {
        let mut state = self.state.borrow_mut();
        if !map.rows.is_empty() && !state.random.once_in(16) {
            let row = state.random.one_of(&map.rows).0;
            state.settle_as(place, map.index_width, row.into());
        }
        drop(state);
        self.get(place, map.index_width)
    }

    fn size_follows(&self, place: u32, greatest: u32, room: u32) {
        let mut state = self.state.borrow_mut();
        let most = greatest.min((room / 8).saturating_sub(1));
        let mut size = state.size(most);
        if size > 127 {
            size = size.min((room / 8).saturating_sub(if size >> 14 == 0 { 2 } else { 3 }));
        }
        let mut bytes = (1..4).find(|n| size >> (7 * n) == 0).unwrap_or(4);
        if state.random.once_in(40) && bytes < 4 {
            bytes += 1;
        }
        if 8 * bytes > room {
            return;
        }
        for i in 0..bytes {
            let behind = bytes - 1 - i;
            let byte = size >> (7 * behind) & 0x7F | u32::from(behind > 0) << 7;
            state.settle_as(place + 8 * i, 8, byte.into());
        }
    }

    fn accepts(&self, item: &Item, unread: u32) -> bool {
        let mut state = self.state.borrow_mut();
        match item.kind {
            Kind::Value => {}
            Kind::Open => {
                let opened = state.needed.len();
                state.open.push(opened);
                state.needed.push(item.length);
            }
            Kind::Close => {
                let opened = state.open.pop().expect("a close has an open");
                if item.class != 0 && unread >= 8 {
                    state.needed[opened] -= unread / 8;
                    state.is_loose = true;
                }
            }
        }
        true
    }
}

/// Makes up a stream of at most so many bytes. The same seed gives the same stream. There is none where it would have
/// more than so many items.
pub fn invent(
    description: &Description,
    bytes: u32,
    most_items: usize,
    seed: u64,
) -> Option<Vec<u8>> {
    // Most objects that are too small grow, and some stay, for the sake of the fault.
    let grows = !Random::new(!seed).once_in(4);
    let mut sizes = Vec::new();
    let mut made = Vec::new();
    for _ in 0..ROUNDS {
        let invention = Invention::new(bytes, seed, sizes);
        let fault = read(description, &invention, most_items)?;
        let mut state = invention.state.into_inner();
        made = state.bytes;
        match fault {
            // No more bytes than the top object has.
            Some(fault) if fault.cause == 20 => made.truncate(fault.place.div_ceil(8) as usize),
            Some(fault) if fault.cause == 12 && grows => {
                state.is_loose = true;
                for opened in state.open {
                    state.needed[opened] = 2 * state.needed[opened] + 8;
                }
            }
            _ => {}
        }
        sizes = state.needed;
        if !state.is_loose {
            break;
        }
    }
    Some(made)
}

/// Reads to the end, and answers the fault, if any. There is no answer where there are too many items.
fn read(
    description: &Description,
    invention: &Invention,
    most_items: usize,
) -> Option<Option<Fault>> {
    let mut machine = Machine::new(&description.program, invention.length);
    for _ in 0..most_items {
        match machine.next(invention) {
            Ok(Some(_)) => {}
            Ok(None) => return Some(None),
            Err(fault) => return Some(Some(fault)),
        }
    }
    None
}
