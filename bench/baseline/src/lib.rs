//! An interpreter of description tables: it checks descriptions, reads and writes streams by them,
//! and compares newer with older descriptions.

mod bits;
mod check;
mod description;
mod growth;
mod inventing;
mod item;
mod machine;
mod program;
mod random;
mod reader;
mod repeat;
mod tables;
mod writer;

pub use bits::Source;
pub use description::Description;
pub use growth::{grown, Striker};
pub use inventing::invent;
pub use item::{Fault, Item, Kind, Refusal};
pub use random::Random;
pub use reader::{Filled, Reader};
pub use repeat::{repeated, Repeated};
pub use tables::DescriptionFault;
pub use writer::Writer;
