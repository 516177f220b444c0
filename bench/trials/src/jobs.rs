//! What is measured: one task, done by the library, the interpreter or code written by hand, over one make of source.

use crate::by_hand::{decode, Layout, SAMPLE};
use crate::gets::{get_bytes, get_join, get_window, get_words, sweep};
use crate::pairs::{flat, numbers};
use baseline::{Description, Reader, Source as Bits, Writer};
use jilafotra::{Item, Source};
use std::fmt;
use std::hint::black_box;

#[derive(Clone, Copy, Debug, PartialEq, Eq)]
pub enum Task {
    /// Reads a stream, and sums all numbers of all items.
    Read,
    /// Writes the items of a stream.
    Put,
    /// Checks the description.
    Check,
    /// Gets of all places and widths.
    Get,
}

#[derive(Clone, Copy, Debug, PartialEq, Eq)]
pub enum By {
    Library,
    Interpreter,
    Hand,
}

#[derive(Clone, Copy, Debug, PartialEq, Eq)]
pub enum Make {
    Bytes,
    Words,
    Window,
    Join,
}

macro_rules! named {
    ($kind:ident: $($case:ident $name:literal)*) => {
        impl $kind {
            pub fn named(name: &str) -> Option<$kind> {
                match name {
                    $($name => Some($kind::$case),)*
                    _ => None,
                }
            }
        }

        impl fmt::Display for $kind {
            fn fmt(&self, f: &mut fmt::Formatter) -> fmt::Result {
                f.pad(match self {
                    $($kind::$case => $name,)*
                })
            }
        }
    };
}

named!(Task: Read "read" Put "put" Check "check" Get "get");
named!(By: Library "library" Interpreter "interpreter" Hand "hand");
named!(Make: Bytes "bytes" Words "words" Window "window" Join "join");

#[derive(Clone, Copy, Debug, PartialEq, Eq)]
pub struct Job {
    pub task: Task,
    pub by: By,
    pub make: Make,
}

/// What a job works on, with all that has to be there before it is measured.
pub struct Input {
    description: Vec<u8>,
    stream: Vec<u8>,
    words: Vec<u32>,
    /// The stream from bit 8 on.
    moved: Vec<u8>,
    items: Vec<Item>,
    layout: Layout,
}

impl Input {
    /// The layout is that of the sample, or of `baseline repeat`.
    pub fn new(job: Job, description: Vec<u8>, stream: Vec<u8>, is_sample: bool) -> Input {
        let mut input = Input {
            words: Vec::new(),
            moved: Vec::new(),
            items: Vec::new(),
            layout: if is_sample {
                SAMPLE
            } else {
                // All of its lines but three are uses.
                Layout::repeated(u16::from_be_bytes([description[11], description[12]]) - 3)
            },
            description,
            stream,
        };
        let stream = &input.stream;
        match (job.task, job.make) {
            (Task::Read | Task::Get, Make::Words) => {
                let fours = stream.chunks_exact(4);
                input.words = fours
                    .map(|four| u32::from_be_bytes(four.try_into().expect("four bytes")))
                    .collect();
            }
            (Task::Read | Task::Get, Make::Window) => {
                input.moved = [&[0x55], &stream[..], &[0x55]].concat();
            }
            (Task::Put, _) => {
                let description = Description::new(&input.description).expect("it is accepted");
                let source = Bits::whole(stream).expect("it is short");
                let mut reader = Reader::new(&description, source);
                while let Ok(Some(item)) = reader.next() {
                    input.items.push(flat(&item));
                }
            }
            _ => {}
        }
        input
    }

    fn source(&self, make: Make) -> Source<'_> {
        let (front, back) = self.stream.split_at(self.stream.len() / 2);
        match make {
            Make::Bytes => Source::Bytes(&self.stream),
            Make::Words => Source::Words(&self.words),
            Make::Window => Source::Window {
                bytes: &self.moved,
                first: 8,
                count: 8 * self.stream.len() as u32,
            },
            Make::Join => Source::Join { front, back },
        }
    }
}

/// What was done: how many items, gets or checks, and a number that must be the same whoever did it.
#[derive(Clone, Copy, Debug, PartialEq, Eq)]
pub struct Done {
    pub many: u64,
    pub number: u64,
}

impl Job {
    /// Does it so many times. The number is that of one pass, so that it does not depend on the rounds, but for gets.
    pub fn run(self, input: &Input, rounds: u32) -> Done {
        if self.task == Task::Get {
            let number = self.gets(input, rounds);
            return Done {
                many: 8000 * u64::from(rounds),
                number,
            };
        }
        let mut done = Done { many: 0, number: 0 };
        for _ in 0..rounds {
            let one = match self.task {
                Task::Read => self.read(black_box(input)),
                Task::Put => self.put(black_box(input)),
                _ => self.check(black_box(input)),
            };
            done = Done {
                many: done.many + one.many,
                number: one.number,
            };
        }
        done
    }

    fn read(self, input: &Input) -> Done {
        match self.by {
            By::Library => {
                let source = input.source(self.make);
                let folded = jilafotra::sum(&input.description, source).expect("it is accepted");
                Done {
                    many: folded.items,
                    number: folded.fold,
                }
            }
            By::Interpreter => {
                let description = Description::new(&input.description).expect("it is accepted");
                let source = Bits::whole(&input.stream).expect("it is short");
                let mut reader = Reader::new(&description, source);
                let mut sum = Sum::default();
                while let Ok(Some(item)) = reader.next() {
                    sum.take(&flat(&item));
                }
                sum.done()
            }
            By::Hand => {
                let mut sum = Sum::default();
                decode(input.layout, &input.stream, |item| sum.take(&item));
                sum.done()
            }
        }
    }

    fn put(self, input: &Input) -> Done {
        let length = 8 * input.stream.len() as u64;
        let mut buffer = vec![0; input.stream.len()];
        let many = input.items.len() as u64;
        match self.by {
            By::Library => {
                let written =
                    jilafotra::write(&input.description, &input.items, length, &mut buffer);
                assert_eq!(written.expect("it is accepted").refusal, None);
            }
            _ => {
                let description = Description::new(&input.description).expect("it is accepted");
                let mut writer = Writer::open(&description, length).expect("nothing looks ahead");
                for item in &input.items {
                    writer
                        .put(&numbers(item), &mut buffer)
                        .expect("it comes next");
                }
                assert!(writer.finish(&mut buffer).is_ok());
            }
        }
        assert!(buffer == input.stream);
        Done { many, number: 0 }
    }

    fn check(self, input: &Input) -> Done {
        let is_accepted = match self.by {
            By::Library => jilafotra::check(&input.description).is_ok(),
            _ => Description::new(&input.description).is_ok(),
        };
        Done {
            many: 1,
            number: is_accepted.into(),
        }
    }

    fn gets(self, input: &Input, rounds: u32) -> u64 {
        match (self.by, input.source(self.make)) {
            (By::Library, source) => jilafotra::gets(source, rounds),
            (By::Interpreter, _) => {
                let source = Bits::whole(&input.stream).expect("it is short");
                sweep(rounds, |p, n| source.get(p, n).ok().map(u64::from))
            }
            (By::Hand, Source::Bytes(bytes)) => sweep(rounds, |p, n| get_bytes(bytes, p, n).ok()),
            (By::Hand, Source::Words(words)) => sweep(rounds, |p, n| get_words(words, p, n).ok()),
            (
                By::Hand,
                Source::Window {
                    bytes,
                    first,
                    count,
                },
            ) => sweep(rounds, |p, n| get_window(bytes, first, count, p, n).ok()),
            (By::Hand, Source::Join { front, back }) => {
                sweep(rounds, |p, n| get_join(front, back, p, n).ok())
            }
        }
    }
}

#[derive(Default)]
struct Sum {
    items: u64,
    sum: i64,
}

impl Sum {
    #[inline]
    fn take(&mut self, item: &Item) {
        self.items += 1;
        self.sum = numbers(item)
            .iter()
            .fold(self.sum, |a, b| a.wrapping_add(*b));
    }

    fn done(self) -> Done {
        Done {
            many: self.items,
            number: self.sum as u64,
        }
    }
}
