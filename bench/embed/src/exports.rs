//! The exports as `crates/embed/src` has them, and calls of them by slices.

use crate::{Item, Source};

#[repr(C)]
pub struct CheckAnswer {
    pub record: u64,
    pub cause: u32,
    pub table: u32,
}

#[repr(C)]
pub struct FaultAnswer {
    pub cause: u32,
    pub line: u32,
    pub node: u32,
    pub place: u32,
}

#[repr(C)]
pub struct ReadAnswer {
    pub check: CheckAnswer,
    pub fault: FaultAnswer,
    pub items: u64,
    pub full: bool,
}

#[repr(C)]
pub struct FoldAnswer {
    pub check: CheckAnswer,
    pub fault: FaultAnswer,
    pub items: u64,
    pub fold: u64,
}

#[repr(C)]
pub struct WriteAnswer {
    pub check: CheckAnswer,
    pub items: u64,
    pub refusal: u32,
}

// A slice crosses as a pointer and then a length. An export's first parameter, the heap, takes no bytes.
unsafe extern "C" {
    fn jilafotra_check(d: *const u8, d_length: usize) -> CheckAnswer;
    fn jilafotra_read(
        d: *const u8,
        d_length: usize,
        stream: *const u8,
        stream_length: usize,
        table: *mut Item,
        table_length: usize,
    ) -> ReadAnswer;
    fn jilafotra_digest(
        d: *const u8,
        d_length: usize,
        stream: *const u8,
        stream_length: usize,
    ) -> FoldAnswer;
    fn jilafotra_sum(
        d: *const u8,
        d_length: usize,
        stream: *const u8,
        stream_length: usize,
    ) -> FoldAnswer;
    fn jilafotra_sum_words(
        d: *const u8,
        d_length: usize,
        words: *const u32,
        words_length: usize,
    ) -> FoldAnswer;
    fn jilafotra_sum_window(
        d: *const u8,
        d_length: usize,
        bytes: *const u8,
        bytes_length: usize,
        first: u32,
        count: u32,
    ) -> FoldAnswer;
    fn jilafotra_sum_join(
        d: *const u8,
        d_length: usize,
        front: *const u8,
        front_length: usize,
        back: *const u8,
        back_length: usize,
    ) -> FoldAnswer;
    fn jilafotra_write(
        d: *const u8,
        d_length: usize,
        items: *const Item,
        items_length: usize,
        length: u64,
        buffer: *mut u8,
        buffer_length: usize,
    ) -> WriteAnswer;
    fn jilafotra_gets(bytes: *const u8, bytes_length: usize, rounds: u32) -> u64;
    fn jilafotra_gets_words(words: *const u32, words_length: usize, rounds: u32) -> u64;
    fn jilafotra_gets_window(
        bytes: *const u8,
        bytes_length: usize,
        first: u32,
        count: u32,
        rounds: u32,
    ) -> u64;
    fn jilafotra_gets_join(
        front: *const u8,
        front_length: usize,
        back: *const u8,
        back_length: usize,
        rounds: u32,
    ) -> u64;
}

// SAFETY, of each call below: the declarations above fit `crates/embed/src`, each pointer and the length after it are
// those of one slice that is borrowed for the call, and the exports require no more than that.

pub fn check(d: &[u8]) -> CheckAnswer {
    unsafe { jilafotra_check(d.as_ptr(), d.len()) }
}

pub fn read(d: &[u8], stream: &[u8], table: &mut [Item]) -> ReadAnswer {
    unsafe {
        jilafotra_read(
            d.as_ptr(),
            d.len(),
            stream.as_ptr(),
            stream.len(),
            table.as_mut_ptr(),
            table.len(),
        )
    }
}

pub fn digest(d: &[u8], stream: &[u8]) -> FoldAnswer {
    unsafe { jilafotra_digest(d.as_ptr(), d.len(), stream.as_ptr(), stream.len()) }
}

pub fn sum(d: &[u8], source: Source) -> FoldAnswer {
    match source {
        Source::Bytes(b) => unsafe { jilafotra_sum(d.as_ptr(), d.len(), b.as_ptr(), b.len()) },
        Source::Words(w) => unsafe {
            jilafotra_sum_words(d.as_ptr(), d.len(), w.as_ptr(), w.len())
        },
        Source::Window {
            bytes,
            first,
            count,
        } => unsafe {
            jilafotra_sum_window(
                d.as_ptr(),
                d.len(),
                bytes.as_ptr(),
                bytes.len(),
                first,
                count,
            )
        },
        Source::Join { front, back } => unsafe {
            jilafotra_sum_join(
                d.as_ptr(),
                d.len(),
                front.as_ptr(),
                front.len(),
                back.as_ptr(),
                back.len(),
            )
        },
    }
}

pub fn write(d: &[u8], items: &[Item], length: u64, buffer: &mut [u8]) -> WriteAnswer {
    unsafe {
        jilafotra_write(
            d.as_ptr(),
            d.len(),
            items.as_ptr(),
            items.len(),
            length,
            buffer.as_mut_ptr(),
            buffer.len(),
        )
    }
}

pub fn gets(source: Source, rounds: u32) -> u64 {
    match source {
        Source::Bytes(b) => unsafe { jilafotra_gets(b.as_ptr(), b.len(), rounds) },
        Source::Words(w) => unsafe { jilafotra_gets_words(w.as_ptr(), w.len(), rounds) },
        Source::Window {
            bytes,
            first,
            count,
        } => unsafe { jilafotra_gets_window(bytes.as_ptr(), bytes.len(), first, count, rounds) },
        Source::Join { front, back } => unsafe {
            jilafotra_gets_join(
                front.as_ptr(),
                front.len(),
                back.as_ptr(),
                back.len(),
                rounds,
            )
        },
    }
}
