// The gets of gets.rt.txt written by hand over slices, as the baseline: those of trials/, and a loop over the bytes.
#[path = "trials/src/gets.rs"]
#[allow(dead_code)]
mod gets;

use gets::{get_bytes, get_join, get_window, get_words, Refusal};
use std::hint::black_box;
use std::io::Read;

// Byte by byte over the bytes that the bits touch.
fn get_bytes_loop(bytes: &[u8], p: u32, n: u32) -> Result<u64, Refusal> {
    if n > 32 {
        return Err(Refusal::TooWide);
    }
    if p as usize + n as usize > bytes.len() * 8 {
        return Err(Refusal::PastEnd);
    }
    let first = (p / 8) as usize;
    let last = ((p + n + 7) / 8) as usize;
    let mut whole = 0u64;
    for b in &bytes[first..last] {
        whole = whole << 8 | *b as u64;
    }
    let past = last as u32 * 8 - (p + n);
    Ok(whole >> past & ((1 << n) - 1))
}

// 8,000,000 gets at places 0 to 7999 of widths 1 to 32.
macro_rules! sweep {
    ($name:ident, $p:ident, $n:ident, $get:expr, $($arg:ident: $ty:ty),*) => {
        #[inline(never)]
        fn $name($($arg: $ty),*) -> u64 {
            let mut all = 0;
            for k in 0..1000u32 {
                for $p in 0..8000u32 {
                    let $n = 1 + ($p ^ k) % 32;
                    if let Ok(v) = $get {
                        all ^= v;
                    }
                }
            }
            all
        }
    };
}

sweep!(over_nothing, p, n, Ok::<u64, Refusal>(black_box(n) as u64), );
sweep!(over_bytes, p, n, get_bytes(bytes, p, n), bytes: &[u8]);
sweep!(over_bytes_loop, p, n, get_bytes_loop(bytes, p, n), bytes: &[u8]);
sweep!(over_words, p, n, get_words(words, p, n), words: &[u32]);
sweep!(over_window, p, n, get_window(bytes, first, count, p, n), bytes: &[u8], first: u32, count: u32);
sweep!(over_join, p, n, get_join(front, back, p, n), front: &[u8], back: &[u8]);

fn main() {
    let mut input = [0u8; 1010];
    let n = std::io::stdin().read(&mut input).unwrap();
    let mut words = [0xC3A5_5A3Cu32; 256];
    words[3] = n as u32;
    let bytes = &input[..n];
    let all = match input[0] {
        b'n' => over_nothing(),
        b'b' => over_bytes(bytes),
        b'l' => over_bytes_loop(bytes),
        b'w' => over_words(&words[..n / 4]),
        b'v' => over_window(bytes, (input[1] % 4) as u32, black_box(8040)),
        _ => over_join(bytes, bytes),
    };
    println!("{all}");
}
