//! The gets of the crate `bits` written by hand over slices.

pub enum Refusal {
    TooWide,
    PastEnd,
}

/// Five bytes at once where there are five.
pub fn get_bytes(bytes: &[u8], p: u32, n: u32) -> Result<u64, Refusal> {
    if n > 32 {
        return Err(Refusal::TooWide);
    }
    if p as usize + n as usize > bytes.len() * 8 {
        return Err(Refusal::PastEnd);
    }
    let rest = &bytes[(p / 8) as usize..];
    let (whole, width) = match rest {
        [a, b, c, d, e, ..] => {
            let four = u32::from_be_bytes([*a, *b, *c, *d]);
            (u64::from(four) << 8 | u64::from(*e), 40)
        }
        _ => {
            let whole = rest
                .iter()
                .fold(0, |whole, byte| whole << 8 | u64::from(*byte));
            (whole, rest.len() as u32 * 8)
        }
    };
    Ok(whole >> (width - p % 8 - n) & ((1 << n) - 1))
}

pub fn get_words(words: &[u32], p: u32, n: u32) -> Result<u64, Refusal> {
    if n > 32 {
        return Err(Refusal::TooWide);
    }
    if p as usize + n as usize > words.len() * 32 {
        return Err(Refusal::PastEnd);
    }
    let first = (p / 32) as usize;
    let last = (p + n).div_ceil(32) as usize;
    let mut whole = 0u64;
    for word in &words[first..last] {
        whole = whole << 32 | u64::from(*word);
    }
    let past = last as u32 * 32 - (p + n);
    Ok(whole >> past & ((1 << n) - 1))
}

pub fn get_window(bytes: &[u8], first: u32, count: u32, p: u32, n: u32) -> Result<u64, Refusal> {
    if n > 32 {
        return Err(Refusal::TooWide);
    }
    if u64::from(p) + u64::from(n) > u64::from(count) {
        return Err(Refusal::PastEnd);
    }
    get_bytes(bytes, first + p, n)
}

pub fn get_join(front: &[u8], back: &[u8], p: u32, n: u32) -> Result<u64, Refusal> {
    let middle = front.len() as u32 * 8;
    if p + n <= middle {
        return get_bytes(front, p, n);
    }
    if p >= middle {
        return get_bytes(back, p - middle, n);
    }
    let past = p + n - middle;
    let high = get_bytes(front, p, middle - p)?;
    let low = get_bytes(back, 0, past)?;
    Ok(high << past | low)
}

/// 8000 gets a round, at places 0 to 7999 and of widths 1 to 32, as the library's `jilafotra_gets` makes them.
pub fn sweep(rounds: u32, get: impl Fn(u32, u32) -> Option<u64>) -> u64 {
    let mut all = 0;
    for round in 0..rounds {
        for place in 0..8000u32 {
            if let Some(value) = get(place, 1 + (place ^ round) % 32) {
                all ^= value;
            }
        }
    }
    all
}
