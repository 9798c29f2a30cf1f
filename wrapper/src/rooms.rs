//! The sizes of the rooms, in bytes. They are for numbers within their ranges; on any others some size is given too, and
//! no sum or product overflows: with bytes for numbers the largest is below 2^32.

const _: () = assert!(usize::BITS >= 32);

/// W, which no term of a row outweighs.
pub const fn greatest_weight(n: u8, k: u8, m: u8, l: u8) -> usize {
    m as usize * n as usize + l.saturating_sub(m) as usize * k.saturating_sub(1) as usize
}

pub const fn curve_bytes(n: u8, k: u8, m: u8, l: u8) -> usize {
    (l as usize + 1) * (greatest_weight(n, k, m, l) + 1)
}

pub const fn rows_bytes(n: u8, k: u8, m: u8, l: u8) -> usize {
    (l as usize + 1) * curve_bytes(n, k, m, l)
}

pub const fn messages_bytes(k: u8, l: u8) -> usize {
    l as usize * k as usize
}
