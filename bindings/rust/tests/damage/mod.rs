//! Odd numbers, and bytes damaged.
use crate::random::Random;

/// A number that is small, large, or anything.
pub fn number(r: &mut Random) -> u64 {
    match r.below(4) {
        0 => r.next(),
        1 => u64::MAX - r.below(20),
        _ => r.below(20),
    }
}

/// Cuts or lengthens bytes, writes a number into them, or flips a bit: among the first ones more often, since they matter most.
pub fn damage(bytes: &mut Vec<u8>, first: u64, r: &mut Random) {
    let n = bytes.len() as u64;
    match r.below(8) {
        _ if n == 0 => bytes.extend(r.bytes(3, 6)),
        0 => bytes.truncate(r.below(n) as usize),
        1 => bytes.extend(r.bytes(3, 256)),
        2 => {
            let at = r.below(n) as usize;
            let new = number(r).to_le_bytes();
            bytes[at..].iter_mut().zip(new).for_each(|(b, x)| *b = x);
        }
        3 | 4 => bytes[r.below(n.min(first)) as usize] ^= 1 << r.below(8),
        _ => bytes[r.below(n) as usize] ^= 1 << r.below(8),
    }
}
