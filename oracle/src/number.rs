//! Donation numbers and their check characters, step by step as ISO/IEC 7064 has it: no table, no weights.

/// What has the values 0 to 35 in a number, and `*` for 36 as a check.
pub const CHARACTERS: &[u8; 37] = b"0123456789ABCDEFGHIJKLMNOPQRSTUVWXYZ*";

/// Of a number alone.
pub const NUMBER_SIZE: usize = 13;

fn value(c: u8) -> Option<usize> {
    CHARACTERS[..36].iter().position(|&x| x == c)
}

/// The check character of 13 characters, none where one of them is none.
pub fn check(number: &[u8]) -> Option<u8> {
    let mut p = 0;
    for &c in number {
        p = (p + value(c)?) * 2 % 37;
    }
    // with the check's own value what is left is 1
    (0..37).find(|c| (p + c) % 37 == 1).map(|c| CHARACTERS[c])
}

/// The number in what was typed, if it is right.
pub fn typed_number(typed: &[u8]) -> Option<&[u8]> {
    if typed.len() != NUMBER_SIZE + 1 {
        return None;
    }
    let (number, last) = typed.split_at(NUMBER_SIZE);
    (check(number) == Some(last[0])).then_some(number)
}
