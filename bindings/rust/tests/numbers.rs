//! Donation numbers with their check characters. The check is computed here step by step, as ISO/IEC 7064 has it, with no table.
mod random;

use helmapricot::{Index, Kind, Refusal, Row, NUMBER_SIZE};
use random::Random;

const CHARACTERS: &[u8; 37] = b"0123456789ABCDEFGHIJKLMNOPQRSTUVWXYZ*";

/// Doubled after each character; with the check's own value 1 is left by 37.
fn check(number: &[u8]) -> u8 {
    let p = number.iter().fold(0, |p, c| (p + CHARACTERS.iter().position(|x| x == c).unwrap()) * 2 % 37);
    (0..37).find(|c| (p + c) % 37 == 1).map(|c| CHARACTERS[c]).unwrap()
}

fn with_check(number: &[u8]) -> Vec<u8> {
    [number, &[check(number)]].concat()
}

fn any_number(r: &mut Random) -> Vec<u8> {
    (0..NUMBER_SIZE).map(|_| r.pick(&CHARACTERS[..36])).collect()
}

/// An index that holds the number at address 4096, in writes of at most so many bytes, and what is typed for it.
fn held(number: &[u8], longest: usize) -> Result<(Index, Vec<u8>), Refusal> {
    let mut index = Index::new(200, 40)?;
    for (i, part) in number.chunks(longest).enumerate() {
        index.record(Kind::Memory, 4096 + (i * longest) as u64, 10, 50, part)?;
    }
    index.finish()?;
    Ok((index, with_check(number)))
}

const STOOD: [Row; 1] = [Row { address: 4096, created: 10, destroyed: 50 }];

/// What was typed for a number that is held, changed: it is refused if it differs, and found if not.
fn typed_otherwise(index: &Index, right: &[u8], typed: &[u8]) {
    let answer = if typed == right { Ok(STOOD.to_vec()) } else { Err(Refusal::WrongNumber) };
    assert_eq!(index.search_number(typed), answer, "{} typed for {}", String::from_utf8_lossy(typed), String::from_utf8_lossy(right));
}

#[test]
fn documented() -> Result<(), Refusal> {
    assert_eq!((check(b"0000000000000"), check(b"0000000000001"), check(b"G123498654321")), (b'1', b'*', b'H'));
    for typed in [b"00000000000001", b"0000000000001*", b"G123498654321H"] {
        assert_eq!(held(&typed[..NUMBER_SIZE], 4)?.0.search_number(typed)?, STOOD);
    }
    Ok(())
}

#[test]
fn single_changes() -> Result<(), Refusal> {
    let r = &mut Random(31);
    for _ in 0..150 {
        let (index, right) = held(&any_number(r), 4)?;
        for at in 0..right.len() {
            for byte in 0..=255 {
                let mut typed = right.clone();
                typed[at] = byte;
                typed_otherwise(&index, &right, &typed);
            }
        }
    }
    Ok(())
}

#[test]
fn exchanged_neighbours() -> Result<(), Refusal> {
    let r = &mut Random(32);
    for _ in 0..3_000 {
        let (index, right) = held(&any_number(r), 16)?;
        for at in 1..right.len() {
            let mut typed = right.clone();
            typed.swap(at - 1, at);
            typed_otherwise(&index, &right, &typed);
        }
    }
    Ok(())
}

/// Each of the 468 values at its place, in a number that has zeros everywhere else, with each of the 37 checks.
#[test]
fn each_value_at_each_place() -> Result<(), Refusal> {
    for (at, value) in (0..NUMBER_SIZE).flat_map(|at| CHARACTERS[..36].iter().map(move |c| (at, *c))) {
        let mut number = [b'0'; NUMBER_SIZE];
        number[at] = value;
        let (index, right) = held(&number, 16)?;
        for last in CHARACTERS {
            typed_otherwise(&index, &right, &[&number[..], &[*last]].concat());
        }
    }
    Ok(())
}

#[test]
fn other_lengths() -> Result<(), Refusal> {
    let r = &mut Random(33);
    for _ in 0..200 {
        let (index, right) = held(&any_number(r), 4)?;
        let long = [&right[..], &right, &right].concat();
        for length in 0..=long.len() {
            typed_otherwise(&index, &right, &long[..length]);
        }
        typed_otherwise(&index, &right, &[&[b' '], &right[..]].concat());
        typed_otherwise(&index, &right, &[&right[..], &[b'\n']].concat());
        typed_otherwise(&index, &right, &vec![b'0'; 100_000]);
    }
    Ok(())
}

/// What is handed over is the plain search's, with the same buffers; a refusal leaves scratch and rows.
#[test]
fn as_the_plain_search() -> Result<(), Refusal> {
    let r = &mut Random(34);
    for _ in 0..2_000 {
        // few characters, so that a number stands at several places
        let letters = [r.pick(&CHARACTERS[..36]), r.pick(&CHARACTERS[..36])];
        let text: Vec<u8> = (0..40).map(|_| r.pick(&letters)).collect();
        let mut index = Index::new(2000, 400)?;
        for (i, part) in text.chunks(5).enumerate() {
            let created = r.below(3);
            index.record(Kind::Memory, 5 * i as u64, created, created + 1 + r.below(4), part)?;
        }
        index.finish()?;
        let at = r.below(28) as usize;
        let number = &text[at..at + NUMBER_SIZE];
        let (places, room) = (r.below(300) as usize, r.below(4) as usize);
        let mut plain = (vec![7; 24 * places], vec![Row::default(); room]);
        let mut typed = plain.clone();
        let expected = index.search_in(number, &mut plain.0, &mut plain.1);
        assert_eq!(index.search_number_in(&with_check(number), &mut typed.0, &mut typed.1), expected);
        assert_eq!(typed.1, plain.1);
        assert_eq!(index.search_number(&with_check(number)), index.search(number));
        let before = typed.clone();
        let last = if check(number) == b'*' { b'0' } else { b'*' };
        assert_eq!(index.search_number_in(&[number, &[last]].concat(), &mut typed.0, &mut typed.1), Err(Refusal::WrongNumber));
        assert_eq!(typed, before);
    }
    Ok(())
}

/// 1 and 3 come before 19.
#[test]
fn refusals_in_order() -> Result<(), Refusal> {
    let mut index = Index::new(200, 40)?;
    index.record(Kind::Memory, 0, 1, 9, b"0000000000000")?;
    for typed in [&b"00000000000001"[..], b"00000000000002", b"", &[b'0'; 300]] {
        assert_eq!(index.search_number(typed), Err(Refusal::BeforeFinish));
        assert_eq!(Index::held_in(vec![0; 500]).search_number(typed), Err(Refusal::IndexRuleBroken));
    }
    Ok(())
}
