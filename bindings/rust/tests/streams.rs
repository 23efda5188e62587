//! A stream recorded in one call: the same answer and the same memory, byte for byte, as by a loop over its blocks.
mod block_bytes;
mod damage;
mod random;
use block_bytes::block_bytes;
use damage::{damage, number};
use helmapricot::{read_block, Index, Kind, Refusal, Stopped};
use random::Random;
use std::collections::BTreeMap;

type Done = Result<(), Refusal>;

/// A Memory block as it stands in a stream.
fn memory_block(address: u64, created_at: u64, destroyed_at: u64, data: &[u8]) -> Vec<u8> {
    block_bytes(1, [address, data.len() as u64, created_at, destroyed_at], data)
}

fn stopped(taken: u64, number: u64) -> Result<u64, Stopped> {
    Err(Stopped { taken, refusal: Refusal::of(number).unwrap() })
}

/// The blocks read and recorded one by one, up to the first refusal.
fn one_by_one(index: &mut Index, stream: &[u8]) -> Result<u64, Stopped> {
    let (mut taken, mut at) = (0, 0);
    // 1 and 2 come first, and a block of another kind than Memory meets no other refusal
    index.record(Kind::Constant, 0, 0, 0, b"").map_err(|refusal| Stopped { taken, refusal })?;
    while let Some((block, next)) = read_block(stream, at).map_err(|refusal| Stopped { taken, refusal })? {
        index.record_block(&block).map_err(|refusal| Stopped { taken, refusal })?;
        (taken, at) = (taken + 1, next);
    }
    Ok(taken)
}

/// What the call answers, on a copy of the memory, after it was compared with the loop on another copy.
fn compared(memory: &[u8], stream: &[u8]) -> Result<u64, Stopped> {
    let mut index = Index::held_in(memory.to_vec());
    let mut other = index.clone();
    let answer = index.record_stream(stream);
    assert_eq!(answer, one_by_one(&mut other, stream), "{stream:?}");
    assert!(index.memory() == other.memory(), "{answer:?}: the memories differ after {stream:?}");
    assert_eq!(index.finish(), other.finish());
    assert_eq!(index.save(), other.save());
    answer
}

/// An open index with one block.
fn begun(nodes: u64, entries: u64) -> Result<Index, Refusal> {
    let mut index = Index::new(nodes, entries)?;
    index.record(Kind::Memory, 7, 1, 9, b"x")?;
    Ok(index)
}

fn finished() -> Result<Index, Refusal> {
    let mut index = begun(100, 100)?;
    index.finish()?;
    Ok(index)
}

#[test]
fn blocks_of_every_kind_are_counted() -> Done {
    let mut index = begun(100, 100)?;
    let mut expected = index.clone();
    let mut stream = Vec::new();
    for kind in [0, 2, 1, 3, 4] {
        // but for the Memory block's, all that a block can be refused for
        let (address, created_at, data) = if kind == 1 { (100, 1, vec![b'a'; 3]) } else { (u64::MAX, 9, vec![b'b'; 4097]) };
        stream.extend(block_bytes(kind, [address, data.len() as u64, created_at, 5], &data));
    }
    assert_eq!(index.record_stream(&stream), Ok(5));
    expected.record(Kind::Memory, 100, 1, 5, b"aaa")?;
    assert_eq!(index.memory(), expected.memory());
    Ok(())
}

#[test]
fn the_rule_and_the_phase_come_first() -> Done {
    let sound = memory_block(100, 10, 50, b"abc");
    let (open, finished, broken) = (begun(100, 100)?.into_memory(), finished()?.into_memory(), vec![0; 100]);
    for stream in [&[], &sound[..], &sound[..20], &[5]] {
        for (memory, number) in [(&finished, 2), (&broken, 1)] {
            let mut index = Index::held_in(memory.clone());
            assert_eq!(index.record_stream(stream), stopped(0, number));
            assert_eq!(index.memory(), memory);
        }
    }
    let mut index = Index::held_in(open.clone());
    assert_eq!(index.record_stream(&[]), Ok(0));
    assert_eq!(index.memory(), open);
    Ok(())
}

/// Two blocks, a faulty one, and one more: the first two are kept.
fn stops_behind_two(number: u64, nodes: u64, entries: u64, faulty: &[u8]) -> Done {
    let mut index = Index::new(nodes, entries)?;
    let mut expected = index.clone();
    let stream = [&memory_block(100, 10, 50, b"abc")[..], &memory_block(103, 10, 30, b"de"), faulty, &memory_block(103, 30, 50, b"de")].concat();
    assert_eq!(index.record_stream(&stream), stopped(2, number), "{faulty:?}");
    expected.record(Kind::Memory, 100, 10, 50, b"abc")?;
    expected.record(Kind::Memory, 103, 10, 30, b"de")?;
    assert_eq!(index.memory(), expected.memory(), "after refusal {number}");
    // what stands behind the refusal would have been taken
    assert_eq!(index.record_stream(&memory_block(103, 30, 50, b"de")), Ok(1));
    index.finish()?;
    assert_eq!(index.search(b"cd")?.len(), 1);
    Ok(())
}

#[test]
fn every_refusal_in_the_middle() -> Done {
    let long = [b'x'; 4097];
    stops_behind_two(14, 100, 100, &block_bytes(5, [0, 1, 1, 2], b"x"))?;
    stops_behind_two(14, 100, 100, &block_bytes(255, [0, 1, 1, 2], b"x"))?;
    // the data are to go on behind the stream's end
    stops_behind_two(13, 100, 100, &block_bytes(1, [0, 37, 1, 2], b"x"))?;
    stops_behind_two(13, 100, 100, &block_bytes(4, [0, u64::MAX, 1, 2], b""))?;
    stops_behind_two(4, 40_000, 10_000, &memory_block(0, 1, 2, &long))?;
    stops_behind_two(5, 100, 100, &memory_block(0, 2, 2, b"x"))?;
    stops_behind_two(6, 100, 100, &memory_block(u64::MAX, 1, 2, b"x"))?;
    // a byte of the first block at its last tick, and one of the second
    stops_behind_two(18, 100, 100, &memory_block(99, 49, 60, b"xy"))?;
    stops_behind_two(18, 100, 100, &memory_block(104, 1, 11, b"x"))?;
    // the four blocks charge 6 + 3 + 6 + 3 nodes and 6 + 4 + 6 + 4 entries, the root one node
    stops_behind_two(7, 15, 100, &memory_block(0, 1, 2, b"xyz"))?;
    stops_behind_two(8, 100, 15, &memory_block(0, 1, 2, b"xyz"))
}

#[test]
fn the_first_of_several_faults_decides() -> Done {
    let long = [b'x'; 4097];
    let mut index = begun(2, 2)?;
    let before = index.memory().to_vec();
    let faulty = [
        (14, vec![5]),
        (14, block_bytes(5, [u64::MAX, u64::MAX, 2, 2], b"")),
        (13, vec![1]),
        (13, vec![0; 32]),
        (13, block_bytes(1, [u64::MAX, 4098, 2, 2], &long)),
        (4, memory_block(u64::MAX, 2, 2, &long)),
        (5, memory_block(u64::MAX, 2, 2, b"xyz")),
        (6, memory_block(u64::MAX - 2, 1, 2, b"xyz")),
        (18, memory_block(5, 8, 20, b"xyz")),
        (7, memory_block(5, 9, 20, b"xyz")),
        (7, memory_block(0, 1, 2, b"xyz")),
    ];
    for (number, block) in faulty {
        assert_eq!(index.record_stream(&block), stopped(0, number), "{block:?}");
        assert_eq!(index.memory(), before);
    }
    // an empty block charges no node
    assert_eq!(index.record_stream(&memory_block(0, 1, 2, b"")), stopped(0, 8));
    Ok(())
}

#[test]
fn lengths_past_the_end() -> Done {
    let memory = begun(100, 100)?.into_memory();
    let sound = memory_block(100, 10, 50, b"abc");
    for length in [4, 5, 4096, 4097, 1 << 32, 1 << 63, u64::MAX - 70, u64::MAX - 69, u64::MAX - 33, u64::MAX - 32, u64::MAX] {
        for kind in 0..5 {
            let stream = [&sound[..], &block_bytes(kind, [103, length, 1, 2], b"abc")].concat();
            assert_eq!(compared(&memory, &stream), stopped(1, 13), "length {length}");
        }
    }
    let stream = [&sound[..], &block_bytes(1, [103, 3, 1, 2], b"abc")].concat();
    assert_eq!(compared(&memory, &stream), Ok(2));
    Ok(())
}

#[test]
fn cut_at_every_byte() -> Done {
    let memory = begun(100, 100)?.into_memory();
    let (one, two) = (memory_block(100, 10, 50, b"abc"), memory_block(103, 10, 30, b"de"));
    let stream = [&one[..], &two[..]].concat();
    for n in 0..=stream.len() {
        let expected = match n {
            0 => Ok(0),
            36 => Ok(1),
            71 => Ok(2),
            _ => stopped((n > 36) as u64, 13),
        };
        assert_eq!(compared(&memory, &stream[..n]), expected, "{n} bytes");
    }
    assert_eq!(stream.len(), 71);
    Ok(())
}

#[test]
fn a_stopped_stream_says_so() {
    let text = stopped(2, 13).unwrap_err().to_string();
    assert_eq!(text, "stopped after 2 blocks, refused 13: stream or image ends inside a field");
}

// ── random streams ──

/// Blocks that would be taken, mostly: some are of other kinds, some have a fault.
fn some_blocks(r: &mut Random) -> Vec<u8> {
    let mut stream = Vec::new();
    for _ in 0..r.below(7) {
        let kind = r.pick(&[1, 1, 1, 1, 1, 1, 0, 2, 3, 4]);
        let n = r.pick(&[0, 1, 1, 2, 2, 3, 5, 16, 17, 33]);
        let n = if r.below(60) == 0 { 4097 } else { n };
        let data = r.bytes(n, 3);
        let created_at = r.below(5);
        let destroyed_at = if r.below(15) == 0 { r.below(5) } else { 5 + r.below(5) };
        let address = if r.below(15) == 0 { number(r) } else { r.below(300) };
        stream.extend(block_bytes(kind, [address, n as u64, created_at, destroyed_at], &data));
    }
    stream
}

/// Noise that looks like blocks: small numbers, so that lengths and kinds are often sound.
fn noise(r: &mut Random) -> Vec<u8> {
    let mut stream = Vec::new();
    for _ in 0..r.below(4) {
        let n = r.below(12);
        let length = if r.below(3) > 0 { n } else { number(r) };
        let kind = r.pick(&[0, 1, 1, 1, 2, 3, 4, 5]);
        stream.extend(block_bytes(kind, [number(r), length, number(r), number(r)], &r.bytes(n as usize, 256)));
    }
    let n = r.below(20) as usize;
    stream.extend(r.bytes(n, 6));
    stream
}

/// A memory: open and with some blocks, mostly; now and then finished or broken.
fn some_memory(r: &mut Random) -> Vec<u8> {
    let mut index = Index::new(1 + r.below(150), 1 + r.below(100)).unwrap();
    for _ in 0..r.below(4) {
        // a refused one is left out
        let _ = index.record(Kind::Memory, r.below(300), 1, 2 + r.below(9), &r.bytes(2, 3));
    }
    let state = r.below(12);
    if state == 0 {
        index.finish().unwrap();
    }
    let mut memory = index.into_memory();
    if state == 1 {
        memory[r.below(64) as usize] ^= 1 << r.below(8);
    }
    memory
}

/// Compares many streams; each of these numbers must have been answered, and streams must have stopped behind blocks.
fn many(seed: u64, numbers: &[u64], mut make: impl FnMut(&mut Random) -> Vec<u8>) {
    let mut r = Random(seed);
    let mut answers: BTreeMap<u64, u64> = BTreeMap::new();
    let mut kept = 0;
    for _ in 0..20_000 {
        let memory = some_memory(&mut r);
        let answer = compared(&memory, &make(&mut r));
        let number = answer.map_or_else(|s| s.refusal.number(), |_| 0);
        *answers.entry(number).or_default() += 1;
        kept += answer.is_err_and(|s| s.taken > 0) as u64;
    }
    assert_eq!(answers.keys().copied().collect::<Vec<_>>(), numbers, "{answers:?}");
    assert!(kept > 1000, "{kept} streams were stopped behind a block");
}

#[test]
fn sound_streams() {
    many(21, &[0, 1, 2, 4, 5, 6, 7, 8, 18], some_blocks);
}

#[test]
fn damaged_streams() {
    many(22, &[0, 1, 2, 4, 5, 6, 7, 8, 13, 14, 18], |r| {
        let mut stream = some_blocks(r);
        for _ in 0..1 + r.below(3) {
            // the first block's kind and fields
            damage(&mut stream, 33, r);
        }
        stream
    });
}

#[test]
fn hostile_streams() {
    many(23, &[0, 1, 2, 5, 6, 7, 8, 13, 14, 18], noise);
}
