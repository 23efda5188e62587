//! Saving and loading, borrowed memory, and streams.
mod block_bytes;
mod random;
use block_bytes::block_bytes;
use helmapricot::{blocks, read_block, Index, Kind, Refusal, Row};
use random::Random;

type Done = Result<(), Refusal>;

/// Some blocks side by side, finished.
fn recording(seed: u64) -> Result<Index, Refusal> {
    let mut r = Random(seed);
    let mut index = Index::new(2000, 500)?;
    let letters = r.pick(&[1, 2, 9, 97, 256]);
    let mut address = 0;
    for _ in 0..r.below(30) {
        let n = r.pick(&[0, 1, 2, 3, 7, 16, 17]);
        let data = r.bytes(n, letters);
        match index.record(Kind::Memory, address, r.below(5), 5 + r.below(5), &data) {
            Ok(()) | Err(Refusal::TooManyNodes | Refusal::TooManyEntries) => {}
            Err(other) => return Err(other),
        }
        address += n as u64 + r.below(2);
    }
    index.finish()?;
    Ok(index)
}

#[test]
fn what_is_loaded_is_what_was_saved() -> Done {
    for seed in 0..300 {
        let index = recording(seed)?;
        let image = index.save()?;
        // another capacity, and something else held before
        let mut other = Index::new(3000, 600)?;
        other.record(Kind::Memory, 9, 1, 2, b"before")?;
        other.load(&image)?;
        assert_eq!(other.save()?, image);
        let mut r = Random(seed);
        for n in [1, 1, 2, 3, 20] {
            let query = r.bytes(n, 2);
            assert_eq!(other.search(&query)?, index.search(&query)?);
        }
        assert_eq!(other.record(Kind::Memory, 9, 1, 2, b"after"), Err(Refusal::RecordAfterFinish));
    }
    Ok(())
}

#[test]
fn an_image_that_is_cut_or_lengthened_is_refused() -> Done {
    let image = recording(7)?.save()?;
    let mut other = Index::new(2000, 500)?;
    let before = other.memory().to_vec();
    for n in 0..image.len() {
        assert!(matches!(other.load(&image[..n]), Err(Refusal::CutShort | Refusal::ImageBroken)));
        assert_eq!(other.memory(), before);
    }
    assert_eq!(other.load(&[&image[..], &[0]].concat()), Err(Refusal::ImageBroken));
    other.load(&image)
}

#[test]
fn lent_buffers() -> Done {
    let mut memory = vec![0xee; helmapricot::needed(10, 10).unwrap() + 7];
    let mut index = Index::open_in(&mut memory[..], 10, 10)?;
    index.record(Kind::Memory, 1, 1, 9, b"aba")?;
    index.finish()?;
    let mut rows = [Row::default(); 2];
    assert_eq!(index.search_in(b"a", &mut [0; 48], &mut rows), Ok(2));
    assert_eq!(index.search_in(b"a", &mut [0; 47], &mut rows), Err(Refusal::ScratchTooSmall));
    assert_eq!(index.search_in(b"a", &mut [0; 48], &mut rows[..1]), Err(Refusal::TooManyRows));
    let image = index.save()?;
    assert_eq!(index.save_in(&mut vec![0; image.len() - 1]), Err(Refusal::SaveBufferTooShort));
    let held = memory.clone();
    assert_eq!(Index::held_in(&held[..]).search(b"ba")?.len(), 1);
    assert_eq!(held[held.len() - 7..], [0xee; 7]);
    memory[70] ^= 1;
    assert_eq!(Index::held_in(memory).search(b"ba"), Err(Refusal::IndexRuleBroken));
    Ok(())
}

#[test]
fn a_refused_search_leaves_rows_and_scratch() -> Done {
    let untouched = Row { address: u64::MAX, created: u64::MAX, destroyed: u64::MAX };
    let (mut scratch, mut rows) = ([0xee; 48], [untouched; 2]);
    let mut index = Index::new(10, 10)?;
    index.record(Kind::Memory, 1, 1, 9, b"aba")?;
    assert_eq!(index.search_in(b"a", &mut scratch, &mut rows), Err(Refusal::BeforeFinish));
    index.finish()?;
    assert_eq!(index.search_in(&[b'a'; 257], &mut scratch, &mut rows), Err(Refusal::QueryTooLong));
    assert_eq!(Index::held_in([0; 100]).search_in(b"a", &mut scratch, &mut rows), Err(Refusal::IndexRuleBroken));
    assert_eq!(scratch, [0xee; 48]);
    assert_eq!(index.search_in(b"a", &mut scratch, &mut rows[..1]), Err(Refusal::TooManyRows));
    assert_eq!(index.search_in(b"a", &mut scratch[..47], &mut rows), Err(Refusal::ScratchTooSmall));
    assert_eq!(rows, [untouched; 2]);
    Ok(())
}

#[test]
fn rows_in_memory() -> Done {
    let mut index = Index::new(10, 10)?;
    index.record(Kind::Memory, 0x0102030405060708, 0x1112131415161718, 0x2122232425262728, b"a")?;
    index.record(Kind::Memory, 0x0102030405060709, 5, 6, b"a")?;
    index.finish()?;
    let untouched = Row { address: u64::MAX, created: u64::MAX, destroyed: u64::MAX };
    let mut rows = [untouched; 4];
    assert_eq!(index.search_in(b"a", &mut [0; 48], &mut rows), Ok(2));
    assert_eq!(rows[0], Row { address: 0x0102030405060708, created: 0x1112131415161718, destroyed: 0x2122232425262728 });
    assert_eq!(rows[1], Row { address: 0x0102030405060709, created: 5, destroyed: 6 });
    assert_eq!(rows[2..], [untouched; 2]);
    // a row is three numbers of eight bytes, lowest byte first, and the next one stands right behind
    let bytes: [u8; 96] = unsafe { std::mem::transmute(rows) };
    let numbers = [0x0102030405060708, 0x1112131415161718, 0x2122232425262728, 0x0102030405060709, 5, 6];
    let expected: Vec<u8> = numbers.into_iter().chain([u64::MAX; 6]).flat_map(u64::to_le_bytes).collect();
    assert_eq!(bytes[..], expected);
    Ok(())
}

#[test]
fn a_stream_of_blocks() -> Done {
    let one = block_bytes(1, [100, 3, 10, 50], b"abc");
    let two = block_bytes(4, [5, 0, 9, 1], b"");
    let stream = [&one[..], &two[..], &block_bytes(1, [103, 2, 10, 30], b"de")[..]].concat();
    let mut index = Index::new(1000, 400)?;
    let mut kinds = Vec::new();
    for block in blocks(&stream) {
        let block = block?;
        kinds.push(block.kind);
        index.record_block(&block)?;
    }
    assert_eq!(kinds, [1, 4, 1]);
    index.finish()?;
    assert_eq!(index.search(b"cd")?.len(), 1);

    let cut: Vec<_> = blocks(&stream[..stream.len() - 1]).collect();
    assert_eq!(cut.len(), 3);
    assert_eq!(cut[2], Err(Refusal::CutShort));
    assert_eq!(blocks(&[5]).collect::<Vec<_>>(), [Err(Refusal::UnknownKind)]);
    assert_eq!(blocks(&block_bytes(1, [0, u64::MAX, 0, 1], b"abc")).next(), Some(Err(Refusal::CutShort)));
    assert_eq!(read_block(&stream, stream.len()), Ok(None));
    assert_eq!(read_block(&stream, stream.len() + 1), Err(Refusal::CutShort));
    assert_eq!(read_block(&stream, usize::MAX), Err(Refusal::CutShort));
    Ok(())
}
