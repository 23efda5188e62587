//! Refusal 18: no byte address has two blocks at one tick, in what is recorded, in a stream, in an image, or in a lent memory.
mod block_bytes;
mod byte_image;
use block_bytes::block_bytes;
use byte_image::byte_image;
use helmapricot::{Index, Kind, Refusal, Row, Stopped};

type Done = Result<(), Refusal>;

fn memory_block(address: u64, created_at: u64, destroyed_at: u64, data: &[u8]) -> Vec<u8> {
    block_bytes(1, [address, data.len() as u64, created_at, destroyed_at], data)
}

/// An open index with these bytes at 100, from tick 10 to 14.
fn holding(data: &[u8]) -> Result<Index, Refusal> {
    let mut index = Index::new(2000, 500)?;
    index.record(Kind::Memory, 100, 10, 14, data)?;
    Ok(index)
}

/// The answer to a block, on a copy; one that is refused leaves all as it was.
fn recorded(index: &Index, address: u64, created_at: u64, destroyed_at: u64, data: &[u8]) -> Result<(), Refusal> {
    let mut copy = index.clone();
    let answer = copy.record(Kind::Memory, address, created_at, destroyed_at, data);
    let mut by_stream = index.clone();
    let stream = memory_block(address, created_at, destroyed_at, data);
    assert_eq!(by_stream.record_stream(&stream).map_err(|s| s.refusal), answer.map(|_| 1));
    assert_eq!(copy.memory(), by_stream.memory());
    assert!(answer.is_ok() || copy.memory() == index.memory());
    answer
}

/// Each block of up to five bytes around three that are held, at every life around theirs, judged address by address and tick by tick.
#[test]
fn every_place_and_life_around_a_block() -> Done {
    let index = holding(b"abc")?;
    let (mut taken, mut refused) = (0, 0);
    for (address, n) in (94..105).flat_map(|a| (0..6).map(move |n| (a, n))) {
        for (created_at, destroyed_at) in (8..16).flat_map(|c| (c + 1..17).map(move |d| (c, d))) {
            let shares = (address..address + n).any(|a| (100..103).contains(&a)) && (created_at..destroyed_at).any(|t| (10..14).contains(&t));
            let answer = recorded(&index, address, created_at, destroyed_at, &b"abcde"[..n as usize]);
            assert_eq!(answer, if shares { Err(Refusal::Conflict) } else { Ok(()) }, "{n} bytes at {address}, {created_at} to {destroyed_at}");
            *(if shares { &mut refused } else { &mut taken }) += 1;
        }
    }
    assert_eq!((taken, refused), (1626, 750));
    Ok(())
}

/// Where and when a block of so many bytes stands.
#[derive(Clone, Copy)]
struct Place {
    address: u64,
    size: u64,
    created_at: u64,
    destroyed_at: u64,
}

impl Place {
    fn shares_with(self, other: Place) -> bool {
        let bytes = |p: Place| p.address..p.address + p.size;
        let ticks = |p: Place| p.created_at..p.destroyed_at;
        bytes(self).any(|a| bytes(other).contains(&a)) && ticks(self).any(|t| ticks(other).contains(&t))
    }

    /// The index with a block there, and all that is held then.
    fn taken(self, index: &Index, held: &[Place]) -> Option<(Index, Vec<Place>)> {
        let mut copy = index.clone();
        let answer = copy.record(Kind::Memory, self.address, self.created_at, self.destroyed_at, &b"abc"[..self.size as usize]);
        if held.iter().any(|p| self.shares_with(*p)) {
            assert_eq!(answer, Err(Refusal::Conflict));
            assert!(copy.memory() == index.memory());
            return None;
        }
        assert_eq!(answer, Ok(()));
        Some((copy, held.iter().copied().chain([self]).collect()))
    }
}

/// Each index with a block at each of these places, where it is taken.
fn all_taken<'a>(indexes: &'a [(Index, Vec<Place>)], places: &'a [Place]) -> impl Iterator<Item = (Index, Vec<Place>)> + 'a {
    indexes.iter().flat_map(move |(index, held)| places.iter().filter_map(move |p| p.taken(index, held)))
}

/// All lists of three blocks of up to three bytes at addresses 0 to 3, within ticks 0 to 3, into an index that three of them can fill.
#[test]
fn every_list_of_three_blocks() -> Done {
    let lives = [(0, 1), (0, 2), (0, 3), (1, 2), (1, 3), (2, 3)];
    let places: Vec<Place> = (0..4)
        .flat_map(|address| (0..4).map(move |size| (address, size)))
        .flat_map(|(address, size)| lives.map(|(created_at, destroyed_at)| Place { address, size, created_at, destroyed_at }))
        .collect();
    let none = [(Index::new(19, 18)?, vec![])];
    let one: Vec<_> = all_taken(&none, &places).collect();
    let two: Vec<_> = all_taken(&one, &places).collect();
    let three = all_taken(&two, &places).count();
    assert_eq!((places.len(), two.len(), three), (96, 7032, 433_620));
    Ok(())
}

#[test]
fn each_byte_of_a_long_block() -> Done {
    let data: Vec<u8> = (0..40).collect();
    let index = holding(&data)?;
    for i in 0..40 {
        assert_eq!(recorded(&index, 100 + i, 13, 20, b"x"), Err(Refusal::Conflict));
        assert_eq!(recorded(&index, 100 + i, 14, 20, b"x"), Ok(()));
        assert_eq!(recorded(&index, 100 + i, 1, 10, b"x"), Ok(()));
        // the same byte again is no better
        assert_eq!(recorded(&index, 100 + i, 10, 14, &[i as u8]), Err(Refusal::Conflict));
    }
    // a long block that meets a held byte with its first byte alone, with its last, or with one between
    let index = holding(b"x")?;
    for before in 0..40 {
        assert_eq!(recorded(&index, 100 - before, 1, 20, &data), Err(Refusal::Conflict));
    }
    assert_eq!(recorded(&index, 60, 1, 20, &data), Ok(()));
    assert_eq!(recorded(&index, 101, 1, 20, &data), Ok(()));
    // an empty block shares nothing, inside another or around its address
    assert_eq!(recorded(&holding(&data)?, 120, 1, 20, b""), Ok(()));
    assert_eq!(recorded(&holding(b"")?, 95, 1, 20, &data), Ok(()));
    Ok(())
}

#[test]
fn many_lives_at_one_address() -> Done {
    let mut index = Index::new(2000, 500)?;
    // in no order of ticks: 0-2, 3-5, 6-8 and so on, each followed by a tick without
    for k in (0..60).map(|k| k * 37 % 60) {
        index.record(Kind::Memory, 5, 3 * k, 3 * k + 2, b"ab")?;
    }
    for t in 0..180 {
        let free = t % 3 == 2;
        assert_eq!(recorded(&index, 6, t, t + 1, b"x").is_ok(), free, "tick {t}");
        assert_eq!(recorded(&index, 4, t, t + 1, b"xy").is_ok(), free, "tick {t}");
        assert_eq!(recorded(&index, 4, t, t + 1, b"x"), Ok(()));
        assert_eq!(recorded(&index, 7, t, t + 1, b"x"), Ok(()));
    }
    index.finish()?;
    assert_eq!(index.search(b"ab")?.len(), 60);
    Ok(())
}

#[test]
fn other_kinds_never_meet_it() -> Done {
    let mut index = holding(b"abc")?;
    let before = index.memory().to_vec();
    for kind in [Kind::Constant, Kind::Register, Kind::Unique, Kind::Other] {
        assert_eq!(index.record(kind, 100, 10, 14, b"abc"), Ok(()));
    }
    assert_eq!(index.memory(), before);
    index.finish()?;
    assert_eq!(index.record(Kind::Memory, 100, 10, 14, b"abc"), Err(Refusal::RecordAfterFinish));
    Ok(())
}

#[test]
fn behind_6_and_before_7() -> Done {
    let top = u64::MAX - 2;
    // no node and no entry is left
    let mut index = Index::new(4, 4)?;
    index.record(Kind::Memory, top, 1, 9, b"ab")?;
    assert_eq!(recorded(&index, top - 4095, 1, 9, &[b'a'; 4097]), Err(Refusal::DataTooLong));
    assert_eq!(recorded(&index, top, 5, 5, b"abc"), Err(Refusal::NoLife));
    assert_eq!(recorded(&index, top, 1, 9, b"abc"), Err(Refusal::AddressTooHigh));
    assert_eq!(recorded(&index, top + 1, 1, 9, b"b"), Err(Refusal::Conflict));
    assert_eq!(recorded(&index, top + 1, 9, 10, b"b"), Err(Refusal::TooManyNodes));
    assert_eq!(recorded(&index, top + 1, 1, 9, b""), Err(Refusal::TooManyEntries));
    assert_eq!(index.record(5u64, top, 1, 9, b"ab"), Err(Refusal::UnknownKind));
    Ok(())
}

#[test]
fn in_the_middle_of_a_stream() -> Done {
    let mut index = holding(b"abc")?;
    let mut expected = index.clone();
    let stream = [
        memory_block(103, 10, 14, b"de"),
        block_bytes(4, [100, 3, 10, 14], b"abc"),
        memory_block(100, 14, 15, b"abc"),
        // it meets the first block of the stream
        memory_block(104, 13, 20, b"f"),
        memory_block(200, 1, 2, b"g"),
    ]
    .concat();
    assert_eq!(index.record_stream(&stream), Err(Stopped { taken: 3, refusal: Refusal::Conflict }));
    expected.record(Kind::Memory, 103, 10, 14, b"de")?;
    expected.record(Kind::Memory, 100, 14, 15, b"abc")?;
    assert_eq!(index.memory(), expected.memory());
    index.finish()?;
    assert_eq!(index.search(b"abc")?, [Row { address: 100, created: 10, destroyed: 15 }]);
    assert_eq!(index.search(b"f")?, []);
    Ok(())
}

// ── images ──

/// Two lives of a byte that touch, and the same with one tick in common: images of the same size, 2 nodes and 4 entries.
fn apart() -> Vec<u8> {
    byte_image(&[(b'a', &[[0, 1, 3], [0, 3, 4]])])
}

fn shared() -> Vec<u8> {
    byte_image(&[(b'a', &[[0, 1, 3], [0, 2, 4]])])
}

/// The answer of loading, on a copy; an image that is refused leaves all as it was.
fn loaded(index: &Index, image: &[u8]) -> Result<(), Refusal> {
    let mut copy = index.clone();
    let answer = copy.load(image);
    assert!(answer.is_ok() || copy.memory() == index.memory());
    answer
}

#[test]
fn images_made_by_hand_are_right() -> Done {
    let mut index = Index::new(10, 10)?;
    index.record(Kind::Memory, 0, 3, 4, b"a")?;
    index.record(Kind::Memory, 0, 1, 3, b"a")?;
    index.finish()?;
    assert_eq!(index.save()?, apart());
    assert_eq!((apart().len(), shared().len()), (172, 172));
    Ok(())
}

#[test]
fn an_image_with_two_pieces_at_one_address_and_tick() -> Done {
    let open = holding(b"abc")?;
    let mut finished = open.clone();
    finished.finish()?;
    for index in [open, finished] {
        assert_eq!(loaded(&index, &apart()), Ok(()));
        assert_eq!(loaded(&index, &shared()), Err(Refusal::Conflict));
        // two strings at one location, at one address, and the same string in another's life
        assert_eq!(loaded(&index, &byte_image(&[(b'a', &[[0, 1, 3]]), (b'b', &[[0, 1, 3]])])), Err(Refusal::Conflict));
        assert_eq!(loaded(&index, &byte_image(&[(b'a', &[[0, 1, 3]]), (b'b', &[[0, 2, 4]])])), Err(Refusal::Conflict));
        assert_eq!(loaded(&index, &byte_image(&[(b'a', &[[0, 1, 9], [0, 2, 4]])])), Err(Refusal::Conflict));
        assert_eq!(loaded(&index, &byte_image(&[(b'a', &[[0, 1, 9], [1, 2, 4]])])), Ok(()));
    }
    Ok(())
}

/// A piece inside another: saved at ticks of its own, which are then replaced by those of the other wherever they stand.
#[test]
fn an_image_with_a_piece_inside_another() -> Done {
    let mut index = Index::new(10, 20)?;
    index.record(Kind::Memory, 0, 1, 4, b"ab")?;
    index.record(Kind::Memory, 1, 4, 6, b"b")?;
    index.finish()?;
    let mut image = index.save()?;
    let [from, to] = [[1u64, 4, 6], [1, 3, 6]].map(|l| l.map(u64::to_le_bytes).concat());
    let places: Vec<usize> = (0..image.len() - 23).filter(|i| image[*i..].starts_with(&from)).collect();
    assert_eq!(places.len(), 2, "the root's suffixes and the node's chunks");
    places.into_iter().for_each(|i| image[i..i + 24].copy_from_slice(&to));
    assert_eq!(loaded(&index, &image), Err(Refusal::Conflict));
    Ok(())
}

#[test]
fn behind_15_and_before_7_in_loading() -> Done {
    // too small for either image
    for (nodes, entries) in [(2, 4), (2, 3), (1, 4), (1, 1)] {
        let index = Index::new(nodes, entries)?;
        let fits = if nodes < 2 { Err(Refusal::TooManyNodes) } else if entries < 4 { Err(Refusal::TooManyEntries) } else { Ok(()) };
        assert_eq!(loaded(&index, &apart()), fits);
        assert_eq!(loaded(&index, &shared()), Err(Refusal::Conflict));
        assert_eq!(loaded(&index, &[shared(), vec![0]].concat()), Err(Refusal::ImageBroken));
        assert_eq!(loaded(&index, &shared()[..171]), Err(Refusal::CutShort));
        // an end that is not in the root's list
        let mut broken = shared();
        broken[172 - 24] = 5;
        assert_eq!(loaded(&index, &broken), Err(Refusal::ImageBroken));
        // lists out of order
        assert_eq!(loaded(&index, &byte_image(&[(b'a', &[[0, 2, 4], [0, 1, 3]])])), Err(Refusal::ImageBroken));
        let mut kind = shared();
        kind[0] = 4;
        assert_eq!(loaded(&index, &kind), Err(Refusal::UnknownKind));
    }
    Ok(())
}

// ── lent memories ──

/// Every call but opening answers 1.
fn breaks_the_rule(memory: &[u8]) {
    let mut index = Index::held_in(memory.to_vec());
    let broken = Refusal::IndexRuleBroken;
    assert_eq!(index.record(Kind::Memory, 900, 1, 2, b"x"), Err(broken));
    assert_eq!(index.record(Kind::Constant, 900, 1, 2, b"x"), Err(broken));
    assert_eq!(index.record_stream(&[]), Err(Stopped { taken: 0, refusal: broken }));
    assert_eq!(index.finish(), Err(broken));
    assert_eq!(index.search(b"a"), Err(broken));
    assert_eq!(index.save(), Err(broken));
    assert_eq!(index.load(&apart()), Err(broken));
    assert_eq!(index.memory(), memory);
}

#[test]
fn a_memory_that_holds_such_an_image() -> Done {
    let mut index = Index::new(2, 4)?;
    index.load(&apart())?;
    let mut memory = index.into_memory();
    assert_eq!(memory[64..64 + 172], apart());
    memory[64..64 + 172].copy_from_slice(&shared());
    breaks_the_rule(&memory);
    Ok(())
}

/// The lives of two pieces in the log of an open memory that come to share a tick.
#[test]
fn a_memory_that_holds_such_a_log() -> Done {
    let mut index = Index::new(10, 10)?;
    index.record(Kind::Memory, 0, 1, 3, b"a")?;
    index.record(Kind::Memory, 0, 3, 5, b"a")?;
    let mut memory = index.into_memory();
    // a piece has 48 bytes: its length, its bytes, address, created, destroyed
    let created = 64 + 48 + 32;
    assert_eq!(memory[created..created + 8], 3u64.to_le_bytes());
    memory[created] = 2;
    breaks_the_rule(&memory);
    memory[created] = 4;
    assert_eq!(Index::held_in(memory).finish(), Ok(()));
    Ok(())
}

/// Behind the log stands the order of its pieces, 16 bytes for each that has a byte; what is behind that is not looked at.
#[test]
fn the_order_of_an_open_memory() -> Done {
    let (nodes, entries) = (50, 40);
    let mut index = Index::new(nodes, entries)?;
    for (address, created_at, destroyed_at, data) in [(9, 1, 5, &b"abc"[..]), (3, 2, 4, b""), (3, 1, 5, b"de"), (9, 5, 7, b"f"), (3, 5, 6, b"g")] {
        index.record(Kind::Memory, address, created_at, destroyed_at, data)?;
    }
    let work = 64 + 64 * nodes as usize + 48 * entries as usize;
    // number and end: de, g, abc, f
    let order: Vec<u8> = [2u64, 5, 4, 6, 0, 5, 3, 7].iter().flat_map(|n| n.to_le_bytes()).collect();
    let memory = index.into_memory();
    assert_eq!(memory[work..work + 64], order);
    for bit in 0..8 * 64 {
        let mut changed = memory.clone();
        changed[work + bit / 8] ^= 1 << (bit % 8);
        breaks_the_rule(&changed);
    }
    // two entries exchanged
    let mut changed = memory.clone();
    changed[work..work + 32].rotate_left(16);
    breaks_the_rule(&changed);
    let mut behind = memory;
    behind[work + 64..].fill(0xee);
    assert_eq!(Index::held_in(behind).record(Kind::Memory, 0, 1, 2, b"x"), Ok(()));
    Ok(())
}
