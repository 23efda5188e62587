//! Document 01's recordings to try: 1 to 10, which are proved there, and 11 to 13.
use helmapricot::{Index, Kind, Refusal, Row};

type Done = Result<(), Refusal>;

fn finished(blocks: &[(u64, u64, u64, &[u8])]) -> Result<Index, Refusal> {
    let mut index = Index::new(1000, 400)?;
    for (address, created, destroyed, data) in blocks {
        index.record(Kind::Memory, *address, *created, *destroyed, data)?;
    }
    index.finish()?;
    Ok(index)
}

fn row(address: u64, created: u64, destroyed: u64) -> Row {
    Row { address, created, destroyed }
}

const SAMPLE: [(u64, u64, u64, &[u8]); 3] = [(100, 10, 50, b"abc"), (103, 10, 30, b"de"), (103, 30, 50, b"de")];

#[test]
fn recordings_1_to_4() -> Done {
    let index = finished(&SAMPLE)?;
    assert_eq!(index.search(b"cd")?, [row(102, 10, 50)]);
    assert_eq!(index.search(b"abcde")?, [row(100, 10, 50)]);
    assert_eq!(index.search(b"d")?, [row(103, 10, 50)]);
    assert_eq!(index.search(b"")?, []);
    Ok(())
}

#[test]
fn recording_5_lives_that_only_touch() -> Done {
    assert_eq!(finished(&[(0, 1, 5, b"ab"), (2, 5, 9, b"c")])?.search(b"abc")?, []);
    Ok(())
}

#[test]
fn recording_6_overlapping_places() -> Done {
    assert_eq!(finished(&[(10, 1, 4, b"aaa")])?.search(b"aa")?, [row(10, 1, 4), row(11, 1, 4)]);
    Ok(())
}

#[test]
fn recording_7_a_gap_between_two_lives() -> Done {
    let index = finished(&[(0, 1, 3, b"a"), (0, 5, 7, b"a"), (0, 3, 5, b"b")])?;
    assert_eq!(index.search(b"a")?, [row(0, 1, 3), row(0, 5, 7)]);
    Ok(())
}

#[test]
fn recording_8_over_the_end_of_a_piece() -> Done {
    let data: Vec<u8> = (0..=16).collect();
    assert_eq!(finished(&[(200, 1, 2, &data)])?.search(&[0x0f, 0x10])?, [row(215, 1, 2)]);
    Ok(())
}

#[test]
fn recording_9_an_empty_life() -> Done {
    let mut index = Index::new(1000, 400)?;
    assert_eq!(index.record(Kind::Memory, 0, 5, 5, b"a"), Err(Refusal::NoLife));
    assert_eq!(index.record(Kind::Memory, 0, 5, 6, b"a"), Ok(()));
    Ok(())
}

#[test]
fn recording_10_the_last_address() -> Done {
    let mut index = Index::new(1000, 400)?;
    assert_eq!(index.record(Kind::Memory, u64::MAX - 1, 1, 2, b"a"), Ok(()));
    assert_eq!(index.record(Kind::Memory, u64::MAX, 1, 2, b"a"), Err(Refusal::AddressTooHigh));
    index.finish()?;
    assert_eq!(index.search(b"a")?, [row(u64::MAX - 1, 1, 2)]);
    Ok(())
}

#[test]
fn recording_11_longest_data_and_query() -> Done {
    let mut index = Index::new(50_000, 10_000)?;
    assert_eq!(index.record(Kind::Memory, 0, 1, 2, &[7; 4097]), Err(Refusal::DataTooLong));
    assert_eq!(index.record(Kind::Memory, 0, 1, 2, &[7; 4096]), Ok(()));
    index.finish()?;
    assert_eq!(index.search(&[7; 256])?.len(), 4096 - 255);
    assert_eq!(index.search(&[7; 257]), Err(Refusal::QueryTooLong));
    Ok(())
}

#[test]
fn recording_12_roots_of_each_kind() -> Done {
    for (children, kind) in [(8, 3), (9, 2), (96, 2), (97, 1)] {
        let mut index = Index::new(1000, 400)?;
        for b in 0..children {
            index.record(Kind::Memory, b as u64, 1, 2, &[b])?;
        }
        index.finish()?;
        assert_eq!(index.save()?[0], kind, "{children} children");
        for b in 0..children {
            assert_eq!(index.search(&[b])?, [row(b as u64, 1, 2)]);
        }
        assert_eq!(index.search(&[children])?, []);
        assert_eq!(index.search(&(0..children).collect::<Vec<u8>>())?, [row(0, 1, 2)]);
    }
    Ok(())
}

#[test]
fn recording_13_an_image() -> Done {
    let image = finished(&[(5, 1, 2, b"a")])?.save()?;
    assert_eq!(image.len(), 124);
    assert_eq!(image[57], b'a');
    assert_eq!(image[58..66], 66u64.to_le_bytes());
    assert_eq!(Index::new(1, 1)?.load(&image), Err(Refusal::TooManyNodes));
    assert_eq!(Index::new(2, 1)?.load(&image), Err(Refusal::TooManyEntries));
    assert_eq!(Index::new(2, 2)?.load(&image), Ok(()));
    Ok(())
}

#[test]
fn an_empty_index() -> Done {
    let index = finished(&[])?;
    assert_eq!(index.save()?, [0; 25]);
    assert_eq!(index.search(b"a")?, []);
    Ok(())
}

#[test]
fn the_order_of_calls() -> Done {
    let mut index = Index::new(1000, 400)?;
    assert_eq!(index.search(b"a"), Err(Refusal::BeforeFinish));
    assert_eq!(index.save(), Err(Refusal::BeforeFinish));
    assert_eq!(index.record(5u64, 0, 1, 2, b"a"), Err(Refusal::UnknownKind));
    for kind in [Kind::Constant, Kind::Register, Kind::Unique, Kind::Other] {
        // taken, whatever it is, and without a change
        assert_eq!(index.record(kind, u64::MAX, 9, 1, b"abc"), Ok(()));
    }
    index.finish()?;
    index.finish()?;
    assert_eq!(index.record(Kind::Memory, 0, 1, 2, b"a"), Err(Refusal::RecordAfterFinish));
    assert_eq!(index.save()?, [0; 25]);
    Ok(())
}

#[test]
fn capacities() {
    for (nodes, entries) in [(0, 1), (1, 0), (1_048_577, 1), (1, 1_048_577), (u64::MAX, u64::MAX)] {
        assert_eq!(Index::new(nodes, entries).map(|_| ()), Err(Refusal::CapacityRefused));
    }
    let needed = helmapricot::needed(3, 2).unwrap();
    assert_eq!(needed, 64 + 3 * 64 + 2 * 104);
    assert!(Index::open_in(&mut vec![0; needed - 1][..], 3, 2).is_err());
    assert!(Index::open_in(&mut vec![0; needed][..], 3, 2).is_ok());
}
