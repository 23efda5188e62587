//! What the benchmarks share: blocks from a seed, timings, the published index on blocks, the search without the test of the image.
use crate::bench_parts;
use crate::index::string_index::StringIndex;
use crate::index::{Index, SpacetimeBlock};
use crate::sink::Sink;
use dataflow::prelude::SpaceKind;
use std::time::Instant;

/// Numbers from a seed that is not 0 (xorshift).
pub struct Random(pub u64);

impl Random {
    pub fn next(&mut self) -> u64 {
        self.0 ^= self.0 << 13;
        self.0 ^= self.0 >> 7;
        self.0 ^= self.0 << 17;
        self.0
    }

    pub fn between(&mut self, least: usize, most: usize) -> usize {
        least + self.next() as usize % (most - least + 1)
    }

    pub fn text(&mut self, n: usize) -> Vec<u8> {
        self.text_over(CHARACTERS, n)
    }

    fn text_over(&mut self, characters: &[u8], n: usize) -> Vec<u8> {
        (0..n).map(|_| characters[self.next() as usize % characters.len()]).collect()
    }
}

pub const CHARACTERS: &[u8] = b"0123456789ABCDEFGHIJKLMNOPQRSTUVWXYZ";

pub fn block(address: u64, created_at: u64, destroyed_at: u64, data: Vec<u8>) -> SpacetimeBlock {
    SpacetimeBlock { space: SpaceKind::Memory, address, len: data.len(), created_at, destroyed_at, data }
}

pub fn blocks(n: usize, least: u64, most: u64) -> Vec<SpacetimeBlock> {
    blocks_over(CHARACTERS, n, least, most)
}

pub fn blocks_over(characters: &[u8], n: usize, least: u64, most: u64) -> Vec<SpacetimeBlock> {
    let mut r = Random(0x9e3779b97f4a7c15);
    let mut address = 0;
    let mut made = Vec::new();
    for _ in 0..n {
        let len = (least + r.next() % (most - least + 1)) as usize;
        let data = r.text_over(characters, len);
        made.push(block(address, r.next() % 1000, 1000 + r.next() % 1000, data));
        // now and then blocks stand side by side, so that a query runs over several
        address += len as u64 + if r.next() % 4 == 0 { 16 } else { 0 };
    }
    made
}

pub fn copy(b: &SpacetimeBlock) -> SpacetimeBlock {
    block(b.address, b.created_at, b.destroyed_at, b.data.clone())
}

pub fn middle_of(mut figures: Vec<f64>) -> f64 {
    figures.sort_by(f64::total_cmp);
    figures[figures.len() / 2]
}

/// How long it takes, in microseconds.
pub fn timed<F: FnMut()>(mut f: F) -> f64 {
    let t = Instant::now();
    f();
    t.elapsed().as_secs_f64() * 1e6
}

/// The middle of some timings.
pub fn middle<F: FnMut()>(times: usize, mut f: F) -> f64 {
    middle_of((0..times).map(|_| timed(&mut f)).collect())
}

/// The published index of blocks, and the image that it makes: it has no charges, so that a string can have more lives than can be
/// recorded here.
pub fn published(blocks: &[SpacetimeBlock]) -> (StringIndex<Sink>, Vec<u8>) {
    let sink = Sink::default();
    let mut index = StringIndex::new(sink.clone());
    blocks.iter().for_each(|b| index.record(copy(b)));
    index.finalize();
    index.save().unwrap();
    (index, sink.take())
}

/// The lengths of the queries that are usual, and how many searches of each are timed together.
pub const USUAL: [(usize, usize); 6] = [(1, 400), (4, 400_000), (13, 400_000), (16, 400_000), (64, 40_000), (256, 4_000)];

/// 41 queries of so many bytes, taken from a text.
pub fn queries(text: &[u8], len: usize) -> Vec<&[u8]> {
    let mut r = Random(len as u64 + 77);
    (0..41).map(|_| { let at = r.next() as usize % (text.len() - len); &text[at..at + len] }).collect()
}

/// The bytes of blocks, one block behind the other.
pub fn text_of(blocks: &[SpacetimeBlock]) -> Vec<u8> {
    blocks.iter().flat_map(|b| b.data.iter().copied()).collect()
}

/// So many queries in turn, one behind the other.
pub fn in_turn(queries: &[&[u8]], times: usize) -> Vec<u8> {
    queries.iter().cycle().take(times).flat_map(|q| q.iter().copied()).collect()
}

/// The time of one test of the image and a search for each of the queries, in microseconds. None may be refused.
pub fn searches(image: &[u8], queries: &[u8], len: usize, scratch: &mut [u8]) -> f64 {
    timed(|| { bench_parts::search_image(image, queries, len, scratch, usize::MAX).unwrap(); })
}
