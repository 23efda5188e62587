//! The published index, given the Memory blocks that were taken.
use crate::index::string_index::{SpacetimeLocation, StringIndex};
use crate::index::{Index, Serializable, SpacetimeBlock};
use crate::recording::{Block, Location};
use crate::sink::Sink;
use dataflow::prelude::SpaceKind;

pub struct Published {
    index: StringIndex<Sink>,
    sink: Sink,
}

fn block(b: &Block) -> SpacetimeBlock {
    let kinds = [SpaceKind::Constant, SpaceKind::Memory, SpaceKind::Register, SpaceKind::Unique, SpaceKind::Other];
    SpacetimeBlock {
        space: kinds[b.kind as usize],
        address: b.at.address,
        len: b.bytes.len(),
        created_at: b.at.created,
        destroyed_at: b.at.destroyed,
        data: b.bytes.clone(),
    }
}

fn locations(rows: Vec<SpacetimeLocation>) -> Vec<Location> {
    rows.iter().map(|r| Location::new(r.address, r.created_at, r.destroyed_at)).collect()
}

impl Published {
    /// Recorded and finalized.
    pub fn of(blocks: &[Block]) -> Self {
        let sink = Sink::default();
        let mut index = StringIndex::new(sink.clone());
        blocks.iter().for_each(|b| index.record(block(b)));
        index.finalize();
        Self { index, sink }
    }

    pub fn rows(&self, q: &[u8]) -> Vec<Location> {
        locations(self.index.search(q))
    }

    pub fn image(&mut self) -> Vec<u8> {
        self.index.save().unwrap();
        self.sink.take()
    }
}

/// An index that the Rust read from an image.
pub struct Read(StringIndex<()>);

impl Read {
    pub fn of(image: &[u8]) -> Self {
        Self(StringIndex::deserialize(image))
    }

    pub fn rows(&self, q: &[u8]) -> Vec<Location> {
        locations(self.0.search(q))
    }
}

/// Blocks as the Rust writes them to a stream.
pub fn stream(blocks: &[Block]) -> Vec<u8> {
    let mut bytes = Vec::new();
    blocks.iter().for_each(|b| block(b).serialize_to(&mut bytes));
    bytes
}

/// The block that the Rust reads at a cursor, and the cursor behind it. It panics where the stream is faulty.
pub fn read_block(stream: &[u8], at: usize) -> (Block, usize) {
    let mut next = at;
    let b = SpacetimeBlock::deserialize(stream, &mut next);
    (Block { kind: b.space as u64, at: Location::new(b.address, b.created_at, b.destroyed_at), bytes: b.data }, next)
}
