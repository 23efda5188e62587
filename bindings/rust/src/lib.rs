//! Where and when did these bytes stand in a recorded memory?
//!
//! A safe wrapper of the calls in libhelmapricot.a, which are proved to meet documents 01 and 02 for every input.
//!
//! ```text
//! ./archive helmapricot
//! cd bindings/rust && cargo test --offline
//! ```
//!
//! ```
//! use helmapricot::{Index, Kind, Refusal, Row};
//!
//! let mut index = Index::new(1000, 400)?;
//! index.record(Kind::Memory, 100, 10, 50, b"abc")?;
//! index.record(Kind::Memory, 103, 10, 30, b"de")?;
//! index.record(Kind::Memory, 103, 30, 50, b"de")?;
//! index.finish()?;
//! assert_eq!(index.search(b"cd")?, [Row { address: 102, created: 10, destroyed: 50 }]);
//! # Ok::<(), Refusal>(())
//! ```
mod calls;
mod refusal;
mod stream;

pub use refusal::{Refusal, Stopped};
pub use stream::{blocks, read_block, Block, Blocks};

use refusal::answer;

/// The most bytes of a block.
pub const DATA_LIMIT: usize = 4096;
/// The most bytes of a query.
pub const QUERY_LIMIT: usize = 256;
/// The most nodes, and the most entries.
pub const CAPACITY_LIMIT: u64 = 1_048_576;
/// The characters of a donation number, without its check character.
pub const NUMBER_SIZE: usize = 13;
/// The bytes of scratch for each place.
pub const PLACE_SIZE: usize = 24;

/// The kinds of a block. Memory blocks are recorded; the others are taken and change nothing.
#[derive(Clone, Copy, Debug, PartialEq, Eq, PartialOrd, Ord, Hash)]
#[repr(u64)]
pub enum Kind {
    Constant = 0,
    Memory = 1,
    Register = 2,
    Unique = 3,
    Other = 4,
}

impl From<Kind> for u64 {
    fn from(kind: Kind) -> u64 {
        kind as u64
    }
}

/// The query stood at the address at every tick from created to destroyed - 1, and not at the tick before or after.
#[derive(Clone, Copy, Debug, Default, PartialEq, Eq, PartialOrd, Ord, Hash)]
#[repr(C)]
pub struct Row {
    pub address: u64,
    pub created: u64,
    pub destroyed: u64,
}

/// The bytes of memory that a capacity needs, none where they do not fit into a number.
pub fn needed(nodes: u64, entries: u64) -> Option<usize> {
    let sum = nodes.checked_mul(64)?.checked_add(entries.checked_mul(104)?)?.checked_add(64)?;
    usize::try_from(sum).ok()
}

/// The nodes that a block of so many bytes charges. The root charges one more, always.
pub fn nodes_charged(bytes: usize) -> u64 {
    let (whole, rest) = (bytes as u64 / 16, bytes as u64 % 16);
    whole * 136 + rest * (rest + 1) / 2
}

/// The entries that a block of so many bytes charges.
pub fn entries_charged(bytes: usize) -> u64 {
    if bytes == 0 { 1 } else { 2 * bytes as u64 }
}

/// An index in memory of its own (`Vec<u8>`) or in borrowed memory (`&mut [u8]`). The bytes are the index: nothing else is
/// kept. Each call tests first that they hold one. That is no checksum: bytes that were changed into another index are that
/// index.
#[derive(Clone, Debug)]
pub struct Index<M = Vec<u8>> {
    memory: M,
}

impl Index<Vec<u8>> {
    /// An empty index of a capacity, in memory of its own.
    pub fn new(nodes: u64, entries: u64) -> Result<Self, Refusal> {
        // a capacity over the limits is refused before so much memory is asked for
        let within = nodes <= CAPACITY_LIMIT && entries <= CAPACITY_LIMIT;
        let memory = vec![0; needed(nodes, entries).filter(|_| within).unwrap_or(0)];
        Self::open_in(memory, nodes, entries)
    }
}

impl<M: AsRef<[u8]> + AsMut<[u8]>> Index<M> {
    /// Opens an empty index in memory that is handed over or lent, whatever stood there.
    pub fn open_in(mut memory: M, nodes: u64, entries: u64) -> Result<Self, Refusal> {
        let m = memory.as_mut();
        answer(unsafe { calls::helmapricot_open(m.as_mut_ptr(), m.len(), nodes, entries) })?;
        Ok(Self { memory })
    }

    /// Records a block: these bytes, at this address, at the ticks from created_at to destroyed_at - 1. No byte address has two
    /// Memory blocks at one tick: one that would give it a second is refused with [`Refusal::Conflict`]. Blocks that only touch, in
    /// addresses or in ticks, are no conflict, and an empty block never is one.
    pub fn record(&mut self, kind: impl Into<u64>, address: u64, created_at: u64, destroyed_at: u64, data: &[u8]) -> Result<(), Refusal> {
        let m = self.memory.as_mut();
        answer(unsafe { calls::helmapricot_record(m.as_mut_ptr(), m.len(), kind.into(), address, created_at, destroyed_at, data.as_ptr(), data.len()) })
    }

    /// Records a block of a stream.
    pub fn record_block(&mut self, block: &Block<'_>) -> Result<(), Refusal> {
        self.record(block.kind, block.address, block.created_at, block.destroyed_at, block.data)
    }

    /// Records the blocks of a stream and says how many they are. It equals recording them one by one, but the memory is tested
    /// once. It stops at the first refusal and keeps the blocks before it; 1 and 2 come first, even for an empty stream. A block
    /// conflicts with those before it in the stream as with any that are held.
    pub fn record_stream(&mut self, stream: &[u8]) -> Result<u64, Stopped> {
        let m = self.memory.as_mut();
        let mut taken = 0;
        let number = unsafe { calls::helmapricot_record_stream(m.as_mut_ptr(), m.len(), stream.as_ptr(), stream.len(), &mut taken) };
        answer(number).map_err(|refusal| Stopped { taken, refusal })?;
        Ok(taken)
    }

    /// Ends the recording. Finishing again changes nothing.
    pub fn finish(&mut self) -> Result<(), Refusal> {
        let m = self.memory.as_mut();
        answer(unsafe { calls::helmapricot_finish(m.as_mut_ptr(), m.len()) })
    }

    /// Replaces what is held by an image, within the capacity; the index is finished then. An image is refused with
    /// [`Refusal::Conflict`], whatever the capacity, where all is right but that two of its pieces share a byte address and a live tick.
    pub fn load(&mut self, image: &[u8]) -> Result<(), Refusal> {
        let m = self.memory.as_mut();
        answer(unsafe { calls::helmapricot_load(m.as_mut_ptr(), m.len(), image.as_ptr(), image.len()) })
    }
}

impl<M: AsRef<[u8]>> Index<M> {
    /// An index that stands in memory already, as a call left it. The calls find out whether it does.
    pub fn held_in(memory: M) -> Self {
        Self { memory }
    }

    /// The rows of a query, by address and then by first tick. Scratch and row buffer grow as they are needed, so this is
    /// never refused for their sizes.
    pub fn search(&self, query: &[u8]) -> Result<Vec<Row>, Refusal> {
        growing(|scratch, rows| self.search_in(query, scratch, rows))
    }

    /// The rows of a query, written to the front of a lent slice, and how many they are. Scratch needs 24 bytes a place.
    pub fn search_in(&self, query: &[u8], scratch: &mut [u8], rows: &mut [Row]) -> Result<usize, Refusal> {
        self.searched(calls::helmapricot_search, query, scratch, rows)
    }

    /// The rows of a donation number as the desk types it: 13 characters of 0-9 and A-Z, and the check character (ISO/IEC 7064
    /// MOD 37-2, `*` among them). They are those of a search for the 13. One that is mistyped in a place, or with two neighbours
    /// exchanged, never fits its check: [`Refusal::WrongNumber`].
    ///
    /// ```
    /// use helmapricot::{Index, Kind, Refusal, Row};
    ///
    /// let mut index = Index::new(1000, 400)?;
    /// index.record(Kind::Memory, 4096, 10, 50, b"G1234986")?;
    /// index.record(Kind::Memory, 4104, 12, 60, b"54321")?;
    /// index.finish()?;
    /// assert_eq!(index.search_number(b"G123498654321H")?, [Row { address: 4096, created: 12, destroyed: 50 }]);
    /// assert_eq!(index.search_number(b"G123489654321H"), Err(Refusal::WrongNumber));
    /// # Ok::<(), Refusal>(())
    /// ```
    pub fn search_number(&self, typed: &[u8]) -> Result<Vec<Row>, Refusal> {
        growing(|scratch, rows| self.search_number_in(typed, scratch, rows))
    }

    /// The same with lent buffers, as [`Index::search_in`] has them.
    pub fn search_number_in(&self, typed: &[u8], scratch: &mut [u8], rows: &mut [Row]) -> Result<usize, Refusal> {
        self.searched(calls::helmapricot_search_number, typed, scratch, rows)
    }

    fn searched(&self, call: calls::Search, query: &[u8], scratch: &mut [u8], rows: &mut [Row]) -> Result<usize, Refusal> {
        let m = self.memory.as_ref();
        let mut count = 0;
        answer(unsafe { call(m.as_ptr(), m.len(), query.as_ptr(), query.len(), scratch.as_mut_ptr(), scratch.len(), rows.as_mut_ptr(), rows.len(), &mut count) })?;
        Ok(count as usize)
    }

    /// The image of a finished index.
    pub fn save(&self) -> Result<Vec<u8>, Refusal> {
        // an image is shorter than the memory that holds it
        let mut out = vec![0; self.memory.as_ref().len()];
        let size = self.save_in(&mut out)?;
        out.truncate(size);
        Ok(out)
    }

    /// The image, written to the front of a lent slice, and how many bytes it has.
    pub fn save_in(&self, out: &mut [u8]) -> Result<usize, Refusal> {
        let m = self.memory.as_ref();
        let mut size = 0;
        answer(unsafe { calls::helmapricot_save(m.as_ptr(), m.len(), out.as_mut_ptr(), out.len(), &mut size) })?;
        Ok(size as usize)
    }

    /// The bytes that are the index.
    pub fn memory(&self) -> &[u8] {
        self.memory.as_ref()
    }

    pub fn into_memory(self) -> M {
        self.memory
    }
}

/// The rows of a search, with scratch and row buffer made larger until it is not refused for their sizes.
fn growing(search: impl Fn(&mut [u8], &mut [Row]) -> Result<usize, Refusal>) -> Result<Vec<Row>, Refusal> {
    let (mut scratch, mut rows) = (vec![0; 256 * PLACE_SIZE], vec![Row::default(); 64]);
    loop {
        match search(&mut scratch, &mut rows) {
            Err(Refusal::ScratchTooSmall) => scratch = vec![0; 4 * scratch.len()],
            Err(Refusal::TooManyRows) => rows = vec![Row::default(); 4 * rows.len()],
            Err(refusal) => return Err(refusal),
            Ok(count) => {
                rows.truncate(count);
                return Ok(rows);
            }
        }
    }
}
