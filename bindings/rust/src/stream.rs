//! Blocks as they stand in a stream.
use crate::calls::helmapricot_read_block;
use crate::refusal::answer;
use crate::Refusal;

/// A block of a stream. Its data are the part of the stream that they are.
#[derive(Clone, Copy, Debug, PartialEq, Eq)]
pub struct Block<'a> {
    pub kind: u64,
    pub address: u64,
    pub created_at: u64,
    pub destroyed_at: u64,
    pub data: &'a [u8],
}

/// The blocks of a stream, one after the other. The first faulty one gives its refusal and is the last.
#[derive(Clone, Debug)]
pub struct Blocks<'a> {
    stream: &'a [u8],
    at: usize,
    ended: bool,
}

/// The blocks of a stream: kind (1 byte), address, length, created_at, destroyed_at (8 each, lowest byte first), data.
pub fn blocks(stream: &[u8]) -> Blocks<'_> {
    Blocks { stream, at: 0, ended: false }
}

/// The block at a cursor and the cursor behind it; none at the stream's end.
pub fn read_block(stream: &[u8], at: usize) -> Result<Option<(Block<'_>, usize)>, Refusal> {
    let mut fields = [0u64; 7];
    answer(unsafe { helmapricot_read_block(stream.as_ptr(), stream.len(), at, fields.as_mut_ptr()) })?;
    let [present, kind, address, length, created_at, destroyed_at, next] = fields;
    if present == 0 {
        return Ok(None);
    }
    let next = next as usize;
    let data = &stream[next - length as usize..next];
    Ok(Some((Block { kind, address, created_at, destroyed_at, data }, next)))
}

impl<'a> Iterator for Blocks<'a> {
    type Item = Result<Block<'a>, Refusal>;

    fn next(&mut self) -> Option<Self::Item> {
        if self.ended {
            return None;
        }
        match read_block(self.stream, self.at) {
            Ok(Some((block, next))) => {
                self.at = next;
                Some(Ok(block))
            }
            Ok(None) => {
                self.ended = true;
                None
            }
            Err(refusal) => {
                self.ended = true;
                Some(Err(refusal))
            }
        }
    }
}

impl std::iter::FusedIterator for Blocks<'_> {}
