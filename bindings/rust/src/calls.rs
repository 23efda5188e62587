//! The calls as the archive exports them: a slice is a pointer and a length.
use crate::Row;

/// What both searches are: memory, what is looked for, scratch, rows, and where the count goes.
pub type Search = unsafe extern "C" fn(*const u8, usize, *const u8, usize, *mut u8, usize, *mut Row, usize, *mut u64) -> u64;

extern "C" {
    pub fn helmapricot_open(mem: *mut u8, mem_len: usize, nodes: u64, entries: u64) -> u64;
    pub fn helmapricot_record(mem: *mut u8, mem_len: usize, kind: u64, address: u64, created_at: u64, destroyed_at: u64, data: *const u8, data_len: usize) -> u64;
    pub fn helmapricot_record_stream(mem: *mut u8, mem_len: usize, stream: *const u8, stream_len: usize, taken: *mut u64) -> u64;
    pub fn helmapricot_finish(mem: *mut u8, mem_len: usize) -> u64;
    pub fn helmapricot_search(mem: *const u8, mem_len: usize, query: *const u8, query_len: usize, scratch: *mut u8, scratch_len: usize, rows: *mut Row, rows_len: usize, count: *mut u64) -> u64;
    pub fn helmapricot_search_number(mem: *const u8, mem_len: usize, typed: *const u8, typed_len: usize, scratch: *mut u8, scratch_len: usize, rows: *mut Row, rows_len: usize, count: *mut u64) -> u64;
    pub fn helmapricot_save(mem: *const u8, mem_len: usize, out: *mut u8, out_len: usize, size: *mut u64) -> u64;
    pub fn helmapricot_load(mem: *mut u8, mem_len: usize, image: *const u8, image_len: usize) -> u64;
    pub fn helmapricot_read_block(stream: *const u8, stream_len: usize, at: usize, fields: *mut u64) -> u64;
}

#[cfg(test)]
mod tests {
    //! A refused call leaves the count, the size and the fields as they were; how many blocks were taken is written always.
    use super::*;
    use crate::{Index, Kind, Refusal};

    const BEFORE: u64 = 0xeeee;

    fn searched(call: Search, memory: &[u8], query: &[u8], places: usize, rows: usize) -> (u64, u64) {
        let (mut scratch, mut rows, mut count) = (vec![0; 24 * places], vec![Row::default(); rows], BEFORE);
        let number = unsafe { call(memory.as_ptr(), memory.len(), query.as_ptr(), query.len(), scratch.as_mut_ptr(), scratch.len(), rows.as_mut_ptr(), rows.len(), &mut count) };
        (number, count)
    }

    fn search(memory: &[u8], query: &[u8], places: usize, rows: usize) -> (u64, u64) {
        searched(helmapricot_search, memory, query, places, rows)
    }

    fn search_number(memory: &[u8], typed: &[u8], places: usize, rows: usize) -> (u64, u64) {
        searched(helmapricot_search_number, memory, typed, places, rows)
    }

    fn record_stream(memory: &mut [u8], stream: &[u8]) -> (u64, u64) {
        let mut taken = BEFORE;
        let number = unsafe { helmapricot_record_stream(memory.as_mut_ptr(), memory.len(), stream.as_ptr(), stream.len(), &mut taken) };
        (number, taken)
    }

    fn save(memory: &[u8], room: usize) -> (u64, u64) {
        let (mut out, mut size) = (vec![0; room], BEFORE);
        let number = unsafe { helmapricot_save(memory.as_ptr(), memory.len(), out.as_mut_ptr(), out.len(), &mut size) };
        (number, size)
    }

    fn read_block(stream: &[u8], at: usize) -> (u64, [u64; 7]) {
        let mut fields = [BEFORE; 7];
        let number = unsafe { helmapricot_read_block(stream.as_ptr(), stream.len(), at, fields.as_mut_ptr()) };
        (number, fields)
    }

    #[test]
    fn counts_and_sizes() -> Result<(), Refusal> {
        let mut index = Index::new(10, 10)?;
        index.record(Kind::Memory, 1, 1, 9, b"aba")?;
        assert_eq!(search(index.memory(), b"a", 2, 2), (3, BEFORE));
        assert_eq!(save(index.memory(), 1000), (3, BEFORE));
        index.finish()?;
        assert_eq!(search(index.memory(), &[b'a'; 257], 2, 2), (9, BEFORE));
        assert_eq!(search(index.memory(), b"a", 1, 2), (10, BEFORE));
        assert_eq!(search(index.memory(), b"a", 2, 1), (11, BEFORE));
        assert_eq!(search(index.memory(), b"a", 2, 2), (0, 2));
        assert_eq!(search(index.memory(), b"x", 2, 2), (0, 0));
        let size = index.save()?.len();
        assert_eq!(save(index.memory(), size - 1), (12, BEFORE));
        assert_eq!(save(index.memory(), size), (0, size as u64));
        let broken = [0; 100];
        assert_eq!(search(&broken, b"a", 2, 2), (1, BEFORE));
        assert_eq!(save(&broken, 1000), (1, BEFORE));
        Ok(())
    }

    #[test]
    fn counts_of_numbers() -> Result<(), Refusal> {
        // thirteen zeros at two addresses of a piece: two places, and one for each of the twelve ends that the piece begins with
        let (right, wrong) = (b"00000000000001", b"00000000000002");
        let mut index = Index::new(200, 40)?;
        index.record(Kind::Memory, 1, 1, 9, &[b'0'; 14])?;
        assert_eq!(search_number(index.memory(), right, 200, 2), (3, BEFORE));
        assert_eq!(search_number(index.memory(), wrong, 200, 2), (3, BEFORE));
        index.finish()?;
        assert_eq!(search_number(index.memory(), wrong, 0, 0), (19, BEFORE));
        assert_eq!(search_number(index.memory(), &[b'0'; 257], 200, 2), (19, BEFORE));
        let places = 2 + 12;
        assert_eq!(search_number(index.memory(), right, places - 1, 2), (10, BEFORE));
        assert_eq!(search_number(index.memory(), right, places, 1), (11, BEFORE));
        assert_eq!(search_number(index.memory(), right, places, 2), (0, 2));
        assert_eq!(search_number(index.memory(), b"0000000000001*", 200, 2), (0, 0));
        let broken = [0; 100];
        assert_eq!(search_number(&broken, right, 200, 2), (1, BEFORE));
        assert_eq!(search_number(&broken, wrong, 200, 2), (1, BEFORE));
        Ok(())
    }

    /// The one block ab at an address, from tick 10 to 50.
    fn stream_at(address: u64) -> Vec<u8> {
        let mut stream = vec![1];
        [address, 2, 10, 50].iter().for_each(|n| stream.extend(n.to_le_bytes()));
        stream.extend(b"ab");
        stream
    }

    #[test]
    fn taken() -> Result<(), Refusal> {
        let one = stream_at(5);
        let mut memory = Index::new(10, 10)?.into_memory();
        assert_eq!(record_stream(&mut memory, &[]), (0, 0));
        assert_eq!(record_stream(&mut memory, &one), (0, 1));
        assert_eq!(record_stream(&mut memory, &one), (18, 0));
        assert_eq!(record_stream(&mut memory, &[&stream_at(7)[..], &[5]].concat()), (14, 1));
        assert_eq!(record_stream(&mut memory, &stream_at(9)), (8, 0));
        let mut index = Index::held_in(memory);
        index.finish()?;
        let mut memory = index.into_memory();
        assert_eq!(record_stream(&mut memory, &[]), (2, 0));
        assert_eq!(record_stream(&mut memory, &one), (2, 0));
        assert_eq!(record_stream(&mut [0; 100], &[]), (1, 0));
        assert_eq!(record_stream(&mut [0; 100], &one), (1, 0));
        Ok(())
    }

    #[test]
    fn fields() {
        let mut stream = stream_at(5);
        assert_eq!(read_block(&stream, 0), (0, [1, 1, 5, 2, 10, 50, 35]));
        assert_eq!(read_block(&stream, 35), (0, [0, BEFORE, BEFORE, BEFORE, BEFORE, BEFORE, BEFORE]));
        assert_eq!(read_block(&stream, 36), (13, [BEFORE; 7]));
        assert_eq!(read_block(&stream[..34], 0), (13, [BEFORE; 7]));
        stream[0] = 5;
        assert_eq!(read_block(&stream, 0), (14, [BEFORE; 7]));
    }
}
