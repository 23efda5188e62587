//! The calls of the port, as its archive exports them: a slice is a pointer and a length.

/// A row as the port writes it: three numbers, side by side.
#[derive(Clone, Copy, Default)]
#[repr(C)]
pub struct Row {
    pub address: u64,
    pub created: u64,
    pub destroyed: u64,
}

#[link(name = "helmapricot", kind = "static")]
extern "C" {
    fn helmapricot_open(mem: *mut u8, len: usize, nodes: u64, entries: u64) -> u64;
    fn helmapricot_record(mem: *mut u8, len: usize, kind: u64, address: u64, created_at: u64, destroyed_at: u64, data: *const u8, data_len: usize) -> u64;
    fn helmapricot_record_stream(mem: *mut u8, len: usize, stream: *const u8, stream_len: usize, taken: *mut u64) -> u64;
    fn helmapricot_finish(mem: *mut u8, len: usize) -> u64;
    fn helmapricot_search(mem: *const u8, len: usize, q: *const u8, q_len: usize, scratch: *mut u8, scratch_len: usize, rows: *mut Row, rows_len: usize, count: *mut u64) -> u64;
    fn helmapricot_search_number(mem: *const u8, len: usize, typed: *const u8, typed_len: usize, scratch: *mut u8, scratch_len: usize, rows: *mut Row, rows_len: usize, count: *mut u64) -> u64;
    fn helmapricot_save(mem: *const u8, len: usize, out: *mut u8, out_len: usize, size: *mut u64) -> u64;
    fn helmapricot_load(mem: *mut u8, len: usize, image: *const u8, image_len: usize) -> u64;
    fn helmapricot_read_block(s: *const u8, len: usize, at: usize, fields: *mut u64) -> u64;
}

pub fn open(mem: &mut [u8], nodes: u64, entries: u64) -> u64 {
    unsafe { helmapricot_open(mem.as_mut_ptr(), mem.len(), nodes, entries) }
}

pub fn record(mem: &mut [u8], kind: u64, address: u64, created_at: u64, destroyed_at: u64, data: &[u8]) -> u64 {
    unsafe { helmapricot_record(mem.as_mut_ptr(), mem.len(), kind, address, created_at, destroyed_at, data.as_ptr(), data.len()) }
}

pub fn finish(mem: &mut [u8]) -> u64 {
    unsafe { helmapricot_finish(mem.as_mut_ptr(), mem.len()) }
}

/// What stands in a count or a size before a call; one that is refused leaves it.
pub const UNWRITTEN: u64 = u64::MAX;

/// What both searches are.
pub type Search = fn(&[u8], &[u8], &mut [u8], &mut [Row]) -> (u64, u64);

type ExportedSearch = unsafe extern "C" fn(*const u8, usize, *const u8, usize, *mut u8, usize, *mut Row, usize, *mut u64) -> u64;

fn searched(call: ExportedSearch, mem: &[u8], q: &[u8], scratch: &mut [u8], rows: &mut [Row]) -> (u64, u64) {
    let mut count = UNWRITTEN;
    let n = unsafe { call(mem.as_ptr(), mem.len(), q.as_ptr(), q.len(), scratch.as_mut_ptr(), scratch.len(), rows.as_mut_ptr(), rows.len(), &mut count) };
    (n, count)
}

/// The number of the refusal, 0 for none, and how many rows there are.
pub fn search(mem: &[u8], q: &[u8], scratch: &mut [u8], rows: &mut [Row]) -> (u64, u64) {
    searched(helmapricot_search, mem, q, scratch, rows)
}

/// The same for a donation number that was typed with its check character.
pub fn search_number(mem: &[u8], typed: &[u8], scratch: &mut [u8], rows: &mut [Row]) -> (u64, u64) {
    searched(helmapricot_search_number, mem, typed, scratch, rows)
}

/// The number of the refusal, 0 for none, and how many bytes the image has.
pub fn save(mem: &[u8], out: &mut [u8]) -> (u64, u64) {
    let mut size = UNWRITTEN;
    let n = unsafe { helmapricot_save(mem.as_ptr(), mem.len(), out.as_mut_ptr(), out.len(), &mut size) };
    (n, size)
}

/// The number of the refusal, 0 for none, and how many blocks were taken, which is written always.
pub fn record_stream(mem: &mut [u8], stream: &[u8]) -> (u64, u64) {
    let mut taken = UNWRITTEN;
    let n = unsafe { helmapricot_record_stream(mem.as_mut_ptr(), mem.len(), stream.as_ptr(), stream.len(), &mut taken) };
    (n, taken)
}

pub fn load(mem: &mut [u8], image: &[u8]) -> u64 {
    unsafe { helmapricot_load(mem.as_mut_ptr(), mem.len(), image.as_ptr(), image.len()) }
}

/// The number of the refusal, 0 for none; whether there is a block, kind, address, length, ticks and the next cursor go
/// into fields.
pub fn read_block(s: &[u8], at: usize, fields: &mut [u64; 7]) -> u64 {
    unsafe { helmapricot_read_block(s.as_ptr(), s.len(), at, fields.as_mut_ptr()) }
}
