//! Parts of the port that are timed alone: the test of an image, and the search without it.
#[link(name = "bench_parts", kind = "static")]
extern "C" {
    fn helmapricot_check(image: *const u8, len: usize) -> u64;
    fn helmapricot_judge(image: *const u8, len: usize) -> u64;
    fn helmapricot_layout(image: *const u8, len: usize) -> u64;
    fn helmapricot_search_image(image: *const u8, len: usize, queries: *const u8, queries_len: usize, size: usize, scratch: *mut u8, scratch_len: usize, room: usize, count: *mut u64) -> u64;
}

/// Layout, bytes left over and index rule, conflicts left out: 0, or 13, 14, 15.
pub fn check(image: &[u8]) -> u64 {
    unsafe { helmapricot_check(image.as_ptr(), image.len()) }
}

/// All that an image is tested for: 0, or 13, 14, 15, 18.
pub fn judge(image: &[u8]) -> u64 {
    unsafe { helmapricot_judge(image.as_ptr(), image.len()) }
}

pub fn layout(image: &[u8]) -> u64 {
    unsafe { helmapricot_layout(image.as_ptr(), image.len()) }
}

/// One test of the image, conflicts left out, then a search for each of the queries of so many bytes: how many rows the last one has, or
/// its refusal.
pub fn search_image(image: &[u8], queries: &[u8], size: usize, scratch: &mut [u8], room: usize) -> Result<u64, u64> {
    let mut count = 0;
    let refusal = unsafe { helmapricot_search_image(image.as_ptr(), image.len(), queries.as_ptr(), queries.len(), size, scratch.as_mut_ptr(), scratch.len(), room, &mut count) };
    if refusal == 0 { Ok(count) } else { Err(refusal) }
}
