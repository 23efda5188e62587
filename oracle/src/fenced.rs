//! Buffers to lend, with a page behind them that nobody may touch: one byte read or written too far ends the program.
//! Before them stand bytes whose change is noticed.
use crate::linked::Row;
use std::ptr;

extern "C" {
    fn mmap(at: *mut u8, len: usize, protection: i32, flags: i32, fd: i32, offset: i64) -> *mut u8;
    fn mprotect(at: *mut u8, len: usize, protection: i32) -> i32;
    fn munmap(at: *mut u8, len: usize) -> i32;
}

const PAGE: usize = 4096;
const GUARD: usize = 64;
const MARK: u8 = 0xa5;
const READ_WRITE: i32 = 3;
const PRIVATE_ANONYMOUS: i32 = 0x22;

/// Room for a buffer of up to so many bytes; it stands at the room's end.
pub struct Fenced {
    start: *mut u8,
    pages: usize,
    len: usize,
}

impl Fenced {
    pub fn new(most: usize) -> Self {
        let pages = (most + GUARD).div_ceil(PAGE);
        unsafe {
            let start = mmap(ptr::null_mut(), (pages + 1) * PAGE, READ_WRITE, PRIVATE_ANONYMOUS, -1, 0);
            assert!(start as isize != -1, "no memory");
            assert_eq!(mprotect(start.add(pages * PAGE), PAGE, 0), 0);
            start.add(pages * PAGE - GUARD).write_bytes(MARK, GUARD);
            Self { start, pages, len: 0 }
        }
    }

    fn base(&self) -> *mut u8 {
        unsafe { self.start.add(self.pages * PAGE - self.len) }
    }

    /// A buffer with this content. It grows the room where that is too small.
    pub fn set(&mut self, content: &[u8]) -> &mut [u8] {
        if content.len() + GUARD > self.pages * PAGE {
            *self = Self::new(2 * content.len());
        }
        self.len = content.len();
        unsafe { self.base().sub(GUARD).write_bytes(MARK, GUARD) };
        self.bytes().copy_from_slice(content);
        self.bytes()
    }

    pub fn bytes(&mut self) -> &mut [u8] {
        unsafe { std::slice::from_raw_parts_mut(self.base(), self.len) }
    }

    /// The same as rows; the length is a multiple of 24.
    pub fn rows(&mut self) -> &mut [Row] {
        assert_eq!(self.len % 24, 0);
        unsafe { std::slice::from_raw_parts_mut(self.base() as *mut Row, self.len / 24) }
    }

    /// Nothing was written before the buffer.
    pub fn intact(&self) -> bool {
        unsafe { std::slice::from_raw_parts(self.base().sub(GUARD), GUARD) }.iter().all(|b| *b == MARK)
    }
}

impl Drop for Fenced {
    fn drop(&mut self) {
        unsafe { munmap(self.start, (self.pages + 1) * PAGE) };
    }
}
