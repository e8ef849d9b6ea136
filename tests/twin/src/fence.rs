//! Lent bytes between two unmapped pages, and read-only: a read past either
//! end and any write is a crash. The bytes are written through a second
//! mapping of the same memory, so that lending needs no call of the system.
use std::ffi::{c_char, c_void};

extern "C" {
    fn memfd_create(name: *const c_char, flags: u32) -> i32;
    fn ftruncate(file: i32, len: i64) -> i32;
    fn close(file: i32) -> i32;
    fn mmap(at: *mut c_void, len: usize, prot: i32, flags: i32, fd: i32, offset: i64) -> *mut c_void;
    fn munmap(at: *mut c_void, len: usize) -> i32;
}

const PAGE: usize = 4096;
const NONE: i32 = 0;
const READ: i32 = 1;
const READ_WRITE: i32 = 3;
const SHARED: i32 = 0x01;
const FIXED: i32 = 0x10;
const PRIVATE_ANONYMOUS: i32 = 0x22;

/// Which fence the bytes touch. Only that side is watched to the byte.
#[derive(Clone, Copy, PartialEq)]
pub enum Side {
    Front,
    End,
}

pub struct Fence {
    /// The fence before, the pages that are lent, the fence behind.
    whole: *mut u8,
    /// The same pages, to be written.
    own: *mut u8,
    pages: usize,
    start: usize,
    len: usize,
}

impl Fence {
    /// Room for `room` bytes.
    pub fn new(room: usize) -> Fence {
        let pages = room.div_ceil(PAGE).max(1);
        let size = pages * PAGE;
        unsafe {
            let memory = memfd_create(c"fence".as_ptr(), 0);
            assert!(memory >= 0 && ftruncate(memory, size as i64) == 0, "memory to lend");
            let whole = map(std::ptr::null_mut(), size + 2 * PAGE, NONE, PRIVATE_ANONYMOUS, -1);
            map(whole.add(PAGE), size, READ, SHARED | FIXED, memory);
            let own = map(std::ptr::null_mut(), size, READ_WRITE, SHARED, memory);
            close(memory);
            Fence { whole, own, pages, start: 0, len: 0 }
        }
    }

    /// Lends these bytes from now on.
    pub fn lend(&mut self, bytes: &[u8], side: Side) {
        assert!(bytes.len() <= self.pages * PAGE);
        self.len = bytes.len();
        self.start = match side {
            Side::Front => 0,
            Side::End => self.pages * PAGE - bytes.len(),
        };
        unsafe { std::ptr::copy_nonoverlapping(bytes.as_ptr(), self.own.add(self.start), bytes.len()) };
    }

    /// New bytes, lent at the end fence.
    pub fn holding(bytes: &[u8]) -> Fence {
        let mut fence = Fence::new(bytes.len());
        fence.lend(bytes, Side::End);
        fence
    }

    pub fn bytes(&self) -> &[u8] {
        unsafe { std::slice::from_raw_parts(self.as_ptr(), self.len) }
    }

    /// The same for a list of numbers: either fence is aligned for them.
    pub fn lend_numbers(&mut self, numbers: &[usize], side: Side) {
        let bytes = unsafe { std::slice::from_raw_parts(numbers.as_ptr().cast(), size_of_val(numbers)) };
        self.lend(bytes, side);
    }

    pub fn numbers(&self) -> &[usize] {
        unsafe { std::slice::from_raw_parts(self.as_ptr().cast(), self.len / size_of::<usize>()) }
    }

    pub fn as_ptr(&self) -> *const u8 {
        unsafe { self.whole.add(PAGE + self.start) }
    }
}

unsafe fn map(at: *mut u8, len: usize, prot: i32, flags: i32, file: i32) -> *mut u8 {
    let mapped = mmap(at.cast(), len, prot, flags, file, 0);
    assert!(mapped as isize != -1, "mmap");
    mapped.cast()
}

impl Drop for Fence {
    fn drop(&mut self) {
        unsafe {
            munmap(self.whole.cast(), (self.pages + 2) * PAGE);
            munmap(self.own.cast(), self.pages * PAGE);
        }
    }
}
