//! A thread's stack that is painted before the thread runs, so that what it
//! changed can be seen afterwards. Below the stack lies an unmapped page: a
//! call that needs more than `SIZE` crashes.
use std::ffi::c_void;
use std::mem::MaybeUninit;

const SIZE: usize = 8 << 20;
const PAGE: usize = 4096;
const PAINT: u8 = 0xa5;

type Start = extern "C" fn(*mut c_void) -> *mut c_void;
/// At least as large as the C library's `pthread_attr_t`.
type Attributes = MaybeUninit<[u64; 16]>;

extern "C" {
    fn mmap(at: *mut c_void, len: usize, prot: i32, flags: i32, fd: i32, offset: i64) -> *mut c_void;
    fn mprotect(at: *mut c_void, len: usize, prot: i32) -> i32;
    fn pthread_attr_init(attributes: *mut Attributes) -> i32;
    fn pthread_attr_setstack(attributes: *mut Attributes, at: *mut c_void, size: usize) -> i32;
    fn pthread_create(id: *mut usize, attributes: *const Attributes, start: Start, arg: *mut c_void) -> i32;
    fn pthread_join(id: usize, result: *mut *mut c_void) -> i32;
}

/// What the thread is to ask: a call that answers a code number.
type Call<'a> = &'a dyn Fn() -> u32;

extern "C" fn ask(call: *mut c_void) -> *mut c_void {
    std::hint::black_box(unsafe { *call.cast::<Call>() }());
    std::ptr::null_mut()
}

pub struct Painted {
    bottom: *mut u8,
    /// What a thread uses that asks nothing.
    own: usize,
}

impl Default for Painted {
    fn default() -> Painted {
        Painted::new()
    }
}

impl Painted {
    pub fn new() -> Painted {
        let bottom = unsafe {
            let whole = mmap(std::ptr::null_mut(), SIZE + PAGE, 3, 0x22, -1, 0);
            assert!(whole as isize != -1, "mmap");
            assert_eq!(mprotect(whole, PAGE, 0), 0, "mprotect");
            whole.cast::<u8>().add(PAGE)
        };
        let mut painted = Painted { bottom, own: 0 };
        painted.own = painted.used(&|| 0);
        painted
    }

    /// Bytes of stack that the call itself uses.
    pub fn depth(&self, call: Call) -> usize {
        self.used(call) - self.own
    }

    /// Bytes from the stack's top to the deepest that was changed.
    fn used(&self, mut call: Call) -> usize {
        unsafe {
            std::slice::from_raw_parts_mut(self.bottom, SIZE).fill(PAINT);
            self.run((&raw mut call).cast());
            let stack = std::slice::from_raw_parts(self.bottom, SIZE);
            SIZE - stack.iter().position(|&x| x != PAINT).unwrap_or(SIZE)
        }
    }

    unsafe fn run(&self, call: *mut c_void) {
        let (mut attributes, mut id): (Attributes, usize) = (MaybeUninit::uninit(), 0);
        assert_eq!(pthread_attr_init(&mut attributes), 0);
        assert_eq!(pthread_attr_setstack(&mut attributes, self.bottom.cast(), SIZE), 0);
        assert_eq!(pthread_create(&mut id, &attributes, ask, call), 0);
        assert_eq!(pthread_join(id, std::ptr::null_mut()), 0);
    }
}
