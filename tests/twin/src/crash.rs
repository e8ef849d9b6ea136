//! Says which case was being asked when the archive touched a fence.
use crate::asking::form;
use crate::hex;
use crate::reader::Question;
use std::sync::atomic::{AtomicPtr, AtomicU64, AtomicUsize, Ordering::Relaxed};

const SIGBUS: i32 = 7;
const SIGSEGV: i32 = 11;

extern "C" {
    fn signal(number: i32, handler: extern "C" fn(i32)) -> usize;
    fn _exit(status: i32) -> !;
}

/// The case under way: where its bytes are lent.
static PATTERN: (AtomicPtr<u8>, AtomicUsize) = (AtomicPtr::new(std::ptr::null_mut()), AtomicUsize::new(0));
static TEXT: (AtomicPtr<u8>, AtomicUsize) = (AtomicPtr::new(std::ptr::null_mut()), AtomicUsize::new(0));
static FLAGS: AtomicU64 = AtomicU64::new(0);
static QUESTION: AtomicPtr<Question> = AtomicPtr::new(std::ptr::null_mut());

/// Remembers the case that is asked next.
pub fn about(pattern: &[u8], text: &[u8], flags: u64) {
    for (place, bytes) in [(&PATTERN, pattern), (&TEXT, text)] {
        place.0.store(bytes.as_ptr().cast_mut(), Relaxed);
        place.1.store(bytes.len(), Relaxed);
    }
    FLAGS.store(flags, Relaxed);
    QUESTION.store(std::ptr::null_mut(), Relaxed);
}

/// Remembers the question that is asked next; it must live until the next.
pub fn about_question(question: &Question) {
    QUESTION.store(std::ptr::from_ref(question).cast_mut(), Relaxed);
}

/// From now on a crash prints its case and ends the program with status 1.
pub fn report() {
    for number in [SIGBUS, SIGSEGV] {
        unsafe { signal(number, say) };
    }
}

/// The archive does not allocate, so this may.
extern "C" fn say(number: i32) {
    let question = QUESTION.load(Relaxed);
    if !question.is_null() {
        println!("CRASH (signal {number}) {}", form::write(unsafe { &*question }));
        unsafe { _exit(1) }
    }
    let bytes = |place: &(AtomicPtr<u8>, AtomicUsize)| match place.0.load(Relaxed) {
        at if at.is_null() => "-".to_string(),
        at => hex::write(unsafe { std::slice::from_raw_parts(at, place.1.load(Relaxed)) }),
    };
    let (pattern, text, flags) = (bytes(&PATTERN), bytes(&TEXT), FLAGS.load(Relaxed));
    println!("CRASH (signal {number}) pattern {pattern} text {text} flags {flags:#x}");
    unsafe { _exit(1) }
}
