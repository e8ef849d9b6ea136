//! The matcher's C call.
use crate::answer::Answer;
use crate::matcher::Matcher;

extern "C" {
    fn fidshore_match(pattern: *const u8, pattern_len: usize, text: *const u8, text_len: usize, flags: u64) -> u32;
}

/// The code number: nothing is copied or fenced.
#[inline(never)]
pub fn ask_bare(pattern: &[u8], text: &[u8], flags: u64) -> u32 {
    unsafe { fidshore_match(pattern.as_ptr(), pattern.len(), text.as_ptr(), text.len(), flags) }
}

#[derive(Default)]
pub struct Archive;

impl Matcher for Archive {
    const TELLS_PLACES: bool = false;

    fn ask_bare(&self, pattern: &[u8], text: &[u8], flags: u64) -> Answer {
        Answer::code(ask_bare(pattern, text, flags))
    }

    fn ask_null(&self, flags: u64) -> Answer {
        Answer::code(unsafe { fidshore_match(std::ptr::null(), 0, std::ptr::null(), 0, flags) })
    }

    fn broken_bare(&self, _: &[u8]) -> Option<usize> {
        unreachable!("the C call reads no pattern alone")
    }
}
