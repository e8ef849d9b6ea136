//! The matcher by `testcalls`: the code number, and the place where the pattern
//! is broken in a lent list of numbers.
use crate::answer::Answer;
use crate::matcher::Matcher;

extern "C" {
    fn testcalls_match(
        pattern: *const u8,
        pattern_len: usize,
        text: *const u8,
        text_len: usize,
        flags: u64,
        out: *mut usize,
        out_len: usize,
    ) -> u32;
    fn testcalls_broken(pattern: *const u8, pattern_len: usize, out: *mut usize, out_len: usize) -> u32;
}

/// What the list holds before a call. No place is so large.
const UNTOUCHED: usize = usize::MAX - 77;
/// A place that differs from every place, for a list that was written wrongly.
const WRONG: usize = usize::MAX;
/// How many entries are lent: of a list with none and of one with more than one
/// the same must come, but for the place.
const LENT: [usize; 3] = [1, 3, 0];

/// Calls with a list of each length, painted and with two more entries on each
/// side, which show a stray write. Gives the code, and the place if the code says
/// that there is one.
fn told(broken: u32, call: impl Fn(*mut usize, usize) -> u32) -> Answer {
    let [one, three, none] = LENT.map(|len| {
        let mut list = [UNTOUCHED; 7];
        let code = call(list[2..].as_mut_ptr(), len);
        let place = (code == broken && len > 0).then(|| std::mem::replace(&mut list[2], UNTOUCHED));
        let stray = list.iter().any(|&x| x != UNTOUCHED) || place == Some(UNTOUCHED);
        Answer { code, place: if stray { Some(WRONG) } else { place } }
    });
    let same = one == three && none == Answer::code(one.code);
    Answer { code: one.code, place: if same { one.place } else { Some(WRONG) } }
}

#[derive(Default)]
pub struct Probed;

impl Matcher for Probed {
    const TELLS_PLACES: bool = true;

    fn ask_bare(&self, pattern: &[u8], text: &[u8], flags: u64) -> Answer {
        told(2, |out, len| unsafe {
            testcalls_match(pattern.as_ptr(), pattern.len(), text.as_ptr(), text.len(), flags, out, len)
        })
    }

    fn ask_null(&self, flags: u64) -> Answer {
        let null = std::ptr::null();
        told(2, |out, len| unsafe { testcalls_match(null, 0, null, 0, flags, out, len) })
    }

    fn broken_bare(&self, pattern: &[u8]) -> Option<usize> {
        match told(1, |out, len| unsafe { testcalls_broken(pattern.as_ptr(), pattern.len(), out, len) }) {
            Answer { code: 0 | 1, place } => place,
            _ => Some(WRONG), // no other code is an answer
        }
    }
}
