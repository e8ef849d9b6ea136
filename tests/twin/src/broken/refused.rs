//! Broken patterns in calls that are refused: a refusal comes first, and tells no place.
use super::ways::FRONTS;
use super::{filled, ways, LIMIT};
use crate::answer::Answer;
use crate::check::Check;
use crate::matcher::Matcher;

/// A flags number that is taken, and those that are not.
const FLAGS: [u64; 5] = [1, 4, 7, 1 << 32, u64::MAX];

pub fn run<M: Matcher>(check: &mut Check<M>) {
    let long_text = vec![b'a'; 4097];
    for way in ways() {
        for (front, taken, _) in FRONTS {
            let broken = [front, &way].concat().into_bytes();
            check.expect(&broken, taken.as_bytes(), 4, Answer::code(25));
            check.expect(&broken, b"a\0", 3, Answer::code(24));
            check.expect(&broken, &long_text, 0, Answer::code(23));
        }
        for flags in FLAGS {
            over(check, &way, flags);
            zero(check, &way, flags);
        }
    }
}

/// 2,049 bytes that begin or end with the broken item: 7, whatever else holds.
fn over<M: Matcher>(check: &mut Check<M>, way: &str, flags: u64) {
    let rest = filled("a", LIMIT + 1 - way.len());
    for pattern in [[way, &rest].concat(), [&rest, way].concat()] {
        check.expect(pattern.as_bytes(), b"", flags, Answer::code(23));
        check.expect(pattern.as_bytes(), b"\0", flags, Answer::code(23));
    }
}

/// Byte 0 before the broken item, in or behind it, or in the text: 8, if nothing is too long.
fn zero<M: Matcher>(check: &mut Check<M>, way: &str, flags: u64) {
    for pattern in [["\0", way].concat(), [way, "\0"].concat(), [way, "\0]"].concat()] {
        check.expect(pattern.as_bytes(), b"a", flags, Answer::code(24));
    }
    check.expect(way.as_bytes(), b"\0", flags, Answer::code(24));
}
