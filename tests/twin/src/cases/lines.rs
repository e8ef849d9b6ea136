//! Random ignore lines: patterns with what may stand around them, and lines
//! that are none.
use super::paths::pattern;
use crate::random::Random;

/// Lines that hold no pattern, or an empty or broken one, or nearly.
const ODD: [&[u8]; 26] = [
    b"",
    b"#",
    b"#a",
    b"# a",
    b" ",
    b"   ",
    b"\t",
    b"!",
    b"/",
    b"!/",
    b"//",
    b"///",
    b"! ",
    b" /",
    b"\\",
    b"\\ ",
    b"\\\\",
    b"!!a",
    b"!#a",
    b"\\!a",
    b"\\#a",
    b" #a",
    b"\r",
    b"\xef\xbb\xbf",
    b"\xef\xbb\xbf#a",
    b"[",
];

/// What may follow a pattern.
const TAILS: [&[u8]; 20] = [
    b" ", b"  ", b"\\ ", b"\\  ", b"\\\\ ", b"\\\\\\ ", b"\\", b"\t", b" \t", b"\t ", b"\r", b"\r\r", b" \r", b"\r ",
    b" \r\r", b"\\\r", b"/", b"/ ", b"\\/", b"/\r",
];

pub fn line(random: &mut Random, below_base: &[Vec<u8>]) -> Vec<u8> {
    if random.chance(12) {
        return random.word(&ODD).to_vec();
    }
    let mut line = Vec::new();
    if random.chance(3) {
        line.extend_from_slice(b"\xef\xbb\xbf"); // mid-file it is part of the pattern
    }
    if random.chance(35) {
        line.push(b'!');
    }
    line.extend(pattern(random, below_base));
    if random.chance(22) {
        line.push(b'/');
    }
    if random.chance(18) {
        line.extend_from_slice(random.word(&TAILS));
    }
    line
}
