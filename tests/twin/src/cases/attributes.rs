//! Random attribute lines: a pattern and the attributes behind it.
use super::paths::pattern;
use crate::random::Random;

/// Names that are asked for and named; the first most often.
const NAMES: [&str; 10] = ["fill", "x", "fil", "filla", "FILL", "a-b", ".", "_", "9", "fill.x"];
const BAD: [&[u8]; 16] = [
    b"-",
    b"!",
    b"=",
    b"=v",
    b"-=v",
    b"--fill",
    b"!-fill",
    b"-!fill",
    b"!!fill",
    b"a:b",
    b"#",
    b"fill\x0b",
    b"\xc3\xa9",
    b"\"fill\"",
    b"a/b",
    b"fill,x",
];
const VALUES: [&[u8]; 9] = [b"", b"v", b"1", b"=", b"a=b", b"never", b"-", b"\xff", b"\"q\""];
/// Lines that are dropped for how their pattern begins, or nearly.
const FRONTS: [&[u8]; 10] =
    [b"!", b"\"", b"#", b"[attr]", b"[attr]x ", b"[attr] ", b"\\!", b"\\\"", b"\\#", b"\xef\xbb\xbf"];
const BLANKS: [&[u8]; 8] = [b" ", b" ", b" ", b"  ", b"\t", b"\r", b" \t\r", b"\x0b"];
const ODD: [&[u8]; 10] =
    [b"", b" ", b"\t", b"\r", b"#", b" # fill", b"fill", b"* fill", b"[attr] fill", b"\xef\xbb\xbf"];

pub fn name(random: &mut Random) -> Vec<u8> {
    match random.below(100) {
        0..=64 => b"fill".to_vec(),
        65..=97 => random.pick(&NAMES).as_bytes().to_vec(),
        _ => random.word(&BAD).to_vec(),
    }
}

pub fn line(random: &mut Random, below_base: &[Vec<u8>]) -> Vec<u8> {
    if random.chance(8) {
        return random.word(&ODD).to_vec();
    }
    let mut line = Vec::new();
    if random.chance(15) {
        line.extend_from_slice(random.word(&BLANKS));
    }
    if random.chance(8) {
        line.extend_from_slice(random.word(&FRONTS));
    }
    line.extend(pattern(random, below_base));
    if random.chance(12) {
        line.push(b'/');
    }
    for _ in 0..*random.pick(&[0, 1, 1, 1, 2, 2, 3]) {
        line.extend_from_slice(random.word(&BLANKS));
        line.extend(attribute(random));
    }
    if random.chance(20) {
        line.extend_from_slice(random.word(&BLANKS));
    }
    line
}

fn attribute(random: &mut Random) -> Vec<u8> {
    if random.chance(4) {
        return random.word(&BAD).to_vec();
    }
    let sign: &[u8] = match random.below(10) {
        0..=1 => b"-",
        2..=3 => b"!",
        _ => b"",
    };
    let mut word = sign.to_vec();
    let name = if random.chance(65) { "fill" } else { *random.pick(&NAMES) };
    word.extend_from_slice(name.as_bytes());
    if random.chance(35) {
        word.push(b'=');
        word.extend_from_slice(random.word(&VALUES));
    }
    word
}
