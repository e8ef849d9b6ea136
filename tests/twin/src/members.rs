//! Random classes, with members of every form, good and bad.
use crate::grammar::{byte, Pair};
use crate::random::Random;

const NAMES: [&str; 12] =
    ["alnum", "alpha", "blank", "cntrl", "digit", "graph", "lower", "print", "punct", "space", "upper", "xdigit"];
const BAD_NAMES: [&str; 8] = ["", "ALPHA", "alph", "alphas", "a", "word", "digit ", "Space"];

/// A class and one byte that may be listed in it.
pub fn class(random: &mut Random, pair: &mut Pair) {
    let not = random.chance(25);
    pair.pattern.push(b'[');
    if not {
        pair.pattern.push(*random.pick(b"!^"));
    }
    let mut listed = Vec::new();
    if random.chance(10) {
        pair.pattern.push(b']');
        listed.push(b']');
    }
    for _ in 0..random.from(1, 4) {
        member(random, &mut pair.pattern, &mut listed);
    }
    if !random.chance(3) {
        pair.pattern.push(b']');
    }
    let taken = if not { byte(random) } else { *random.pick(&listed) };
    pair.text.push(taken);
}

/// Every form a member can have, good and bad.
fn member(random: &mut Random, pattern: &mut Vec<u8>, listed: &mut Vec<u8>) {
    match random.below(100) {
        0..=29 => single(random, pattern, listed),
        30..=59 => range(random, pattern, listed),
        60..=84 => name(random, pattern, listed),
        85..=89 => plain(pattern, listed, b"-"),
        90..=92 => plain(pattern, listed, b"["),
        93..=94 => plain(pattern, listed, b"[:"),
        95 => plain(pattern, listed, b"[:a"),
        96 => plain(pattern, listed, b"[=a="),
        97 => plain(pattern, listed, b":"),
        98 => {
            let bad = random.pick(&BAD_NAMES).as_bytes();
            plain(pattern, listed, &[b"[:", bad, b":]"].concat());
        }
        _ => plain(pattern, listed, b"[:]"),
    }
}

fn plain(pattern: &mut Vec<u8>, listed: &mut Vec<u8>, form: &[u8]) {
    pattern.extend_from_slice(form);
    listed.push(form[0]);
}

fn single(random: &mut Random, pattern: &mut Vec<u8>, listed: &mut Vec<u8>) {
    let x = byte(random);
    if x == b']' || random.chance(20) {
        pattern.push(b'\\');
    }
    pattern.push(x);
    listed.push(x);
}

/// Up or down, ended by a byte, an escape or a `[`.
fn range(random: &mut Random, pattern: &mut Vec<u8>, listed: &mut Vec<u8>) {
    let low = byte(random);
    single_at(random, pattern, low);
    pattern.push(b'-');
    let high = match random.below(10) {
        0 => b'[',
        1 => byte(random),
        _ => low.saturating_add(random.below(30) as u8),
    };
    single_at(random, pattern, high);
    listed.push(if high >= low { low + random.below((high - low) as usize + 1) as u8 } else { low });
    if random.chance(15) {
        pattern.extend_from_slice(b"-"); // "After a range [...] `-` is plain."
    }
}

/// This byte, escaped where it would close the class and at times elsewhere.
fn single_at(random: &mut Random, pattern: &mut Vec<u8>, x: u8) {
    if (x == b']' || x == b'\\') && !random.chance(10) || random.chance(20) {
        pattern.push(b'\\');
    }
    pattern.push(x);
}

fn name(random: &mut Random, pattern: &mut Vec<u8>, listed: &mut Vec<u8>) {
    let name = *random.pick(&NAMES);
    pattern.extend_from_slice(format!("[:{name}:]").as_bytes());
    let taken: &[u8] = match name {
        "blank" | "space" => b" \t\x0b\x0c",
        "cntrl" => b"\x01\x1f\x7f",
        "digit" | "xdigit" => b"019",
        "punct" => b"!/~_",
        "upper" => b"AZx",
        _ => b"abzA",
    };
    listed.push(*random.pick(taken));
    if random.chance(10) {
        pattern.push(b'-'); // "After [...] a name, `-` is plain."
    }
}
