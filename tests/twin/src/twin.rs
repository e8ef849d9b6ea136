//! The matcher of document 01, written from the paper alone and of another
//! shape than a backtracking matcher: the pattern is read into items, then a
//! table over (item place, text place) is filled row by row. Nothing is tried
//! twice and nothing recurses, so there is no pruning that could be wrong.
use crate::answer::Answer;
use crate::items::{read, Item};

pub const PATH: u64 = 1;
pub const FOLD: u64 = 2;

/// Refusals first, the lowest; then broken; then whether it matches.
pub fn answer(pattern: &[u8], text: &[u8], flags: u64) -> Answer {
    match refusal(pattern, text, flags) {
        Some(number) => Answer::code(16 + number),
        None => answer_accepted(&read(pattern), text, flags),
    }
}

/// The answer of a pattern that was read, in a call that is not refused. Broken
/// does not hang on the text or the mode.
pub fn answer_accepted(items: &Result<Vec<Item>, usize>, text: &[u8], flags: u64) -> Answer {
    match items {
        Ok(items) => Answer::code(joins(items, text, flags) as u32),
        Err(place) => Answer::broken(*place),
    }
}

/// What the C call answers: the code "without the place".
pub fn match_code(pattern: &[u8], text: &[u8], flags: u64) -> u32 {
    answer(pattern, text, flags).code
}

/// Refusals 7, 8 and 9 of the table, in this order.
pub fn refusal(pattern: &[u8], text: &[u8], flags: u64) -> Option<u32> {
    if pattern.len() > 2048 || text.len() > 4096 {
        return Some(7); // "pattern over 2,048 bytes or text over 4,096"
    }
    if pattern.contains(&0) || text.contains(&0) {
        return Some(8); // "byte 0 in pattern or text"
    }
    if flags > 3 {
        return Some(9); // "flags number above 3"
    }
    None
}

/// Whether a pattern that is not broken matches: "exactly when the text is the
/// joining, in order, of what its items may take".
///
/// Cell (i, j) of the table: items 0..i may take exactly text bytes 0..j.
pub fn joins(items: &[Item], text: &[u8], flags: u64) -> bool {
    let width = text.len() + 1;
    let mut table = vec![false; (items.len() + 1) * width];
    table[0] = true;
    for (i, item) in items.iter().enumerate() {
        let (done, rest) = table.split_at_mut((i + 1) * width);
        let here = &done[i * width..];
        match item {
            Item::Run { crosses, vanishes } => {
                let crosses = *crosses || flags & PATH == 0; // "Without path mode it takes any bytes"
                take_run(here, &mut rest[..width], text, crosses);
                // "may also, with that slash, take nothing": over both items.
                if *vanishes && flags & PATH != 0 {
                    take_nothing(here, &mut rest[width..2 * width]);
                }
            }
            one => take_one(here, &mut rest[..width], text, |byte| takes(one, byte, flags)),
        }
    }
    table[items.len() * width + text.len()]
}

/// One byte is taken from each reached place.
fn take_one(here: &[bool], next: &mut [bool], text: &[u8], takes: impl Fn(u8) -> bool) {
    for (j, &byte) in text.iter().enumerate() {
        if here[j] && takes(byte) {
            next[j + 1] = true;
        }
    }
}

/// Any row of bytes is taken from each reached place, "also none"; if the run
/// does not cross, "any bytes but `/`".
fn take_run(here: &[bool], next: &mut [bool], text: &[u8], crosses: bool) {
    let mut open = false;
    for j in 0..here.len() {
        if j > 0 && text[j - 1] == b'/' && !crosses {
            open = false;
        }
        open |= here[j];
        next[j] |= open;
    }
}

/// The same places are reached again.
fn take_nothing(here: &[bool], next: &mut [bool]) {
    for (to, from) in next.iter_mut().zip(here) {
        *to |= *from;
    }
}

/// May this item, that is no run, take this one byte?
fn takes(item: &Item, byte: u8, flags: u64) -> bool {
    let (path, fold) = (flags & PATH != 0, flags & FOLD != 0);
    match item {
        Item::Literal(x) => folded(fold, byte, |b| b == *x),
        Item::Any => !(path && byte == b'/'), // "in path mode not `/`"
        // "the list in a class before "not"" is folded; "In path mode no class takes `/`."
        Item::Class(class) => !(path && byte == b'/') && folded(fold, byte, |b| class.listed[b as usize]) != class.not,
        Item::Run { .. } => unreachable!("a run takes a row of bytes"),
    }
}

/// "Folding case: a literal, or the list [...] accepts a byte if it accepts
/// its lower or its upper ASCII form."
fn folded(fold: bool, byte: u8, accepts: impl Fn(u8) -> bool) -> bool {
    match fold {
        true => accepts(byte.to_ascii_lowercase()) || accepts(byte.to_ascii_uppercase()),
        false => accepts(byte),
    }
}
