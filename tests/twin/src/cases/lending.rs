//! Random questions: a path, the rule files lent for it, and now and then a
//! fault in what is lent.
use super::paths::{components, Words, CONTROL};
use super::{attributes, lines};
use crate::random::Random;
use crate::reader::Question;

/// How many files are lent.
#[derive(Clone, Copy, PartialEq)]
pub enum Extent {
    /// One of base 0, as the C calls take it.
    One,
    /// None to five, of any bases.
    Many,
}

/// A question that is mostly accepted.
pub fn question(random: &mut Random, extent: Extent) -> Question {
    let words = components(random);
    let name = random.chance(50).then(|| attributes::name(random));
    let mut question =
        Question { path: words.join(&b"/"[..]), name, flags: random.below(4) as u64, ..Question::default() };
    let files = if extent == Extent::One { 1 } else { *random.pick(&[0, 1, 1, 2, 2, 2, 3, 3, 4, 5]) };
    for _ in 0..files {
        file(random, &words, extent, &mut question);
    }
    if random.chance(4) {
        crate::grammar::mutate(random, &mut question.path);
    }
    if extent == Extent::Many && random.chance(6) {
        recut(random, &mut question);
    }
    if random.chance(5) {
        change_a_byte(random, &mut question.rules);
    }
    if random.chance(5) {
        fault(random, extent, &mut question);
    }
    question
}

/// One more rule file, written for what lies below its directory.
fn file(random: &mut Random, words: &Words, extent: Extent, question: &mut Question) {
    let depth = match extent {
        Extent::One => 0,
        Extent::Many if random.chance(45) => 0,
        Extent::Many => random.below(words.len()),
    };
    if random.chance(10) {
        question.rules.extend_from_slice(b"\xef\xbb\xbf");
    }
    let count = if random.chance(3) { 25 } else { random.below(7) };
    for i in 0..count {
        let line = match question.name {
            None => lines::line(random, &words[depth..]),
            Some(_) => attributes::line(random, &words[depth..]),
        };
        question.rules.extend(line);
        if i + 1 < count || random.chance(65) {
            question.rules.push(b'\n');
        }
    }
    question.ends.push(question.rules.len());
    question.bases.push(words[..depth].iter().map(|word| word.len() + 1).sum());
}

/// New ends at any byte: lines, BOMs and CRs are cut in two.
fn recut(random: &mut Random, question: &mut Question) {
    let length = question.rules.len();
    if let Some((last, others)) = question.ends.split_last_mut() {
        others.iter_mut().for_each(|end| *end = random.below(length + 1));
        others.sort_unstable();
        *last = length;
    }
}

fn change_a_byte(random: &mut Random, bytes: &mut [u8]) {
    if !bytes.is_empty() {
        *random.pick_mut(bytes) = *random.pick(b"\n\n/!#\\ \r\tab*[]=-\"\xef\xbb\xbf\xff");
    }
}

/// One thing that is often refused.
fn fault(random: &mut Random, extent: Extent, question: &mut Question) {
    let number = odd_number(random, question.path.len().max(question.rules.len()));
    match random.below(if extent == Extent::One { 4 } else { 9 }) {
        0 => question.flags = random.number() >> random.below(64),
        1 => spoil(random, &mut question.path),
        2 if !question.rules.is_empty() => *random.pick_mut(&mut question.rules) = 0,
        3 if question.name.is_some() => question.name = Some(vec![random.number() as u8; random.below(300)]),
        4 => question.ends.push(number),
        5 => question.bases.push(number),
        6 => drop(question.ends.pop()),
        7 if !question.ends.is_empty() => *random.pick_mut(&mut question.ends) = number,
        8 if !question.bases.is_empty() => *random.pick_mut(&mut question.bases) = number,
        _ => {}
    }
}

/// A path that refusal 1 turns away: one of some, or this one with a control
/// byte anywhere.
fn spoil(random: &mut Random, path: &mut Vec<u8>) {
    if path.is_empty() || random.chance(60) {
        *path = random.word(&[&b""[..], b".", b"a/..", b"/a", b"a/", b"a//b", b"a\0b"]).to_vec();
    } else {
        *random.pick_mut(path) = *random.pick(CONTROL);
    }
}

/// Numbers near the lengths, and the largest.
fn odd_number(random: &mut Random, near: usize) -> usize {
    match random.below(4) {
        0 => usize::MAX - random.below(3),
        1 => 1 << random.below(64),
        _ => random.below(near + 3),
    }
}
