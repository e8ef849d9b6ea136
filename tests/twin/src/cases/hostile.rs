//! Random bytes and numbers in every place.
use super::paths::CONTROL;
use crate::asking::check::Check;
use crate::asking::Asks;
use crate::random::Random;
use crate::reader::Question;

pub fn run<A: Asks>(check: &mut Check<A>, random: &mut Random, small: u64, large: u64) {
    for _ in 0..small {
        check.case(&noise(random, 40));
    }
    for _ in 0..large {
        check.case(&noise(random, 3000));
    }
}

/// Mostly one file of base 0, so that the C calls get their share.
fn noise(random: &mut Random, most: usize) -> Question {
    let rules = bytes(random, most, b"aaabb/**?[]\\!^-: \n\n   \r\t#=\"\xef\xbb\xbf");
    let path = path(random, most / 4);
    let name = random.chance(50).then(|| name(random));
    let flags = if random.chance(2) { random.number() } else { random.below(4) as u64 };
    let mut question = Question { name, ..Question::one_file(&rules, &path, None, flags) };
    if random.chance(40) {
        let files = random.below(6);
        question.ends = (0..files).map(|_| random.below(rules.len() + 1)).collect();
        if random.chance(90) {
            question.ends.sort_unstable();
            question.ends.iter_mut().rev().take(1).for_each(|end| *end = rules.len());
        }
        question.bases = (0..files).map(|_| base(random, &path)).collect();
    }
    question
}

/// Mostly one that the rule bytes may name.
fn name(random: &mut Random) -> Vec<u8> {
    match random.chance(90) {
        true => vec![*random.pick(b"ab"); random.from(1, 2)],
        false => bytes(random, 3, b"ab-._9="),
    }
}

/// Any bytes but 0, or only those that mean something.
fn bytes(random: &mut Random, most: usize, dense: &[u8]) -> Vec<u8> {
    let length = random.below(most + 1);
    let all = random.chance(25);
    (0..length).map(|_| if all { random.from(1, 255) as u8 } else { *random.pick(dense) }).collect()
}

/// Mostly with good components, and then with a control byte rarely.
fn path(random: &mut Random, most: usize) -> Vec<u8> {
    let mut path = bytes(random, most + 2, b"aab//.[]*\\ !#\xef\xbb\xbf");
    if random.chance(95) {
        path.dedup_by(|x, y| *x == b'/' && *y == b'/');
        path.iter_mut().for_each(|x| *x = if *x == b'.' || x.is_ascii_control() { b'b' } else { *x });
        while path.first() == Some(&b'/') {
            path.remove(0);
        }
        while path.last() == Some(&b'/') {
            path.pop();
        }
    }
    if random.chance(1) && !path.is_empty() {
        *random.pick_mut(&mut path) = *random.pick(CONTROL);
    }
    path
}

/// Mostly a good one.
fn base(random: &mut Random, path: &[u8]) -> usize {
    let good: Vec<usize> = (1..path.len()).filter(|&at| path[at - 1] == b'/').collect();
    match random.below(20) {
        0 => random.below(path.len() + 2),
        1..=9 if !good.is_empty() => *random.pick(&good),
        _ => 0,
    }
}
