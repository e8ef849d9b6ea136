//! Refusal 2: how many files, lists of different lengths, ends and bases.
use super::{both, one_file};
use crate::asking::check::Check;
use crate::asking::Asks;
use crate::reader::Question;

pub fn run<A: Asks>(check: &mut Check<A>) {
    lists(check);
    bases(check);
}

/// How many files, lists of different lengths, ends.
fn lists<A: Asks>(check: &mut Check<A>) {
    let rules = b"a fill\n* -fill\n".to_vec();
    let counts = [0, 1, 2, 3, 63, 64, 65, 66, 100];
    for ends in counts {
        for bases in counts {
            for rules in [&rules[..], b""] {
                let ends = vec![rules.len(); ends];
                let question = Question { ends, bases: vec![0; bases], ..one_file(rules, b"a") };
                both(check, &question);
                // The last file alone holds the lines: its number is the answer's.
                let mut question = question;
                question.ends.iter_mut().rev().skip(1).for_each(|end| *end = 0);
                both(check, &question);
            }
        }
    }
    let length = rules.len();
    for a in odd_ends(length) {
        both(check, &Question { ends: vec![a], ..one_file(&rules, b"a") });
        for b in odd_ends(length) {
            both(check, &Question { ends: vec![a, b], bases: vec![0; 2], ..one_file(&rules, b"a") });
            for c in odd_ends(length) {
                both(check, &Question { ends: vec![a, b, c], bases: vec![0; 3], ..one_file(&rules, b"a") });
            }
        }
    }
}

/// Places before, in, at and behind the rule bytes.
fn odd_ends(length: usize) -> [usize; 9] {
    [0, 1, 7, length - 1, length, length + 1, 1 << 32, usize::MAX - 1, usize::MAX]
}

/// Bases before, in, at and behind the path.
fn bases<A: Asks>(check: &mut Check<A>) {
    let rules = b"c fill\n/c -fill\n*\n".to_vec();
    for path in ["a", "ab", "a/c", "ab/c", "a/b/c", "ab/cd/c"] {
        let far = [1 << 32, (1 << 32) + 2, 1 << 63, usize::MAX - 1, usize::MAX];
        for base in (0..=path.len() + 3).chain(far) {
            let question = Question { bases: vec![base], ..one_file(&rules, path.as_bytes()) };
            both(check, &question);
            for other in [0, 2, path.len()] {
                let ends = vec![7, rules.len()];
                both(check, &Question { ends, bases: vec![other, base], ..question.clone() });
            }
        }
    }
}
