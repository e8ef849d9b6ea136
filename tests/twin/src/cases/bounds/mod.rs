//! Every boundary of the refusal table on both sides, and several refusals at
//! once.
mod lists;
mod paths;
mod rules;

use crate::asking::check::Check;
use crate::asking::Asks;
use crate::reader::Question;

const FLAGS: [u64; 14] = [0, 1, 2, 3, 4, 5, 7, 255, 256, 1 << 32, (1 << 32) + 1, 1 << 63, u64::MAX - 1, u64::MAX];

pub fn run<A: Asks>(check: &mut Check<A>) {
    paths::run(check);
    lists::run(check);
    rules::run(check);
    names(check);
    flags(check);
    several(check);
    far_over(check);
}

/// Both questions; an attribute line is an ignore line too.
fn both<A: Asks>(check: &mut Check<A>, question: &Question) {
    for name in [None, Some(b"fill".to_vec())] {
        check.case(&Question { name, ..question.clone() });
    }
}

fn one_file(rules: &[u8], path: &[u8]) -> Question {
    Question::one_file(rules, path, None, 0)
}

fn holding(bytes: &[u8], place: usize, x: u8) -> Vec<u8> {
    let mut bytes = bytes.to_vec();
    bytes[place] = x;
    bytes
}

/// 6: lengths, and every byte alone, first and later. Names on lines are not
/// bounded.
fn names<A: Asks>(check: &mut Check<A>) {
    let mut ask = |rules: &[u8], name: &[u8]| check.case(&Question::one_file(rules, b"a", Some(name), 0));
    for length in [0, 1, 2, 254, 255, 256, 257, 1000] {
        let name = vec![b'n'; length];
        ask(&[b"a ", &name[..], b"\n"].concat(), &name);
        ask(&[b"a fill ", &vec![b'n'; length.max(1)][..], b"\n"].concat(), b"fill");
    }
    for x in 0..=255u8 {
        for name in [vec![x], vec![b'a', x], vec![x, b'a'], vec![b'a', x, b'a']] {
            ask(b"a fill\n", &name);
            if x != 0 {
                // The same bytes on the line: good or dropped whole.
                ask(&[b"a fill ", &name[..], b"\n"].concat(), b"fill");
                ask(&[b"a ", &name[..], b"=v -fill\n"].concat(), &name);
            }
        }
    }
}

/// 9: none of the 64 bits is dropped.
fn flags<A: Asks>(check: &mut Check<A>) {
    let question = one_file(b"A/ fill\nA/\n", b"a");
    for flags in FLAGS {
        both(check, &Question { flags, ..question.clone() });
    }
    for bit in 0..64 {
        for low in 0..4 {
            both(check, &Question { flags: 1 << bit | low, ..question.clone() });
        }
    }
}

/// One change for each refusal but the first that makes it hold and touches no
/// other.
const CHANGES: [fn(&mut Question); 6] = [
    |question| question.bases.push(2),
    |question| question.lengthen(&b"#\n".repeat(32_768)),
    |question| question.lengthen(b"\0\n"),
    |question| question.lengthen(&[vec![b'#'; 2049], b"\n".to_vec()].concat()),
    |question| question.name = Some(b"-x".to_vec()),
    |question| question.flags = 7,
];

/// A good path, and those that refusal 1 turns away: for a component, and for
/// a control byte first, in a parent, and last.
const PATHS: [&[u8]; 5] = [b"a/cc/b", b"a/../b", b"\x1f/cc/b", b"a/c\n/b", b"a/cc/b\x7f"];

/// Every set of refusals: the lowest is answered.
fn several<A: Asks>(check: &mut Check<A>) {
    for path in PATHS {
        for set in 0..1 << CHANGES.len() {
            for name in [None, Some(b"fill".to_vec())] {
                check.case(&changed(set, Question { name, ..one_file(b"b fill\n", path) }));
            }
        }
    }
}

/// The question with the changes of this set, a bit each.
fn changed(set: u32, mut question: Question) -> Question {
    for (bit, change) in CHANGES.iter().enumerate() {
        if set >> bit & 1 == 1 {
            change(&mut question);
        }
    }
    question
}

impl Question {
    /// More rule bytes in the last file.
    fn lengthen(&mut self, bytes: &[u8]) {
        self.rules.extend_from_slice(bytes);
        *self.ends.last_mut().unwrap() = self.rules.len();
    }
}

/// Buffers far over the limits, with other refusals as well.
fn far_over<A: Asks>(check: &mut Check<A>) {
    let long = vec![0; 3_000_000];
    let short = one_file(b"a fill\n", b"a");
    for flags in FLAGS {
        for name in [None, Some(b"fill".to_vec()), Some(long.clone())] {
            let question = Question { name, flags, ..short.clone() };
            check.bare_case(&question);
            check.bare_case(&Question { path: long.clone(), ..question.clone() });
            let rules = Question { rules: long.clone(), ends: vec![long.len()], ..question };
            check.bare_case(&rules);
            check.bare_case(&Question { path: long.clone(), ..rules });
        }
    }
    check.bare_case(&Question { ends: vec![7; 100_000], bases: vec![0; 100_000], ..short });
}
