//! Every small rule file over the bytes that mean something on a line: lines,
//! skips, strips and signs in every order.
use crate::asking::check::Check;
use crate::asking::Asks;
use crate::reader::Question;
use crate::words::words;

const IGNORE: &[u8] = b"a/!*\\ \n#\r";
/// The attribute asked for is `a`, and so is the path.
const ATTRIBUTE: &[u8] = b"a \r-!=\n#\"";

pub fn run<A: Asks>(check: &mut Check<A>, most: usize) {
    words(IGNORE, 0, most, |rules| ignore(check, rules));
    words(ATTRIBUTE, 0, most + 1, |rules| {
        check.case(&Question::one_file(rules, b"a", Some(b"a"), 0));
    });
    words(IGNORE, 0, most - 1, |rules| cut(check, rules, None));
    words(ATTRIBUTE, 0, most - 1, |rules| cut(check, rules, Some(b"a")));
}

/// Paths that short lines can match. The last is refused, whatever the lines
/// (02, R-8): a CR that a line keeps can match no path, and shows by what the
/// line no longer matches.
fn ignore<A: Asks>(check: &mut Check<A>, rules: &[u8]) {
    for path in [&b"a"[..], b"a/a", b"a ", b"!", b"#", b"\\", b" a", b"aa", b"a\r"] {
        for flags in 0..2 {
            check.case(&Question::one_file(rules, path, None, flags));
        }
    }
}

/// Two files, cut at every place, the second in the path's directory.
fn cut<A: Asks>(check: &mut Check<A>, rules: &[u8], name: Option<&[u8]>) {
    for end in 0..=rules.len() {
        for base in [0, 2] {
            let ends = vec![end, rules.len()];
            check.case(&Question { ends, bases: vec![0, base], ..Question::one_file(rules, b"a/a", name, 0) });
        }
    }
}
