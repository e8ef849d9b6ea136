//! Ways to misread document 02's R-14, each with an input that shows it.
use super::broken;
use crate::answer::Answer;
use crate::check::Check;
use crate::matcher::Matcher;

/// Pattern, text, place.
const TRAPS: [(&str, &str, usize); 20] = [
    // Broken only where matching comes to it.
    ("b[", "a", 1),
    ("b[", "", 1),
    ("*b[", "a", 2),
    ("**/b\\", "a/a", 4),
    // The place of what is missing or wrong inside the class.
    ("[a-z", "a", 0),
    ("[a-z", "[a-z", 0),
    ("x[[:foo:]]", "x", 1),
    ("[a\\", "a", 0),
    ("[a[:foo:]", "a", 0),
    // The place of the run before it, or of the `/` between them.
    ("***[", "a", 3),
    ("a/**/[", "a/", 5),
    // Places counted in items, or a `\` that the escape before has used.
    ("\\a\\", "a", 2),
    ("\\\\\\", "\\", 2),
    ("\\[\\]\\", "[]", 4),
    ("[a][b][", "ab", 6),
    // The last broken item, or another one behind the first.
    ("[[:alpha:]][[:bad:]]\\", "a", 11),
    ("[[:bad:]][[:bad:]]", "", 0),
    ("a[[:bad:]]b[", "", 1),
    // P1, with another text too.
    ("foo\\", "foo\\", 3),
    ("foo\\", "bar", 3),
];

pub fn run<M: Matcher>(check: &mut Check<M>) {
    for (pattern, text, place) in TRAPS {
        broken(check, pattern.as_bytes(), text.as_bytes(), place);
        check.expect_alone(pattern.as_bytes(), Some(place));
    }
    let long = [b"[".as_slice(), &[b'a'; 2048]].concat();
    check.expect(b"[", b"a", 4, Answer::code(25));
    check.expect(b"[\0", b"a", 0, Answer::code(24));
    check.expect(b"[", b"\0", 4, Answer::code(24));
    check.expect(&long, b"a", 0, Answer::code(23));
    check.expect(&long, b"\0", 4, Answer::code(23));
}
