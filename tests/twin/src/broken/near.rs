//! Patterns that are nearly broken and are not.
use crate::answer::Answer;
use crate::check::Check;
use crate::matcher::Matcher;

/// Pattern, text, and the code: in all modes. None of them takes a byte more.
const NEAR: [(&str, &str, u32); 44] = [
    // Nothing to read, and what looks like the end of a class.
    ("", "", 1),
    ("", "a", 0),
    ("]", "]", 1),
    ("a]", "a]", 1),
    // `\x` is the literal x, a `\` and a `[` too.
    ("\\\\", "\\", 1),
    ("\\\\\\\\", "\\\\", 1),
    ("a\\b", "ab", 1),
    ("\\[", "[", 1),
    ("\\[a-z", "[a-z", 1),
    ("\\\\[a]", "\\a", 1),
    // "a `]` as first member is a member".
    ("[]]", "]", 1),
    ("[!]]", "a", 1),
    ("[!]]", "]", 0),
    ("[^]]", "]", 0),
    ("[]-]", "-", 1),
    ("[]a]", "a", 1),
    // An escaped `]` closes nothing; the one behind it does.
    ("[\\]]", "]", 1),
    ("[a\\]]", "]", 1),
    ("[\\\\]", "\\", 1),
    ("[A-\\]]", "B", 1),
    ("[a-\\]]", "a", 1),
    ("[a-\\\\]", "a", 1),
    // `-` before the end is plain.
    ("[a-]", "-", 1),
    ("[--]", "-", 1),
    ("[[:alpha:]-]", "-", 1),
    // `[` is a plain member, and after `[:` too where the next `]` is not behind a `:`.
    ("[[]", "[", 1),
    ("[[a]", "a", 1),
    ("[[:]", "[", 1),
    ("[[:]", ":", 1),
    ("[[:]", "a", 0),
    ("[a[:]", ":", 1),
    ("[[:a]", ":", 1),
    ("[[:]:]]", "[:]]", 1),
    ("[[:a]b:]]", "ab:]]", 1),
    ("[[=a=]]", "=]", 1),
    ("[[=a=]]", "a]", 1),
    ("[[.a.]]", ".]", 1),
    ("[[:alpha:]]", "a", 1),
    ("[:alpha:]", "l", 1),
    ("[:]", ":", 1),
    ("[!:]", ":", 0),
    // A `[` that is escaped or ends a range begins no name.
    ("[\\[:foo:]", "o", 1),
    ("[a-[:foo:]]", "o]", 1),
    ("[a-\\[:foo:]]", "a]", 1),
];

pub fn run<M: Matcher>(check: &mut Check<M>) {
    for (pattern, text, code) in NEAR {
        for flags in 0..4 {
            check.expect(pattern.as_bytes(), text.as_bytes(), flags, Answer::code(code));
            check.expect(pattern.as_bytes(), format!("{text}\u{1}").as_bytes(), flags, Answer::code(0));
        }
        check.expect_alone(pattern.as_bytes(), None);
    }
}
