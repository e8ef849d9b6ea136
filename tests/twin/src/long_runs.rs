//! Runs of one star, two, three, four and ten beside all that may decide whether
//! they cross: document 02's R-2, "any run of two or more as it treats two". The
//! exhaustive sets have runs of up to nine stars, but few beside a class or `\/`.
//! Then longer runs, up to the pattern's limit.
use crate::check::Check;
use crate::exhaustive::texts;
use crate::matcher::Matcher;

const RUNS: [&str; 5] = ["*", "**", "***", "****", "**********"];
/// Nothing, so that the run starts the pattern; a literal, `/`, `\/`, `[/]`, `?`;
/// and bytes that look like one of these.
const BEFORE: [&str; 14] =
    ["", "a", "/", "a/", "\\/", "a\\/", "[/]", "a[/]", "[a/]", "?", "/?", "\\*", "[*/]", "/\\\\"];
/// The same after the run; at the end, and with more behind.
const AFTER: [&str; 14] = ["", "b", "/", "/b", "\\/", "\\/b", "[/]", "[/]b", "[/b]", "?", "?/b", "\\b", "\\", "//"];

pub fn run<M: Matcher>(check: &mut Check<M>) {
    // With no slash, one and several; some with the star that `\*` takes.
    let texts: Vec<_> = texts(b"ab/", 0, 5).into_iter().chain(texts(b"*/b", 3, 4)).collect();
    for before in BEFORE {
        for stars in RUNS {
            for after in AFTER {
                check.pattern([before, stars, after].concat().as_bytes(), &texts);
            }
        }
    }
    for pattern in pairs_of_runs().iter().chain(&long_to_the_limit()) {
        check.pattern(pattern.as_bytes(), &texts);
    }
}

/// Two runs, each of any of the lengths, with something between them.
fn pairs_of_runs() -> Vec<String> {
    let mut pairs = Vec::new();
    for first in RUNS {
        for between in ["/", "\\/", "[/]", "?", "a", "/a/", "\\*"] {
            for second in RUNS {
                pairs.extend(["", "/b"].map(|after| ["a/", first, between, second, after].concat()));
            }
        }
    }
    pairs
}

/// Runs that a count in a byte, or up to some number, would get wrong; the
/// longest fills the pattern.
fn long_to_the_limit() -> Vec<String> {
    let runs = [11, 64, 255, 256, 257, 258, 2044].map(|stars| "*".repeat(stars));
    runs.iter().flat_map(|run| ["a/", "", "a"].map(|before| [before, run, "/b"].concat())).collect()
}
