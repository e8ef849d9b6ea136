//! Each way in which a pattern is broken (document 01, "Patterns") and the place
//! where its first broken item begins (document 02, R-14), and what is nearly
//! broken. What is expected is known from how a pattern is put together.
mod near;
mod refused;
mod traps;
mod ways;

use crate::answer::Answer;
use crate::check::Check;
use crate::matcher::Matcher;
use ways::{BEHIND, FRONTS, NAMED, UNCLOSED};

/// A pattern's most bytes.
const LIMIT: usize = 2048;

pub fn run<M: Matcher>(check: &mut Check<M>) {
    traps::run(check);
    near::run(check);
    fronts(check);
    behind_items(check);
    at_the_limit(check);
    every_place(check);
    alone(check);
    refused::run(check);
}

/// Expects that the pattern is broken at this place, in the four modes.
fn broken<M: Matcher>(check: &mut Check<M>, pattern: &[u8], text: &[u8], place: usize) {
    for flags in 0..4 {
        check.expect(pattern, text, flags, Answer::broken(place));
    }
}

/// Every broken item, with what may stand behind it and changes nothing.
fn ways() -> Vec<String> {
    let named = NAMED.into_iter().flat_map(|way| BEHIND.map(|behind| [way, behind].concat()));
    UNCLOSED.into_iter().map(String::from).chain(named).collect()
}

/// The fronts alone take what they are said to, and nothing of what fails at once.
fn fronts<M: Matcher>(check: &mut Check<M>) {
    for (front, taken, failing) in FRONTS {
        for flags in 0..4 {
            check.expect(front.as_bytes(), taken.as_bytes(), flags, Answer::code(1));
            for text in failing.into_iter().flat_map(|text| ["", text]) {
                check.expect(front.as_bytes(), text.as_bytes(), flags, Answer::code(0));
            }
        }
    }
}

/// Behind each kind of item, with a text that the items before take, the same
/// with the broken item's own bytes, one that fails at once, or any byte where
/// there is none, and no text.
fn behind_items<M: Matcher>(check: &mut Check<M>) {
    let ways = ways();
    for (front, taken, failing) in FRONTS {
        for way in &ways {
            for text in [taken, &[taken, way].concat(), failing.unwrap_or("\u{1}"), ""] {
                broken(check, [front, way].concat().as_bytes(), text.as_bytes(), front.len());
            }
        }
    }
}

/// The broken item ends with the longest pattern's last byte; one of a single
/// byte begins there. Before it stands an item of each kind, again and again;
/// alone these are unbroken.
fn at_the_limit<M: Matcher>(check: &mut Check<M>) {
    let ways = ways();
    for (front, ..) in FRONTS {
        check.case(filled(front, LIMIT).as_bytes(), b"\x01", 1);
        check.expect_alone(filled(front, LIMIT).as_bytes(), None);
        for way in &ways {
            let place = LIMIT - way.len();
            broken(check, &[filled(front, place), way.clone()].concat().into_bytes(), b"a", place);
        }
    }
}

/// So many bytes of a unit again and again; letters where it does not fit any more.
fn filled(unit: &str, len: usize) -> String {
    let times = len.checked_div(unit.len()).unwrap_or(0);
    format!("{:a<len$}", unit.repeat(times))
}

/// A broken item at each place; one that begins a pattern of each length.
fn every_place<M: Matcher>(check: &mut Check<M>) {
    for place in 0..LIMIT {
        let front = "a".repeat(place);
        for flags in [0, 3] {
            check.expect([&front, "\\"].concat().as_bytes(), b"", flags, Answer::broken(place));
            check.expect([&front, "["].concat().as_bytes(), front.as_bytes(), flags, Answer::broken(place));
            check.expect(["[", &front].concat().as_bytes(), b"a", flags, Answer::broken(0));
        }
    }
}

/// Any bytes can be asked about alone, also those for which a call is refused:
/// byte 0 is literal, and there is no limit.
fn alone<M: Matcher>(check: &mut Check<M>) {
    check.expect_alone(b"\0", None);
    check.expect_alone(b"\\\0", None);
    check.expect_alone(b"[\0]", None);
    check.expect_alone(b"\0[\0", Some(1));
    check.expect_alone(b"[\0-\\", Some(0));
    check.expect_alone(b"[[:alpha\0:]]", Some(0));
    for (front, ..) in FRONTS {
        for len in [LIMIT + 1, 4097, 19_000] {
            let unbroken = filled(front, len);
            check.expect_alone(unbroken.as_bytes(), None);
            for way in ways() {
                check.expect_alone([&unbroken, "\0", &way].concat().as_bytes(), Some(len + 1));
            }
        }
    }
}
