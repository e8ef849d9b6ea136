//! Every small pattern against every small text, in the four modes.
use crate::check::Check;
use crate::class::TWELVE;
use crate::fence::Fence;
use crate::matcher::Matcher;
use crate::words::words;

/// How far a set goes: the quick run and the full run.
#[derive(Clone, Copy, PartialEq)]
pub enum Extent {
    Quick,
    Full,
}

impl Extent {
    fn pick(self, quick: usize, full: usize) -> usize {
        if self == Extent::Quick {
            quick
        } else {
            full
        }
    }
}

pub fn run<M: Matcher>(check: &mut Check<M>, extent: Extent) {
    items(check, extent);
    runs(check, extent);
    class_bodies(check, extent);
    names(check);
    ranges(check, extent);
    literals(check);
}

/// Every text over these letters that is from `least` to `most` long.
pub fn texts(letters: &[u8], least: usize, most: usize) -> Vec<Fence> {
    let mut texts = Vec::new();
    words(letters, least, most, |word| texts.push(Fence::holding(word)));
    texts
}

/// All items at once, the patterns short.
fn items<M: Matcher>(check: &mut Check<M>, extent: Extent) {
    let texts = texts(b"a/-", 0, extent.pick(3, 4));
    words(b"a/*?[]\\!-", 0, extent.pick(4, 5), |pattern| check.pattern(pattern, &texts));
}

/// Runs and slashes alone, the patterns longer.
fn runs<M: Matcher>(check: &mut Check<M>, extent: Extent) {
    let texts = texts(b"a/", 0, extent.pick(5, 6));
    words(b"a/*", 5, extent.pick(7, 9), |pattern| check.pattern(pattern, &texts));
    words(b"/*\\?", 5, extent.pick(5, 7), |pattern| check.pattern(pattern, &texts));
}

/// What may stand between `[` and `]`, against every byte it may name, with
/// and without the tail that is left if the class closes early.
fn class_bodies<M: Matcher>(check: &mut Check<M>, extent: Extent) {
    let mut texts = Vec::new();
    for &x in b"][:aA-\\!^_/b" {
        texts.push(Fence::holding(&[x]));
        texts.push(Fence::holding(&[x, b']']));
    }
    words(b"][:a-\\!^", 0, extent.pick(4, 5), |body| {
        check.pattern(&[b"[", body].concat(), &texts);
        check.pattern(&[b"[", body, b"]"].concat(), &texts);
    });
    words(b":]a-[", 0, extent.pick(4, 6), |body| {
        check.pattern(&[b"[[:", body, b"]"].concat(), &texts);
        check.pattern(&[b"[[:alpha:]", body, b"]"].concat(), &texts);
    });
}

fn every_byte() -> Vec<Fence> {
    (1..=255).map(|x| Fence::holding(&[x])).collect()
}

/// Each name, and names that are nearly one, against every byte.
fn names<M: Matcher>(check: &mut Check<M>) {
    let texts = every_byte();
    for name in TWELVE {
        let (cut, longer) = (&name[1..], format!("{name}s"));
        for name in [name, cut, &longer, &name.to_uppercase()] {
            check.pattern(format!("[[:{name}:]]").as_bytes(), &texts);
            check.pattern(format!("[![:{name}:]]").as_bytes(), &texts);
        }
        check.pattern(format!("[^a[:{name}:]-]").as_bytes(), &texts);
    }
}

/// Ranges between bytes at the edges of letters, digits, ASCII and bytes,
/// against every byte.
fn ranges<M: Matcher>(check: &mut Check<M>, extent: Extent) {
    let texts = every_byte();
    let edges: &[u8] = b"\x01AZaz[`-/\xff @{09\x7f\x80]!";
    for &low in &edges[..extent.pick(10, edges.len())] {
        for &high in edges {
            check.pattern(&[b'[', b'\\', low, b'-', b'\\', high, b']'], &texts);
            check.pattern(&[b'[', b'^', b'x', low, b'-', high, b']'], &texts);
        }
    }
}

/// Every byte as a pattern and escaped, against every byte.
fn literals<M: Matcher>(check: &mut Check<M>) {
    let texts = every_byte();
    for x in 1..=255 {
        check.pattern(&[x], &texts);
        check.pattern(&[b'\\', x], &texts);
        check.pattern(&[b'[', b'\\', x, b']'], &texts);
    }
}
