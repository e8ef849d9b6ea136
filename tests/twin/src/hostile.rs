//! Random bytes, long runs and sizes near the limits.
use crate::check::Check;
use crate::families::families;
use crate::matcher::Matcher;
use crate::random::Random;

/// `small` cases of short random bytes, then `large` cases near the limits.
pub fn run<M: Matcher>(check: &mut Check<M>, random: &mut Random, small: u64, large: u64) {
    for _ in 0..small {
        let pattern = noise(random, 24);
        let text = noise(random, 24);
        check.case(&pattern, &text, random.below(4) as u64);
    }
    for _ in 0..large {
        let (pattern, text) = near_limits(random);
        check.case(&pattern, &text, random.below(4) as u64);
    }
    for family in families() {
        for (_, text) in family.texts(4096) {
            for flags in 0..4 {
                check.case(&family.pattern(2048), &text, flags);
            }
        }
    }
}

/// Any bytes but 0, at times only those that mean something.
fn noise(random: &mut Random, most: usize) -> Vec<u8> {
    let length = random.below(most + 1);
    let dense = random.chance(50);
    (0..length).map(|_| if dense { *random.pick(b"ab/*?[]\\!^-:") } else { random.from(1, 255) as u8 }).collect()
}

/// Rows of a few repeated units, up to the limits and a little over them.
fn near_limits(random: &mut Random) -> (Vec<u8>, Vec<u8>) {
    let units: [&[u8]; 16] = [
        b"*",
        b"**/",
        b"/**",
        b"*a",
        b"?",
        b"[a-z]",
        b"\\a",
        b"a/",
        b"/",
        b"[!/]",
        b"[[:alpha:]]",
        b"**\\/",
        b"***/",
        b"a",
        b"[]-a]",
        b"ab*",
    ];
    let fills: [&[u8]; 5] = [b"a", b"a/", b"ab/", b"/", b"aaaaaaaaab"];
    let pattern = rows(random, &units, 2048);
    let text = rows(random, &fills, 4096);
    (pattern, text)
}

/// A few rows, each of one unit; the whole is about `limit` long.
fn rows(random: &mut Random, units: &[&[u8]], limit: usize) -> Vec<u8> {
    let mut bytes = Vec::new();
    let parts = random.from(1, 4);
    for _ in 0..parts {
        let unit = *random.pick(units);
        for _ in 0..limit / parts / unit.len() {
            bytes.extend_from_slice(unit);
        }
    }
    // Rarely over the limit; else cut to it, which may break the last item.
    let over = if random.chance(5) { 1 } else { 0 };
    bytes.resize(limit + over - random.below(3), b'b');
    bytes
}
