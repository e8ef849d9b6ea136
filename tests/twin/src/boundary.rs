//! Every boundary of refusals 7, 8 and 9, and the lowest where several hold.
use crate::check::Check;
use crate::matcher::Matcher;
use crate::twin;

const FLAGS: [u64; 12] = [0, 1, 2, 3, 4, 5, 255, 1 << 32, (1 << 32) + 1, 1 << 63, u64::MAX - 1, u64::MAX];
const PATTERN_LENGTHS: [usize; 7] = [0, 1, 2, 2047, 2048, 2049, 4097];
const TEXT_LENGTHS: [usize; 8] = [0, 1, 2, 2049, 4095, 4096, 4097, 8193];

pub fn run<M: Matcher>(check: &mut Check<M>) {
    for fill in [b'a', b'*', b'?', b'/', b'\\', b'[', 0xff] {
        lengths(check, fill);
    }
    zero_bytes(check);
    every_byte(check);
    control_bytes(check);
    words(check);
    far_over(check);
    for flags in FLAGS {
        let got = check.asker.matcher.ask_null(flags);
        check.judge(b"", b"", flags, twin::answer(b"", b"", flags), got);
    }
}

/// Both lengths over their limits and under, with every flags number.
fn lengths<M: Matcher>(check: &mut Check<M>, fill: u8) {
    for pattern in PATTERN_LENGTHS {
        for text in TEXT_LENGTHS {
            for flags in FLAGS {
                check.case(&vec![fill; pattern], &vec![b'a'; text], flags);
            }
        }
    }
}

/// Byte 0 nowhere, first, in the middle and last, in each and in both; at
/// every length up to 40 each place, so that no block or tail of a scan is
/// left out.
fn zero_bytes<M: Matcher>(check: &mut Check<M>) {
    for pattern in PATTERN_LENGTHS {
        for text in TEXT_LENGTHS {
            for p in places(pattern) {
                for t in places(text) {
                    for flags in FLAGS {
                        check.case(&zeroed(pattern, p), &zeroed(text, t), flags);
                    }
                }
            }
        }
    }
    for length in 1..=40 {
        for place in 0..length {
            check.case(&zeroed(length, Some(place)), b"a", 1);
            check.case(b"*", &zeroed(length, Some(place)), 1);
        }
    }
    for place in 0..4096 {
        check.case(b"*", &zeroed(4096, Some(place)), 1);
        check.case(&zeroed(2048, Some(place / 2)), b"a", 1);
    }
}

fn places(length: usize) -> Vec<Option<usize>> {
    let mut places = vec![None];
    if length > 0 {
        places.extend([Some(0), Some(length / 2), Some(length - 1)]);
    }
    places.dedup();
    places
}

fn zeroed(length: usize, place: Option<usize>) -> Vec<u8> {
    holding(length, place, 0)
}

fn holding(length: usize, place: Option<usize>, x: u8) -> Vec<u8> {
    let mut bytes = vec![b'a'; length];
    if let Some(place) = place {
        bytes[place] = x;
    }
    bytes
}

/// Refusal 8 is byte 0 alone: every other byte is taken in the text and in the
/// pattern, control bytes too. The text is no path.
fn every_byte<M: Matcher>(check: &mut Check<M>) {
    for x in 0..=255 {
        for flags in 0..4 {
            check.case(b"?", &[x], flags);
            check.case(b"*", &[b'a', x, b'b'], flags);
            check.case(b"[[:space:]]", &[x], flags);
            check.case(b"[![:cntrl:]]", &[x], flags);
            check.case(&[b'a', x], &[b'a', x], flags);
            check.case(&[b'[', x, b'a', b']'], b"a", flags);
        }
    }
}

/// A control byte at each place of a text and of a pattern: not refused.
fn control_bytes<M: Matcher>(check: &mut Check<M>) {
    for x in [1, 10, 31, 127] {
        for length in (1..=70).chain([2048]) {
            for place in (0..length).step_by(1 + length / 100) {
                let bytes = holding(length, Some(place), x);
                check.case(b"*", &bytes, 1);
                check.case(&bytes, &bytes, 1);
            }
        }
    }
}

/// Refusal 7 far over the limits, byte 0 and flags bad as well.
fn far_over<M: Matcher>(check: &mut Check<M>) {
    let long = vec![0; 5_000_000];
    for (pattern, text) in [(&long[..], &b"a"[..]), (b"a", &long), (&long, &long)] {
        for flags in FLAGS {
            let want = twin::answer(pattern, text, flags);
            let got = check.asker.matcher.ask_bare(pattern, text, flags);
            check.judge(&[], &[], flags, want, got);
        }
    }
}

/// Every flags number of one bit and of few bits: none of the 64 is dropped.
fn words<M: Matcher>(check: &mut Check<M>) {
    for bit in 0..64 {
        for low in 0..4 {
            check.case(b"[a-z]/B", b"A/b", 1 << bit | low);
        }
    }
}
