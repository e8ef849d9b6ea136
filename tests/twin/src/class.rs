//! Classes: "`[`, then perhaps `!` or `^` for "not", then members up to `]`".

pub struct Class {
    pub not: bool,
    /// The list before "not", unfolded.
    pub listed: [bool; 256],
}

/// What one member lists.
enum Member {
    /// A byte or `\x`.
    Single(u8),
    /// One of the twelve names.
    Name(fn(u8) -> bool),
}

/// Reads the class whose `[` stands before `at`; gives it and the place after
/// its `]`. "No closing `]` is broken."
pub fn read_class(pattern: &[u8], at: usize) -> Option<(Class, usize)> {
    let not = matches!(pattern.get(at), Some(b'!' | b'^'));
    let first = at + not as usize;
    let mut class = Class { not, listed: [false; 256] };
    let mut at = first;
    loop {
        // "a `]` as first member is a member"
        if *pattern.get(at)? == b']' && at > first {
            return Some((class, at + 1));
        }
        at = read_member(pattern, at, &mut class.listed)?;
    }
}

/// Lists the member or the range that starts at `at`; gives the place after
/// it. "After a range or a name, `-` is plain": the reader simply comes back
/// here at that `-` and takes it as a single member.
fn read_member(pattern: &[u8], at: usize, listed: &mut [bool; 256]) -> Option<usize> {
    match read_plain(pattern, at)? {
        (Member::Name(has), after) => {
            (0..=255u8).filter(|&b| has(b)).for_each(|b| listed[b as usize] = true);
            Some(after)
        }
        (Member::Single(low), after) => {
            listed[low as usize] = true; // "A range written high to low still lists its first byte."
            match read_range_end(pattern, after)? {
                None => Some(after),
                Some((high, after)) => {
                    (low..=high).for_each(|b| listed[b as usize] = true);
                    Some(after)
                }
            }
        }
    }
}

/// "a byte; `\x`; [...] one of the twelve names"
fn read_plain(pattern: &[u8], at: usize) -> Option<(Member, usize)> {
    match *pattern.get(at)? {
        b'\\' => pattern.get(at + 1).map(|&x| (Member::Single(x), at + 2)),
        b'[' if pattern.get(at + 1) == Some(&b':') => read_name(pattern, at),
        x => Some((Member::Single(x), at + 1)),
    }
}

/// "a range with `-` between a single member and a next byte other than `]`
/// (a `[` too) or any `\x`, `\]` too". Gives the range's end and the place
/// after it, `Some(None)` if there is no range at `at`, `None` if broken.
#[allow(clippy::type_complexity)]
fn read_range_end(pattern: &[u8], at: usize) -> Option<Option<(u8, usize)>> {
    if pattern.get(at) != Some(&b'-') {
        return Some(None);
    }
    match *pattern.get(at + 1)? {
        b']' => Some(None),
        b'\\' => pattern.get(at + 2).map(|&x| Some((x, at + 3))),
        x => Some(Some((x, at + 2))),
    }
}

/// `[:` stands at `at`. "After `[:` look for the next `]`: none, the pattern
/// is broken; if nothing stands between, or the byte before the `]` isn't `:`,
/// the inner `[` is a plain member and reading goes on at the `:`; a name
/// outside the twelve, the empty name too, is broken."
fn read_name(pattern: &[u8], at: usize) -> Option<(Member, usize)> {
    let from = at + 2;
    let between = pattern[from..].iter().position(|&x| x == b']')?;
    match pattern[from..from + between].split_last() {
        Some((b':', name)) => twelve(name).map(|has| (Member::Name(has), from + between + 1)),
        _ => Some((Member::Single(b'['), at + 1)),
    }
}

/// "the twelve names", in document 01's order.
pub const TWELVE: [&str; 12] =
    ["alnum", "alpha", "blank", "cntrl", "digit", "graph", "lower", "print", "punct", "space", "upper", "xdigit"];

/// "the twelve names [...] over ASCII as in the POSIX locale"
pub fn twelve(name: &[u8]) -> Option<fn(u8) -> bool> {
    Some(match name {
        b"alnum" => |b| b.is_ascii_alphanumeric(),
        b"alpha" => |b| b.is_ascii_alphabetic(),
        b"blank" => |b| b == b' ' || b == b'\t',
        b"cntrl" => |b| b < 32 || b == 127,
        b"digit" => |b| b.is_ascii_digit(),
        b"graph" => |b| b > 32 && b < 127,
        b"lower" => |b| b.is_ascii_lowercase(),
        b"print" => |b| (32..127).contains(&b),
        b"punct" => |b| b > 32 && b < 127 && !b.is_ascii_alphanumeric(),
        b"space" => |b| b == b' ' || (9..=13).contains(&b),
        b"upper" => |b| b.is_ascii_uppercase(),
        b"xdigit" => |b| b.is_ascii_hexdigit(),
        _ => return None,
    })
}
