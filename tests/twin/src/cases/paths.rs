//! Random paths from a small alphabet, and patterns that often match them.
use crate::random::Random;

/// Components: plain ones mostly, so that lines and paths meet often; then
/// those that a line must escape, or that nearly are something else. One has a
/// control byte, for which its path is refused; more would refuse too many.
const COMMON: [&str; 8] = ["a", "b", "ab", "ba", "a.b", "A", "aB", "abc"];
const ODD: [&[u8]; 26] = [
    b"...",
    b".a",
    b"a.",
    b"a ",
    b" a",
    b" ",
    b"~",
    b"a\x80",
    b"#a",
    b" #a",
    b"!a",
    b"!",
    b"#",
    b"\\",
    b"a\\",
    b"[a]",
    b"*",
    b"?a",
    b"a\r",
    b"\"a\"",
    b"[attr]a",
    b"\xef\xbb\xbfa",
    b"\xef\xbb\xbf",
    b"\xc3\xa9",
    b"a b",
    b"-",
];
/// Bytes that a line may hold and no path.
pub const CONTROL: &[u8] = b"\x01\t\n\x0b\r\x1f\x7f";

pub type Words = Vec<Vec<u8>>;

/// The components of a path.
pub fn components(random: &mut Random) -> Words {
    let most = if random.chance(4) { 14 } else { 4 };
    (0..random.from(1, most)).map(|_| component(random)).collect()
}

fn component(random: &mut Random) -> Vec<u8> {
    match random.below(100) {
        0..=87 => random.pick(&COMMON).as_bytes().to_vec(),
        88..=97 => random.word(&ODD).to_vec(),
        _ => (0..random.from(1, 9)).map(|_| *random.pick(b"ab.AB")).collect(),
    }
}

/// A pattern for what follows the base, as often as not one that matches the
/// path or one of its parents.
pub fn pattern(random: &mut Random, below_base: &[Vec<u8>]) -> Vec<u8> {
    if random.chance(4) {
        let pair = crate::grammar::pair(random);
        return pair.pattern.into_iter().filter(|&x| x != b'\n').collect();
    }
    let upto = random.from(1, below_base.len());
    let words = &below_base[..upto];
    let mut pattern =
        if random.chance(50) { component_pattern(random, words.last().unwrap()) } else { anchored(random, words) };
    if random.chance(6) {
        crate::grammar::mutate(random, &mut pattern);
    }
    pattern
}

/// The components joined; some give way to a run that crosses.
fn anchored(random: &mut Random, words: &[Vec<u8>]) -> Vec<u8> {
    let mut parts: Words = Vec::new();
    for word in words {
        let crossed = parts.last().is_some_and(|last| last.starts_with(b"**") && last.ends_with(b"**"));
        match random.below(10) {
            0..=1 if !crossed => parts.push(crossing(random)),
            0..=1 => {} // the run before takes this one too
            2 => parts.extend([crossing(random), component_pattern(random, word)]),
            _ => parts.push(component_pattern(random, word)),
        }
    }
    let front = match random.below(10) {
        0..=4 => b"/".to_vec(),
        5 => [&crossing(random)[..], b"/"].concat(),
        6 if words.len() == 1 => b"//".to_vec(),
        _ => Vec::new(),
    };
    [front, parts.join(&b"/"[..])].concat()
}

/// Two stars or, as often, more.
fn crossing(random: &mut Random) -> Vec<u8> {
    vec![b'*'; *random.pick(&[2, 2, 2, 3, 4, 10])]
}

/// One component as a pattern that takes it, or nearly.
fn component_pattern(random: &mut Random, word: &[u8]) -> Vec<u8> {
    let (first, rest) = word.split_first().expect("a component has bytes");
    match random.below(22) {
        0..=7 => word.to_vec(),
        8 => escaped(word),
        9 => b"*".to_vec(),
        10 => vec![b'?'; word.len()],
        11 => [&[*first], &b"*"[..]].concat(),
        12 => [b"*", rest].concat(),
        13 => [b"[ab]", rest].concat(),
        14 => [b"[!b]", rest].concat(),
        15 => [b"[[:alpha:]]", rest].concat(),
        16 => [&b"[A-Z"[..], &[*first], b"]*"].concat(),
        17 => [&crossing(random)[..], rest].concat(),
        18 => [&[*first], &b"***"[..]].concat(),
        19 => word.to_ascii_uppercase(),
        20 => word.to_ascii_lowercase(),
        21 if random.chance(50) => with_control(random, word),
        _ => random.pick(&COMMON).as_bytes().to_vec(),
    }
}

/// The component with a control byte behind it, also escaped, or within, which
/// takes no path unless a line's end or a blank drops that byte; and one that
/// takes the component, the control byte in a class.
fn with_control(random: &mut Random, word: &[u8]) -> Vec<u8> {
    let x = *random.pick(CONTROL);
    let (first, rest) = word.split_first().expect("a component has bytes");
    match random.below(4) {
        0 => [word, &[x]].concat(),
        1 => [word, &[b'\\', x]].concat(),
        2 => [word, &[x], word].concat(),
        _ => [&[b'[', x, *first, b']'], rest].concat(),
    }
}

fn escaped(word: &[u8]) -> Vec<u8> {
    word.iter().flat_map(|&x| [b'\\', x]).collect()
}
