//! Random patterns from the grammar of items, each with a text derived from
//! it by filling the items in. Filling is a good guess and need not match: the
//! twin decides.
use crate::members::class;
use crate::random::Random;

/// A pattern and a text being written together.
#[derive(Default)]
pub struct Pair {
    pub pattern: Vec<u8>,
    pub text: Vec<u8>,
}

/// Bytes that mean something in a pattern, or lie beside those that do.
const SPECIAL: &[u8] = b"/*?[]\\!^-:.@`{|~ \x01\t\n\x0b\x0c\x0d\x1f\x7f\x80\xc3\xe9\xff";
const LETTERS: &[u8] = b"abcxyzABCXYZ019";

pub fn pair(random: &mut Random) -> Pair {
    let mut pair = Pair::default();
    let most = if random.chance(5) { 30 } else { 7 };
    for _ in 0..random.from(0, most) {
        item(random, &mut pair);
    }
    if random.chance(35) {
        mutate(random, &mut pair.text);
    }
    if random.chance(12) {
        mutate(random, &mut pair.pattern);
    }
    if random.chance(15) {
        change_case(random, &mut pair.text);
    }
    pair
}

fn item(random: &mut Random, pair: &mut Pair) {
    match random.below(100) {
        0..=27 => literal(random, pair),
        28..=33 => escape(random, pair),
        34..=41 => pair.write(b"?", &[byte(random)]),
        42..=55 => run(random, pair),
        56..=76 => slashes(random, pair),
        77..=97 => class(random, pair),
        98 => pair.write(b"\\", b""), // a trailing backslash, if nothing follows
        _ => pair.write(b"[", b""),   // unclosed, if no `]` follows
    }
}

impl Pair {
    fn write(&mut self, pattern: &[u8], text: &[u8]) {
        self.pattern.extend_from_slice(pattern);
        self.text.extend_from_slice(text);
    }
}

pub fn byte(random: &mut Random) -> u8 {
    match random.chance(75) {
        true => *random.pick(LETTERS),
        false => *random.pick(SPECIAL),
    }
}

/// Letters mostly, with few that start another item.
fn literal(random: &mut Random, pair: &mut Pair) {
    for _ in 0..random.from(1, 2) {
        let x = byte(random);
        pair.write(&[x], &[x]);
    }
}

fn escape(random: &mut Random, pair: &mut Pair) {
    let x = byte(random);
    pair.write(&[b'\\', x], &[x]);
}

/// One to ten stars; the text takes a few bytes, at times over a slash.
fn run(random: &mut Random, pair: &mut Pair) {
    let stars = *random.pick(&[1, 1, 1, 2, 2, 3, 4, 10]);
    let taken = some_bytes(random, 30);
    pair.write(&b"**********"[..stars], &taken);
}

fn some_bytes(random: &mut Random, slash: usize) -> Vec<u8> {
    let length = random.below(4);
    (0..length).map(|_| if random.chance(slash) { b'/' } else { byte(random) }).collect()
}

/// What makes a run cross, or nearly.
fn slashes(random: &mut Random, pair: &mut Pair) {
    let forms: [&[u8]; 20] = [
        b"/",
        b"/",
        b"/",
        b"**/",
        b"/**/",
        b"/**",
        b"**\\/",
        b"\\/**",
        b"\\/**\\/",
        b"***/",
        b"/***/",
        b"/***",
        b"***\\/",
        b"\\/***/",
        b"/**********/",
        b"/*/",
        b"[/]**/",
        b"[/]***/",
        b"/**/**/",
        b"/**/***/",
    ];
    let form = *random.pick(&forms);
    pair.pattern.extend_from_slice(form);
    for &x in form.iter().filter(|&&x| x == b'/' || x == b'*') {
        match x {
            b'/' if random.chance(85) => pair.text.push(b'/'),
            b'*' if random.chance(25) => pair.text.extend(some_bytes(random, 30)),
            _ => {}
        }
    }
}

/// Changes, drops or puts in one byte.
pub fn mutate(random: &mut Random, bytes: &mut Vec<u8>) {
    let place = random.below(bytes.len() + 1);
    let x = byte(random);
    match random.below(3) {
        0 if place < bytes.len() => bytes[place] = x,
        1 if place < bytes.len() => drop(bytes.remove(place)),
        _ => bytes.insert(place, x),
    }
}

fn change_case(random: &mut Random, bytes: &mut [u8]) {
    for x in bytes.iter_mut().filter(|x| x.is_ascii_alphabetic()) {
        if random.chance(50) {
            *x ^= 32;
        }
    }
}
