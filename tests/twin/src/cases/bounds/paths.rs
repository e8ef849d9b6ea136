//! Refusal 1: the path's length, slashes, components and control bytes.
use super::{both, holding, one_file};
use crate::asking::check::Check;
use crate::asking::Asks;
use crate::reader::Question;

/// Speaks of every path: the first line ignores it, the second sets `fill`.
const RULES: &[u8] = b"*\n* fill\n";

/// "any path byte below 32 and byte 127", then the bytes beside these that are
/// taken, and the largest.
const NEAR: [u8; 9] = [0, 1, 11, 31, 127, 32, 126, 128, 255];

/// Around a byte, so that it is all, first, last and in the middle: of a path
/// of one component, of a parent, of the last component, and of a parent that
/// has a parent.
const AROUND: [(&str, &str); 16] = [
    ("", ""),
    ("", "a"),
    ("a", ""),
    ("a", "a"),
    ("", "/a"),
    ("", "b/a"),
    ("b", "/a"),
    ("b", "b/a"),
    ("a/", ""),
    ("a/", "b"),
    ("a/b", ""),
    ("a/b", "b"),
    ("a/", "/b"),
    ("a/", "b/b"),
    ("a/b", "/b"),
    ("a/b", "b/b"),
];

pub fn run<A: Asks>(check: &mut Check<A>) {
    forms(check);
    lengths(check);
    every_byte(check);
    every_place(check);
}

fn forms<A: Asks>(check: &mut Check<A>) {
    let forms = [
        "", "a", "a/", "/a", "/", "//", "//a", "a//", "a//b", "a/b", "a/b/", "/a/b", "a///b", ".", "..", "...", "....",
        "./", "../", "/.", "/..", "a/.", "a/..", "a/...", "./a", "../a", ".../a", "a/./b", "a/../b", "a/.../b", ".a",
        "a.", "..a", "a..", "a/.b", "a/b.", "a/..b", "a/b..", ".a/b", "a./b", " ", "\n", "a\nb", "\r", "\t", "\u{1}",
        "\u{7f}", "é", "a b", "\\", "*", ". ", ". /a", " .", "~", "a~/b", "a\r", "a\r\n", "a\tb/c", ".\t", "..\n/a",
    ];
    for form in forms {
        both(check, &one_file(b"* fill\n", form.as_bytes()));
        both(check, &one_file(b"*\n", form.as_bytes()));
    }
}

fn lengths<A: Asks>(check: &mut Check<A>) {
    for length in [1, 2, 3, 4094, 4095, 4096, 4097, 4098, 8192] {
        both(check, &one_file(b"*b\n*b fill\n", &vec![b'b'; length]));
        both(check, &one_file(b"b\nb fill\n", &b"a/".repeat(length)[..length]));
        both(check, &one_file(b"**/b\n**/b fill\n", &[&b"a/".repeat(length)[..length - 1], b"b"].concat()));
    }
}

/// Each of the 256 bytes at each of these places.
fn every_byte<A: Asks>(check: &mut Check<A>) {
    for x in 0..=255 {
        for (front, back) in AROUND {
            looked_at_or_not(check, &[front.as_bytes(), &[x], back.as_bytes()].concat());
        }
    }
}

/// Refused or taken whether or not a line looks at the byte: with lines that
/// do, with none, and with a file from below whose lines see no parent.
fn looked_at_or_not<A: Asks>(check: &mut Check<A>, path: &[u8]) {
    let below = path.iter().position(|&x| x == b'/').map_or(0, |slash| slash + 1);
    both(check, &one_file(RULES, path));
    both(check, &one_file(b"", path));
    both(check, &Question { bases: vec![below], ..one_file(RULES, path) });
}

/// Every place of every path of up to 70 bytes, so that no block, overlap or
/// tail of a scan is left out, and places of longer ones.
fn every_place<A: Asks>(check: &mut Check<A>) {
    for length in (1..=70).chain([100, 4095, 4096, 4097]) {
        let step = if length > 100 { 97 } else { 1 };
        for place in (0..length).step_by(step).chain([length / 2, length - 1]) {
            at_place(check, length, place);
        }
    }
}

/// One component, and components of three letters.
fn at_place<A: Asks>(check: &mut Check<A>, length: usize, place: usize) {
    let letter = |i: usize| if i % 4 == 3 && i + 1 < length { b'/' } else { b'a' };
    let deep: Vec<u8> = (0..length).map(letter).collect();
    for x in NEAR {
        both(check, &one_file(RULES, &holding(&vec![b'a'; length], place, x)));
        both(check, &one_file(RULES, &holding(&deep, place, x)));
    }
}
