//! Refusals 3, 4 and 5: the rule bytes, byte 0 in them, and their lines; and
//! BOMs that files' ends cut.
use super::{both, holding, one_file};
use crate::asking::check::Check;
use crate::asking::Asks;
use crate::reader::Question;

pub fn run<A: Asks>(check: &mut Check<A>) {
    rule_bytes(check);
    zero_bytes(check);
    other_bytes(check);
    lines(check);
    boms(check);
}

/// 3: rule bytes, in one file and in several.
fn rule_bytes<A: Asks>(check: &mut Check<A>) {
    for length in [65_535, 65_536, 65_537, 65_538, 70_000] {
        for unit in [&b"\n"[..], b"a\n", b"#23456789012345678901234567890123456789\n", b"b fill\n", b"x"] {
            let mut rules = unit.repeat(length / unit.len() + 1);
            rules.truncate(length);
            rules[length - 2..].copy_from_slice(b"\na");
            both(check, &one_file(&rules, b"a"));
            let ends = vec![10, 40_000, length];
            both(check, &Question { ends, bases: vec![0; 3], ..one_file(&rules, b"a") });
        }
    }
}

/// 4: byte 0 at each place of short buffers, and over the whole of a long one.
fn zero_bytes<A: Asks>(check: &mut Check<A>) {
    for length in 1..=72 {
        for place in 0..length {
            both(check, &one_file(&holding(&vec![b'a'; length], place, 0), b"a"));
        }
    }
    let long = b"#234567\n".repeat(8192);
    for place in (0..long.len()).step_by(4099).chain([long.len() - 1]) {
        both(check, &one_file(&holding(&long, place, 0), b"a"));
        let ends = vec![place, long.len()];
        both(check, &Question { ends, bases: vec![0; 2], ..one_file(&holding(&long, place, 0), b"a") });
    }
}

/// 4 is byte 0 alone: rules may hold every other byte, as no path may, in a
/// pattern, a class, a comment, between attributes and in a value.
fn other_bytes<A: Asks>(check: &mut Check<A>) {
    let around = [
        ("a", "\n*"),
        ("", "\n*\n* fill\n"),
        ("b", " fill\nb fill\n"),
        ("#", "\n*\n* fill\n"),
        ("[", "b]\n[b] fill\n"),
        ("[b", "] fill\n"),
        ("[!", "]\n[!a] fill\n"),
        ("[^", "] fill\n"),
        ("*", "fill\n"),
        ("* fill=", "v\n"),
        ("* fill=v", "\n"),
    ];
    for x in 1..=255 {
        for (front, back) in around {
            both(check, &one_file(&[front.as_bytes(), &[x], back.as_bytes()].concat(), b"b"));
        }
    }
}

/// 5: lines "counted with BOM and CR but without" the newline: first, last,
/// unterminated, comments, and in the second file.
fn lines<A: Asks>(check: &mut Check<A>) {
    let bom = &b"\xef\xbb\xbf"[..];
    for length in [2044, 2045, 2046, 2047, 2048, 2049, 2050, 2051, 4096] {
        for fill in *b"a #*!/\\\xef" {
            for (front, back) in
                [(&b""[..], &b""[..]), (bom, b""), (b"", b"\r"), (bom, b"\r"), (bom, b"\r\r"), (b"#", b"")]
            {
                let line = [front, &vec![fill; length][..], back].concat();
                for newline in [&b""[..], b"\n", b"\n\n"] {
                    surrounded(check, &[&line, newline].concat());
                }
            }
        }
    }
    // Two lines that together would be over the limit.
    let halves = vec![b'a'; 3000];
    for cut in [1500, 951, 952, 953, 2047, 2048, 2049] {
        both(check, &Question { ends: vec![cut, 3000], bases: vec![0; 2], ..one_file(&halves, b"a") });
    }
    let mut parts = halves;
    parts[2048] = b'\n';
    both(check, &one_file(&parts, b"a"));
    parts[2048] = b'a';
    parts[2049] = b'\n';
    both(check, &one_file(&parts, b"a"));
}

/// The line alone, behind another, and in a second file of another base.
fn surrounded<A: Asks>(check: &mut Check<A>, line: &[u8]) {
    both(check, &one_file(line, b"a"));
    both(check, &one_file(&[b"* fill\n", line].concat(), b"a"));
    let rules = [b"* fill\n", line].concat();
    both(check, &Question { ends: vec![7, rules.len()], bases: vec![0, 2], ..one_file(&rules, b"a/b") });
}

/// No refusal, but a boundary of lines: two BOMs, cut by the files' ends at
/// every place. Only one that is whole and at a file's start goes.
fn boms<A: Asks>(check: &mut Check<A>) {
    let rules = &b"\xef\xbb\xbf\xef\xbb\xbfa\n\xef\xbb\xbfb"[..];
    let paths: [&[u8]; 9] =
        [b"a", b"b", b"\xef", b"\xef\xbb", b"\xef\xbb\xbf", b"\xef\xbb\xbfa", b"\xbfa", b"\xbb\xbfb", b"\xef\xbb\xbfb"];
    for (path, name) in paths.iter().flat_map(|path| [(path, &b""[..]), (path, b" fill")]) {
        // Every line is a pattern; for the attribute question it names `fill`.
        let rules: Vec<u8> = rules.split_inclusive(|&x| x == b'\n').flat_map(|line| ended(line, name)).collect();
        for first in 0..=rules.len() {
            for second in first..=rules.len() {
                let ends = vec![first, second, rules.len()];
                both(check, &Question { ends, bases: vec![0; 3], ..one_file(&rules, path) });
            }
        }
        both(check, &one_file(&rules, path));
    }
}

/// The line with this before its newline.
fn ended(line: &[u8], tail: &[u8]) -> Vec<u8> {
    let text = line.strip_suffix(b"\n").unwrap_or(line);
    [text, tail, &line[text.len()..]].concat()
}
