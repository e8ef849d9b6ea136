//! Looks for slow inputs at the limits: repeated units of pattern and text are
//! changed at random, and a change that makes the call slower is kept.
//!
//! usage: worst [tries, default 2000] [seed, default 1] [limit in ms, default 1000]
//!
//! Prints the slowest found; exit status 1 if it is over the limit.
use std::env::args;
use std::process::exit;
use std::time::Duration;
use twin::random::Random;
use twin::timing::{about, microseconds, watch};

/// Words that units are made of: every item, and what may go wrong in a class.
const WORDS: [&str; 24] = [
    "a",
    "b",
    "/",
    "*",
    "**/",
    "?",
    "[a]",
    "[!b]",
    "[",
    "]",
    "[:",
    ":]",
    "a-z",
    "\\a",
    "\\/",
    "[:alpha:]",
    "***",
    "**",
    "-",
    "!",
    "[a-z",
    "x",
    "[:upper:]",
    "[:xdigit:]",
];
const TEXT_WORDS: [&str; 6] = ["a", "b", "/", "aaaa", "a/", "x"];

/// Where the climbs start: start, unit and end of the pattern.
const STARTS: [[&str; 3]; 5] =
    [["", "*a", "b"], ["**/", "a/", "b"], ["*", "a", "b"], ["*[", "[:upper:]", "]"], ["*[", "[:", "x]"]];

/// Start, repeated unit and end, each a row of words.
#[derive(Clone)]
struct Shape {
    pattern: [Vec<&'static str>; 3],
    text: [Vec<&'static str>; 3],
    flags: u64,
}

fn main() {
    let number = |at, default| args().nth(at).map_or(default, |word| word.parse().expect("a number"));
    let (tries, seed, limit) = (number(1, 2000), number(2, 1), number(3, 1000));
    watch(Duration::from_millis(limit * 20 + 5000));
    let mut random = Random::new(seed);
    let mut found: Vec<(f64, Shape)> = Vec::new();
    // Each start is climbed from as it is and from a random change of it, so
    // that one hill is not all we see.
    for start in STARTS {
        for changes in [0, 8] {
            let shape = Shape::from(&mut random, start, changes);
            found.push(climb(&mut random, shape, tries / 10, limit as f64 * 1000.0));
        }
    }
    found.sort_by(|a, b| b.0.total_cmp(&a.0));
    println!("| ms | mode | pattern | text |\n|---|---|---|---|");
    for (time, shape) in &found {
        println!("| {:.2} | {} | {} |", time / 1000.0, twin::families::mode(shape.flags), shape.words());
    }
    println!("\nworst: {tries} tries, slowest {:.2} ms, limit {limit} ms", found[0].0 / 1000.0);
    exit((found[0].0 > limit as f64 * 1000.0) as i32);
}

/// Ends early over the limit (in microseconds): that is found, and slow to ask.
fn climb(random: &mut Random, mut best: Shape, tries: u64, limit: f64) -> (f64, Shape) {
    let mut time = best.time();
    for _ in 1..tries {
        if time > limit {
            break;
        }
        let mut next = best.clone();
        for _ in 0..random.from(1, 3) {
            next.change(random);
        }
        let taken = next.time();
        if taken >= time {
            (time, best) = (taken, next);
        }
    }
    (time, best)
}

impl Shape {
    fn from(random: &mut Random, start: [&'static str; 3], changes: usize) -> Shape {
        let text = [vec![], vec!["a"], vec![]];
        let mut shape = Shape { pattern: start.map(|word| vec![word]), text, flags: 1 };
        for _ in 0..changes {
            shape.change(random);
        }
        shape
    }

    /// Changes one word of one part, or the flags.
    fn change(&mut self, random: &mut Random) {
        let (part, words): (&mut Vec<&str>, &[&'static str]) = match random.below(10) {
            0 => return self.flags = random.below(4) as u64,
            1..=6 => (&mut self.pattern[random.below(3)], &WORDS),
            _ => (&mut self.text[random.below(3)], &TEXT_WORDS),
        };
        let place = random.below(part.len() + 1);
        match random.below(3) {
            0 if place < part.len() => part[place] = *random.pick(words),
            1 if place < part.len() => drop(part.remove(place)),
            _ if part.len() < 8 => part.insert(place, *random.pick(words)),
            _ => {}
        }
    }

    fn time(&self) -> f64 {
        about(self.words());
        microseconds(&fill(&self.pattern, 2048), &fill(&self.text, 4096), self.flags)
    }

    fn words(&self) -> String {
        let show = |part: &[Vec<&str>; 3]| {
            format!("`{}` (`{}`)... `{}`", part[0].concat(), part[1].concat(), part[2].concat())
        };
        format!("{} | {}", show(&self.pattern), show(&self.text))
    }
}

/// Start, then the unit as often as there is room, then the end.
fn fill(parts: &[Vec<&str>; 3], size: usize) -> Vec<u8> {
    let [start, unit, end] = parts.each_ref().map(|part| part.concat());
    let room = size - start.len() - end.len();
    let times = if unit.is_empty() { 0 } else { room / unit.len() };
    [start, unit.repeat(times), end].concat().into_bytes()
}
