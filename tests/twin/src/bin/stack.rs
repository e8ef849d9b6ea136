//! Measures the stack of single calls by painting a thread's stack.
//!
//! usage: stack [matcher's limit in bytes, default 262144] [questions' limit, default 1048576] [quick|full, default quick]
//!
//! Prints the deepest of each family, at the limits of what is lent: for the
//! matcher in each mode, for the questions by the C calls. Exit status 1 if
//! any is over its limit.
use std::env::args;
use std::process::exit;
use twin::archive::ask_bare;
use twin::asking::calls::code;
use twin::families::{families, mode};
use twin::growth::within;
use twin::painted::Painted;
use twin::question_families::{QuestionFamily, Size, QUESTION_FAMILIES};

fn main() {
    let limit = |at, default| args().nth(at).map_or(default, |word: String| word.parse().expect("a limit in bytes"));
    let (matcher, questions) = (limit(1, 262_144), limit(2, 1_048_576));
    let full = args().nth(3).is_some_and(|word| word == "full");
    let stack = Painted::new();
    let over = of_matcher(&stack, matcher) | of_questions(&stack, questions, full);
    exit(over as i32);
}

/// The deepest seen, and what it was.
#[derive(Default)]
struct Most(usize, String);

impl Most {
    fn see(&mut self, depth: usize, words: impl FnOnce() -> String) {
        if depth > self.0 {
            *self = Most(depth, words());
        }
    }

    /// Says it; gives whether it is over the limit.
    fn judge(&self, what: &str, limit: usize) -> bool {
        println!("\nstack of the {what}: most {} bytes ({}), limit {limit}", self.0, self.1);
        self.0 > limit
    }
}

fn of_matcher(stack: &Painted, limit: usize) -> bool {
    println!("| family | mode | bytes of stack |\n|---|---|---|");
    println!("| empty pattern and text | plain | {} |", stack.depth(&|| ask_bare(b"", b"", 0)));
    let mut most = Most::default();
    for family in families() {
        let pattern = family.pattern(2048);
        for flags in 0..4 {
            let texts = family.texts(4096);
            let depth = texts.iter().map(|(_, text)| stack.depth(&|| ask_bare(&pattern, text, flags))).max().unwrap();
            println!("| {} | {} | {depth} |", family.name, mode(flags));
            most.see(depth, || format!("{}, {}", family.name, mode(flags)));
        }
    }
    most.judge("matcher", limit)
}

/// Once with a short path and all the lines, once with the longest path and
/// as many lines as may be read in one second, or five.
fn of_questions(stack: &Painted, limit: usize, full: bool) -> bool {
    println!("\n| family | lines x bytes | path bytes | bytes of stack |\n|---|---|---|---|");
    let mut most = Most::default();
    for family in QUESTION_FAMILIES {
        let wide = Size { path: 2, ..family.limits() };
        let deep = within(family, if full { 5e6 } else { 1e6 });
        for size in [wide, deep] {
            let depth = depth(stack, family, size, if full { &[1, 3] } else { &[3] });
            println!("| {} | {} x {} | {} | {depth} |", family.name, size.lines, size.line, size.path);
            most.see(depth, || family.name.to_string());
        }
    }
    most.judge("questions", limit)
}

/// The deepest over these flags: of a directory, folding or not.
fn depth(stack: &Painted, family: &QuestionFamily, size: Size, flags: &[u64]) -> usize {
    let (rules, path) = (family.rules(size), family.path(size));
    let name = family.attribute.map(str::as_bytes);
    flags.iter().map(|&flags| stack.depth(&|| code(&rules, &path, name, flags))).max().unwrap()
}
