//! A question as one line of text, so that a difference that was printed can
//! be asked again:
//!
//!     ignore PATH RULES ENDS BASES FLAGS
//!     attribute PATH RULES ENDS BASES NAME FLAGS
//!
//! Bytes are hex, lists have commas, flags are decimal; `-` is the empty one.
use crate::hex;
use crate::reader::{Answer, Question};

pub fn write(question: &Question) -> String {
    let Question { path, rules, ends, bases, name, flags } = question;
    let (path, rules, ends, bases) = (hex::write(path), hex::write(rules), list(ends), list(bases));
    match name {
        None => format!("ignore {path} {rules} {ends} {bases} {flags}"),
        Some(name) => format!("attribute {path} {rules} {ends} {bases} {} {flags}", hex::write(name)),
    }
}

pub fn read(line: &str) -> Option<Question> {
    let words: Vec<&str> = line.split_whitespace().collect();
    let (name, flags) = match words[..] {
        ["ignore", _, _, _, _, flags] => (None, flags),
        ["attribute", _, _, _, _, name, flags] => (Some(hex::read(name)?), flags),
        _ => return None,
    };
    Some(Question {
        path: hex::read(words[1])?,
        rules: hex::read(words[2])?,
        ends: numbers(words[3])?,
        bases: numbers(words[4])?,
        name,
        flags: flags.parse().ok()?,
    })
}

/// The code number, then the numbers that came with it.
pub fn answer(answer: &Answer) -> String {
    let words: Vec<String> = answer.numbers.iter().map(usize::to_string).collect();
    format!("{} {}", answer.code, words.join(" ")).trim_end().to_string()
}

fn list(numbers: &[usize]) -> String {
    if numbers.is_empty() {
        return "-".to_string();
    }
    numbers.iter().map(usize::to_string).collect::<Vec<_>>().join(",")
}

fn numbers(words: &str) -> Option<Vec<usize>> {
    if words == "-" {
        return Some(Vec::new());
    }
    words.split(',').map(|word| word.parse().ok()).collect()
}
