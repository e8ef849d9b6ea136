//! The attribute question: "Attribute lines".
use super::files::{lines, Line};
use super::pattern::{applies, LinePattern};
use super::refusals::is_bad_name;
use super::{Answer, Question};
use std::ops::Range;

/// A line that is not dropped.
pub struct Rule {
    pub line: Line,
    pattern: LinePattern,
    mentions: Vec<Mention>,
}

/// One attribute on a line.
struct Mention {
    name: Vec<u8>,
    state: State,
}

#[derive(Clone)]
enum State {
    Set,
    Unset,
    /// Where the value lies in the rule bytes.
    Value(Range<usize>),
    Unspecified,
}

pub fn rules(question: &Question) -> Vec<Rule> {
    lines(question).into_iter().filter_map(|line| read(&question.rules, line)).collect()
}

fn read(rules: &[u8], line: Line) -> Option<Rule> {
    let mut words = words(rules, line.text.clone()).into_iter();
    let pattern = &rules[words.next()?]; // "skip an empty line"
    let dropped = [&b"#"[..], b"!", b"\""].iter().any(|start| pattern.starts_with(start));
    if dropped || pattern.starts_with(b"[attr]") && pattern.len() > 6 {
        return None;
    }
    let mentions: Vec<Mention> = words.map(|word| mention(rules, word)).collect();
    if mentions.iter().any(|mention| is_bad_name(&mention.name)) {
        return None; // "A line is dropped whole [...] if any attribute on it has a bad name"
    }
    Some(Rule { line, pattern: LinePattern::read(pattern), mentions })
}

/// What stands between blanks: "Blanks are space, tab and CR."
fn words(rules: &[u8], text: Range<usize>) -> Vec<Range<usize>> {
    let is_blank = |at: usize| b" \t\r".contains(&rules[at]);
    let mut words = Vec::new();
    let mut start = None;
    for at in text.clone() {
        match (is_blank(at), start) {
            (false, None) => start = Some(at),
            (true, Some(from)) => {
                words.push(from..at);
                start = None;
            }
            _ => {}
        }
    }
    words.extend(start.map(|from| from..text.end));
    words
}

/// "`name` sets, `-name` unsets, `!name` makes unspecified, `name=v` gives
/// value v, perhaps empty; after `-` or `!` an `=v` is ignored."
fn mention(rules: &[u8], word: Range<usize>) -> Mention {
    let sign = rules[word.start];
    let start = if sign == b'-' || sign == b'!' { word.start + 1 } else { word.start };
    let equals = (start..word.end).find(|&at| rules[at] == b'=');
    let name = rules[start..equals.unwrap_or(word.end)].to_vec();
    let state = match (sign, equals) {
        (b'-', _) => State::Unset,
        (b'!', _) => State::Unspecified,
        (_, Some(at)) => State::Value(at + 1..word.end),
        (_, None) => State::Set,
    };
    Mention { name, state }
}

/// "The last applicable matching line that names the attribute decides; on
/// one line, the last mention." There is "no rule about parents".
pub fn decided_by<'a>(question: &Question, rules: &'a [Rule], name: &[u8]) -> Option<&'a Rule> {
    let speaks = |rule: &Rule| {
        let base = rule.line.base;
        rule.mentions.iter().any(|mention| mention.name == name)
            && applies(base, &question.path)
            && rule.pattern.matches(&question.path, base, question.directory(), question.fold())
    };
    let mut last = None;
    for rule in rules {
        if speaks(rule) {
            last = Some(rule);
        }
    }
    last
}

pub fn answer(question: &Question, name: &[u8]) -> Answer {
    let rules = rules(question);
    let Some(rule) = decided_by(question, &rules, name) else {
        return Answer { code: 0, numbers: Vec::new() };
    };
    let last = rule.mentions.iter().rfind(|mention| mention.name == name).expect("the line names it");
    let (code, value) = match &last.state {
        State::Set => (1, 0..0),
        State::Unset => (2, 0..0),
        State::Value(value) => (3, value.clone()),
        State::Unspecified => (4, 0..0),
    };
    Answer { code, numbers: vec![value.start, value.len(), rule.line.file, rule.line.number] }
}
