//! The ignore question: "Ignore lines".
use super::files::{lines, Line};
use super::pattern::{applies, LinePattern};
use super::{Answer, Question};

/// A line that holds a pattern.
pub struct Rule {
    pub line: Line,
    negated: bool,
    pattern: LinePattern,
}

/// One entry that was visited, and the line that decides it.
pub struct Visit<'a> {
    /// The entry is the path's first so many bytes.
    pub length: usize,
    pub decided_by: Option<&'a Rule>,
}

pub fn rules(question: &Question) -> Vec<Rule> {
    lines(question).into_iter().filter_map(|line| read(&question.rules[line.text.clone()], line.clone())).collect()
}

fn read(text: &[u8], line: Line) -> Option<Rule> {
    let text = text.strip_suffix(b"\r").unwrap_or(text); // "drop one CR at a line's end"
    if text.is_empty() || text.starts_with(b"#") {
        return None; // "Skip a line that is empty or begins with `#`."
    }
    let text = strip_spaces(text);
    let (negated, text) = match text.strip_prefix(b"!") {
        Some(rest) => (true, rest), // "A first `!` negates and goes."
        None => (false, text),
    };
    Some(Rule { line, negated, pattern: LinePattern::read(text) })
}

/// "Strip trailing spaces that aren't escaped; tabs stay." A space is escaped
/// by a `\` that is not itself escaped.
fn strip_spaces(text: &[u8]) -> &[u8] {
    let mut kept = 0;
    let mut at = 0;
    while at < text.len() {
        let width = if text[at] == b'\\' { 2 } else { 1 };
        if text[at] != b' ' {
            kept = (at + width).min(text.len());
        }
        at += width;
    }
    &text[..kept]
}

/// "Its verdict is that of the last applicable matching line".
fn judge<'a>(rules: &'a [Rule], entry: &[u8], directory: bool, fold: bool) -> Option<&'a Rule> {
    let speaks = |rule: &Rule| {
        let base = rule.line.base;
        applies(base, entry) && rule.pattern.matches(entry, base, directory, fold)
    };
    let mut last = None;
    for rule in rules {
        if speaks(rule) {
            last = Some(rule);
        }
    }
    last
}

/// "*Visited* are the parents from the top down to the first ignored one, and
/// the path itself if no parent is ignored."
pub fn visits<'a>(question: &Question, rules: &'a [Rule]) -> Vec<Visit<'a>> {
    let path = &question.path;
    let mut visits = Vec::new();
    for length in (1..=path.len()).filter(|&n| n == path.len() || path[n] == b'/') {
        // "A parent counts as a directory."
        let directory = length < path.len() || question.directory();
        let decided_by = judge(rules, &path[..length], directory, question.fold());
        visits.push(Visit { length, decided_by });
        if decided_by.is_some_and(|rule| !rule.negated) {
            break;
        }
    }
    visits
}

/// The last visited entry is the first ignored one or the path itself.
pub fn answer(question: &Question) -> Answer {
    let rules = rules(question);
    let visits = visits(question, &rules);
    let last = visits.last().expect("an accepted path is not empty");
    match last.decided_by {
        None => Answer { code: 0, numbers: Vec::new() },
        Some(rule) => {
            let code = if rule.negated { 2 } else { 1 };
            Answer { code, numbers: vec![last.length, rule.line.file, rule.line.number] }
        }
    }
}
