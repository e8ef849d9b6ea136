//! The tables of documents 001 and 01 as `crates/testtables` runs them: they are
//! written once, in its data files, whose first lines say how. A row that cannot
//! be read stops the program. Here are those of the two questions, and what those
//! of the matcher (`rows.rs`) are read with too.
use crate::reader::{Answer, Question};

const QUESTIONS: [&str; 2] = [
    include_str!("../../../crates/testtables/data/ignore.tsv"),
    include_str!("../../../crates/testtables/data/attributes.tsv"),
];

/// A row of one of the two questions, with the complete answer.
pub struct Asked {
    pub label: &'static str,
    pub question: Question,
    pub answer: Answer,
}

pub fn questions() -> Vec<Asked> {
    QUESTIONS.into_iter().flat_map(|file| rows(file, |row| asked(file, row))).collect()
}

/// Reads every row of a file. A file without rows would pass as one that is right.
pub fn rows<R>(file: &'static str, read: impl Fn(&'static str) -> Option<R>) -> Vec<R> {
    let lines = file.split('\n').filter(|line| !line.is_empty() && !line.starts_with(['#', '=']));
    let rows: Vec<R> = lines.map(|line| read(line).unwrap_or_else(|| panic!("malformed: {line}"))).collect();
    assert!(!rows.is_empty(), "a data file without rows");
    rows
}

fn asked(file: &str, row: &'static str) -> Option<Asked> {
    let [label, files, path, asked, answer] = fields(row)?;
    let (flags, name) = asked.split_once(' ').map_or((asked, None), |(flags, name)| (flags, Some(name)));
    let mut question =
        Question { path: bytes(path)?, name: name.map(Into::into), flags: flags.parse().ok()?, ..Question::default() };
    for lent in files.split_terminator(' ') {
        let (above, name) = lent.split_once('=')?;
        question.rules.extend(rule_file(file, name)?);
        question.ends.push(question.rules.len());
        question.bases.push(above.len());
    }
    let answer = if name.is_some() { stated(answer, &question.rules) } else { decided(answer) }?;
    Some(Asked { label, question, answer })
}

pub fn fields<const N: usize>(row: &str) -> Option<[&str; N]> {
    row.split('\t').collect::<Vec<_>>().try_into().ok()
}

/// The bytes that a field writes: `%HH` is one of them.
pub fn bytes(field: &str) -> Option<Vec<u8>> {
    let digit = |at: Option<&u8>| (*at? as char).to_digit(16);
    let mut written = field.as_bytes().iter();
    let mut bytes = Vec::new();
    while let Some(&byte) = written.next() {
        let escaped = byte == b'%';
        bytes.push(if escaped { (digit(written.next())? * 16 + digit(written.next())?) as u8 } else { byte });
    }
    Some(bytes)
}

/// The bytes of the rule file with this name.
fn rule_file(file: &str, name: &str) -> Option<Vec<u8>> {
    let mut said = file.split('\n').filter_map(|line| line.strip_prefix('=')?.split_once('\t'));
    bytes(said.find(|(said, _)| *said == name)?.1)
}

/// An answer of the ignore question.
fn decided(answer: &str) -> Option<Answer> {
    let (word, numbers) = words(answer)?;
    match (word, &numbers[..]) {
        ("ignored", [_, _, _]) => Some(Answer { code: 1, numbers }),
        ("re-included", [_, _, _]) => Some(Answer { code: 2, numbers }),
        _ => unsaid(word, &numbers),
    }
}

/// An answer of the attribute question. A value's bytes must stand in the rules
/// where it says.
fn stated(answer: &str, rules: &[u8]) -> Option<Answer> {
    if answer.starts_with("value ") {
        let (places, value) = answer.match_indices(' ').nth(3).map(|(at, _)| (&answer[..at], &answer[at + 1..]))?;
        let [file, line, start] = words(places)?.1[..] else { return None };
        let same = rules.get(start..)?.starts_with(value.as_bytes());
        return same.then_some(Answer { code: 3, numbers: vec![start, value.len(), file, line] });
    }
    let (word, numbers) = words(answer)?;
    match (word, &numbers[..]) {
        ("set", [file, line]) => Some(Answer { code: 1, numbers: vec![0, 0, *file, *line] }),
        ("unset", [file, line]) => Some(Answer { code: 2, numbers: vec![0, 0, *file, *line] }),
        ("unspecified", [file, line]) => Some(Answer { code: 4, numbers: vec![0, 0, *file, *line] }),
        _ => unsaid(word, &numbers),
    }
}

/// What both questions may answer where no line says anything.
fn unsaid(word: &str, numbers: &[usize]) -> Option<Answer> {
    match (word, numbers) {
        ("nothing", []) => Some(Answer { code: 0, numbers: Vec::new() }),
        ("refused", [number @ 1..=9]) => Some(Answer { code: 16 + *number as u32, numbers: Vec::new() }),
        _ => None,
    }
}

/// A word and the numbers behind it.
fn words(answer: &str) -> Option<(&str, Vec<usize>)> {
    let mut words = answer.split(' ');
    let first = words.next()?;
    Some((first, words.map(|number| number.parse().ok()).collect::<Option<_>>()?))
}
