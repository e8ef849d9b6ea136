//! The frames P1 to P13, the rows on long runs and on broken patterns, and those
//! of document 001's part 1, in the four modes.
use crate::answer::Answer;
use crate::check::Check;
use crate::matcher::Matcher;
use crate::tables::{bytes, fields, rows};
use crate::twin;

const DOCUMENT_001: &str = include_str!("../../../crates/testtables/data/document-001.tsv");
const DOCUMENT_01: &str = include_str!("../../../crates/testtables/data/document-01.tsv");
/// The flags of the four columns.
const COLUMNS: [u64; 4] = [1, 3, 0, 2];
/// The rows of 001 whose pattern is broken, and the place, by document 01's
/// "Patterns". The table does not tell: "001's tables read broken as 0" (document
/// 02, R-14). In every other row, and in the other file, 0 is no match.
const BROKEN_ROWS: [(&str, usize); 14] = [
    ("1.5.15", 3),
    ("1.7.62", 0),
    ("1.7.63", 0),
    ("1.7.64", 2),
    ("1.7.72", 0),
    ("1.8.83", 0),
    ("1.9.102", 1),
    ("1.9.103", 1),
    ("1.9.104", 2),
    ("1.9.105", 0),
    ("1.9.106", 0),
    ("1.9.108", 0),
    ("1.9.109", 0),
    ("1.9.127", 0),
];

/// A row.
struct Match {
    label: &'static str,
    pattern: Vec<u8>,
    text: Vec<u8>,
    /// In the order of the columns: path, path and fold, plain, plain and fold.
    answers: [Answer; 4],
}

/// The archive against the expected answers, and against the twin.
pub fn run<M: Matcher>(check: &mut Check<M>) {
    for row in matches() {
        for (flags, want) in COLUMNS.into_iter().zip(row.answers) {
            check.case(&row.pattern, &row.text, flags);
            hold(check, &row, flags, want);
        }
    }
}

/// The archive, as far as it tells, and the twin against what the row expects.
fn hold<M: Matcher>(check: &mut Check<M>, row: &Match, flags: u64, want: Answer) {
    let got = check.asker.matcher.ask_bare(&row.pattern, &row.text, flags);
    let twin = twin::answer(&row.pattern, &row.text, flags);
    if !M::same(want, got) || twin != want {
        let words = format!("row {}: archive {got}, twin {twin}, expected {want}", row.label);
        check.differs(&words, &row.pattern, &row.text, flags);
    }
}

fn matches() -> Vec<Match> {
    let of_001 = rows(DOCUMENT_001, |row| told_broken(matched(row)?));
    of_001.into_iter().chain(rows(DOCUMENT_01, matched)).collect()
}

fn matched(row: &'static str) -> Option<Match> {
    let [label, pattern, text, expected] = fields(row)?;
    Some(Match { label, pattern: bytes(pattern)?, text: bytes(text)?, answers: expects(expected)? })
}

/// A row of 001, with broken where the table has 0 for it.
fn told_broken(row: Match) -> Option<Match> {
    match BROKEN_ROWS.iter().find(|(label, _)| *label == row.label) {
        None => Some(row),
        Some(_) if row.answers != [Answer::code(0); 4] => None,
        Some((_, place)) => Some(Match { answers: [Answer::broken(*place); 4], ..row }),
    }
}

/// Four digits, 1 match and 0 no match, or `broken` with the place, the same in
/// all modes.
fn expects(expected: &str) -> Option<[Answer; 4]> {
    if let Some(place) = expected.strip_prefix("broken ") {
        return Some([Answer::broken(place.parse().ok()?); 4]);
    }
    let answers = expected.chars().map(|digit| digit.to_digit(2).map(Answer::code));
    answers.collect::<Option<Vec<_>>>()?.try_into().ok()
}
