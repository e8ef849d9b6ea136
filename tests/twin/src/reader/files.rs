//! Rule files and their lines: "How rule files are lent", and the first two
//! sentences on ignore lines, which hold for attribute lines too.
use super::Question;
use std::ops::Range;

const BOM: &[u8] = b"\xef\xbb\xbf";

/// One line, with its place in the rule bytes.
#[derive(Clone, PartialEq, Debug)]
pub struct Line {
    /// "Files count from 0, lines from 1."
    pub file: usize,
    pub number: usize,
    pub base: usize,
    /// All its bytes but the newline: with the BOM, if it is the file's first.
    pub raw: Range<usize>,
    /// The same without the BOM.
    pub text: Range<usize>,
}

/// Where each file lies in the rule bytes. Only for lists that refusal 2 takes.
pub fn spans(question: &Question) -> Vec<Range<usize>> {
    let mut spans: Vec<Range<usize>> = Vec::new();
    for &end in &question.ends {
        let start = spans.last().map_or(0, |before| before.end);
        spans.push(start..end);
    }
    spans
}

/// All lines of file 0, then of file 1 and so on.
pub fn lines(question: &Question) -> Vec<Line> {
    let mut all = Vec::new();
    for (file, (span, &base)) in spans(question).into_iter().zip(&question.bases).enumerate() {
        // "Drop a UTF-8 BOM (EF BB BF) at the file's start"
        let bytes = &question.rules[span.clone()];
        let first = if bytes.starts_with(BOM) { span.start + BOM.len() } else { span.start };
        for (i, text) in split(&question.rules, first..span.end).into_iter().enumerate() {
            let start = if i == 0 { span.start } else { text.start };
            all.push(Line { file, number: i + 1, base, raw: start..text.end, text });
        }
    }
    all
}

/// "split at byte 10 [...] Bytes after the last newline are a line only if
/// there are any."
fn split(rules: &[u8], whole: Range<usize>) -> Vec<Range<usize>> {
    let mut lines = Vec::new();
    let mut start = whole.start;
    for at in whole.clone() {
        if rules[at] == b'\n' {
            lines.push(start..at);
            start = at + 1;
        }
    }
    if start < whole.end {
        lines.push(start..whole.end);
    }
    lines
}
