//! Compares an archive's answers with the twin's and counts.
use super::{form, Asks};
use crate::reader::{self, Answer, Question};

#[derive(Default)]
pub struct Count {
    pub cases: u64,
    /// By code number: 0 to 4, of the ignore and of the attribute question.
    ignore: [u64; 3],
    attribute: [u64; 5],
    /// By refusal number.
    refused: [u64; 10],
    pub differences: u64,
}

pub struct Check<A> {
    pub archive: A,
    pub count: Count,
}

impl<A: Asks> Check<A> {
    pub fn new(archive: A) -> Check<A> {
        Check { archive, count: Count::default() }
    }

    /// One question, behind fences. The C calls are asked what they can be.
    pub fn case(&mut self, question: &Question) {
        if A::COMPLETE || question.is_one_file() {
            let got = self.archive.ask(question);
            self.judge(question, &reader::answer(question), &got);
        }
    }

    /// One question that is too large for the fences.
    pub fn bare_case(&mut self, question: &Question) {
        if A::COMPLETE || question.is_one_file() {
            let got = self.archive.ask_bare(question);
            self.judge(question, &reader::answer(question), &got);
        }
    }

    /// Compares with an answer that was found elsewhere.
    pub fn judge(&mut self, question: &Question, want: &Answer, got: &Answer) {
        self.count.add(question, want.code);
        let same = if A::COMPLETE { want == got } else { want.code == got.code };
        if !same {
            self.differs(&format!("archive {}, expected {}", form::answer(got), form::answer(want)), question);
        }
    }

    pub fn differs(&mut self, words: &str, question: &Question) {
        self.count.differences += 1;
        println!("DIFFERENCE {words}: {}", form::write(question));
        if self.count.differences >= 20 {
            println!("twenty differences: stopping");
            std::process::exit(1);
        }
    }

    /// Prints what one part counted and starts the next part's count; gives
    /// the part's count.
    pub fn part(&mut self, name: &str) -> Count {
        let count = std::mem::take(&mut self.count);
        println!("{name}: {}", count.words());
        count
    }
}

impl Count {
    fn add(&mut self, question: &Question, code: u32) {
        self.cases += 1;
        let counter = match (&question.name, code as usize) {
            (_, code @ 16..) => self.refused.get_mut(code - 16),
            (None, code) => self.ignore.get_mut(code),
            (Some(_), code) => self.attribute.get_mut(code),
        };
        // A code number outside the paper's is counted as a difference alone.
        if let Some(counter) = counter {
            *counter += 1;
        }
    }

    fn words(&self) -> String {
        let [nothing, ignored, reincluded] = self.ignore;
        let [silent, set, unset, value, unspecified] = self.attribute;
        let refused: Vec<String> = (1..10).filter(|&n| self.refused[n] > 0).map(|n| self.refusal(n)).collect();
        format!(
            "{} questions: ignore {ignored} ignored, {reincluded} re-included, {nothing} nothing said; \
             attribute {set} set, {unset} unset, {value} value, {unspecified} unspecified, {silent} nothing said; \
             refused {}; {} differences",
            self.cases,
            if refused.is_empty() { "none".to_string() } else { refused.join(" ") },
            self.differences
        )
    }

    fn refusal(&self, number: usize) -> String {
        format!("{number}:{}", self.refused[number])
    }
}
