//! Document 01's run frames and limits, and the tables of 001's parts 2 to 5
//! that are in the base.
use crate::asking::check::Check;
use crate::asking::Asks;
use crate::reader;
use crate::tables::{self, Asked};

pub fn run<A: Asks>(check: &mut Check<A>) {
    for row in tables::questions() {
        check.row(&row);
    }
}

impl<A: Asks> Check<A> {
    /// The twin, and the archive as far as it can be asked, against the answer
    /// that the row expects.
    fn row(&mut self, row: &Asked) {
        let Asked { label, question, answer } = row;
        let twin = reader::answer(question);
        if twin != *answer {
            self.differs(&format!("{label}: twin {twin:?}, expected {answer:?}"), question);
        }
        if A::COMPLETE || question.is_one_file() {
            let got = self.archive.ask(question);
            self.judge(question, answer, &got);
        }
    }
}
