//! All buffers of a question behind fences.
use crate::crash;
use crate::fence::{Fence, Side};
use crate::reader::Question;

pub struct Lent {
    pub path: Fence,
    pub rules: Fence,
    pub ends: Fence,
    pub bases: Fence,
    pub name: Fence,
    side: Side,
}

impl Default for Lent {
    /// Room for what is over the limits too.
    fn default() -> Lent {
        let [path, rules, ends, bases, name] = [8_192, 81_920, 4_096, 4_096, 4_096].map(Fence::new);
        Lent { path, rules, ends, bases, name, side: Side::End }
    }
}

impl Lent {
    /// Copies everything behind the fences, from one side and the other in
    /// turn, and remembers the question for the case of a crash.
    pub fn lend(&mut self, question: &Question) {
        self.path.lend(&question.path, self.side);
        self.rules.lend(&question.rules, self.side);
        self.ends.lend_numbers(&question.ends, self.side);
        self.bases.lend_numbers(&question.bases, self.side);
        self.name.lend(question.name.as_deref().unwrap_or_default(), self.side);
        self.side = if self.side == Side::End { Side::Front } else { Side::End };
        crash::about_question(question);
    }
}
