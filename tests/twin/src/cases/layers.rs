//! The joining law of demand 3, as far as it can be seen from outside: the
//! files are cut into an earlier and a later part, and the whole's answer is
//! the later part's if that says anything, else the earlier part's. (A cut
//! inside a file cannot be lent: its later part would not be a file.)
use crate::asking::check::Check;
use crate::asking::Asks;
use crate::random::Random;
use crate::reader::{refusals, Answer, Question};

/// Gives whether the law speaks of this question: it is accepted, has files,
/// and the path itself is what was judged in the whole and in both parts.
pub fn run<A: Asks>(check: &mut Check<A>, random: &mut Random, question: &Question) -> bool {
    if refusals::lowest(question).is_some() || question.ends.is_empty() {
        return false;
    }
    let cut = random.below(question.ends.len() + 1);
    let whole = check.archive.ask(question);
    let earlier = check.archive.ask(&part(question, 0, cut));
    let later = check.archive.ask(&part(question, cut, question.ends.len()));
    if [&whole, &earlier, &later].iter().any(|answer| is_of_a_parent(question, answer)) {
        return false;
    }
    let joined = if later.code != 0 { moved(question, &later, cut) } else { earlier };
    check.judge(question, &joined, &whole);
    true
}

/// Files `from` up to `to`, lent by themselves.
fn part(question: &Question, from: usize, to: usize) -> Question {
    let start = start_of(question, from);
    let ends: Vec<usize> = question.ends[from..to].iter().map(|end| end - start).collect();
    let length = ends.last().copied().unwrap_or(0);
    Question {
        rules: question.rules[start..start + length].to_vec(),
        bases: question.bases[from..to].to_vec(),
        ends,
        ..question.clone()
    }
}

fn start_of(question: &Question, file: usize) -> usize {
    if file == 0 {
        0
    } else {
        question.ends[file - 1]
    }
}

/// Was a parent ignored, so that the path was not judged?
fn is_of_a_parent(question: &Question, answer: &Answer) -> bool {
    question.name.is_none() && answer.numbers.first().is_some_and(|&length| length < question.path.len())
}

/// The later part's answer with the places it has in the whole.
fn moved(question: &Question, later: &Answer, cut: usize) -> Answer {
    let mut answer = later.clone();
    let file = answer.numbers.len() - 2;
    answer.numbers[file] += cut;
    if question.name.is_some() && answer.code == 3 {
        answer.numbers[0] += start_of(question, cut);
    }
    answer
}
