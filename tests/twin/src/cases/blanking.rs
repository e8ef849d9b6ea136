//! The blanking law of demand 3: lines that decide nothing visited, any number
//! of them at once, may be overwritten with spaces, and the question asked
//! again has the same complete answer.
use crate::asking::check::Check;
use crate::asking::{form, Asks};
use crate::random::Random;
use crate::reader::files::{lines, Line};
use crate::reader::{attribute, ignore, refusals, Question};

/// Asks, blanks and asks again. Gives whether the question was accepted and
/// had a line to blank.
pub fn run<A: Asks>(check: &mut Check<A>, random: &mut Random, question: &Question) -> bool {
    if refusals::lowest(question).is_some() {
        return false;
    }
    let deciding = deciding(question);
    let idle: Vec<Line> = lines(question).into_iter().filter(|line| !deciding.contains(line)).collect();
    if idle.is_empty() {
        return false;
    }
    let percent = *random.pick(&[10, 50, 100]);
    let chosen: Vec<&Line> = idle.iter().filter(|_| random.chance(percent)).collect();
    let blanked = Question { rules: blank(&question.rules, &chosen, random), ..question.clone() };
    let before = check.archive.ask(question);
    let after = check.archive.ask(&blanked);
    check.judge(&blanked, &before, &after);
    if before != after {
        println!("  which is this, blanked: {}", form::write(question));
    }
    true
}

/// The lines that decide a visited entry, or the attribute.
fn deciding(question: &Question) -> Vec<Line> {
    match &question.name {
        None => {
            let rules = ignore::rules(question);
            ignore::visits(question, &rules)
                .iter()
                .filter_map(|visit| visit.decided_by)
                .map(|rule| rule.line.clone())
                .collect()
        }
        Some(name) => {
            let rules = attribute::rules(question);
            attribute::decided_by(question, &rules, name).map(|rule| rule.line.clone()).into_iter().collect()
        }
    }
}

/// "To blank a line is to overwrite all its bytes but the newline with
/// spaces": a CR is among them and, for each file as it falls, its BOM or not.
fn blank(rules: &[u8], chosen: &[&Line], random: &mut Random) -> Vec<u8> {
    let mut rules = rules.to_vec();
    for line in chosen {
        let bytes = if random.chance(50) { &line.raw } else { &line.text };
        rules[bytes.clone()].fill(b' ');
    }
    rules
}
