//! Times the worst families over growing sizes and prints a markdown table.
//!
//! usage: families [limit in ms, default 1000] [quick|full, default full]
//!
//! Exit status 1 if any call of the matcher is over the limit, or if reading a
//! pattern that may be broken grows faster than the pattern. Quick leaves out
//! plain mode and the texts that may match. Then the questions, by the C calls:
//! the usual ones, how the families grow and, in full, what they take by the
//! path's depth.
use std::env::args;
use std::process::exit;
use std::time::Duration;
use twin::asking::calls::code;
use twin::families::{families, mode, Family};
use twin::growth::{time, Growth};
use twin::question_families::{deep_path, QuestionFamily, DEEP_FAMILIES, QUESTION_FAMILIES};
use twin::timing::{about, least, microseconds, watch};
use twin::{reading, usual};

/// Pattern bytes; the text has twice as many.
const SIZES: [usize; 4] = [256, 512, 1024, 2048];

fn main() {
    let limit: f64 = args().nth(1).map_or(1000.0, |word| word.parse().expect("a limit in ms"));
    let quick = args().nth(2).is_some_and(|word| word == "quick");
    watch(Duration::from_secs_f64(limit / 1000.0 * 20.0 + 5.0));
    println!("Microseconds a call; pattern/text bytes at most as in the head.\n");
    println!("| family | mode | text | 256/512 | 512/1024 | 1024/2048 | 2048/4096 | last growth |");
    println!("|---|---|---|---|---|---|---|---|");
    let mut worst = (0.0, String::new());
    for family in families() {
        for flags in if quick { &[1u64, 3][..] } else { &[1, 3, 0, 2] } {
            for (kind, _) in family.texts(1024).iter().skip(quick as usize) {
                let times = row(family, *flags, kind);
                if times[3] > worst.0 {
                    worst = (times[3], format!("{}, {}, {kind}", family.name, mode(*flags)));
                }
            }
        }
    }
    backtracking_row();
    let steep = reading::table();
    usual_questions();
    growing_questions(if quick { 0.5 } else { 5.0 });
    if !quick {
        deep_questions();
    }
    println!("\nfamilies: worst {:.1} ms ({}), limit {limit} ms", worst.0 / 1000.0, worst.1);
    exit((worst.0 > limit * 1000.0 || steep) as i32);
}

/// Times and prints one row; gives its times.
fn row(family: &Family, flags: u64, kind: &str) -> [f64; 4] {
    let times = SIZES.map(|size| {
        about(format!("{}, {}, {kind}, {size} pattern bytes", family.name, mode(flags)));
        let (_, text) = family.texts(2 * size).into_iter().find(|(name, _)| *name == kind).unwrap();
        microseconds(&family.pattern(size), &text, flags)
    });
    let cells = times.map(|time| format!("{time:.1}")).join(" | ");
    println!("| {} | {} | {kind} | {cells} | x{:.1} |", family.name, mode(flags), times[3] / times[2]);
    times
}

/// 001's table 1.13: no match, within 2 seconds.
fn backtracking_row() {
    let (pattern, text) = ("*a".repeat(16), "a".repeat(59) + "b");
    println!("\n001's 1.13, 16 `*a` on 59 `a` and `b`:\n\n| mode | answer | microseconds |\n|---|---|---|");
    for flags in [1, 3, 0, 2] {
        about(format!("001's 1.13, {}", mode(flags)));
        let time = microseconds(pattern.as_bytes(), text.as_bytes(), flags);
        let answer = twin::archive::ask_bare(pattern.as_bytes(), text.as_bytes(), flags);
        println!("| {} | {answer} | {time:.2} |", mode(flags));
    }
}

/// Six components, and rule files of the usual kind.
fn usual_questions() {
    println!(
        "\nThe usual question, a path of six components:\n\n| lines | ignore, us | attribute, us |\n|---|---|---|"
    );
    for lines in [10, 100, 1000] {
        about(format!("the usual questions, {lines} lines"));
        let (ignore, attributes) = (usual::ignore(lines), usual::attributes(lines));
        let ignore = least(&|| code(&ignore, usual::PATH, None, 0));
        let attribute = least(&|| code(&attributes, usual::PATH, Some(usual::ATTRIBUTE), 0));
        println!("| {lines} | {ignore:.2} | {attribute:.2} |");
    }
}

/// How each family grows, and how long it takes at the limits: measured if
/// that should take no longer than so many seconds, else reckoned.
fn growing_questions(seconds: f64) {
    println!("\nQuestions: microseconds with 32 lines of 64 bytes and a path of 256 bytes; how many times longer");
    println!("with twice as much; seconds at the limits (`about`: reckoned from the growth).\n");
    println!("| family | us | twice the lines | twice the line | twice the path | grows as | at the limits, s |");
    println!("|---|---|---|---|---|---|---|");
    for family in QUESTION_FAMILIES {
        let growth = Growth::of(family);
        let line = if family.grows() { format!("x{:.1}", growth.line) } else { "-".to_string() };
        println!(
            "| {} | {:.1} | x{:.1} | {line} | x{:.1} | {} | {} |",
            family.name,
            growth.small,
            growth.lines,
            growth.path,
            growth.words(),
            at_the_limits(family, &growth, seconds)
        );
    }
}

fn at_the_limits(family: &QuestionFamily, growth: &Growth, seconds: f64) -> String {
    let reckoned = growth.estimate(family, family.limits()) / 1e6;
    match reckoned <= seconds {
        true => format!("{:.4}", time(family, family.limits()) / 1e6),
        false => format!("about {reckoned:.0}"),
    }
}

/// What bounding the path's depth and length saves from, with as many rules as are taken.
fn deep_questions() {
    println!("\nQuestions by the path's components: seconds with 65,536 rule bytes.\n");
    println!("| family | path | 16 | 32 | 64 |\n|---|---|---|---|---|");
    for (family, lengths) in DEEP_FAMILIES {
        let rules = family.rules(family.limits());
        for bytes in *lengths {
            let cells = [16, 32, 64].map(|components| {
                about(format!("{}, {components} components in {bytes} bytes", family.name));
                let path = deep_path(components, *bytes);
                format!("{:.3}", least(&|| code(&rules, &path, None, 0)) / 1e6)
            });
            let path = if *bytes == 0 { "components of one letter".to_string() } else { format!("{bytes} bytes") };
            println!("| {} | {path} | {} |", family.name, cells.join(" | "));
        }
    }
}
