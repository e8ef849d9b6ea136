//! How a family's questions grow: measured where they are quick, and from
//! that how long one of another size would take.
use crate::asking::calls::code;
use crate::question_families::{QuestionFamily, Size};
use crate::timing::{about, least};

/// Where growth is measured from.
const SMALL: Size = Size { lines: 32, line: 64, path: 256 };

pub struct Growth {
    /// Microseconds at the small size.
    pub small: f64,
    /// How many times longer with twice the lines, the line's bytes, the path.
    pub lines: f64,
    pub line: f64,
    pub path: f64,
}

/// Microseconds of one question of this size.
pub fn time(family: &QuestionFamily, size: Size) -> f64 {
    about(format!("{}, {} lines of {}, path of {}", family.name, size.lines, size.line, size.path));
    let (rules, path) = (family.rules(size), family.path(size));
    least(&|| code(&rules, &path, family.attribute.map(str::as_bytes), 0))
}

impl Growth {
    /// The sizes are timed in turn, three times, so that other work on the
    /// machine does not fall on one of them.
    pub fn of(family: &QuestionFamily) -> Growth {
        let sizes = [
            SMALL,
            Size { lines: 2 * SMALL.lines, ..SMALL },
            Size { line: 2 * SMALL.line, ..SMALL },
            Size { path: 2 * SMALL.path, ..SMALL },
        ];
        let mut times = [f64::INFINITY; 4];
        for _ in 0..3 {
            times = std::array::from_fn(|i| times[i].min(time(family, sizes[i])));
        }
        let [small, lines, line, path] = times;
        let line = if family.grows() { line / small } else { 1.0 };
        Growth { small, lines: lines / small, line, path: path / small }
    }

    /// The growth in words: `lines x line x path^2` for x2, x2 and x4.
    pub fn words(&self) -> String {
        let power = |name: &str, ratio: f64| match ratio.log2().round() as i32 {
            ..=0 => None,
            1 => Some(name.to_string()),
            n => Some(format!("{name}^{n}")),
        };
        let factors = [power("lines", self.lines), power("line", self.line), power("path", self.path)];
        factors.into_iter().flatten().collect::<Vec<_>>().join(" x ")
    }

    /// About how many microseconds a question of this size would take.
    pub fn estimate(&self, family: &QuestionFamily, size: Size) -> f64 {
        let doublings = |from: usize, to: usize| (to as f64 / from as f64).log2();
        let line = if family.grows() { doublings(SMALL.line, size.line) } else { 0.0 };
        self.small
            * self.lines.max(1.0).powf(doublings(SMALL.lines, size.lines))
            * self.line.max(1.0).powf(line)
            * self.path.max(1.0).powf(doublings(SMALL.path, size.path))
    }
}

/// The largest size that should take no longer, the path before the lines: it
/// is the path and the single line that go deep. One longest line with an
/// eighth of the path, and with half of that, show how it grows.
pub fn within(family: &QuestionFamily, microseconds: f64) -> Size {
    let limits = family.limits();
    let line = |path: usize| time(family, Size { lines: 1, path, ..limits });
    let eighth = line(limits.path / 8);
    let growth = (eighth / line(limits.path / 16)).max(1.0);
    let (mut path, mut reckoned) = (limits.path, eighth * growth.powi(3));
    while reckoned > microseconds && path > limits.path / 8 {
        path /= 2;
        reckoned /= growth;
    }
    let lines = ((microseconds / reckoned) as usize).clamp(1, limits.lines);
    Size { lines, path, ..limits }
}
