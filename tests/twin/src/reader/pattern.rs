//! The pattern of a line, of either kind: "Patterns match as for ignore lines".
use crate::items::{read, Item};
use crate::twin;

pub struct LinePattern {
    directories_only: bool,
    anchored: bool,
    /// "An empty pattern matches nothing", and so does a broken one.
    items: Option<Vec<Item>>,
}

impl LinePattern {
    /// What is left of an ignore line after its `!`, or the pattern of an
    /// attribute line.
    pub fn read(bytes: &[u8]) -> LinePattern {
        // "One last `/` goes and means "directories only"."
        let (directories_only, bytes) = match bytes.strip_suffix(b"/") {
            Some(rest) => (true, rest),
            None => (false, bytes),
        };
        // "If a `/` is left anywhere, the pattern is anchored: one first `/` goes"
        let anchored = bytes.contains(&b'/');
        let bytes = bytes.strip_prefix(b"/").unwrap_or(bytes);
        let items = if bytes.is_empty() { None } else { read(bytes).ok() };
        LinePattern { directories_only, anchored, items }
    }

    /// Does it match this entry, for a rule file of this base that applies?
    pub fn matches(&self, entry: &[u8], base: usize, directory: bool, fold: bool) -> bool {
        let Some(items) = &self.items else { return false };
        if self.directories_only && !directory {
            return false;
        }
        let fold = if fold { twin::FOLD } else { 0 };
        if self.anchored {
            // "in path mode against the path with the rule file's directory cut off its front"
            twin::joins(items, &entry[base..], fold | twin::PATH)
        } else {
            // "without path mode against the last component"
            twin::joins(items, entry.rsplit(|&x| x == b'/').next().unwrap(), fold)
        }
    }
}

/// "A file applies to a path or directory of n bytes only if its base is less
/// than n."
pub fn applies(base: usize, entry: &[u8]) -> bool {
    base < entry.len()
}
