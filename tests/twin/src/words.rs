//! Every word over some letters, for the exhaustive sets.

/// Calls `each` with every word from `least` to `most` long.
pub fn words(letters: &[u8], least: usize, most: usize, mut each: impl FnMut(&[u8])) {
    for length in least..=most {
        let mut digits = vec![0; length];
        let mut word = vec![letters[0]; length];
        loop {
            each(&word);
            // Count up by one; the last digit runs fastest.
            let Some(at) = digits.iter().rposition(|&d| d + 1 < letters.len()) else { break };
            digits[at] += 1;
            word[at] = letters[digits[at]];
            digits[at + 1..].fill(0);
            word[at + 1..].fill(letters[0]);
        }
    }
}
