//! The factors of a word: the baseline, and the words that are factored.

use crate::calls::Outcome;
use crate::numbers::Numbers;

/// The starts of the factors of a word: one pass of Duval's algorithm.
pub fn factor(word: &[u8], starts: &mut [u16]) -> Outcome {
    if word.len() > 65_535 {
        return Err(17);
    }
    // a word has no more factors than letters: only for a shorter list are they counted first
    if starts.len() < word.len() && runs(word).map(|run| run.letters / run.period).sum::<usize>() > starts.len() {
        return Err(6);
    }
    let mut count = 0;
    for run in runs(word) {
        for start in (run.start..run.start + run.letters).step_by(run.period) {
            starts[count] = start as u16;
            count += 1;
        }
    }
    Ok(count)
}

/// Equal factors in a row.
struct Run {
    start: usize,
    letters: usize,
    /// The letters of one of them.
    period: usize,
}

/// The runs of equal factors of a word.
fn runs(word: &[u8]) -> impl Iterator<Item = Run> {
    let mut start = 0;
    std::iter::from_fn(move || {
        let rest = &word[start..];
        if rest.is_empty() {
            return None;
        }
        let (read, period) = leading_run(rest);
        let run = Run { start, letters: read / period * period, period };
        start += run.letters;
        Some(run)
    })
}

/// How many letters repeat the first factor, the last time perhaps not to its end, and how many it has.
fn leading_run(word: &[u8]) -> (usize, usize) {
    let mut period = 1;
    for (read, letter) in word.iter().enumerate().skip(1) {
        let back = &word[read - period];
        if letter < back {
            return (read, period);
        }
        if letter > back {
            period = read + 1;
        }
    }
    (word.len(), period)
}

/// The words that are factored, with their names.
pub fn words(letters: usize) -> [(&'static str, Vec<u8>); 7] {
    let mut numbers = Numbers::new();
    [
        ("random, 2 letters", (0..letters).map(|_| numbers.below(2) as u8).collect()),
        ("random, 256 letters", (0..letters).map(|_| numbers.below(256) as u8).collect()),
        ("all equal", vec![7; letters]),
        ("01 repeated", (0..letters).map(|i| (i % 2) as u8).collect()),
        ("Fibonacci word", fibonacci(letters)),
        ("rising by runs", (0..letters).map(|i| (i / 257) as u8).collect()),
        ("falling by runs", (0..letters).map(|i| (255 - i / 257) as u8).collect()),
    ]
}

/// The front of the word that begins with 01 and goes on, again and again, as it stood one step before.
fn fibonacci(letters: usize) -> Vec<u8> {
    let (mut word, mut before) = (vec![0, 1], vec![0]);
    while word.len() < letters {
        let next = [&word[..], &before].concat();
        before = std::mem::replace(&mut word, next);
    }
    word.truncate(letters);
    word
}
