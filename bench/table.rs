//! The whole table of a shape: the baseline. Duval's successors come in dictionary order; since it is known how many
//! words of each length there are, each is put where listing order has it as it comes.

use crate::calls::{Entry, Outcome};

const NONE: u16 = 65_535;
/// The most letters of a word.
const LONGEST: usize = 12;
/// No shape has more words, of all its lengths together.
const WORDS: usize = 8_190;

/// k and n where they are a shape.
pub fn check_shape(k: u64, n: u64) -> Result<(usize, usize), u8> {
    if !(1..=16).contains(&k) {
        return Err(1);
    }
    if !(1..=12).contains(&n) {
        return Err(2);
    }
    if k.pow(n as u32) > 4_096 {
        return Err(3);
    }
    Ok((k as usize, n as usize))
}

/// All entries of a shape.
pub fn entries(k: u64, n: u64, entries: &mut [Entry]) -> Outcome {
    let (k, n) = check_shape(k, n)?;
    let lengths = Lengths::new(k, n);
    let count = lengths.first_entry[n + 1];
    let entries = entries.get_mut(..count).ok_or(4)?;
    // the number of each word that is Lyndon, shorter words first, those of one length by their codes
    let mut numbers = [NONE; WORDS];
    list(k, n, &lengths, entries, &mut numbers);
    split(&lengths, &mut entries[k..], &numbers);
    Ok(count)
}

/// What is asked of the words of each length.
struct Lengths {
    /// How many words there are.
    words: [usize; LONGEST + 1],
    /// How many shorter ones.
    shorter: [usize; LONGEST + 1],
    /// How many shorter ones are Lyndon.
    first_entry: [usize; LONGEST + 2],
}

impl Lengths {
    fn new(k: usize, n: usize) -> Lengths {
        let mut words = [1; LONGEST + 1];
        let mut shorter = [0; LONGEST + 1];
        let mut first_entry = [0; LONGEST + 2];
        for length in 1..=n {
            words[length] = words[length - 1] * k;
            shorter[length] = if length == 1 { 0 } else { shorter[length - 1] + words[length - 1] };
        }
        // every word is a power of exactly one rotation of a Lyndon word: those of shorter ones are taken off
        let mut rotations = words;
        for length in 1..=n {
            first_entry[length + 1] = first_entry[length] + rotations[length] / length;
            for power in (2 * length..=n).step_by(length) {
                rotations[power] -= rotations[length];
            }
        }
        Lengths { words, shorter, first_entry }
    }
}

/// Writes each Lyndon word to its place, and its number.
fn list(k: usize, n: usize, lengths: &Lengths, entries: &mut [Entry], numbers: &mut [u16; WORDS]) {
    let mut next = lengths.first_entry;
    let mut letters = [0; LONGEST];
    // the codes of the fronts of the letters
    let mut codes = [0; LONGEST + 1];
    let mut length = 1;
    while length > 0 {
        let (number, code) = (next[length], codes[length]);
        next[length] += 1;
        entries[number] = Entry { length: length as u8, code: code as u16, left: NONE, right: NONE };
        numbers[lengths.shorter[length] + code] = number as u16;
        // the next word: this one again and again up to n letters, the last of them that can be raised being raised
        for place in length..n {
            letters[place] = letters[place - length];
            codes[place + 1] = codes[place] * k + letters[place];
        }
        length = n;
        while length > 0 && letters[length - 1] == k - 1 {
            length -= 1;
        }
        if length > 0 {
            letters[length - 1] += 1;
            codes[length] += 1;
        }
    }
}

/// Writes the parts of each word that is no letter.
fn split(lengths: &Lengths, entries: &mut [Entry], numbers: &[u16; WORDS]) {
    for entry in entries {
        let (length, code) = (usize::from(entry.length), u32::from(entry.code));
        for behind in (1..length).rev() {
            let words = lengths.words[behind] as u32;
            let right = numbers[lengths.shorter[behind] + (code % words) as usize];
            if right != NONE {
                entry.left = numbers[lengths.shorter[length - behind] + (code / words) as usize];
                entry.right = right;
                break;
            }
        }
    }
}
