//! Coordinates of sheets, in place: the baseline. The least word is taken out first, or the greatest put back first.
//!
//! P of a word is a list of words with coefficients, none of them twice. In each shape that is measured this was faster
//! than a dense row of P, which is mostly zeros. A list of words with signs, some of them more than once, took twice as
//! long for 2 12, and a tenth less for 3 7 and 16 3.

use crate::calls::Outcome;
use crate::table::check_shape;
use std::ops::Range;

/// The most letters of a word.
const LONGEST: usize = 12;
/// Enough terms for P of the parts of each word with what it takes to make them.
const ROOM: usize = 4_096;

/// What is made of P before the words of the sheet are gone through.
#[derive(Clone, Copy)]
pub enum Kept {
    /// Nothing: P of the parts of each word is made when its turn comes.
    Nothing,
    /// P of each shorter Lyndon word, until the call ends.
    Lyndon,
}

/// Replaces a sheet of length m by its coordinates.
pub fn into(kept: Kept, k: u64, n: u64, m: usize, sheet: &mut [u64]) -> Outcome {
    let mut polynomials = Polynomials::new(kept, check_conversion(k, n, m, sheet)?, m);
    for code in 0..sheet.len() {
        let coordinate = sheet[code];
        polynomials.add(code, coordinate.wrapping_neg(), sheet);
        sheet[code] = coordinate;
    }
    Ok(0)
}

/// Replaces coordinates by their sheet of length m.
pub fn back(kept: Kept, k: u64, n: u64, m: usize, sheet: &mut [u64]) -> Outcome {
    let mut polynomials = Polynomials::new(kept, check_conversion(k, n, m, sheet)?, m);
    for code in (0..sheet.len()).rev() {
        let coordinate = std::mem::take(&mut sheet[code]);
        polynomials.add(code, coordinate, sheet);
    }
    Ok(0)
}

fn check_conversion(k: u64, n: u64, m: usize, sheet: &[u64]) -> Result<usize, u8> {
    let (k, n) = check_shape(k, n)?;
    if m == 0 || m > n {
        return Err(12);
    }
    if sheet.len() != k.pow(m as u32) {
        return Err(5);
    }
    Ok(k)
}

/// A word, by its code, with a coefficient.
#[derive(Clone, Copy, Default)]
struct Term {
    code: u16,
    coefficient: i16,
}

/// A word cut before its longest proper suffix that is Lyndon.
#[derive(Clone, Copy)]
struct Cut {
    /// The codes of the parts.
    left: u16,
    right: u16,
    /// How many letters the right part has; 0 for a letter, which is not cut.
    behind: u8,
    /// Whether the word is Lyndon, so that its P is a bracket of those of the parts, and not their product.
    lyndon: bool,
}

/// P of the words of m letters.
struct Polynomials {
    m: usize,
    makers: Makers,
    scratch: Scratch,
}

/// The memory in which P of words is made.
struct Scratch {
    terms: Vec<Term>,
    /// A coefficient for each word that is shorter than m: 0, except while xy - yx is made.
    row: Vec<i16>,
}

impl Polynomials {
    fn new(kept: Kept, k: usize, m: usize) -> Polynomials {
        let mut makers = Makers::new(k, m);
        let mut scratch = Scratch { terms: vec![Term::default(); ROOM], row: vec![0; makers.words[m - 1]] };
        if let Kept::Lyndon = kept {
            makers.keep(m, &mut scratch);
        }
        Polynomials { m, makers, scratch }
    }

    /// Adds a multiple of P of a word.
    fn add(&mut self, code: usize, factor: u64, sheet: &mut [u64]) {
        let cut = self.makers.at(self.m, code);
        if cut.behind == 0 {
            sheet[code] = sheet[code].wrapping_add(factor);
            return;
        }
        let behind = usize::from(cut.behind);
        let front = self.m - behind;
        let Scratch { terms, row } = &mut self.scratch;
        let (x, free) = self.makers.expand(front, cut.left, terms, row);
        let (y, _) = self.makers.expand(behind, cut.right, free, row);
        add_product(x, y, self.makers.words[behind], factor, sheet);
        if cut.lyndon {
            add_product(y, x, self.makers.words[front], factor.wrapping_neg(), sheet);
        }
    }
}

/// What it takes to make P of the words of at most m letters.
struct Makers {
    /// How many words of each length there are.
    words: [usize; LONGEST + 1],
    /// How many shorter ones.
    shorter: [usize; LONGEST + 1],
    /// How each word is cut, shorter words first, those of one length by their codes.
    cuts: Vec<Cut>,
    /// P of the words that are kept, and where that of each word is, in the same order.
    kept: Vec<Term>,
    places: Vec<Range<u32>>,
}

impl Makers {
    fn new(k: usize, m: usize) -> Makers {
        let mut all = Makers {
            words: [1; LONGEST + 1],
            shorter: [0; LONGEST + 1],
            cuts: Vec::with_capacity(8_192),
            kept: Vec::new(),
            places: Vec::new(),
        };
        for letter in 0..k {
            all.cuts.push(Cut { left: 0, right: letter as u16, behind: 0, lyndon: true });
        }
        all.words[1] = k;
        for length in 2..=m {
            all.words[length] = all.words[length - 1] * k;
            all.shorter[length] = all.cuts.len();
            for letter in 0..k {
                for rest in 0..all.words[length - 1] {
                    all.cuts.push(all.cut(length, letter, rest));
                }
            }
        }
        all
    }

    /// The cut of a letter before a word, whose cut is known.
    fn cut(&self, length: usize, letter: usize, rest: usize) -> Cut {
        let whole = self.at(length - 1, rest);
        let (left, right, behind) = if whole.lyndon {
            (letter, rest, length - 1)
        } else {
            let behind = usize::from(whole.behind);
            (letter * self.words[length - 1 - behind] + usize::from(whole.left), usize::from(whole.right), behind)
        };
        let front = length - behind;
        // both parts being Lyndon, the word is too if it is less than with its parts exchanged
        let lyndon =
            self.at(front, left).lyndon && left * self.words[behind] + right < right * self.words[front] + left;
        Cut { left: left as u16, right: right as u16, behind: behind as u8, lyndon }
    }

    fn at(&self, length: usize, code: usize) -> Cut {
        self.cuts[self.shorter[length] + code]
    }

    /// Keeps P of each Lyndon word of less than m letters.
    fn keep(&mut self, m: usize, scratch: &mut Scratch) {
        for length in 1..m {
            for code in 0..self.words[length] {
                let start = self.kept.len() as u32;
                if self.at(length, code).lyndon {
                    let count = self.make(length, code as u16, &mut scratch.terms, &mut scratch.row);
                    self.kept.extend_from_slice(&scratch.terms[..count]);
                }
                self.places.push(start..self.kept.len() as u32);
            }
        }
    }

    /// P of a word, as it is kept or else made in the front of a memory, and the memory that is free.
    fn expand<'m>(
        &'m self,
        length: usize,
        code: u16,
        memory: &'m mut [Term],
        row: &mut [i16],
    ) -> (&'m [Term], &'m mut [Term]) {
        if let Some(place) = self.places.get(self.shorter[length] + usize::from(code))
            && !place.is_empty()
        {
            return (&self.kept[place.start as usize..place.end as usize], memory);
        }
        let count = self.make(length, code, memory, row);
        let (own, free) = memory.split_at_mut(count);
        (own, free)
    }

    /// Makes P of a word in the front of a memory, and tells how many terms it has.
    fn make(&self, length: usize, code: u16, memory: &mut [Term], row: &mut [i16]) -> usize {
        let (own, free) = memory.split_at_mut(1 << (length - 1));
        let cut = self.at(length, usize::from(code));
        if cut.behind == 0 {
            own[0] = Term { code, coefficient: 1 };
            return 1;
        }
        let behind = usize::from(cut.behind);
        let front = length - behind;
        let (x, free) = self.expand(front, cut.left, free, row);
        let (y, free) = self.expand(behind, cut.right, free, row);
        let size = x.len() * y.len();
        if !cut.lyndon {
            write_product(x, y, self.words[behind], &mut own[..size]);
            return size;
        }
        let (there, free) = free.split_at_mut(size);
        let back = &mut free[..size];
        write_product(x, y, self.words[behind], there);
        write_product(y, x, self.words[front], back);
        gather_difference(there, back, row, own)
    }
}

/// Adds a multiple of xy, where there are so many words as long as those of y.
fn add_product(x: &[Term], y: &[Term], words: usize, factor: u64, sheet: &mut [u64]) {
    for front in x {
        let row = &mut sheet[usize::from(front.code) * words..][..words];
        let factor = factor.wrapping_mul(front.coefficient as u64);
        for behind in y {
            let value = &mut row[usize::from(behind.code)];
            *value = value.wrapping_add(factor.wrapping_mul(behind.coefficient as u64));
        }
    }
}

/// Writes xy.
fn write_product(x: &[Term], y: &[Term], words: usize, terms: &mut [Term]) {
    for (front, row) in x.iter().zip(terms.chunks_exact_mut(y.len())) {
        let start = front.code * words as u16;
        for (behind, term) in y.iter().zip(row) {
            *term = Term { code: start + behind.code, coefficient: front.coefficient * behind.coefficient };
        }
    }
}

/// Writes x - y without zeros, and tells how many terms it has. The row has zeros alone, and again in the end.
fn gather_difference(x: &[Term], y: &[Term], row: &mut [i16], terms: &mut [Term]) -> usize {
    for term in x {
        row[usize::from(term.code)] = term.coefficient;
    }
    for term in y {
        row[usize::from(term.code)] -= term.coefficient;
    }
    let mut count = 0;
    for term in x.iter().chain(y) {
        let coefficient = std::mem::take(&mut row[usize::from(term.code)]);
        // one more only where it is not zero, which a branch would guess wrong often
        terms[count] = Term { code: term.code, coefficient };
        count += usize::from(coefficient != 0);
    }
    count
}
