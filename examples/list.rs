//! What the library does with the Lyndon words of at most three letters 0 and 1. examples/run builds and runs it.

use std::io::Write;

/// A Lyndon word, with the numbers of its two parts, which are `NONE` for a letter.
#[repr(C)]
#[derive(Clone, Copy, Default, Debug)]
struct Entry {
    length: u8,
    code: u16,
    left: u16,
    right: u16,
}

/// Why a call was refused; its number is 0 where it was not.
#[repr(C)]
#[derive(Clone, Copy, Debug)]
struct Fault {
    number: u8,
    layer: u8,
    first: u8,
    second: u8,
    third: u8,
    place: usize,
    position: usize,
}

const NONE: usize = 65_535;
const MOST_ENTRIES: usize = 1_496;
const LONGEST_LINE: usize = 74;
const MALFORMED: u8 = 15;

// The calls, as include/lyndon.h declares them. They ask that pointers are valid for their counts and that what is
// written overlaps nothing else; references to one value keep that by themselves.
unsafe extern "C" {
    fn lyndon_entries(k: u64, n: u64, entries: *mut Entry, places: usize, count: &mut usize) -> Fault;
    fn lyndon_lines(k: u64, n: u64, buffer: *mut u8, size: usize, bytes: &mut usize) -> Fault;
    safe fn lyndon_look(k: u64, n: u64, grows: usize, number: usize, entry: &mut Entry) -> Fault;
    fn lyndon_find(k: u64, n: u64, grows: usize, letters: *const u8, count: usize, number: &mut usize) -> Fault;
    fn lyndon_line(
        k: u64,
        n: u64,
        grows: usize,
        number: usize,
        buffer: *mut u8,
        size: usize,
        bytes: &mut usize,
    ) -> Fault;
    fn lyndon_read(k: u64, n: u64, grows: usize, text: *const u8, size: usize, number: &mut usize) -> Fault;
    fn lyndon_expand(k: u64, n: u64, grows: usize, number: usize, sheet: *mut u64, values: usize) -> Fault;
    fn lyndon_into(k: u64, n: u64, grows: usize, m: usize, sheet: *mut u64, values: usize) -> Fault;
    fn lyndon_back(k: u64, n: u64, grows: usize, m: usize, sheet: *mut u64, values: usize) -> Fault;
    fn lyndon_lie(
        k: u64,
        n: u64,
        grows: usize,
        m: usize,
        coordinates: *const u64,
        values: usize,
        yes: &mut u8,
    ) -> Fault;
    fn lyndon_join(
        k: u64,
        n: u64,
        grows: usize,
        a: usize,
        x: *const u64,
        x_values: usize,
        b: usize,
        y: *const u64,
        y_values: usize,
        sheet: *mut u64,
        values: usize,
    ) -> Fault;
    fn lyndon_factor(word: *const u8, letters: usize, starts: *mut u16, places: usize, count: &mut usize) -> Fault;
}

impl Fault {
    fn accepted(self) -> Result<(), Fault> {
        if self.number == 0 { Ok(()) } else { Err(self) }
    }
}

/// The table of k letters and words of at most n, that has so many entries.
#[derive(Clone, Copy)]
struct Table {
    k: u64,
    n: u64,
    grows: usize,
}

// SAFETY, of each call: its pointers are those of slices, with their lengths, and what is written is borrowed alone
impl Table {
    fn find(self, letters: &[u8]) -> Result<Option<usize>, Fault> {
        let Table { k, n, grows } = self;
        let mut number = 0;
        unsafe { lyndon_find(k, n, grows, letters.as_ptr(), letters.len(), &mut number) }.accepted()?;
        Ok((number != NONE).then_some(number))
    }

    fn look(self, number: usize) -> Result<Entry, Fault> {
        let mut entry = Entry::default();
        lyndon_look(self.k, self.n, self.grows, number, &mut entry).accepted()?;
        Ok(entry)
    }

    fn line(self, number: usize) -> Result<String, Fault> {
        let Table { k, n, grows } = self;
        let mut line = vec![0; LONGEST_LINE];
        let mut bytes = 0;
        unsafe { lyndon_line(k, n, grows, number, line.as_mut_ptr(), line.len(), &mut bytes) }.accepted()?;
        line.truncate(bytes);
        Ok(String::from_utf8(line).expect("symbols, digits and marks"))
    }

    fn read(self, text: &str) -> Result<usize, Fault> {
        let Table { k, n, grows } = self;
        let mut number = 0;
        unsafe { lyndon_read(k, n, grows, text.as_ptr(), text.len(), &mut number) }.accepted()?;
        Ok(number)
    }

    fn expand(self, number: usize, sheet: &mut [u64]) -> Result<(), Fault> {
        let Table { k, n, grows } = self;
        unsafe { lyndon_expand(k, n, grows, number, sheet.as_mut_ptr(), sheet.len()) }.accepted()
    }

    fn into(self, m: usize, sheet: &mut [u64]) -> Result<(), Fault> {
        let Table { k, n, grows } = self;
        unsafe { lyndon_into(k, n, grows, m, sheet.as_mut_ptr(), sheet.len()) }.accepted()
    }

    fn back(self, m: usize, sheet: &mut [u64]) -> Result<(), Fault> {
        let Table { k, n, grows } = self;
        unsafe { lyndon_back(k, n, grows, m, sheet.as_mut_ptr(), sheet.len()) }.accepted()
    }

    fn lie(self, m: usize, coordinates: &[u64]) -> Result<bool, Fault> {
        let Table { k, n, grows } = self;
        let mut yes = 0;
        unsafe { lyndon_lie(k, n, grows, m, coordinates.as_ptr(), coordinates.len(), &mut yes) }.accepted()?;
        Ok(yes == 1)
    }

    fn join(self, (a, x): (usize, &[u64]), (b, y): (usize, &[u64]), sheet: &mut [u64]) -> Result<(), Fault> {
        let Table { k, n, grows } = self;
        let (x_values, y_values, values) = (x.len(), y.len(), sheet.len());
        let sheet = sheet.as_mut_ptr();
        unsafe { lyndon_join(k, n, grows, a, x.as_ptr(), x_values, b, y.as_ptr(), y_values, sheet, values) }.accepted()
    }
}

fn entries(k: u64, n: u64) -> Result<Vec<Entry>, Fault> {
    let mut entries = vec![Entry::default(); MOST_ENTRIES];
    let mut count = 0;
    // SAFETY: the pointer is that of a slice, with its length
    unsafe { lyndon_entries(k, n, entries.as_mut_ptr(), entries.len(), &mut count) }.accepted()?;
    entries.truncate(count);
    Ok(entries)
}

fn lines(k: u64, n: u64) -> Result<Vec<u8>, Fault> {
    let mut lines = vec![0; MOST_ENTRIES * LONGEST_LINE];
    let mut bytes = 0;
    // SAFETY: the pointer is that of a slice, with its length
    unsafe { lyndon_lines(k, n, lines.as_mut_ptr(), lines.len(), &mut bytes) }.accepted()?;
    lines.truncate(bytes);
    Ok(lines)
}

fn factor(word: &[u8]) -> Result<Vec<u16>, Fault> {
    let mut starts = vec![0; word.len()];
    let mut count = 0;
    // SAFETY: the pointers are those of slices, with their lengths
    unsafe { lyndon_factor(word.as_ptr(), word.len(), starts.as_mut_ptr(), starts.len(), &mut count) }.accepted()?;
    starts.truncate(count);
    Ok(starts)
}

/// Prints the values of a sheet that are not zero, each with its word, as numbers with a sign.
fn print_sheet(name: &str, sheet: &[u64; 8]) {
    print!("{name}:");
    for (code, value) in sheet.iter().enumerate().filter(|(_, value)| **value != 0) {
        print!(" {code:03b} {}", value.cast_signed());
    }
    println!();
}

fn yes_or_no(yes: bool) -> &'static str {
    if yes { "yes" } else { "no" }
}

fn main() -> Result<(), Fault> {
    let (k, n) = (2, 3);
    let entries = entries(k, n)?;
    println!("{k} {n} {}", entries.len());
    for (number, entry) in entries.iter().enumerate().filter(|(_, entry)| entry.length > 1) {
        println!("{number} has the parts {} and {}", entry.left, entry.right);
    }
    std::io::stdout().write_all(&lines(k, n)?).expect("standard output");

    // for sheets of three letters all entries are needed
    let table = Table { k, n, grows: entries.len() };
    let entry = table.look(4)?;
    println!("entry 4: {} letters, code {}", entry.length, entry.code);
    println!("entry 5: fault {}", table.look(5).expect_err("five entries").number);
    println!("find 001: {}", table.find(&[0, 0, 1])?.expect("a Lyndon word"));
    println!("find 010: {}", if table.find(&[0, 1, 0])?.is_none() { "none" } else { "some" });
    print!("line of 2: {}", table.line(2)?);
    println!("read [0,[0,1]]: {}", table.read("[0,[0,1]]")?);
    let fault = table.read("[0,[0,1]").expect_err("a bracket is open");
    assert_eq!(fault.number, MALFORMED);
    println!("read [0,[0,1]: fault {} at byte {}", fault.number, fault.place);

    print!("factors of 200 7 7 30 7 7 30 2 start at:");
    for start in factor(&[200, 7, 7, 30, 7, 7, 30, 2])? {
        print!(" {start}");
    }
    println!();

    // the entry 3, 001, has the parts 0 and 2: 0 and 01
    let (mut x, mut y, mut bracket, mut joined) = ([0; 2], [0; 4], [0; 8], [0; 8]);
    table.expand(3, &mut bracket)?;
    print_sheet("bracket of 3", &bracket);
    table.expand(0, &mut x)?;
    table.expand(2, &mut y)?;
    table.join((1, &x), (2, &y), &mut joined)?;
    println!("join of 0 and 2: {}", if joined == bracket { "the same" } else { "another" });
    table.into(3, &mut bracket)?;
    print_sheet("its coordinates", &bracket);
    println!("a sum of multiples of brackets: {}", yes_or_no(table.lie(3, &bracket)?));

    let mut word = [0; 8];
    word[1] = 1;
    table.into(3, &mut word)?;
    print_sheet("coordinates of 001", &word);
    println!("a sum of multiples of brackets: {}", yes_or_no(table.lie(3, &word)?));
    table.back(3, &mut word)?;
    print_sheet("and back", &word);
    Ok(())
}
