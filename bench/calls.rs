//! The calls of the library that are measured, each behind a safe function. include/lyndon.h says what they do.

/// What a job comes to: a count, or 0 where it has none to tell; or the number of the fault that refused it.
pub type Outcome = Result<usize, u8>;

/// A Lyndon word, with the numbers of its two parts.
#[repr(C)]
#[derive(Clone, Copy, PartialEq, Eq, Default, Debug)]
pub struct Entry {
    pub length: u8,
    pub code: u16,
    pub left: u16,
    pub right: u16,
}

#[repr(C)]
struct Fault {
    number: u8,
    layer: u8,
    first: u8,
    second: u8,
    third: u8,
    place: usize,
    position: usize,
}

impl Fault {
    fn or(self, count: usize) -> Outcome {
        if self.number == 0 { Ok(count) } else { Err(self.number) }
    }
}

unsafe extern "C" {
    fn lyndon_entries(k: u64, n: u64, entries: *mut Entry, places: usize, count: &mut usize) -> Fault;
    fn lyndon_factor(word: *const u8, letters: usize, starts: *mut u16, places: usize, count: &mut usize) -> Fault;
    fn lyndon_into(k: u64, n: u64, grows: usize, m: usize, sheet: *mut u64, values: usize) -> Fault;
    fn lyndon_back(k: u64, n: u64, grows: usize, m: usize, sheet: *mut u64, values: usize) -> Fault;
    fn lyndon_join(
        k: u64,
        n: u64,
        grows: usize,
        a: usize,
        x: *const u64,
        x_values: usize,
        b: usize,
        y: *const u64,
        y_values: usize,
        sheet: *mut u64,
        values: usize,
    ) -> Fault;
}

// Every call asks that its pointers are valid for their counts and that what it writes overlaps nothing else: so it is
// of slices, those that are written being borrowed alone.

/// All entries of a shape.
pub fn entries(k: u64, n: u64, entries: &mut [Entry]) -> Outcome {
    let mut count = 0;
    // SAFETY: the pointer is that of a slice, with its length
    let fault = unsafe { lyndon_entries(k, n, entries.as_mut_ptr(), entries.len(), &mut count) };
    fault.or(count)
}

/// The starts of the factors of a word.
pub fn factor(word: &[u8], starts: &mut [u16]) -> Outcome {
    let mut count = 0;
    // SAFETY: the pointers are those of slices, with their lengths
    let fault = unsafe { lyndon_factor(word.as_ptr(), word.len(), starts.as_mut_ptr(), starts.len(), &mut count) };
    fault.or(count)
}

/// A sheet by its coordinates.
pub fn into(k: u64, n: u64, grows: usize, m: usize, sheet: &mut [u64]) -> Outcome {
    // SAFETY: the pointer is that of a slice, with its length
    unsafe { lyndon_into(k, n, grows, m, sheet.as_mut_ptr(), sheet.len()) }.or(0)
}

/// Coordinates by their sheet.
pub fn back(k: u64, n: u64, grows: usize, m: usize, sheet: &mut [u64]) -> Outcome {
    // SAFETY: the pointer is that of a slice, with its length
    unsafe { lyndon_back(k, n, grows, m, sheet.as_mut_ptr(), sheet.len()) }.or(0)
}

/// xy - yx of two sheets, with the lengths of their words.
pub fn join(k: u64, n: u64, (a, x): (usize, &[u64]), (b, y): (usize, &[u64]), sheet: &mut [u64]) -> Outcome {
    // SAFETY: the pointers are those of slices, with their lengths
    unsafe { lyndon_join(k, n, 0, a, x.as_ptr(), x.len(), b, y.as_ptr(), y.len(), sheet.as_mut_ptr(), sheet.len()) }
        .or(0)
}
