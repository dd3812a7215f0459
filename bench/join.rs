//! xy - yx of two sheets: the baseline.

use crate::calls::Outcome;
use crate::table::check_shape;

/// Writes xy - yx, for sheets with the lengths of their words.
pub fn join(k: u64, n: u64, (a, x): (usize, &[u64]), (b, y): (usize, &[u64]), sheet: &mut [u64]) -> Outcome {
    let (k, n) = check_shape(k, n)?;
    if a == 0 || b == 0 || a > n || b > n - a {
        return Err(12);
    }
    let words = |length: usize| k.pow(length as u32);
    if x.len() != words(a) || y.len() != words(b) || sheet.len() != words(a + b) {
        return Err(5);
    }
    // one pass over the sheet, in steps in which x and y each have one factor and one row
    let step = x.len().min(y.len());
    for (i, places) in sheet.chunks_exact_mut(step).enumerate() {
        let start = i * step;
        let (front, behind) = (x[start / y.len()], &y[start % y.len()..][..step]);
        let (other_front, other_behind) = (y[start / x.len()], &x[start % x.len()..][..step]);
        for ((place, p), q) in places.iter_mut().zip(behind).zip(other_behind) {
            *place = front.wrapping_mul(*p).wrapping_sub(other_front.wrapping_mul(*q));
        }
    }
    Ok(0)
}
