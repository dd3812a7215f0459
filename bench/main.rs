//! The proved library beside Rust programs for the same jobs, in one process. Run by bench/run.

mod calls;
mod factor;
mod join;
mod numbers;
mod race;
mod sheets;
mod table;

use calls::{Entry, Outcome};
use numbers::Numbers;
use race::{Times, race, race_beside};
use sheets::Kept;
use std::hint::black_box;

fn main() {
    check_refusals();
    println!("{:<44}{:>10}{:>10}{:>8}", "shortest runs", "ours us", "Rust us", "ratio");
    for (k, n, m) in [(2, 12, 12), (3, 7, 7), (16, 3, 3)] {
        print_shape(k, n, m);
    }
    print_join();
    for (name, word) in factor::words(65_535) {
        print_factor(name, &word, word.len());
    }
}

/// Sees that both sides refuse the same, and write nothing then.
fn check_refusals() {
    let unused = Entry { length: 13, ..Entry::default() };
    for (k, n, places, fault) in
        [(0, 0, 9, 1), (17, 13, 9, 1), (2, 0, 9, 2), (2, 13, 9, 2), (16, 4, 9, 3), (3, 8, 9, 3), (2, 12, 746, 4)]
    {
        for entries in [calls::entries, table::entries] {
            let mut room = vec![unused; places];
            assert_eq!(entries(k, n, &mut room), Err(fault));
            assert!(room.iter().all(|entry| *entry == unused));
        }
    }
}

fn print_row(name: &str, times: Times) {
    println!("{name:<44}{:>10.1}{:>10.1}{:>8.2}", times.ours, times.rust, times.ours / times.rust);
}

/// The table of a shape, and sheets of length m into coordinates and back.
fn print_shape(k: u64, n: u64, m: usize) {
    type Ours = fn(u64, u64, usize, usize, &mut [u64]) -> Outcome;
    type Rust = fn(Kept, u64, u64, usize, &mut [u64]) -> Outcome;
    let (k, n) = (black_box(k), black_box(n));
    let room = [Entry::default(); 1_496];
    let title = format!("{k} {n}: entries");
    print_row(&title, race(&title, &room, |room| calls::entries(k, n, room), |room| table::entries(k, n, room)));

    let mut scratch = room;
    let grows = calls::entries(k, n, &mut scratch).expect("a shape");
    let sheet = Numbers::new().sheet((k as usize).pow(m as u32));
    for (name, ours, rust) in
        [("into", calls::into as Ours, sheets::into as Rust), ("back", calls::back as Ours, sheets::back as Rust)]
    {
        let title = format!("{k} {n}: {name}, {} values", sheet.len());
        let [expanded, kept] = [Kept::Nothing, Kept::Lyndon].map(|kept| {
            race_beside(
                &title,
                &sheet,
                |sheet| ours(k, n, grows, m, sheet),
                |sheet| rust(kept, k, n, m, sheet),
                || assert_eq!(calls::entries(k, n, &mut scratch), Ok(grows)),
            )
        });
        // a call makes its table first, which the baseline does not need: the others compare the conversion alone
        let less_entries = |times: Times| Times { ours: times.ours - times.beside, ..times };
        print_row(&title, expanded);
        print_row("    less entries", less_entries(expanded));
        print_row("    less entries; Rust keeps P of Lyndon words", less_entries(kept));
    }
}

fn print_join() {
    let mut numbers = Numbers::new();
    let (x, y) = (numbers.sheet(64), numbers.sheet(64));
    let times = race(
        "join",
        &[0; 4_096],
        |sheet| calls::join(black_box(2), black_box(12), (6, &x), (6, &y), sheet),
        |sheet| join::join(black_box(2), black_box(12), (6, &x), (6, &y), sheet),
    );
    print_row("2 12: join of 6 and 6 letters", times);
}

fn print_factor(name: &str, word: &[u8], places: usize) {
    let title = format!("factor, 65,535 letters: {name}");
    let times = race(
        &title,
        &vec![0xffff_u16; places],
        |starts| calls::factor(word, starts),
        |starts| factor::factor(word, starts),
    );
    print_row(&title, times);
}
