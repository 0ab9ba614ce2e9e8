//! Times of two implementations in alternation.

use super::families::SIZES;
use crate::calls::{Calls, Library};
use crate::fast::Fast;
use std::hint::black_box;
use std::ops::Range;
use std::time::{Duration, Instant};

/// How long to measure: at least this often, and at least for so long.
#[derive(Clone, Copy)]
pub struct Patience {
    pub repetitions: usize,
    pub time: Duration,
}

/// Nanoseconds for all books of a family and size.
#[derive(Clone, Copy)]
pub struct Times {
    pub library: f64,
    pub fast: f64,
}

impl Times {
    /// Library over fast.
    pub fn ratio(&self) -> f64 {
        self.library / self.fast
    }
}

/// The books of a size are timed in groups of equal number, each long enough for the clock and short enough to be seldom interrupted.
const GROUPS: usize = 16;

/// The times of one group in all repetitions.
#[derive(Default)]
struct Group {
    library: Vec<f64>,
    fast: Vec<f64>,
}

/// `call` runs one implementation on the book of that size and number; `books` says how many there are of each size. The library goes
/// over one group of books, then `Fast` over another of the same size, then both go on to the next size: no book comes twice in a
/// row, and whatever else the machine does falls on all alike.
pub fn compare(
    patience: Patience,
    books: [usize; SIZES.len()],
    mut call: impl FnMut(&dyn Calls, usize, usize) -> u64,
) -> [Times; SIZES.len()] {
    for (size, &count) in books.iter().enumerate() {
        for book in 0..count {
            assert_eq!(call(&Library, size, book), call(&Fast, size, book), "the two differ on a book of the benchmarks");
        }
    }
    let members = |size: usize, group: usize| group * books[size] / GROUPS..(group + 1) * books[size] / GROUPS;
    let mut timed = |calls: &dyn Calls, size: usize, members: Range<usize>| {
        let begun = Instant::now();
        for book in members {
            black_box(call(calls, size, book));
        }
        begun.elapsed().as_secs_f64() * 1e9
    };
    let mut sizes: [[Group; GROUPS]; SIZES.len()] = Default::default();
    let begun = Instant::now();
    while sizes[0][0].library.len() < patience.repetitions || begun.elapsed() < patience.time {
        for number in 0..GROUPS {
            for (size, groups) in sizes.iter_mut().enumerate() {
                let other = (number + GROUPS / 2) % GROUPS;
                groups[number].library.push(timed(&Library, size, members(size, number)));
                groups[other].fast.push(timed(&Fast, size, members(size, other)));
            }
        }
    }
    sizes.map(total)
}

/// Of each group's times the lower quartile counts: where the machine is shared, the middle one may hold another's time as well.
fn total(groups: [Group; GROUPS]) -> Times {
    let sum = |times: fn(&Group) -> &[f64]| groups.iter().map(|group| lower_quartile(times(group))).sum();
    Times { library: sum(|group| &group.library), fast: sum(|group| &group.fast) }
}

fn lower_quartile(numbers: &[f64]) -> f64 {
    let mut sorted = numbers.to_vec();
    sorted.sort_by(f64::total_cmp);
    sorted[sorted.len() / 4]
}
