//! Clauses and load lines on two-valued values: faults 26 and 27.

use crate::book::Verdict;
use crate::calls::Tables;

/// The lowest failing clause, else the lowest failing load line.
pub fn verdict(t: &Tables, values: &[u8]) -> Verdict {
    if let Some(row) = failing_clause(t, values) {
        return Verdict::refused(26, row);
    }
    match failing_load(t, values) {
        Some(row) => Verdict::refused(27, row),
        None => Verdict::ACCEPTED,
    }
}

fn failing_clause(t: &Tables, values: &[u8]) -> Option<usize> {
    t.clauses.chunks_exact(2).position(|row| {
        let (start, count) = (usize::from(row[0]), usize::from(row[1]));
        !t.literals[start..start + count].iter().any(|&literal| holds(literal, values))
    })
}

fn failing_load(t: &Tables, values: &[u8]) -> Option<usize> {
    t.loads.chunks_exact(4).position(|row| {
        let (start, count) = (row[2] as usize, row[3] as usize);
        let terms = t.load_literals[start..start + count].iter().zip(&t.minutes[start..start + count]);
        let sum: i32 = terms.map(|(&literal, &minutes)| tenths(minutes) * i32::from(holds(literal, values))).sum();
        sum < row[0] || sum > row[1]
    })
}

fn holds(literal: u16, values: &[u8]) -> bool {
    u16::from(values[usize::from(literal / 2)]) != literal % 2
}

/// Minutes in tenths of an hour: the nearest, of two equally near the even one. With 36,000 minutes more, which are 6,000 tenths, an even
/// number, none is below 0, so that the sign takes no branch.
fn tenths(minutes: i16) -> i32 {
    let more = (i32::from(minutes) + 36_000) as u32;
    ((more + 2 + more / 6 % 2) / 6) as i32 - 6_000
}
