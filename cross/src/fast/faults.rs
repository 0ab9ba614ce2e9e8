//! Faults 11 to 17 and 31: of the host that lends the tables.

use crate::book::Verdict;
use crate::calls::Tables;

/// The first fault of the tables (11 to 16), at its lowest position.
pub fn of_tables(t: &Tables) -> Option<Verdict> {
    if wrong_size(t) {
        return Some(Verdict::refused(11, 0));
    }
    let found = |number, position: Option<usize>| position.map(|position| Verdict::refused(number, position));
    found(12, rule_row(t))
        .or_else(|| found(13, clause_row(t)))
        .or_else(|| found(14, load_row(t)))
        .or_else(|| found(15, literal(t)))
        .or_else(|| found(16, term(t)))
}

/// Fault 17: a slice that should have N entries has not.
pub fn of_lengths(n: usize, lengths: &[usize]) -> Option<Verdict> {
    lengths.iter().any(|&length| length != n).then(|| Verdict::refused(17, 0))
}

/// Fault 31: the marks are not N, or one of them is neither 0 nor 1. As with literals, a maximum tells that no mark is bad.
pub fn of_marks(t: &Tables) -> Option<Verdict> {
    if t.marks.len() != t.n {
        return Some(Verdict::refused(31, 0));
    }
    let largest = t.marks.iter().copied().max().unwrap_or(0);
    if largest <= 1 {
        return None;
    }
    t.marks.iter().position(|&mark| mark > 1).map(|atom| Verdict::refused(31, atom))
}

fn wrong_size(t: &Tables) -> bool {
    let over = t.n > 1_024 || t.rules.len() > 6_144 || t.literals.len() > 16_384 || t.clauses.len() > 4_096 || t.loads.len() > 256;
    let broken = !t.rules.len().is_multiple_of(3) || !t.clauses.len().is_multiple_of(2) || !t.loads.len().is_multiple_of(4);
    over || broken || t.load_literals.len() > 4_096 || t.minutes.len() != t.load_literals.len()
}

fn rule_row(t: &Tables) -> Option<usize> {
    let literals = t.literals.len();
    t.rules.chunks_exact(3).position(|row| usize::from(row[0]) >= t.n || usize::from(row[1]) + usize::from(row[2]) > literals)
}

fn clause_row(t: &Tables) -> Option<usize> {
    let literals = t.literals.len();
    t.clauses.chunks_exact(2).position(|row| usize::from(row[0]) + usize::from(row[1]) > literals)
}

fn load_row(t: &Tables) -> Option<usize> {
    let (terms, bounds) = (t.load_literals.len() as i64, -1_000_000..=1_000_000);
    t.loads.chunks_exact(4).position(|row| {
        let past_end = i64::from(row[2]) + i64::from(row[3]) > terms;
        past_end || row[2] < 0 || row[3] < 0 || !bounds.contains(&row[0]) || !bounds.contains(&row[1])
    })
}

/// The largest literal is looked for first: most tables have no fault, and a maximum needs no branch for each place.
fn literal(t: &Tables) -> Option<usize> {
    let limit = 2 * t.n;
    let largest = t.literals.iter().copied().max().map_or(0, usize::from);
    if largest < limit {
        None
    } else {
        t.literals.iter().position(|&literal| usize::from(literal) >= limit)
    }
}

fn term(t: &Tables) -> Option<usize> {
    let limit = 2 * t.n;
    let mut terms = t.load_literals.iter().zip(t.minutes);
    terms.position(|(&literal, minutes)| usize::from(literal) >= limit || !(-1_440..=1_440).contains(minutes))
}
