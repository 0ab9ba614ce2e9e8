//! Refusals 26 and 27: clauses and load lines that fail with a claim's or a model's values.

use super::decoded::{Decoded, Literal, LoadLine};
use super::{Fault, Solver};
use crate::book::Verdict;

impl Solver {
    pub(super) fn sentence_refusal(&self, book: &Decoded, values: &[u8]) -> Option<Verdict> {
        let holds = |literal: &Literal| literal.of(values[literal.atom()] == 1);
        let failing_clause = book.clauses.iter().position(|clause| !clause.iter().any(holds));
        let failing_line = || book.load_lines.iter().position(|line| !self.line_holds(line, holds));
        let clause_refusal = failing_clause.map(|row| Verdict::refused(26, row));
        clause_refusal.or_else(|| failing_line().map(|row| Verdict::refused(27, row)))
    }

    fn line_holds(&self, line: &LoadLine, holds: impl Fn(&Literal) -> bool) -> bool {
        let counted = line.terms.iter().filter(|(_, literal)| holds(literal));
        let sum: i64 = counted.map(|(minutes, _)| self.tenths(*minutes)).sum();
        sum >= line.least && sum <= line.most
    }

    /// The whole tenth nearest to so many minutes: of the two around them the nearer, and of two equally near the even one.
    fn tenths(&self, minutes: i64) -> i64 {
        if self.has(Fault::TruncatedTenths) {
            return minutes / 6;
        }
        let below = minutes.div_euclid(6);
        let above = below + 1;
        let (to_below, to_above) = (minutes - 6 * below, 6 * above - minutes);
        match to_below.cmp(&to_above) {
            std::cmp::Ordering::Less => below,
            std::cmp::Ordering::Greater => above,
            std::cmp::Ordering::Equal => self.of_equally_near(below, above),
        }
    }

    /// Of two equally near tenths the even one.
    fn of_equally_near(&self, below: i64, above: i64) -> i64 {
        let (even, odd) = if below % 2 == 0 { (below, above) } else { (above, below) };
        match self.fault {
            Some(Fault::HalfAwayFromZero) => std::cmp::max_by_key(below, above, |tenths| tenths.abs()),
            Some(Fault::HalfTowardZero) => std::cmp::min_by_key(below, above, |tenths| tenths.abs()),
            Some(Fault::HalfToTheOddTenth) => odd,
            Some(Fault::SignLostAtAHalf) => even.abs(),
            _ => even,
        }
    }
}

#[cfg(test)]
mod tests {
    use super::*;

    #[test]
    fn tenths_of_the_paper() {
        let solver = Solver::default();
        let counted = [-15, -9, -4, -3, -2, 0, 2, 3, 8, 9, 15, 60, 1_440, -1_440].map(|minutes| solver.tenths(minutes));
        assert_eq!(counted, [-2, -2, -1, 0, 0, 0, 0, 0, 1, 2, 2, 10, 240, -240]);
    }
}
