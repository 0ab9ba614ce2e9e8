//! The check: the level rules, quantifier by quantifier.

use super::decoded::{Decoded, Literal, Rule};
use super::{Fault, Solver};
use crate::book::{Book, Verdict};

/// A claim on a book.
struct Claimed<'a> {
    book: &'a Decoded,
    values: &'a [u8],
    levels: &'a [u16],
}

impl Solver {
    pub fn check(&self, book: &Book, values: &[u8], levels: &[u16]) -> Verdict {
        if let Some(verdict) = self.table_refusal(book, &[values.len(), levels.len()]) {
            return verdict;
        }
        let decoded = self.decoded(book);
        let claimed = Claimed { book: &decoded, values, levels };
        let refuse = |number| move |position| Verdict::refused(number, position);
        let refusal = self
            .mark_or_value_refusal(book, claimed.bad_value())
            .or_else(|| self.bad_level(&claimed).map(refuse(22)))
            .or_else(|| claimed.atom_without_rule().map(refuse(23)))
            .or_else(|| self.unblocked_rule(&claimed).map(refuse(24)))
            .or_else(|| self.sentence_refusal(&decoded, values));
        refusal.unwrap_or(Verdict::ACCEPTED)
    }

    fn bad_level(&self, claimed: &Claimed) -> Option<usize> {
        let one_more = usize::from(self.has(Fault::LevelAboveDefinedCount));
        let twice = if self.has(Fault::DeclaredHeadsCountedTwice) { claimed.book.declared_heads() } else { 0 };
        let highest = claimed.book.defined_count() + one_more + twice;
        (0..claimed.book.atoms()).find(|atom| {
            let level = usize::from(claimed.levels[*atom]);
            if claimed.book.defined[*atom] {
                !(1..=highest).contains(&level)
            } else {
                level != 0
            }
        })
    }

    /// The lowest row among false atoms' rules that no literal blocks.
    fn unblocked_rule(&self, claimed: &Claimed) -> Option<usize> {
        let unblocked = |rule: &Rule| {
            let blocked = rule.body.iter().any(|literal| self.blocks(claimed, *literal, rule.head));
            claimed.values[rule.head] == 0 && !blocked
        };
        let row = claimed.book.rules.iter().position(unblocked)?;
        Some(if self.has(Fault::HeadReportedForRow) { claimed.book.rules[row].head } else { row })
    }

    fn blocks(&self, claimed: &Claimed, literal: Literal, head: usize) -> bool {
        let atom = literal.atom();
        let (level, head_level) = (claimed.levels[atom], claimed.levels[head]);
        let strictly_lower = level < head_level;
        let no_higher = level <= head_level;
        let near_enough = if !claimed.book.defined[atom] {
            true
        } else if literal.negated() {
            strictly_lower || (no_higher && self.has(Fault::NegatedBlockerNoHigher))
        } else {
            strictly_lower || (no_higher && !self.has(Fault::PositiveBlockerStrictlyLower))
        };
        !claimed.holds(literal) && near_enough
    }
}

impl Claimed<'_> {
    fn bad_value(&self) -> Option<usize> {
        self.values.iter().position(|value| *value != 0 && *value != 1)
    }

    fn holds(&self, literal: Literal) -> bool {
        literal.of(self.values[literal.atom()] == 1)
    }

    fn atom_without_rule(&self) -> Option<usize> {
        (0..self.book.atoms()).find(|atom| {
            let true_and_defined = self.book.defined[*atom] && self.values[*atom] == 1;
            let mut own_rules = self.book.rules.iter().filter(|rule| rule.head == *atom);
            true_and_defined && !own_rules.any(|rule| self.makes_true(rule))
        })
    }

    fn makes_true(&self, rule: &Rule) -> bool {
        rule.body.iter().all(|literal| {
            let atom = literal.atom();
            let strictly_lower = self.levels[atom] < self.levels[rule.head];
            self.holds(*literal) && (!self.book.defined[atom] || strictly_lower)
        })
    }
}

#[cfg(test)]
mod tests {
    use super::super::small_books::definition;
    use super::*;
    use crate::random::Random;

    const SOLVER: Solver = Solver { fault: None };

    /// Every claim with values 0 and 1 and levels 0 to N on a small book.
    fn all_claims(n: usize) -> impl Iterator<Item = (Vec<u8>, Vec<u16>)> {
        let choices = 2 * (n + 1);
        (0..choices.pow(n as u32)).map(move |mut index| {
            let mut claim = (Vec::new(), Vec::new());
            for _ in 0..n {
                let choice = index % choices;
                index /= choices;
                claim.0.push((choice % 2) as u8);
                claim.1.push((choice / 2) as u16);
            }
            claim
        })
    }

    /// For every setting: a claim is accepted only with the values of the well-founded model, and the maker's own claim is.
    #[test]
    fn accepted_claims_are_the_model() {
        let mut random = Random::new(7);
        let mut accepted = 0;
        for _ in 0..400 {
            let n = 1 + random.below(3);
            let book = definition(&mut random, n, 6, 3);
            let defined = Decoded::new(&book).defined;
            for (values, levels) in all_claims(n) {
                let verdict = SOLVER.check(&book, &values, &levels);
                let open: Vec<u8> = (0..n).map(|atom| if defined[atom] { 0 } else { values[atom] }).collect();
                let made = SOLVER.evaluate(&book, &open, n, n, n);
                let model = made.written.expect("a sound book with a setting is always written");
                if verdict == Verdict::ACCEPTED {
                    assert_eq!(values, model.values, "{book:?} {levels:?}");
                    accepted += 1;
                }
                if (&values, &levels) == (&model.values, &model.levels) {
                    assert_eq!(verdict, made.verdict, "{book:?}");
                }
            }
        }
        assert!(accepted > 400, "only {accepted} claims were accepted");
    }
}
