//! The check: one pass over the atoms, one over the rules, one each over clauses and loads.

use super::{faults, satisfaction};
use crate::book::Verdict;
use crate::calls::Tables;

pub fn check(t: Tables, values: &[u8], levels: &[u16]) -> Verdict {
    let lengths = || faults::of_lengths(t.n, &[values.len(), levels.len()]);
    if let Some(fault) = faults::of_tables(&t).or_else(lengths).or_else(|| faults::of_marks(&t)) {
        return fault;
    }
    let claim = Claim { values, levels };
    let defined = defined_atoms(&t);
    if let Some(fault) = claim.value_or_level(&defined).or_else(|| claim.support_or_blocking(&t, &defined)) {
        return fault;
    }
    satisfaction::verdict(&t, values)
}

/// Which atoms are declared or head a rule.
pub fn defined_atoms(t: &Tables) -> [bool; 1_024] {
    let mut defined = [false; 1_024];
    for (is, &mark) in defined.iter_mut().zip(t.marks) {
        *is = mark == 1;
    }
    for row in t.rules.chunks_exact(3) {
        defined[usize::from(row[0])] = true;
    }
    defined
}

struct Claim<'a> {
    values: &'a [u8],
    levels: &'a [u16],
}

impl Claim<'_> {
    /// Fault 21 or 22.
    fn value_or_level(&self, defined: &[bool; 1_024]) -> Option<Verdict> {
        if let Some(atom) = self.values.iter().position(|&value| value > 1) {
            return Some(Verdict::refused(21, atom));
        }
        let most = defined.iter().filter(|&&is| is).count();
        let mut atoms = self.levels.iter().zip(defined);
        let outside = |(&level, &is): (&u16, &bool)| if is { level == 0 || usize::from(level) > most } else { level != 0 };
        atoms.position(outside).map(|atom| Verdict::refused(22, atom))
    }

    /// Fault 23 or 24. An open atom has level 0, below every head's, so the comparison of levels never refuses it, and no rule needs
    /// to ask which of its atoms are defined.
    fn support_or_blocking(&self, t: &Tables, defined: &[bool; 1_024]) -> Option<Verdict> {
        let mut lacking = [false; 1_024];
        for (atom, lacks) in lacking[..t.n].iter_mut().enumerate() {
            *lacks = defined[atom] && self.values[atom] == 1;
        }
        let mut unblocked = None;
        for (position, row) in t.rules.chunks_exact(3).enumerate() {
            let (head, start, count) = (usize::from(row[0]), usize::from(row[1]), usize::from(row[2]));
            let (level, body) = (self.levels[head], &t.literals[start..start + count]);
            if self.values[head] == 0 {
                if unblocked.is_none() && !body.iter().any(|&literal| self.blocks(literal, level)) {
                    unblocked = Some(position);
                }
            } else if lacking[head] {
                lacking[head] = !body.iter().all(|&literal| self.supports(literal, level));
            }
        }
        let unsupported = lacking[..t.n].iter().position(|&lacks| lacks).map(|atom| Verdict::refused(23, atom));
        unsupported.or(unblocked.map(|row| Verdict::refused(24, row)))
    }

    /// Whether a literal supports a true head at the level: it is true, and its atom lies below.
    fn supports(&self, literal: u16, level: u16) -> bool {
        let (atom, negated) = (usize::from(literal / 2), literal % 2);
        (u16::from(self.values[atom]) != negated) & (self.levels[atom] < level)
    }

    /// Whether a literal blocks a rule of a false head at the level: it is false, and its atom lies no higher, or below if negated.
    fn blocks(&self, literal: u16, level: u16) -> bool {
        let (atom, negated) = (usize::from(literal / 2), literal % 2);
        (u16::from(self.values[atom]) == negated) & (self.levels[atom] + negated <= level)
    }
}
