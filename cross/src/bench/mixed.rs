//! Random books that are decided whatever the open atoms are: rules negate only atoms of earlier blocks.

use crate::book::{Book, Claim};
use crate::random::Random;

/// How much of each table a book fills.
#[derive(Clone, Copy)]
pub struct Measure {
    pub atoms: usize,
    pub rules: usize,
    pub body_literals: usize,
    pub clauses: usize,
    pub clause_literals: usize,
    pub loads: usize,
    pub terms: usize,
}

impl Measure {
    /// Every table full.
    pub const TABLES: Measure = Measure {
        atoms: 1_024,
        rules: 2_048,
        body_literals: 12_288,
        clauses: 2_048,
        clause_literals: 4_096,
        loads: 64,
        terms: 4_096,
    };

    /// What a text of 65,535 bytes holds.
    pub const TEXT: Measure =
        Measure { atoms: 1_024, rules: 1_024, body_literals: 4_096, clauses: 512, clause_literals: 1_024, loads: 16, terms: 256 };

    pub fn eighths(self, eighths: usize) -> Measure {
        let part = |whole: usize| whole * eighths / 8;
        Measure {
            atoms: part(self.atoms),
            rules: part(self.rules),
            body_literals: part(self.body_literals),
            clauses: part(self.clauses),
            clause_literals: part(self.clause_literals),
            loads: part(self.loads),
            terms: part(self.terms),
        }
    }
}

/// Atoms in a block. Within a block atoms may rest on each other, also in loops.
const BLOCK: usize = 32;

/// A book with rules only, and values for its open atoms, the first quarter of all.
pub fn rules(measure: Measure, random: &mut Random) -> (Book, Vec<u8>) {
    let (n, first) = (measure.atoms, measure.atoms / 4);
    let mut open: Vec<u8> = (0..first).map(|_| random.below(2) as u8).collect();
    open.resize(n, 0);
    let mut heads: Vec<usize> = (first..n).collect();
    while heads.len() < measure.rules {
        heads.push(first + random.below(n - first));
    }
    let mut book = Book::of_atoms(n);
    let mut left = measure.body_literals;
    for drawn in 0..heads.len() {
        let other = drawn + random.below(heads.len() - drawn);
        heads.swap(drawn, other);
        let body = body(heads[drawn], count(&mut left, measure.body_literals / measure.rules, random), random);
        book.add_rule(heads[drawn] as u16, &body);
    }
    (book, open)
}

/// A random number of literals around `average`, as far as there are any left.
fn count(left: &mut usize, average: usize, random: &mut Random) -> usize {
    let count = (1 + random.below(2 * average - 1)).min(*left);
    *left -= count;
    count
}

fn body(head: usize, count: usize, random: &mut Random) -> Vec<u16> {
    let block = head / BLOCK * BLOCK;
    let literal = |random: &mut Random| match random.below(2) {
        0 => 2 * random.below(block + BLOCK),
        _ => 2 * random.below(block) + 1,
    };
    (0..count).map(|_| literal(random) as u16).collect()
}

/// Clauses and load lines that the model satisfies.
pub fn add_demands(book: &mut Book, model: &Claim, measure: Measure, random: &mut Random) {
    add_clauses(book, model, measure, random);
    for _ in 0..measure.loads {
        add_load(book, model, measure.terms / measure.loads, random);
    }
}

fn holds(model: &Claim, literal: u16) -> bool {
    (model.values[usize::from(literal / 2)] == 1) != (literal % 2 == 1)
}

fn add_clauses(book: &mut Book, model: &Claim, measure: Measure, random: &mut Random) {
    let mut left = measure.clause_literals;
    for row in 0..measure.clauses {
        let kept = measure.clauses - row - 1; // one literal for each clause to come
        let most = (2 * measure.clause_literals / measure.clauses - 1).min(left - kept);
        let mut clause: Vec<u16> = (0..1 + random.below(most)).map(|_| random.below(2 * book.n) as u16).collect();
        left -= clause.len();
        if !clause.iter().any(|&literal| holds(model, literal)) {
            let place = random.below(clause.len());
            clause[place] ^= 1;
        }
        book.add_clause(&clause);
    }
}

fn add_load(book: &mut Book, model: &Claim, terms: usize, random: &mut Random) {
    let term = |random: &mut Random| (random.below(2_881) as i16 - 1_440, random.below(2 * book.n) as u16);
    let terms: Vec<(i16, u16)> = (0..terms).map(|_| term(random)).collect();
    let counted = terms.iter().filter(|term| holds(model, term.1));
    let sum: i32 = counted.map(|term| (f64::from(term.0) / 6.0).round_ties_even() as i32).sum();
    book.add_load(sum - random.below(100) as i32, sum + random.below(100) as i32, &terms);
}
