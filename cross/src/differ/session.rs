//! One run over cases: compares, counts, and stops at the first difference.

use super::{
    case::Case,
    lending::Lending,
    outcome::{expected, Answer, Outcome},
    shrink::smallest,
    side::Side,
};
use crate::random::Random;
use crate::{
    book::{Book, Lengths, Read, State, Verdict},
    calls::PAGE_SIZE,
    solver::Solver,
};
use std::{
    collections::{BTreeMap, HashSet},
    time::Duration,
};

/// A difference, with the smallest case that shows it.
pub struct Found {
    pub what: String,
    pub case: Case,
}

pub type Compared = Result<(), Box<Found>>;

/// What the solver answers in a case, and what each side that has the call did, which is the same.
pub(super) struct Held {
    pub answer: Answer,
    pub outcomes: Vec<Option<Outcome>>,
}

pub struct Session<'a> {
    pub solver: Solver,
    pub sides: Vec<Side<'a>>,
    pub random: Random,
    /// How many rounds each random family makes.
    pub count: usize,
    /// How many cases were compared.
    pub cases: usize,
    /// How many of them had each number as their verdict.
    pub numbers: BTreeMap<u32, usize>,
    /// The books with their settings of which both makers made the model, each as a hash, so that none counts twice.
    pub settings: HashSet<u64>,
    /// How long the smallest case is looked for that shows a difference.
    pub patience: Duration,
    /// The tables that were indexed last.
    indexed: Option<Book>,
}

impl<'a> Session<'a> {
    pub fn new(solver: Solver, sides: &[Side<'a>], random: Random, count: usize) -> Session<'a> {
        let patience = Duration::from_secs(20);
        let (sides, numbers, settings) = (sides.to_vec(), BTreeMap::new(), HashSet::new());
        Session { solver, sides, random, count, cases: 0, numbers, settings, patience, indexed: None }
    }

    /// Holds every side that has the call against the solver.
    pub fn compare(&mut self, case: Case) -> Compared {
        self.solve(&case).map(|_| ())
    }

    /// What the solver answers, if every side answers and does the same. Tables that are lent to a call are indexed too, unless those
    /// before were the same, and some of them are given to both makers, as is what the program reads; what the plain maker is asked, the
    /// other is always asked too. `random` has no part in that, so that the families have the cases that they had before there were
    /// these calls.
    fn solve(&mut self, case: &Case) -> Result<Answer, Box<Found>> {
        let noise = self.random.draw();
        let Held { answer, outcomes } = self.hold(case, noise)?;
        match case {
            Case::Check { book, values, .. } | Case::Write { book, values, .. } if self.indexed.as_ref() != Some(book) => {
                self.index(book, noise)?;
                self.make_sometimes(book, values, noise)?;
                self.indexed = Some(book.clone());
            }
            Case::Evaluate { book, open_values, written } => {
                if self.indexed.as_ref() != Some(book) {
                    self.index(book, noise)?;
                    self.follow_beside(book, open_values, *written, noise)?;
                    self.indexed = Some(book.clone());
                }
                self.follow(book, open_values, *written, &outcomes, noise)?;
            }
            Case::Index { book, starts, .. } => self.make_sometimes(book, &vec![0; starts / 2], noise)?,
            Case::Program { text } => self.make_of_text(text, noise)?,
            _ => {}
        }
        Ok(answer)
    }

    /// What the solver answers in this one case, with slices to be written that hold what `noise` gives.
    pub(super) fn hold(&mut self, case: &Case, noise: u64) -> Result<Held, Box<Found>> {
        let before = Lending::of(case, noise);
        let expected = expected(&self.solver, case, &before);
        self.cases += 1;
        if let Some(verdict) = expected.answer.verdict() {
            *self.numbers.entry(verdict.number).or_default() += 1;
        }
        let outcomes: Vec<Option<Outcome>> = self.sides.iter().map(|side| side.outcome(case, &before)).collect();
        if self.difference(case, &expected, &outcomes).is_none() {
            return Ok(Held { answer: expected.answer, outcomes });
        }
        let case = smallest(case.clone(), self.patience, |smaller| self.difference_on(smaller, noise).is_some());
        let what = self.difference_on(&case, noise).expect("the smallest case differs too");
        Err(Box::new(Found { what, case }))
    }

    /// How some side differs from what is expected, if one does.
    fn difference(&self, case: &Case, expected: &Outcome, outcomes: &[Option<Outcome>]) -> Option<String> {
        self.sides.iter().zip(outcomes).find_map(|(side, outcome)| {
            let difference = expected.difference(outcome.as_ref()?)?;
            Some(format!("{} by {}: {difference}", case.call(), side.name()))
        })
    }

    fn difference_on(&self, case: &Case, noise: u64) -> Option<String> {
        let before = Lending::of(case, noise);
        let outcomes: Vec<Option<Outcome>> = self.sides.iter().map(|side| side.outcome(case, &before)).collect();
        self.difference(case, &expected(&self.solver, case, &before), &outcomes)
    }

    /// The calls on a text but for its report: the verdict, the reading into tables of full size, and the check or the maker on what was read.
    pub fn text(&mut self, text: &[u8]) -> Compared {
        self.compare(Case::verdict(text))?;
        self.compare(Case::read(text, Lengths::FULL))?;
        self.what_was_read(&self.solver.read(text, &Lengths::FULL))
    }

    /// The check of a claim that was read, or the makers for an open form.
    pub fn what_was_read(&mut self, read: &Read) -> Compared {
        match read.state {
            State::None => Ok(()),
            State::Open => self.compare(Case::evaluate(&read.book, &read.values)),
            State::Claim => self.compare(Case::check(&read.book, &read.values, &read.levels)),
        }
    }

    /// All calls on a text, and what the program prints for it.
    pub fn text_and_page(&mut self, text: &[u8]) -> Compared {
        self.text(text)?;
        self.page(text)
    }

    /// What the program prints for a text, and the report that the call writes.
    pub fn page(&mut self, text: &[u8]) -> Compared {
        self.compare(Case::program(text))?;
        self.report(text)
    }

    /// The report of a text into pages of many lengths: none, just as long as the report, one byte less than is needed, enough, and more.
    pub fn report(&mut self, text: &[u8]) -> Compared {
        let (exact, more) = (self.solver.report(text).len(), PAGE_SIZE + self.random.below(100));
        [0, exact, PAGE_SIZE - 1, PAGE_SIZE, more].iter().try_for_each(|&page| self.compare(Case::report(text, page)))
    }

    /// Demands something of what the solver says. All sides were found to say the same, so that it is demanded of them too; a solver
    /// with a deliberate fault is held against the sides and not against the paper.
    pub fn demand(&self, holds: bool, case: &Case, what: impl FnOnce() -> String) -> Compared {
        match holds || self.solver.fault.is_some() {
            true => Ok(()),
            false => Err(Box::new(Found { what: what(), case: case.clone() })),
        }
    }

    /// Compares a case whose verdict is known.
    pub fn stated(&mut self, says: &str, case: Case, verdict: Verdict) -> Compared {
        let answer = self.solve(&case)?;
        self.demand(answer.verdict() == Some(verdict), &case, || format!("{says}: stated {verdict:?}, solved {answer}"))
    }
}
