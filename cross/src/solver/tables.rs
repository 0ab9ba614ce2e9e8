//! Refusals 11 to 17 and 31: what a host can get wrong in the tables and slices that it lends.
//!
//! Each refusal is one function that answers its lowest position. 11 to 17 are asked in the order of their numbers, 31 after them.

use super::limits;
use super::{Fault, Solver};
use crate::book::{Book, Verdict};

impl Solver {
    /// The refusal of the tables and of the other lent slices, whose lengths are given; nothing if they are sound.
    pub(super) fn table_refusal(&self, book: &Book, other_lengths: &[usize]) -> Option<Verdict> {
        if over_limit(book) || broken_rows(book) {
            return Some(Verdict::refused(11, 0));
        }
        let refuse = |number| move |position| Verdict::refused(number, position);
        self.bad_rule_row(book)
            .map(refuse(12))
            .or_else(|| self.bad_clause_row(book).map(refuse(13)))
            .or_else(|| self.bad_load_row(book).map(refuse(14)))
            .or_else(|| bad_literal(book).map(refuse(15)))
            .or_else(|| bad_term(book).map(refuse(16)))
            .or_else(|| other_lengths.iter().any(|length| *length != book.n).then(|| Verdict::refused(17, 0)))
    }

    /// 31 if a mark is bad, else 21 at the bad value, if there is one.
    pub(super) fn mark_or_value_refusal(&self, book: &Book, bad_value: Option<usize>) -> Option<Verdict> {
        let marks = bad_mark(book).map(|atom| {
            let as_length = self.has(Fault::MarksOfOtherLengthAs17) && book.marks.len() != book.n;
            Verdict::refused(if as_length { 17 } else { 31 }, atom)
        });
        let values = bad_value.map(|atom| Verdict::refused(21, atom));
        if self.has(Fault::ValuesBeforeMarks) {
            values.or(marks)
        } else {
            marks.or(values)
        }
    }

    fn bad_rule_row(&self, book: &Book) -> Option<usize> {
        book.rules.chunks(3).position(|row| {
            let past_end = self.past_end(row[1].into(), row[2].into(), book.literals.len());
            past_end || usize::from(row[0]) >= book.n
        })
    }

    fn bad_clause_row(&self, book: &Book) -> Option<usize> {
        book.clauses.chunks(2).position(|row| self.past_end(row[0].into(), row[1].into(), book.literals.len()))
    }

    fn bad_load_row(&self, book: &Book) -> Option<usize> {
        book.loads.chunks(4).position(|row| {
            let [least, most, start, count] = [row[0], row[1], row[2], row[3]].map(i64::from);
            let bounds_outside = !limits::BOUNDS.contains(&least) || !limits::BOUNDS.contains(&most);
            start < 0 || count < 0 || bounds_outside || self.past_end(start, count, book.minutes.len())
        })
    }

    fn past_end(&self, start: i64, count: i64, length: usize) -> bool {
        if self.has(Fault::EmptyRowPastTheEnd) && count == 0 {
            return false;
        }
        start + count > length as i64
    }
}

fn over_limit(book: &Book) -> bool {
    book.n > limits::ATOMS
        || book.rules.len() > 3 * limits::RULE_ROWS
        || book.literals.len() > limits::LITERALS
        || book.clauses.len() > 2 * limits::CLAUSE_ROWS
        || book.loads.len() > 4 * limits::LOAD_ROWS
        || book.load_literals.len() > limits::TERMS
        || book.minutes.len() > limits::TERMS
}

fn broken_rows(book: &Book) -> bool {
    let whole = book.rules.len().is_multiple_of(3) && book.clauses.len().is_multiple_of(2) && book.loads.len().is_multiple_of(4);
    !whole || book.load_literals.len() != book.minutes.len()
}

fn bad_literal(book: &Book) -> Option<usize> {
    book.literals.iter().position(|literal| usize::from(*literal) >= 2 * book.n)
}

fn bad_term(book: &Book) -> Option<usize> {
    let terms = book.load_literals.iter().zip(&book.minutes);
    terms.into_iter().position(|(literal, minutes)| {
        let minutes_outside = !limits::MINUTES.contains(&i64::from(*minutes));
        usize::from(*literal) >= 2 * book.n || minutes_outside
    })
}

/// The lowest atom with a bad mark; 0 where there are not as many marks as atoms.
fn bad_mark(book: &Book) -> Option<usize> {
    if book.marks.len() != book.n {
        return Some(0);
    }
    book.marks.iter().position(|mark| *mark != 0 && *mark != 1)
}
