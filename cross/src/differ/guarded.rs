//! The library with every lent slice against a guard page: once its end against the upper one, once its start against the lower.

use super::pages::{Edge, Pages};
use crate::calls::{Calls, FollowingSlices, Library, Tables, TablesToFill};
use std::cell::{Cell, RefCell};

#[derive(Default)]
struct TablePages {
    rules: Pages,
    literals: Pages,
    clauses: Pages,
    loads: Pages,
    load_literals: Pages,
    minutes: Pages,
    marks: Pages,
}

impl TablePages {
    fn lend_to_read(&mut self, tables: &Tables, edge: Edge) -> Tables<'_> {
        Tables {
            n: tables.n,
            rules: self.rules.lend_to_read(tables.rules, edge),
            literals: self.literals.lend_to_read(tables.literals, edge),
            clauses: self.clauses.lend_to_read(tables.clauses, edge),
            loads: self.loads.lend_to_read(tables.loads, edge),
            load_literals: self.load_literals.lend_to_read(tables.load_literals, edge),
            minutes: self.minutes.lend_to_read(tables.minutes, edge),
            marks: self.marks.lend_to_read(tables.marks, edge),
        }
    }
}

/// Pages for each slice that a call may have.
#[derive(Default)]
struct SlicePages {
    text: Pages,
    tables: TablePages,
    open_values: Pages,
    values: Pages,
    levels: Pages,
    work: Pages,
    answer: Pages,
    page: Pages,
    starts: Pages,
    entries: Pages,
    counts: Pages,
}

/// What the slices that a reading fills hold.
#[derive(PartialEq)]
struct Contents {
    rules: Vec<u16>,
    literals: Vec<u16>,
    clauses: Vec<u16>,
    loads: Vec<i32>,
    load_literals: Vec<u16>,
    minutes: Vec<i16>,
    marks: Vec<u8>,
    values: Vec<u8>,
    levels: Vec<u16>,
    answer: Vec<u32>,
}

impl Contents {
    fn of(tables: &TablesToFill, answer: &[u32]) -> Contents {
        Contents {
            rules: tables.rules.to_vec(),
            literals: tables.literals.to_vec(),
            clauses: tables.clauses.to_vec(),
            loads: tables.loads.to_vec(),
            load_literals: tables.load_literals.to_vec(),
            minutes: tables.minutes.to_vec(),
            marks: tables.marks.to_vec(),
            values: tables.values.to_vec(),
            levels: tables.levels.to_vec(),
            answer: answer.to_vec(),
        }
    }

    fn put_into(&self, tables: TablesToFill, answer: &mut [u32]) {
        tables.rules.copy_from_slice(&self.rules);
        tables.literals.copy_from_slice(&self.literals);
        tables.clauses.copy_from_slice(&self.clauses);
        tables.loads.copy_from_slice(&self.loads);
        tables.load_literals.copy_from_slice(&self.load_literals);
        tables.minutes.copy_from_slice(&self.minutes);
        tables.marks.copy_from_slice(&self.marks);
        tables.values.copy_from_slice(&self.values);
        tables.levels.copy_from_slice(&self.levels);
        answer.copy_from_slice(&self.answer);
    }
}

#[derive(Default)]
pub struct GuardedLibrary {
    pages: RefCell<SlicePages>,
    calls: Cell<usize>,
}

impl GuardedLibrary {
    /// How many calls of the library were made.
    pub fn calls(&self) -> usize {
        self.calls.get()
    }

    /// Makes a call at either edge; where the slices stand may make no difference.
    fn at_both_edges<T: PartialEq>(&self, call: impl Fn(&mut SlicePages, Edge) -> T) -> T {
        let pages = &mut self.pages.borrow_mut();
        let upper = call(pages, Edge::Upper);
        let lower = call(pages, Edge::Lower);
        self.calls.set(self.calls.get() + 2);
        assert!(upper == lower, "the outcome depends on where slices stand");
        upper
    }
}

impl Calls for GuardedLibrary {
    fn name(&self) -> &'static str {
        "library between guard pages"
    }

    fn verdict(&self, text: &[u8]) -> u32 {
        self.at_both_edges(|pages, edge| Library.verdict(pages.text.lend_to_read(text, edge)))
    }

    fn report(&self, text: &[u8], page: &mut [u8]) -> usize {
        let (length, written) = self.at_both_edges(|pages, edge| {
            let (text, page) = (pages.text.lend_to_read(text, edge), pages.page.lend_to_write(page, edge));
            (Library.report(text, page), page.to_vec())
        });
        page.copy_from_slice(&written);
        length
    }

    fn check(&self, tables: Tables, values: &[u8], levels: &[u16]) -> u32 {
        self.at_both_edges(|pages, edge| {
            let tables = pages.tables.lend_to_read(&tables, edge);
            Library.check(tables, pages.values.lend_to_read(values, edge), pages.levels.lend_to_read(levels, edge))
        })
    }

    fn evaluate(&self, tables: Tables, open_values: &[u8], values: &mut [u8], levels: &mut [u16], work: &mut [u16]) -> u64 {
        let (answer, made_values, made_levels, made_work) = self.at_both_edges(|pages, edge| {
            let tables = pages.tables.lend_to_read(&tables, edge);
            let open_values = pages.open_values.lend_to_read(open_values, edge);
            let values = pages.values.lend_to_write(values, edge);
            let levels = pages.levels.lend_to_write(levels, edge);
            let work = pages.work.lend_to_write(work, edge);
            let answer = Library.evaluate(tables, open_values, values, levels, work);
            (answer, values.to_vec(), levels.to_vec(), work.to_vec())
        });
        values.copy_from_slice(&made_values);
        levels.copy_from_slice(&made_levels);
        work.copy_from_slice(&made_work);
        answer
    }

    fn read(&self, text: &[u8], tables: TablesToFill, answer: &mut [u32]) -> u32 {
        let before = Contents::of(&tables, answer);
        let (verdict, after) = self.at_both_edges(|pages, edge| {
            let text = pages.text.lend_to_read(text, edge);
            let tables = TablesToFill {
                rules: pages.tables.rules.lend_to_write(&before.rules, edge),
                literals: pages.tables.literals.lend_to_write(&before.literals, edge),
                clauses: pages.tables.clauses.lend_to_write(&before.clauses, edge),
                loads: pages.tables.loads.lend_to_write(&before.loads, edge),
                load_literals: pages.tables.load_literals.lend_to_write(&before.load_literals, edge),
                minutes: pages.tables.minutes.lend_to_write(&before.minutes, edge),
                marks: pages.tables.marks.lend_to_write(&before.marks, edge),
                values: pages.values.lend_to_write(&before.values, edge),
                levels: pages.levels.lend_to_write(&before.levels, edge),
            };
            let answer = pages.answer.lend_to_write(&before.answer, edge);
            read_and_see(text, tables, answer)
        });
        after.put_into(tables, answer);
        verdict
    }

    fn write(&self, tables: Tables, values: &[u8], levels: &[u16], text: &mut [u8]) -> u64 {
        let (answer, written) = self.at_both_edges(|pages, edge| {
            let tables = pages.tables.lend_to_read(&tables, edge);
            let (values, levels) = (pages.values.lend_to_read(values, edge), pages.levels.lend_to_read(levels, edge));
            let text = pages.text.lend_to_write(text, edge);
            (Library.write(tables, values, levels, text), text.to_vec())
        });
        text.copy_from_slice(&written);
        answer
    }

    fn index(&self, tables: Tables, starts: &mut [u16], entries: &mut [u16]) -> u32 {
        let (answer, built_starts, built_entries) = self.at_both_edges(|pages, edge| {
            let tables = pages.tables.lend_to_read(&tables, edge);
            let (starts, entries) = (pages.starts.lend_to_write(starts, edge), pages.entries.lend_to_write(entries, edge));
            (Library.index(tables, starts, entries), starts.to_vec(), entries.to_vec())
        });
        starts.copy_from_slice(&built_starts);
        entries.copy_from_slice(&built_entries);
        answer
    }

    fn evaluate_indexed(&self, tables: Tables, open_values: &[u8], slices: FollowingSlices) -> u64 {
        let (answer, made_values, made_words) = self.at_both_edges(|pages, edge| {
            let tables = pages.tables.lend_to_read(&tables, edge);
            let open_values = pages.open_values.lend_to_read(open_values, edge);
            let values = pages.values.lend_to_write(slices.values, edge);
            let levels = pages.levels.lend_to_write(slices.levels, edge);
            let work = pages.work.lend_to_write(slices.work, edge);
            let starts = pages.starts.lend_to_write(slices.starts, edge);
            let entries = pages.entries.lend_to_write(slices.entries, edge);
            let counts = pages.counts.lend_to_write(slices.counts, edge);
            let lent = FollowingSlices { values, levels, work, starts, entries, counts };
            follow_and_see(tables, open_values, lent)
        });
        slices.values.copy_from_slice(&made_values);
        for (slice, made) in [slices.levels, slices.work, slices.starts, slices.entries, slices.counts].into_iter().zip(made_words)
        {
            slice.copy_from_slice(&made);
        }
        answer
    }
}

/// The answer, and what the values, and then the other slices, hold afterwards.
fn follow_and_see(tables: Tables, open_values: &[u8], slices: FollowingSlices) -> (u64, Vec<u8>, [Vec<u16>; 5]) {
    let FollowingSlices { values, levels, work, starts, entries, counts } = slices;
    let again = FollowingSlices { values, levels, work, starts, entries, counts };
    let answer = Library.evaluate_indexed(tables, open_values, again);
    (answer, values.to_vec(), [levels, work, starts, entries, counts].map(|slice| slice.to_vec()))
}

fn read_and_see(text: &[u8], mut tables: TablesToFill, answer: &mut [u32]) -> (u32, Contents) {
    let verdict = Library.read(text, again(&mut tables), answer);
    (verdict, Contents::of(&tables, answer))
}

/// The same slices, lent on.
fn again<'a>(tables: &'a mut TablesToFill) -> TablesToFill<'a> {
    TablesToFill {
        rules: tables.rules,
        literals: tables.literals,
        clauses: tables.clauses,
        loads: tables.loads,
        load_literals: tables.load_literals,
        minutes: tables.minutes,
        marks: tables.marks,
        values: tables.values,
        levels: tables.levels,
    }
}
