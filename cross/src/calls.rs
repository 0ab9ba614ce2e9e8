//! The eight calls on plain slices, as one trait: the C library is one implementation of it, `fast` the other.

use crate::book::Book;

/// The tables that a check, an evaluation, a writing or an indexing reads.
#[derive(Clone, Copy)]
pub struct Tables<'a> {
    pub n: usize,
    pub rules: &'a [u16],
    pub literals: &'a [u16],
    pub clauses: &'a [u16],
    pub loads: &'a [i32],
    pub load_literals: &'a [u16],
    pub minutes: &'a [i16],
    pub marks: &'a [u8],
}

impl Book {
    pub fn tables(&self) -> Tables<'_> {
        Tables {
            n: self.n,
            rules: &self.rules,
            literals: &self.literals,
            clauses: &self.clauses,
            loads: &self.loads,
            load_literals: &self.load_literals,
            minutes: &self.minutes,
            marks: &self.marks,
        }
    }
}

/// The tables that a reader fills.
pub struct TablesToFill<'a> {
    pub rules: &'a mut [u16],
    pub literals: &'a mut [u16],
    pub clauses: &'a mut [u16],
    pub loads: &'a mut [i32],
    pub load_literals: &'a mut [u16],
    pub minutes: &'a mut [i16],
    pub marks: &'a mut [u8],
    pub values: &'a mut [u8],
    pub levels: &'a mut [u16],
}

/// The slices that the maker writes which follows the index.
pub struct FollowingSlices<'a> {
    pub values: &'a mut [u8],
    pub levels: &'a mut [u16],
    pub work: &'a mut [u16],
    pub starts: &'a mut [u16],
    pub entries: &'a mut [u16],
    pub counts: &'a mut [u16],
}

/// `BATTENPLUM_PAGE_SIZE` of the header: such a page holds every report, and a shorter one is left as it is.
pub const PAGE_SIZE: usize = 19_487;

/// `BATTENPLUM_TEXT_MAX` of the header: the longest text that is read or written.
pub const TEXT_MAX: usize = 65_535;

/// What each answer means is in `include/battenplum.h`.
pub trait Calls {
    fn name(&self) -> &'static str;
    fn verdict(&self, text: &[u8]) -> u32;
    fn report(&self, text: &[u8], page: &mut [u8]) -> usize;
    fn check(&self, tables: Tables, values: &[u8], levels: &[u16]) -> u32;
    fn evaluate(&self, tables: Tables, open_values: &[u8], values: &mut [u8], levels: &mut [u16], work: &mut [u16]) -> u64;
    fn read(&self, text: &[u8], tables: TablesToFill, answer: &mut [u32]) -> u32;
    fn write(&self, tables: Tables, values: &[u8], levels: &[u16], text: &mut [u8]) -> u64;
    fn index(&self, tables: Tables, starts: &mut [u16], entries: &mut [u16]) -> u32;
    fn evaluate_indexed(&self, tables: Tables, open_values: &[u8], slices: FollowingSlices) -> u64;
}

/// `build/libbattenplum.a`.
pub struct Library;

#[rustfmt::skip] // a pointer and its length stand on one line
mod c {
    extern "C" {
        pub fn battenplum_verdict(text: *const u8, text_len: usize) -> u32;

        pub fn battenplum_report(text: *const u8, text_len: usize, page: *mut u8, page_len: usize) -> usize;

        pub fn battenplum_check(
            n: usize,
            rules: *const u16, rules_len: usize,
            literals: *const u16, literals_len: usize,
            clauses: *const u16, clauses_len: usize,
            loads: *const i32, loads_len: usize,
            load_literals: *const u16, load_literals_len: usize,
            minutes: *const i16, minutes_len: usize,
            marks: *const u8, marks_len: usize,
            values: *const u8, values_len: usize,
            levels: *const u16, levels_len: usize,
        ) -> u32;

        pub fn battenplum_evaluate(
            n: usize,
            rules: *const u16, rules_len: usize,
            literals: *const u16, literals_len: usize,
            clauses: *const u16, clauses_len: usize,
            loads: *const i32, loads_len: usize,
            load_literals: *const u16, load_literals_len: usize,
            minutes: *const i16, minutes_len: usize,
            marks: *const u8, marks_len: usize,
            open_values: *const u8, open_values_len: usize,
            values: *mut u8, values_len: usize,
            levels: *mut u16, levels_len: usize,
            work: *mut u16, work_len: usize,
        ) -> u64;

        pub fn battenplum_read(
            text: *const u8, text_len: usize,
            rules: *mut u16, rules_len: usize,
            literals: *mut u16, literals_len: usize,
            clauses: *mut u16, clauses_len: usize,
            loads: *mut i32, loads_len: usize,
            load_literals: *mut u16, load_literals_len: usize,
            minutes: *mut i16, minutes_len: usize,
            marks: *mut u8, marks_len: usize,
            values: *mut u8, values_len: usize,
            levels: *mut u16, levels_len: usize,
            answer: *mut u32, answer_len: usize,
        ) -> u32;

        pub fn battenplum_write(
            n: usize,
            rules: *const u16, rules_len: usize,
            literals: *const u16, literals_len: usize,
            clauses: *const u16, clauses_len: usize,
            loads: *const i32, loads_len: usize,
            load_literals: *const u16, load_literals_len: usize,
            minutes: *const i16, minutes_len: usize,
            marks: *const u8, marks_len: usize,
            values: *const u8, values_len: usize,
            levels: *const u16, levels_len: usize,
            text: *mut u8, text_len: usize,
        ) -> u64;

        pub fn battenplum_index(
            n: usize,
            rules: *const u16, rules_len: usize,
            literals: *const u16, literals_len: usize,
            clauses: *const u16, clauses_len: usize,
            loads: *const i32, loads_len: usize,
            load_literals: *const u16, load_literals_len: usize,
            minutes: *const i16, minutes_len: usize,
            marks: *const u8, marks_len: usize,
            starts: *mut u16, starts_len: usize,
            entries: *mut u16, entries_len: usize,
        ) -> u32;

        pub fn battenplum_evaluate_indexed(
            n: usize,
            rules: *const u16, rules_len: usize,
            literals: *const u16, literals_len: usize,
            clauses: *const u16, clauses_len: usize,
            loads: *const i32, loads_len: usize,
            load_literals: *const u16, load_literals_len: usize,
            minutes: *const i16, minutes_len: usize,
            marks: *const u8, marks_len: usize,
            open_values: *const u8, open_values_len: usize,
            values: *mut u8, values_len: usize,
            levels: *mut u16, levels_len: usize,
            work: *mut u16, work_len: usize,
            starts: *mut u16, starts_len: usize,
            entries: *mut u16, entries_len: usize,
            counts: *mut u16, counts_len: usize,
        ) -> u64;
    }
}

// Each slice is handed over with its own length, and Rust's borrows keep the written ones apart from all others.
#[rustfmt::skip]
impl Calls for Library {
    fn name(&self) -> &'static str {
        "library"
    }

    fn verdict(&self, text: &[u8]) -> u32 {
        unsafe { c::battenplum_verdict(text.as_ptr(), text.len()) }
    }

    fn report(&self, text: &[u8], page: &mut [u8]) -> usize {
        unsafe { c::battenplum_report(text.as_ptr(), text.len(), page.as_mut_ptr(), page.len()) }
    }

    fn check(&self, t: Tables, values: &[u8], levels: &[u16]) -> u32 {
        unsafe {
            c::battenplum_check(
                t.n,
                t.rules.as_ptr(), t.rules.len(),
                t.literals.as_ptr(), t.literals.len(),
                t.clauses.as_ptr(), t.clauses.len(),
                t.loads.as_ptr(), t.loads.len(),
                t.load_literals.as_ptr(), t.load_literals.len(),
                t.minutes.as_ptr(), t.minutes.len(),
                t.marks.as_ptr(), t.marks.len(),
                values.as_ptr(), values.len(),
                levels.as_ptr(), levels.len(),
            )
        }
    }

    fn evaluate(&self, t: Tables, open_values: &[u8], values: &mut [u8], levels: &mut [u16], work: &mut [u16]) -> u64 {
        unsafe {
            c::battenplum_evaluate(
                t.n,
                t.rules.as_ptr(), t.rules.len(),
                t.literals.as_ptr(), t.literals.len(),
                t.clauses.as_ptr(), t.clauses.len(),
                t.loads.as_ptr(), t.loads.len(),
                t.load_literals.as_ptr(), t.load_literals.len(),
                t.minutes.as_ptr(), t.minutes.len(),
                t.marks.as_ptr(), t.marks.len(),
                open_values.as_ptr(), open_values.len(),
                values.as_mut_ptr(), values.len(),
                levels.as_mut_ptr(), levels.len(),
                work.as_mut_ptr(), work.len(),
            )
        }
    }

    fn read(&self, text: &[u8], t: TablesToFill, answer: &mut [u32]) -> u32 {
        unsafe {
            c::battenplum_read(
                text.as_ptr(), text.len(),
                t.rules.as_mut_ptr(), t.rules.len(),
                t.literals.as_mut_ptr(), t.literals.len(),
                t.clauses.as_mut_ptr(), t.clauses.len(),
                t.loads.as_mut_ptr(), t.loads.len(),
                t.load_literals.as_mut_ptr(), t.load_literals.len(),
                t.minutes.as_mut_ptr(), t.minutes.len(),
                t.marks.as_mut_ptr(), t.marks.len(),
                t.values.as_mut_ptr(), t.values.len(),
                t.levels.as_mut_ptr(), t.levels.len(),
                answer.as_mut_ptr(), answer.len(),
            )
        }
    }

    fn write(&self, t: Tables, values: &[u8], levels: &[u16], text: &mut [u8]) -> u64 {
        unsafe {
            c::battenplum_write(
                t.n,
                t.rules.as_ptr(), t.rules.len(),
                t.literals.as_ptr(), t.literals.len(),
                t.clauses.as_ptr(), t.clauses.len(),
                t.loads.as_ptr(), t.loads.len(),
                t.load_literals.as_ptr(), t.load_literals.len(),
                t.minutes.as_ptr(), t.minutes.len(),
                t.marks.as_ptr(), t.marks.len(),
                values.as_ptr(), values.len(),
                levels.as_ptr(), levels.len(),
                text.as_mut_ptr(), text.len(),
            )
        }
    }

    fn index(&self, t: Tables, starts: &mut [u16], entries: &mut [u16]) -> u32 {
        unsafe {
            c::battenplum_index(
                t.n,
                t.rules.as_ptr(), t.rules.len(),
                t.literals.as_ptr(), t.literals.len(),
                t.clauses.as_ptr(), t.clauses.len(),
                t.loads.as_ptr(), t.loads.len(),
                t.load_literals.as_ptr(), t.load_literals.len(),
                t.minutes.as_ptr(), t.minutes.len(),
                t.marks.as_ptr(), t.marks.len(),
                starts.as_mut_ptr(), starts.len(),
                entries.as_mut_ptr(), entries.len(),
            )
        }
    }
    fn evaluate_indexed(&self, t: Tables, open_values: &[u8], s: FollowingSlices) -> u64 {
        unsafe {
            c::battenplum_evaluate_indexed(
                t.n,
                t.rules.as_ptr(), t.rules.len(),
                t.literals.as_ptr(), t.literals.len(),
                t.clauses.as_ptr(), t.clauses.len(),
                t.loads.as_ptr(), t.loads.len(),
                t.load_literals.as_ptr(), t.load_literals.len(),
                t.minutes.as_ptr(), t.minutes.len(),
                t.marks.as_ptr(), t.marks.len(),
                open_values.as_ptr(), open_values.len(),
                s.values.as_mut_ptr(), s.values.len(),
                s.levels.as_mut_ptr(), s.levels.len(),
                s.work.as_mut_ptr(), s.work.len(),
                s.starts.as_mut_ptr(), s.starts.len(),
                s.entries.as_mut_ptr(), s.entries.len(),
                s.counts.as_mut_ptr(), s.counts.len(),
            )
        }
    }
}
