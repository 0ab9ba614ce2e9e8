//! All slices that are lent to one call, each inside its own buffer.

use super::{buffer::Buffer, case::Case};
use crate::random::Random;
use crate::{
    book::{Book, Lengths},
    calls::{FollowingSlices, Tables, TablesToFill},
};

/// The seven tables of a book.
#[derive(Clone, PartialEq)]
pub struct TableBuffers {
    pub rules: Buffer<u16>,
    pub literals: Buffer<u16>,
    pub clauses: Buffer<u16>,
    pub loads: Buffer<i32>,
    pub load_literals: Buffer<u16>,
    pub minutes: Buffer<i16>,
    pub marks: Buffer<u8>,
}

impl TableBuffers {
    fn none() -> TableBuffers {
        TableBuffers {
            rules: Buffer::none(),
            literals: Buffer::none(),
            clauses: Buffer::none(),
            loads: Buffer::none(),
            load_literals: Buffer::none(),
            minutes: Buffer::none(),
            marks: Buffer::none(),
        }
    }

    fn holding(book: &Book, random: &mut Random) -> TableBuffers {
        TableBuffers {
            rules: Buffer::holding(&book.rules, random),
            literals: Buffer::holding(&book.literals, random),
            clauses: Buffer::holding(&book.clauses, random),
            loads: Buffer::holding(&book.loads, random),
            load_literals: Buffer::holding(&book.load_literals, random),
            minutes: Buffer::holding(&book.minutes, random),
            marks: Buffer::holding(&book.marks, random),
        }
    }

    fn arbitrary(lent: &Lengths, random: &mut Random) -> TableBuffers {
        TableBuffers {
            rules: Buffer::arbitrary(lent.rules, random),
            literals: Buffer::arbitrary(lent.literals, random),
            clauses: Buffer::arbitrary(lent.clauses, random),
            loads: Buffer::arbitrary(lent.loads, random),
            load_literals: Buffer::arbitrary(lent.load_literals, random),
            minutes: Buffer::arbitrary(lent.minutes, random),
            marks: Buffer::arbitrary(lent.marks, random),
        }
    }

    pub fn to_read(&self, n: usize) -> Tables<'_> {
        Tables {
            n,
            rules: self.rules.lent(),
            literals: self.literals.lent(),
            clauses: self.clauses.lent(),
            loads: self.loads.lent(),
            load_literals: self.load_literals.lent(),
            minutes: self.minutes.lent(),
            marks: self.marks.lent(),
        }
    }

    /// Puts the tables of a book at the front of the lent ones.
    pub fn write(&mut self, book: &Book) {
        self.rules.write(&book.rules);
        self.literals.write(&book.literals);
        self.clauses.write(&book.clauses);
        self.loads.write(&book.loads);
        self.load_literals.write(&book.load_literals);
        self.minutes.write(&book.minutes);
        self.marks.write(&book.marks);
    }

    fn differences(&self, found: &TableBuffers) -> [(&'static str, Option<String>); 7] {
        [
            ("rules", self.rules.first_difference(&found.rules)),
            ("literals", self.literals.first_difference(&found.literals)),
            ("clauses", self.clauses.first_difference(&found.clauses)),
            ("loads", self.loads.first_difference(&found.loads)),
            ("load literals", self.load_literals.first_difference(&found.load_literals)),
            ("minutes", self.minutes.first_difference(&found.minutes)),
            ("marks", self.marks.first_difference(&found.marks)),
        ]
    }
}

/// A slice that the call does not have is empty here, and has no guard entries.
#[derive(Clone, PartialEq)]
pub struct Lending {
    pub text: Buffer<u8>,
    pub tables: TableBuffers,
    pub open_values: Buffer<u8>,
    pub values: Buffer<u8>,
    pub levels: Buffer<u16>,
    pub work: Buffer<u16>,
    pub answer: Buffer<u32>,
    pub page: Buffer<u8>,
    pub starts: Buffer<u16>,
    pub entries: Buffer<u16>,
    pub counts: Buffer<u16>,
}

impl Lending {
    /// What is lent before the call. Slices to be written, and whatever stands beside a slice, hold what `noise` gives.
    pub fn of(case: &Case, noise: u64) -> Lending {
        let random = &mut Random::new(noise);
        let nothing = Lending::nothing();
        match case {
            Case::Verdict { text } | Case::Program { text } => Lending { text: Buffer::holding(text, random), ..nothing },
            Case::Report { text, page } => {
                Lending { text: Buffer::holding(text, random), page: Buffer::arbitrary(*page, random), ..nothing }
            }
            Case::Read { text, lent, answer } => Lending {
                text: Buffer::holding(text, random),
                tables: TableBuffers::arbitrary(lent, random),
                values: Buffer::arbitrary(lent.values, random),
                levels: Buffer::arbitrary(lent.levels, random),
                answer: Buffer::arbitrary(*answer, random),
                ..nothing
            },
            Case::Check { book, values, levels } => Lending {
                tables: TableBuffers::holding(book, random),
                values: Buffer::holding(values, random),
                levels: Buffer::holding(levels, random),
                ..nothing
            },
            Case::Evaluate { book, open_values, written } => Lending {
                tables: TableBuffers::holding(book, random),
                open_values: Buffer::holding(open_values, random),
                values: Buffer::arbitrary(written.values, random),
                levels: Buffer::arbitrary(written.levels, random),
                work: Buffer::arbitrary(written.work, random),
                ..nothing
            },
            Case::Write { book, values, levels, room } => Lending {
                text: Buffer::arbitrary(*room, random),
                tables: TableBuffers::holding(book, random),
                values: Buffer::holding(values, random),
                levels: Buffer::holding(levels, random),
                ..nothing
            },
            Case::Index { book, starts, entries } => Lending {
                tables: TableBuffers::holding(book, random),
                starts: Buffer::arbitrary(*starts, random),
                entries: Buffer::arbitrary(*entries, random),
                ..nothing
            },
            // In the order of the plain maker's slices, so that with the same noise these hold the same.
            Case::EvaluateIndexed { book, open_values, lent } => Lending {
                tables: TableBuffers::holding(book, random),
                open_values: Buffer::holding(open_values, random),
                values: Buffer::arbitrary(lent.values, random),
                levels: Buffer::arbitrary(lent.levels, random),
                work: Buffer::arbitrary(lent.work, random),
                starts: Buffer::arbitrary(lent.starts, random),
                entries: Buffer::arbitrary(lent.entries, random),
                counts: Buffer::arbitrary(lent.counts, random),
                ..nothing
            },
        }
    }

    fn nothing() -> Lending {
        Lending {
            text: Buffer::none(),
            tables: TableBuffers::none(),
            open_values: Buffer::none(),
            values: Buffer::none(),
            levels: Buffer::none(),
            work: Buffer::none(),
            answer: Buffer::none(),
            page: Buffer::none(),
            starts: Buffer::none(),
            entries: Buffer::none(),
            counts: Buffer::none(),
        }
    }

    /// The text, the tables to be filled from it and the answer, of a reading.
    pub fn to_fill(&mut self) -> (&[u8], TablesToFill<'_>, &mut [u32]) {
        let tables = TablesToFill {
            rules: self.tables.rules.lent_mut(),
            literals: self.tables.literals.lent_mut(),
            clauses: self.tables.clauses.lent_mut(),
            loads: self.tables.loads.lent_mut(),
            load_literals: self.tables.load_literals.lent_mut(),
            minutes: self.tables.minutes.lent_mut(),
            marks: self.tables.marks.lent_mut(),
            values: self.values.lent_mut(),
            levels: self.levels.lent_mut(),
        };
        (self.text.lent(), tables, self.answer.lent_mut())
    }

    /// The tables, the open values and the slices to be written, of an evaluation that follows the index.
    pub fn to_follow(&mut self, n: usize) -> (Tables<'_>, &[u8], FollowingSlices<'_>) {
        let slices = FollowingSlices {
            values: self.values.lent_mut(),
            levels: self.levels.lent_mut(),
            work: self.work.lent_mut(),
            starts: self.starts.lent_mut(),
            entries: self.entries.lent_mut(),
            counts: self.counts.lent_mut(),
        };
        (self.tables.to_read(n), self.open_values.lent(), slices)
    }

    /// The first slice whose buffer differs, and where.
    pub fn first_difference(&self, found: &Lending) -> Option<String> {
        let others = [
            ("text", self.text.first_difference(&found.text)),
            ("open values", self.open_values.first_difference(&found.open_values)),
            ("answer", self.answer.first_difference(&found.answer)),
            ("page", self.page.first_difference(&found.page)),
            ("starts", self.starts.first_difference(&found.starts)),
            ("entries", self.entries.first_difference(&found.entries)),
            ("counts", self.counts.first_difference(&found.counts)),
        ];
        let all = self.tables.differences(&found.tables).into_iter().chain(self.of_both_makers(found)).chain(others);
        shown(all)
    }

    /// The first of the slices that both makers write, the plain one and the other, whose buffer differs, and where.
    pub fn first_difference_of_makers(&self, found: &Lending) -> Option<String> {
        shown(self.of_both_makers(found))
    }

    fn of_both_makers(&self, found: &Lending) -> [(&'static str, Option<String>); 3] {
        [
            ("values", self.values.first_difference(&found.values)),
            ("levels", self.levels.first_difference(&found.levels)),
            ("work", self.work.first_difference(&found.work)),
        ]
    }
}

/// The first of these slices that has a difference.
fn shown(differences: impl IntoIterator<Item = (&'static str, Option<String>)>) -> Option<String> {
    differences.into_iter().find_map(|(name, difference)| difference.map(|place| format!("{name}{place}")))
}
