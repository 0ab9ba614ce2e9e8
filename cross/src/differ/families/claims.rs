//! Claims that the maker made, then damaged in one place: a value, a level, or two of them swapped.

use crate::{
    book::{Book, Claim},
    differ::{
        books::{add_conditions, definition, Marking, Shape},
        case::Case,
        claims::{level_changed, stretched, swapped, value_changed},
        session::{Compared, Session},
        settings,
    },
};

pub fn compare_all(session: &mut Session, marking: Marking) -> Compared {
    for round in 0..session.count {
        let random = &mut session.random;
        let n = 1 + random.pick(&[1, 2, 4, 8, 8, 8, 30, 30, 100]);
        let shape = Shape::ALL[round % Shape::ALL.len()];
        let mut forms = definition(random, shape, n);
        marking.declare(random, &mut forms);
        add_conditions(random, &mut forms, 3, 2);
        let setting = settings::some(random, &forms.defined());
        let book = forms.book();
        let made = session.solver.evaluate(&book, &setting, n, n, n);
        if let Some(claim) = made.written {
            compare_damaged(session, &book, &claim)?;
        }
    }
    Ok(())
}

fn compare_damaged(session: &mut Session, book: &Book, claim: &Claim) -> Compared {
    compare_claim(session, book, claim)?;
    for atom in 0..book.n.min(8) {
        for damage in [value_changed, level_changed, swapped] {
            let damaged = damage(&mut session.random, claim, atom);
            compare_claim(session, book, &damaged)?;
        }
    }
    let stretched = stretched(&mut session.random, claim);
    compare_claim(session, book, &stretched)
}

fn compare_claim(session: &mut Session, book: &Book, claim: &Claim) -> Compared {
    session.compare(Case::check(book, &claim.values, &claim.levels))
}
